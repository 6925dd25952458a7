#!/usr/bin/env python3
"""Tells what an earlier annotation saves: reuse.py FOLDER [PROGRAM [SECONDS]]

Each program FOLDER/*.bpl that is `safe` within so many seconds (10 where no number is given) is verified by one worker, then again with its own text
as OLD, and then each of its changed versions with that text and without: one with a local renamed, one with two assignments that stand one behind the
other exchanged, where they name no variable of each other, and one with the last number of an assignment one larger, where that is still `safe`. Each
`safe` text is checked. The rounds and the processor time of both, and the ratio of the times, are printed in a line each; at the end for each kind of
change how many programs took at most one round, the medians of the ratios, over all and over those that took more than 0.1 s before, and the largest.
The status is 1 where a verdict changes or a text is not accepted. It wants the proved program: cd crates/automizer && rt run"""
import pathlib
import re
import resource
import statistics
import subprocess
import sys
import tempfile

TOP = pathlib.Path(__file__).resolve().parent.parent
WORD = r"[A-Za-z_.$#'`~^?\\][A-Za-z0-9_.$#'`~^?\\]*"
KEYWORDS = {"var", "int", "bool", "old", "true", "false", "assume", "assert", "if", "else", "while", "invariant", "call", "havoc", "div", "mod"}


def called(words: list[str], limit: float) -> tuple[float, int | None, str]:
    """The processor seconds of a call, its status, none where it did not end, and what it printed."""
    before = resource.getrusage(resource.RUSAGE_CHILDREN)
    try:
        run = subprocess.run(words, capture_output=True, timeout=limit)
        status, text = run.returncode, run.stdout.decode()
    except subprocess.TimeoutExpired:
        status, text = None, ""
    after = resource.getrusage(resource.RUSAGE_CHILDREN)
    return after.ru_utime + after.ru_stime - before.ru_utime - before.ru_stime, status, text


def rounds(text: str) -> int:
    return int(text.split("\n")[1].removeprefix("rounds "))


def renamed(text: str) -> str | None:
    """The program with one local renamed, wherever the name stands."""
    found = re.search(rf"\{{\s*(?://[^\n]*\s*)*var\s+({WORD})\b", text)
    if found is None or re.search(r"\brenamed_local\b", text):
        return None
    return re.sub(rf"(?<![\w.$#'`~^?\\]){re.escape(found[1])}(?![\w.$#'`~^?\\])", "renamed_local", text)


def names(text: str) -> set[str]:
    return set(re.findall(WORD, text)) - KEYWORDS


def exchanged(text: str) -> str | None:
    """The program with two assignments exchanged that stand one behind the other and write what the other does not name."""
    for found in re.finditer(rf"\b({WORD}) := ([^;:]*);(\s+)({WORD}) := ([^;:]*);", text):
        first, value, space, second, other = found.groups()
        if first != second and first not in names(other) and second not in names(value):
            return text[: found.start()] + f"{second} := {other};{space}{first} := {value};" + text[found.end() :]
    return None


def larger(text: str) -> str | None:
    """The program with the last number of an assignment one larger."""
    found = list(re.finditer(rf"{WORD} := (?:[^;:]*[^\w])?(\d+);", text))
    if not found:
        return None
    return text[: found[-1].start(1)] + str(int(found[-1][1]) + 1) + text[found[-1].end(1) :]


CHANGES = {"unchanged": lambda text: text, "renamed": renamed, "exchanged": exchanged, "larger": larger}


def main() -> int:
    folder = pathlib.Path(sys.argv[1])
    program = sys.argv[2] if len(sys.argv) > 2 else str(TOP / "crates" / "automizer" / "out" / "automizer")
    limit = float(sys.argv[3]) if len(sys.argv) > 3 else 10.0
    wrong, kept = [], {kind: [] for kind in CHANGES}
    with tempfile.TemporaryDirectory() as work:
        path, old, text = (pathlib.Path(work) / name for name in ("p.bpl", "old", "text"))
        options = ["--workers", "1"]
        for source in sorted(folder.glob("*.bpl")):
            _, status, told = called([program, "verify", str(source), *options], limit)
            if status != 0:
                continue
            old.write_text(told)
            for kind, change in CHANGES.items():
                changed = change(source.read_text())
                if changed is None:
                    continue
                path.write_text(changed)
                before, status, told = called([program, "verify", str(path), *options], limit)
                if status != 0:
                    continue
                again, status, reused = called([program, "verify", str(path), *options, "--reuse", str(old)], 10 * limit)
                if status != 0:
                    wrong.append(f"{source.name} {kind}: status {status} with its text")
                    continue
                text.write_text(reused)
                if called([program, "check", str(path), str(text)], 10 * limit)[2] != "accepted\n":
                    wrong.append(f"{source.name} {kind}: the text is not accepted")
                ratio = again / max(before, 0.001)
                kept[kind].append((rounds(told), rounds(reused), before, ratio))
                print(f"{source.name} {kind}: rounds {rounds(told)} and {rounds(reused)}, {before:.3f} s and {again:.3f} s, ratio {ratio:.2f}", flush=True)
    for kind, rows in kept.items():
        if rows:
            few = sum(again <= 1 for _, again, _, _ in rows)
            slow = [ratio for _, _, before, ratio in rows if before > 0.1]
            told = f"{kind}: {few} of {len(rows)} take at most one round; ratio of the times: median {statistics.median(r for *_, r in rows):.2f}"
            print(told + (f", over {len(slow)} past 0.1 s {statistics.median(slow):.2f}" if slow else "") + f", largest {max(r for *_, r in rows):.2f}")
    for line in wrong:
        print(f"WRONG: {line}")
    return bool(wrong)


if __name__ == "__main__":
    sys.exit(main())
