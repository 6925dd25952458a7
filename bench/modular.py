#!/usr/bin/env python3
"""Times `verify` by parts beside `verify` of the whole program, over programs with contracts and on a chain: modular.py FOLDER [SECONDS]

Of the folder those programs are taken that have a contract or an invariant; with `--all`, every one. Each PROGRAM.bpl is verified whole and by
parts (`--modular`), with a limit of so many seconds; a `safe` text is then checked and an `unsafe` one replayed by the same program, in the same
way. For each both verdicts, the part that is not safe, the rounds of each part and the times on the clock are printed, the quickest of several
calls, made alternately. Where Boogie is installed (the command `boogie`), it verifies the same program in the same run. It takes each call by its
contract, as parts do, and each loop by its invariants, so a loop without invariants may be safe by parts and is not by Boogie.

Then a chain of procedures with contracts is verified by parts, by one worker, beside `big` of the same length: both times, on the clock and on the
processors, and their ratios, the quickest of several calls, made alternately. The status is 1 where a verdict is wrong or is not confirmed, or
where a program is safe by parts and not as a whole."""
import argparse
import pathlib
import re
import shutil
import sys
import tempfile

from verify import PROGRAM, Took, expected

# How long the chain is: the longest of `big`.
CHAIN = 200
# How often each call on the chain is made.
RUNS = 5
CONTRACT = re.compile(r"\b(requires|ensures|invariant)\b")


class Answer:
    """What `verify` answered, in how many seconds, and whether that was confirmed."""

    def __init__(self, program: str, path: pathlib.Path, options: list[str], limit: float, kept: pathlib.Path) -> None:
        took = Took([program, "verify", str(path), *options], limit)
        self.seconds, self.status = took.clock, took.status
        lines = took.text.decode().split("\n")
        self.verdict = {0: "safe", 1: "unsafe", 2: "unknown", 3: lines[0], None: "time"}.get(took.status, f"status {took.status}")
        self.rounds = [line.removeprefix("rounds ") for line in lines if line.startswith("rounds ")]
        self.part = lines[0].removeprefix("part ") if lines[0].startswith("part ") else ""
        self.wrong = took.status not in (0, 1, 2, 3, None)
        if took.status in (0, 1):
            kept.write_bytes(took.text)
            mode = "check" if took.status == 0 else "replay"
            again = Took([program, mode, str(path), str(kept), *options], 10 * limit)
            self.wrong = again.status != 0

    def line(self) -> str:
        part = f" ({self.part})" if self.part else ""
        wrong = " WRONG" if self.wrong else ""
        rounds = f", rounds {' '.join(self.rounds)}" if self.rounds else ""
        return f"{self.verdict}{part}{wrong}{rounds}, {self.seconds * 1000:.0f} ms"


def boogie(command: str, path: pathlib.Path, limit: float) -> str:
    """What Boogie answers of a program, and in how many seconds."""
    took = Took([command, str(path)], limit)
    found = re.search(r"(\d+) verified, (\d+) error", took.text.decode(errors="replace"))
    if took.status is None:
        said = "time"
    elif not found:
        said = f"status {took.status}"
    else:
        said = "verified" if found[2] == "0" else f"{found[2]} not verified"
    return f"{said}, {took.clock * 1000:.0f} ms"


def answers(program: str, path: pathlib.Path, options: list[str], limit: float, repeat: int, work: pathlib.Path) -> list[Answer]:
    """The quickest answers on a program, as a whole and by parts, of several calls each, made alternately."""
    ways, quickest = [options, [*options, "--modular"]], []
    found = [[Answer(program, path, way, limit, work / "verdict") for way in ways] for _ in range(repeat)]
    for same_way in zip(*found):
        best = min(same_way, key=lambda answer: answer.seconds)
        best.wrong = any(answer.wrong for answer in same_way)
        quickest.append(best)
    return quickest


def compare(program: str, paths: list[pathlib.Path], options: list[str], limit: float, repeat: int, work: pathlib.Path) -> int:
    """Verifies each program whole and by parts. How many answers are wrong."""
    command, wrong, both, whole_time, parts_time = shutil.which("boogie"), 0, 0, 0.0, 0.0
    if not command:
        print("Boogie is not installed (no command `boogie`): its answers are left out")
    for path in paths:
        whole, parts = answers(program, path, options, limit, repeat, work)
        beside = f"; boogie {boogie(command, path, limit)}" if command else ""
        print(f"{path.stem}: whole {whole.line()}; by parts {parts.line()}{beside}", flush=True)
        known = expected(path)
        if whole.status in (0, 1) and known not in ("", whole.verdict):
            print(f"{path.stem}: WRONG, it is {known}")
            wrong += 1
        if parts.status == 0 and "unsafe" in (known, whole.verdict):
            print(f"{path.stem}: WRONG, each part is safe and the whole is not")
            wrong += 1
        wrong += whole.wrong + parts.wrong
        if whole.status == 0 and parts.status == 0:
            both, whole_time, parts_time = both + 1, whole_time + whole.seconds, parts_time + parts.seconds
    print(f"{both} of {len(paths)} are safe both ways: whole {whole_time:.2f} s, by parts {parts_time:.2f} s")
    return wrong


def chain(length: int) -> str:
    """The program of `big` with contracts: `main`, and so many procedures, each of which adds 1 to a global, calls the next one and asserts a bound."""
    text = ["var g: int;\n", "procedure main() modifies g; { g := 0; call p1(); }\n"]
    for number in range(1, length + 1):
        following = f" call p{number + 1}();" if number < length else ""
        contract = f"requires g >= {number - 1}; modifies g; ensures g >= {number};"
        text.append(f"procedure p{number}() {contract} {{ g := g + 1;{following} assert g >= {number}; }}\n")
    return "".join(text)


def timed(words: list[str], begins: bytes) -> Took:
    """A call that answers so."""
    took = Took(words, 600)
    if took.status != 0 or not took.text.startswith(begins):
        sys.exit(f"{' '.join(words)} is not safe: {took.text[:80]!r}")
    return took


def compare_chain(program: str, length: int, work: pathlib.Path) -> None:
    """Verifies a chain with contracts by parts, beside `big` of its length."""
    path, one, parts, big = work / "chain.bpl", ["--workers", "1"], [], []
    path.write_text(chain(length), encoding="ascii")
    for _ in range(RUNS):
        parts.append(timed([program, "verify", str(path), "--modular", *one], b"modular %d\n" % (length + 1)))
        big.append(timed([program, "big", str(length), *one], b"big %d\nsafe\n" % length))
    for name in ("clock", "processors"):
        by_parts, whole = (min(getattr(took, name) for took in found) for found in (parts, big))
        print(f"a chain of {length} with contracts by parts {by_parts:.2f} s, big {length} {whole:.2f} s, ratio {by_parts / whole:.2f}, on the {name}")


def main() -> None:
    parser = argparse.ArgumentParser(description=__doc__)
    parser.add_argument("folder", type=pathlib.Path)
    parser.add_argument("seconds", type=float, nargs="?", default=10.0)
    parser.add_argument("--all", action="store_true", help="take programs without contracts and invariants, too")
    parser.add_argument("--workers", default="", help="how many workers verify the programs of the folder")
    parser.add_argument("--repeat", type=int, default=1, help="how often each call on them is made; the quickest counts")
    parser.add_argument("--chain", type=int, default=CHAIN, help="how many procedures the chain has, from 1 to 200")
    parser.add_argument("--program", default=str(PROGRAM), help="the program, where it is not the proved one")
    given = parser.parse_args()
    if not pathlib.Path(given.program).exists():
        sys.exit("the proved program is not built: cd crates/automizer && rt run")
    options = ["--workers", given.workers] if given.workers else []
    paths = [path for path in sorted(given.folder.glob("*.bpl")) if given.all or CONTRACT.search(path.read_text())]
    with tempfile.TemporaryDirectory() as folder:
        wrong = compare(given.program, paths, options, given.seconds, given.repeat, pathlib.Path(folder))
        compare_chain(given.program, given.chain, pathlib.Path(folder))
    print(f"{wrong} wrong")
    sys.exit(1 if wrong else 0)


if __name__ == "__main__":
    main()
