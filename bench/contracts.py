#!/usr/bin/env python3
"""Has Boogie verify what `explain` prints: contracts.py FOLDER [SECONDS]

Each program PROGRAM.bpl of the folder is verified by `automizer`, with a limit of so many seconds; a `safe` one is explained. Boogie, without
inference of its own, verifies each procedure of the text by its contract, as it stands; and `automizer` reads the text again, verifies it whole, and
by parts. For each program is printed how many procedures Boogie verifies, which not and what it says of the first of these, and what `automizer`
answers; at the end how many procedures and how many whole programs Boogie verifies. The commands `boogie` and `z3` are wanted, as the Debian packages
of these names give them. The status is 1 where a safe program is not explained, a text is not in canonical form, or one is `unsafe`; a text may be too
large to be lowered, or not be solved in time."""
import argparse
import pathlib
import re
import shutil
import sys
import tempfile

from verify import PROGRAM, TOP, Took

EXPLAIN = TOP / "crates" / "explain" / "out" / "explain"
# What Boogie says of a procedure, with /trace.
VERIFIED = re.compile(r"^Verifying (\S+) \.\.\.\n(?:(?!Verifying ).*\n)*?\s*\[[^\]]*\]\s+(\w+)", re.M)
ERROR = re.compile(r"\((\d+),\d+\): Error (?:BP\d+: )?(.*)")


class Verified:
    """What Boogie says of the procedures of a text."""

    def __init__(self, command: str, path: pathlib.Path, limit: float) -> None:
        took = Took([command, "/noinfer", "/trace", str(path)], limit)
        said = took.text.decode(errors="replace")
        self.all = VERIFIED.findall(said)
        self.failing = [name for name, end in self.all if end != "verified"]
        self.read = took.status is not None and "Boogie program verifier finished" in said
        error = ERROR.search(said)
        self.why = f"line {error[1]}: {error[2]}" if error else "time" if took.status is None else said.strip().split("\n")[-1]

    def whole(self) -> bool:
        return self.read and not self.failing

    def line(self) -> str:
        if not self.read:
            return f"Boogie does not end or read it ({self.why})"
        failing = f", not {' '.join(self.failing)} ({self.why})" if self.failing else ""
        return f"Boogie verifies {len(self.all) - len(self.failing)} of {len(self.all)}{failing}"


def first_line(words: list[str], limit: float) -> str:
    took = Took(words, limit)
    return "time" if took.status is None else took.text.decode().split("\n")[0] or f"status {took.status}"


def main() -> None:
    parser = argparse.ArgumentParser(description=__doc__)
    parser.add_argument("folder", type=pathlib.Path)
    parser.add_argument("seconds", type=float, nargs="?", default=60.0)
    parser.add_argument("--program", default=str(PROGRAM), help="the program automizer, where it is not the proved one")
    parser.add_argument("--explain", default=str(EXPLAIN), help="the program explain, where it is not the proved one")
    parser.add_argument("--keep", type=pathlib.Path, help="a folder for the texts")
    given = parser.parse_args()
    boogie = shutil.which("boogie") or sys.exit("Boogie is not installed (no command `boogie`)")
    for program in (given.program, given.explain):
        if not pathlib.Path(program).exists():
            sys.exit(f"{program} is not there: build it, cd crates/NAME && rt run")
    safe, wrong, whole, procedures, verified = 0, 0, 0, 0, 0
    with tempfile.TemporaryDirectory() as folder:
        kept = given.keep or pathlib.Path(folder)
        for path in sorted(given.folder.glob("*.bpl")):
            took = Took([given.program, "verify", str(path), "--workers", "1"], given.seconds)
            if took.status != 0:
                continue
            safe += 1
            proof, text = pathlib.Path(folder) / "proof", kept / f"{path.stem}.explained.bpl"
            proof.write_bytes(took.text)
            told = Took([given.explain, str(path), str(proof)], given.seconds)
            if told.status != 0:
                print(f"{path.stem}: WRONG, it is not explained: status {told.status}, {told.text.decode()[:80]}", flush=True)
                wrong += 1
                continue
            text.write_bytes(told.text)
            by_boogie = Verified(boogie, text, given.seconds)
            printed = Took([given.program, "print", str(text)], given.seconds)
            again = first_line([given.program, "verify", str(text), "--workers", "1"], given.seconds)
            parts = first_line([given.program, "verify", str(text), "--workers", "1", "--modular"], given.seconds)
            whole += by_boogie.whole()
            procedures, verified = procedures + len(by_boogie.all), verified + len(by_boogie.all) - len(by_boogie.failing)
            odd = " WRONG, it is not in canonical form" if printed.text != told.text else " WRONG" if again.startswith(("unsafe", "refused Syntax")) else ""
            wrong += bool(odd)
            lines = told.text.count(b"\n")
            print(f"{path.stem}: {lines} lines{odd}; {by_boogie.line()}; again {again}, by parts {parts}", flush=True)
    print(f"of {safe} safe programs Boogie verifies {whole} whole, and {verified} of {procedures} procedures; {wrong} wrong")
    sys.exit(1 if wrong else 0)


if __name__ == "__main__":
    main()
