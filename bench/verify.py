#!/usr/bin/env python3
"""Times `verify` over the programs of a folder, and has each verdict confirmed.

Each program PROGRAM.bpl is verified with a limit of so many seconds; a `safe` text is then checked and an `unsafe` one replayed by the same
program. A first line `// expected: safe` or `// expected: unsafe` says what is right. For each program the verdict, the rounds, the time of
`verify` on the clock and that of the processors, and the time of the second call are printed, and at the end how many were solved. With
several numbers of workers each program is verified with all of them, one after another, and the times are compared with those of the first
number: the sums over the slowest third, and which programs lose more than a tenth. With another program, an earlier build as a rule, each
program is verified by that too, with the same options, and the bytes of the safe texts of both are printed, and their sums. The status is 1
where a verdict is wrong or is not confirmed."""
import argparse
import pathlib
import re
import resource
import subprocess
import sys
import tempfile
import time

TOP = pathlib.Path(__file__).resolve().parent.parent
PROGRAM = TOP / "crates" / "automizer" / "out" / "automizer"


class Took:
    """How long a call took on the clock and the processors, its status, none where it did not end, and what it printed."""

    def __init__(self, words: list[str], limit: float) -> None:
        begin, before = time.perf_counter(), resource.getrusage(resource.RUSAGE_CHILDREN)
        try:
            run = subprocess.run(words, capture_output=True, timeout=limit)
            self.status, self.text = run.returncode, run.stdout
        except subprocess.TimeoutExpired:
            self.status, self.text = None, b""
        after = resource.getrusage(resource.RUSAGE_CHILDREN)
        self.clock = time.perf_counter() - begin
        self.processors = after.ru_utime + after.ru_stime - before.ru_utime - before.ru_stime


class Verified:
    """The quickest of several calls of `verify` on a program with the same options, and what came of it. A verdict of each is confirmed."""

    def __init__(self, program: str, path: pathlib.Path, options: list[str], limit: float, repeat: int, kept: pathlib.Path) -> None:
        self.confirm, self.rounds, self.wrong, self.best = 0.0, [], False, None
        for _ in range(repeat):
            took = Took([program, "verify", str(path), *options], limit)
            lines = took.text.decode().split("\n")
            verdict = lines[0] if took.status in (0, 1, 2) else "time" if took.status is None else f"status {took.status}"
            self.rounds.append(lines[1].removeprefix("rounds ") if took.status in (0, 1, 2) else "-")
            if took.status in (0, 1):
                kept.write_bytes(took.text)
                again = Took([program, "check" if took.status == 0 else "replay", str(path), str(kept)], 10 * limit)
                self.confirm = again.clock
                if again.status != 0 or expected(path) not in ("", verdict):
                    self.wrong = True
            if self.best is None or took.clock < self.best.clock:
                self.best, self.verdict = took, verdict

    def solved(self) -> bool:
        return self.best.status in (0, 1) and not self.wrong

    def line(self) -> str:
        wrong = " WRONG" if self.wrong else ""
        times = f"{self.best.clock * 1000:.0f} ms, {self.best.processors * 1000:.0f} ms of processors"
        return f"{self.verdict}{wrong}, rounds {' '.join(self.rounds)}, {times}, confirmed in {self.confirm * 1000:.0f} ms, {len(self.best.text)} bytes"


def before(program: str, path: pathlib.Path, options: list[str], limit: float) -> int:
    """How many bytes the safe text of another program has, 0 where it finds no such verdict."""
    took = Took([program, "verify", str(path), *options], limit)
    return len(took.text) if took.status == 0 else 0


def expected(path: pathlib.Path) -> str:
    found = re.match(r"// expected: (\w+)", path.read_text())
    return found[1] if found else ""


def compare(workers: list[str], table: dict[str, list[Verified]]) -> None:
    """How the times of each number of workers are to those of the first, over the programs that both solved."""
    for place in range(1, len(workers)):
        both = [(found[0].best, found[place].best, name) for name, found in table.items() if found[0].solved() and found[place].solved()]
        both.sort(key=lambda times: times[0].clock, reverse=True)
        slowest = both[: max(1, len(both) // 3)]
        sums = [sum(getattr(times[side], kind) for times in slowest) for kind in ("clock", "processors") for side in (0, 1)]
        print(f"workers {workers[place]} against {workers[0]}: the slowest {len(slowest)} of {len(both)} took {sums[1]:.2f} s against {sums[0]:.2f} s, {sums[3]:.2f} s of processors against {sums[2]:.2f} s")
        lost = [name for one, many, name in both if many.clock > 1.1 * one.clock]
        print(f"workers {workers[place]}: {len(lost)} lose more than a tenth: {' '.join(lost)}")


def main() -> None:
    parser = argparse.ArgumentParser(description=__doc__)
    parser.add_argument("folder", type=pathlib.Path)
    parser.add_argument("seconds", type=float, nargs="?", default=10.0)
    parser.add_argument("--workers", default="", help="numbers of workers, as 1,2,4; none is given to the program where there is no list")
    parser.add_argument("--repeat", type=int, default=1, help="how often each call is made; the quickest counts")
    parser.add_argument("--program", default=str(PROGRAM), help="the program, where it is not the proved one")
    parser.add_argument("--before", default="", help="another program, with which the bytes of the safe texts are compared")
    given = parser.parse_args()
    if not pathlib.Path(given.program).exists():
        sys.exit("the proved program is not built: cd crates/automizer && rt run")
    workers = given.workers.split(",") if given.workers else [""]
    paths, table, bytes_before, bytes_now = sorted(given.folder.glob("*.bpl")), {}, 0, 0
    with tempfile.TemporaryDirectory() as folder:
        kept = pathlib.Path(folder) / "verdict"
        for path in paths:
            table[path.stem] = []
            for number in workers:
                options = ["--workers", number] if number else []
                found = Verified(given.program, path, options, given.seconds, given.repeat, kept)
                table[path.stem].append(found)
                compared = ""
                if given.before and found.best.status == 0:
                    earlier = before(given.before, path, options, given.seconds)
                    compared = f", {earlier} before"
                    if earlier:
                        bytes_before, bytes_now = bytes_before + earlier, bytes_now + len(found.best.text)
                print(f"{path.stem}: {'workers ' + number + ': ' if number else ''}{found.line()}{compared}", flush=True)
    for place, number in enumerate(workers):
        solved = sum(found[place].solved() for found in table.values())
        print(f"{'workers ' + number + ': ' if number else ''}{solved} of {len(paths)} solved within {given.seconds:g} s each")
    compare(workers, table)
    if given.before:
        print(f"the safe texts that both wrote have {bytes_now} bytes, and had {bytes_before} before")
    wrong = sum(found.wrong for all_found in table.values() for found in all_found)
    print(f"{wrong} wrong")
    sys.exit(1 if wrong else 0)


if __name__ == "__main__":
    main()
