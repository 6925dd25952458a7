#!/usr/bin/env python3
"""Times `rows_of` and `interpolants` along words of a hundred to a hundred thousand letters, in one run: interpolants.py [CASE..]

The words are those of bench/programs/interpolants.txt: through a loop, through calls one after another that return, through calls one
within the other that return, and through calls one within the other that do not. Each is refuted by one leaf, the loop and the returned
calls also by a chain of 64 cuts whose one side is refuted at once: from the last cut on, or in the long chains from the start on, where the
predicates have up to 129 nodes. In the cases whose names end in `found` Decide finds the leaf, and that is timed in place of `interpolants`.

The program is run up to each stage, and a stage takes what it takes more than the one before: the best of five, in processor time, since
other work may run beside. For each size the stages are told, how many times the letters and the time of the last stage are those of the
size before, and the most memory. A case ends where a run takes more than ten seconds."""
import os
import pathlib
import shutil
import subprocess
import sys
import tempfile

import library

HUNDREDS = [100, 500, 1000, 5000, 10000, 50000, 100000]
CASES = {
    "loop": HUNDREDS,
    "returned": [10, 50, 100, 500, 1000, 5000, 10000, 33333],
    "nested": [10, 50, 100, 500, 1000, 5000, 10000, 50000],
    "pending": [10, 50, *HUNDREDS],
    "loop_cuts": HUNDREDS,
    "loop_long_cuts": [100, 500, 1000, 5000, 10000, 20000],
    "returned_cuts": [10, 50, 100, 500, 1000, 5000, 10000],
    "returned_long_cuts": [10, 50, 100, 500, 1000, 5000],
    "loop_found": [100, 500, 1000, 5000, 10000],
    "returned_found": [10, 50, 100, 500, 1000],
    "nested_found": [10, 50, 100, 500, 1000],
    "pending_found": [10, 50, 100, 500, 1000],
}
STAGES = ["word", "rows", "refuted", "sums", "whole"]
MOST_SECONDS = 10


def run(program: str, case: str, size: int, stage: str) -> tuple[float, float, str]:
    """The processor time of a run, in seconds, the most memory, in mebibytes, and what it printed."""
    child = subprocess.Popen([program, case, str(size), stage], stdout=subprocess.PIPE, text=True)
    assert child.stdout is not None
    printed = child.stdout.read().strip()
    _, status, usage = os.wait4(child.pid, 0)
    child.returncode = os.waitstatus_to_exitcode(status)
    assert child.returncode == 0, (case, size, stage, child.returncode)
    return usage.ru_utime + usage.ru_stime, usage.ru_maxrss / 1024, printed


def best(program: str, case: str, size: int, stage: str) -> tuple[float, float, str]:
    """That of the fastest of five runs, or of fewer where these take long."""
    runs = [run(program, case, size, stage)]
    while len(runs) < 5 and sum(took for took, _, _ in runs) < MOST_SECONDS / 2:
        runs.append(run(program, case, size, stage))
    return min(runs)


def told(took: dict[str, float]) -> dict[str, float]:
    """What each part takes."""
    parts = {"rows": took["rows"] - took["word"], "refutation": took["refuted"] - took["rows"]}
    if "whole" in took:
        parts |= {"sums": took["sums"] - took["refuted"], "interpolants": took["whole"] - took["refuted"]}
    return {name: max(part, 1e-6) for name, part in parts.items()}


def report(program: str, cases: list[str]) -> None:
    for case in cases:
        last = None
        for size in CASES[case]:
            stages = STAGES[:3] if case.endswith("found") else STAGES
            runs = {stage: best(program, case, size, stage) for stage in stages}
            parts = told({stage: runs[stage][0] for stage in stages})
            made = list(parts.values())[-1]
            took, memory, printed = runs[stages[-1]]
            letters = int(printed.split()[0])
            ratio = "" if last is None else f", {letters / last[0]:.2f} times the letters in {made / last[1]:.2f} times the time"
            times = ", ".join(f"{name} {part * 1000:.1f} ms" for name, part in parts.items())
            print(f"{case} {size}: {printed}; {times}, {made / letters * 1e6:.1f} us a letter, {memory:.0f} MB{ratio}", flush=True)
            last = letters, made
            if took > MOST_SECONDS:
                break


def main() -> None:
    with tempfile.TemporaryDirectory() as folder:
        work = pathlib.Path(folder)
        shutil.copytree(library.TOP / "crates", work / "crates", ignore=shutil.ignore_patterns("out"))
        for each in ["crates.txt", "HANDLES"]:
            shutil.copy(library.TOP / each, work / each)
        lines = (library.TOP / "bench" / "programs" / "interpolants.txt").read_text().splitlines()
        program = library.build(work, "interpolants", lines[0].removeprefix("// needs "))
        report(program, sys.argv[1:] or list(CASES))


if __name__ == "__main__":
    main()
