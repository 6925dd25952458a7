#!/usr/bin/env python3
"""Times `saturate` at doubled sizes, in one run, and prints the ratios: saturation.py [CASE..]

The automata are those of bench/programs/saturation.txt, over bounds of variables and of their differences: 2 to 400 predicates under ten
letters, 10 to 2,000 letters under ten predicates, and a call with its return under 2 to 32 predicates on each side, where triples have
two sources. For each the triples over the states, the edges, which are those that are proved, and the time for a triple are printed.
The time of an automaton without letters and predicates is taken away."""
import pathlib
import shutil
import sys
import tempfile

import library

CASES = {"predicates": [2, 6, 12, 25, 50, 100, 200, 400], "letters": [10, 25, 50, 125, 250, 500, 1000, 2000], "returns": [2, 4, 8, 16, 32]}


def main() -> None:
    with tempfile.TemporaryDirectory() as folder:
        work = pathlib.Path(folder)
        shutil.copytree(library.TOP / "crates", work / "crates", ignore=shutil.ignore_patterns("out"))
        for each in ["crates.txt", "HANDLES"]:
            shutil.copy(library.TOP / each, work / each)
        lines = (library.TOP / "bench" / "programs" / "saturation.txt").read_text().splitlines()
        program = library.build(work, "saturation", lines[0].removeprefix("// needs "))
        for case in sys.argv[1:] or CASES:
            empty, last = library.timed(program, case, 0)[0], None
            for size in CASES[case]:
                took, printed = library.timed(program, case, size)
                took = max(took - empty, 1e-6)
                triples = int(printed.split()[0])
                ratio = "" if last is None else f", {triples / last[0]:.2f} times the triples in {took / last[1]:.2f} times the time"
                print(f"{case} {size}: {took * 1000:.2f} ms, {printed}, {took / max(triples, 1) * 1e6:.2f} us each{ratio}", flush=True)
                last = triples, took


if __name__ == "__main__":
    main()
