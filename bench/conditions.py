#!/usr/bin/env python3
"""Times the lists of conditions at doubled sizes, in one run, and prints the ratios: conditions.py

The conditions are those of bench/programs/conditions.txt. Of N comparisons joined by `&&` the list where all hold has one
member of N rows, and the list where one does not has N members of 1 to N rows, which is quadratic; so it is of `||` the
other way round. Sums have N columns, of as many in the frame. `true <==> (true <==> ..)` is N deep, and its lists stay short.
All times are those of whole processes, the best of five runs, less that of an empty piece of work."""
import pathlib
import shutil
import tempfile

import library

CASES = {"all": (4, 4096), "none": (4, 4096), "some": (4, 4096), "one_false": (4, 4096), "sums": (125, 2000), "alike": (10, 320)}


def main() -> None:
    with tempfile.TemporaryDirectory() as folder:
        work = pathlib.Path(folder)
        shutil.copytree(library.TOP / "crates", work / "crates", ignore=shutil.ignore_patterns("out"))
        for each in ["crates.txt", "HANDLES"]:
            shutil.copy(library.TOP / each, work / each)
        program = library.build(work, "conditions", "boogie_tree cond_jumps letter_acts typed_tree")
        for case, (first, most) in CASES.items():
            empty, last, size = library.timed(program, case, 0)[0], None, first
            while size <= most:
                took, printed = library.timed(program, case, size)
                took = max(took - empty, 1e-6)
                ratio = "" if last is None else f", {took / last:.2f} times the half"
                print(f"{case} {size}: {took * 1000:.2f} ms, {printed}{ratio}", flush=True)
                last, size = took, size * 2


if __name__ == "__main__":
    main()
