#!/usr/bin/env python3
"""Compares `decide` with `plain` on random systems with groups, at the depths 0 to 3: decide_random.py [SEED [COUNT]]

The systems are those of bench/programs/decide_random.txt, ten thousand if not said otherwise. Where `plain` refutes or finds a point
`decide` has to do so, with the same point; where it is a gap, `decide` may refute by other cuts. It prints how often each came, and ends
with the status 1 where one is wrong."""
import pathlib
import shutil
import subprocess
import sys
import tempfile

import library


def main() -> None:
    seed, count = (sys.argv[1:] + ["1", "10000"][len(sys.argv) - 1:])[:2]
    with tempfile.TemporaryDirectory() as folder:
        work = pathlib.Path(folder)
        shutil.copytree(library.TOP / "crates", work / "crates", ignore=shutil.ignore_patterns("out"))
        for each in ["crates.txt", "HANDLES"]:
            shutil.copy(library.TOP / each, work / each)
        program = library.build(work, "decide_random", "int_decide lin_rows")
        run = subprocess.run([program, seed, count], capture_output=True, text=True)
        print(run.stdout.strip())
        sys.exit(0 if run.returncode == 0 else 1)


if __name__ == "__main__":
    main()
