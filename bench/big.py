#!/usr/bin/env python3
"""Times `big` on chains of doubled lengths by one and by four workers, in one run, and prints the ratios: big.py [PROGRAM]

It wants the proved program: cd crates/automizer && rt run"""
import pathlib
import subprocess
import sys
import time

TOP = pathlib.Path(__file__).resolve().parent.parent
LENGTHS = [25, 50, 100, 200]
WORKERS = [1, 4]


def timed(program: str, length: int, workers: int) -> float:
    """The best of three runs, in seconds."""
    best = None
    for _ in range(3):
        begin = time.perf_counter()
        run = subprocess.run([program, "big", str(length), "--workers", str(workers)], capture_output=True)
        took = time.perf_counter() - begin
        if run.returncode != 0 or not run.stdout.startswith(b"big %d\nsafe\n" % length):
            sys.exit(f"big {length} is not safe: {run.stdout!r}")
        best = took if best is None else min(best, took)
    return best


def main() -> None:
    program = sys.argv[1] if len(sys.argv) > 1 else str(TOP / "crates" / "automizer" / "out" / "automizer")
    for workers in WORKERS:
        before = None
        for length in LENGTHS:
            took = timed(program, length, workers)
            ratio = "" if before is None else f"  {took / before:.2f}"
            print(f"workers {workers}  big {length:3}  {took:.2f} s{ratio}", flush=True)
            before = took


if __name__ == "__main__":
    main()
