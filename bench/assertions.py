#!/usr/bin/env python3
"""Times `verify`, on the clock and in seconds of processor, on programs of doubled numbers of assertions that one round shows, by one and by four workers,
in one run, and prints the ratios: assertions.py [PROGRAM]

It wants the proved program: cd crates/automizer && rt run"""
import os
import pathlib
import subprocess
import sys
import tempfile
import time

TOP = pathlib.Path(__file__).resolve().parent.parent
WORKERS = [1, 4]


def plain(count: int) -> str:
    """Assertions that hold everywhere, one after another."""
    return "procedure main() { var x: int;\n" + "assert x == x;\n" * count + "}\n"


def required(count: int) -> str:
    """Calls, each of which has to meet a `requires`."""
    return "procedure p(a: int) requires a == a; { }\nprocedure main() { var x: int;\n" + "call p(x);\n" * count + "}\n"


KINDS = {plain: 7625, required: 1875}


def timed(program: str, path: str, workers: int) -> tuple[float, float]:
    """The seconds on the clock and of processor of one run."""
    begin = time.perf_counter()
    run = subprocess.Popen([program, "verify", path, "--workers", str(workers)], stdout=subprocess.PIPE)
    told = run.stdout.read()
    _, status, usage = os.wait4(run.pid, 0)
    if status != 0 or not told.startswith(b"safe\n"):
        sys.exit(f"{path} is not safe: {told[:200]!r}")
    return time.perf_counter() - begin, usage.ru_utime + usage.ru_stime


def main() -> None:
    program = sys.argv[1] if len(sys.argv) > 1 else str(TOP / "crates" / "automizer" / "out" / "automizer")
    with tempfile.TemporaryDirectory() as work:
        path = os.path.join(work, "p")
        for kind, least in KINDS.items():
            for workers in WORKERS:
                last = None
                for doubled in range(4):
                    count = least << doubled
                    pathlib.Path(path).write_text(kind(count), encoding="ascii")
                    clock, processor = timed(program, path, workers)
                    ratio = "" if last is None else f", {processor / last:.2f} times the half"
                    print(f"{kind.__name__} {count}, workers {workers}: {clock:.2f} s, {processor:.2f} s of processor{ratio}", flush=True)
                    last = processor


if __name__ == "__main__":
    main()
