#!/usr/bin/env python3
"""Times `replay` on runs of doubled lengths, in one run, and prints the ratios: replay.py [PROGRAM]

It wants the proved program: cd crates/automizer && rt run"""
import pathlib
import subprocess
import sys
import tempfile
import time

TOP = pathlib.Path(__file__).resolve().parent.parent
LENGTHS = [125_000, 250_000, 500_000, 1_000_000]


def loop(steps: int) -> tuple[str, list[int], int]:
    """A loop of two steps a turn."""
    turns = (steps - 4) // 2
    program = f"procedure main() {{ var x: int; x := 0; while (x < {turns}) {{ x := x + 1; }} assert false; }}"
    return program, [0], 2 * turns + 4


def gotos(steps: int) -> tuple[str, list[int], int]:
    """Gotos among forty labels of one body, three steps a turn: an assignment, a test, and a goto back to the first."""
    turns = (steps - 3) // 42
    chain = " ".join(f"L{each}: goto L{each + 1};" for each in range(39))
    program = f"procedure main() {{ var x: int; x := 0; {chain} L39: x := x + 1; if (x < {turns}) {{ goto L0; }} assert false; }}"
    return program, [0], 42 * turns + 2


def returns(steps: int) -> tuple[str, list[int], int]:
    """A call a turn, that enters, assigns, ends and writes its target; each reads a value for its result."""
    turns = (steps - 4) // 6
    program = (
        f"procedure main() {{ var x: int; x := 0; while (x < {turns}) {{ call x := next(x); }} assert false; }}\n"
        "procedure next(x: int) returns (y: int) { y := x + 1; if (*) { } }"
    )
    return program, [0] + [0, 0] * turns, 6 * turns + 4


def havocs(steps: int) -> tuple[str, list[int], int]:
    """A value a step, and as many lines of values."""
    turns = (steps - 4) // 3
    program = f"procedure main() {{ var x, y: int; x := 0; while (x < {turns}) {{ havoc y; x := x + 1; }} assert false; }}"
    return program, [0, 0] + [0] * turns, 3 * turns + 5


def depth(steps: int) -> tuple[str, list[int], int]:
    """Calls one within the other, three steps each on the way down."""
    deep = (steps - 3) // 3
    program = "procedure main() { call down(%d); } procedure down(n: int) { if (n > 0) { call down(n - 1); } else { assert false; } }" % deep
    return program, [], 2 * deep + 3


def timed(program: str, path: str, failure: str) -> float:
    """The best of five runs, in seconds."""
    best = None
    for _ in range(5):
        begin = time.perf_counter()
        run = subprocess.run([program, "replay", path, failure], capture_output=True)
        took = time.perf_counter() - begin
        assert run.returncode == 0 and run.stdout.startswith(b"replayed assertion "), (run.returncode, run.stdout)
        best = took if best is None else min(best, took)
    return best


def main() -> None:
    program = sys.argv[1] if len(sys.argv) > 1 else str(TOP / "crates" / "automizer" / "out" / "automizer")
    with tempfile.TemporaryDirectory() as work:
        path, failure = str(pathlib.Path(work) / "p"), str(pathlib.Path(work) / "q")
        for kind in [loop, gotos, returns, havocs, depth]:
            last = None
            for length in LENGTHS:
                text, values, steps = kind(length)
                pathlib.Path(path).write_text(text, encoding="ascii")
                lines = "".join(f"{value}\n" for value in values)
                pathlib.Path(failure).write_text(
                    f"unsafe\nrounds 0\nassertion 1 line 1\nsteps {steps}\nvalues {len(values)}\n{lines}", encoding="ascii"
                )
                took = timed(program, path, failure)
                ratio = "" if last is None else f", {took / last:.2f} times the half"
                print(f"{kind.__name__}, {steps} steps: {took * 1000:.1f} ms{ratio}", flush=True)
                last = took


if __name__ == "__main__":
    main()
