#!/usr/bin/env python3
"""Times `print` on programs of doubled sizes up to a mebibyte, one kind of text at a time, in one run, and prints the ratios: print.py [PROGRAM]

It wants the proved program: cd crates/automizer && rt run"""
import os
import pathlib
import subprocess
import sys
import tempfile
import time

TOP = pathlib.Path(__file__).resolve().parent.parent
MOST = 1 << 20

# A front, a part that is repeated, and a back.
BODY = "procedure main() { var x, y: int; var b: bool; "
KINDS = {
    "spaces": ("", " ", ""),
    "comments": ("", "/* c */", ""),
    "nested comments": None,
    "attributes": ("", "{:a 1}", ""),
    "names": (BODY + "havoc x", ", x", "; }"),
    "sums": (BODY, "x := x + 1 - 2 * (y - x);", " }"),
    "deep expressions": (BODY, "assert " + "(" * 190 + "x + 1" + ") + 1" * 190 + " == 0;", " }"),
    "long chains": (BODY, "assert " + "b && " * 190 + "b;", " }"),
    "minus signs": (BODY, "x := " + "-" * 190 + "1;", " }"),
    "conditions": (BODY, "if (x < y) { x := y; } else if (*) { y := x; } else { }", " }"),
    "deep blocks": (BODY, "while (*) { " * 150 + "}" * 150, " }"),
    "calls": (BODY, "call x, y := f(x, 1 + y);", " }"),
    "jumps": (BODY, "l: goto l, m; m: break; return;", " }"),
    "loops": (BODY, "while (b) invariant x >= 0; free invariant b; { }", " }"),
    "axioms": ("", "axiom a && (b ==> c) && true;", ""),
    "implementations": ("", "implementation p(a: int) returns (r: bool) { r := a == 1; }", ""),
    "specifications": ("procedure p(); ", "requires a; free ensures b; modifies c, d; ", ""),
}


def text_of(kind: str, size: int) -> str:
    if KINDS[kind] is None:
        half = size // 4
        return "/*" * half + "*/" * half
    front, part, back = KINDS[kind]
    return front + part * ((size - len(front) - len(back)) // len(part)) + back


def timed(program: str, path: str) -> tuple[float, int]:
    """The best of five runs, in seconds, and how many bytes were printed."""
    best, printed = None, 0
    for _ in range(5):
        begin = time.perf_counter()
        run = subprocess.run([program, "print", path], capture_output=True)
        took = time.perf_counter() - begin
        assert run.returncode == 0, (run.returncode, run.stdout[:200])
        best, printed = took if best is None else min(best, took), len(run.stdout)
    return best, printed


def main() -> None:
    program = sys.argv[1] if len(sys.argv) > 1 else str(TOP / "crates" / "automizer" / "out" / "automizer")
    with tempfile.TemporaryDirectory() as work:
        path = os.path.join(work, "p")
        pathlib.Path(path).write_text("")
        empty = timed(program, path)[0]
        for kind in KINDS:
            last = None
            for size in [MOST // 8, MOST // 4, MOST // 2, MOST]:
                pathlib.Path(path).write_text(text_of(kind, size))
                took, printed = timed(program, path)
                took = max(took - empty, 1e-6)
                ratio = "" if last is None else f", {took / last:.2f} times the half"
                print(f"{kind} {size}: {took * 1000:.1f} ms, {printed} bytes printed{ratio}", flush=True)
                last = took


if __name__ == "__main__":
    main()
