#!/usr/bin/env python3
"""Times typing by `replay` on programs of doubled sizes that keep the typing rules, with a second text that is no failure, in one run, and prints the ratios: resolve.py [PROGRAM]

It wants the proved program: cd crates/automizer && rt run"""
import pathlib
import subprocess
import sys
import tempfile
import time

TOP = pathlib.Path(__file__).resolve().parent.parent
SIZES = [125, 250, 500, 1000]


def procedures(count: int) -> str:
    """Procedures of forty calls each, with a hidden local for each call."""
    parts = ["procedure main() { }"]
    for caller in range(count - 1):
        calls = "".join(f"call p{(caller * 7 + each * 13) % (count - 1)}({each}<1);" for each in range(40))
        parts.append(f"procedure p{caller}(b:bool){{{calls}}}")
    return "\n".join(parts)


def variables(count: int) -> str:
    """Locals of one procedure, of which there are 1,000 at most, each assigned a sum of 150 of them."""
    count = count - 1
    names = [f"v{each}" for each in range(count)]
    sums = "".join(
        f"v{target} := " + "+".join(names[(target * 31 + each * 17) % count] for each in range(150)) + ";\n" for target in range(count)
    )
    return f"procedure main() {{ var {','.join(names)}: int; var b: bool;\n{sums}}}"


def globals_modified(count: int) -> str:
    """Globals that a procedure modifies, each written once and read in its specifications."""
    names = [f"g{each}" for each in range(count)]
    ensures = "".join(f" ensures {name} == old({name}) + 1;" for name in names)
    writes = "".join(f"{name} := {name} + 1;" for name in names)
    return f"var {','.join(names)}: int; procedure main() modifies {','.join(names)};{ensures} {{ {writes} }}"


def labels(count: int) -> str:
    """Labels of one body, each the target of three gotos."""
    gotos = "".join(f"l{each}: goto l{each}, l{each * 7 % count}, l{each * 11 % count};\n" for each in range(count))
    return f"procedure main() {{ {gotos} }}"


def timed(program: str, path: str) -> float:
    """The best of five runs, in seconds."""
    best = None
    for _ in range(5):
        begin = time.perf_counter()
        run = subprocess.run([program, "replay", path, path], capture_output=True)
        took = time.perf_counter() - begin
        assert (run.returncode, run.stdout) == (1, b"rejected 1 Syntax\n"), (run.returncode, run.stdout)
        best = took if best is None else min(best, took)
    return best


def main() -> None:
    program = sys.argv[1] if len(sys.argv) > 1 else str(TOP / "crates" / "automizer" / "out" / "automizer")
    with tempfile.TemporaryDirectory() as work:
        path = str(pathlib.Path(work) / "p")
        for kind in [procedures, variables, globals_modified, labels]:
            last = None
            for count in SIZES:
                text = kind(count)
                pathlib.Path(path).write_text(text, encoding="ascii")
                took = timed(program, path)
                ratio = "" if last is None else f", {took / last:.2f} times the half"
                print(f"{kind.__name__} {count}, {len(text)} bytes: {took * 1000:.1f} ms{ratio}", flush=True)
                last = took


if __name__ == "__main__":
    main()
