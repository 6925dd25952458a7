#!/usr/bin/env python3
"""Times the lowering of programs of doubled sizes, with parsing and typing, in one run, and prints the ratios and the peak memory: lowering.py [PROGRAM]

It wants the proved program: cd crates/lowering_table && rt run"""
import os
import pathlib
import subprocess
import sys
import tempfile
import time

TOP = pathlib.Path(__file__).resolve().parent.parent


def procedures(count: int) -> str:
    """Procedures with a requires, an ensures, a loop and two calls each."""
    parts = ["var g: int;", "procedure main() modifies g; { call p0(1); }"]
    for each in range(count - 1):
        calls = f"call p{each * 7 % (count - 1)}(a); call p{each * 13 % (count - 1)}(a + {each});"
        parts.append(
            f"procedure p{each}(a: int) requires a < {each}; modifies g; ensures g >= a + {each}; "
            f"{{ while (g < a) invariant g <= a; {{ g := g + {each}; }} {calls} }}"
        )
    return "\n".join(parts)


def statements(count: int) -> str:
    """Statements of one body, each with a letter of its own."""
    return "procedure main() { var x: int;\n" + "\n".join(f"x := x + {each};" for each in range(count)) + "\n}"


def blocks(count: int) -> str:
    """Loops one in another, 150 deep, again and again, each with its own guard and a break."""
    parts = []
    for each in range(count):
        parts.append("".join(f"while (x < {each * 150 + depth}) {{ " for depth in range(150)) + "break; " + "}" * 150)
    return "procedure main() { var x: int;\n" + "\n".join(parts) + "\n}"


def labels(count: int) -> str:
    """Labels of one body, each the target of three gotos."""
    gotos = "".join(f"l{each}: goto l{each}, l{each * 7 % count}, l{each * 11 % count};\n" for each in range(count))
    sums = "".join(f"x := x + {each};\n" for each in range(300))
    return f"procedure main() {{ var x: int; {gotos} {sums} }}"


def members(count: int) -> str:
    """Conditions whose lists have 4,096 members each."""
    return "procedure main() { var x: int;\n" + "\n".join(
        "assume " + " && ".join(f"x != {each * 12 + part}" for part in range(12)) + ";" for each in range(count)
    ) + "\n}"


def implications(count: int) -> str:
    """Conditions of implications nested to the right: the list of each has a member for each operand, of up to that many rows."""
    return "procedure main() { var x: int;\n" + ("assume " + " ==> ".join(f"x < {each}" for each in range(count)) + ";\n") * 10 + "}"


KINDS = {procedures: 125, statements: 6250, blocks: 12, labels: 1250, members: 4, implications: 24}


def timed(program: str, path: str) -> tuple[float, int]:
    """The best of five runs, in seconds, and the most memory of one, in bytes."""
    best, most = None, 0
    for _ in range(5):
        with open(path, "rb") as text:
            begin = time.perf_counter()
            run = subprocess.Popen([program], stdin=text, stdout=subprocess.PIPE)
            told = run.stdout.read()
            _, status, used = os.wait4(run.pid, 0)
            took = time.perf_counter() - begin
        assert status == 0 and told.startswith(b"places"), (status, told[:200])
        best, most = took if best is None else min(best, took), max(most, used.ru_maxrss * 1024)
    return best, most


def main() -> None:
    program = sys.argv[1] if len(sys.argv) > 1 else str(TOP / "crates" / "lowering_table" / "out" / "lowering_table")
    with tempfile.TemporaryDirectory() as work:
        path = str(pathlib.Path(work) / "p")
        for kind, least in KINDS.items():
            last = None
            for doubled in range(4):
                count = least << doubled
                text = kind(count)
                pathlib.Path(path).write_text(text + "\n---\n", encoding="ascii")
                took, most = timed(program, path)
                ratio = "" if last is None else f", {took / last:.2f} times the half"
                memory = f"{most / len(text):.0f} bytes of memory a byte"
                print(f"{kind.__name__} {count}, {len(text)} bytes: {took * 1000:.1f} ms{ratio}, {memory}", flush=True)
                last = took


if __name__ == "__main__":
    main()
