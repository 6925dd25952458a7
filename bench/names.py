#!/usr/bin/env python3
"""Times `verify`, in seconds of processor, on programs of doubled numbers of names, beside `replay`, which reads and types them alone, in one run, and prints
the ratios and the peak memory: names.py [PROGRAM]

It wants the proved program: cd crates/automizer && rt run"""
import os
import pathlib
import sys
import tempfile

TOP = pathlib.Path(__file__).resolve().parent.parent
# What is no failure, so that `replay` answers it once the program is typed.
NO_FAILURE = "safe\n"


def globals_alone(count: int) -> str:
    """Globals, each with a declaration of its own."""
    return "".join(f"var g{each}:int;\n" for each in range(count)) + "procedure main() {}\n"


def globals_shared(count: int) -> str:
    """Globals, and a hundred procedures, each with a column for each global."""
    return globals_alone(count) + "".join(f"procedure p{each}() {{}}\n" for each in range(100))


def locals_alone(count: int) -> str:
    """Procedures of a thousand locals each."""
    names = ", ".join(f"l{each}" for each in range(1000))
    return "procedure main() {}\n" + "".join(f"procedure p{each}() {{ var {names}: int; }}\n" for each in range(count))


def modified(count: int) -> str:
    """Globals that a procedure without body may change, in no order."""
    names = ", ".join(f"g{each * 7 % count}" for each in range(count))
    return "".join(f"var g{each}:int;\n" for each in range(count)) + f"procedure p(); modifies {names};\nprocedure main() modifies {names}; {{ call p(); }}\n"


KINDS = {globals_alone: 8125, globals_shared: 1250, locals_alone: 16, modified: 1001}


def once(words: list[str]) -> tuple[float, int, bytes]:
    """The seconds of processor and the peak memory, in KB, of one run, and the first line that it wrote."""
    read, write = os.pipe()
    child = os.fork()
    if child == 0:
        os.dup2(write, 1)
        os.close(read)
        os.close(write)
        os.execv(words[0], words)
    os.close(write)
    with os.fdopen(read, "rb") as pipe:
        text = pipe.read()
    _, _, usage = os.wait4(child, 0)
    return usage.ru_utime + usage.ru_stime, usage.ru_maxrss, text.split(b"\n", 1)[0]


def main() -> None:
    program = sys.argv[1] if len(sys.argv) > 1 else str(TOP / "crates" / "automizer" / "out" / "automizer")
    with tempfile.TemporaryDirectory() as work:
        first, second = os.path.join(work, "p"), os.path.join(work, "q")
        pathlib.Path(second).write_text(NO_FAILURE, encoding="ascii")
        for kind, least in KINDS.items():
            last = None
            for doubled in range(4):
                count = least << doubled
                text = kind(count)
                pathlib.Path(first).write_text(text, encoding="ascii")
                typed, _, said = once([program, "replay", first, second])
                assert said == b"rejected 1 Syntax", said
                took, memory, said = once([program, "verify", first, "--workers", "1"])
                assert said == b"safe", said
                ratio = "" if last is None else f", {took / last:.2f} times the half"
                print(f"{kind.__name__} {count}, {len(text)} bytes: {took * 1000:.0f} ms, typed in {typed * 1000:.0f} ms, {memory // 1024} MB{ratio}", flush=True)
                last = took


if __name__ == "__main__":
    main()
