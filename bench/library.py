#!/usr/bin/env python3
"""Times calls of the library crates at doubled sizes, in one run, and prints the ratios: library.py [NAME..]

Each program of bench/programs is a program over the crates that its first line names, and its second line has the words of its
cases, with the sizes. It is built without proofs, optimised, as ./automizer builds its program at its first use, in a copy of the crates,
which takes a minute or several, and then run with each size.
A size is doubled three times; the time of the smallest size of all, an empty piece of work, is taken away."""
import os
import pathlib
import shutil
import subprocess
import sys
import tempfile
import time

TOP = pathlib.Path(__file__).resolve().parent.parent
sys.path.insert(0, str(TOP / "tools"))

import unproved


def build(work: pathlib.Path, name: str, needs: str) -> str:
    """Builds the program in a copy of the crates."""
    crate, room = work / "crates" / f"bench_{name}", work / f"building_{name}"
    (crate / "src").mkdir(parents=True)
    room.mkdir()
    shutil.copy(TOP / "bench" / "programs" / f"{name}.txt", crate / "src" / "main.rt")
    with open(work / "crates.txt", "a", encoding="utf-8") as crates:
        crates.write(f"bench_{name}: {needs}\n")
    print(f"building the program {name}, which takes minutes", file=sys.stderr, flush=True)
    life = unproved.Life(name)
    try:
        unproved.make_module(str(crate), str(room), life)
        unproved.link(str(room), life)
    except unproved.Failed as failed:
        sys.exit(f"{name} was not built: {failed}")
    finally:
        life.end()
    return str(room / "program")


def timed(program: str, case: str, size: int) -> tuple[float, str]:
    """The best of five runs, in seconds, and what the program printed."""
    best, printed = None, ""
    for _ in range(5):
        begin = time.perf_counter()
        run = subprocess.run([program, case, str(size)], capture_output=True, text=True)
        took = time.perf_counter() - begin
        assert run.returncode == 0, run
        best, printed = took if best is None else min(best, took), run.stdout.strip()
    return best, printed


def main() -> None:
    names = sys.argv[1:] or sorted(path.stem for path in (TOP / "bench" / "programs").glob("*.txt"))
    with tempfile.TemporaryDirectory() as folder:
        work = pathlib.Path(folder)
        shutil.copytree(TOP / "crates", work / "crates", ignore=shutil.ignore_patterns("out"))
        for each in ["crates.txt", "HANDLES"]:
            shutil.copy(TOP / each, work / each)
        for name in names:
            lines = (TOP / "bench" / "programs" / f"{name}.txt").read_text().splitlines()
            program = build(work, name, lines[0].removeprefix("// needs "))
            for case in lines[1].removeprefix("// cases ").split():
                word, size = case.split(":")
                empty, last = timed(program, word, 0)[0], None
                for doubled in range(4):
                    count = int(size) << doubled
                    took, printed = timed(program, word, count)
                    took = max(took - empty, 1e-6)
                    ratio = "" if last is None else f", {took / last:.2f} times the half"
                    print(f"{name} {word} {count}: {took * 1000:.2f} ms, {printed}{ratio}", flush=True)
                    last = took


if __name__ == "__main__":
    main()
