#!/usr/bin/env python3
"""Times `decide` beside `plain`, and z3 on the same systems where it is installed, in one run: decide.py [CASE..]

The systems are those of bench/programs/decide.txt: chains of equalities and of differences with two disequalities, sums, dense systems,
the rows of binary searches that go on and that leave the array, and small systems as triples give them, a thousand at a time.
All times are those of whole processes, the best of five runs, less that of a process that makes the systems alone; `plain` is given up
after ten seconds. The ratio is that of the time of `decide` to that of z3, each less its start."""
import pathlib
import shutil
import subprocess
import sys
import tempfile
import time

import library

CASES = {"increments": [10, 50, 100, 200, 400], "differences": [10, 50, 100, 200, 400], "unequal": [10, 50, 100, 200, 400],
         "sums": [5, 10, 20, 30], "dense": [5, 10, 15, 20, 30, 40], "halving": [2, 4, 6, 8, 10, 12], "halved": [2, 4, 6, 8, 10, 12],
         "triples": [1, 4]}
PATIENCE = 10


def linear(terms: list[tuple[int, int]]) -> str:
    return "(+ 0 " + " ".join(f"(* {a if a >= 0 else f'(- {-a})'} x{c})" for c, a in terms) + ")"


def number(n: int) -> str:
    return str(n) if n >= 0 else f"(- {-n})"


def rows(case: str, size: int, which: int) -> tuple[int, list[tuple[list[tuple[int, int]], str, int]]]:
    """The columns and the rows, as the program makes them."""
    made = []
    if case == "dense":
        for i in range(size):
            made.append(([(j, (7 * i + 13 * j + 5 * i * j) % 11 - 5) for j in range(size)], "<=", i % 4 - 2))
            made += [([(i, 1)], "<=", 10), ([(i, -1)], "<=", 10)]
        return size, made
    if case in ("halving", "halved"):
        low, high = 0, 1
        made.append(([(0, -1)], "<=", 0))
        for r in range(size):
            middle, end = 2 * r + 2, 2 * r + 3
            made += [([(low, 1), (high, -1)], "<=", -1), ([(low, -1), (high, -1), (middle, 2)], "<=", 0),
                     ([(low, 1), (high, 1), (middle, -2)], "<=", 1), ([(middle, -1), (end, 1)], "=", 1 - r % 2)]
            low, high = (end, high) if r % 2 == 0 else (low, end)
        made.append(([(1, 1), (low, -1)] if case == "halved" else [(low, 1), (high, -1)], "<=", -1))
        return 2 * size + 2, made
    k, m = which % 5, which % 7
    return 4, [([(0, 1), (1, -1)], "<=", -1), ([(1, 1), (2, -1)], "<=", k - 3), ([(0, -1), (2, 1)], "=", 2),
               ([(1, 1), (3, -1)], "<=", 0), ([(3, 1)], "<=", m - 3)]


def asserted(columns: int, made: list) -> list[str]:
    lines = [f"(declare-const x{i} Int)" for i in range(columns)]
    return lines + [f"(assert ({kind} {linear(terms)} {number(bound)}))" for terms, kind, bound in made]


def script(case: str, size: int) -> str:
    """The systems in the language of z3."""
    lines = ["(set-logic QF_LIA)"]
    if case == "triples":
        for which in range(1000 * size):
            lines += ["(push)"] + asserted(*rows(case, size, which)) + ["(check-sat)", "(pop)"]
        return "\n".join(lines) + "\n"
    if case in ("dense", "halving", "halved"):
        return "\n".join(lines + asserted(*rows(case, size, 0)) + ["(check-sat)"]) + "\n"
    lines += [f"(declare-const x{i} Int)" for i in range(size + 1)]
    for i in range(size):
        if case == "increments":
            lines.append(f"(assert (= x{i + 1} (+ x{i} 1)))")
        elif case == "sums":
            lines.append(f"(assert (= x{i + 1} (+ x{i} (* 2 x{max(i - 1, 0)}) 1)))")
        else:
            lines.append(f"(assert (< x{i} x{i + 1}))")
    lines.append({
        "increments": "(assert (= x0 0))",
        "sums": f"(assert (<= (- (* 2 x0) (* 4 x{size})) 3))",
        "differences": f"(assert (<= (- x{size} x0) {size - 1}))",
        "unequal": f"(assert (<= (- x{size} x0) {size}))",
    }[case])
    lines += [f"(assert (distinct x{size} {size}))", f"(assert (distinct x{max(size - 1, 0)} 7))", "(check-sat)"]
    return "\n".join(lines) + "\n"


def timed(words: list[str]) -> tuple[float, str]:
    """The best of five runs, in seconds, and the last word that was printed."""
    best, printed = None, "slow"
    for _ in range(5):
        begin = time.perf_counter()
        try:
            run = subprocess.run(words, capture_output=True, text=True, timeout=PATIENCE)
        except subprocess.TimeoutExpired:
            return PATIENCE, "slow"
        took = time.perf_counter() - begin
        if run.returncode != 0:
            return took, "failed"
        best, printed = took if best is None else min(best, took), run.stdout.split()[-1]
        if took > 1:
            break
    return best, printed


def main() -> None:
    other = shutil.which("z3")
    with tempfile.TemporaryDirectory() as folder:
        work = pathlib.Path(folder)
        shutil.copytree(library.TOP / "crates", work / "crates", ignore=shutil.ignore_patterns("out"))
        for each in ["crates.txt", "HANDLES"]:
            shutil.copy(library.TOP / each, work / each)
        program = library.build(work, "decide", "int_decide lin_rows")
        text = work / "system.smt2"
        text.write_text("(check-sat)\n")
        other_start = timed([other, str(text)])[0] if other else 0
        print(f"z3 starts in {other_start * 1000:.2f} ms" if other else "z3 is not installed", flush=True)
        for case in sys.argv[1:] or CASES:
            for size in CASES[case]:
                start = timed([program, case, str(size), "none"])[0]
                took, answer = timed([program, case, str(size), "decide"])
                plain, plain_answer = timed([program, case, str(size), "plain"])
                took = max(took - start, 1e-5)
                line = f"{case} {size}: decide {took * 1000:.2f} ms, {answer}; plain {(plain - start) * 1000:.2f} ms, {plain_answer}"
                assert "slow" in (answer, plain_answer) or answer == plain_answer or "past" in (answer, plain_answer), line
                if other:
                    text.write_text(script(case, size))
                    took_other, answer_other = timed([other, str(text)])
                    took_other = max(took_other - other_start, 1e-5)
                    assert answer_other == answer or {"unknown", "past", "slow"} & {answer, answer_other}, (line, answer_other)
                    line += f"; z3 {took_other * 1000:.2f} ms, {answer_other}, ratio {took / took_other:.2f}"
                print(line, flush=True)


if __name__ == "__main__":
    main()
