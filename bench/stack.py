#!/usr/bin/env python3
"""Prints how much stack the program needs at least, in KB, for the deepest legal programs of several kinds, in each mode: stack.py [PROGRAM ..]

It wants the proved program: cd crates/automizer && rt run. It tells no less than the 0.9 MB that the program touches before its work begins; what needs no
more than these is not told apart."""
import os
import pathlib
import resource
import sys
import tempfile

TOP = pathlib.Path(__file__).resolve().parent.parent
# How deep blocks and expressions may be.
DEPTH = 200
# The answer to a program is looked for between these, in KB, to so many KB.
LEAST, MOST, STEP = 64, 8192, 8


def nested(head: str, inner: str, depth: int) -> str:
    """A statement in so many blocks."""
    return head * depth + inner + "}" * depth


def sums() -> str:
    """Sums in sums, to the right."""
    return "(x + " * (DEPTH - 2) + "x" + ")" * (DEPTH - 2)


def joined(operator: str) -> str:
    """Operations with that boolean operator, each in the one before, to the right."""
    return f"(b {operator} " * (DEPTH - 2) + "b" + ")" * (DEPTH - 2)


def enclosed() -> str:
    """Negations of what is in parentheses."""
    return "!(" * (DEPTH - 2) + "b" + ")" * (DEPTH - 2)


def opposites() -> str:
    """Opposites of opposites."""
    return "-" * (DEPTH - 1) + "x"


def negations() -> str:
    """Negations of negations."""
    return "!" * (DEPTH - 1) + "b"


def chosen(first: str) -> str:
    """Conditions in conditions, each with a guard of its own."""
    return nested(f"if ({first}) {{ ", "x := x + 1; ", DEPTH - 1)


def program(body: str) -> str:
    return f"var g: int;\nprocedure p(a: int, b: bool) returns (c: int);\nprocedure main() modifies g; {{ var x: int; var b: bool;\n{body}\n}}\n"


KINDS = {
    "an assertion of sums in loops": program(nested("while (*) { ", f"assert {sums()} == {sums()};", DEPTH - 1)),
    "an assertion of opposites in conditions": program(nested("if (*) { ", f"assert {opposites()} <= {opposites()} || b;", DEPTH - 1)),
    "an assertion of negations in loops": program(nested("while (*) { ", f"assert {negations()};", DEPTH - 1)),
    "an assignment of sums in else branches": program(nested("if (*) { } else { ", f"x := {sums()};", DEPTH - 1)),
    "an assignment of implications in else branches": program(nested("if (*) { } else { ", f"b := {joined('==>')};", DEPTH - 1)),
    "an assignment of equivalences in else branches": program(nested("if (*) { } else { ", f"b := {joined('<==>')};", DEPTH - 1)),
    "an assignment of conjunctions in else branches": program(nested("if (*) { } else { ", f"b := {joined('&&')};", DEPTH - 1)),
    "an assignment of negations in parentheses in else branches": program(nested("if (*) { } else { ", f"b := {enclosed()};", DEPTH - 1)),
    "an assignment of negations in loops": program(nested("while (*) { ", f"b := {negations()};", DEPTH - 1)),
    "a call of sums and negations in loops": program(nested("while (*) { ", f"call x := p({sums()}, {negations()});", DEPTH - 1)),
    "guards of negations in conditions": program(chosen(negations())),
    "loops with invariants of sums": program(nested(f"while ({negations()}) invariant {sums()} == x; {{ ", "x := x + 1; ", DEPTH - 1)),
    "else-if branches": program("if (*) { } " + "else if (x < 0) { } " * (DEPTH - 2) + f"else {{ assert {sums()} == x; }}"),
}
# What is no failure, so that `replay` answers it once the program is typed; the annotation of nothing, which `check` rejects once the program is lowered;
# and a failure without values, which goes as far as it can.
SECONDS = {"replay": "unsafe\nrounds 0\nassertion 1 line 1\nsteps 1000000\nvalues 0\n", "check": "safe\nrounds 0\nannotation 1\nend\n"}
# A program, and an annotation of it whose one predicate is as deep as it may be; a triple is tried with it, and rejected.
SMALL = "procedure main() { var x: int; x := 1; assert x >= 1; }\n"
ANNOTATION = "safe\nrounds 1\nannotation 1\npred 2 main {predicate}\ntriple in 0 1 2 (leaf 0:-1 1:1)\ntriple in 2 3 1 (leaf 0:1 1:1)\nnode 0 0 0\nnode 1 1 0\nnode 2 2 0 2\nnode 3 3 0\nnode 4 4 0 1\nstep 0 0 1\nstep 1 1 2\nstep 2 2 3\nstep 2 3 4\nend\n"


def predicate() -> str:
    """Conjunctions in disjunctions and disjunctions in conjunctions, to the left."""
    inner = "(le -1 -1 l:x)"
    for level in range(DEPTH):
        inner = f"({'and' if level % 2 else 'or'} {inner} (le -1 -1 l:x))"
    return inner


def ends(words: list[str], stack: int) -> bool:
    """Whether the program ends by itself with so much stack, in KB."""
    child = os.fork()
    if child == 0:
        resource.setrlimit(resource.RLIMIT_STACK, (stack * 1024, stack * 1024))
        resource.setrlimit(resource.RLIMIT_CORE, (0, 0))
        null = os.open(os.devnull, os.O_WRONLY)
        os.dup2(null, 1)
        os.execv(words[0], words)
    _, status = os.waitpid(child, 0)
    return os.WIFEXITED(status)


def needed(words: list[str]) -> int:
    """The least stack with which it ends by itself, in KB."""
    least, most = LEAST, MOST
    while most - least > STEP:
        middle = (least + most) // 2
        least, most = (least, middle) if ends(words, middle) else (middle, most)
    return most


def main() -> None:
    programs = sys.argv[1:] or [str(TOP / "crates" / "automizer" / "out" / "automizer")]
    with tempfile.TemporaryDirectory() as work:
        first, second = os.path.join(work, "p"), os.path.join(work, "q")
        for kind, text in KINDS.items():
            pathlib.Path(first).write_text(text, encoding="ascii")
            for each in programs:
                said = []
                for mode in ["print", "check", "replay", "verify"]:
                    more = []
                    if mode in SECONDS:
                        pathlib.Path(second).write_text(SECONDS[mode], encoding="ascii")
                        more = [second]
                    elif mode == "verify":
                        more = ["--workers", "1", "--rounds", "2"]
                    said.append(f"{mode} {needed([each, mode, first, *more])}")
                print(f"{kind}: {', '.join(said)} KB", flush=True)
        pathlib.Path(first).write_text(SMALL, encoding="ascii")
        pathlib.Path(second).write_text(ANNOTATION.format(predicate=predicate()), encoding="ascii")
        for each in programs:
            print(f"an annotation of a deep predicate: check {needed([each, 'check', first, second])} KB", flush=True)


if __name__ == "__main__":
    main()
