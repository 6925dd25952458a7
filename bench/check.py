#!/usr/bin/env python3
"""Times `check`, in seconds of processor, on programs of doubled sizes with their annotations, in one run, and prints the ratios and the peak memory: check.py [PROGRAM]

It wants the proved program: cd crates/automizer && rt run"""
import os
import pathlib
import sys
import tempfile

TOP = pathlib.Path(__file__).resolve().parent.parent


def annotation(preds: list[str], triples: list[str], nodes: list[str], steps: list[str]) -> str:
    """The text of an annotation; predicates have the numbers from 2 on, nodes from 0 on."""
    lines = [f"pred {number} {pred}" for number, pred in enumerate(preds, 2)] + [f"triple {triple}" for triple in triples]
    lines += [f"node {number} {node}" for number, node in enumerate(nodes)] + steps
    return "safe\nrounds 0\nannotation 1\n" + "\n".join(lines) + "\nend\n"


def chain(count: int) -> tuple[str, str]:
    """Assignments one after another, each with its own letter, triple, node and step."""
    sums = "".join(f" x := x + {each};" for each in range(2, count + 1))
    program = f"procedure main() {{ var x: int; x := 1;{sums} assert x >= 1; }}\n"
    triples = ["in 0 1 2 (leaf 0:-1 1:1)"] + [f"in 2 {letter} 2 (leaf 0:1 1:-1 2:1)" for letter in range(2, count + 1)]
    triples += [f"in 2 {count + 2} 1 (leaf 0:1 1:1)"]
    nodes = ["0 0", "1 0"] + [f"{place} 0 2" for place in range(2, count + 2)] + [f"{count + 2} 0", f"{count + 3} 0 1"]
    steps = ["step 0 0 1"] + [f"step {node} {node} {node + 1}" for node in range(1, count + 2)] + [f"step {count + 1} {count + 2} {count + 3}"]
    return program, annotation(["main (le -1 -1 l:x)"], triples, nodes, steps)


def callers(count: int) -> tuple[str, str]:
    """One procedure, called from many places: one entry node, and a back for each call."""
    calls = " call up();" * count
    program = f"var g: int;\nprocedure up() modifies g; {{ g := g + 1; }}\nprocedure main() modifies g; {{ g := 1;{calls} assert g >= 1; }}\n"
    triples = ["in 0 2 2 (leaf 0:-1 1:1)", "call 2 3 3 (leaf 0:1 1:-1 3:1)", "in 3 1 3 (leaf 0:1 1:-1 2:1)", "ret 3 0 4 2 (leaf 0:1 2:-1 3:1)",
               "in 2 6 1 (leaf 0:1 1:1)"]
    nodes = ["0 0", "1 1 3", "2 1 3", "3 0"] + [f"{place} 0 2" for place in range(4, count + 5)] + [f"{count + 5} 0", f"{count + 6} 0 1"]
    steps = ["step 0 0 3", "step 1 1 2", "step 3 2 4"]
    for node in range(4, count + 4):
        steps += [f"step {node} 3 1", f"back 2 {node} 4 {node + 1}"]
    return program, annotation(["main (le -1 -1 g:g)", "up (le -1 -1 g:g)"], triples, nodes,
                               steps + [f"step {count + 4} 5 {count + 5}", f"step {count + 4} 6 {count + 6}"])


def nested(count: int) -> tuple[str, str]:
    """Procedures that call one another, each its own letters, predicate and triples."""
    parts = ["var g: int;", "procedure main() modifies g; { g := 1; call p1(); assert g >= 1; }"]
    preds = ["main (le -1 -1 g:g)"]
    triples = ["in 0 1 2 (leaf 0:-1 1:1)", "call 2 2 3 (leaf 0:1 1:-1 3:1)", "ret 3 0 3 2 (leaf 0:1 2:-1 3:1)", "in 2 5 1 (leaf 0:1 1:1)"]
    error = 3 * count + 4
    nodes = ["0 0", "1 0", "2 0 2", "3 0 2", "4 0"]
    steps = ["step 0 0 1", "step 1 1 2", "step 2 2 5", "step 3 4 4", f"step 3 5 {error}"]
    exits = {}
    for each in range(1, count + 1):
        last = each == count
        call = "" if last else f" call p{each + 1}();"
        parts.append(f"procedure p{each}() modifies g; {{ g := g + 1;{call} }}")
        preds.append(f"p{each} (le -1 -1 g:g)")
        entry, letter, pred = 5 + 3 * (each - 1), 6 + 3 * (each - 1), 2 + each
        triples.append(f"in {pred} {letter} {pred} (leaf 0:1 1:-1 2:1)")
        steps.append(f"step {entry} {letter} {entry + 1}")
        nodes += [f"{entry} {entry} {pred}", f"{entry + 1} {entry} {pred}"]
        if last:
            exits[each] = entry + 1
        else:
            nodes.append(f"{entry + 2} {entry} {pred}")
            exits[each] = entry + 2
            triples += [f"call {pred} {letter + 1} {pred + 1} (leaf 0:1 1:-1 3:1)", f"ret {pred + 1} 0 {letter + 2} {pred} (leaf 0:1 2:-1 3:1)"]
            steps.append(f"step {entry + 1} {letter + 1} {entry + 3}")
    nodes.append(f"{error} 0 1")
    steps.append(f"back {exits[1]} 2 3 3")
    steps += [f"back {exits[each + 1]} {5 + 3 * (each - 1) + 1} {6 + 3 * (each - 1) + 2} {exits[each]}" for each in range(1, count)]
    return "\n".join(parts) + "\n", annotation(preds, triples, nodes, steps)


def cuts(count: int) -> tuple[str, str]:
    """One triple whose refutation has so many cuts, each in the second part of the one before."""
    program, proof = chain(1)
    leaf = "(leaf 0:1 1:1)"
    return program, proof.replace(f"in 2 3 1 {leaf}", "in 2 3 1 " + f"(cut 0 0 {leaf} " * count + leaf + ")" * count)


def once(words: list[str]) -> tuple[float, int, str]:
    """The seconds of processor and the peak memory, in KB, of one run, and what it wrote."""
    read, write = os.pipe()
    child = os.fork()
    if child == 0:
        os.dup2(write, 1)
        os.execv(words[0], words)
    os.close(write)
    with os.fdopen(read) as pipe:
        text = pipe.read()
    _, _, usage = os.wait4(child, 0)
    return usage.ru_utime + usage.ru_stime, usage.ru_maxrss, text


def main() -> None:
    program = sys.argv[1] if len(sys.argv) > 1 else str(TOP / "crates" / "automizer" / "out" / "automizer")
    sizes = {chain: [2000, 4000, 8000, 16000], callers: [1000, 2000, 4000, 8000], nested: [125, 250, 500, 999],
             cuts: [62500, 125000, 250000, 500000]}
    with tempfile.TemporaryDirectory() as work:
        first, second = os.path.join(work, "p"), os.path.join(work, "q")
        for shape, counts in sizes.items():
            last = None
            for count in counts:
                text, proof = shape(count)
                pathlib.Path(first).write_text(text, encoding="ascii")
                pathlib.Path(second).write_text(proof, encoding="ascii")
                runs = [once([program, "check", first, second]) for _ in range(3)]
                assert all(run[2] == "accepted\n" for run in runs), runs[0][2]
                took, memory = min(run[0] for run in runs), max(run[1] for run in runs)
                ratio = "" if last is None else f", {took / last:.2f} times the half"
                print(f"{shape.__name__} {count}, annotation of {len(proof)} bytes: {took * 1000:.1f} ms, {memory * 1024 / len(proof):.0f} bytes of memory a byte{ratio}",
                      flush=True)
                last = took


if __name__ == "__main__":
    main()
