#!/usr/bin/env python3
"""Runs the gate and tells what each crate costs in it, in processor seconds: gate.py [WORDS OF rt ci]

With `--anew`, or on a machine that has kept nothing, that is what the whole gate costs from nothing. It writes what `rt ci` writes, and then the table
of docs/DECISIONS.md: a row for each crate of crates.txt with its lines (code; definitions and proofs), the seconds of its own proof, of its tests, of
its must-fail edits (with the proof that they begin with) and of building its program, and the most memory that one of them took in MB; the dearest crate
comes first. A crate that the run did not prove, since an earlier run did or since it was not asked for, has no seconds, and a line below the table names
it. The last line has the clock, the processor time of the whole run, and how many processors there are."""
import collections
import os
import pathlib
import resource
import subprocess
import sys
import time

TOP = pathlib.Path(__file__).resolve().parent.parent
TICK = os.sysconf("SC_CLK_TCK")
PAGE = os.sysconf("SC_PAGE_SIZE")
KINDS = ["proof", "tests", "edits", "build"]
HEADS = ["Crate", "Lines of code", "Of definitions and proofs", "Proof", "Tests", "Edits", "Builds", "Memory"]


def processes():
    """Each process that runs: its parent, its processor seconds with those of its children that have ended, when it began, and its memory."""
    found = {}
    for name in os.listdir("/proc"):
        if name.isdigit():
            try:
                text = pathlib.Path(f"/proc/{name}/stat").read_text()
            except OSError:
                continue
            rest = text[text.rindex(")") + 2 :].split()
            found[int(name)] = int(rest[1]), sum(map(int, rest[11:15])) / TICK, int(rest[19]), int(rest[21]) * PAGE
    return found


def whole(pid, found, children):
    """The processor seconds and the memory of a process and all below it."""
    _, seconds, _, memory = found[pid]
    for child in children[pid]:
        more, held = whole(child, found, children)
        seconds, memory = seconds + more, memory + held
    return seconds, memory


def kind_of(words):
    """What a command of the gate does, if it is one of a crate: the crate's name and the kind of work."""
    if "--crate-name" not in words:
        return None
    name = words[words.index("--crate-name") + 1]
    if "--test" in words:
        return name, "tests"
    if "--crate-checked" in words:
        return name, "build"
    return name, "edits" if "--incremental" in words else "proof"


def watch(run):
    """What each command below a run took until it ended: its crate and kind, its processor seconds and its memory."""
    took = {}
    while run.poll() is None:
        found, children = processes(), collections.defaultdict(list)
        for pid, (parent, *_) in found.items():
            children[parent].append(pid)
        for pid in children[run.pid]:
            try:
                words = pathlib.Path(f"/proc/{pid}/cmdline").read_bytes().decode(errors="replace").split("\0")
            except OSError:
                continue
            kind = kind_of(words)
            if kind:
                seconds, memory = whole(pid, found, children)
                _, before, most = took.get((pid, found[pid][2]), (kind, 0, 0))
                took[pid, found[pid][2]] = kind, max(before, seconds), max(most, memory)
        time.sleep(0.5)
    return took.values()


def crates():
    """The crates of crates.txt."""
    texts = (line.split("#")[0] for line in (TOP / "crates.txt").read_text().splitlines())
    return [text.split(":")[0].strip() for text in texts if ":" in text]


def lines(crate, endings, folders):
    return sum(path.read_bytes().count(b"\n") for folder in folders for path in (TOP / "crates" / crate / folder).rglob(f"*{endings}"))


def main():
    begin = time.perf_counter()
    run = subprocess.Popen(["rt", "ci", *sys.argv[1:]], cwd=TOP)
    rows, most = collections.defaultdict(collections.Counter), collections.Counter()
    for (crate, kind), seconds, memory in watch(run):
        rows[crate][kind] += seconds
        most[crate] = max(most[crate], memory)
    clock = time.perf_counter() - begin
    print("| " + " | ".join(HEADS) + " |\n|" + "---|" * len(HEADS))
    # (a crate that the run asked nothing of gets an empty row)
    for crate in sorted(crates(), key=lambda it: -rows[it].total()):
        row, memory = rows[crate], f"{most[crate] >> 20}" if most[crate] else ""
        shown = [f"{row[kind]:.0f}" if row[kind] else "" for kind in KINDS]
        print(f"| `{crate}` | {lines(crate, '.rt', ['src'])} | {lines(crate, '.antt', ['specs', 'proofs'])} | " + " | ".join(shown) + f" | {memory} |")
    sums = " | ".join(f"{sum(row[kind] for row in rows.values()):.0f}" for kind in KINDS)
    print(f"| all | | | {sums} | {max(most.values(), default=0) >> 20} |")
    without = [crate for crate in crates() if not rows[crate]["proof"]]
    if without:
        print(f"not proved in this run: {', '.join(without)}")
    used = resource.getrusage(resource.RUSAGE_CHILDREN)
    print(f"clock {clock / 60:.0f} min, processors {(used.ru_utime + used.ru_stime) / 60:.0f} min, {os.cpu_count()} of them")
    return run.returncode


if __name__ == "__main__":
    sys.exit(main())
