#!/usr/bin/env python3
"""Compares the table of crates in docs/ARCHITECTURE.md with crates.txt and prints each crate whose row says something else, or that has no row.

In the table "those of `a`" stands for all that `a` stands on; crates of the toolchain's kit are not compared."""
import pathlib
import re
import sys

TOP = pathlib.Path(__file__).resolve().parent.parent
NAMES = re.compile(r"(those of )?`([a-z_]+)`")


def listed():
    """What crates.txt says that each crate stands on."""
    lines = (line.split("#")[0].strip() for line in (TOP / "crates.txt").read_text().splitlines())
    parts = (line.split(":") for line in lines if line)
    return {name.strip(): set(below.split()) for name, below in parts}


def rows():
    """The first two cells of each row of the table."""
    text = (TOP / "docs/ARCHITECTURE.md").read_text()
    table = text.split("| Crate | Stands on |")[1].split("\n\n")[0]
    for line in table.splitlines()[2:]:
        _, names, below = line.split("|")[:3]
        yield [name for _, name in NAMES.findall(names)], below


def main():
    below = listed()
    said = {}
    for names, cell in rows():
        stands = set()
        for all_below, name in NAMES.findall(cell):
            stands |= below.get(name, set()) if all_below else {name}
        for name in names:
            said[name] = stands & set(below)
    wrong = [f"{name} has no row" for name in below if name not in said]
    wrong += [f"{name} is no crate" for name in said if name not in below]
    for name, stands in said.items():
        differs = sorted(stands ^ (below.get(name, set()) & set(below)))
        if name in below and differs:
            wrong.append(f"{name}: {' '.join(differs)}")
    print("\n".join(wrong), end="\n" if wrong else "")
    return 1 if wrong else 0


if __name__ == "__main__":
    sys.exit(main())
