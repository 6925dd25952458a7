#!/usr/bin/env python3
"""Names the definitions that two modules of specs/ or more declare under one name, of those that are reached from the contract of the program's
top call (the files of automizer_top/specs/, without its folders). Ends with status 1 where there is one.

names.py [--count] prints each such name with its modules, or only how many definitions are reached."""
import collections
import pathlib
import re
import sys

TOP = pathlib.Path(__file__).resolve().parent.parent
TOP_CALL = "automizer_top.specs."
TOKEN = re.compile(r"[^\W\d][\w'-]*(?:\.[^\W\d][\w'-]*)*", re.UNICODE)
ITEM = re.compile(r"\n(?= {0,2}(?:abbrev |unfoldable |opaque |pub |data |record )\S)")


class Module:
    """What a module declares, each name with its text, and what its imports stand for."""

    def __init__(self, text):
        self.imported = {}
        for home, names in re.findall(r"^\s*(?:pub )?use Rattle\.([\w.']+?)\.\{([^}]*)\}", text, re.M):
            for name in filter(None, (n.strip() for n in names.split(","))):
                parts = name.split(" as ")
                self.imported[parts[-1].strip()] = (home, parts[0].strip())
        self.aliases = {alias: home for home, alias in re.findall(r"^\s*use Rattle\.([\w.']+) as (\w+)", text, re.M)}
        self.declares = {}
        last = None
        for item in ITEM.split("\n" + re.sub(r"^\s*(?:pub )?(?:use|mod) .*$", "", text, flags=re.M))[1:]:
            bare = item.lstrip()
            if item.startswith("  ") and re.match(r"pub [^\s:({]+ :", bare):  # a field belongs to its record
                self.declares[last] += "\n" + bare
                continue
            declared = re.match(r"(?:(?:abbrev|unfoldable|opaque|pub|data|record) )*([^\s:({]+)", bare)
            last = declared.group(1)
            self.declares[last] = self.declares.get(last, "") + bare

    def cites(self, name):
        """The places, each a module (None where it is this one) and a name, that the words of a definition may stand for."""
        for word in set(TOKEN.findall(self.declares[name])):
            parts = word.split(".")
            for cited in {word, parts[0]}:
                yield None, cited
                if cited in self.imported:
                    yield self.imported[cited]
            if len(parts) > 1 and parts[0] in self.aliases:
                yield self.aliases[parts[0]], parts[1]


def modules():
    found = {}
    for path in (TOP / "crates").glob("*/specs/**/*.antt"):
        text = "\n".join(line.split("--")[0] for line in path.read_text().splitlines())
        found[".".join(path.relative_to(TOP / "crates").with_suffix("").parts)] = Module(text)
    return found


def reached(found):
    """The definitions, each a module and a name, that those of the top call lead to."""
    tops = [home for home in found if home.startswith(TOP_CALL) and "." not in home.removeprefix(TOP_CALL)]
    seen, todo = set(), [(home, name) for home in tops for name in found[home].declares]
    while todo:
        home, name = todo.pop()
        if (home, name) in seen or home not in found:
            continue
        if name not in found[home].declares:  # a module may hand on what it imports
            todo += [found[home].imported[name]] if name in found[home].imported else []
            continue
        seen.add((home, name))
        todo += [(of or home, cited) for of, cited in found[home].cites(name)]
    return seen


def main():
    places = collections.defaultdict(list)
    for home, name in reached(modules()):
        places[name].append(home)
    if "--count" in sys.argv:
        print(sum(map(len, places.values())))
        return 0
    twice = {name: homes for name, homes in places.items() if len(homes) > 1}
    for name in sorted(twice):
        print(f"{name}: {', '.join(sorted(twice[name]))}")
    return int(bool(twice))


sys.exit(main())
