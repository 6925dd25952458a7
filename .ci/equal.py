#!/usr/bin/env python3
"""Counts what is said twice in the crates: groups of definitions (in specs/), and of functions (in src/), that stand in two crates or more and are
equal up to the names of their own variables and of the functions that they cite of their own crate. Types are told apart by the crate that
declares them, and the fields of a record by their names.

equal.py [--list | --most D F] prints both counts; with `--list` each group with its places; with `--most` only a count that is above its
number, and then it ends with status 1."""
import collections
import pathlib
import re
import sys

TOP = pathlib.Path(__file__).resolve().parent.parent
TOKEN = re.compile(r"[^\W\d][\w'-]*|\d+|[^\s\w]", re.UNICODE)
NAME = re.compile(r"[^\W\d][\w'-]*$", re.UNICODE)
KEYWORDS = set("abbrev pub data record where let in if then else Type fn match return loop while for mut move unsafe Ok Err Some None Self self true false".split())
PRELUDE = KEYWORDS | set("Result Option Vec String Box Copy Clone Drop Sync Fn FnMut FnOnce".split())
SHORTEST = {"definitions": 12, "functions": 24}


def renamed(tokens, own, fixed):
    """The tokens with the names that are neither fixed nor keywords numbered by their first occurrence."""
    numbers = {}
    out = []
    for before, token in zip([""] + tokens, tokens):
        if token == own:
            out.append("SELF")
        elif NAME.match(token) and "::" not in token and token not in fixed and token not in KEYWORDS and before not in (".", "::"):
            out.append(f"v{numbers.setdefault(token, len(numbers))}")
        else:
            out.append(token)
    return " ".join(out)


def homes(crate, uses, separator):
    """The crate from which each imported name comes."""
    home = {}
    for use in uses:
        parts = [part for part in re.split(separator, use.strip()) if part]
        of = parts[0] if parts[0] not in ("crate", "super", "self") else crate
        for name in re.findall(r"[^\W\d][\w'-]*(?: as [^\W\d][\w'-]*)?", use):
            home[name.split(" as ")[-1]] = of
    return home


def declared(tokens, crate, home, itself):
    """The tokens with the crate that declares it before each type."""
    return [t if t == itself or t in PRELUDE or not t[:1].isupper() else f"{home.get(t, crate)}::{t}" for t in tokens]


def definitions(path):
    """The definitions of a file: their names, what they say, and the names that are not their own."""
    crate = path.relative_to(TOP / "crates").parts[0]
    text = "\n".join(line.split("--")[0] for line in path.read_text().splitlines())
    home = homes(crate, re.findall(r"^use Rattle\.([^\n]*)", text, re.M), r"[.\s{]")
    items = re.split(r"\n(?=(?:abbrev |pub |data |record )\S)", "\n" + text)[1:]
    names = [re.match(r"(?:abbrev )?(?:pub )?(?:data |record |abbrev )*(?:pub )?([^\s:({]+)", item).group(1) for item in items]
    for name, item in zip(names, items):
        body = re.sub(r"^use .*$", "", item, flags=re.M)
        body = re.sub(r"^(abbrev )?(pub )?", "", body)
        fields = set(re.findall(r"^\s+pub ([^\s:({]+)", body, re.M)) if body.startswith("record") else set()
        yield name, declared(TOKEN.findall(body), crate, home, name), {n for n, of in home.items() if of != crate} | fields


def closing(text, at):
    """Where the brace that opens at this place is closed."""
    depth = 0
    for place in range(at, len(text)):
        depth += {"{": 1, "}": -1}.get(text[place], 0)
        if depth == 0:
            return place
    return len(text)


def functions(path):
    """The functions of a file: their names, the types that they take and answer with the body, and the names that are not their own."""
    crate = path.relative_to(TOP / "crates").parts[0]
    text = re.sub(r"//[^\n]*", "", path.read_text())
    home = homes(crate, re.findall(r"^use ([^;]*);", text, re.M), r"::|[\s{]")
    for found in re.finditer(r"\bfn (\w+)", text):
        at = found.end()
        while at < len(text) and text[at] not in "{;":
            at += 1
        head = text[found.end() : at]
        # clauses stand between the head and the body, each in braces
        while re.search(r"\b(requires|ensures|decreases)\b[^{}]*$", text[found.end() : at]):
            at = closing(text, at) + 1
            rest = re.match(r"\s*(requires|ensures|decreases)?[^{;]*", text[at:])
            at += rest.end()
            if not rest.group(1):
                break
        if at >= len(text) or text[at] != "{":
            continue
        body = text[at : closing(text, at) + 1]
        bound = set(re.findall(r"(\w+)\s*:", head)) | set(re.findall(r"\blet (?:mut )?(\w+)", body)) | set(re.findall(r"[|(,]\s*&?(?:mut )?(\w+)\s*[|,)]", body))
        taken = re.sub(r"\b(requires|ensures|decreases)\b.*", "", head, flags=re.S)
        fixed = {name for name in TOKEN.findall(body) if name not in bound and home.get(name, "") != crate}
        yield found.group(1), declared(TOKEN.findall(taken + body), crate, home, found.group(1)), fixed - own_functions(text)


def own_functions(text):
    """The names of the functions that a file declares."""
    return set(re.findall(r"\bfn (\w+)", text))


def groups(kind, files, read):
    found = collections.defaultdict(list)
    for path in files:
        crate = path.relative_to(TOP / "crates").parts[0]
        for name, tokens, fixed in read(path):
            if len(tokens) >= SHORTEST[kind]:
                found[renamed(tokens, name, fixed)].append((crate, name, path.relative_to(TOP)))
    return [places for places in found.values() if len({crate for crate, _, _ in places}) > 1]


def main():
    crates = TOP / "crates"
    all_groups = {
        "definitions": groups("definitions", sorted(crates.glob("*/specs/**/*.antt")), definitions),
        "functions": groups("functions", sorted(crates.glob("*/src/**/*.rt")), functions),
    }
    if sys.argv[1:2] == ["--most"]:
        above = [f"{kind} {len(found)}" for (kind, found), most in zip(all_groups.items(), sys.argv[2:]) if len(found) > int(most)]
        print("".join(f"{line}\n" for line in above), end="")
        sys.exit(bool(above))
    for kind, found in all_groups.items():
        print(f"{kind} {len(found)}")
        if "--list" in sys.argv:
            for places in found:
                print("  " + "; ".join(f"{crate} {name} ({path.name})" for crate, name, path in places))


if __name__ == "__main__":
    main()
