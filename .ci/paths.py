#!/usr/bin/env python3
"""Names each link and each path in backticks of README.md, docs/ and the crates' pages that leads nowhere, and each module that is in no crate as a
page says.

A path begins at the top of the repository or in crates/. One that does not lies in the folder of a path before it in its line, in a crate that the
line names, or in the crate of the page; a file's name alone, of a definition, a proof or code, anywhere in such a crate. `*` stands for any letters."""
import pathlib
import re
import sys

TOP = pathlib.Path(__file__).resolve().parent.parent
CRATES = {path.name for path in (TOP / "crates").iterdir()}
# A link, or a text in backticks.
ITEM = re.compile(r"\]\(([^)#\s]+)[^)]*\)|`([^`\s]+)`")
# What in backticks is a path: a name of a file of ours, or what begins with a folder of the top or with a crate.
FILE = re.compile(r"[\w.*/-]+\.(antt|rt)$")
FOLDERS = {"bench", "crates", "docs", "edits", "examples", "specs", "src", "proofs", "tools", ".ci"}
MODULES = re.compile(r"\bmodules? ((?:`\w+`(?:,| and)? )+)of `(\w+)`")


def is_path(text):
    return bool(FILE.match(text)) or ("/" in text.rstrip("/") and text.split("/")[0] in FOLDERS | CRATES)


def found(text, before, crates):
    """What a path may stand for, behind paths in these folders and the names of crates."""
    places = [TOP, TOP / "crates", *before, *(TOP / "crates" / name for name in crates)]
    whole = [path for place in places for path in place.glob(text)]
    return whole or ([] if "/" in text else [path for name in crates for path in (TOP / "crates" / name).rglob(text)])


def wrong_in(page, line):
    """What is wrong in a line of a page, as texts."""
    before, crates = [], [page.parent.name] if page.parent.name in CRATES else []
    for link, text in ITEM.findall(line):
        if link and "://" not in link and not (page.parent / link).exists():
            yield f"the link {link}"
        if text in CRATES:
            crates.append(text)
        # (NAME stands for any name)
        if not text or "NAME" in text or not is_path(text):
            continue
        paths = found(text.rstrip("/"), before, crates)
        if not paths:
            yield text
            continue
        before = [path if path.is_dir() else path.parent for path in paths[:1]] + before
        crates += [part for part in paths[0].relative_to(TOP).parts[1:2] if part in CRATES]
    for names, crate in MODULES.findall(line):
        yield from (f"module {name} of {crate}" for name in re.findall(r"`(\w+)`", names) if not (TOP / "crates" / crate / "src" / f"{name}.rt").exists())


def main():
    pages = [TOP / "README.md", *sorted((TOP / "docs").glob("*.md")), *sorted((TOP / "crates").glob("*/README.md"))]
    wrong = [f"{page.relative_to(TOP)}:{number}: {text}" for page in pages for number, line in enumerate(page.read_text().splitlines(), 1) for text in wrong_in(page, line)]
    print("\n".join(wrong), end="\n" if wrong else "")
    return 1 if wrong else 0


if __name__ == "__main__":
    sys.exit(main())
