#!/usr/bin/env python3
"""Must-fail edits: those of crates/NAME/must-fail, which the gate tries, and those of edits/NAME, which it leaves out for time.

  .ci/edits.py                        whether each edit of both kinds can be applied: each of its old texts stands in its file exactly once
  .ci/edits.py try NAME..             has the prover refuse all edits of these crates, both kinds, in a copy of what is committed
  .ci/edits.py try --changed BASE     those of the crates that differ from the commit BASE
  .ci/edits.py try --all              those of all crates

A try proves each crate once more, and first all that it stands on, one crate after another: hours where nothing is proved yet. The copy stays in
the folder `automizer/edits` of the user's cache, so a later try proves only what has changed. It ends with a line for each edit and a table; its
status is 0 where each edit was refused.
"""
import collections
import fcntl
import glob
import os
import re
import shutil
import subprocess
import sys

TOP = os.path.dirname(os.path.dirname(os.path.abspath(__file__)))

# Not below the checkout, where `rt ci` would take the crates of the copy for the checkout's.
ROOM = os.path.join(os.environ.get("XDG_CACHE_HOME") or os.path.expanduser("~/.cache"), "automizer", "edits")

# What `rt must-fail` says of an edit, and how the table calls it.
ENDS = {
    "refused, as it must be (only": "barely",
    "refused, as it must be": "refused",
    "NOT REFUSED": "passes",
    "BAD EDIT": "bad",
    "NOT TRIED": "untried",
}


def edits_of(name):
    """The paths of a crate's edits, of both kinds."""
    return sorted(glob.glob(f"{TOP}/crates/{name}/must-fail/*.edit") + glob.glob(f"{TOP}/edits/{name}/*.edit"))


def wrong_with(name, edit):
    """What is wrong with an edit, as texts."""
    with open(edit, encoding="utf-8") as it:
        lines = it.read().split("\n")
    label = os.path.relpath(edit, TOP)
    wrong, text, olds, news = [], None, 0, 0
    for line in lines:
        if line.startswith("file: "):
            path = f"{TOP}/crates/{name}/{line[6:].strip()}"
            if not os.path.isfile(path):
                return [f"{label}: {line[6:]} is not there"]
            with open(path, encoding="utf-8") as it:
                text = it.read()
        elif line.startswith("old: "):
            olds += 1
            if text is None or text.count(line[5:]) != 1:
                wrong.append(f"{label}: not once in the file: {line[5:]}")
        elif line.startswith("new: "):
            news += 1
    if not olds or olds != news:
        wrong.append(f"{label}: not pairs of texts")
    return wrong


def crates():
    return sorted(name for name in {*os.listdir(f"{TOP}/crates"), *os.listdir(f"{TOP}/edits")} if edits_of(name))


def check():
    wrong = [it for name in crates() for edit in edits_of(name) for it in wrong_with(name, edit)]
    wrong += [f"edits/{name}: there is no such crate" for name in os.listdir(f"{TOP}/edits") if not os.path.isdir(f"{TOP}/crates/{name}")]
    print("\n".join(wrong), end="\n" if wrong else "")
    return 1 if wrong else 0


def changed(base):
    """The crates with edits of which a file differs between a commit and the newest one."""
    said = subprocess.run(["git", "diff", "--name-only", base, "HEAD", "--", "crates", "edits"], cwd=TOP, check=True, capture_output=True, text=True).stdout
    return sorted({path.split("/")[1] for path in said.split()} & set(crates()))


def bring(copy):
    """Makes the copy what is committed; what was proved in it stays."""
    if not os.path.isdir(f"{copy}/.git"):
        subprocess.run(["git", "clone", "-q", "--no-checkout", TOP, copy], check=True)
    for words in [["fetch", "-q", TOP, "HEAD"], ["checkout", "-q", "--force", "--detach", "FETCH_HEAD"], ["clean", "-q", "--force", "-d"]]:
        subprocess.run(["git", *words], cwd=copy, check=True)


def give_edits(names, copy):
    """Has these crates alone have edits in the copy, and all of theirs, and tells how many each has."""
    for folder in glob.glob(f"{copy}/crates/*/must-fail"):
        if os.path.basename(os.path.dirname(folder)) not in names:
            shutil.rmtree(folder)
    for name in names:
        there = f"{copy}/crates/{name}/must-fail"
        os.makedirs(there, exist_ok=True)
        for edit in glob.glob(f"{copy}/edits/{name}/*.edit"):
            os.rename(edit, f"{there}/{os.path.basename(edit)}")
    return {name: len(glob.glob(f"{copy}/crates/{name}/must-fail/*.edit")) for name in names}


def try_all(names):
    found = collections.defaultdict(collections.Counter)
    os.makedirs(ROOM, exist_ok=True)
    with open(f"{ROOM}/lock", "w", encoding="utf-8") as lock:
        fcntl.flock(lock, fcntl.LOCK_EX)
        copy = f"{ROOM}/copy"
        bring(copy)
        count = give_edits(names, copy)
        how = {"cwd": copy, "stdout": subprocess.PIPE, "text": True, "errors": "replace"}
        with subprocess.Popen(["rt", "must-fail", *names], **how) as run:
            for line in run.stdout:
                told = re.search(r"must-fail (\w+)/[\w.-]+: (.*)", line)
                end = told and next((it for it in ENDS if told[2].startswith(it)), None)
                if end:
                    found[told[1]][ENDS[end]] += 1
                if end or "NOT PROVED" in line:
                    print(line.removeprefix("rt: "), end="", flush=True)
    width = max(len(name) for name in names)
    print(f"{'crate':{width}} edits " + " ".join(f"{it:>7}" for it in ENDS.values()))
    for name in names:
        print(f"{name:{width}} {count[name]:5} " + " ".join(f"{found[name][it]:7}" for it in ENDS.values()))
    refused = sum(it["refused"] + it["barely"] for it in found.values())
    print(f"{refused} of {sum(count.values())} refused")
    return 0 if refused == sum(count.values()) else 1


def main(words):
    if not words:
        return check()
    if words[0] != "try" or len(words) < 2:
        sys.exit(__doc__)
    if words[1] == "--all" and len(words) == 2:
        names = crates()
    elif words[1] == "--changed" and len(words) == 3:
        names = changed(words[2])
    elif not words[1].startswith("-"):
        names = words[1:]
    else:
        sys.exit(__doc__)
    unknown = [name for name in names if not edits_of(name)]
    if unknown:
        sys.exit(f"no edits of {' '.join(unknown)}")
    if not names:
        print("no crate with edits has changed")
        return 0
    return try_all(names)


if __name__ == "__main__":
    sys.exit(main(sys.argv[1:]))
