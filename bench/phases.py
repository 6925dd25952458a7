#!/usr/bin/env python3
"""Tells where `verify` spends its instructions, phase by phase: phases.py FOLDER [SECONDS] [--program PROGRAM]

Each program PROGRAM.bpl of the folder is verified by one worker under callgrind, with a limit of so many seconds; one that does not end is left
out. A phase is a few functions that do not call each other, and takes what they take with all that they call. For each program the millions of
instructions are printed and the share of each phase, and at the end the mean of each share over the safe programs. What is in no phase is
reading, starting and stopping, and the rest of a round. The names of functions are those of a build by the toolchain: `tools/unproved.py` makes
one that has them. It wants valgrind, as Debian's package has it."""
import argparse
import pathlib
import re
import subprocess
import sys
import tempfile

TOP = pathlib.Path(__file__).resolve().parent.parent
PROGRAM = TOP / "crates" / "automizer" / "out" / "automizer"
PHASES = {
    "lowering": ["boogie_parse::whole_text::parse", "boogie_types::resolving::resolve", "icfg_lower::programs::lower"],
    "walks": ["race_rounds::concrete_walks::walks::Walk::next"],
    "refutations": ["path_decide::deciding::decided", "path_decide::deciding::late_path", "path_decide::deciding::lemma_path"],
    "predicates": ["nested_itp::making::interpolants"],
    "saturation": ["itp_automaton::settling::settle_all"],
    "differences": ["race_workers::offering::kept_behind"],
    "annotation": ["race_verdicts::verdicts::verdict_of"],
}


class Profile:
    """What each function took with all that it called, by callgrind's annotation, and the whole."""

    def __init__(self, annotated: str) -> None:
        self.whole, self.took = 0, {}
        for line in annotated.split("\n"):
            found = re.match(r"\s*([\d,]+) \(\s*[\d.]+%\)\s+(.*)", line)
            if not found:
                continue
            count = int(found[1].replace(",", ""))
            if found[2].startswith("PROGRAM TOTALS"):
                self.whole = count
                continue
            name = re.sub(r"::<#.*|'\d+.*| \[.*", "", found[2].split(":", 1)[-1])
            self.took[name] = max(count, self.took.get(name, 0))

    def share(self, functions: list[str]) -> float:
        return sum(self.took.get(name, 0) for name in functions) / max(1, self.whole)


def profiled(program: str, path: pathlib.Path, limit: float, kept: pathlib.Path) -> tuple[str, Profile] | None:
    """The verdict on a program and the profile of its verification, where it ends in time."""
    words = ["valgrind", "--tool=callgrind", f"--callgrind-out-file={kept}", program, "verify", str(path), "--workers", "1"]
    try:
        run = subprocess.run(words, capture_output=True, timeout=limit)
    except subprocess.TimeoutExpired:
        return None
    listed = subprocess.run(["callgrind_annotate", "--inclusive=yes", "--threshold=100", str(kept)], capture_output=True, check=True)
    return run.stdout.decode().split("\n")[0], Profile(listed.stdout.decode())


def main() -> None:
    parser = argparse.ArgumentParser(description=__doc__)
    parser.add_argument("folder", type=pathlib.Path)
    parser.add_argument("seconds", type=float, nargs="?", default=60.0)
    parser.add_argument("--program", default=str(PROGRAM), help="the program, where it is not the proved one")
    given = parser.parse_args()
    if not pathlib.Path(given.program).exists():
        sys.exit("the proved program is not built: cd crates/automizer && rt run")
    safe: list[Profile] = []
    with tempfile.TemporaryDirectory() as folder:
        for path in sorted(given.folder.glob("*.bpl")):
            found = profiled(given.program, path, given.seconds, pathlib.Path(folder) / "profile")
            if found is None:
                print(f"{path.stem}: not in {given.seconds:g} s", flush=True)
                continue
            verdict, profile = found
            shares = ", ".join(f"{phase} {profile.share(functions):.0%}" for phase, functions in PHASES.items())
            print(f"{path.stem}: {verdict}, {profile.whole / 1e6:.1f} million, {shares}", flush=True)
            if verdict == "safe":
                safe.append(profile)
    if safe:
        means = ", ".join(f"{phase} {sum(p.share(functions) for p in safe) / len(safe):.0%}" for phase, functions in PHASES.items())
        print(f"mean of {len(safe)} safe programs: {means}")


if __name__ == "__main__":
    main()
