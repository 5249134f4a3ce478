#!/usr/bin/env python3
"""Lists the definitions that a reader of the main theorem has to believe, or those that a promise needs beside them.

    python3 bench/believed.py [snapshots|quotas|sends|threads|lines|between]

The first are the files of specs/ that the step and the run of `model` use, and what those use. A promise of README.md needs more: those that the
definitions of its contract use, without the first. The rest of specs/ is cited by contracts of single layers, and proved to agree with them.
"""

import argparse
import re
from functools import cache
from pathlib import Path

CRATES = Path(__file__).resolve().parent.parent / "crates"
ROOTS = ("model/specs/Step", "model/specs/Run")
# The definitions that the contract of a promise cites. `between` is what holds of a pool between two steps, and what a request does beside its step.
PROMISES = {
    "snapshots": ("laws/specs/Both",),
    "quotas": ("limits/specs/Limits",),
    "sends": ("laws/specs/Answered", "laws/specs/Sends", "laws/specs/Laws"),
    "threads": ("session/specs/Receipts", "session/specs/Whole", "session/specs/History"),
    "lines": ("script/specs/Run", "script/specs/Lines", "script/specs/Words", "script/specs/Meaning", "script/specs/Text"),
    "between": ("pool/specs/Applied",),
}


def file_of(module):
    """The file of a module such as Rattle.model.specs.World, or of the one that declares it; None outside the repository."""
    _, crate, *path = module.split(".")
    places = [CRATES / crate / "/".join(path[:length]) for length in range(len(path), 0, -1)]
    return next((it.with_suffix(".antt") for it in places if it.with_suffix(".antt").is_file()), None)


@cache
def used_by(roots):
    """The files of these definitions and what they use, each after those that it uses."""
    found = []

    def visit(file):
        if file in found:
            return
        for module in re.findall(r"^(?:pub )?use (Rattle\.[\w+-]+\.specs[\w.+-]*)", file.read_text(), re.M):
            used = file_of(module.rstrip("."))
            if used and used != file:
                visit(used)
        if file not in found:
            found.append(file)

    for root in roots:
        visit(CRATES / f"{root}.antt")
    return found


def believed(promise=None):
    """The files that the step and the run use, or those that a promise needs beside them."""
    if promise is None:
        return used_by(ROOTS)
    return [it for it in used_by(PROMISES[promise]) if it not in used_by(ROOTS)]


def lines_in(file):
    """The lines of a file that are neither empty nor imports."""
    return sum(1 for line in file.read_text().splitlines() if line.strip() and not line.startswith("use "))


def main():
    words = argparse.ArgumentParser(description=__doc__, formatter_class=argparse.RawDescriptionHelpFormatter)
    words.add_argument("promise", nargs="?", choices=PROMISES)
    files, total = believed(words.parse_args().promise), 0
    for file in files:
        lines = lines_in(file)
        total += lines
        print(f"{lines:5} {file.relative_to(CRATES.parent)}")
    every = sum(1 for _ in CRATES.glob("*/specs/**/*.antt"))
    print(f"{len(files)} of {every} files, {total} lines without imports")


if __name__ == "__main__":
    main()
