#!/usr/bin/env python3
"""Gives crates the libraries that `rt ci` has proved of the same texts, and says which of them are missing.

    python3 bench/libraries.py [CRATE ..]

`rt ci` keeps what it has proved beside the toolchain, by the digests of all that it read, and takes it from there in whatever checkout it runs.
Other commands want a library in crates/NAME/out with a stamp beside it, which `rt ci` doesn't leave, and would prove it once more. This script
puts what is kept there, with the stamp, and proves nothing. With names, only the libraries below those crates are asked for, and their own. It
prints what is missing; its status is 1 where something is.
"""

import argparse
import hashlib
import json
import os
import shutil
import sys
import tempfile
from importlib import machinery, util
from pathlib import Path

ROOT = Path(__file__).resolve().parent.parent


def rt_itself():
    """The toolchain's own `rt`, whose functions read crates.txt, know what is kept, and run one check of a copy."""
    sys.dont_write_bytecode = True
    place = shutil.which("rt") or sys.exit("no rt on the PATH")
    loader = machinery.SourceFileLoader("rt_itself", os.path.realpath(place))
    made = util.module_from_spec(util.spec_from_loader("rt_itself", loader))
    loader.exec_module(made)
    return made


class Libraries:
    """The crates of a tree, and what `rt ci` has kept of their texts."""

    def __init__(self, root=ROOT):
        self.rt = rt_itself()
        # Its first call sets a signal's handler, which only the main thread may.
        self.rt.rtlib.guarded()
        self.rt.Crate.allowed = self.rt.handles_of(str(root))
        self.crates = self.rt.crates_of(str(root))
        self.kept = self.rt.Kept(self.crates)

    def crate(self, name):
        return next((it for it in self.crates if it.name == name), None)

    def entry(self, crate, tests=False):
        """The folder in which `rt ci` has kept the proof of a crate, or of its tests, and its files with their sums; None where it hasn't. Those
        below must have been asked for before."""
        if not self.kept.at or any(it.name not in self.kept.rlibs for it in crate.below()):
            return None
        folder = Path(self.kept.place(crate, tests, self.kept.key(crate)))
        try:
            files = [(path, total) for path, total in json.loads((folder / "made.json").read_text())["files"]]
        except (OSError, ValueError, KeyError, TypeError):
            return None
        if not tests:
            # what the keys of the crates above are made of, as `rt ci` makes it of the files themselves
            self.kept.rlibs[crate.name] = hashlib.sha256(repr(files).encode()).hexdigest()
        return folder, files

    def proved(self):
        """The names of the crates whose proofs are kept."""
        return [it.name for it in self.crates if self.entry(it)]

    def put(self, crate):
        """Puts a kept library in its place, unless it stands there; whether it is there now."""
        found = self.entry(crate)
        if not found:
            return False
        folder, files = found
        place, head = Path(crate.folder) / "out" / "rlib", f"rlib/{crate.name}.rlib/format"
        if crate.is_built() and self.rt.rtlib.sum_of(f"{crate.folder}/out/{head}") == dict(files).get(head):
            return True
        place.parent.mkdir(exist_ok=True)
        with tempfile.TemporaryDirectory(prefix="libraries-", dir=place.parent) as room:
            for number, (path, total) in enumerate(files):
                to = Path(room, path)
                to.parent.mkdir(parents=True, exist_ok=True)
                self.rt.link_or_copy(folder / str(number), to)
                if self.rt.rtlib.sum_of(str(to)) != total:
                    return False
            Path(room, "rlib", "stamp").write_text(crate.stamp())
            shutil.rmtree(place, ignore_errors=True)
            os.rename(Path(room, "rlib"), place)
        return True

    def take(self, crates):
        """Puts the kept libraries of these crates and of those below them in their places; the crates whose libraries are missing."""
        wanted = {it.name for crate in crates for it in [*crate.below(), crate] if it.makes_rlib()}
        return [it for it in self.crates if it.name in wanted and not self.put(it)]


def main():
    options = argparse.ArgumentParser(description=__doc__, formatter_class=argparse.RawDescriptionHelpFormatter)
    options.add_argument("crates", nargs="*")
    names = options.parse_args().crates
    libraries = Libraries()
    wanted = [libraries.crate(it) or sys.exit(f"libraries: crates.txt has no {it}") for it in names] or libraries.crates
    missing = libraries.take(wanted)
    print(f"missing: {' '.join(it.name for it in missing)}" if missing else "every library is there")
    return 1 if missing else 0


if __name__ == "__main__":
    sys.exit(main())
