#!/usr/bin/env python3
"""Brings the static library of crates/yuzgont_c up to date, over the libraries that `rt ci` has proved, whatever earlier runs have left.

    rt ci && python3 hosts/library.py

The library is crates/yuzgont_c/out/libyuzgont_c.a, where `rt lib` makes it. Where it was made here of the texts as they stand, nothing is done: a
stamp beside it has the sum of all texts that it stands on, of the kit, and of the library itself. Else the libraries below yuzgont_c are taken from
what `rt ci` has kept of the same texts (bench/libraries.py). Those that it hasn't kept, as where the disk was too full, are named, and proved
first, one after another, each with a line before it. `rt ci` proves yuzgont_c and leaves nothing of it to build from, so the build checks that one
crate, which has the exports alone, over what a check of it has left here or in another checkout, where there is such work. The status is that of
the build.
"""

import sys
import tempfile
import time
from pathlib import Path

ROOT = Path(__file__).resolve().parent.parent
sys.path.insert(0, str(ROOT / "bench"))

from libraries import Libraries  # noqa: E402

NAME = "yuzgont_c"


def say(text):
    print(f"library: {text}", flush=True)


def quietly(crate, build):
    """The status of a build, whose last lines are printed where it fails."""
    with tempfile.TemporaryFile("w+", errors="replace") as crate.out:
        status = build()
        crate.out.seek(0)
        print("\n".join(crate.out.read().splitlines()[-30:] * bool(status)), end="\n" * bool(status))
    crate.out = sys.stdout
    return status


def make_missing(libraries, missing):
    """Proves the libraries that `rt ci` has not kept, from nothing and as it does; the status."""
    if missing:
        say(f"{len(missing)} are missing, as rt ci has not kept them: {' '.join(it.name for it in missing)}")
    for number, crate in enumerate(missing, 1):
        say(f"proving {crate.name}, {number} of {len(missing)}")
        crate.cuts_libraries = True
        if quietly(crate, lambda crate=crate: crate.build_rlib(["--jobs", str(libraries.rt.processors())], anew=True)):
            say(f"{crate.name} is not proved")
            return 1
        (Path(crate.rlib).parent / "stamp").write_text(crate.stamp())
    return 0


def make(libraries, crate, archive):
    """Makes the library; the status."""
    below, begun = crate.below(), time.monotonic()
    status = make_missing(libraries, libraries.take(below))
    if status:
        return status
    archive.parent.mkdir(exist_ok=True)
    libraries.rt.adopt(crate)
    say(f"{archive.relative_to(ROOT)} is made over {len(below)} proved libraries, with a check of {NAME} alone")
    status = quietly(crate, lambda: crate.build_static([]))
    say(f"{'not made' if status else 'made'}, {time.monotonic() - begun:.0f} s")
    return status


def main():
    libraries = Libraries()
    crate, sum_of = libraries.crate(NAME), libraries.rt.rtlib.sum_of
    crate.held = libraries.rt.rtlib.lock([*crate.below(), crate])
    archive = Path(crate.folder) / "out" / f"lib{NAME}.a"
    stamp, texts = archive.with_suffix(".a.stamp"), crate.stamp()
    if archive.is_file() and stamp.is_file() and stamp.read_text() == texts + sum_of(str(archive)):
        say(f"{archive.relative_to(ROOT)} was made of these texts")
        return 0
    stamp.unlink(missing_ok=True)
    status = make(libraries, crate, archive)
    # An edit during the build leaves no stamp.
    if status == 0 and texts == Libraries().crate(NAME).stamp():
        stamp.write_text(texts + sum_of(str(archive)))
    return status


if __name__ == "__main__":
    sys.exit(main())
