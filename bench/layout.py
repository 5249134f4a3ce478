#!/usr/bin/env python3
"""Names the files of the crates that aren't laid out as `rt fmt` lays them out, some seconds before `rt ci` would, and changes none.

    python3 bench/layout.py

Its status is 1 where there is one.
"""

import filecmp
import shutil
import subprocess
import sys
import tempfile
from concurrent.futures import ThreadPoolExecutor
from pathlib import Path

ROOT = Path(__file__).resolve().parent.parent
PARTS = ("src", "specs", "proofs")


def lay_out(crate):
    """Lays out one crate of the copy; what `rt fmt` said where it couldn't."""
    done = subprocess.run(["rt", "fmt"], cwd=crate, capture_output=True, text=True, check=False)
    return "" if done.returncode == 0 else f"{crate.name}: {done.stdout}{done.stderr}"


def main():
    with tempfile.TemporaryDirectory() as room:
        copy = Path(room)
        shutil.copy(ROOT / "crates.txt", copy)
        crates = sorted(crate for crate in (ROOT / "crates").iterdir() if (crate / "src").is_dir())
        for crate in crates:
            for part in PARTS:
                if (crate / part).is_dir():
                    shutil.copytree(crate / part, copy / "crates" / crate.name / part)
        with ThreadPoolExecutor() as pool:
            faults = [said for said in pool.map(lay_out, sorted((copy / "crates").iterdir())) if said]
        for crate in crates:
            for part in PARTS:
                for file in sorted((crate / part).rglob("*.*")):
                    place = file.relative_to(ROOT)
                    if file.is_file() and not filecmp.cmp(file, copy / place, shallow=False):
                        faults.append(f"{place} isn't laid out: run `rt fmt` in crates/{crate.name}")
    print("\n".join(faults) or "every file is laid out")
    sys.exit(1 if faults else 0)


if __name__ == "__main__":
    main()
