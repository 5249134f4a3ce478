#!/usr/bin/env python3
"""Shows where a program's time goes, script by script, as `perf` sees it.

    python3 bench/profile.py SCRIPTS PROGRAM [--only NAME,NAME]

Runs PROGRAM on each `NAME.script` of the folder SCRIPTS, with the arguments in `NAME.args`, under `perf record -e cpu-clock`, and prints a
table: of each script's time the share, in hundredths, that falls on each part. Functions of the program count by their crate, those of
the C library and of the system by what they do; a function that a compiler has put into another counts there. It needs Debian's linux-perf.
"""

import argparse
import collections
import re
import subprocess
import tempfile
from pathlib import Path

# What each part is of: the beginnings of names of functions, the first that fits.
PARTS = [
    ("moves", r"_*(memmove|memcpy|memset)"),
    ("memory", r"_*(malloc|free|cfree|realloc|int_(malloc|free|realloc)|sysmalloc|unlink_chunk|rattle_(alloc|dealloc|realloc))"),
    ("names", r"(core::(cmp::slices|slice::scan)|datasets::(place|clones|file_systems)|base::name|limits::place)"),
    ("line", r"(script|runner|zfsp|hex|memchr|std::io|core::(fmt|num|str)|std_alloc::(vec|string)|base::text)"),
    ("numbers", r"zalloc"),
    ("survey", r"batch"),
    ("tree", r"(tree|node|std_alloc::arc)"),
    ("image", r"image::"),
    ("dead lists", r"(deadlist|shared_list|snap::(freeing|piece|tops)|lookups|stream|sha2)"),
    ("limits", r"limits"),
    ("datasets", r"(datasets|file_system|snapshots|snap|removals|marks|receives|model)::"),
    ("step", r"(pool|steps)::"),
]


def main():
    options = argparse.ArgumentParser(description=__doc__, formatter_class=argparse.RawDescriptionHelpFormatter)
    options.add_argument("scripts", type=Path)
    options.add_argument("program", type=Path)
    options.add_argument("--only", default="")
    options = options.parse_args()
    scripts = sorted(options.scripts.glob("*.script"))
    if options.only:
        scripts = [options.scripts / f"{name}.script" for name in options.only.split(",")]
    heads = [name for name, _ in PARTS] + ["system", "other"]
    print("| Script | " + " | ".join(heads) + " |")
    print("|---" * (len(heads) + 1) + "|")
    for script in scripts:
        shares = profile(options.program.resolve(), script)
        print(f"| {script.stem} | " + " | ".join(f"{shares[head]:.0f}" for head in heads) + " |", flush=True)


def profile(program, script):
    """The share of each part in the time of a run."""
    words = script.with_suffix(".args").read_text().split()
    with tempfile.NamedTemporaryFile() as data:
        record = ["perf", "record", "-q", "-e", "cpu-clock", "-F", "2000", "-o", data.name, "--", program, *words]
        with script.open() as lines:
            subprocess.run(record, stdin=lines, stdout=subprocess.DEVNULL, stderr=subprocess.DEVNULL, check=False)
        report = ["perf", "report", "-i", data.name, "--no-children", "-s", "symbol", "-t", "|"]
        told = subprocess.run(report, capture_output=True, text=True, check=True).stdout
    shares = collections.Counter()
    for line in told.splitlines():
        found = re.match(r"\s*([0-9.]+)%\s*\|\s*\[(.)\]\s*(.*?)\s*(\||$)", line)
        if found:
            shares[part_of(found[2], found[3])] += float(found[1])
    return shares


def part_of(place, function):
    """The part that a function is of."""
    if place == "k":
        return "system"
    return next((name for name, beginning in PARTS if re.match(beginning, function)), "other")


if __name__ == "__main__":
    main()
