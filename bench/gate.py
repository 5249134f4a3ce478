#!/usr/bin/env python3
"""Runs the gate on the last commit, in a clone in a folder of its own, and tells where its time went.

    python3 bench/gate.py [--cores 0,1] [--kept] [--log FILE] [--write]

It begins from nothing. Where `rt ci` has kept the proof of no crate of this text, that is with the toolchain itself, and what the run proves stays
kept on this machine; else with a copy of the toolchain by links, beside which nothing is kept yet. With --kept it is the toolchain itself, with all
that was kept on this machine. It prints a line a part of .ci/run, with the minutes by the clock and of the processors, the most memory
and disk that the run took, and a line a crate: its lines of source, how many must-fail edits it has, and the CPU minutes of its proof, of its
tests' proof, and of its edits, those of the part `bodies` among them; and then each edit of must-fail/ that took longer than 30 seconds. A process
is looked at twice a second, so each check may have taken half a second more than is told. Let the machine do nothing else meanwhile.

With --write it puts the run, where it passed, into its column of the table of docs/GATE.md: over kept work, or by how many processors it used.
"""

import argparse
import datetime
import os
import re
import shutil
import subprocess
import tempfile
import time
from collections import Counter, defaultdict
from pathlib import Path

from libraries import Libraries

ROOT = Path(__file__).resolve().parent.parent
PAGE = ROOT / "docs" / "GATE.md"
TICKS = os.sysconf("SC_CLK_TCK")
PART = re.compile(r"(\w+): ([\d.]+) s, ([\d.]+) \+ ([\d.]+) of the processors: (.*)")
# The first line of the page's table, and what ends it.
TABLE = re.compile(r"(?<=<!-- minutes: written by bench/gate.py -->\n)(?:\|.*\n)+(?:\n(?:- .*\n)+)?")
COLUMNS = ("four cores", "two cores", "over kept work")


def crates_of(root):
    """The crates of crates.txt, each after those that it stands on."""
    below = {}
    for line in (root / "crates.txt").read_text().splitlines():
        name, _, deps = line.partition("#")[0].partition(":")
        if name.strip():
            below[name.split()[0]] = deps.split()
    ordered = []
    while len(ordered) < len(below):
        ordered += [name for name in below if name not in ordered and all(dep in ordered or dep not in below for dep in below[name])]
    return ordered


def is_below(process, top):
    """Whether the process was begun by this one, or by one that it began."""
    while process.name not in ("0", "1"):
        if process.name == str(top):
            return True
        process = process.parent / (process / "stat").read_text().rpartition(")")[2].split()[1]
    return False


def look(process, top):
    """What a check that the gate is running is for, and the seconds that it has taken; None of any other process."""
    words = (process / "cmdline").read_bytes().decode(errors="replace").split("\0")
    if not words[0].endswith("/rattle") or "--crate-name" not in words:
        return None
    if not is_below(process, top):
        return None
    crate = words[words.index("--crate-name") + 1]
    is_edit = Path(os.readlink(process / "cwd")).name.startswith("rt-edit-")
    kind = "edits" if is_edit else "tests" if "--test" in words else "proof"
    fields = (process / "stat").read_text().rpartition(")")[2].split()
    return (process.name, fields[19]), (crate, kind), (int(fields[11]) + int(fields[12])) / TICKS


def look_at_all(top, taken):
    """Keeps, by process, the most that was seen of it."""
    for process in Path("/proc").iterdir():
        if process.name.isdigit():
            try:
                seen = look(process, top)
            except (OSError, IndexError):
                continue
            if seen:
                taken[seen[0]] = seen[1:]


def free():
    """The MB of memory that are free, and of the disk of the temporary files."""
    memory = re.search(r"MemAvailable:\s+(\d+)", Path("/proc/meminfo").read_text())
    disk = os.statvfs(tempfile.gettempdir())
    return int(memory[1]) // 1024, disk.f_bavail * disk.f_frsize >> 20


def link_or_copy(one, other):
    try:
        os.link(one, other)
    except OSError:
        shutil.copy2(one, other)


def toolchain_in(room):
    """The path of commands with a copy of the toolchain first, by links, beside which nothing is kept."""
    kit = Path(os.path.realpath(shutil.which("rt"))).parent.parent
    shutil.copytree(kit, room / "toolchain" / kit.name, symlinks=True, copy_function=link_or_copy)
    return f"{room / 'toolchain' / kit.name / 'bin'}:{os.environ['PATH']}"


def run(root, options, path):
    """Runs the gate to its end: its lines, its minutes, the CPU minutes by crate and kind, the CPU seconds of the edits of each crate in their
    order, and the most memory and disk that it took, in MB."""
    words = (["taskset", "-c", options.cores] if options.cores else []) + ["bash", ".ci/run"]
    taken, begun, first = {}, time.monotonic(), free()
    least = first
    with open(options.log, "w", encoding="utf-8") as out:
        gate = subprocess.Popen(words, cwd=root, stdin=subprocess.DEVNULL, stdout=out, stderr=subprocess.STDOUT, env={**os.environ, "PATH": path})
        while gate.poll() is None:
            look_at_all(gate.pid, taken)
            least = tuple(map(min, least, free()))
            time.sleep(0.5)
    sums, tried = Counter(), defaultdict(list)
    for _, (what, seconds) in sorted(taken.items(), key=lambda one: int(one[0][1])):
        sums[what] += seconds / 60
        if what[1] == "edits":
            tried[what[0]].append(seconds)
    lines = Path(options.log).read_text(encoding="utf-8").splitlines()
    return lines, (time.monotonic() - begun) / 60, sums, tried, [a - b for a, b in zip(first, least)]


def lines_of(crate):
    return sum(len(file.read_text(encoding="utf-8").splitlines()) for file in (crate / "src").rglob("*.rt"))


def parts_of(lines):
    """The parts of the gate: the minutes by the clock and of the processors, and the last that each said."""
    found = [it for it in map(PART.fullmatch, lines) if it]
    return {it[1]: (float(it[2]) / 60, (float(it[3]) + float(it[4])) / 60, it[5]) for it in found}


def print_crates(root, sums, tried):
    print("\n| Crate | Lines | Edits | Proof | Tests | Edits' minutes |\n|---|---|---|---|---|---|")
    for name in crates_of(root):
        crate = root / "crates" / name
        edits = len(list((crate / "must-fail").glob("*.edit")))
        told = " | ".join(f"{sums[name, kind]:.1f}" for kind in ("proof", "tests", "edits"))
        print(f"| `{name}` | {lines_of(crate)} | {edits} | {told} |")
    for name in crates_of(root):
        edits = sorted(edit.name for edit in (root / "crates" / name / "must-fail").glob("*.edit"))
        for edit, seconds in list(zip(edits, tried[name]))[1:]:
            if seconds > 30:
                print(f"{name}/{edit}: {seconds:.0f} seconds")


def processor():
    """The kind of processor, in few words."""
    found = re.search(r"model name\s*: (.*)", Path("/proc/cpuinfo").read_text())
    return " ".join(found[1].split()) if found else os.uname().machine


def cells_of(text):
    """The cells of the page's table by part and column, and the line of each column below it."""
    table, _, notes = TABLE.search(text)[0].partition("\n\n")
    rows = [[it.strip() for it in line.strip("|").split("|")] for line in table.splitlines()[2:]]
    told = dict(it.removeprefix("- ").split(": ", 1) for it in notes.splitlines() if it)
    return {row[0]: dict(zip(COLUMNS, row[1:])) for row in rows}, told


def write(column, parts, note):
    """Puts a run into its column of the page's table, which keeps the other columns as they are."""
    text = PAGE.read_text(encoding="utf-8")
    cells, notes = cells_of(text)
    total = {"all": tuple(sum(it[at] for it in parts.values()) for at in (0, 1))}
    for name, (clock, cpu, *_) in {**parts, **total}.items():
        cells.setdefault(name, {})[column] = f"{clock:.1f}, {cpu:.1f}"
    notes[column] = note
    names = [*[it for it in parts if it in cells], "all"]
    made = f"| Part | {' | '.join(COLUMNS)} |\n|{'---|' * (1 + len(COLUMNS))}\n"
    made += "".join(f"| {it} | {' | '.join(cells[it].get(column) or '' for column in COLUMNS)} |\n" for it in names)
    made += "\n" + "".join(f"- {it}: {notes[it]}\n" for it in COLUMNS if it in notes)
    PAGE.write_text(TABLE.sub(lambda _: made, text), encoding="utf-8")


def main():
    options = argparse.ArgumentParser(description=__doc__, formatter_class=argparse.RawDescriptionHelpFormatter)
    options.add_argument("--cores", help="the processors that the gate may use, as taskset names them")
    options.add_argument("--kept", action="store_true")
    options.add_argument("--write", action="store_true")
    options.add_argument("--log", default="gate.log", help="where the gate's own lines go")
    options = options.parse_args()
    with tempfile.TemporaryDirectory() as room:
        root = Path(room) / "repository"
        subprocess.run(["git", "clone", "-q", str(ROOT), str(root)], check=True)
        itself = options.kept or not Libraries(root).proved()
        path = os.environ["PATH"] if itself else toolchain_in(Path(room))
        lines, minutes, sums, tried, (memory, disk) = run(root, options, path)
        parts = parts_of(lines)
        for name, (clock, cpu, said) in parts.items():
            print(f"{name:9} {clock:6.1f} {cpu:6.1f}  {said[:120]}")
        kind = f"{lines[-1]}; {minutes:.1f} minutes on the processors {options.cores or 'all'}, {sum(it[1] for it in parts.values()):.1f} of the processors"
        print(f"{kind}; at most {memory:,} MB of memory and {disk:,} MB of disk")
        print_crates(root, sums, tried)
        if options.write and lines[-1].startswith("the gate passed"):
            cores = len(options.cores.split(",")) if options.cores else os.cpu_count()
            column = COLUMNS[2] if options.kept else COLUMNS[1] if cores <= 2 else COLUMNS[0]
            commit = subprocess.run(["git", "rev-parse", "--short=8", "HEAD"], cwd=root, capture_output=True, text=True, check=True).stdout.strip()
            note = f"{datetime.date.today()}, {processor()}, commit {commit}; at most {memory:,} MB of memory and {disk:,} MB of disk"
            write(column, parts, note)


if __name__ == "__main__":
    main()
