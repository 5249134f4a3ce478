#!/usr/bin/env python3
"""Refuses each request for memory of a program in turn, and looks at what it answers; and counts what lines ask for.

    python3 bench/refused.py --gate
    python3 bench/refused.py --steady [ZFSP]
    python3 bench/refused.py ZFSP SCRIPT [--blocks N]
    python3 bench/refused.py TESTS TEST

A script is asked of a built zfsp, and then its questions: `list`, all that it answers of the pool and of each dataset and bookmark that was
ever there, and their contents. With one request for memory refused, the program either ends with status 3 and has written a beginning of the
replies; or one line is answered NoMemory, and all else, the questions too, is as if that line were left out; or nothing is missed, and all is
as if nothing was refused: snapshots do without an index by name, and chunks stay small that could have become one. A test of a crate's built
tests (`out/NAME_tests`) passes each time, or has no memory for what it begins with, and says so.

With --steady nothing is refused. The lines of STEADY are asked over and over, and the requests for memory of a round are counted once the pool is
warm: crates/zfsp/out/zfsp's where no ZFSP is named. A count other than that of STEADY is printed, and the exit status is 1: of more requests the
reason is to be found, and fewer are to be written into STEADY.

With --gate the lines of STEADY are counted. Then each script of bench/refused.txt is run with requests refused over crates/zfsp/out/zfsp, from the
first request for memory until none is refused, and each test with `memory` in its name, as `rt ci` has left them. It prints how many requests were
refused. Anything else than the above is printed, and the exit status is 1; so is a script of which no line was refused. The C compiler is the
toolchain's own.
"""

import argparse
import os
import re
import shutil
import subprocess
import sys
import tempfile
from collections import Counter
from concurrent.futures import ThreadPoolExecutor
from pathlib import Path

# How many requests for memory a round of lines makes once the pool is warm: lines between semicolons, about blocks that are there.
STEADY = {
    "write p/a 0 3 62": 1,
    "write p/a 0 3 62; sync": 10,
    "punch p/a 0 3; write p/a 0 3 62": 10,
    "read p/a 0 3": 0,
}
# What comes before the rounds, and how many rounds warm the pool up and how many are counted.
BEFORE = ["create p/a", *(f"write p/a 0 {block} 61" for block in range(10)), "sync"]
WARMING, COUNTED = 20, 1000
ROOT = Path(__file__).resolve().parent.parent
CASES, ZFSP = ROOT / "bench" / "refused.txt", ROOT / "crates" / "zfsp" / "out" / "zfsp"
REFUSED = b"error 25 NoMemory"
FINE = ("refused", "fault", "missed by none", "passed", "unprepared")
TEST = re.compile(r"#\[test\]\s*fn (\w*memory\w*)\(")
PARTS = "usedbydataset usedbysnapshots usedbychildren usedbyrefreservation quota refquota reservation refreservation"
PROPERTIES = f"used available referenced written {PARTS} origin guid createtxg userrefs defer_destroy clones".split()
OF_POOL = "size allocated free freeing waiting group".split()
PLACES = ((0, 0), (0, 1), (0, 5), (0, 9), (0, 16), (1, 0), (255, 4095))

SHIM = r"""
void *dlsym(void *, const char *);
char *getenv(const char *);
long atol(const char *);
int open(const char *, int, ...);
long pwrite(int, const void *, unsigned long, long);

static _Atomic long asked;
static long refused;
static int told;
static void *(*next_malloc)(unsigned long), *(*next_realloc)(void *, unsigned long);

__attribute__((constructor)) static void begin(void) {
    refused = atol(getenv("REFUSED_AT"));
    if (refused == 0) told = open(getenv("ASKED_TO"), 01 | 0100 | 01000, 0600);
    next_malloc = dlsym((void *)-1, "malloc");
    next_realloc = dlsym((void *)-1, "realloc");
}

static int refuses(void) {
    long number = ++asked;
    if (refused == 0) pwrite(told, &number, sizeof number, 0);
    return number == refused;
}

void *malloc(unsigned long size) { return refuses() ? 0 : next_malloc(size); }

void *realloc(void *old, unsigned long size) { return refuses() ? 0 : next_realloc(old, size); }
"""


def compiled(folder):
    """The library that refuses, made by the toolchain's compiler."""
    kit = Path(os.path.realpath(shutil.which("rt") or sys.exit("refused: no rt on the PATH"))).parent.parent / "toolchain" / "bin"
    source, shim = folder / "shim.c", folder / "shim.so"
    source.write_text(SHIM)
    flags = ["-shared", "-fPIC", "-O1", "-nostdlib", "-fuse-ld=lld", f"-B{kit}"]
    subprocess.run([kit / "clang", *flags, "-o", shim, source], check=True)
    return shim


class Machine:
    """A program whose requests for memory can be refused."""

    def __init__(self, shim, command):
        self.shim, self.command = shim, command

    def run(self, lines, refused_at=0, asked=os.devnull):
        """The status, the replies, and what was told of a fault."""
        env = {"LD_PRELOAD": str(self.shim), "ASKED_TO": str(asked), "REFUSED_AT": str(refused_at)}
        script = b"".join(line + b"\n" for line in lines)
        done = subprocess.run(self.command, input=script, capture_output=True, env=env, check=False)
        return done.returncode, done.stdout.splitlines(), done.stderr

    def asks(self, lines):
        """How many requests for memory a run makes."""
        with tempfile.NamedTemporaryFile() as asked:
            self.run(lines, asked=asked.name)
            return int.from_bytes(Path(asked.name).read_bytes(), sys.byteorder)


class Script:
    """A script with its questions, and what becomes of it."""

    def __init__(self, machine, lines):
        self.machine, self.lines = machine, lines
        self.asks = machine.asks(lines)
        names = [it for reply in machine.run([it for line in lines for it in (line, b"list")])[1][1::2] for it in reply.split()]
        self.asked = lines + list(map(str.encode, questions(sorted({it.decode() for it in names}))))
        self.plain = machine.run(self.asked)
        self.without = {}

    def left_out(self, at):
        """The status and the replies without a line."""
        if at not in self.without:
            self.without[at] = self.machine.run(self.asked[:at] + self.asked[at + 1 :])[:2]
        return self.without[at]

    def judge(self, number):
        """What became of a run with one request refused: 'fault', 'refused', 'missed by none', or what is wrong with it."""
        status, replies, told = self.machine.run(self.asked, number)
        if status == 3:
            return "fault" if told and replies == self.plain[1][: len(replies)] else "a fault with other replies"
        if (status, replies) == self.plain[:2]:
            return "missed by none"
        at = next((i for i, pair in enumerate(zip(replies, self.plain[1])) if pair[0] != pair[1]), None)
        if at is None or replies[at] != REFUSED:
            return "other replies, and no line is refused"
        is_left_out = (status, replies[:at] + replies[at + 1 :]) == self.left_out(at)
        return "refused" if is_left_out else f"line {at}, {self.asked[at].decode()[:60]}, is not as left out"


class Test:
    """A test, and what becomes of it."""

    def __init__(self, machine):
        self.machine, self.asks = machine, machine.asks([])
        if machine.run([])[0] != 0:
            sys.exit(f"refused: {machine.command[1]} fails")

    def judge(self, number):
        """What became of a run with one request refused: 'passed', 'unprepared' where what it begins with was refused, or that it failed."""
        status, _, told = self.machine.run([], number)
        return "passed" if status == 0 else "unprepared" if told.startswith(b"memory ") else "the test failed"


def questions(names):
    """All that is asked of a pool in which there were datasets and bookmarks with these names."""
    asked = ["list", *(f"pget {it}" for it in OF_POOL)]
    for name in names:
        asked += [f"get {it} {name}" for it in PROPERTIES]
        asked += [f"holds {name}"] * ("@" in name)
        asked += [f"read {name} {o} {b}" for o, b in PLACES if "#" not in name]
    return asked


def filled(machine, lines):
    """The lines, each `<` with the stream that the line before was answered."""
    done = []
    for line in lines:
        if line.endswith(b" <"):
            line = line[:-1] + machine.run(done)[1][-1]
        done.append(line)
    return done


def zfsp_of(shim, program, blocks=1000):
    """A zfsp over a pool of so many blocks."""
    return Machine(shim, [program, str(blocks), "1"])


def fault_of(lines, told, seen):
    """What is wrong with the requests of a round, None if nothing is."""
    if seen == told:
        return None
    more, advice = ("more", "find out why") if seen > told else ("fewer", f"write {seen:g} into STEADY")
    return f"`{lines}` makes {more} requests for memory than are told: {seen:g} a round, told {told}; {advice}"


def steady(machine):
    """Counts the requests for memory of the lines of STEADY; whether one count is other than is told, which is printed. Looking at the lines ahead
    makes a request in some 256 lines, so a round's count is one to a tenth."""
    faults = []
    for lines, told in STEADY.items():
        warm, counted = ([*BEFORE, *(lines.split("; ") * rounds)] for rounds in (WARMING, WARMING + COUNTED))
        asked = machine.asks(list(map(str.encode, counted))) - machine.asks(list(map(str.encode, warm)))
        faults.append(fault_of(lines, told, round(asked / COUNTED, 1)))
    print("".join(f"steady: {it}\n" for it in faults if it), end="")
    print(f"steady: {faults.count(None)} of {len(faults)} rounds of lines make as many requests for memory as are told")
    return any(faults)


def cases(shim):
    """The names of what the gate runs, with what makes each."""
    zfsp = zfsp_of(shim, ZFSP)
    for line in CASES.read_text().splitlines():
        if line and not line.startswith("#"):
            name, _, lines = line.partition(": ")
            yield name, lambda lines=lines: Script(zfsp, filled(zfsp, [it.strip().encode() for it in lines.split(";")]))
    for source in sorted(ROOT.glob("crates/*_tests/src/*.rt")):
        crate = source.parent.parent
        tests = crate / "out" / f"{crate.name}_tests"
        for name in TEST.findall(source.read_text()):
            test = f"{source.stem}::{name}"
            yield f"{crate.name}, {test}", lambda tests=tests, test=test: Test(Machine(shim, [tests, test]))


def tried(name, subject, workers):
    """Refuses each request of a subject, and counts what became of it; and whether something is wrong, which is printed."""
    verdicts = list(workers.map(subject.judge, range(1, subject.asks + 1)))
    faults = [f"request {number}: {verdict}" for number, verdict in enumerate(verdicts, 1) if verdict not in FINE]
    if isinstance(subject, Script) and "refused" not in verdicts:
        faults.append("no line was refused")
    print("".join(f"{name}: {fault}\n" for fault in faults), end="")
    return Counter(it if it in FINE else "wrong" for it in verdicts), bool(faults)


def text_of(counts):
    return f"{sum(counts.values())} requests for memory: " + ", ".join(f"{counts[it]} {it}" for it in (*FINE, "wrong") if counts[it])


def subjects(words, shim):
    if words.gate:
        return cases(shim)
    program = words.program.resolve()
    if "::" in words.subject:
        return [(words.subject, lambda: Test(Machine(shim, [program, words.subject])))]
    lines = [line for line in Path(words.subject).read_bytes().splitlines() if line and not line.startswith(b"#")]
    return [(words.subject, lambda: Script(zfsp_of(shim, program, words.blocks), lines))]


def main():
    parser = argparse.ArgumentParser(description=__doc__, formatter_class=argparse.RawDescriptionHelpFormatter)
    parser.add_argument("--gate", action="store_true")
    parser.add_argument("--steady", action="store_true")
    parser.add_argument("program", type=Path, nargs="?")
    parser.add_argument("subject", nargs="?", help="a script's file, or a test's name")
    parser.add_argument("--blocks", type=int, default=1000)
    words = parser.parse_args()
    if not words.gate and not words.steady and not words.subject:
        parser.error("a program and a subject, --steady, or --gate")
    total, wrong, done = Counter(), False, 0
    with tempfile.TemporaryDirectory() as folder, ThreadPoolExecutor(os.cpu_count()) as workers:
        shim = compiled(Path(folder))
        if words.gate or words.steady:
            wrong = steady(zfsp_of(shim, words.program.resolve() if words.program else ZFSP))
        if words.steady:
            sys.exit(wrong)
        for name, made in subjects(words, shim):
            counts, is_wrong = tried(name, made(), workers)
            total, wrong, done = total + counts, wrong or is_wrong, done + 1
    print(f"{done} scripts and tests, {text_of(total)}")
    sys.exit(wrong)


if __name__ == "__main__":
    main()
