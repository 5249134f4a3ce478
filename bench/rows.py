#!/usr/bin/env python3
"""Asks the lines of all rows and examples, and compares the replies with those that stand there.

    python3 bench/rows.py
    python3 bench/rows.py ZFSP [POOL_ROWS] [--only NAME..]

The rows are files rows/NAME.rows. A line of such a file is empty, or a comment that begins with `#`, or one of these:

| Line | Meaning |
|---|---|
| `let X = 5a44 61.. 00` | `{X}` stands for these words, put together, from here on, and in all files where it stands in streams.rows; `61..` is the 1,024 digits of a block that begins so and goes on with zeros |
| `pool 1000 1: a name` | a case begins, of a fresh pool of so many blocks with this id |
| `list => p` | a script line and its reply, which may be `61..`, or `silent` where there is none |
| `for 1 to 256: hold t{} p@s => ok` | the row for each of these numbers, which stand for `{}` |
| `step write p 0 0 61`, `ask list` | the case's walks may take the one line, and ask the other |
| `walk 7 500` | 500 of its steps are taken, by numbers from 7 on: after each `abandon` that is done its questions are answered as they were after the last `sync` |
| `meters 6 36 3` | the row above reached 6 nodes of trees at least and 36 at most, and 3 segments and entries of dead lists at most |

In a row `{0x7f}` stands for that byte. An example is a case too: its first line names the pool, and its replies are in the file beside it.

Without a program it is bench/plain.py that is asked, so it shows where a row or an example and the definition disagree; in a walk the machine takes
the first lawful reply, and it has no meters. ZFSP is asked all lines of a case as one script. POOL_ROWS, the built pool_rows, is asked each line by
`apply`, and in another pool by `prepare` and `commit`, with the meters; a line that ends with a carriage return it can't be asked. --only takes the
rows of these files alone.

The script prints the first row of a case that is wrong, and how many cases and lines agree. Its status is 1 where a case is wrong.
"""

import argparse
import re
import subprocess
import sys
from concurrent.futures import ProcessPoolExecutor
from dataclasses import dataclass, field
from pathlib import Path

import plain
from judge import Judge

ROOT = Path(__file__).resolve().parent.parent
DATA, EXAMPLES = ROOT / "rows", ROOT / "examples"
# The streams that rows of other files name.
STREAMS = DATA / "streams.rows"


@dataclass
class Row:
    """A line, its reply, None where there is none, and what it may reach: the fewest and the most nodes, and the most segments."""

    line: bytes
    wanted: str | None
    meters: tuple[int, int, int] | None = None


@dataclass
class Walk:
    """So many steps, chosen by pseudorandom numbers from this one on."""

    number: int
    steps: int
    lines: list[bytes]
    questions: list[bytes]

    def taken(self):
        """The lines of its steps."""
        number = self.number
        for _ in range(self.steps):
            number = (number * 1664525 + 1013904223) % 2**32
            yield self.lines[(number >> 8) % len(self.lines)]

    def fault(self, answer):
        """What is wrong in the walk on a pool that gives these answers. The questions come after each sync and each abandon."""
        kept = [answer(it, None) for it in self.questions]
        for taken, line in enumerate(self.taken()):
            reply = answer(line, None)
            if line in (b"sync", b"abandon"):
                answers = [answer(it, None) for it in self.questions]
                if line == b"sync":
                    kept = answers
                elif reply == "ok" and answers != kept:
                    return f"after {taken} steps of the walk by {self.number} an abandon leaves other answers than the last sync"
        return ""


@dataclass
class Case:
    """What a case asks of a fresh pool, in order."""

    name: str
    blocks: int
    number: int
    parts: list = field(default_factory=list)
    steps: list[bytes] = field(default_factory=list)
    questions: list[bytes] = field(default_factory=list)

    def count(self):
        """How many lines it asks, but for the questions of its walks."""
        return sum(it.steps if isinstance(it, Walk) else 1 for it in self.parts)

    def fault(self, pool):
        """The first row of the case that is wrong on a pool, or nothing. All are asked, whatever is answered."""
        faults = [it.fault(pool.answer) if isinstance(it, Walk) else pool.fault(it) for it in self.parts]
        return next((f"{self.name}: {it}" for it in faults if it), "")


class Rows:
    """The cases of files, one after another."""

    def __init__(self, texts):
        self.texts, self.cases = texts, []

    def filled(self, text, number=0):
        """A line with the text that each word in braces stands for."""
        words = {"": str(number), **self.texts}
        return re.sub("{(.*?)}", lambda it: chr(int(it[1], 16)) if it[1].startswith("0x") else words[it[1]], text).encode("latin-1")

    def add(self, part):
        self.cases[-1].parts.append(part)

    def row(self, row, number=0):
        line, reply = row.split(" => ")
        wanted = None if reply == "silent" else self.filled(reply, number).decode() if "{" in reply else padded(reply)
        self.add(Row(self.filled(line, number), wanted))

    def line(self, line):
        word, _, rest = line.partition(" ")
        if word == "pool" and " => " not in line:
            sizes, name = rest.split(": ", 1)
            self.cases.append(Case(name, *map(int, sizes.split())))
        elif word == "let":
            name, words = rest.split(" = ")
            self.texts[name] = "".join(map(padded, words.split(" ")))
        elif word == "step":
            self.cases[-1].steps.append(self.filled(rest))
        elif word == "ask":
            self.cases[-1].questions.append(self.filled(rest))
        elif word == "walk":
            self.add(Walk(*map(int, rest.split()), self.cases[-1].steps, self.cases[-1].questions))
        elif word == "for":
            numbers, row = rest.split(": ", 1)
            first, last = map(int, numbers.split(" to "))
            for number in range(first, last + 1):
                self.row(row, number)
        elif word == "meters":
            self.cases[-1].parts[-1].meters = tuple(map(int, rest.split()))
        else:
            self.row(line)


class Plain:
    """A pool of the plain machine. It gives the reply that is wanted, where that is lawful, and else all that are."""

    def __init__(self, case):
        self.judge = Judge(plain, case.blocks, case.number)

    def answer(self, line, wanted):
        lawful = self.judge.lawful(line)
        reply = next(iter(lawful)) if wanted is None and None not in lawful else wanted
        return reply if self.judge.follow(line, lawful, reply) else " or ".join(map(str, lawful))

    def fault(self, row):
        return differs(row.line, self.answer(row.line, row.wanted), row.wanted)


class Zfsp:
    """A pool of the built zfsp. The lines that a case asks are written down first; then they are one script, and its replies are read."""

    def __init__(self, program):
        self.program, self.asked, self.told = program, [], None

    def run(self, case):
        case.fault(self)
        status, self.told = told(self.asked, self.program, str(case.blocks), str(case.number))
        wrong = case.fault(self)
        if not wrong and (status or next(self.told, None) is not None):
            return f"{case.name}: status {status}, or more replies than lines"
        return wrong

    def answer(self, line, _wanted=None):
        if self.told is None:
            self.asked.append(line)
            return None
        return next(self.told, None)

    def fault(self, row):
        if self.told is not None and row.wanted is None:
            return ""
        return differs(row.line, self.answer(row.line), row.wanted)


class PoolRows:
    """Two pools of the built pool_rows: the one is asked by `apply`, the other by `prepare` and `commit`."""

    def __init__(self, program):
        self.program, self.rows, self.told = program, [], None

    def run(self, case):
        for pool in "01":
            self.tell(f"{pool} make {case.number} {case.blocks}".encode())
        case.fault(self)
        status, self.told = told(self.rows, self.program)
        made = [self.tell(b"") for _ in "01"]
        if (status, made) != (0, ["ok", "ok"]):
            return f"{case.name}: status {status}, pools {made}"
        return case.fault(self) or (f"{case.name}: more is told than rows ask" if next(self.told, None) is not None else "")

    def tell(self, row):
        """What a row tells; zeros while the rows are written down, for what counts with it."""
        if self.told is None:
            self.rows.append(row)
            return "0 0"
        return next(self.told, "")

    def answer(self, line, _wanted=None):
        """The reply to a line in both ways."""
        replies = [self.tell(b"0 apply " + line), self.tell(b"1 two " + line)]
        return replies[0] if replies[0] == replies[1] else f"{replies[0]} at once, {replies[1]} in two"

    def reached(self, pool):
        return [int(it) for it in self.tell(f"{pool} meters".encode()).split()]

    def fault(self, row):
        if row.line.endswith(b"\r"):
            return ""
        return self.replied(row) if row.meters is None else self.measured(row)

    def replied(self, row):
        """A line that has no reply tells an empty one."""
        return differs(row.line, self.answer(row.line), row.wanted or "")

    def measured(self, row):
        """A row with what it reaches. `two` prepares it and leaves it before it prepares and commits it, as `left` does, which is asked first."""
        at_once, begun = self.reached(0), self.reached(1)
        self.tell(b"1 left " + row.line)
        left = self.reached(1)
        wrong = self.replied(row)
        one = [new - old for old, new in zip(at_once, self.reached(0))]
        other = [new - 2 * middle + old for old, middle, new in zip(begun, left, self.reached(1))]
        least, most, few = row.meters
        for nodes, segments in (one, other):
            if self.told is not None and not (least <= nodes <= most and segments <= few):
                return wrong or f"{row.line.decode()}: reached {nodes} nodes and {segments} segments, wanted {row.meters}"
        return wrong


def told(lines, *command):
    """The status of a program that is asked these lines, and the lines that it prints."""
    done = subprocess.run(command, input=b"".join(it + b"\n" for it in lines), stdout=subprocess.PIPE, check=False)
    return done.returncode, iter(done.stdout.decode().splitlines())


def padded(word):
    """A word, with zeros up to a block's digits in the place of `..` at its end."""
    return word[:-2].ljust(1024, "0") if word.endswith("..") else word


def differs(line, came, wanted):
    """What is wrong where a line has this reply and is to have another."""
    if came == wanted:
        return ""
    return f"{line.decode('latin-1')[:80]}\n  came   {str(came)[:80]}\n  wanted {str(wanted)[:80]}"


def cases_of(file, texts):
    """The cases of a file, and the texts that it defines for others."""
    rows = Rows(dict(texts))
    if file.suffix == ".script":
        of_example(file, rows)
    else:
        for line in file.read_text().splitlines():
            if line and not line.startswith("#"):
                rows.line(line)
    return rows.cases, rows.texts


def of_example(script, rows):
    """An example as a case. Its first line names the pool's size and id; the replies are in the file beside it."""
    lines = script.read_text().splitlines()
    sizes = re.search(r"`zfsp ([0-9]+) ([0-9]+)`", lines[0])
    rows.cases.append(Case(script.stem, int(sizes[1]), int(sizes[2])))
    asked = [it for it in lines if it and not it.startswith("#")]
    for line, reply in zip(asked, script.with_suffix(".replies").read_text().splitlines(), strict=True):
        rows.add(Row(line.encode(), reply))


def run_file(file, texts, programs):
    """What is wrong in each case of a file that is wrong, how many cases there are, and how many lines they ask."""
    cases, _ = cases_of(file, texts)
    faults = [fault_in(it, programs) for it in cases]
    return [f"{file.name}, {it}" for it in faults if it], len(cases), sum(it.count() for it in cases)


def fault_in(case, programs):
    """The first row of a case that is wrong, on the first of the programs on which one is, or on the plain machine."""
    if not programs:
        return case.fault(Plain(case))
    faults = [kind(program).run(case) for kind, program in zip((Zfsp, PoolRows), programs)]
    return next((f"{Path(program).name}, {it}" for it, program in zip(faults, programs) if it), "")


def files(only):
    """The files of rows, and without names the examples."""
    if only:
        return [DATA / f"{it.removesuffix('.rows')}.rows" for it in only]
    return [STREAMS, *sorted(it for it in DATA.glob("*.rows") if it != STREAMS), *sorted(EXAMPLES.glob("*.script"))]


def main():
    parser = argparse.ArgumentParser(description="Asks the lines of all rows and examples.")
    parser.add_argument("zfsp", nargs="?", metavar="ZFSP", type=Path, help="the built zfsp; bench/plain.py is asked if it is left out")
    parser.add_argument("pool_rows", nargs="?", metavar="POOL_ROWS", type=Path, help="the built pool_rows")
    parser.add_argument("--only", nargs="+", metavar="NAME", help="the rows of these files alone")
    given = parser.parse_args()
    programs = [str(it.resolve()) for it in (given.zfsp, given.pool_rows) if it]
    texts = cases_of(STREAMS, {})[1]
    with ProcessPoolExecutor() as pool:
        asked = [pool.submit(run_file, file, texts, programs) for file in files(given.only)]
        done = [it.result() for it in asked]
    wrong, cases, lines = [it for found, *_ in done for it in found], sum(it[1] for it in done), sum(it[2] for it in done)
    print("".join(f"{it}\n" for it in wrong) + f"{cases - len(wrong)} of {cases} cases agree, of {lines} lines")
    sys.exit(1 if wrong else 0)


if __name__ == "__main__":
    main()
