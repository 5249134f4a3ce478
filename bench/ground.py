#!/usr/bin/env python3
"""Tells of the rows of base_rows, ground_rows, tree_rows and snapshot_rows what plain Python values tell, and compares.

    python3 bench/ground.py
    python3 bench/ground.py --write
    python3 bench/ground.py PROGRAM ..

The rows of a crate stand in its stdin, and what they tell in its stdout, which `rt ci` compares with what its program prints. This script was
written from the documentation of the crates: a list is a Python list, an allocator a list of states, and a dead list a list of entries beside a
list of cuts. Without a word it compares the files with what it tells itself, and with --write it writes them.

With the built program of a crate each request for memory of each of its lists of rows in REFUSED is refused in turn. Then one row tells
`error 25 NoMemory`, and all others, of which the last ones look at everything, tell what they do where that row is left out; or the run ends
with status 3 after a beginning of its lines; or nothing is missed. Anything else is printed, and so is a list of which no row was refused; the
exit status is 1 then.
"""

import argparse
import os
import re
import sys
import tempfile
from collections import Counter
from concurrent.futures import ThreadPoolExecutor
from pathlib import Path

import plain
import refused
import snapshot_rows
import tree_rows
from row_words import LETTERS, MASK, PAST, REFUSALS, Refused, Words, error, is_component, is_system, mixed, yes

ROOT = Path(__file__).resolve().parent.parent
CRATES = ROOT / "crates"
FREE, ALLOCATED, WAITING = 1, 2, 3
MOST_BLOCKS = 4194304
BRACES = re.compile("{(.*?)}")


def following(seed):
    return (seed * 6364136223846793005 + 1442695040888963407) & MASK


def parts(told):
    """The kind of what a row tells, and the numbers in it."""
    kinds = {"ok": 1, "none": 2, "unknown": 3, "yes": 4, "no": 4}
    if told in kinds:
        return [kinds[told], int(told == "yes"), 0, 0]
    words = told.split()
    if words[0] == "error":
        return [8, int(words[1]), 0, 0]
    return [4 + len(words), *map(int, words), *[0] * (3 - len(words))]


class Lists:
    def __init__(self):
        self.at = [[], [], [], []]

    def row(self, words):
        call, register = words.word(), words.number()
        return getattr(self, f"do_{call}")(register, self.at[register], words)

    def do_new(self, register, _items, _words):
        self.at[register] = []
        return "ok"

    def do_push(self, _register, items, words):
        items.append(words.number())
        return "ok"

    do_share = do_push

    def do_run(self, _register, items, words):
        first, count = words.number(), words.number()
        items.extend((first + it) & 0xFFFFFFFF for it in range(count))
        return "ok"

    def do_remove(self, _register, items, words):
        at = words.number() % (len(items) + 1)
        if at >= len(items):
            return "none"
        del items[at]
        return "ok"

    def do_thin(self, _register, items, words):
        at, count = words.number() % (len(items) + 1), words.number()
        del items[at : at + count]
        return "ok"

    def do_set(self, _register, items, words):
        at, number = words.number() % (len(items) + 1), words.number()
        if at >= len(items):
            return "none"
        items[at] = number
        return "ok"

    def do_pop(self, _register, items, _words):
        return str(items.pop()) if items else "none"

    def do_split(self, register, items, words):
        to, at = words.number(), words.number() % (len(items) + 1)
        rest = items[at:]
        del items[at:]
        self.at[to], self.at[register] = rest, items
        return "ok"

    def do_append(self, register, items, words):
        other = words.number()
        items.extend(self.at[other])
        self.at[other], self.at[register] = [], items
        return "ok"

    def do_copy(self, register, items, words):
        self.at[words.number()] = list(items)
        self.at[register] = items
        return "ok"

    def do_part(self, _register, items, words):
        number = words.number()
        return str(sum(it < number for it in items))

    def do_around(self, _register, items, words):
        place = int(self.do_part(_register, items, words))
        return " ".join(str(items[it]) if 0 <= it < len(items) else str(PAST) for it in (place - 1, place, place + 1))

    def do_first(self, _register, items, words):
        place = int(self.do_part(_register, items, words))
        return str(items[place]) if place < len(items) else str(PAST)

    def do_look(self, _register, items, _words):
        total = 0
        for it in items:
            total = mixed(total, it)
        return f"{len(items)} {items[-1] if items else PAST} {total}"


def counts(states):
    return f"{states.count(FREE)} {states.count(ALLOCATED)} {states.count(WAITING)}"


def found(states, start):
    try:
        return states.index(FREE, start)
    except ValueError:
        return PAST


def look(states, count):
    total = 0
    for number in range(count):
        total = mixed(total, states[number] if number < len(states) else 0)
    return total


def shown(states):
    free, allocated, waiting = counts(states).split()
    return f"Allocator {{ free: {free}, allocated: {allocated}, waiting: {waiting} }}"


def change(states, number, before, after):
    if number >= len(states) or states[number] != before:
        return "none"
    states[number] = after
    return "ok"


def ended(states):
    return [FREE if it == WAITING else it for it in states]


class Allocators:
    def __init__(self):
        self.at = [None, None]

    def row(self, words):
        call, register = words.word(), min(words.number(), 1)
        if call == "new":
            return self.made(register, words.number())
        states = self.at[register]
        return "none" if states is None else getattr(self, f"do_{call}")(register, states, words)

    def made(self, register, count):
        if count > MOST_BLOCKS:
            return "none"
        self.at[register] = [FREE] * count
        return "ok"

    def do_take(self, _register, states, words):
        return change(states, words.number(), FREE, ALLOCATED)

    def do_release(self, _register, states, words):
        return change(states, words.number(), ALLOCATED, FREE)

    def do_wait(self, _register, states, words):
        return change(states, words.number(), ALLOCATED, WAITING)

    def do_group(self, register, states, _words):
        self.at[register] = ended(states)
        return "ok"

    def do_copy(self, _register, states, words):
        self.at[min(words.number(), 1)] = list(states)
        return "ok"

    def do_state(self, _register, states, words):
        number = words.number()
        return str(states[number] if number < len(states) else 0)

    def do_find(self, _register, states, words):
        return str(found(states, words.number()))

    def do_counts(self, _register, states, _words):
        return counts(states)

    def do_look(self, _register, states, words):
        return str(look(states, words.number()))

    def do_shown(self, _register, states, words):
        return yes(words.rest == shown(states))


class States:
    """Numbers with a present and a synced state, and what the last group's end left in the place of a copy of the synced one."""

    def __init__(self):
        self.present = self.synced = self.kept = None

    def row(self, words):
        call = words.word()
        if call != "new" and self.present is None:
            return "none"
        return getattr(self, f"do_{call}")(words)

    def do_new(self, words):
        count = words.number()
        if count > MOST_BLOCKS:
            return "none"
        self.present, self.synced = [FREE] * count, [FREE] * count
        return "ok"

    def do_turn(self, words, after=FREE):
        number = words.number()
        taken = change(self.present, number, FREE, ALLOCATED)
        return taken if taken == "ok" else change(self.present, number, ALLOCATED, after)

    def do_wait(self, words):
        return self.do_turn(words, WAITING)

    def do_take(self, words):
        return change(self.present, words.number(), FREE, ALLOCATED)

    def do_release(self, words):
        return change(self.present, words.number(), ALLOCATED, FREE)

    def do_group(self, _words):
        self.present = ended(self.present)
        self.synced, self.kept = list(self.present), list(self.present)
        return "ok"

    def do_restore(self, _words):
        self.present = list(self.synced)
        return "ok"

    def do_at(self, words):
        number = words.number()
        present, synced = ((it[number] if number < len(it) else 0) for it in (self.present, self.synced))
        return f"{present} {found(self.present, number)} {synced}"

    def do_counts(self, words):
        return counts(self.synced if words.number() else self.present)

    def do_look(self, words):
        count = words.number()
        kept = 0 if self.kept is None else look(self.kept, count)
        return f"{look(self.present, count)} {look(self.synced, count)} {kept}"

    def do_shown(self, words):
        return yes(words.rest == f"Numbers {{ present: {shown(self.present)}, synced: {shown(self.synced)} }}")


class DeadList:
    def __init__(self):
        self.entries, self.cuts = [], []


class DeadLists:
    """Dead lists. A call tells how many segments it reaches: for a push that is none or all, and it tells that it is one of these. A sum also
    counts entries that it looks at, none of them twice, and no rule says how many: it tells its segments where its count is theirs at least and
    no more than one higher for each entry."""

    def __init__(self):
        self.at = [DeadList() for _ in range(4)]

    def row(self, words):
        call, register = words.word(), words.number()
        return getattr(self, f"do_{call}")(register, self.at[register], words)

    def do_new(self, register, _it, _words):
        self.at[register] = DeadList()
        return "ok"

    def do_push(self, _register, it, words):
        it.entries.append((words.number(), words.long()))
        return "yes"

    def do_two(self, _register, it, words):
        block = words.number()
        it.entries += [(block, words.long()), (block, words.long())]
        return "yes"

    def do_reserve(self, _register, _it, words):
        words.number()
        return "yes"

    def do_cut(self, _register, it, words):
        cut = words.long()
        if cut in it.cuts:
            return "0"
        it.cuts = sorted([*it.cuts, cut])
        return "1"

    def do_join(self, _register, it, words):
        cut = words.long()
        if cut not in it.cuts:
            return "0"
        it.cuts.remove(cut)
        return "2"

    def do_take(self, register, it, words):
        to, cut = words.number(), words.long()
        later = DeadList()
        reached = 1 + sum(at > cut for at in it.cuts)
        later.entries = [entry for entry in it.entries if entry[1] > cut]
        later.cuts = [at for at in it.cuts if at > cut]
        it.entries = [entry for entry in it.entries if entry[1] <= cut]
        it.cuts = [at for at in it.cuts if at <= cut]
        self.at[to], self.at[register] = later, it
        return str(reached)

    def do_append(self, register, it, words):
        other = words.number()
        rest = self.at[other]
        reached = len(it.cuts) + 1 + len(rest.cuts) + 1
        it.entries += rest.entries
        it.cuts = sorted(set(it.cuts) | set(rest.cuts))
        self.at[other], self.at[register] = DeadList(), it
        return str(reached)

    def do_copy(self, register, it, words):
        copy = DeadList()
        copy.entries, copy.cuts = list(it.entries), list(it.cuts)
        self.at[words.number()], self.at[register] = copy, it
        return str(len(it.cuts) + 1)

    def do_look(self, _register, it, _words):
        total = sum(mixed(block, birth) for block, birth in it.entries) & MASK
        return f"{len(it.entries)} {total} {len(it.cuts) + 1}"

    def do_after(self, _register, it, words):
        cut = words.long()
        return f"{sum(birth > cut for _, birth in it.entries)} {1 + sum(at > cut for at in it.cuts)}"

    def do_upto(self, _register, it, words):
        cut = words.long()
        return f"{sum(birth <= cut for _, birth in it.entries)} {sum(at <= cut for at in it.cuts) + (cut not in it.cuts)}"

    def do_cuts(self, _register, it, _words):
        total = 0
        for cut in it.cuts:
            total = mixed(total, cut)
        return f"{len(it.cuts) + 1} {len(it.cuts)} {total}"


def split_member(text, mark):
    """The two parts of a snapshot's or a bookmark's name."""
    system, found_mark, component = text.partition(mark)
    if not found_mark or len(text) > 255 or not is_system(system) or not is_component(component):
        raise Refused("BadName")
    return system, component


def read_name(kind, text):
    """What a name of a kind is, as a value."""
    if kind == "system" and is_system(text) or kind == "component" and is_component(text) and len(text) <= 255:
        return text
    if kind == "tag" and text and set(text) <= LETTERS and len(text) <= 255:
        return text
    if kind in ("snapshot", "bookmark"):
        return split_member(text, "@" if kind == "snapshot" else "#")
    if kind == "target":
        mark = next((it for it in text if it in "@#"), None)
        return (mark, split_member(text, mark)) if mark else read_name("system", text)
    raise Refused("BadName")


def made_name(system, component):
    read_name("system", system)
    read_name("component", component)
    if len(system) + 1 + len(component) > 255:
        raise Refused("BadName")
    return "yes"


def name_row(words):
    call = words.word()
    if call == "read":
        kind, text = words.word(), words.word()
        value = read_name(kind, text)
        given = (words.word(), words.word())
        return yes(value == given if kind in ("snapshot", "bookmark") else True)
    if call == "blank":
        read_name("system", words.rest)
        return "yes"
    if call == "same":
        kind, one, other = words.word(), words.word(), words.word()
        if kind == "member":
            return yes(read_name("snapshot", one) == read_name("bookmark", other))
        return yes(read_name(kind, one) == read_name(kind, other))
    return made_name(words.word(), words.word())


def value_row(words):
    call = words.word()
    if call == "refusal":
        place, name = words.number(), words.word()
        if not 1 <= place <= len(REFUSALS):
            return "none"
        return error(name) if REFUSALS[place - 1] == name else "no"
    if call == "same":
        return yes(words.number() == words.number())
    if call == "limit":
        count = words.long()
        if not 1 <= count <= 1 << 40:
            raise Refused("TooMany")
        return str(count)
    if call == "bytes":
        one, other = words.word(), words.word()
        return f"1 {int(one == other)} {int(one == other)}"
    if call == "compared":
        one, other = words.word().encode(), words.word().encode()
        return f"{int(one == other)} {1 if one < other else 2 if one == other else 3}"
    if call == "blocks":
        return f"1 {int(words.number() & 255 == words.number() & 255)}"
    return {"memory": error("NoMemory"), "grown": "ok", "meters": "1 1", "laws": "ok"}[call]


# Five calls fail, and a device's faults are counted; want of memory is none. A reader at its end is asked once more for nothing.
COUNTED = {
    "device": "5 5",
    "memory": "5 0",
    "borrow": "1",
    "buffered": "1",
    "written": "1",
    "end": "0 1",
    "writer": "4 1 0",
    "reader": "3 2 0",
}


def stream_of(words):
    """The source, the target and the records of a stream's text."""
    source, target, *records = words.rest.split(" ")
    split = [record.split(".") for record in records]
    return int(source), int(target), [
        ((0, int(one)), bytes([int(other)]).ljust(512, b"\0")) if kind == "w" else ((int(one), int(other)), None) for kind, one, other in split
    ]


def damaged(stream):
    """The beginnings of a stream's bytes, those that differ from them in one byte, and the bytes with one more."""
    for at, byte in enumerate(stream):
        yield stream[:at]
        yield stream[:at] + bytes([byte ^ 1]) + stream[at + 1 :]
    yield stream + b"\0"


def stream_row(words):
    """A reader or writer is called once at least for each of 76 records, so that more than 76 calls can fail: where it does, that is told."""
    call = words.word()
    if call == "laws":
        return "ok"
    if call in ("readers", "writers"):
        return "yes"
    stream = plain.spelled(*stream_of(words)) if call in ("write", "again") else bytes.fromhex(words.rest)
    if call == "write":
        return stream.hex()
    if call == "damaged":
        return str(sum(plain.told_by(it) is None for it in damaged(stream)))
    return "stream" if plain.told_by(stream) else "bad"


class Machine:
    """What plain values tell of rows."""

    def __init__(self):
        self.kinds = {"list": Lists(), "number": Allocators(), "states": States(), "dead": DeadLists(), **snapshot_rows.kinds(), **tree_rows.kinds()}

    def row(self, row, number):
        kind, _, rest = row.partition(".")
        words = Words(rest, number)
        try:
            if kind in self.kinds:
                return self.kinds[kind].row(words)
            return {"name": name_row, "value": value_row, "stream": stream_row, "counted": lambda it: COUNTED[it.word()]}[kind](words)
        except Refused as refused:
            return error(refused.args[0])

    def step(self, rows, number, tally):
        for row in rows.split(" & "):
            told = self.row(row, number)
            tally[0] += 1
            for part in parts(told):
                tally[1] = mixed(tally[1], part)

    def line(self, line):
        """What a line tells."""
        tally = [0, 0]
        if line.startswith("for "):
            numbers, _, rows = line[4:].partition(": ")
            first, last, step = map(int, numbers.split())
            for number in range(first, last + 1, step):
                self.step(rows, number, tally)
        elif line.startswith("walk "):
            numbers, _, steps = line[5:].partition(": ")
            seed, count = map(int, numbers.split())
            steps = steps.split("; ")
            for _ in range(count):
                seed = following(seed)
                self.step(steps[(seed >> 40) % len(steps)], seed >> 33, tally)
        else:
            return self.row(line, 0)
        return f"{tally[0]} {tally[1]}"


def expanded(lines):
    """The lines, with a row by itself for each row of a `for`."""
    for line in lines:
        if not line.startswith("for "):
            yield line
            continue
        numbers, _, rows = line[4:].partition(": ")
        first, last, step = map(int, numbers.split())
        for number in range(first, last + 1, step):
            yield from BRACES.sub(lambda found: str(Words("", number).chosen(found[1])), rows).split(" & ")


LOOKS = ["list.look 0", "list.look 1", "list.look 2", "list.look 3"]
DEAD_LOOKS = [f"dead.{it} {at}" for at in range(3) for it in ("look", "cuts")] + ["dead.after 0 4", "dead.upto 0 4", "dead.after 1 4", "dead.upto 1 4"]
ONE_LEAF = "0 4294967297 w.0.97 " + " ".join(f"f.{level}.{index}" for level in range(5) for index in range(1, 16))
NAMES = "system p/a,component s,tag t,snapshot p/a@s p/a s,bookmark p/a#s p/a s,target p/a,target p/a@s,target p/a#b"

# Rows whose requests for memory are refused, one after another, each list of a crate by itself.
REFUSED = {
    "base_rows": {
        "names": [f"name.read {it}" for it in NAMES.split(",")],
        "values": ["value.grown", "value.blocks 7 7", "value.bytes ab ab"],
        "a stream with a leaf": [f"stream.write {ONE_LEAF}", f"stream.again {ONE_LEAF}"],
    },
    "snapshot_rows": snapshot_rows.REFUSED,
    "tree_rows": tree_rows.REFUSED,
    "ground_rows": {
        "a list of two chunks and two elements, and copies that change": [
            "for 0 129 1: list.push 0 {}",
            *LOOKS,
            *("list.copy 0 1", "list.remove 1 70", "list.remove 1 70", "list.remove 1 70", "list.look 1"),
            *("list.copy 0 1", "list.set 1 70 1000", "list.set 1 71 1000", "list.look 1"),
            *("list.copy 0 1", "list.pop 1", "list.pop 1", "list.pop 1", "list.share 1 7", "list.look 1"),
            *("list.split 0 2 65", *LOOKS, "list.append 0 2", *LOOKS),
        ],
        "a dead list of 150 entries": [
            *(f"dead.push 0 {block} {block % 9}" for block in range(150)),
            *("dead.reserve 0 1000", *DEAD_LOOKS, "dead.cut 0 3", "dead.cut 0 6", *DEAD_LOOKS, "dead.join 0 3", *DEAD_LOOKS),
            *("dead.take 0 1 4", *DEAD_LOOKS, "dead.copy 1 2", "dead.append 0 2", *DEAD_LOOKS),
        ],
        "block numbers": ["number.new 0 7", "number.copy 0 1", "number.look 0 8", "number.look 1 8", "number.counts 0", "number.counts 1"],
        "block numbers in two states": ["states.new 7", "states.take 1", "states.group", "states.take 2", "states.counts 0", "states.counts 1", "states.look 8"],
    },
}


def judged(machine, lines, plain, number):
    """What became of a run with one request refused, as bench/refused.py says it, or what is wrong with it."""
    status, came, told_of_fault = machine.run([it.encode() for it in lines], number)
    came = [it.decode() for it in came]
    if status == 3:
        return "fault" if came == plain[: len(came)] else "a fault with other lines"
    if status != 0 or told_of_fault:
        return f"status {status}"
    if came == plain:
        return "missed by none"
    at = next((it for it, pair in enumerate(zip(came, plain)) if pair[0] != pair[1]), None)
    if at is None or came[at] != f"{lines[at]} => {error('NoMemory')}":
        return "other lines, and none is refused"
    is_left_out = came[:at] + came[at + 1 :] == told(lines[:at] + lines[at + 1 :])
    return "refused" if is_left_out else f"line {at}, {lines[at]}, is not as left out"


def refuse_all(program):
    """Refuses each request for memory of each list of rows; whether something is wrong, which is printed."""
    is_wrong = False
    with tempfile.TemporaryDirectory() as folder, ThreadPoolExecutor(os.cpu_count()) as workers:
        machine = refused.Machine(refused.compiled(Path(folder)), [program.resolve()])
        for name, rows in REFUSED[program.name].items():
            lines = list(expanded(rows))
            plain, asks = told(lines), machine.asks([it.encode() for it in lines])
            verdicts = list(workers.map(lambda number: judged(machine, lines, plain, number), range(1, asks + 1)))
            faults = [f"request {number}: {it}" for number, it in enumerate(verdicts, 1) if it not in refused.FINE]
            faults += ["no row was refused"] * ("refused" not in verdicts)
            counts = Counter(it if it in refused.FINE else "wrong" for it in verdicts)
            print("".join(f"{name}: {it}\n" for it in faults[:5]) + f"{name}: {refused.text_of(counts)}")
            is_wrong = is_wrong or bool(faults)
    return is_wrong


def told(lines):
    """The lines with what plain values tell of them."""
    machine = Machine()
    return [line if not line or line.startswith("#") else f"{line} => {machine.line(line)}" for line in lines]


def stands(crate, is_written):
    """How many rows of a crate stand as they are told here. Ends where one doesn't."""
    wanted = "".join(f"{it}\n" for it in told((CRATES / crate / "stdin").read_text().splitlines()))
    if is_written:
        (CRATES / crate / "stdout").write_text(wanted)
    text = (CRATES / crate / "stdout").read_text()
    for one, other in zip(text.splitlines(), wanted.splitlines()):
        if one != other:
            sys.exit(f"{crate}: stands {one}\nplain  {other}")
    if text != wanted:
        sys.exit(f"{crate}: stdout has another number of lines")
    return wanted.count(" => ")


def main():
    arguments = argparse.ArgumentParser(usage=__doc__)
    arguments.add_argument("programs", nargs="*", type=Path)
    arguments.add_argument("--write", action="store_true")
    words = arguments.parse_args()
    if words.programs:
        return any([refuse_all(it) for it in words.programs])
    print(f"{sum(stands(it, words.write) for it in REFUSED)} rows stand as plain values tell them")
    return False


if __name__ == "__main__":
    raise SystemExit(main())
