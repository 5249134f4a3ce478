#!/usr/bin/env python3
"""Tells of the rows of crates/pool_rows what the plain machine tells, and compares.

    python3 bench/pool_rows.py
    python3 bench/pool_rows.py --write
    python3 bench/pool_rows.py [--gate] PROGRAM

The rows stand in crates/pool_rows/stdin, and what they tell in crates/pool_rows/stdout, which `rt ci` compares with what the program prints. A
reply is the one that bench/plain.py gives; the walks of an image are those of the plain machine's datasets; the number of blocks that a step
writes stands in STOPS, worked out by hand. Without a word the script compares the file with what it tells itself, and with --write it writes it.

With a built program it asks more rows than a file has:

- each beginning of a stream, each stream that differs in one byte, and one that goes on, is refused as BadStream and changes nothing;
- after each line of random scripts both worlds are walked in the image as the plain machine has them;
- each request for memory of a script with each kind of request, of one with destroys of several snapshots, and of two with renames, is refused
  in turn, at once and in two steps. The line that is told NoMemory has changed nothing: all lines after it, and all that can be asked of the pool,
  are answered as if it were left out. Asked again it is answered as ever, and in the end the pool has the same blocks at the same numbers as one
  that was never refused memory. With --gate one request of thirty is refused, chosen by the digest of HEAD's tree.

Anything else is printed, and the exit status is 1.
"""

import argparse
import hashlib
import os
import struct
import sys
import tempfile
from collections import Counter
from concurrent.futures import ThreadPoolExecutor
from functools import lru_cache, partial
from pathlib import Path
from types import SimpleNamespace

import plain
import refused
from judge import Judge
from row_words import MASK, destroyed, error, mixed, received, renamed, snapshot_renamed
from wrong_bodies import order_of_tree

ROOT = Path(__file__).resolve().parent.parent
CRATE = ROOT / "crates" / "pool_rows"
# Of so many requests for memory the gate refuses one.
SHARE = 30
# How many blocks the lines behind `stops` write. A path has six blocks. The first write of a leaf that was synced moves them all; the next one
# changes the leaf where it is; that of its neighbour moves a leaf, and changes a pointer; one below another block of level 1 makes both, and
# changes a pointer; a punch of one leaf of two changes a pointer.
STOPS = {"write p 0 0 62": 6, "write p 0 0 63": 1, "write p 0 1 64": 2, "write p 0 16 65": 3, "punch p 0 1": 1}


@lru_cache(maxsize=None)
def mixed_bytes(total, data):
    for byte in data:
        total = mixed(total, byte)
    return total


def datasets(world):
    """The name of each dataset of a world as a number, and its map."""
    for name, system in world.systems.items():
        number = mixed_bytes(0, name.encode())
        yield number, system.live
        for snapshot in system.snaps.values():
            yield mixed_bytes(mixed(number, ord("@")), snapshot.name.encode()), snapshot.map


def walks(world):
    """How many datasets and leaves a world has, and a sum in which the order of the datasets doesn't count."""
    count, leaves, total = 0, 0, 0
    for number, map_ in datasets(world):
        count += 1
        for (level, index), cell in sorted(map_.items()):
            if level == 0:
                number = mixed(mixed(number, index), mixed_bytes(0, cell.data))
                leaves += 1
        total += number
    return f"{count} {leaves} {total & MASK}"


def root_of(world):
    """The birth of the root's root, its first pointer behind the number of the block, and what stands behind that."""
    map_ = world.systems["p"].live
    top = map_.get((5, 0))
    if not top:
        return "none"
    pointers = [struct.pack(">QQQ", map_[key].birth, key[0], 0) if key in map_ else bytes(24) for key in plain.children((5, 0))]
    if any(any(it) for it in pointers[1:]):
        sys.exit("pool_rows: no row tells of a root with more than its first pointer")
    return f"{top.birth} {pointers[0].hex()} 0"


def told_of(reply):
    """What a row tells of a reply that is `ok` or the name of a refusal."""
    return reply if reply == "ok" else error(reply)


def destroyed_by(state, words):
    """What becomes of a destroy of several snapshots, `[-r] [-d] SNAP ..`."""
    names, flags = words.split(" ") if words else [], []
    for option in ("-r", "-d"):
        flags.append(names[:1] == [option])
        names = names[1:] if flags[-1] else names
    return destroyed(state, *flags, names)


def renamed_by(state, words):
    """What becomes of a rename, `NAME TO`."""
    name, _, to = words.partition(" ")
    return renamed(state, name, to)


def snapshot_renamed_by(state, words):
    """What becomes of a rename of a snapshot, `NAME TO [-r]`."""
    name, _, words = words.partition(" ")
    to, _, option = words.partition(" ")
    return snapshot_renamed(state, name, to, option == "-r")


# Requests that no line of a script asks, by the word that such a line of a row begins with.
OTHERS = {"destroys": destroyed_by, "rename": renamed_by, "rename_snapshot": snapshot_renamed_by}


def lawful(state, line):
    """The lawful replies to a line, which may be one of OTHERS, each with the state after it."""
    word, _, words = line.decode().partition(" ")
    if word not in OTHERS:
        return plain.lawful(state, line)
    reply, new = OTHERS[word](state, words)
    return [(told_of(reply), new)]


MACHINE = SimpleNamespace(fresh=plain.fresh, lawful=lawful)


class Plain:
    """Two pools of the plain machine."""

    def __init__(self):
        self.pools, self.asked = [None, None], [[], []]

    def reply(self, place, line, given=None):
        """A lawful reply, which the pool goes on with: the one that was given, where it is lawful, and else the first."""
        judge = self.pools[place]
        lawful = judge.lawful(line.encode())
        reply = given if given in lawful else next(iter(lawful))
        judge.follow(line.encode(), lawful, reply)
        return reply

    def made(self, place, number, blocks):
        if number == 0:
            return "error 1 BadName"
        if not 1 <= blocks <= 4194304:
            return "error 21 TooMany"
        self.pools[place], self.asked[place] = Judge(MACHINE, blocks, number), []
        return "ok"

    def row(self, row, given=None):
        """What a row tells."""
        number, _, row = row.partition(" ")
        word, _, rest = row.partition(" ")
        place = int(number)
        if word == "make":
            return self.made(place, *map(int, rest.split()))
        if word == "same":
            one, other = rest.split("; ")
            return "yes" if plain.request_of(one.encode()) == plain.request_of(other.encode()) else "no"
        if word == "alike":
            return "yes" if self.asked[0] == self.asked[1] else sys.exit("pool_rows: the pools were asked other lines")
        if word in OTHERS:
            return self.do_apply(place, row, given)
        return getattr(self, f"do_{word}")(place, rest, given)

    def do_apply(self, place, line, given):
        self.asked[place].append(line)
        return self.reply(place, line, given)

    do_two = do_apply

    def do_left(self, place, line, _given):
        return next(iter(self.pools[place].lawful(line.encode())))

    def do_take(self, place, words, _given):
        self.asked[place].append(words)
        mode, name, digits = words.split(" ")
        words = ("Origin", name, bytes.fromhex(digits), mode) if "@" in mode else (mode.capitalize(), name, bytes.fromhex(digits))
        judge = self.pools[place]
        reply, state = received(judge.states[0], *words)
        judge.states = [state]
        return told_of(reply)

    def do_list(self, place, lines, _given):
        return "; ".join(self.do_apply(place, it, None) for it in lines.split("; "))

    def do_stops(self, place, line, given):
        reply = self.do_apply(place, line, given)
        return reply if reply.startswith("error ") else str(STOPS[line])

    def do_walks(self, place, which, _given):
        state = self.pools[place].states[0]
        return walks(state.last if which == "last" else state.now)

    def do_root(self, place, _rest, _given):
        return root_of(self.pools[place].states[0].now)

    def do_keeps(self, place, _rest, _given):
        return str(self.asked[place].count("sync"))


def told(rows):
    """What the rows of a file tell."""
    machine = Plain()
    return [machine.row(it) for it in rows if it and not it.startswith("#")]


# ---- more rows than a file has, of a built program
def stream(source, target, leaf):
    """The bytes of a stream of a dataset with one leaf, or with none."""
    map_ = plain.Map()
    if leaf:
        map_ = map_.rewritten({0: bytes([leaf]).ljust(512, b"\0")}, lambda _: False, 1)
    return plain.spelled(source, target, plain.records_since(map_, 0))


FIRST, SECOND = (1 << 32) + 1, (1 << 32) + 2


def damaged(bytes_):
    """Rows that receive a stream's beginnings, the streams that differ in a byte, and one that goes on."""
    yield from ("0 make 1 100", f"0 apply receive p/b@s {stream(0, FIRST, 0x61).hex()}")
    for size in range(len(bytes_)):
        yield f"0 apply receive p/b@t {bytes_[:size].hex()}".rstrip()
    for at in range(len(bytes_)):
        yield f"0 apply receive p/b@t {(bytes_[:at] + bytes([bytes_[at] ^ 1]) + bytes_[at + 1 :]).hex()}"
    yield f"0 apply receive p/b@t {bytes_.hex()}00"
    yield from ("0 apply pget allocated", "0 apply pget group", "0 walks now", f"0 apply receive p/b@t {bytes_.hex()}", "0 walks now")


LINES = """write p 0 0 61,write p 0 0 62,write p 0 1 63,write p 1 4095 64,write p/a 0 0 65,write p/a 0 1 66,write p/a 1 0 67,write p/b 0 0 68,
write p/b 1 4095 69,write p/c 0 1 70,punch p 0 0,punch p 0 1,punch p/a 0 0,punch p/a 1 0,punch p/b 0 0,punch p/c 0 1,rmobj p 0,rmobj p/a 0,
rmobj p/b 1,create p/a,create p/a/d,snapshot p@1,snapshot p@2,snapshot p/a@1,snapshot -r p@3,snapshot p/b@1,clone p@1 p/b,clone p/a@1 p/b,
clone p@3 p/c,promote p/b,promote p/c,rollback p@1,rollback -r p@1,rollback -r p/a@1,destroy p@1,destroy -d p@2,destroy -r p@3,destroy -r p/a,
destroy p/b,destroy p/c,hold t p@2,release t p@2,slice 5,slice 100,sync,sync,abandon,write p 0 0 71,rename p/b p/a,rename p/b p/a/e,rename p/a p/b,
rename p/a p/c,rename p/c p/a-x,rename p/a-x p/a,rename p/b/d p/a/d,rename_snapshot p@1 4,rename_snapshot p@4 2,rename_snapshot p@3 1 -r,
rename_snapshot p/a@1 3 -r,rename_snapshot p/b@1 2,rename_snapshot p/a@3 1""".replace("\n", "").split(",")


def scripted(seed, count):
    """Rows of a script of so many lines that look random, by numbers from one on, with both worlds looked at after each."""
    yield "0 make 1 200"
    for _ in range(count):
        seed = (seed * 6364136223846793005 + 1442695040888963407) & MASK
        yield from (f"0 apply {LINES[(seed >> 33) % len(LINES)]}", "0 walks now", "0 walks last")


def fault_of(machine, rows):
    """What is wrong with what a program tells of rows."""
    rows, beside = list(rows), Plain()
    status, came, said = machine.run([it.encode() for it in rows])
    if status or len(came) != len(rows):
        return f"status {status} after {len(came)} of {len(rows)} rows: {said.decode(errors='replace')[:80]}"
    for row, reply in zip(rows, came):
        wanted = beside.row(row, reply.decode())
        if reply.decode() != wanted:
            return f"{row[:80]}: came {reply.decode()[:80]}, wanted {wanted[:80]}"
    return ""


# Each kind of request, asked one after another. `<` is the last stream.
EACH = """create p/a; write p/a 0 0 61; write p/a 0 1 62; set quota=153600 p; set refreservation=5120 p/a; sync; snapshot p/a@s; snapshot -r p@s2;
hold x p/a@s; bookmark p/a@s p/a#b; write p/a 0 0 63; write p/a 255 4095 64; punch p/a 0 1; snapshot p/a@t; get written@s p/a; wouldfree p/a s t;
view p/a@t; clone p/a@s p/c; write p/c 0 16 65; promote p/c; rmobj p/a 255; sync; send p/c@s; receive p/r@s <; send -i p/c@s p/a@t;
receive p/r@t <; write p/r 0 5 66; rollback p/r@t; rollback -r p/r@s; list; holds p/c@s; get used p; get clones p/c@s; get origin p/a;
read p/r 0 0; pget free; destroy -d p/a@t; unview 1; release x p/c@s; destroy p/a#b; promote p/a; destroy p/c; slice 3; write p/a 1 0 67;
slice 100; abandon; write p/a 0 2 68; sync; destroy p/a@s2; destroy -r p/a; slice 100""".replace("\n", " ").split("; ")


def each_kind():
    """The lines of EACH, with the streams in their places; each is done."""
    judge, done, last = Judge(plain, 300, 1), [], ""
    for line in EACH:
        line = line.replace("<", last)
        lawful = judge.lawful(line.encode())
        reply = next(iter(lawful))
        if reply.startswith("error "):
            sys.exit(f"pool_rows: {line[:80]} is refused: {reply}")
        judge.follow(line.encode(), lawful, reply)
        last = reply if line.startswith("send ") else last
        done.append(line)
    return done


# Receives in the modes that no line has, and what comes before and after them. `<` is the full stream, `<<` the incremental one.
MODES = """create p/a; write p/a 0 0 61; snapshot p/a@s; write p/a 0 1 62; snapshot p/a@t; take plain p/r@s <; write p/r 0 3 63; snapshot p/r@u;
bookmark p/r@u p/r#b; set quota=51200 p/r; sync; write p/r 0 4 64; take past p/r@t <<; take p/r@s p/c@t <<; write p/c 0 0 65; promote p/c;
take replace p/a@s <; sync; take back p/a@t <<; slice 5; take replace p/r@t <; list; slice 100; sync; write p/a 0 2 66"""


def each_mode():
    """The lines of MODES, with the streams in their places."""
    full, increment = stream(0, FIRST, 0x61), plain.spelled(FIRST, SECOND, [((0, 1), b"b".ljust(512, b"\0"))])
    return [it.replace("<<", increment.hex()).replace("<", full.hex()) for it in MODES.replace("\n", " ").split("; ")]


# Destroys of several snapshots, and what comes before and after them. Each is done.
LISTS = """create p/a; create p/a/d; create p/b; set quota=102400 p/a; write p/a 0 0 61; write p/a/d 0 0 61; write p/b 0 0 61; snapshot -r p@1;
write p/a 0 0 62; write p/a 1 0 62; write p/b 0 0 62; snapshot -r p@2; write p/a 0 0 63; write p/a/d 0 0 63; snapshot -r p@3; write p/a 0 0 64;
snapshot p/a@4; write p/a 0 0 65; sync; destroys p/a@3 p/a@none p/a@1 p/a@3; slice 3; destroys p/b@2 p/a@2; hold x p/b@1; view p/a@4;
clone p/a/d@1 p/c; destroys -d p/a/d@1 p/a/d@2 p/b@1 p/a@4; release x p/b@1; unview 1; destroy p/c; snapshot -r p@5; write p/a 0 0 66;
write p/b 0 0 66; snapshot -r p@6; write p/a 0 0 67; hold x p/a/d@6; sync; destroys -r p/a@5 p@5 p/a/d@3; destroys -r -d p/a@6 p@6; slice 100;
abandon; destroys -r -d p@6 p@5; release x p/a/d@6; list; slice 100; sync; write p/a 0 2 68"""


# Renames, and what comes before and after them. Each is done.
RENAMES = """create p/a; create p/a/x; create p/a-x; create p/b; write p/a 0 0 61; write p/a/x 0 0 61; snapshot -r p/a@1; bookmark p/a/x@1 p/a/x#m;
write p/a/x 0 1 62; rename p/a p/c; clone p/c@1 p/a; clone p/c/x@1 p/c/x/in; hold t p/c/x@1; view p/c@1; set quota=51200 p/c; set quota=51200 p/b;
set reservation=10240 p/c/x; sync; rename p/c/x p/b/x; write p/b/x 0 1 63; get used p/b; get available p/c; rename p/a p/b/a; rename p/b p/a;
get origin p/a/x/in; get clones p/c@1; unview 1; abandon; rename p/c p/b/c; promote p/b/c/x/in; rename p/b p/e; rename p/a-x p/a/d; list;
slice 100; sync; rename p/e/c p/c; snapshot p/c@2; rollback p/c@2; destroy -d p/c@1; destroy p/a/d; rename p/a p/d; destroy p/d; release t p/c/x/in@1;
destroy -r p/c; rename p/e p/a; list; slice 100; sync; write p/a 0 2 64"""


# The same of snapshots.
SNAPSHOT_RENAMES = """create p/a; create p/a/x; create p/a/y; write p/a 0 0 61; snapshot -r p/a@5; write p/a 0 0 62; snapshot p/a@6; snapshot p/a/x@7;
rename_snapshot p/a@5 z; clone p/a@z p/c; clone p/a/x@5 p/a/x/in; hold t p/a@z; bookmark p/a@z p/a#m; view p/a@6; sync; rename_snapshot p/a/x@5 z;
rename_snapshot p/a@z 1 -r; get origin p/c; get clones p/a@1; snapshot p/a@5; destroy -d p/a@1; unview 1; rename_snapshot p/a@6 4; list; abandon;
rename_snapshot p/a@z 8; rename_snapshot p/a/y@5 6; rename_snapshot p/a@6 9 -r; get used p/a@9; promote p/c; rename_snapshot p/c@8 5 -r; list;
write p/a 0 1 63; snapshot -r p/a@8; rollback -r p/a@9; sync; send -i p/a#m p/a@9; destroy -r p/a/x/in; destroys p/a@9 p/a/x@5;
release t p/c@5; destroy -r p/a; rename_snapshot p/c@5 1; slice 100; sync; write p/c 0 2 64; list"""


def each_of(text):
    """The lines of LISTS, of RENAMES or of SNAPSHOT_RENAMES; each is done."""
    lines, beside = text.replace("\n", " ").split("; "), Plain()
    beside.row("0 make 1 300")
    for line in lines:
        reply = beside.row(f"0 apply {line}")
        if reply.startswith("error "):
            sys.exit(f"pool_rows: {line} is refused: {reply}")
    return lines


class Asked(refused.Machine):
    """A program that is asked lines of a script, each as a row on a pool that is made first. A line may be a row itself (ROWS)."""

    # The first words of lines that are rows themselves.
    ROWS = (b"walks ", b"take ")

    def __init__(self, machine, way):
        super().__init__(machine.shim, machine.command)
        self.way = way

    def run(self, lines, refused_at=0, asked=os.devnull):
        rows = [b"0 %s" % it if it.startswith(self.ROWS) else b"0 %s %s" % (self.way, it) for it in lines]
        status, came, said = super().run([b"0 make 1 300", *rows], refused_at, asked)
        is_made = came[:1] == [b"ok"]
        return (status, came[1:], said or b"no memory" * (status == 3)) if is_made else (3, [], b"no pool")


class LeftOut(refused.Script):
    """Lines, all that can be asked of the pool then, and the walks of its image."""

    def __init__(self, machine, lines):
        super().__init__(machine, lines)
        self.asked += [b"walks now", b"walks last"]
        self.plain = machine.run(self.asked)

    def numbers(self):
        """The requests for memory that are refused, one in each run."""
        return range(1, self.asks + 1)


def beside(way, lines):
    """Rows that ask lines of a pool in a way and of another at once."""
    pairs = ((it, it) if it.startswith(Asked.ROWS) else (b"%s %s" % (way, it), b"apply %s" % it) for it in lines)
    asked = (row for one, other in pairs for row in (b"0 " + one, b"1 " + other))
    return [b"0 make 1 300", b"1 make 1 300", *asked, b"0 alike"]


class AskedAgain:
    """Rows that end with the question whether the pool has the blocks of another, and of which one is asked once more where it was told NoMemory."""

    # What the last row tells where the blocks are the same.
    ALIKE = b"yes"

    def __init__(self, machine, rows):
        self.machine, self.rows = machine, rows
        self.asks, self.plain = machine.asks(self.rows), machine.run(self.rows)[1]
        if self.plain[-1] != self.ALIKE:
            sys.exit(f"{self.plain[-1].decode()[:60]} is told of the blocks where no memory was refused, wanted {self.ALIKE.decode()}")

    def numbers(self):
        """The requests for memory that are refused, one in each run."""
        return range(1, self.asks + 1)

    def judge(self, number):
        """What became of a run with one request refused, as bench/refused.py says it, or what is wrong with it."""
        status, came, said = self.machine.run(self.rows, number)
        if status == 3:
            return "fault" if came == self.plain[: len(came)] else "a fault with other replies"
        if status:
            return f"status {status}"
        if came == self.plain:
            return "missed by none"
        at = next(it for it, pair in enumerate(zip(came, self.plain)) if pair[0] != pair[1])
        if came[at] != refused.REFUSED:
            return "other replies, and none is refused"
        again = self.rows[: at + 1] + self.rows[at:]
        wanted = self.plain[:at] + [refused.REFUSED] + self.plain[at:]
        is_answered = self.machine.run(again, number + self.requests_before(at))[:2] == (0, wanted)
        return "refused" if is_answered else f"{self.rows[at].decode()[:60]} is not answered as ever"

    def requests_before(self, _at):
        """How many requests for memory a program makes for a row more before it carries out the first: none, where it reads one after another."""
        return 0


@lru_cache(maxsize=None)
def number_of_tree():
    return int(hashlib.sha256(order_of_tree().encode()).hexdigest(), 16)


def chosen(numbers, share):
    """One of so many numbers. Which, the digest of HEAD's tree says: nobody chooses them, and the next commit has other ones."""
    return list(numbers)[number_of_tree() % share :: share]


def tried(name, subject, workers, share):
    """Refuses requests of a subject, one of so many; whether something is wrong, which is printed."""
    numbers = chosen(subject.numbers(), share)
    verdicts = list(workers.map(subject.judge, numbers))
    faults = [f"request {number}: {it}" for number, it in zip(numbers, verdicts) if it not in refused.FINE]
    faults += ["no line was refused"] * ("refused" not in verdicts)
    counts = Counter(it if it in refused.FINE else "wrong" for it in verdicts)
    print("".join(f"{name}: {it}\n" for it in faults[:5]) + f"{name}: {refused.text_of(counts)}")
    return bool(faults)


def try_rows(machine, workers):
    """Asks a program more rows than a file has; whether something is wrong, which is printed."""
    streams = {"a stream of 63 bytes": stream(FIRST, SECOND, None), "a stream of 1,024 bytes": stream(FIRST, SECOND, 0x62)}
    lists = {f"each damage to {name}": list(damaged(it)) for name, it in streams.items()}
    lists |= {f"both worlds after each line of script {seed}": list(scripted(seed, 300)) for seed in range(20)}
    faults = list(workers.map(lambda rows: fault_of(machine, rows), lists.values()))
    print("".join(f"{name}: {it}\n" for name, it in zip(lists, faults) if it) + f"{faults.count('')} of {len(lists)} lists of rows are as the plain machine tells them")
    return any(faults)


def try_memory(machine, workers, share):
    """Refuses memory to each kind of request; whether something is wrong, which is printed."""
    is_wrong, receives = False, [it.encode() for it in each_mode()]
    is_wrong |= tried("receives in each mode", LeftOut(Asked(machine, b"apply"), receives), workers, share)
    is_wrong |= tried("receives in each mode, and again", AskedAgain(machine, beside(b"two", receives)), workers, share)
    lists = {"destroys of several snapshots": LISTS, "renames": RENAMES, "renames of snapshots": SNAPSHOT_RENAMES}
    for what, lines in {"each kind of request": each_kind(), **{it: each_of(text) for it, text in lists.items()}}.items():
        lines = [it.encode() for it in lines]
        for way in (b"apply", b"two"):
            name = f"{what}, {'at once' if way == b'apply' else 'in two'}"
            is_wrong |= tried(name, LeftOut(Asked(machine, way), lines), workers, share)
            is_wrong |= tried(f"{name}, and again", AskedAgain(machine, beside(way, lines)), workers, share)
    return is_wrong


def try_all(program, asked_more, refused_memory):
    """Tries a program with more rows, and with memory refused to it; whether something is wrong."""
    with tempfile.TemporaryDirectory() as folder, ThreadPoolExecutor(os.cpu_count()) as workers:
        machine = refused.Machine(refused.compiled(Path(folder)), [program.resolve()])
        return any([asked_more(machine, workers), refused_memory(machine, workers)])


def main():
    arguments = argparse.ArgumentParser(usage=__doc__)
    arguments.add_argument("program", nargs="?", type=Path)
    arguments.add_argument("--write", action="store_true")
    arguments.add_argument("--gate", action="store_true")
    words = arguments.parse_args()
    if words.program:
        return try_all(words.program, try_rows, partial(try_memory, share=SHARE if words.gate else 1))
    rows = [it for it in (CRATE / "stdin").read_text().splitlines() if it and not it.startswith("#")]
    wanted = told(rows)
    if words.write:
        (CRATE / "stdout").write_text("".join(f"{it}\n" for it in wanted))
    stands = (CRATE / "stdout").read_text().splitlines()
    for row, one, other in zip(rows, stands, wanted):
        if one != other:
            sys.exit(f"pool_rows: stands {one}\nplain  {other}\nof {row}")
    if len(stands) != len(wanted):
        sys.exit("pool_rows: stdout has another number of lines")
    print(f"{len(wanted)} rows of pools stand as the plain machine tells them")
    return False


if __name__ == "__main__":
    raise SystemExit(main())
