#!/usr/bin/env python3
"""Asks pools of the library and the plain machine (bench/plain.py) the same random requests, receives in each mode, destroys of several snapshots
and renames of file systems and of snapshots among them, and compares.

    python3 bench/receives.py [--first SEED] [--pools N] [--requests N]

The pools are asked through the Python package over the shared library that `make` leaves in hosts/out (or the one that YUZGONT_LIBRARY names).
A script's lines have two modes of a receive, and this tries all five, of streams that the pools send each other. A line destroys one snapshot, and
this destroys lists of them, some with names that no snapshot has or that stand twice. No line renames a file system or a snapshot. It prints how
often each was done or refused, and fails where a reply, a name, a size or a block is another than the plain machine's. A seed says all that is asked.
"""

import argparse
import random
import sys
from collections import Counter
from functools import partial
from pathlib import Path

from plain import fresh, lawful, parent_of, target_of, told_by
from row_words import destroyed, received, renamed, snapshot_renamed

sys.path.insert(0, str(Path(__file__).resolve().parent.parent / "hosts" / "python"))
from yuzgont import Pool, Receiving, Refusal  # noqa: E402

SYSTEMS, SNAPSHOTS, BLOCKS = "p p/a p/a/x p/b p/c".split(), "1234", (0, 1, 2, 16, 17, 300)
PROPERTIES = "used available referenced written usedbysnapshots usedbydataset usedbychildren quota refquota reservation origin".split()
POOL_PROPERTIES = "allocated free freeing waiting group".split()
MODES, DESTROYS = "Plain Back Past Origin Replace".split(), "destroys of several snapshots"
RENAMES, SNAPSHOT_RENAMES = "renames", "renames of snapshots"
# What a file system may be renamed to: also what comes between two of SYSTEMS.
NEW_NAMES = [*SYSTEMS, "p/a-x", "p/b/x"]


class Wrong(Exception):
    """The two gave different replies."""


class Both:
    """A pool of the library, and the state of the plain machine."""

    def __init__(self, size, number):
        self.pool, self.state, self.asked = Pool(size, number), fresh(size, number), []

    def line(self, line):
        """Asks a line of both; the reply."""
        lawful_replies, told = dict(lawful(self.state, line.encode())), self.pool.reply(line).rstrip("\n")
        self.asked.append(f"{line[:120]}: {told[:120]}")
        if told not in lawful_replies:
            raise Wrong(f"the plain machine: {' or '.join(map(str, lawful_replies))[:200]}")
        self.state = lawful_replies[told]
        return told

    def receive(self, mode, name, stream, origin):
        """Receives a stream on both; what came of it."""
        wanted, state = received(self.state, mode, name, stream, origin)
        ask = partial(self.pool.receive, name, stream, Receiving[mode.upper()], origin if mode == "Origin" else "")
        return self.compare(f"receive {mode} {name}, perhaps of {origin}", ask, wanted, state)

    def destroy(self, recursive, deferred, names):
        """Destroys the snapshots of a list on both; what came of it."""
        wanted, state = destroyed(self.state, recursive, deferred, names)
        words = ["-r"] * recursive + ["-d"] * deferred + names
        return self.compare(f"destroy {' '.join(words)}", partial(self.pool.destroy_snapshots, names, recursive, deferred), wanted, state)

    def rename(self, name, to):
        """Renames a file system on both; what came of it."""
        wanted, state = renamed(self.state, name, to)
        return self.compare(f"rename {name} {to}", partial(self.pool.rename, name, to), wanted, state)

    def rename_snapshot(self, name, to, recursive):
        """Renames a snapshot on both; what came of it."""
        wanted, state = snapshot_renamed(self.state, name, to, recursive)
        return self.compare(f"rename {name} {to}{' -r' * recursive}", partial(self.pool.rename_snapshot, name, to, recursive), wanted, state)

    def compare(self, what, ask, wanted, state):
        """Makes a call of the library, which is to be answered as wanted and to leave a state; what came of it."""
        try:
            ask()
            told = "ok"
        except Refusal as refused:
            told = type(refused).__name__
        self.asked.append(f"{what}: {told}")
        if told != wanted:
            raise Wrong(f"the plain machine: {wanted}")
        self.state = state
        return told

    def look(self):
        """Compares all names, sizes and some blocks."""
        names, systems = ["list", *(f"pget {it}" for it in POOL_PROPERTIES)], sorted({*SYSTEMS, *self.state.now.systems})
        sizes = [f"get {it} {system}" for system in systems for it in PROPERTIES]
        snapshots = [f"get {prop} {system}@{it}" for system in systems for it in SNAPSHOTS for prop in ("used", "clones")]
        blocks = [f"read {system} 0 {it}" for system in systems for it in BLOCKS]
        for line in names + sizes + snapshots + blocks:
            self.line(line)
            self.asked.pop()

    def snapshots(self):
        """The names of all snapshots, with each one's guid."""
        return {f"{system}@{it.name}": it.guid for system, f in self.state.now.systems.items() for it in f.snaps.values()}


def line_of(draw):
    """A line that changes something, if it isn't refused."""
    system = draw.choice(SYSTEMS)
    snapshot = f"{draw.choice(SYSTEMS)}@{draw.choice(SNAPSHOTS)}"
    limit = draw.choice("quota refquota reservation refreservation".split())
    lines = {
        f"write {system} 0 {draw.choice(BLOCKS)} {draw.randrange(97, 122):x}": 30,
        f"punch {system} 0 {draw.choice(BLOCKS)}": 6,
        f"snapshot {snapshot}": 18,
        f"create {system}": 8,
        f"clone {snapshot} {system}": 5,
        f"promote {system}": 3,
        f"destroy -r {system}": 3,
        f"destroy {draw.choice(['', '-d '])}{snapshot}": 4,
        f"rollback -r {snapshot}": 3,
        f"{draw.choice(['hold', 'release'])} t {snapshot}": 3,
        f"bookmark {snapshot} {snapshot.partition('@')[0]}#{draw.choice('mn')}": 3,
        f"view {snapshot}": 2,
        f"unview {draw.randrange(1, 5)}": 2,
        f"set {limit}={draw.choice(['none', 5120, 10240, 20480])} {system}": 4,
        "sync": 4,
        "slice 4194304": 3,
        "abandon": 3,
    }
    return draw.choices(list(lines), list(lines.values()))[0]


def stream_of(draw, giver, taker):
    """A stream that a pool sends, where it can from a snapshot that the other has; None where it has no snapshot."""
    world, there = giver.state.now, set(taker.snapshots().values())
    pairs = [(source, to) for to in giver.snapshots() for source in older_of(world, to)]
    known = [it for it in pairs if giver.snapshots()[it[0]] in there]
    if pairs and draw.random() < 0.7:
        return bytes.fromhex(giver.line("send -i {} {}".format(*draw.choice(known or pairs))))
    return bytes.fromhex(giver.line(f"send {draw.choice(list(giver.snapshots()))}")) if giver.snapshots() else None


def older_of(world, name):
    """The names of the snapshots that a stream of this one may start from."""
    return [f"{system}@{it.name}" for system, it in world.older(name.partition("@")[0], world.named(target_of(name)))]


def receive(draw, giver, taker, counts):
    """Receives a stream of one pool on the other, often where its mode could do it."""
    stream = stream_of(draw, giver, taker)
    if not stream:
        return
    mode, source = draw.choice(MODES), told_by(stream)[0]
    holders = [name for name, guid in taker.snapshots().items() if guid == source]
    system, origin = draw.choice(SYSTEMS), f"{draw.choice(SYSTEMS)}@{draw.choice(SNAPSHOTS)}"
    if holders and draw.random() < 0.8:
        origin = draw.choice(holders)
        system = system if mode == "Origin" else origin.partition("@")[0]
    told = taker.receive(mode, f"{system}@{draw.choice(SNAPSHOTS)}", stream, origin)
    counts[mode, "incremental" if source else "full", told] += 1


def destroy(draw, pool, counts):
    """Destroys snapshots of a list. Half of the names are of snapshots that are there, one of which may be kept first; some stand twice."""
    there, names = list(pool.snapshots()), []
    for _ in range(draw.choice([1, 2, 2, 3, 4, 6])):
        is_there = there and draw.random() < 0.5
        names.append(draw.choice(there) if is_there else f"{draw.choice(SYSTEMS)}@{draw.choice(SNAPSHOTS)}")
    if there and draw.random() < 0.3:
        kept = draw.choice(there)
        pool.line(draw.choice([f"hold t {kept}", f"clone {kept} {draw.choice(SYSTEMS)}"]))
        names.insert(draw.randrange(len(names) + 1), kept)
    names += draw.sample(names, 1) if draw.random() < 0.2 else []
    recursive, deferred = draw.random() < 0.3, draw.random() < 0.3
    told = pool.destroy(recursive, deferred, names)
    counts[DESTROYS, " ".join(["-r"] * recursive + ["-d"] * deferred) or "no option", told] += 1


def rename(draw, pool, counts):
    """Renames a file system, mostly one that is there to a name that it may have. The parent that it comes to may have a quota set first, or the one
    that it leaves a reservation."""
    systems = pool.state.now.systems
    there, free = [it for it in systems if it != "p"], [it for it in NEW_NAMES if it not in systems and parent_of(it) in systems]
    name, to = (draw.choice(some if some and draw.random() < 0.8 else others) for some, others in ((there, SYSTEMS), (free, NEW_NAMES)))
    limit, parent = draw.choice([("quota=3072", parent_of(to)), ("quota=6144", parent_of(to)), ("reservation=10240", parent_of(name))])
    if parent not in ("", "p") and draw.random() < 0.5:
        pool.line(f"set {limit} {parent}")
    told = pool.rename(name, to)
    counts[RENAMES, f"below {'the same' if parent_of(name) == parent_of(to) else 'another'} parent", told] += 1


def rename_snapshot(draw, pool, counts):
    """Renames a snapshot, mostly one that is there, and mostly to a name that is free there. First a snapshot of its name may be taken below,
    or a view opened of it or of one of its name below, which is closed then."""
    there = list(pool.snapshots())
    name = draw.choice(there) if there and draw.random() < 0.8 else f"{draw.choice(SYSTEMS)}@{draw.choice(SNAPSHOTS)}"
    system, component = name.split("@")
    free, recursive = [it for it in SNAPSHOTS if f"{system}@{it}" not in there], draw.random() < 0.5
    below, view = f"{draw.choice(pool.state.now.family(system) or [system])}@{component}", ""
    if draw.random() < 0.5:
        pool.line(f"snapshot {below}")
    if draw.random() < 0.2:
        view = pool.line(f"view {below}")
    told = pool.rename_snapshot(name, draw.choice(free if free and draw.random() < 0.8 else SNAPSHOTS), recursive)
    if view.isdigit():
        pool.line(f"unview {view}")
    counts[SNAPSHOT_RENAMES, "-r" if recursive else "no option", told] += 1


def try_pools(seed, requests, counts):
    """Two pools, and so many requests of the one or the other."""
    draw = random.Random(seed)
    size = draw.choice([60, 120, 300, 600])
    both = [Both(size, number) for number in (1, 2)]
    try:
        for _ in range(requests):
            one, other = draw.sample(both, 2)
            which = draw.random()
            if which < 0.66:
                one.line(line_of(draw))
            elif which < 0.7:
                destroy(draw, one, counts)
            elif which < 0.76:
                rename(draw, one, counts)
            elif which < 0.82:
                rename_snapshot(draw, one, counts)
            else:
                receive(draw, one, draw.choice(both), counts)
            if draw.random() < 0.1:
                one.look()
        for it in both:
            it.look()
    except Wrong as wrong:
        asked = "\n  ".join(f"{number}: {line}" for number, it in enumerate(both, 1) for line in it.asked[-8:])
        return f"seed {seed}, pools of {size} blocks:\n  {asked}\n  {wrong}"
    return None


def main():
    options = argparse.ArgumentParser(description=__doc__, formatter_class=argparse.RawDescriptionHelpFormatter)
    options.add_argument("--first", type=int, default=1)
    options.add_argument("--pools", type=int, default=40)
    options.add_argument("--requests", type=int, default=100)
    options = options.parse_args()
    counts, wrong = Counter(), []
    for seed in range(options.first, options.first + options.pools):
        found = try_pools(seed, options.requests, counts)
        if found:
            wrong.append(seed)
            print(found)
    for (what, kind, told), count in sorted(counts.items()):
        print(f"{what}, {kind}: {told} {count}")
    others = (DESTROYS, RENAMES, SNAPSHOT_RENAMES)
    missing = [it for it in (*MODES, *others) if not any(key[0] == it and key[2] == "ok" for key in counts)]
    sums = {it: sum(count for key, count in counts.items() if key[0] == it) for it in others}
    done = f"{sum(counts.values()) - sum(sums.values())} receives, " + ", ".join(f"{count} {it}" for it, count in sums.items())
    print(f"{done} in {2 * options.pools} pools, {len(wrong)} of {options.pools} seeds wrong" + "".join(f", {it} never done" for it in missing))
    sys.exit(bool(wrong or missing))


if __name__ == "__main__":
    main()
