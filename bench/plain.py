#!/usr/bin/env python3
"""The machine of the definition in plain Python: a dataset is a whole map, a snapshot a copy, a property the size of a set.

    python3 bench/plain.py BLOCKS POOLID [SCRIPT]

It answers a script as `zfsp` does (docs/COMMANDS.md), and shares no code with it. Each function restates a definition of crates/*/specs and
names its file; a file that is named without its crate is in model/specs. Read it from top to bottom. bench/rows.py runs the rows and the
examples on it, and bench/fuzz.py compares each reply of `zfsp` with it. It differs from the definitions in three points.

- Blocks have no numbers: two cells are the same block if they are the same Python object. Numbers are the pool's free choice, and no reply
  shows one. That a pool has enough of them is the condition NoSpace of `within_limits`.
- Where the pool may choose, which is in `slice` alone, each choice is listed that a later reply can show. `lawful` gives each lawful reply to a
  line with the state after it. A run of this file takes the first.
- Memory is never wanting, and there is no session: NoMemory, SessionFull and TooManySeats never come.
"""

import hashlib
import re
import sys
from collections import Counter, namedtuple
from dataclasses import dataclass, field, replace
from functools import cached_property

REFUSALS = """BadName NoDataset Exists NoParent BadKey ReadOnly NotSnapshot Busy HasClones HasChildren NotNewest NotClone NameClash TagExists NoTag
Deferred NotAncestor Quota RefQuota NoSpace TooMany BadStream WrongSource Modified NoMemory NoView IsRoot BadLine SessionFull TooManySeats""".split()


class Refused(Exception):
    """A refusal by its name. Its number is its place in REFUSALS, from 1 on (base/specs/Refusals)."""


def refuse(why, where):
    """One condition of a row. The first condition that holds gives the refusal (Rule: Row, first_of)."""
    if where:
        raise Refused(why)


# ---- keys (level, index), and maps
def path(leaf):
    """The key of a leaf and the keys above it, up to the root (base/specs/Key: path)."""
    return [(level, leaf // 16**level) for level in range(6)]

def children(key):
    """The sixteen keys directly below a key (stream/specs/Records: children)."""
    return [(key[0] - 1, 16 * key[1] + place) for place in range(16)]

def first_leaf(key):
    """The first leaf that a key covers (base/specs/Key: first_leaf)."""
    return key[1] * 16 ** key[0]


class Cell:
    """A block: its birth group, and its contents, 512 bytes at a leaf and none above (base/specs/Map: Cell)."""

    def __init__(self, birth, data):
        self.birth, self.data = birth, data


class Map(dict):
    """A dataset: from each key of its tree to the cell there (base/specs/Map: Map)."""

    __hash__, __eq__ = object.__hash__, object.__eq__

    @cached_property
    def blocks(self):
        """The set of its blocks (base/specs/Map: blocks)."""
        return frozenset(self.values())

    def rewritten(self, writes, is_punched, group):
        """The map after leaves {index: bytes} are written and others are punched, in a group. Touched are the written leaves, the present leaves
        that are punched, and all keys above these. A touched leaf that isn't written goes, and so does a touched key that has no key left below
        it. Every other touched key gets a new cell. Keys that aren't touched keep their cells (base/specs/Rewrite: rewrite)."""
        new, leaves = Map(self), [*writes, *(index for level, index in self if level == 0 and is_punched(index))]
        for key in sorted({key for leaf in leaves for key in path(leaf)}):
            level, index = key
            stays = index in writes if level == 0 else any(child in new for child in children(key))
            new.pop(key, None)
            if stays:
                new[key] = Cell(group, writes[index] if level == 0 else b"")
        return new


def union_of(maps):
    """The blocks of these maps (World: blocks_of_all)."""
    return frozenset().union(*(it.blocks for it in set(maps)))


# ---- names
CHARACTER, LONGEST = "[-_.:a-zA-Z0-9]", 255
COMPONENT = rf"(?!\.{{1,2}}(?!{CHARACTER})){CHARACTER}+"
ANY_NAME = re.compile(f"({COMPONENT}(?:/{COMPONENT})*)(?:([@#])({COMPONENT}))?")
# A name: of a file system, where the mark is empty; of a snapshot, where it is @; of a bookmark, where it is # (base/specs/Reading: target_of).
Target = namedtuple("Target", "system mark component")

def target_of(word, marks=("", "@", "#")):
    """The name with one of these marks, or None: at most 255 bytes, and no component `.` or `..` (base/specs/Names, Reading)."""
    found = ANY_NAME.fullmatch(word) if len(word) <= LONGEST else None
    return Target(*found.groups("")) if found and found.groups("")[1] in marks else None

def parent_of(name):
    """The name before the last `/`, empty where there is none (base/specs/Names: parent_of)."""
    return name.rpartition("/")[0]


# ---- worlds: file systems, snapshots, their lineage, and sums of blocks
@dataclass(frozen=True, eq=False)
class Snapshot:
    """A snapshot. Its identity is its creation group with its guid; a promote leaves it (World: Snap, SnapId)."""

    name: str
    map: Map
    guid: int
    group: int
    tags: tuple = ()
    deferred: bool = False
    id = property(lambda self: (self.group, self.guid))


@dataclass(frozen=True, eq=False)
class FileSystem:
    """A file system. Its snapshots are in order of their groups. Its origin and its bookmarks are identities (World: FileSystem)."""

    live: Map = field(default_factory=Map)
    snaps: dict = field(default_factory=dict)
    origin: tuple = None
    limits: dict = field(default_factory=dict)
    bookmarks: dict = field(default_factory=dict)

    @cached_property
    def kept(self):
        """The blocks of its snapshots (World: blocks_of_all)."""
        return union_of([t.map for t in self.snaps.values()])

    def without(self, goes):
        """The file system without the snapshots that go (Edits: without_snaps)."""
        return replace(self, snaps={name: t for name, t in self.snaps.items() if not goes(t)})

    def back_at(self, t):
        """The file system back at its snapshot, without newer snapshots and bookmarks (requests/Rollback: back_at)."""
        bookmarks = {name: it for name, it in self.bookmarks.items() if it[0] <= t.group}
        return replace(self.without(lambda it: it.group > t.group), live=t.map, bookmarks=bookmarks)


@dataclass(frozen=True, eq=False)
class World:
    """The file systems by name, the blocks that are to be freed, and the open group (World: World)."""

    systems: dict
    freeing: frozenset = frozenset()
    group: int = 1

    @cached_property
    def union(self):
        """The blocks that a dataset has (World: union_of)."""
        return frozenset().union(*(f.live.blocks | f.kept for f in self.systems.values()))

    @cached_property
    def reach(self):
        """The blocks that a dataset has or that are to be freed (World: reach_of)."""
        return self.union | self.freeing

    @cached_property
    def by_id(self):
        """Each snapshot by its identity, with its file system's name (World: snaps_of, snap_at)."""
        return {t.id: (name, t) for name, f in self.systems.items() for t in f.snaps.values()}

    def named(self, target):
        """The file system, the snapshot or the bookmark of a name, or none (World: file_system_at, snap_named, bookmark_named)."""
        f = self.systems.get(target.system)
        return f and {"": f, "@": f.snaps.get(target.component), "#": f.bookmarks.get(target.component)}[target.mark]

    def dataset(self, target):
        """The map of the file system or the snapshot of a name, or none (Targets: dataset_of; World: map_of)."""
        named = self.named(target) if target.mark != "#" else None
        return named and (named.map if target.mark else named.live)

    def family(self, name):
        """A file system, where it is there, and its descendants, in byte order (World: family_of)."""
        return sorted(it for it in self.systems if it == name or it.startswith(name + "/"))

    def clones(self, snap):
        """The clones of a snapshot, in byte order (World: clones_of)."""
        return sorted(name for name, f in self.systems.items() if f.origin == snap.id)

    def previous(self, name, snap=None):
        """The file system and the snapshot before a live map or a snapshot: the next older one, or the origin, or None (World: previous_of)."""
        f = self.systems[name]
        for t in reversed(f.snaps.values()):
            if snap is None or t.group < snap.group:
                return name, t
        return self.by_id[f.origin] if f.origin else None

    def older(self, name, snap=None):
        """The snapshots before a dataset in its lineage, the newest first, each with its file system's name (World: older_of)."""
        found, before = [], self.previous(name, snap)
        while before:
            found.append(before)
            before = self.previous(*before)
        return found

    def written(self, name, snap=None):
        """How many blocks a dataset has that the one before it hasn't (Sums: written_of)."""
        before, map_ = self.previous(name, snap), snap.map if snap else self.systems[name].live
        return len(map_.blocks - before[1].map.blocks) if before else len(map_.blocks)

    @cached_property
    def sums(self):
        """What each file system uses, and its four parts. A child counts with its reservation where it uses less (Sums: used_of, used_by_..)."""
        sums, below = {}, Counter()
        for name in sorted(self.systems, reverse=True):  # children stand behind their parent
            f = self.systems[name]
            origin = self.by_id[f.origin][1].map.blocks if f.origin else frozenset()
            parts = {
                "usedbydataset": len(f.live.blocks - origin),
                "usedbysnapshots": len(f.kept - f.live.blocks - origin),
                "usedbyrefreservation": max(0, f.limits.get("refreservation", 0) - self.written(name)),
                "usedbychildren": below[name],
            }
            sums[name] = {"used": sum(parts.values()), **parts}
            below[parent_of(name)] += max(sums[name]["used"], f.limits.get("reservation", 0))
        return sums

    def used_by_snap(self, snap):
        """How many blocks a snapshot has that no other dataset has (Sums: used_by_snap)."""
        others = [it for f in self.systems.values() for it in (f.live, *(t.map for t in f.snaps.values() if t is not snap))]
        return len(snap.map.blocks - union_of(others))


# ---- states, and the requests as their methods
SNAPSHOTS, FILE_SYSTEMS, BOOKMARKS, TAGS, VIEWS, LAST_NUMBER, LAST_GUID = 65536, 1024, 1024, 256, 1024, 2**63 - 1, 2**32 - 1


@dataclass(frozen=True, eq=False)
class State:  # never changed in place: a request makes a new state
    """All that a pool is between two steps: the present world, the last synced one, open views with their snapshots' identities, counters (State).
    Each method from `create` on is the request that its command asks. It gives the reply and the state after it, or raises the first refusal
    whose condition holds. Its definition is in the file of requests/ that has its name (Change, FreeObject, OpenView and so on)."""

    now: World
    last: World
    size: int
    pool: int
    views: dict = field(default_factory=dict)
    next_guid: int = 1
    next_view: int = 1

    @cached_property
    def waiting(self):
        """The blocks that wait for the next sync (State: waiting_of)."""
        return self.last.reach - self.now.reach

    def with_now(self, **parts):
        """The state with these parts of the present world (Edits: with_now, with_next_group)."""
        return replace(self, now=replace(self.now, **parts))

    def with_system(self, name, f=None, **parts):
        """The state with this file system, or with these parts of the one of the name (Edits: with_file_system)."""
        return self.with_now(systems={**self.now.systems, name: replace(f or self.now.systems[name], **parts)})

    def with_snap(self, name, t):
        """The state with this snapshot of a file system. A new one comes after the others (Edits: with_tags)."""
        return self.with_system(name, snaps={**self.now.systems[name].snaps, t.name: t})

    def with_losses(self, old):
        """The state with all blocks to be freed that no dataset has any more, but one had in the old state (Edits: with_losses)."""
        return self.with_now(freeing=self.now.freeing | (old.now.union - self.now.union))

    def is_needed(self, snap):
        """A tag, an open view or a clone needs a snapshot (Outcome: is_needed)."""
        return bool(snap.tags or snap.id in self.views.values() or self.now.clones(snap))

    def swept(self):
        """The state without the snapshots whose destroy is deferred and that nothing needs (Outcome: state_after_sweep)."""
        new = self
        for name, f in self.now.systems.items():
            gone = [t for t in f.snaps.values() if t.deferred and not self.is_needed(t)]
            new = new.with_system(name, f.without(lambda t: t in gone)) if gone else new
        return new if new is self else new.with_losses(self)

    def within_limits(self):
        """This state, if all limits hold in it: quotas, refquotas, and the pool's room (Fits; requests/Change: limit_row)."""
        w, root = self.now, self.now.systems["p"]
        refuse("Quota", any(w.sums[name]["used"] > f.limits["quota"] for name, f in w.systems.items() if "quota" in f.limits))
        refuse("RefQuota", any(len(f.live.blocks) > f.limits["refquota"] for f in w.systems.values() if "refquota" in f.limits))
        refuse("NoSpace", max(w.sums["p"]["used"], root.limits.get("reservation", 0)) + len(w.freeing) + len(self.waiting) > self.size)
        return self

    def room(self, name):
        """What is available to a file system: what is available to its parent, and what it doesn't use of its reservation. To the root it is what
        of the pool isn't used, to be freed or waiting. It is never more than its quota leaves (Sums: room_of)."""
        used, limits = self.now.sums[name]["used"], self.now.systems[name].limits
        if name == "p":
            left = max(0, self.size - used - len(self.now.freeing) - len(self.waiting))
        else:
            left = self.room(parent_of(name)) + max(0, limits.get("reservation", 0) - used)
        return min(left, max(0, limits["quota"] - used)) if "quota" in limits else left

    # -- file systems and blocks
    def create(self, target):
        """An empty file system."""
        return "ok", self.with_new(target.system, FileSystem())

    def with_new(self, name, f):
        """The state with one more file system (requests/Create: create_row)."""
        refuse("Exists", name in self.now.systems)
        refuse("NoParent", parent_of(name) not in self.now.systems)
        refuse("TooMany", len(self.now.systems) >= FILE_SYSTEMS)
        return self.with_system(name, f)

    def change(self, target, object_, block, writes, is_punched):
        """What the next three requests have in common: a live map is rewritten (requests/Change; Targets: is_block)."""
        refuse("NoDataset", self.now.dataset(target) is None)
        refuse("ReadOnly", target.mark == "@")
        refuse("BadKey", object_ > 255 or block > 4095)
        live = self.now.dataset(target).rewritten(writes, is_punched, self.now.group)
        return "ok", self.with_system(target.system, live=live).within_limits()

    def write(self, target, object_, block, data):
        """Writes a block, the leaf 4096 * object + block (base/specs/Key: leaf_index)."""
        return self.change(target, object_, block, {4096 * object_ + block: data}, lambda leaf: False)

    def punch(self, target, object_, block):
        """Makes a block a hole."""
        return self.change(target, object_, block, {}, lambda leaf: leaf == 4096 * object_ + block)

    def rmobj(self, target, object_):
        """Makes each block of an object a hole."""
        return self.change(target, object_, 0, {}, lambda leaf: leaf // 4096 == object_)

    def read(self, target, object_, block):
        """The bytes of a block, or `hole`."""
        refuse("NoDataset", self.now.dataset(target) is None)
        refuse("BadKey", object_ > 255 or block > 4095)
        cell = self.now.dataset(target).get((0, 4096 * object_ + block))
        return cell.data.hex() if cell else "hole", self

    # -- snapshots and clones
    def snapshot(self, recursive, *names):
        """Takes a snapshot of each file system, with -r of its descendants too. All are of the open group, which is closed."""
        w = self.now
        refuse("NoDataset", any(it.system not in w.systems for it in names))
        names = [it._replace(system=name) for it in names for name in (w.family(it.system) if recursive else [it.system])]
        refuse("BadName", any(len("".join(it)) > LONGEST for it in names))
        refuse("Exists", any(w.named(it) for it in names) or len({it.system for it in names}) < len(names))
        refuse("TooMany", self.has_no_room_for(len(names)) or self.next_guid + len(names) - 1 > LAST_GUID)
        new = replace(self, next_guid=self.next_guid + len(names))
        for guid, it in enumerate(names, self.pool * 2**32 + self.next_guid):
            new = new.with_snap(it.system, Snapshot(it.component, w.systems[it.system].live, guid, w.group))
        return "ok", new.with_now(group=w.group + 1).within_limits()

    def has_no_room_for(self, count):
        """With so many more snapshots there would be too many, or the open group is the last one (requests/Snapshot: has_no_room_for)."""
        return sum(len(f.snaps) for f in self.now.systems.values()) + count > SNAPSHOTS or self.now.group >= LAST_NUMBER

    def placed(self, target):
        """The snapshot of a name. The name must be of a snapshot that is there (requests/Rollback: placed)."""
        refuse("NotSnapshot", target.mark != "@")
        refuse("NoDataset", not self.now.named(target))
        return self.now.named(target)

    def ask_leave(self, snaps, going=()):
        """None of the snapshots that go has a tag, a view, or a clone outside of the file systems that go (requests/Rollback: back_row)."""
        refuse("Busy", any(t.tags or t.id in self.views.values() for t in snaps))
        refuse("HasClones", any(clone not in going for t in snaps for clone in self.now.clones(t)))

    def rollback(self, later, target):
        """Makes the live map that of a snapshot. With -r newer snapshots and bookmarks go."""
        t, f = self.placed(target), self.now.systems[target.system]
        back = f.back_at(t)
        refuse("NotNewest", not later and (len(back.snaps) < len(f.snaps) or len(back.bookmarks) < len(f.bookmarks)))
        self.ask_leave([it for it in f.snaps.values() if it.group > t.group])
        return "ok", self.with_system(target.system, back).with_losses(self).within_limits()

    def clone(self, target, new):
        """Makes a file system with the map of a snapshot, its origin."""
        t = self.placed(target)
        refuse("Deferred", t.deferred)
        return "ok", self.with_new(new.system, FileSystem(live=t.map, origin=t.id))

    def promote(self, target):
        """Gives a clone its origin, the older snapshots of the origin's file system, and that one's origin. The other becomes its clone."""
        name, systems = target.system, self.now.systems
        refuse("NoDataset", name not in systems)
        refuse("NotClone", not systems[name].origin)
        owner, origin = self.now.by_id[systems[name].origin]
        moved = {it: t for it, t in systems[owner].snaps.items() if t.group <= origin.group}
        refuse("BadName", any(len(f"{name}@{it}") > LONGEST for it in moved))
        refuse("NameClash", any(it in systems[name].snaps for it in moved))
        new = self.with_system(owner, systems[owner].without(lambda t: t.name in moved), origin=origin.id)
        return "ok", new.with_system(name, snaps={**moved, **systems[name].snaps}, origin=systems[owner].origin).within_limits()

    def rename(self, target, to):
        """Gives a file system, and with it all below it, another name. Snapshots and bookmarks go with it. No line asks it."""
        w, name = self.now, target.system
        refuse("NoDataset", name not in w.systems)
        refuse("IsRoot", name == "p")
        refuse("Exists", to.system in w.systems)
        refuse("NoParent", parent_of(to.system) not in w.systems)
        names = {it: to.system + it[len(name) :] for it in w.family(name)}
        new = self.with_now(systems={names.get(it, it): f for it, f in w.systems.items()})
        refuse("BadName", to.system.startswith(f"{name}/") or any(len(it) > LONGEST for it in new.list()[0].split(" ")))
        return "ok", new.within_limits()

    def rename_snapshot(self, recursive, target, to):
        """Gives a snapshot another name, with -r also those of its name in the family. A new name is a component. No line asks it."""
        w, name, old = self.now, target.system, target.component
        refuse("NoDataset", not w.named(target))
        changed = {it: w.systems[it].snaps for it in (w.family(name) if recursive else [name]) if old in w.systems[it].snaps}
        refuse("BadName", any(len(f"{it}@{to}") > LONGEST for it in changed))
        refuse("Exists", any(to in snaps for snaps in changed.values()))
        refuse("Busy", any(snaps[old].id in self.views.values() for snaps in changed.values()))
        new = self
        for it, snaps in changed.items():
            new = new.with_system(it, snaps={t.name: t for t in (replace(t, name=to) if t.name == old else t for t in snaps.values())})
        return "ok", new

    def destroy(self, recursive, defer, target):
        """Destroys a file system, a snapshot or a bookmark. What no dataset has any more is to be freed."""
        if target.mark == "@":
            return self.destroy_snapshots(recursive, defer, target)
        if target.mark == "#":
            refuse("NoDataset", not self.now.named(target))
            bookmarks = self.now.systems[target.system].bookmarks
            return "ok", self.with_system(target.system, bookmarks={it: bookmarks[it] for it in bookmarks if it != target.component})
        return "ok", self.without_systems(recursive, defer, target).with_losses(self)

    def destroy_snapshots(self, recursive, defer, *names):
        """Destroys the snapshots of a list, all or none of them. A line has a list of one name (requests/Destroy: destroy_target_of)."""
        return "ok", self.without_snaps(recursive, defer, names).with_losses(self)

    def without_systems(self, recursive, defer, target):
        """The state without a file system, with -r without its family (requests/Destroy: destroy_system_row)."""
        w, name, going = self.now, target.system, self.now.family(target.system)
        refuse("NoDataset", name not in w.systems)
        refuse("IsRoot", name == "p")
        refuse("NotSnapshot", defer)
        refuse("HasChildren", not recursive and (len(going) > 1 or w.systems[name].snaps))
        self.ask_leave([t for it in going for t in w.systems[it].snaps.values()], going)
        return self.with_now(systems={it: f for it, f in w.systems.items() if it not in going})

    def without_snaps(self, recursive, defer, names):
        """The state without the snapshots of a list, with -r without all of their names in the families. A name that no snapshot has is passed over,
        and one that stands twice counts once. With -d a needed one is marked (requests/Destroy: snaps_named, destroy_snap_row, after_destroy)."""
        names = [it._replace(system=name) for it in names for name in (self.now.family(it.system) if recursive else [it.system])]
        systems = {self.now.named(it): it.system for it in names if self.now.named(it)}
        refuse("NoDataset", not systems)
        self.ask_leave([] if defer else systems)
        new = self
        for snap, name in systems.items():
            if defer and self.is_needed(snap):
                new = new.with_snap(name, replace(snap, deferred=True))
            else:
                new = new.with_system(name, new.now.systems[name].without(lambda t: t is snap))
        return new

    # -- tags, bookmarks and views
    def hold(self, tag, target):
        """Adds a tag to a snapshot, after the others."""
        t = self.placed(target)
        refuse("Deferred", t.deferred)
        refuse("TagExists", tag in t.tags)
        refuse("TooMany", len(t.tags) >= TAGS)
        return "ok", self.with_snap(target.system, replace(t, tags=(*t.tags, tag)))

    def release(self, tag, target):
        """Takes a tag from a snapshot."""
        t = self.placed(target)
        refuse("NoTag", tag not in t.tags)
        return "ok", self.with_snap(target.system, replace(t, tags=tuple(it for it in t.tags if it != tag)))

    def holds(self, target):
        """The tags of a snapshot, in the order in which they were added."""
        return " ".join(self.placed(target).tags) or "-", self

    def bookmark(self, target, mark):
        """Keeps the identity of a snapshot under a name of its file system."""
        t = self.placed(target)
        refuse("NotAncestor", target.system != mark.system)
        bookmarks = self.now.systems[mark.system].bookmarks
        refuse("Exists", mark.component in bookmarks)
        refuse("TooMany", len(bookmarks) >= BOOKMARKS)
        return "ok", self.with_system(mark.system, bookmarks={**bookmarks, mark.component: t.id})

    def view(self, target):
        """Opens a view of a snapshot under the next number."""
        t = self.placed(target)
        refuse("Deferred", t.deferred)
        refuse("TooMany", len(self.views) >= VIEWS or self.next_view > LAST_NUMBER)
        return str(self.next_view), replace(self, views={**self.views, self.next_view: t.id}, next_view=self.next_view + 1)

    def unview(self, number):
        """Closes a view."""
        refuse("NoView", number not in self.views)
        return "ok", replace(self, views={it: id_ for it, id_ in self.views.items() if it != number})

    # -- limits and the pool
    def set(self, setting, target):
        """Sets a limit to an amount of blocks, or to none. None is set whether the limits hold or not."""
        limit, amount = setting
        refuse("NoDataset", target.system not in self.now.systems)
        limits = {**self.now.systems[target.system].limits, limit: amount}
        new = self.with_system(target.system, limits={it: blocks for it, blocks in limits.items() if blocks is not None})
        return "ok", new if amount is None else new.within_limits()

    def slice(self, count):
        """Frees so many blocks of those that are to be freed, or all. Which ones is the pool's choice. No dataset ever has one of them again, so the
        only thing that replies can show is how many of them the last synced world has: these wait. Each such number is one outcome."""
        waits, others = list(self.now.freeing & self.last.reach), list(self.now.freeing - self.last.reach)
        count = min(count, len(self.now.freeing))
        for some in range(max(0, count - len(others)), min(count, len(waits)) + 1):
            yield str(count), self.with_now(freeing=self.now.freeing.difference(waits[:some], others[: count - some]))

    def sync(self):
        """Opens the next group, and makes the present world the last synced one."""
        refuse("TooMany", self.now.group >= LAST_NUMBER)
        new = self.with_now(group=self.now.group + 1)
        return str(new.now.group), replace(new, last=new.now)

    def abandon(self):
        """Makes the last synced world the present one. The counters of guids and views go on."""
        refuse("Busy", self.views)
        return "ok", replace(self, now=self.last)

    # -- questions
    def list(self):
        """Each file system in byte order, its snapshots, oldest first, and its bookmarks by group and name (Properties: all_names)."""
        names = []
        for name, f in sorted(self.now.systems.items()):
            bookmarks = sorted(f.bookmarks, key=lambda it: (f.bookmarks[it][0], it))
            names += [name, *(f"{name}@{it}" for it in f.snaps), *(f"{name}#{it}" for it in bookmarks)]
        return " ".join(names), self

    def get(self, word, target):
        """The value of a property, `-` where names of that kind have none. Sizes are in bytes (Properties: property_value)."""
        if word.startswith("written@"):
            return self.written_since(word[8:], target)
        w, name, named = self.now, target.system, self.now.named(target)
        refuse("NoDataset", not named)
        if target.mark == "#":
            return {"createtxg": str(named[0]), "guid": str(named[1])}.get(word, "-"), self
        t, f = (named, None) if target.mark else (None, named)
        sizes = {"referenced": len(w.dataset(target).blocks), "written": w.written(name, t)}
        if t:
            sizes |= {"used": w.used_by_snap(t)} if word == "used" else {}
            others = {"guid": t.guid, "createtxg": t.group, "userrefs": len(t.tags), "defer_destroy": "on" if t.deferred else "off"}
            others |= {"clones": ",".join(w.clones(t)) or "-"}
        else:
            sizes |= {"available": self.room(name), **w.sums[name], **{it: f.limits.get(it, 0) for it in LIMITS}}
            others = {"origin": "{0}@{1.name}".format(*w.by_id[f.origin]) if f.origin else "-"}
        return str(512 * sizes[word] if word in sizes else others.get(word, "-")), self

    def written_since(self, word, target):
        """How many bytes of blocks a dataset has that an older snapshot hasn't. A word without @ is of the same file system (Sums: written_since)."""
        since = target_of(word if "@" in word else f"{target.system}@{word}", ("@",))
        refuse("BadName", not since)
        map_, snap = self.now.dataset(target), self.now.named(since)
        refuse("NoDataset", map_ is None or not snap)
        refuse("NotAncestor", snap not in [t for _, t in self.now.older(target.system, self.now.named(target) if target.mark else None)])
        return str(512 * len(map_.blocks - snap.map.blocks)), self

    def wouldfree(self, target, *words):
        """How many bytes of blocks no dataset would have without the snapshots from one to another (requests/WouldFree; Sums: would_free)."""
        names = [target_of(f"{target.system}@{word}", ("@",)) for word in words]
        refuse("BadName", not all(names))
        first, last = map(self.now.named, names)
        refuse("NoDataset", not first or not last)
        refuse("NotAncestor", last.group < first.group)
        going, f = lambda t: first.group <= t.group <= last.group, self.now.systems[target.system]
        refuse("HasClones", any(self.now.clones(t) for t in f.snaps.values() if going(t)))
        return str(512 * len(self.now.union - self.with_system(target.system, f.without(going)).now.union)), self

    def pget(self, word):
        """The value of a property of the pool. Sizes are in bytes (Properties: pool_value; Sums: free_of)."""
        allocated, waiting = len(self.now.reach), len(self.waiting)
        free, freeing = self.size - allocated - waiting, len(self.now.freeing)
        sizes = dict(size=self.size, allocated=allocated, free=free, freeing=freeing, waiting=waiting)
        return str(512 * sizes[word] if word in sizes else self.now.group), self

    # -- streams
    def send(self, is_since, *names):
        """The stream of a snapshot: of all of it, or of what is younger than a source."""
        t, start = self.placed(names[-1]), (0, 0)
        if is_since:
            start = self.source(names[0], names[1].system, t)
            refuse("NotAncestor", not start)
        return spelled(start[1], t.guid, records_since(t.map, start[0])).hex(), self

    def source(self, name, system, t):
        """The identity of a source: an older snapshot of the lineage, or an older bookmark of the file system (requests/Send: sources_of)."""
        named = self.now.named(name)
        if name.mark == "@":
            return named.id if named in [it for _, it in self.now.older(system, t)] else None
        return named if name.mark and named and name.system == system and named[0] < t.group else None

    def receive(self, mode, target, stream, origin=None):
        """Makes the change that a stream tells, of what its mode begins with, and takes a snapshot with its guid. A line's -F is the mode Back."""
        mode, told = {False: "Plain", True: "Back"}.get(mode, mode), told_by(stream)
        refuse("BadStream", not told)
        source, guid, records = told
        before = self.begun_in_full(mode, target.system) if source == 0 else self.begun_from(source, mode, target, origin)
        refuse("TooMany", before.has_no_room_for(1))
        w, name = before.now, target.system
        writes, freed = {index: data for (_, index), data in records if data}, {key for key, data in records if not data}
        live = w.systems[name].live.rewritten(writes, lambda leaf: any(key in freed for key in path(leaf)), w.group)
        new = before.with_system(name, live=live).with_snap(name, Snapshot(target.component, live, guid, w.group))
        return "ok", new.with_now(group=w.group + 1).within_limits()

    def begun_in_full(self, mode, name):
        """What a full stream begins with: a new file system, or one that keeps its limits alone (requests/Receive: before_full, full_row)."""
        refuse("BadStream", mode == "Origin")
        if mode != "Replace":
            return self.with_new(name, FileSystem())
        f = self.now.systems.get(name)
        refuse("NoDataset", not f)
        refuse("Exists", f.origin)
        self.ask_leave(f.snaps.values())
        return self.with_system(name, FileSystem(limits=f.limits)).with_losses(self)

    def begun_from(self, source, mode, target, origin):
        """What an incremental stream begins with: a clone, or the file system that is there, as it is or gone back (Receive: before_incremental,
        incremental_row)."""
        refuse("BadStream", mode == "Replace")
        if mode == "Origin":
            t = self.now.named(origin)
            refuse("NoDataset", not t)
            refuse("Deferred", t.deferred)
            refuse("WrongSource", t.guid != source)
            return self.with_new(target.system, FileSystem(live=t.map, origin=t.id))
        f, is_past = self.now.systems.get(target.system), mode == "Past"
        refuse("NoDataset", not f)
        refuse("Exists", not is_past and self.now.named(target))
        t = next((it for it in reversed(f.snaps.values()) if not is_past or it.guid == source), None)
        refuse("WrongSource", not t or t.guid != source)
        refuse("Exists", target.component in f.snaps and f.snaps[target.component].group <= t.group)
        refuse("Modified", mode == "Plain" and f.live.blocks != t.map.blocks)
        self.ask_leave([it for it in f.snaps.values() if it.group > t.group])
        return self if mode == "Plain" else self.with_system(target.system, f.back_at(t)).with_losses(self)


def records_since(map_, group):
    """The records of all that is younger than a group, in order of their first leaves. (key, bytes) writes a leaf. (key, None) frees a key: each
    absent one below a young key, and (5, 0) where the map is empty (stream/specs/Records: records_since)."""
    young = [(key, cell) for key, cell in map_.items() if cell.birth > group]
    writes = [(key, cell.data) for key, cell in young if key[0] == 0]
    frees = [(child, None) for key, _ in young if key[0] > 0 for child in children(key) if child not in map_]
    return sorted(writes + frees + ([] if map_ else [((5, 0), None)]), key=lambda record: first_leaf(record[0]))

def spelled(source, target, records):
    """The bytes of a stream: header, records, end, and the digest of all these (stream/specs/Spelling: spell)."""
    parts = [b"ZDSTRM01", source.to_bytes(8, "big"), target.to_bytes(8, "big")]
    for (level, index), data in records:
        parts += [b"\1", index.to_bytes(4, "big"), data] if data else [b"\2", bytes([level]), index.to_bytes(4, "big")]
    text = b"".join(parts) + b"\0"
    return text + hashlib.sha256(text).digest()

def told_by(stream):
    """The guids of source and target, and the records, that a stream's bytes tell. None where the bytes are no stream: what they seem to tell
    breaks a rule, or its bytes are others (stream/specs/Spelling: IsStream, KeepsRules)."""
    number = lambda at, size: int.from_bytes(stream[at : at + size], "big")
    source, target, records, at = number(8, 8), number(16, 8), [], 24
    while number(at, 1) in (1, 2):
        is_write = number(at, 1) == 1
        records.append(((0, number(at + 1, 4)), stream[at + 5 : at + 517]) if is_write else ((number(at + 1, 1), number(at + 2, 4)), None))
        at += 517 if is_write else 6
    ends = [0, *(first_leaf(key) + 16 ** key[0] for key, _ in records)]
    keeps_rules = target != 0 and source != target and all(
        level <= 5 and index < 16 ** (5 - level) and end <= first_leaf((level, index)) and (data is None or len(data) == 512)
        for ((level, index), data), end in zip(records, ends)
    )
    return (source, target, records) if keeps_rules and spelled(source, target, records) == stream else None


# ---- lines
def number_of(word, most=2**32 - 1):
    """NUM: a decimal number without leading zeros, or None (script/specs/Words: number_up_to)."""
    return int(word) if re.fullmatch("0|[1-9][0-9]{0,18}", word) and int(word) <= most else None

def setting_of(word):
    """PROP=SIZE: a limit, with an amount of blocks or None for no limit (script/specs/Words: at_equals, limit_of_word, amount_of_word)."""
    limit, _, size = word.partition("=")
    amount = 0 if size == "none" else number_of(size, 2**49)
    return (limit, amount // 512 or None) if limit in LIMITS and amount is not None and amount % 512 == 0 else None


LIMITS, DIGITS = "quota refquota reservation refreservation".split(), "(?:[0-9a-fA-F]{2})"
PROPERTIES = [*LIMITS, *"""used available referenced written usedbydataset usedbysnapshots usedbychildren usedbyrefreservation guid createtxg
origin clones userrefs defer_destroy""".split()]
# What a word of each kind says. None is BadLine by a shape, and BadName by a name, once all shapes are right (script/specs/Words, Meaning).
SHAPES = {
    "NUM": number_of,
    "BLOCK": lambda word: bytes.fromhex(word).ljust(512, b"\0") if re.fullmatch(f"{DIGITS}{{1,512}}", word) else None,
    "HEX": lambda word: bytes.fromhex(word) if re.fullmatch(f"{DIGITS}+", word) else None,
    "SETTING": setting_of,
    "PROP": lambda word: word if word in PROPERTIES or word.startswith("written@") else None,
    "POOLPROP": lambda word: word if word in "size allocated free freeing waiting group".split() else None,
}
NAMES = {
    "NAME": lambda word: target_of(word, ("",)),
    "SNAP": lambda word: target_of(word, ("@",)),
    "MARK": lambda word: target_of(word, ("#",)),
    "TARGET": target_of,
    "TAG": lambda word: word if re.fullmatch(f"{CHARACTER}{{1,{LONGEST}}}", word) else None,
}
COMMANDS = {form.split()[0]: form.split()[1:] for form in """create NAME; write TARGET NUM NUM BLOCK; punch TARGET NUM NUM; rmobj TARGET NUM;
read TARGET NUM NUM; snapshot -r SNAP ..; rollback -r TARGET; clone TARGET NAME; promote NAME; destroy -r -d TARGET; hold TAG TARGET;
release TAG TARGET; holds TARGET; bookmark TARGET MARK; view TARGET; unview NUM; set SETTING NAME; slice NUM; sync; abandon; list;
get PROP TARGET; wouldfree NAME WORD WORD; pget POOLPROP; send -i TARGET; receive -F SNAP HEX""".split(";")}

def request_of(line):
    """The request of a line, as a method of State with its operands (script/specs/Meaning: request_of)."""
    refuse("BadLine", len(line) > 4194304 or not re.fullmatch(b"[!-~]+(?: [!-~]+)*", line))
    command, *words = line.decode().split(" ")
    refuse("BadLine", command not in COMMANDS)
    kinds, flags = list(COMMANDS[command]), []
    while kinds and kinds[0].startswith("-"):
        flags.append(words[:1] == [kinds.pop(0)])
        words = words[1:] if flags[-1] else words
    kinds = kinds * 2 if command == "send" and flags[0] else kinds[:1] * max(1, len(words)) if kinds[1:] == [".."] else kinds
    refuse("BadLine", len(words) != len(kinds))
    words = [SHAPES[kind](word) if kind in SHAPES else word for kind, word in zip(kinds, words)]
    refuse("BadLine", None in words)
    words = [NAMES[kind](word) if kind in NAMES else word for kind, word in zip(kinds, words)]
    refuse("BadName", None in words)
    return getattr(State, command), [*flags, *words]

def lawful(state, line):
    """The lawful replies to a line, each with the state after it. None stands for no reply (Step: IsDone, IsRefused; Outcome: state_after)."""
    if line[:1] in (b"", b"#"):
        return [(None, state)]
    try:
        method, operands = request_of(line)
        done = method(state, *operands)
        return [(reply, new.swept()) for reply, new in (done if method is State.slice else [done])]
    except Refused as refused:
        return [(f"error {REFUSALS.index(refused.args[0]) + 1} {refused.args[0]}", state)]

def fresh(size, pool):
    """A pool as it is created: an empty root file system, in group 1 (State: fresh_state)."""
    world = World({"p": FileSystem()})
    return State(world, world, size, pool)

def main():
    sizes = [number_of(word, most) for word, most in zip(sys.argv[1:], (4194304, 2**32 - 1))]
    if len(sys.argv) not in (3, 4) or not all(sizes):
        sys.exit("usage: plain.py BLOCKS POOLID [SCRIPT]")
    state = fresh(*sizes)
    for line in open(sys.argv[3], "rb") if len(sys.argv) == 4 else sys.stdin.buffer:
        reply, state = lawful(state, line.removesuffix(b"\n"))[0]
        if reply is not None:
            print(reply, flush=True)


if __name__ == "__main__":
    main()
