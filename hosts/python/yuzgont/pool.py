"""A pool."""

import re
import secrets
import threading
from ctypes import byref, c_bool, c_size_t, c_uint32, c_uint64, create_string_buffer
from enum import IntEnum

from .errors import BadKey, BadName, PoolMissing, check, error_of
from .library import Handle, library

BLOCK_SIZE = 512
MOST_BLOCKS = 4_194_304
# The properties that the library tells by a number; the others are asked by a line.
_PROPERTIES = (
    "used available referenced written usedbydataset usedbysnapshots usedbychildren usedbyrefreservation quota refquota reservation "
    "refreservation guid createtxg userrefs"
).split()
_LIMITS = ("quota", "refquota", "reservation", "refreservation")
_ERROR = re.compile(r"error (\d+) \w+\n")
_WORD = re.compile(r"[!-~]+")


class Receiving(IntEnum):
    """The mode of a receive (docs/RECEIVE.md).

    `PLAIN`: a full stream makes a new file system. An incremental one goes into a file system that hasn't changed since its newest snapshot.
    `BACK`: the file system is rolled back to its newest snapshot first. `PAST`: it is rolled back to the stream's source; newer snapshots and
    bookmarks are destroyed. `ORIGIN`: an incremental stream makes a clone of its source. `REPLACE`: a full stream takes the place of a file
    system, whose contents, snapshots and bookmarks are destroyed.
    """

    PLAIN = 0
    BACK = 1
    PAST = 2
    ORIGIN = 3
    REPLACE = 4


def random_id():
    """An id for a pool, drawn at random from 1 to 4,294,967,295."""
    return secrets.randbelow(2**32 - 1) + 1


def _word(word):
    """A word of a line. What is no word can be no name: in a line it would be several words, or none."""
    if not isinstance(word, str):
        raise TypeError(f"a name is a str, not {type(word).__name__}")
    if not _WORD.fullmatch(word):
        raise BadName(repr(word))
    return word


def _number(number, what):
    if not 0 <= number < 2**32:
        raise BadKey(f"{what} {number}")
    return int(number)


class Pool:
    """A pool in memory, of `blocks` blocks of 512 bytes (1 to 4,194,304).

    A pool's id must never be used twice. It is in the guid of every snapshot, so a second pool of one id gives the guids of the first to other
    contents. A backup then applies an increment to the wrong snapshot, and no refusal tells this. So the id is drawn at random unless
    `pool_id`, 1 to 4,294,967,295, is given.

    A pool is closed at the end of `with`, by `close`, or when nothing refers to it any more. Its calls may be made from several threads: they wait
    for each other. Not after a fork, in the child of a process with threads.
    """

    def __init__(self, blocks=100_000, pool_id=None):
        self._library, self._handle, self._lock = library(), Handle(), threading.RLock()
        self.id = random_id() if pool_id is None else pool_id
        self.blocks = blocks
        # What C would cut to 32 bits.
        if not 0 < self.id < 2**32:
            raise BadName(f"a pool of the id {self.id}")
        if not 0 < blocks <= MOST_BLOCKS:
            raise error_of(21, f"a pool of {blocks} blocks")
        self._do("create", self.id, blocks)

    def close(self):
        """Lets the pool go, with all its memory. A pool may be closed twice; other calls then raise PoolMissing."""
        with self._lock:
            self._library.yuz_free(byref(self._handle))

    def __enter__(self):
        return self

    def __exit__(self, *_):
        self.close()

    def __del__(self):
        if hasattr(self, "_handle"):
            self._library.yuz_free(byref(self._handle))

    def __repr__(self):
        return f"<Pool {self.id} of {self.blocks} blocks{'' if self._handle.is_open else ', closed'}>"

    def _do(self, call, *words, what=None):
        """Makes a call of the library, and raises what it answers unless it was done."""
        with self._lock:
            check(getattr(self._library, f"yuz_{call}")(byref(self._handle), *words), what or call)

    def _bytes(self, call, size):
        """All bytes of the last reply or stream, of a known size."""
        buffer, count = create_string_buffer(max(size, 1)), c_size_t()
        self._do(call, 0, buffer, size, byref(count))
        return buffer.raw[: count.value]

    # Lines.

    def reply(self, line):
        """The reply of a line (docs/COMMANDS.md), with its line feed, also where it is a refusal."""
        line = line.encode() if isinstance(line, str) else bytes(line)
        refusal, size = c_uint32(), c_size_t()
        with self._lock:
            self._do("line", line, len(line), byref(refusal), byref(size), what="line")
            return self._bytes("reply", size.value).decode("ascii")

    def line(self, line):
        """The reply of a line without its line feed; a refused line raises its refusal."""
        told = self.reply(line)
        refused = _ERROR.fullmatch(told)
        if refused:
            raise error_of(int(refused[1]), line if isinstance(line, str) else line.decode(errors="replace"))
        return told[:-1]

    def _line(self, *words):
        return self.line(" ".join(words))

    # File systems.

    def create(self, name):
        """Makes an empty file system."""
        self._line("create", _word(name))

    def destroy(self, target, recursive=False, deferred=False):
        """Lets a file system, a snapshot or a bookmark go: destroy [-r] [-d]."""
        self._line("destroy", *["-r"] * recursive, *["-d"] * deferred, _word(target))

    def destroy_snapshots(self, names, recursive=False, deferred=False):
        """Lets snapshots go, all or none of them: with `recursive` also those of their names below, with `deferred` each once nothing needs it. A
        name that no snapshot has is passed over; NoDataset where none has one. BadName where the list is empty."""
        spelled = " ".join(_word(name) for name in names).encode()
        self._do("destroy_snapshots", spelled, len(spelled), bool(recursive), bool(deferred), what=f"destroy {spelled.decode()}")

    def rename(self, name, to):
        """Renames a file system, and with it all below it; their snapshots and bookmarks go with them. The file system above the new name must be
        there. BadName for a new name below the old one, and where a whole name would have more than 255 bytes."""
        old, new = _word(name).encode(), _word(to).encode()
        self._do("rename", old, len(old), new, len(new), what=f"rename {name} {to}")

    def rename_snapshot(self, name, to, recursive=False):
        """Renames a snapshot within its file system: `name` is its whole name, and `to` the new part after the "@". With `recursive` the snapshots of
        its name in all file systems below are renamed too; one that has none stays as it is. Exists where one of these file systems has a snapshot of
        the new name, and Busy while a view of one that would be renamed is open."""
        old, new = _word(name).encode(), _word(to).encode()
        self._do("rename_snapshot", old, len(old), new, len(new), bool(recursive), what=f"rename{' -r' * bool(recursive)} {name} {to}")

    def list(self):
        """The names of all file systems in byte order, each with its snapshots, oldest first, and then its bookmarks."""
        return self._line("list").split()

    # Blocks.

    def write(self, name, object, block, data):
        """Writes a block of a file system: at most 512 bytes, and zeros after them."""
        data, spelled = bytes(data), name.encode()
        if len(data) < BLOCK_SIZE:
            data = data.ljust(BLOCK_SIZE, b"\0")
        words = spelled, len(spelled), _number(object, "object"), _number(block, "block"), data, len(data)
        self._do("write", *words, what=f"write {name} {object} {block}")

    def read(self, target, object, block):
        """The 512 bytes of a block of a file system or a snapshot, or None for a hole."""
        buffer, is_hole, spelled = create_string_buffer(BLOCK_SIZE), c_bool(), target.encode()
        words = spelled, len(spelled), _number(object, "object"), _number(block, "block"), buffer, BLOCK_SIZE, byref(is_hole)
        self._do("read", *words, what=f"read {target} {object} {block}")
        return None if is_hole.value else buffer.raw

    def punch(self, name, object, block):
        """Makes a block a hole."""
        spelled = name.encode()
        self._do("punch", spelled, len(spelled), _number(object, "object"), _number(block, "block"), what=f"punch {name} {object} {block}")

    def remove_object(self, name, object):
        """Makes all blocks of an object holes."""
        self._line("rmobj", _word(name), str(_number(object, "object")))

    # Snapshots and clones.

    def snapshot(self, name, recursive=False):
        """Makes a snapshot, as `p/a@s`, and with `recursive` one of the same component of each file system below."""
        spelled = name.encode()
        self._do("snapshot", spelled, len(spelled), bool(recursive), what=f"snapshot {name}")

    def rollback(self, target, recursive=False):
        """Makes a file system as its snapshot is; with `recursive` newer snapshots and bookmarks go."""
        self._line("rollback", *["-r"] * recursive, _word(target))

    def clone(self, target, name):
        """Makes a file system with a snapshot's blocks."""
        self._line("clone", _word(target), _word(name))

    def promote(self, name):
        """Gives a clone its origin with all older snapshots."""
        self._line("promote", _word(name))

    def hold(self, tag, target):
        """Sets a tag that keeps a snapshot."""
        self._line("hold", _word(tag), _word(target))

    def release(self, tag, target):
        """Takes a tag from a snapshot."""
        self._line("release", _word(tag), _word(target))

    def holds(self, target):
        """The tags of a snapshot, in the order in which they were set."""
        told = self._line("holds", _word(target))
        return [] if told == "-" else told.split()

    def bookmark(self, target, mark):
        """Keeps a snapshot's guid and group for later sends, as `p/a#m`."""
        self._line("bookmark", _word(target), _word(mark))

    def view(self, target):
        """Opens a view of a snapshot, which keeps it until the view is closed: use it with `with`."""
        return View(self, target, int(self._line("view", _word(target))))

    # Properties.

    def get(self, target, prop):
        """A property (docs/COMMANDS.md): sizes and numbers as int, `clones` as a list, `defer_destroy` as bool, `origin` as a name; None where this
        kind of dataset has none."""
        if prop in _PROPERTIES:
            spelled, value = target.encode(), c_uint64()
            code = self._library_get(spelled, _PROPERTIES.index(prop), value)
            if code == -6:
                return None
            check(code, f"get {prop} {target}")
            return value.value
        told = self._line("get", _word(prop), _word(target))
        if prop == "clones":
            return [] if told == "-" else told.split(",")
        if prop == "defer_destroy" and told != "-":
            return told == "on"
        return None if told == "-" else int(told) if told.isdigit() else told

    def _library_get(self, name, number, value):
        with self._lock:
            return self._library.yuz_get(byref(self._handle), name, len(name), number, byref(value))

    def written_since(self, target, source):
        """The bytes of a dataset that an older snapshot of its lineage does not have."""
        return int(self._line("get", f"written@{_word(source)}", _word(target)))

    def set(self, name, prop, size):
        """Sets `quota`, `refquota`, `reservation` or `refreservation` to a size in bytes, a multiple of 512, or None for no limit."""
        if prop not in _LIMITS:
            raise ValueError(f"{prop} cannot be set: {', '.join(_LIMITS)} can")
        self._line("set", f"{prop}={'none' if size is None else int(size)}", _word(name))

    def would_free(self, name, first, last):
        """The bytes that would be freed with the file system's snapshots from `first` to `last`."""
        return int(self._line("wouldfree", _word(name), _word(first), _word(last)))

    def pool_get(self, prop):
        """`size`, `allocated`, `free`, `freeing` or `waiting` in bytes, or `group`."""
        return int(self._line("pget", _word(prop)))

    # The pool.

    def sync(self):
        """Makes the present world the last synced one: the open group."""
        group = c_uint64()
        self._do("sync", byref(group))
        return group.value

    def slice(self, count):
        """Frees so many blocks of what was destroyed, or all where they are fewer: how many."""
        taken = c_uint64()
        self._do("slice", count, byref(taken))
        return taken.value

    def abandon(self):
        """Goes back to the last sync."""
        self._do("abandon")

    # Streams.

    def send(self, snapshot, source=None):
        """The stream of a snapshot, in full or from a source, which is an older snapshot or a bookmark."""
        name, start, size = snapshot.encode(), (source or "").encode(), c_size_t()
        with self._lock:
            self._do("send", name, len(name), start, len(start), byref(size), what=f"send {snapshot}")
            try:
                return self._bytes("stream", size.value)
            finally:
                self._do("forget")

    def receive(self, snapshot, stream, mode=Receiving.PLAIN, origin=""):
        """Receives a whole stream as a snapshot, in a mode; `origin` names the snapshot of which `Receiving.ORIGIN` makes a clone."""
        name, stream, start = snapshot.encode(), bytes(stream), origin.encode()
        self._do("receive", name, len(name), stream, len(stream), int(mode), start, len(start), what=f"receive {snapshot}")


class View:
    """An open view of a snapshot. The snapshot cannot be destroyed, and the pool not go back to its last sync, until it is closed."""

    def __init__(self, pool, target, number):
        self.pool, self.target, self.number, self.is_open = pool, target, number, True

    def read(self, object, block):
        """As `Pool.read` of the snapshot, by the name that it had when the view was opened."""
        return self.pool.read(self.target, object, block)

    def close(self):
        """Closes the view. It may be closed twice, and after its pool."""
        if self.is_open:
            self.is_open = False
            try:
                self.pool.line(f"unview {self.number}")
            except PoolMissing:
                pass

    def __enter__(self):
        return self

    def __exit__(self, *_):
        self.close()
