"""Why a call was not done: an exception class for each refusal (docs/REFUSALS.md), and one for each mistake of the caller."""

_REFUSALS = {
    1: ("BadName", "a word is no name of the kind that stands there"),
    2: ("NoDataset", "nothing has the name"),
    3: ("Exists", "the name is taken"),
    4: ("NoParent", "the file system above the new one is not there"),
    5: ("BadKey", "an object past 255 or a block past 4095"),
    6: ("ReadOnly", "a snapshot cannot be written to"),
    7: ("NotSnapshot", "the name is not a snapshot's"),
    8: ("Busy", "a snapshot that would go has a tag or an open view"),
    9: ("HasClones", "a snapshot that would go has a clone that stays"),
    10: ("HasChildren", "the file system has file systems below it or snapshots"),
    11: ("NotNewest", "newer snapshots or bookmarks exist"),
    12: ("NotClone", "the file system has no origin"),
    13: ("NameClash", "the clone has a snapshot of the same name"),
    14: ("TagExists", "the snapshot has the tag"),
    15: ("NoTag", "the snapshot does not have the tag"),
    16: ("Deferred", "the snapshot's destroy is deferred"),
    17: ("NotAncestor", "the source is not older in the dataset's lineage"),
    18: ("Quota", "a file system would use more than its quota"),
    19: ("RefQuota", "a live map would have more than its refquota"),
    20: ("NoSpace", "the pool has too few blocks"),
    21: ("TooMany", "a limit of the pool is reached"),
    22: ("BadStream", "the bytes are not one whole stream"),
    23: ("WrongSource", "the newest snapshot is not the stream's source"),
    24: ("Modified", "the file system was written to since its newest snapshot"),
    25: ("NoMemory", "the process was refused memory"),
    26: ("NoView", "no such view is open"),
    27: ("IsRoot", "the pool's root file system cannot be destroyed or renamed"),
    28: ("BadLine", "the line has no command's shape"),
    29: ("SessionFull", "the session has run as many calls as it was opened for"),
    30: ("TooManySeats", "the session has given all its seats"),
}
_MISUSES = {
    -1: ("Null", "a pointer is null, or a length is too large"),
    -2: ("PoolMissing", "the pool is closed"),
    -3: ("PoolThere", "the handle has a pool already"),
    -4: ("BadLength", "a block is not 512 bytes"),
    -5: ("NoProperty", "no property has this number"),
    -6: ("NotApplicable", "this kind of dataset has no such property"),
    -7: ("BadAmount", "a limit is not a multiple of 512 bytes, or too large"),
    -8: ("NoEntry", "the last list has no entry at this place"),
    -9: ("SourceFailed", "what gives the bytes of a stream failed"),
}


class YuzgontError(Exception):
    """A call was not done, and nothing has changed. `code` is the library's number for it, and `name` its name."""

    code = 0
    name = ""

    def __init__(self, what=""):
        super().__init__(what)
        self.what = what

    def __str__(self):
        said = f"{self.name} ({self.code}): {self.__doc__}"
        return f"{self.what}: {said}" if self.what else said


class Refusal(YuzgontError):
    """The pool refused the request."""


class Misuse(YuzgontError):
    """The caller did something wrong."""


def _kinds(table, base):
    for code, (name, sentence) in table.items():
        bases = (base, MemoryError) if name == "NoMemory" else (base,)
        yield code, type(name, bases, {"code": code, "name": name, "__doc__": sentence, "__module__": __name__})


REFUSALS = dict(_kinds(_REFUSALS, Refusal))
_KINDS = {**REFUSALS, **dict(_kinds(_MISUSES, Misuse))}
globals().update({kind.__name__: kind for kind in _KINDS.values()})
__all__ = ["YuzgontError", "Refusal", "Misuse", *(kind.__name__ for kind in _KINDS.values())]


def error_of(code, what=""):
    """The exception for a code of the library that is not 0; `what` was asked."""
    return _KINDS[code](what)


def check(code, what=""):
    """Raises the exception for a code of the library, unless it is 0."""
    if code:
        raise error_of(code, what)
