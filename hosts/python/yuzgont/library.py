"""The shared library, and what its functions take.

It is looked for at the path in YUZGONT_LIBRARY, then beside this package's own sources (hosts/out), then where the system looks.
"""

import ctypes
import ctypes.util
import os
from ctypes import POINTER, c_bool, c_char_p, c_int, c_size_t, c_uint32, c_uint64, c_void_p
from functools import lru_cache
from pathlib import Path


class Handle(ctypes.Structure):
    """`yuz_pool` of the header. Only the library writes it, and it is never copied."""

    _fields_ = [("is_open", c_bool), ("held", c_void_p)]


_POOL, _BYTES, _SIZE, _FLAG, _NUMBER = POINTER(Handle), (c_char_p, c_size_t), POINTER(c_size_t), POINTER(c_bool), POINTER(c_uint64)
_BUFFER = (c_void_p, c_size_t)
_PARAMETERS = {
    "create": (c_uint32, c_uint32),
    "free": (),
    "line": (*_BYTES, POINTER(c_uint32), _SIZE),
    "reply": (c_size_t, *_BUFFER, _SIZE),
    "write": (*_BYTES, c_uint32, c_uint32, *_BYTES),
    "read": (*_BYTES, c_uint32, c_uint32, *_BUFFER, _FLAG),
    "punch": (*_BYTES, c_uint32, c_uint32),
    "snapshot": (*_BYTES, c_bool),
    "destroy_snapshots": (*_BYTES, c_bool, c_bool),
    "rename": (*_BYTES, *_BYTES),
    "rename_snapshot": (*_BYTES, *_BYTES, c_bool),
    "get": (*_BYTES, c_uint32, _NUMBER),
    "sync": (_NUMBER,),
    "slice": (c_uint64, _NUMBER),
    "abandon": (),
    "send": (*_BYTES, *_BYTES, _SIZE),
    "stream": (c_size_t, *_BUFFER, _SIZE),
    "receive": (*_BYTES, *_BYTES, c_uint32, *_BYTES),
    "forget": (),
}


def _places():
    given = os.environ.get("YUZGONT_LIBRARY")
    if given:
        yield given
        return
    beside = Path(__file__).resolve().parents[2] / "out" / "libyuzgont.so"
    if beside.exists():
        yield str(beside)
    yield ctypes.util.find_library("yuzgont") or "libyuzgont.so.0"


@lru_cache(maxsize=None)
def library():
    """The shared library, loaded once, with the types of its functions."""
    place = next(_places())
    try:
        loaded = ctypes.CDLL(place)
    except OSError as error:
        raise ImportError(f"{place} cannot be loaded: {error}. Build it with `make` in hosts/, and name it in YUZGONT_LIBRARY") from error
    for name, parameters in _PARAMETERS.items():
        function = getattr(loaded, f"yuz_{name}")
        function.argtypes = (_POOL, *parameters)
        function.restype = None if name == "free" else c_int
    return loaded
