"""Yuzgont's pools for Python: the dataset and snapshot layer of ZFS, in memory, by way of the shared library libyuzgont.

    from yuzgont import Pool, NoSpace

    with Pool(blocks=1000) as pool:
        pool.write("p", 0, 0, b"hello")
        pool.snapshot("p@monday")
        stream = pool.send("p@monday")

A call that is refused raises an exception of the refusal's name, with its number in `code`, and has changed nothing.
"""

from .errors import *  # noqa: F403
from .errors import REFUSALS, Misuse, Refusal, YuzgontError  # noqa: F401
from .lineage import Lineage  # noqa: F401
from .pool import BLOCK_SIZE, Pool, Receiving, View, random_id  # noqa: F401
