#!/usr/bin/env python3
"""Writes the benchmark's scripts, the same ones each time.

    python3 bench/scripts.py FOLDER [--scale S]

FOLDER/NAME.script and FOLDER/NAME.args (the words before the script on zfsp's command line). S multiplies the sizes.
"""

import argparse
import random
from pathlib import Path

POOL = 4_194_304
# of which the leaves of `holes-1M` with their ancestors and what waits take nearly all
SMALL_POOL = 1_048_576
LEAVES = 1 << 20


def place(leaf):
    """A leaf as object and block."""
    return f"{leaf >> 12} {leaf & 4095}"


def random_writes(count):
    """Writes of four bytes to random leaves of the root."""
    source = random.Random(f"writes:{count}")
    for i in range(count):
        yield f"write p {place(source.randrange(LEAVES))} {i & 0xffffffff:08x}"


def whole_blocks(count):
    """Writes of whole blocks to random leaves of the root."""
    source = random.Random(f"whole:{count}")
    for _ in range(count):
        yield f"write p {place(source.randrange(LEAVES))} {source.randbytes(512).hex()}"


def holes(leaves, rewrites):
    """Leaf after leaf, a punch of every second one, and then writes to holes and to any leaf; a sync after each 1,000 lines."""
    source = random.Random(f"holes:{leaves}:{rewrites}")
    yield from fill(leaves)
    yield "sync"
    punched = list(range(0, leaves, 2))
    for i, leaf in enumerate(punched):
        yield f"punch p {place(leaf)}"
        if i % 1000 == 999:
            yield "sync"
    yield "sync"
    source.shuffle(punched)
    for i in range(rewrites):
        leaf = punched.pop() if i % 2 == 0 and punched else source.randrange(leaves)
        yield f"write p {place(leaf)} {i & 0xffffffff:08x}"
        if i % 1000 == 999:
            yield "sync"


def fill(count):
    """Writes of leaf after leaf."""
    for leaf in range(count):
        yield f"write p {place(leaf)} {leaf & 0xff:02x}"


def reads(writes, count):
    """Random writes, and then reads of leaves that were written."""
    yield from random_writes(writes)
    source = random.Random(f"writes:{writes}")
    leaves = [source.randrange(LEAVES) for _ in range(writes)]
    source = random.Random("reads")
    for _ in range(count):
        yield f"read p {place(source.choice(leaves))}"


def rewrites(count):
    """Writes of one leaf again and again, with its size asked each time."""
    for i in range(count):
        yield f"write p 0 0 {i & 0xffffffff:08x}"
        yield "get referenced p"


def syncs(leaves, rounds, writes):
    """Leaf after leaf, and then rounds of writes to random ones of them with a sync at the end of each."""
    yield from fill(leaves)
    source = random.Random(f"syncs:{leaves}")
    for i in range(rounds):
        for _ in range(writes):
            yield f"write p {place(source.randrange(leaves))} {i & 0xffffffff:08x}"
        yield "sync"


def clones(leaves, rounds):
    """Leaf after leaf, and then promotes of a clone there and back, with a clone made and destroyed between them."""
    yield "create p/a"
    for leaf in range(leaves):
        yield f"write p/a {place(leaf)} {leaf & 0xff:02x}"
    yield "snapshot p/a@s"
    yield "clone p/a@s p/c"
    for i in range(rounds):
        yield "promote p/c"
        yield f"clone p/c@s p/x{i}"
        yield f"destroy p/x{i}"
        yield "promote p/a"


def promotes(snapshots, rounds):
    """Writes with a snapshot after each, and then promotes of a clone of the newest there and back."""
    source = random.Random(f"promotes:{snapshots}")
    yield "create p/a"
    for i in range(snapshots):
        yield f"write p/a {place(source.randrange(4096))} {i & 0xffffffff:08x}"
        yield f"snapshot p/a@s{i}"
    yield f"clone p/a@s{snapshots - 1} p/c"
    for _ in range(rounds):
        yield "promote p/c"
        yield "promote p/a"


def main():
    options = argparse.ArgumentParser(description=__doc__, formatter_class=argparse.RawDescriptionHelpFormatter)
    options.add_argument("folder", type=Path)
    options.add_argument("--scale", type=float, default=1.0)
    options = options.parse_args()
    options.folder.mkdir(parents=True, exist_ok=True)

    def scaled(count):
        return max(1, int(count * options.scale))

    scripts = {
        "writes-100k": random_writes(scaled(100_000)),
        "writes-1M": random_writes(scaled(1_000_000)),
        "whole-blocks-100k": whole_blocks(scaled(100_000)),
        "holes-1M": holes(min(LEAVES, scaled(953_550)), scaled(1_000_000)),
        "fill-1M": fill(min(LEAVES, scaled(1_000_000))),
        "reads-1M": reads(scaled(100_000), scaled(1_000_000)),
        "rewrites-500k": rewrites(scaled(500_000)),
        # 937,500 leaves are 1,000,002 blocks, and 9,375 leaves are 10,003.
        "syncs-1M-blocks": syncs(scaled(937_500), scaled(2_000), 100),
        "syncs-10k-blocks": syncs(scaled(9_375), scaled(2_000), 100),
        "bare-syncs-1M-blocks": syncs(scaled(937_500), scaled(100_000), 0),
        "bare-syncs-10k-blocks": syncs(scaled(9_375), scaled(100_000), 0),
        "clones-10-blocks": clones(9, scaled(200_000)),
        "clones-1M-blocks": clones(scaled(937_500), scaled(200_000)),
        "promotes-20k-snapshots": promotes(scaled(20_000), scaled(10_000)),
    }
    for name, lines in scripts.items():
        with open(options.folder / f"{name}.script", "w", buffering=1 << 20) as file:
            file.writelines(f"{line}\n" for line in lines)
        size = max(1, int(SMALL_POOL * options.scale)) if name == "holes-1M" else POOL
        (options.folder / f"{name}.args").write_text(f"{size} 1\n")


if __name__ == "__main__":
    main()
