#!/usr/bin/env python3
"""Asks a built zfsp what no row and no example can: lines of the greatest length, and a SCRIPT that can't be opened.

    python3 bench/edges.py ZFSP

A line may have 4,194,304 bytes (docs/COMMANDS.md). One of so many is judged as any other: a comment has no reply, and a `receive` of so many
digits that are no stream is BadStream. One byte more makes it BadLine, a comment of so many has no reply still, and the line behind it is
answered. A SCRIPT that isn't there, or is a folder, ends with status 3 and a line on the standard error, and prints nothing. It prints what
goes wrong, and the exit status is 1 then.
"""

import argparse
import subprocess
import tempfile
from pathlib import Path

MOST = 4_194_304
READ, HOLE = b"read p 0 0\n", b"hole\n"


def receive(size):
    """A line of so many bytes that receives digits that are no stream."""
    head = b"receive p/e@e " if size % 2 == 0 else b"receive p/ee@e "
    return head + b"0" * (size - len(head))


def run(program, script, *words):
    done = subprocess.run([program, "1000", "1", *words], input=script, capture_output=True, check=False)
    return done.returncode, done.stdout, done.stderr


def faults(program):
    """What goes wrong."""
    cases = (
        ("a comment of the greatest length", b"#" * MOST + b"\n" + READ, HOLE),
        ("a comment of one byte more", b"#" * (MOST + 1) + b"\n" + READ, HOLE),
        ("a request of the greatest length", receive(MOST) + b"\n" + READ, b"error 22 BadStream\n" + HOLE),
        ("a request of one byte more", receive(MOST + 1) + b"\n" + READ, b"error 28 BadLine\n" + HOLE),
        ("a request of the greatest length without a line feed", receive(MOST), b"error 22 BadStream\n"),
        ("a request of one byte more without a line feed", receive(MOST + 1), b"error 28 BadLine\n"),
    )
    for name, script, wanted in cases:
        status, came, told = run(program, script)
        if (status, came, told) != (0, wanted, b""):
            yield f"{name}: status {status}, {came[:60]!r}, {told[:60]!r}"
    with tempfile.TemporaryDirectory() as folder:
        for name, path in (("a SCRIPT that isn't there", f"{folder}/none"), ("a SCRIPT that is a folder", folder)):
            status, came, told = run(program, READ, path)
            if (status, came) != (3, b"") or not told.startswith(b"zfsp: "):
                yield f"{name}: status {status}, {came[:60]!r}, {told[:60]!r}"


def main():
    arguments = argparse.ArgumentParser()
    arguments.add_argument("zfsp", type=Path)
    found = list(faults(arguments.parse_args().zfsp.resolve()))
    print("\n".join(found) or "8 edges are as they should be")
    return bool(found)


if __name__ == "__main__":
    raise SystemExit(main())
