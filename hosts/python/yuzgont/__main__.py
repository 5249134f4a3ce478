"""Runs a script in a fresh pool, and draws the lineage that it leaves.

    python3 -m yuzgont draw SCRIPT [--svg FILE] [--blocks N] [--id ID]

SCRIPT has lines as docs/COMMANDS.md describes them; `-` reads them from standard input. The tree goes to standard output, and with --svg a
drawing to a file. A refused line is told on standard error, and the script goes on. Status 1 where the script cannot be read.
"""

import argparse
import sys

from .errors import Refusal
from .lineage import Lineage
from .pool import Pool


def run(pool, lines):
    """Answers the lines of a script, and tells those that are refused."""
    for number, line in enumerate(lines, 1):
        line = line.rstrip("\n")
        if not line or line.startswith("#"):
            continue
        try:
            pool.line(line)
        except Refusal as refusal:
            print(f"line {number}: {line[:60]}: error {refusal.code} {refusal.name}", file=sys.stderr)


def draw(given):
    """Prints the tree, and writes the drawing where one is wanted."""
    with Pool(given.blocks, given.id) as pool:
        if given.script == "-":
            run(pool, sys.stdin)
        else:
            with open(given.script, encoding="utf-8") as lines:
                run(pool, lines)
        lineage = Lineage.of(pool)
    sys.stdout.write(lineage.tree())
    if given.svg:
        with open(given.svg, "w", encoding="utf-8") as file:
            file.write(lineage.svg())


def main():
    words = argparse.ArgumentParser(prog="python3 -m yuzgont", description="Pools for Python.")
    commands = words.add_subparsers(required=True, metavar="COMMAND")
    drawing = commands.add_parser("draw", help="draws the lineage that a script leaves in a fresh pool")
    drawing.add_argument("script", metavar="SCRIPT")
    drawing.add_argument("--svg", metavar="FILE")
    drawing.add_argument("--blocks", type=int, default=100_000)
    drawing.add_argument("--id", type=int)
    drawing.set_defaults(do=draw)
    given = words.parse_args()
    try:
        given.do(given)
    except (OSError, UnicodeError, Refusal) as error:
        sys.exit(f"yuzgont: {error}")


if __name__ == "__main__":
    main()
