#!/usr/bin/env python3
"""Draws docs/speed.svg, and writes the table of docs/PERFORMANCE.md, of the figures in bench/speed.tsv.

    python3 bench/speed.py

A line of bench/speed.tsv is a script: what it does, its lines, the plain program's seconds, zfsp's, and the ratio of their memory, between
tabs. The table stands between the two comments of the page that name it, and is written anew.
"""

from dataclasses import dataclass
from html import escape
from pathlib import Path

ROOT = Path(__file__).resolve().parent.parent
FIGURES = ROOT / "bench" / "speed.tsv"
PAGE = ROOT / "docs" / "PERFORMANCE.md"
PICTURE = ROOT / "docs" / "speed.svg"
BEGIN, END = "<!-- the table of bench/speed.py -->\n", "<!-- its end -->\n"
FONT = 'font-family="sans-serif" font-size="13"'
LEFT, UNIT, ROW = 470, 130, 22


@dataclass(frozen=True)
class Figure:
    """What was measured of one script."""

    what: str
    lines: int
    plain: float
    ours: float
    memory: float

    @property
    def ratio(self):
        return self.ours / self.plain

    @staticmethod
    def read(line):
        what, lines, plain, ours, memory = line.split("\t")
        return Figure(what, int(lines), float(plain), float(ours), float(memory))


def table(figures):
    """The table in Markdown."""
    head = "| Script | Lines | Plain, s | `zfsp`, s | Ratio | Memory, ratio |\n|---|---|---|---|---|---|\n"
    rows = (f"| {it.what} | {it.lines:,} | {it.plain:.3f} | {it.ours:.3f} | {it.ratio:.2f} | {it.memory:.2f} |\n" for it in figures)
    return head + "".join(rows)


def bar(row, figure):
    """A script's words, and its ratio as a bar."""
    top = 46 + ROW * row
    width = UNIT * figure.ratio
    return (
        f'<text x="{LEFT - 8}" y="{top + 14}" text-anchor="end">{escape(figure.what)}</text>'
        f'<rect x="{LEFT}" y="{top + 2}" width="{width:.0f}" height="{ROW - 6}" fill="#9cc5e4"/>'
        f'<text x="{LEFT + width + 6:.0f}" y="{top + 14}">{figure.ratio:.2f}</text>'
    )


def picture(figures):
    """The ratios as bars, with a line where the plain program stands."""
    most = int(max(it.ratio for it in figures)) + 1
    width, height = LEFT + UNIT * most + 20, 60 + ROW * len(figures)
    marks = "".join(
        f'<line x1="{LEFT + UNIT * n}" y1="40" x2="{LEFT + UNIT * n}" y2="{height - 10}" stroke="{"#c33" if n == 1 else "#ccc"}"/>'
        f'<text x="{LEFT + UNIT * n}" y="34" text-anchor="middle">{n}</text>'
        for n in range(most + 1)
    )
    bars = "".join(bar(row, it) for row, it in enumerate(figures))
    title = f'<text x="{LEFT}" y="16" font-weight="bold">Time of zfsp over that of the plain program</text>'
    return f'<svg xmlns="http://www.w3.org/2000/svg" width="{width}" height="{height}" {FONT}>\n<rect width="100%" height="100%" fill="#fff"/>\n{title}{marks}{bars}\n</svg>\n'


def main():
    figures = [Figure.read(line) for line in FIGURES.read_text().splitlines() if line and not line.startswith("#")]
    PICTURE.write_text(picture(figures))
    before, _, rest = PAGE.read_text().partition(BEGIN)
    _, found, after = rest.partition(END)
    if not found:
        raise SystemExit(f"{PAGE}: no place for the table")
    PAGE.write_text(before + BEGIN + table(figures) + END + after)


if __name__ == "__main__":
    main()
