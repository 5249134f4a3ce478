"""The lineage of a pool: its file systems, snapshots, clones and bookmarks with their sizes, as a tree of text and as SVG.

A dataset's lineage is the chain of what stands before it: the older snapshots of its file system, and then the origin of a clone. So a file
system without an origin begins a tree, its snapshots follow one another, and a clone goes off from its origin.
"""

from dataclasses import dataclass, field
from html import escape

_COLUMN, _ROW, _BOX, _TALL, _EDGE = 170, 78, 140, 50, 16
_FONT = 'font-family="sans-serif" font-size="12"'
_FILL = {"live": "#dceefb", "snapshot": "#fdf3d1", "bookmark": "#f2f2f2"}


def size_text(size):
    """A size in bytes, in the largest unit that divides it into at least one."""
    for unit, name in ((1 << 30, "G"), (1 << 20, "M"), (1 << 10, "K")):
        if size >= unit:
            return f"{size / unit:.1f}".removesuffix(".0") + name
    return f"{size}B"


@dataclass
class Snapshot:
    """A snapshot, and the clones of which it is the origin."""

    name: str
    group: int
    used: int
    referenced: int
    tags: int
    is_deferred: bool
    clones: list = field(default_factory=list)

    def told(self):
        """What is shown beside its name."""
        marks = [f"{self.tags} hold{'s' * (self.tags > 1)}"] * (self.tags > 0) + ["deferred"] * self.is_deferred
        return ", ".join([f"used {size_text(self.used)}", f"refers {size_text(self.referenced)}", f"group {self.group}", *marks])


@dataclass
class Bookmark:
    """A bookmark."""

    name: str
    group: int

    def told(self):
        return f"bookmark of group {self.group}"


@dataclass
class FileSystem:
    """A file system, with its own snapshots, oldest first, and its bookmarks."""

    name: str
    origin: str
    used: int
    referenced: int
    quota: int
    snapshots: list = field(default_factory=list)
    bookmarks: list = field(default_factory=list)

    def told(self):
        limit = [f"quota {size_text(self.quota)}"] * (self.quota > 0)
        return ", ".join([f"used {size_text(self.used)}", f"refers {size_text(self.referenced)}", *limit])


def _component(name):
    """The part of a snapshot's or a bookmark's name that tells it from others of its file system, with its sign."""
    at = max(name.find("@"), name.find("#"))
    return name[at:]


@dataclass
class Lineage:
    """The trees of a pool: the file systems without an origin, in byte order; and the bytes that are allocated, and of how many."""

    roots: list
    allocated: int
    size: int

    @staticmethod
    def of(pool):
        """Reads the lineage of a pool. Nothing in it is changed."""
        systems, snapshots = {}, {}
        for name in pool.list():
            get = lambda prop: pool.get(name, prop)  # noqa: B023, E731
            owner = systems.get(name.partition("@")[0].partition("#")[0])
            if "@" in name:
                snapshots[name] = Snapshot(name, get("createtxg"), get("used"), get("referenced"), get("userrefs"), get("defer_destroy"))
                owner.snapshots.append(snapshots[name])
            elif "#" in name:
                owner.bookmarks.append(Bookmark(name, get("createtxg")))
            else:
                systems[name] = FileSystem(name, get("origin"), get("used"), get("referenced"), get("quota"))
        for system in systems.values():
            if system.origin:
                snapshots[system.origin].clones.append(system)
        roots = [system for system in systems.values() if not system.origin]
        return Lineage(roots, pool.pool_get("allocated"), pool.pool_get("size"))

    def told(self):
        """How full the pool is."""
        return f"{size_text(self.allocated)} of {size_text(self.size)} allocated"

    # A tree of text.

    def tree(self):
        """The trees in lines of text."""
        lines = [self.told()]
        for root in self.roots:
            lines += self._system_lines(root, "")
        return "\n".join(lines) + "\n"

    def _system_lines(self, system, indent, lead=""):
        lines = [f"{indent}{lead}{system.name}  {system.told()}"]
        below = indent + ("" if not lead else "│  " if lead.startswith("├") else "   ")
        parts = [*system.snapshots, *system.bookmarks]
        for part in parts:
            is_last = part is parts[-1]
            lines.append(f"{below}{'└─ ' if is_last else '├─ '}{_component(part.name)}  {part.told()}")
            clones = part.clones if isinstance(part, Snapshot) else []
            for clone in clones:
                lead = "└─ clone " if clone is clones[-1] else "├─ clone "
                lines += self._system_lines(clone, below + ("   " if is_last else "│  "), lead)
        return lines

    # A drawing.

    def _places(self):
        """Each file system with its row and the column of its first box, from the top down; a clone stands below and right of its origin."""
        waiting, row = [(root, 0) for root in reversed(self.roots)], 0
        while waiting:
            system, column = waiting.pop()
            yield system, row, column
            row += 1
            for at, snapshot in enumerate(system.snapshots):
                waiting += [(clone, column + at + 1) for clone in reversed(snapshot.clones)]

    def svg(self):
        """The drawing: a row for each file system, its snapshots from the oldest to the live map, an arrow from each to what stands before it."""
        places = list(self._places())
        origins = {snapshot.name: (row, column + at) for system, row, column in places for at, snapshot in enumerate(system.snapshots)}
        width = 2 * _EDGE + _COLUMN * max(column + len(system.snapshots) + 1 for system, _, column in places)
        height = 2 * _EDGE + _ROW * len(places) + 18
        parts = [f'<text x="{_EDGE}" y="{_EDGE + 4}">{self.told()}</text>']
        for system, row, column in places:
            boxes = [(_component(it.name), it.told().split(", "), "snapshot") for it in system.snapshots]
            boxes.append((system.name, system.told().split(", "), "live"))
            for at, (title, told, kind) in enumerate(boxes):
                parts += _box(column + at, row, title, told, kind, [_component(it.name) for it in system.bookmarks] if kind == "live" else [])
                if at:
                    parts.append(_arrow((row, column + at), (row, column + at - 1)))
            if system.origin:
                parts.append(_arrow((row, column), origins[system.origin]))
        return "\n".join([
            f'<svg xmlns="http://www.w3.org/2000/svg" viewBox="0 0 {width} {height}" width="{width}" height="{height}" {_FONT}>',
            '<defs><marker id="head" markerWidth="9" markerHeight="8" refX="8" refY="4" orient="auto"><path d="M0,0 L9,4 L0,8 z" fill="#444"/></marker></defs>',
            f'<rect width="{width}" height="{height}" fill="#ffffff"/>',
            *parts,
            "</svg>\n",
        ])


def _corner(column, row):
    return _EDGE + _COLUMN * column, _EDGE + 18 + _ROW * row


def _box(column, row, title, told, kind, marks):
    """A dataset's box. A title that is wider than the box is cut, and whole under the pointer."""
    x, y = _corner(column, row)
    shown = title if len(title) <= 20 else title[:9] + "…" + title[-10:]
    sizes = ", ".join(told[:2])
    whole = escape("\n".join([title, *told, *(f"bookmark {it}" for it in marks)]))
    return [
        f'<g><title>{whole}</title><rect x="{x}" y="{y}" width="{_BOX}" height="{_TALL}" rx="5" fill="{_FILL[kind]}" stroke="#444"/>',
        f'<text x="{x + _BOX / 2}" y="{y + 17}" text-anchor="middle" font-weight="bold">{escape(shown)}</text>',
        f'<text x="{x + _BOX / 2}" y="{y + 31}" text-anchor="middle" font-size="10">{escape(sizes)}</text>',
        f'<text x="{x + _BOX / 2}" y="{y + 44}" text-anchor="middle" font-size="10">{escape(", ".join([*told[2:], *marks])[:28])}</text></g>',
    ]


def _arrow(place, before):
    """From a dataset to what stands before it: to the left in a row, and for a clone up to its origin."""
    (row, column), (before_row, before_column) = place, before
    x1, y1 = _corner(column, row)
    x2, y2 = _corner(before_column, before_row)
    end = (x2 + _BOX, y2 + _TALL / 2) if row == before_row else (x2 + _BOX - 20, y2 + _TALL)
    return f'<line x1="{x1}" y1="{y1 + _TALL / 2}" x2="{end[0]}" y2="{end[1]}" stroke="#444" marker-end="url(#head)"/>'
