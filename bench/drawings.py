#!/usr/bin/env python3
"""Draws the pictures of docs/: python3 bench/drawings.py writes each docs/NAME.svg anew.

A picture is a function below, in boxes, arrows and words on a grid of points. Change it here, never in the SVG.
"""

from dataclasses import dataclass, field
from html import escape
from pathlib import Path

DOCS = Path(__file__).resolve().parent.parent / "docs"
FONT = 'font-family="sans-serif" font-size="13"'
KINDS = {"plain": "#ffffff", "live": "#dceefb", "snapshot": "#fdf3d1", "shared": "#e4f3df", "gone": "#f6d9d5", "quiet": "#f2f2f2"}
LAYERS = {
    "ground": "#eeeae4", "blocks and trees": "#dceefb", "what it means": "#f2f2f2", "datasets": "#e4f3df", "requests": "#fdf3d1",
    "pool": "#f6d9d5", "session": "#e9e0f5", "program": "#dff3f1", "hosts": "#f3e6dc", "tests": "#f2f2f2",
}


@dataclass
class Picture:
    """A drawing of a width and a height in points."""

    width: int
    height: int
    parts: list = field(default_factory=list)

    def box(self, x, y, width, height, text, kind="plain"):
        self.parts.append(f'<rect x="{x}" y="{y}" width="{width}" height="{height}" rx="5" fill="{KINDS[kind]}" stroke="#444"/>')
        lines = text.split("\n")
        for row, line in enumerate(lines):
            self.words(x + width / 2, y + height / 2 + 4.5 + 16 * (row - (len(lines) - 1) / 2), line, "middle")

    def words(self, x, y, text, anchor="start", style=""):
        self.parts.append(f'<text x="{x}" y="{y}" text-anchor="{anchor}" {style}>{escape(text)}</text>')

    def title(self, x, y, text):
        self.words(x, y, text, style='font-weight="bold"')

    def arrow(self, x1, y1, x2, y2, dashed=False):
        dash = ' stroke-dasharray="5 4"' if dashed else ""
        self.parts.append(f'<line x1="{x1}" y1="{y1}" x2="{x2}" y2="{y2}" stroke="#444" marker-end="url(#head)"{dash}/>')

    def line(self, x1, y1, x2, y2, color="#bbb"):
        self.parts.append(f'<line x1="{x1}" y1="{y1}" x2="{x2}" y2="{y2}" stroke="{color}"/>')

    def svg(self, source):
        head = '<defs><marker id="head" markerWidth="9" markerHeight="8" refX="8" refY="4" orient="auto"><path d="M0,0 L9,4 L0,8 z" fill="#444"/></marker></defs>'
        return "\n".join([
            f'<svg xmlns="http://www.w3.org/2000/svg" viewBox="0 0 {self.width} {self.height}" width="{self.width}" height="{self.height}" {FONT}>',
            f"<!-- Drawn by bench/drawings.py, {source}: change it there. -->",
            head,
            f'<rect width="{self.width}" height="{self.height}" fill="#ffffff"/>',
            *self.parts,
            "</svg>",
            "",
        ])


def lineage():
    """A lineage with three snapshots and a clone, before a promote and after it."""
    p = Picture(760, 420)

    def row(y, name, boxes):
        p.words(14, y + 23, name, style='font-weight="bold"')
        for x, text, kind in boxes:
            p.box(x, y, 118, 36, text, kind)
        for left, right in zip(boxes, boxes[1:]):
            p.arrow(right[0], y + 18, left[0] + 118, y + 18)

    p.title(14, 24, "before: p/c is a clone of p/a@s2")
    row(44, "p/a", [(80, "@s1  group 1", "snapshot"), (240, "@s2  group 2", "snapshot"), (400, "@s3  group 3", "snapshot"), (560, "live map", "live")])
    row(124, "p/c", [(400, "@t  group 4", "snapshot"), (560, "live map", "live")])
    p.arrow(400, 142, 330, 82)
    p.words(226, 128, "its origin: p/a@s2")
    p.line(14, 186, 746, 186)
    p.title(14, 214, "after promote p/c: the same snapshots stand before the same datasets")
    row(234, "p/c", [(80, "@s1  group 1", "shared"), (240, "@s2  group 2", "shared"), (400, "@t  group 4", "snapshot"), (560, "live map", "live")])
    row(314, "p/a", [(400, "@s3  group 3", "snapshot"), (560, "live map", "live")])
    p.arrow(400, 332, 330, 272)
    p.words(226, 318, "its origin: p/c@s2")
    p.words(14, 386, "An arrow leads from a dataset to what stands before it in its lineage. A promote changes who owns")
    p.words(14, 404, "the green snapshots, and the two origins; it changes no arrow.")
    return p


def dead_lists():
    """Which blocks stand in which dead list."""
    p = Picture(760, 350)
    columns = [(120, "@s1  group 1", "snapshot"), (290, "@s2  group 2", "snapshot"), (460, "@s3  group 3", "snapshot"), (630, "live map", "live")]
    for x, text, kind in columns:
        p.box(x - 70, 20, 125, 36, text, kind)
    for left, right in zip(columns, columns[1:]):
        p.arrow(right[0] - 70, 38, left[0] + 55, 38)
    bars = [
        ("A  born in 1", 50, 685, 80, "shared"),
        ("B  born in 1", 50, 345, 114, "gone"),
        ("C  born in 2", 220, 515, 148, "gone"),
        ("D  born in 2", 220, 345, 182, "gone"),
        ("E  born in 4", 560, 685, 216, "shared"),
    ]
    for text, x1, x2, y, kind in bars:
        p.box(x1, y, x2 - x1, 26, text, kind)
    p.line(14, 258, 746, 258)
    p.title(14, 280, "dead lists")
    for x, text in ((290, "of @s2: none"), (460, "of @s3: B, D"), (630, "of live: C")):
        p.words(x - 70, 280, text)
    p.words(14, 304, "A block that a dataset hasn't and what stands before it has is in its dead list, once: what goes from a")
    p.words(14, 322, "lineage never returns. written@s1 of the live map is what it has, less what @s1 has, with those entries")
    p.words(14, 340, "of the lists after @s1 that were born by group 1: here A and E less A and B, with B.")
    return p


def block_states():
    """The states of a block number, from a write to a sync."""
    p = Picture(760, 318)
    p.box(40, 120, 130, 50, "Free", "quiet")
    p.box(315, 120, 130, 50, "Allocated", "live")
    p.box(590, 120, 130, 50, "Waiting", "snapshot")
    p.arrow(170, 136, 315, 136)
    p.words(242, 126, "a change takes it", "middle")
    p.arrow(315, 158, 170, 158)
    p.words(242, 178, "let go, and born", "middle")
    p.words(242, 194, "since the last sync", "middle")
    p.arrow(445, 145, 590, 145)
    p.words(517, 120, "let go, and the last", "middle")
    p.words(517, 136, "sync still has it", "middle")
    p.line(655, 170, 655, 232, "#444")
    p.line(655, 232, 105, 232, "#444")
    p.arrow(105, 232, 105, 170)
    p.words(380, 224, "sync", "middle")
    p.box(315, 34, 130, 40, "freeing", "gone")
    p.arrow(380, 120, 380, 74)
    p.words(392, 102, "destroy, rollback, receive -F")
    p.words(460, 58, "still Allocated, in no dataset; a slice lets it go")
    p.words(14, 270, "A number is Allocated exactly where a dataset of the present world or what is freeing has it,")
    p.words(14, 288, "Waiting exactly where only the last synced world has it, and else Free. An abandon gives each number the")
    p.words(14, 306, "state that it had after the last sync: then none waits.")
    return p


def crate_layers():
    """The layers of crates.txt with their crates, from the ground up, and on which other layers each names a crate."""
    crates, stands_on = {}, {}
    home, needs = {}, []
    for line in (DOCS.parent / "crates.txt").read_text().splitlines():
        if line.startswith("#"):
            layer = line[1:].strip()
            crates[layer], stands_on[layer] = [], set()
        elif line:
            head, _, rest = line.partition(":")
            crate = head.split()[0]
            crates[layer].append(crate)
            home[crate] = layer
            needs += [(layer, other) for other in rest.split()]
    for layer, other in needs:
        if home.get(other, layer) != layer:
            stands_on[layer].add(home[other])
    return crates, stands_on


def layers():
    """The layers of crates.txt, each with its crates, and on which other layers each stands."""
    crates, stands_on = crate_layers()
    bands = list(reversed(crates))
    rows = {band: crate_rows(crates[band], 570) for band in bands}
    p = Picture(900, 74 + sum(16 + 32 * len(rows[band]) for band in bands) + 8 * len(bands))
    p.words(14, 26, "A line leads from a layer, at its dot, down to each layer of which it names a crate. Nothing leads up.")
    y, middle = 42, {}
    for band in bands:
        height = 16 + 32 * len(rows[band])
        p.parts.append(f'<rect x="10" y="{y}" width="724" height="{height}" rx="5" fill="{LAYERS[band]}" stroke="#bbb"/>')
        p.words(22, y + height / 2 + 4.5, band, style='font-weight="bold"')
        for row, boxes in enumerate(rows[band]):
            for x, width, crate in boxes:
                p.box(160 + x, y + 8 + 32 * row + 3, width, 26, crate)
        middle[band] = (y, height)
        y += height + 8
    lanes = [band for band in bands if stands_on[band]]
    for lane, band in enumerate(lanes):
        x = 754 + 17 * lane
        top = middle[band][0] + 7
        below = [other for other in bands if other in stands_on[band]]
        ends = [middle[other][0] + middle[other][1] - 5 - 4 * lane for other in below]
        p.line(734, top, x, top, "#444")
        p.parts.append(f'<circle cx="734" cy="{top}" r="4" fill="#444"/>')
        p.line(x, top, x, ends[-1], "#444")
        for end in ends:
            p.arrow(x, end, 736, end)
    p.words(14, y + 18, "Of what it means model alone has code; world has lemmas, laws the laws. Tests try what they stand on.")
    return p


def crate_rows(crates, width):
    """The boxes of crates, in rows of at most that width: each from where, how wide, and its crate."""
    rows, x = [[]], 0
    for crate in crates:
        box = 18 + 8 * len(crate)
        if x + box > width:
            rows.append([])
            x = 0
        rows[-1].append((x, box, crate))
        x += box + 8
    return rows


# The ways of three requests: how deep the call is, the crate, and what is called, in the order in which they are called.
WRITE = [
    (0, "script", "run_script, request_at, Caller::ask"),
    (0, "pool", "Pool::apply, in_place, Keep::perform"),
    (1, "tree", "objset::write_of: the update, or BadKey"),
    (1, "pool", "Keep::change"),
    (2, "lookups", "live_name: of which file system"),
    (2, "steps", "ask_change: with a ledger only"),
    (3, "tree", "Tree::forecast, by batch::forecast_of"),
    (3, "limits", "outlook_of"),
    (3, "limits", "Ledger::over_after"),
    (2, "image", "path_before: where the path's blocks are"),
    (2, "datasets", "Table::apply_live: the row"),
    (3, "file_system", "FileSystem::apply"),
    (4, "snapshots", "SnapshotList::last: the newest group"),
    (4, "tree", "Tree::draft"),
    (5, "batch", "draft_of: survey, choose, fill"),
    (6, "zalloc", "Allocator::find"),
    (4, "deadlist", "Deadlist::reserve"),
    (4, "tree", "Tree::put: renew_root"),
    (5, "node", "the nodes on the path"),
    (4, "deadlist", "Deadlist::push_upto"),
    (2, "steps", "settle, by Ledger::settle of limits"),
    (2, "image", "writes_after: where they are now"),
    (0, "pool", "Keep::settle: Effect::Blocks"),
    (1, "zalloc", "release of each that goes, take of each new one"),
    (1, "image", "write_down, by Image::write_path"),
]
DESTROY = [
    (0, "script", "run_script, request_at, Caller::ask"),
    (0, "pool", "Pool::apply, in_place, Keep::perform"),
    (1, "pool", "Keep::destroy"),
    (2, "removals", "destroy, destroy_file_systems"),
    (3, "removals", "refusal_of: Busy, HasClones .."),
    (4, "datasets", "find, file_systems, clones_of"),
    (4, "snap", "Views::is_viewed"),
    (3, "removals", "WorkingCopy::of: copies of table and freeing"),
    (3, "removals", "empty_family: snapshot by snapshot"),
    (4, "datasets", "Table::remove_snapshot"),
    (5, "file_system", "FileSystem::splice"),
    (6, "deadlist", "take_after: the lost; append"),
    (6, "snapshots", "splice, or remove of the last"),
    (4, "snap", "Freeing::add_dead"),
    (4, "datasets", "Table::vacate: the live map"),
    (4, "snap", "Freeing::add_tree"),
    (3, "removals", "remove_family: row by row"),
    (4, "datasets", "Table::lost_with, remove"),
    (3, "removals", "sweep: deferred origins"),
    (3, "removals", "WorkingCopy::put: both in force"),
    (2, "steps", "renew, by Ledger::fill of limits"),
    (0, "pool", "Keep::settle: Effect::Nothing"),
    (0, "pool", "later, Slice: Keep::slice"),
    (1, "snap", "Freeing::slice"),
    (2, "tree", "Subtree::peel, node by node"),
    (2, "deadlist", "iter_from, entry by entry"),
    (0, "pool", "Keep::settle: Effect::Taken"),
    (1, "zalloc", "release of each"),
]
RECEIVE = [
    (0, "script", "run_script, request_at, Caller::ask"),
    (0, "pool", "Pool::apply, in_place, Keep::perform"),
    (1, "pool", "Keep::receive"),
    (2, "steps", "intake_of"),
    (3, "stream", "read_stream, or BadStream"),
    (3, "receives", "begin: receive_refusal, start"),
    (4, "removals", "WorkingCopy::of: copies of table and freeing"),
    (4, "datasets", "whole: Table::create"),
    (4, "removals", "with -F: WorkingCopy::lose_live"),
    (5, "datasets", "Table::rollback: the newest's map"),
    (5, "snap", "Freeing::add_tree"),
    (4, "removals", "with -F: remove_newer_bookmarks"),
    (3, "receives", "updates_of: the records as a batch"),
    (3, "steps", "ask_limits: with a ledger only"),
    (4, "tree", "Tree::forecast"),
    (4, "limits", "kept_outlook_of"),
    (4, "limits", "Ledger::fill, settle, first_over"),
    (3, "receives", "finish"),
    (4, "datasets", "Table::apply_live: as a write's"),
    (5, "file_system", "FileSystem::apply, as there"),
    (4, "datasets", "Table::keep_live"),
    (5, "file_system", "FileSystem::take: the snapshot"),
    (6, "snapshots", "push; the dead list goes with it"),
    (2, "pool", "the copies are the present world"),
    (2, "steps", "renew, by Ledger::fill of limits"),
    (0, "pool", "Keep::settle: Effect::Blocks"),
    (1, "zalloc", "release, take: as a write's"),
]


def ways():
    """The ways of a write, of a destroy and of a receive: which function of which crate is called, in order."""
    crates, _ = crate_layers()
    home = {crate: layer for layer, names in crates.items() for crate in names}
    columns = [("write p/a 0 0 61", WRITE), ("destroy -r p/a", DESTROY), ("receive [-F] p/a@s HEX", RECEIVE)]
    p = Picture(40 + 424 * len(columns), 112 + 26 * max(len(way) for _, way in columns))
    for column, (name, way) in enumerate(columns):
        left = 20 + 424 * column
        p.title(left, 28, name)
        for row, (depth, crate, call) in enumerate(way):
            x, y = left + 12 * depth, 42 + 26 * row
            p.parts.append(f'<rect x="{x}" y="{y}" width="{404 - 12 * depth}" height="22" rx="4" fill="{LAYERS[home[crate]]}" stroke="#999"/>')
            p.words(x + 8, y + 15.5, crate, style='font-weight="bold"')
            p.words(x + 102, y + 15.5, call)
    y, x = p.height - 38, 20
    p.words(x, y + 15.5, "The layer of a crate:")
    x += 150
    for layer in crates:
        if any(home[crate] == layer for _, way in columns for _, crate, _ in way):
            width = 24 + 8 * len(layer)
            p.parts.append(f'<rect x="{x}" y="{y}" width="{width}" height="22" rx="4" fill="{LAYERS[layer]}" stroke="#999"/>')
            p.words(x + width / 2, y + 15.5, layer, "middle")
            x += width + 10
    p.words(x + 20, y + 15.5, "What stands further in is called by what stands above it and further out.")
    return p


PICTURES = {"layers": layers, "ways": ways, "lineage": lineage, "dead-lists": dead_lists, "block-states": block_states}


def main():
    for name, draw in PICTURES.items():
        (DOCS / f"{name}.svg").write_text(draw().svg(draw.__name__))
        print(f"docs/{name}.svg")


if __name__ == "__main__":
    main()
