"""What plain Python values tell of the rows of crates/snapshot_rows, for bench/ground.py."""

from row_words import LETTERS, Refused, is_component, mixed, yes

MOST_MARKS, MOST_TAGS = 1024, 256


def mixed_bytes(total, text):
    for byte in text.encode():
        total = mixed(total, byte)
    return total


def kept_of(words):
    """The name, the guid and the blocks of a snapshot."""
    name, guid, written = words.text(), words.long(), words.number()
    if not is_component(name):
        raise Refused("BadName")
    return name, (guid, written)


def number_of(kept):
    return mixed(*kept) if kept else 0


def look(found, words):
    """How many names with a prefix are found, and a sum of what they find."""
    prefix, count, total, there = words.word(), words.number(), 0, 0
    for number in range(count):
        told = number_of(found(f"{prefix}{number}"))
        there, total = there + (told != 0), mixed(total, told)
    return f"{there} {total}"


class Registers:
    """Two values, of which a row names one."""

    def __init__(self):
        self.at = [self.new(), self.new()]

    def row(self, words):
        call, register = words.word(), min(words.number(), 1)
        if call == "new":
            self.at[register] = self.new()
            return "ok"
        if call == "copy":
            self.at[min(words.number(), 1)] = self.at[register].copy()
            return "ok"
        return self.told(call, self.at[register], words)


class Names(Registers):
    new = dict

    def told(self, call, names, words):
        if call == "look":
            return look(names.get, words)
        if call == "take":
            return "ok" if names.pop(words.text(), None) else "none"
        name, kept = kept_of(words)
        if (name in names) == (call == "put"):
            return "none"
        names[name] = kept
        return "ok"


def told_of_line(call, line, words):
    if call == "all":
        total = 0
        for _, kept in line:
            total = mixed(total, number_of(kept))
        return f"{len(line)} {number_of(line[-1][1]) if line else 0} {total}"
    first = dict(reversed(line))
    return look(first.get, words)


class Lines(Registers):
    new = list

    def told(self, call, line, words):
        if call != "push":
            return told_of_line(call, line, words)
        line.append(kept_of(words))
        return "ok"


class Own:
    """A line in which each name is one's own; its copies are among the others."""

    def __init__(self, lines):
        self.line, self.lines = [], lines

    def row(self, words):
        call = words.word()
        if call == "new":
            self.line = []
        elif call == "copy":
            self.lines.at[min(words.number(), 1)] = self.line.copy()
        elif call in ("all", "look"):
            return told_of_line(call, self.line, words)
        else:
            return "ok" if getattr(self, f"does_{call}")(words) else "none"
        return "ok"

    def does_put(self, words):
        name, kept = kept_of(words)
        is_new = all(name != other for other, _ in self.line)
        self.line += [(name, kept)] * is_new
        return is_new

    def does_take(self, words):
        place = words.number()
        is_there = place < len(self.line)
        del self.line[place : place + 1]
        return is_there

    def does_splice(self, words):
        place, (name, kept) = words.number(), kept_of(words)
        is_there = place + 1 < len(self.line) and self.line[place + 1][0] == name
        if is_there:
            self.line[place : place + 2] = [(name, kept)]
        return is_there


def sum_of_tags(tags):
    total = 0
    for tag in tags:
        total = mixed(mixed_bytes(total, tag), 256)
    return total


class Tags(Registers):
    new = list

    def told(self, call, tags, words):
        if call == "look":
            return f"{len(tags)} {sum_of_tags(tags)} {2 if len(tags) >= MOST_TAGS else int(not tags)}"
        tag = words.text()
        if call == "has":
            return yes(tag in tags)
        return getattr(self, call)(tags, tag)

    @staticmethod
    def add(tags, tag):
        if not tag or not set(tag) <= LETTERS or len(tag) > 255:
            raise Refused("BadName")
        if tag in tags:
            raise Refused("TagExists")
        if len(tags) >= MOST_TAGS:
            raise Refused("TooMany")
        tags.append(tag)
        return "ok"

    @staticmethod
    def remove(tags, tag):
        if tag not in tags:
            raise Refused("NoTag")
        tags.remove(tag)
        return "ok"


class Tagged:
    """A snapshot with tags, and a copy of it, where they were made."""

    def __init__(self, tags):
        self.tags, self.snapshot, self.copy = tags, None, None

    def row(self, words):
        call = words.word()
        if call == "new":
            self.snapshot = []
            return "ok"
        if call in ("look", "copied"):
            tags = self.snapshot if call == "look" else self.copy
            return "none" if tags is None else f"{len(tags)} {sum_of_tags(tags)} {int(bool(tags))}"
        tags = self.tags.at[min(words.number(), 1)].copy() if call == "tags" else None
        if self.snapshot is None:
            return "none"
        if call == "tags":
            self.snapshot = tags
        else:
            self.copy = self.snapshot.copy()
        return "ok"


def sum_of_marks(marks):
    total = 0
    for name, group in marks:
        total = mixed_bytes(mixed(mixed(total, group), group ^ 64), name)
    return total


class Marks(Registers):
    new = dict

    def told(self, call, marks, words):
        return getattr(self, f"do_{call}")(marks, words)

    def do_put(self, marks, words):
        name, group = words.text(), words.long()
        if not is_component(name):
            raise Refused("BadName")
        if name in marks:
            raise Refused("Exists")
        if len(marks) >= MOST_MARKS:
            raise Refused("TooMany")
        marks[name] = group
        return "ok"

    def do_remove(self, marks, words):
        if marks.pop(words.text(), None) is None:
            raise Refused("NoDataset")
        return "ok"

    def do_get(self, marks, words):
        group = marks.get(words.text())
        return "no" if group is None else f"{group} {group ^ 64}"

    def do_cut(self, marks, words):
        group = words.long()
        for name in [name for name, born in marks.items() if born > group]:
            del marks[name]
        return "ok"

    def do_after(self, marks, words):
        group = words.long()
        return yes(any(born > group for born in marks.values()))

    def do_full(self, marks, _words):
        return yes(len(marks) >= MOST_MARKS)

    def do_look(self, marks, _words):
        by_name = sorted(marks.items())
        return f"{len(marks)} {sum_of_marks(by_name)} {sum_of_marks(sorted(by_name, key=lambda it: (it[1], it[0])))}"


def kinds():
    lines, tags = Lines(), Tags()
    return {"byname": Names(), "line": lines, "own": Own(lines), "tag": tags, "kept": Tagged(tags), "mark": Marks()}


NAME_LOOKS = ["byname.look 0 n 200", "byname.look 1 n 200"]
LINE_LOOKS = ["line.all 0", "line.look 0 n 70", "line.all 1", "line.look 1 n 70"]
OWN_LOOKS = ["own.all", "own.look n 5"]
TAG_LOOKS = ["tag.look 0", "tag.look 1", "kept.look", "kept.copied"]
MARK_LOOKS = ["mark.look 0", "mark.look 1"]

# Rows whose requests for memory are refused, one after another.
REFUSED = {
    "names enough that chunks become two, more beside a copy, and fewer": [
        *("for 0 1043 7: byname.put 0 n{%200} {} 0", "byname.look 0 n 200", "byname.copy 0 1", "for 1050 1393 7: byname.put 0 n{%200} {} 0", *NAME_LOOKS),
        *("for 0 560 14: byname.set 0 n{%200} {} 1 & byname.take 0 n{%200}", *NAME_LOOKS),
    ],
    "a line of more than one chunk, and more beside a copy": [
        *("for 0 69 1: line.push 0 n{%60} {} 0", "line.look 0 n 70", "line.copy 0 1", "for 70 79 1: line.push 0 n{%60} {} 0", *LINE_LOOKS),
    ],
    "a line of one's own": ["for 0 4 1: own.put n{} {} 0", "own.take 1", *OWN_LOOKS, "own.splice 1 n3 3 7", *OWN_LOOKS],
    "tags": [
        *("for 0 9 1: tag.add 0 t{}", "tag.copy 0 1", "tag.add 1 x", "tag.remove 0 t3", *TAG_LOOKS),
        *("kept.new", "kept.tags 0", "kept.copy", "kept.tags 1", *TAG_LOOKS),
    ],
    "bookmarks": ["for 0 9 1: mark.put 0 b{} {%3}", "mark.copy 0 1", "mark.cut 1 1", "mark.remove 0 b4", *MARK_LOOKS],
}
