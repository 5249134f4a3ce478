"""What plain Python values tell of the rows of crates/tree_rows, for bench/ground.py."""

from row_words import MASK, Refused, mixed, yes

LEAVES, LEVELS, MOST_BLOCKS = 1 << 20, 6, 4194304
OBJECTS, OBJECT_BLOCKS = 256, 4096


def key_over(level, leaf):
    return level, leaf >> 4 * level


def path_to(leaf):
    """The keys on the way to a leaf, from the top."""
    return [key_over(level, leaf) for level in reversed(range(LEVELS))]


def leaf_of_place(place):
    return place % 128 // 32 * 65536 + place % 32 * 9


def leaf_of(object_number, block):
    if object_number >= OBJECTS or block >= OBJECT_BLOCKS:
        raise Refused("BadKey")
    return object_number * OBJECT_BLOCKS + block


def births(group_of_keys):
    return sum(mixed(1, group) for group in group_of_keys) & MASK


class Update:
    """A byte that fills a leaf, or a punch of the leaves that a key covers."""

    def __init__(self, level, index, byte=None):
        self.level, self.index, self.byte = level, index, byte
        self.first, self.past = index << 4 * level, index + 1 << 4 * level

    def is_of_tree(self):
        return self.level in (0, 3) and self.past <= LEAVES


class Batch:
    def __init__(self):
        self.updates = []

    def row(self, words):
        return getattr(self, f"do_{words.word()}")(words)

    def is_batch(self):
        """Whether they are writes and punches of leaves and punches of objects, none of which meets one before it."""
        low = 0
        for update in self.updates:
            if not update.is_of_tree() or update.first < low:
                return False
            low = update.past
        return True

    def add(self, *update):
        self.updates.append(Update(*update))
        return "ok"

    def do_new(self, _words):
        self.updates = []
        return "ok"

    def do_write(self, words):
        return self.add(0, words.number(), words.number() % 16)

    def do_punch(self, words):
        return self.add(words.number(), words.number())

    def do_place(self, words):
        leaf, byte = leaf_of_place(words.number() + words.number()), words.number()
        return self.add(0, leaf, byte if byte < 16 else None)

    def do_block(self, words):
        number, block, byte = words.number(), words.number(), words.number()
        return self.add(0, leaf_of(number, block), byte % 16)

    def do_hole(self, words):
        return self.add(0, leaf_of(words.number(), words.number()))

    def do_free(self, words):
        number = words.number()
        leaf_of(number, 0)
        return self.add(3, number)

    def do_said(self, words):
        leaf = words.number()
        if not self.is_batch():
            return "no"
        said = [it.byte for it in self.updates if it.first <= leaf < it.past]
        return "none" if not said else "256" if said[0] is None else str(said[0])

    def do_halves(self, words):
        leaf = words.number()
        return f"{sum(it.past > leaf for it in self.updates)} {sum(it.first < leaf for it in self.updates)}" if self.is_batch() else "no"

    def do_idle(self, words):
        is_present = words.number() > 0
        return yes(not self.updates if is_present else all(it.byte is None for it in self.updates))

    def do_way(self, words):
        level, index = words.number(), words.number()
        if not 1 <= level < LEVELS:
            return "unknown"
        update = self.updates[0] if len(self.updates) == 1 else None
        if update is None or update.level != 0 or key_over(level, update.index) != (level, index):
            return "none"
        return f"{(update.index >> 4 * (level - 1)) % 16} {int(update.byte is not None)}"


class Change:
    """What a batch does to a tree: the keys that it touches and that were there, and those that it makes."""

    def __init__(self, tree, updates):
        self.after = dict(tree.bytes)
        touched = set()
        for update in updates:
            if update.byte is None:
                leaves = [it for it in tree.bytes if update.first <= it < update.past]
            else:
                leaves = [update.index]
                self.after[update.index] = update.byte
            for leaf in leaves:
                touched.update(path_to(leaf))
                if update.byte is None:
                    del self.after[leaf]
        present = {key for leaf in self.after for key in path_to(leaf)}
        self.dropped = touched & tree.births.keys()
        self.made = touched & present

    def split(self, tree, young):
        """The keys that keep their number, and the numbers of those that don't: of young blocks, and of others."""
        kept = {key for key in self.dropped & self.made if tree.births[key] >= young}
        gone = self.dropped - kept
        is_young = [(tree.births[key] >= young, tree.numbers[key]) for key in gone]
        return kept, sorted(number for young, number in is_young if young), sorted(number for young, number in is_young if not young)


class Tree:
    """The byte of each leaf, the group in which each key's block was born, and its number."""

    def __init__(self, count):
        self.count, self.bytes, self.births, self.numbers = count, {}, {}, {}

    def copy(self):
        copy = Tree(self.count)
        copy.bytes, copy.births, copy.numbers = dict(self.bytes), dict(self.births), dict(self.numbers)
        return copy

    def free(self):
        taken = set(self.numbers.values())
        return [it for it in range(self.count) if it not in taken]

    def change(self, updates, young):
        """What a batch does, with the keys that keep their number and the numbers for the others."""
        change = Change(self, updates)
        kept, young_numbers, old_numbers = change.split(self, young)
        need = len(change.made) - len(kept)
        if need > len(young_numbers) + self.count - len(self.numbers):
            raise Refused("NoSpace")
        numbers = (young_numbers + (self.free() if need > len(young_numbers) else []))[:need]
        return change, kept, numbers, len(young_numbers) + len(old_numbers)

    def put(self, updates, group, young):
        change, kept, numbers, released = self.change(updates, young)
        own = {key: self.numbers[key] for key in kept}
        for key in change.dropped:
            del self.births[key], self.numbers[key]
        self.births.update((key, group) for key in change.made)
        self.numbers.update(own)
        self.numbers.update(zip(sorted(change.made - kept), numbers))
        self.bytes = change.after
        return f"{len(numbers)} {len(change.made)} {released}", len(change.dropped | change.made)

    def read(self, leaf):
        return f"{self.bytes.get(leaf, 0)} {sum(key in self.births for key in path_to(leaf))}"

    def look(self):
        total = births(self.births.values())
        for place in range(128):
            total = mixed(total, self.bytes.get(leaf_of_place(place), 0))
        return f"{len(self.births)} {len(self.numbers)} {total}"


class Trees:
    def __init__(self, batch):
        self.batch, self.at, self.group, self.reached = batch, [None] * 3, 1, 0

    def row(self, words):
        call = words.word()
        if call in ("group", "later", "reached"):
            return getattr(self, f"do_{call}")(words)
        register = min(words.number(), 2)
        if call == "new":
            return self.made(register, words.number())
        if call == "drop":
            self.at[register] = None
            return "ok"
        tree = self.at[register]
        return "none" if tree is None else getattr(self, f"do_{call}")(tree, words)

    def made(self, register, count):
        if count > MOST_BLOCKS:
            return "none"
        self.at[register] = Tree(count)
        return "ok"

    def is_asked(self, tree):
        """Whether the batch can be put in force in the present group."""
        return self.batch.is_batch() and all(it <= self.group for it in tree.births.values())

    def do_group(self, words):
        self.group = words.long()
        return "ok"

    def do_later(self, _words):
        self.group += 1
        return "ok"

    def do_reached(self, _words):
        return str(self.reached)

    def do_copy(self, tree, words):
        self.at[min(words.number(), 2)] = tree.copy()
        return "ok"

    def do_put(self, tree, words):
        young = max(0, self.group - words.long())
        if not self.is_asked(tree):
            self.reached = 0
            return "none"
        told, self.reached = tree.put(self.batch.updates, self.group, young)
        return told

    def do_draft(self, tree, _words):
        if not self.is_asked(tree):
            return "none"
        change, _, numbers, released = tree.change(self.batch.updates, self.group)
        return f"{len(tree.births) + len(numbers) - released} {len(numbers)} {len(change.made)}"

    def do_forecast(self, tree, words):
        last = words.long()
        if not self.batch.is_batch():
            return "none"
        change = Change(tree, self.batch.updates)
        return f"{len(change.dropped)} {sum(tree.births[key] <= last for key in change.dropped)} {len(change.made)}"

    def do_same(self, tree, words):
        other = self.at[min(words.number(), 2)]
        if other is None:
            return "none"
        is_same = int((tree.bytes, tree.births, tree.numbers) == (other.bytes, other.births, other.numbers))
        return f"{is_same} {is_same}"

    def do_numbers(self, tree, words):
        other = self.at[min(words.number(), 2)]
        return "none" if other is None else yes((tree.count, set(tree.numbers.values())) == (other.count, set(other.numbers.values())))

    def do_read(self, tree, words):
        return tree.read(words.number())

    def do_block(self, tree, words):
        return tree.read(leaf_of(words.number(), words.number()))

    def do_walk(self, tree, words):
        cut = words.long()
        younger = [it for it in tree.births.values() if it > cut]
        return f"{len(younger)} {births(younger)}"

    def do_look(self, tree, _words):
        return tree.look()

    def do_counts(self, tree, _words):
        return f"{tree.count - len(tree.numbers)} {len(tree.numbers)} 0"


class Tops:
    """The births of a tree's blocks when its top was taken. Where all blocks come off, each node is reached once."""

    def __init__(self, trees):
        self.trees, self.births = trees, None

    def row(self, words):
        call = words.word()
        if call == "take":
            tree = self.trees.at[min(words.number(), 2)]
            if tree is None:
                return "none"
            self.births = [*tree.births.values()] or None
            return yes(self.births)
        cut = words.long()
        if self.births is None:
            return "none"
        younger = [it for it in self.births if it > cut]
        return f"{len(younger)} {births(younger)} {0 if cut else len(younger)}"


def kinds():
    batch = Batch()
    trees = Trees(batch)
    return {"batch": batch, "tree": trees, "top": Tops(trees)}


LOOKS = ["tree.look 0", "tree.look 1", "tree.counts 0", "tree.counts 1", "tree.read 0 3", "tree.read 0 5000", "tree.read 1 3", "tree.read 1 5000", "top.peel 0"]

# Rows whose requests for memory are refused, one after another.
REFUSED = {
    "three batches, of which each is drafted, looked ahead at and put in force on a copy": [
        *("tree.new 0 100", "batch.write 3 1", "tree.draft 0", "tree.put 0 0", *LOOKS, "tree.walk 0 0"),
        *("batch.new", "batch.punch 3 0", "batch.punch 3 1", "tree.forecast 0 0", "tree.copy 0 1", *LOOKS),
        *("tree.later", "batch.new", "batch.write 5000 2", "tree.put 1 0", *LOOKS, "tree.copy 1 0"),
        *("tree.later", "batch.new", "batch.punch 0 3", "tree.put 0 0", *LOOKS, "top.take 0", "tree.drop 0", *LOOKS, "top.peel 2"),
    ],
}
