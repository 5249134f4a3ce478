"""Makes random script lines from what a pool has, by a state of the plain machine (bench/plain.py)."""

from plain import LIMITS, PROPERTIES, spelled, told_by

COMPONENTS = ["a", "a", "a-x", "a.b", "b", "b", "ab", "Z:9", "-r", "..a", "c" * 125]
PLACES = [(0, 0), (0, 0), (0, 1), (0, 15), (0, 16), (0, 4095), (1, 0), (128, 0), (255, 0), (255, 4095)]
LONGEST = 4194304
OF_POOL = "size allocated free freeing waiting group".split()
EDGES = [0, 1, 255, 256, 4095, 4096, 2**32 - 1, 2**32, 2**40]
NONSENSE = """frob|write p 0 0|create p//a|create p/..|slice -1|read p 0 01|set quota=100 p|snapshot p|receive p@a 5a44|get used p#|read p 00 0
destroy -d -r p@a|destroy -r|send -i p@a|snapshot -r|rollback -r -r p@a|create -r|hold . p@a|hold .. p@a|release p@a|unview 01|sync p|list p
abandon -r|pget used|get size p|get written@ p|get written@p/a p|get written@a#a p|get written@p@a p|wouldfree p a|wouldfree p p@a a
wouldfree p a .|set quota p|set quota= p|set quota=512=512 p|set quota=+512 p|set quota=512 p@a|set used=512 p|set quota=562949953421824 p
set quota=562949953421312 p|set quota=0 p|set quota=None p|set quota=0512 p|receive -F p@a 5a4|receive p 5a44|receive p@a|send p|send -i p p@a
view p|view p#a|bookmark p@a p@b|clone p@a p/c@a|promote p@a|create p@a|create q|create q/a|create p|create p/.|create p/a/
read p 4294967296 0|read p 256 0|read p 0 4096|write p 0 0 6|write p 0 0 6g|hold / p@a|destroy p|destroy -r p|destroy -d p|destroy -r -d p
rmobj p 256|punch p 0 4096|get nothing p| list|list |list  p|LIST""".replace("\n", "|").split("|")


class Maker:
    """Makes lines, from what is there."""

    def __init__(self, source, size, machine):
        self.random, self.size, self.lawful, self.waiting, self.streams = source, size, machine.lawful, [], []
        kinds = [(15, self.write), (3, self.hole), (4, self.create), (7, self.snapshot), (4, self.clone), (4, self.promote), (3, self.rollback)]
        kinds += [(6, self.destroy), (5, self.tag), (3, self.mark), (5, self.view), (5, self.limit), (3, lambda: f"slice {self.count()}")]
        kinds += [(3, lambda: "sync"), (2, lambda: "abandon"), (8, self.get), (3, self.since), (3, self.range), (3, self.pget), (1, lambda: "list")]
        kinds += [(4, self.read), (4, self.send), (5, self.receive), (4, self.bad), (1, self.deep), (1, self.to_and_fro), (2, self.copied)]
        kinds += [(1, self.fill), (1, self.deferred), (1, self.twice), (1, self.give_back), (1, self.half), (1, self.tight)]
        kinds += [(1, self.kin), (1, self.back)]
        self.kinds, self.weights = [kind for _, kind in kinds], [weight for weight, _ in kinds]

    def line(self, state):
        """The next line, in bytes."""
        self.state, w = state, state.now
        self.systems = sorted(w.systems)
        self.snaps = [f"{name}@{it}" for name in self.systems for it in w.systems[name].snaps]
        self.marks = [f"{name}#{it}" for name in self.systems for it in w.systems[name].bookmarks]
        while not self.waiting:
            made = self.random.choices(self.kinds, self.weights)[0]()
            self.waiting = made if isinstance(made, list) else [made]
        line = self.waiting.pop(0)
        line = line if isinstance(line, (str, bytes)) else line()
        return line if isinstance(line, bytes) else line.encode("latin-1")

    # ---- names and numbers

    def one(self, *of):
        """One of some."""
        return self.random.choice(of)

    def system(self):
        return self.random.choice(self.systems)

    def snap(self):
        """A snapshot that is there, mostly, or any other name where none is wanted."""
        if self.snaps and self.random.random() < 0.95:
            return self.random.choice(self.snaps)
        return self.one("p@a", f"{self.system()}@{self.component()}", self.system(), *self.marks[:1])

    def name(self):
        """Any name."""
        return self.random.choice(self.systems + self.snaps + self.marks)

    def component(self):
        return self.random.choice(COMPONENTS)

    def new(self):
        """A name of a new file system; now and then one of about 255 bytes, or one whose parent isn't there."""
        above, chance = self.system(), self.random.random()
        if chance < 0.04 and len(above) < 250:
            return f"{above}/{'n' * (self.random.randrange(251, 258) - len(above) - 1)}"
        if chance < 0.06:
            return f"{above}/none/{self.component()}"
        return f"{above if len(self.systems) < 24 else 'p'}/{self.component()}"

    def place(self):
        object_, block = self.random.choice(PLACES)
        return (self.random.randrange(3), self.random.randrange(40)) if self.random.random() < 0.2 else (object_, block)

    def count(self):
        return self.one(0, 1, 2, 3, 5, 8, 13, 30, 64, 100, 4294967295)

    def data(self):
        """A block's digits."""
        return self.one("61", "62", "00", "aF", f"{self.random.getrandbits(32):08x}", "5a" * 512)

    def flags(self, *flags):
        return "".join(f"{it} " for it in flags if self.random.random() < 0.4)

    # ---- requests

    def write(self):
        return "write {} {} {} {}".format(self.system() if self.random.random() < 0.95 else self.name(), *self.place(), self.data())

    def hole(self):
        object_, block = self.place()
        return self.one(f"punch {self.system()} {object_} {block}", f"rmobj {self.system()} {object_}", f"punch {self.name()} {object_} {block}")

    def create(self):
        return f"create {self.new()}"

    def snapshot(self):
        names = [f"{self.system()}@{self.component()}" for _ in range(self.one(1, 1, 1, 1, 2, 3))]
        return f"snapshot {self.flags('-r')}{' '.join(names)}"

    def clone(self):
        return f"clone {self.snap()} {self.new()}"

    def promote(self):
        clones = [it for it in self.systems if self.state.now.systems[it].origin]
        return f"promote {self.random.choice(clones) if clones and self.random.random() < 0.9 else self.system()}"

    def rollback(self):
        newest = [list(self.state.now.systems[it].snaps)[-1:] for it in self.systems]
        newest = [f"{name}@{snap}" for name, snaps in zip(self.systems, newest) for snap in snaps]
        return f"rollback {self.flags('-r')}{self.random.choice(newest) if newest and self.random.random() < 0.5 else self.snap()}"

    def destroy(self):
        others = self.snaps + self.marks if self.random.random() < 0.6 else self.systems[1:]
        return f"destroy {self.flags('-r', '-d')}{self.random.choice(others or self.systems)}"

    def tag(self):
        line = self.one("hold {1} {0}", "hold {1} {0}", "release {1} {0}", "release {1} {0}", "holds {0}")
        return line.format(self.snap(), self.one(*"xyz", "t" * 255))

    def mark(self):
        snap = self.snap()
        return f"bookmark {snap} {snap.partition('@')[0] if self.random.random() < 0.9 else self.system()}#{self.component()}"

    def view(self):
        views = [*self.state.views, self.random.randrange(1, 9)]
        return self.one(f"view {self.snap()}", f"unview {self.random.choice(views)}")

    def limit(self):
        """A limit: at or beside something that is used or there, or any."""
        name, w = self.system(), self.state.now
        near = [w.sums[name]["used"], len(w.systems[name].live), self.state.room(name), w.sums[name]["usedbychildren"], self.size, len(w.reach)]
        amount = max(0, 512 * (self.random.choice(near) + self.one(-1, 0, 0, 1)))
        return f"set {self.random.choice(LIMITS)}={self.one('none', 512 * self.random.randrange(1, self.size + 9), amount, amount)} {name}"

    # ---- questions

    def get(self):
        return f"get {self.random.choice(PROPERTIES)} {self.name()}"

    def since(self):
        since = self.snap()
        return f"get written@{self.one(since, since.partition('@')[2])} {self.name()}"

    def range(self):
        name = self.system()
        snaps = list(self.state.now.systems[name].snaps) or ["a"]
        return f"wouldfree {name} {self.random.choice(snaps)} {self.random.choice(snaps)}"

    def pget(self):
        return f"pget {self.random.choice(OF_POOL)}"

    def read(self):
        return "read {} {} {}".format(self.name(), *self.place())

    def send(self):
        source = self.random.choice(self.snaps + self.marks) if self.snaps and self.random.random() < 0.6 else ""
        snap = self.snap()
        if source and self.random.random() < 0.7:
            older = [f"{name}@{t.name}" for name, t in self.older(snap)]
            older += [it for it in self.marks if it.partition("#")[0] == snap.partition("@")[0]]
            source = self.random.choice(older) if older else source
        return f"send {'-i ' if source else ''}{source}{' ' if source else ''}{snap}"

    def older(self, snap):
        """The snapshots before one in its lineage, with their file systems' names."""
        system, _, component = snap.partition("@")
        found = self.state.now.systems[system].snaps.get(component) if system in self.state.now.systems else None
        return self.state.now.older(system, found) if found else []

    def questions(self, state):
        """Lines that ask for much of what a pool has."""
        self.line(state)
        self.waiting = []
        lines = ["list", *(f"pget {it}" for it in OF_POOL)]
        for name in self.systems + self.snaps + self.marks:
            words = self.random.sample(PROPERTIES, 3)
            lines += [f"get {it} {name}" for it in (["used", "referenced", "written", *words] if "#" not in name else ["guid"])]
            lines += [f"read {name} {object_} {block}" for object_, block in self.random.sample(PLACES, 3) if "#" not in name]
        for snap in self.random.sample(self.snaps, min(3, len(self.snaps))):
            lines += [f"holds {snap}", f"send {snap}", *(f"send -i {name}@{t.name} {snap}" for name, t in self.older(snap)[:1])]
        return [it.encode() for it in lines]

    # ---- streams

    def stream(self, snap, source=None):
        """The bytes of a send of a snapshot that is there; else of an earlier one."""
        line = f"send -i {source} {snap}" if source else f"send {snap}"
        ((reply, _),) = self.lawful(self.state, line.encode())
        if reply.startswith("error"):
            return self.random.choice(self.streams) if self.streams else bytes.fromhex("5a445354524d3031")
        self.streams = [*self.streams[-9:], bytes.fromhex(reply)]
        return self.streams[-1]

    def receive(self):
        """A stream of the pool's own, received again, whole, damaged or forged."""
        snap, chance = self.snap(), self.random.random()
        older = [f"{name}@{t.name}" for name, t in self.older(snap)]
        stream = self.stream(snap, self.random.choice(older) if older and self.random.random() < 0.6 else None)
        stream = self.random.choice(self.streams) if self.streams and self.random.random() < 0.3 else stream
        if chance < 0.25:
            stream = self.damaged(stream)
        elif chance < 0.6:
            stream = self.forged(stream)
        return self.received(self.one(self.system(), self.new()), stream)

    def received(self, name, stream):
        digits = stream.hex()
        return f"receive {self.flags('-F')}{name}@{self.component()} {digits.upper() if self.random.random() < 0.1 else digits}"

    def damaged(self, stream):
        at = self.random.randrange(len(stream))
        changed = stream[:at] + bytes([self.random.randrange(256)]) + stream[at + 1 :]
        return self.one(stream[:at] or b"\0", changed, stream + b"\0", stream + stream, stream[:24] + stream[-33:])

    def forged(self, stream):
        """Another stream with a digest of its own: guids, or records, are changed, by the rules or against them."""
        source, target, records = told_by(stream) or (0, 1, [])
        records = list(records)
        guids = [t.guid for f in self.state.now.systems.values() for t in f.snaps.values()] or [1]
        for _ in range(self.one(1, 1, 2)):
            change = self.random.randrange(9)
            if change < 2:
                source = self.one(0, self.random.choice(guids), self.random.choice(guids), 1)
            elif change < 4:
                target = self.one(self.random.choice(guids), 1, 2**64 - 1, 0, source)
            elif change == 4 and records:
                records.pop(self.random.randrange(len(records)))
            elif change == 5:
                key = self.one((5, 0), (3, self.random.randrange(257)), (0, self.random.randrange(40)), (5, 1), (6, 0), (0, 2**20), (4, 15))
                records.insert(self.random.randrange(len(records) + 1), (key, self.one(None, b"\7" * 512) if key[0] == 0 else None))
            elif change == 6 and records:
                leaves = [place for place, (key, _) in enumerate(records) if key[0] == 0]
                at = self.random.choice(leaves or [0])
                records = records[: at + 1] + records[at:]
            elif change == 7:
                records = self.one([], records[::-1], records + records[-1:], [((0, 5), b"\5" * 512)])
            else:
                records = [it for it in records if self.random.random() < 0.8]
        return spelled(source, target, records)

    # ---- stories: lines that belong together

    def deep(self):
        """Clones of clones, with a write in each, and promotes among them."""
        name, made, lines = self.system(), [], []
        for depth in range(self.random.randrange(2, 6)):
            snap, made = f"{name}@{self.component()}", [*made, name]
            name = f"{self.one('p', name)}/d{depth}"
            lines += [f"snapshot {snap}", f"clone {snap} {name}", "write {} {} {} {}".format(name, *self.place(), self.data())]
        return lines + [f"promote {self.one(*made, name)}" for _ in range(self.random.randrange(1, 6))]

    def to_and_fro(self):
        """A clone is promoted, and then what has become a clone by that."""
        clones = [it for it, f in self.state.now.systems.items() if f.origin]
        if not clones:
            return "promote p"
        clone = self.random.choice(clones)
        other = self.state.now.by_id[self.state.now.systems[clone].origin][0]
        return [f"promote {clone}", f"promote {other}"] * self.random.randrange(1, 3)

    def copied(self):
        """A file system is copied by a full stream, and then by one of what has changed, perhaps onto a copy that was written to."""
        name, other, place = self.system(), f"p/{self.component()}", self.random.choice(PLACES)
        first, second = self.random.sample(COMPONENTS, 2)
        to, source = self.one(name, name, other), self.one(f"{name}@{first}", f"{name}#{first}")
        return [
            f"snapshot {name}@{first}",
            f"bookmark {name}@{first} {name}#{first}",
            lambda: f"receive {other}@{first} {self.stream(f'{name}@{first}').hex()}",
            "write {} {} {} {}".format(to, *place, self.data()),
            *([f"destroy {name}@{first}"] if "#" in source else []),
            f"snapshot {name}@{second}",
            lambda: f"receive {self.flags('-F')}{other}@{second} {self.stream(f'{name}@{second}', source).hex()}",
        ]

    def fill(self):
        """Many writes."""
        name, first = self.system(), self.random.randrange(30)
        places = [(0, first + it) for it in range(20)] if self.random.random() < 0.5 else PLACES
        return ["write {} {} {} {}".format(name, object_, block, self.data()) for object_, block in places]

    def deferred(self):
        """A snapshot is to go, and stays until nothing needs it."""
        name = self.system()
        snap, need = f"{name}@{self.component()}", self.one("hold x {}", "view {}", "clone {} p/d9")
        end = {"h": f"release x {snap}", "v": f"unview {self.state.next_view}", "c": "destroy -r p/d9"}[need[0]]
        between = [f"hold y {snap}", f"view {snap}", f"get defer_destroy {snap}", "sync", "abandon", f"destroy -d {snap}", f"snapshot {snap}"]
        write = "write {} {} {} {}".format(name, *self.place(), self.data())
        return [f"snapshot {snap}", need.format(snap), f"destroy -d {snap}", write, *self.random.sample(between, 3), end]

    def twice(self):
        """One guid comes twice into a lineage, by a forged stream; then it is sent from there."""
        name, first, second = f"p/{self.component()}", *self.random.sample(COMPONENTS, 2)
        guid, leaf = self.random.randrange(1, 3), self.random.randrange(20)
        streams = [spelled(0, guid, [((0, leaf), b"\1" * 512)]), spelled(guid, 3, [((0, 1 + leaf), b"\2" * 512)]), spelled(3, guid, [((2, 0), None)])]
        lines = [f"receive {name}@{it} {stream.hex()}" for it, stream in zip((first, second, "t3"), streams)]
        return [*lines, f"send -i {name}@{first} {name}@t3", f"send -i {name}@{second} {name}@t3", f"rollback -r {name}@{second}"]

    def give_back(self):
        """Something is destroyed and freed in steps."""
        steps = [f"slice {self.count()}", "pget waiting", "pget free", "sync", "pget freeing", "get available p", "abandon"]
        return [self.destroy(), *self.random.choices(steps, k=self.random.randrange(2, 7))]

    def writes(self, name, first=0):
        """Some writes, beside each other."""
        return [f"write {name} 0 {first + it} {self.data()}" for it in range(self.random.randrange(1, 6))]

    def half(self):
        """What is to be freed, half of which the last synced world has."""
        name, steps = f"p/{self.component()}", [f"slice {self.count()}", "slice 5", "pget waiting", "get available p", self.write(), "pget free"]
        lines = [f"create {name}", *self.writes(name), "sync", *self.writes(name, 40), f"destroy -r {name}"]
        return [*lines, *self.random.choices(steps, k=self.random.randrange(2, 7))]

    def tight(self):
        """All is reserved, and then something is to be freed beside it: the limits hold no more."""
        name, limit = self.system(), self.random.choice(LIMITS)
        lines = [*self.writes(name), f"snapshot {name}@t", f"rmobj {name} 0", f"snapshot {name}@u"]
        asked = [f"set {limit}=none {name}", f"set quota=0 {name}", f"punch {name} 0 9", f"rollback {name}@u", "create p/t"]
        asked += [self.promote(), self.limit()]
        used = lambda: self.state.now.sums.get(name, {"used": 0})["used"]
        reserved = lambda: f"set reservation={512 * (self.state.room('p') + used())} {name}"
        return [*lines, reserved, f"destroy {name}@t", *self.random.choices(asked, k=5)]

    def kin(self):
        """A file system with a clone below it, and perhaps one beside it, goes with all that it has."""
        name = f"{self.system()}/{self.component()}"
        lines = [f"create {name}", *self.writes(name), f"snapshot {name}@k", f"clone {name}@k {name}/x", *self.writes(f"{name}/x")]
        between = [f"clone {name}@k p/y", f"snapshot -r {name}@l", f"clone {name}/x@l {name}/z", f"promote {name}/x", f"hold k {name}@k", "sync"]
        return [*lines, *self.random.sample(between, 2), f"destroy -r {name}", "pget freeing", f"destroy -r -d {name}@k", f"destroy -r {name}"]

    def back(self):
        """A file system goes back past a snapshot, of which a bookmark may be left."""
        name, (old, new), flag = self.system(), self.random.sample(COMPONENTS, 2), self.one("", "-r ")
        between = [f"bookmark {name}@{new} {name}#{new}", f"destroy {name}@{new}", f"clone {name}@{new} p/e", f"hold b {name}@{new}", "sync"]
        lines = [f"snapshot {name}@{old}", *self.writes(name), f"snapshot {name}@{new}", between[0], *self.random.sample(between[1:], 1)]
        return [*lines, f"rollback {name}@{old}", f"rollback {flag}{name}@{old}", f"get createtxg {name}#{new}", "list"]

    # ---- lines at the edge of their shape

    def bad(self):
        """A line without meaning, or one that is a little off."""
        if self.random.random() < 0.4:
            return self.random.choice(NONSENSE)
        if self.random.random() < 0.001:
            return self.one("#", "", "read p 0 0", "receive p@a 5a").ljust(LONGEST + self.one(0, 1), "5")
        made = self.random.choice([self.write, self.snapshot, self.destroy, self.limit, self.get, self.send, self.read, self.tag, self.clone])()
        words, chance = made.split(" "), self.random.randrange(9)
        at = self.random.randrange(len(words))
        if chance == 0:
            words.insert(at, words[at])
        elif chance == 1:
            del words[at]
        elif chance == 2:
            words[at] = str(self.random.choice(EDGES))
        elif chance == 3:
            words[at] += self.one("", "/", "@", "#", "@a", "#a", ".", "0", "\x7f", "\xe9", "\t", "n" * 250, "@" + "n" * 252)
        elif chance == 4:
            self.random.shuffle(words)
        elif chance == 5:
            words.insert(at, self.one("-r", "-d", "-F", "-i", "-x", ""))
        elif chance == 6:
            return f"get written@{self.one('n' * 253, 'n' * 254, '', 'a', '#', '.', 'a/b', 'p@', 'p@a@a')} {self.name()}"
        elif chance == 7:
            return self.one("#", "", "# no", "\xff#", "#\xff", " ", "p", "x" * 5000)
        else:
            return made[: self.random.randrange(len(made) + 1)]
        return " ".join(words)
