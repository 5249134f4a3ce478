"""Judges the replies of a program by the plain machine (bench/plain.py).

A judge keeps every state in which the machine can be after the replies so far. A reply is lawful if the machine gives it in one of these states;
the states in which it doesn't are dropped then. Two states of which no later reply can tell one from the other are kept as one (`Judge.key`).

`Judge` is for a pool alone. There are several states only after a slice whose choice can still show.

`JudgeBeside` is for a run beside workers (-w). Before each line the syncer and the destroyer may have taken any number of turns, in any order, and
every state that these can lead to is kept. So every reply is judged exactly, but for the numbers of groups (`pget group`, `sync`, `createtxg`):
the syncer's syncs raise these, and the machine's own groups don't count them. Such a number has to be one that the numbers told so far allow:
the groups' numbers rise, one by each request that closes a group, and at most one more by each line that was asked; and a number that shows
a sync of the syncer, or that there was none, drops the states in which it was otherwise (`Groups`). That a worker takes at most one turn a line
is judged by that bound alone.
"""

from dataclasses import make_dataclass, replace

SLICE = 64


class Judge:
    """The states in which a pool can be by what it has answered so far."""

    def __init__(self, machine, size, pool):
        self.machine, self.states, self.lines = machine, [machine.fresh(size, pool)], 0
        self.versions, self.held = {}, []

    def lawful(self, line):
        """Each lawful reply to a line, with the states that it leaves."""
        if len(self.states) == 1:
            found = {}
            for reply, new in self.machine.lawful(self.states[0], line):
                found.setdefault(reply, []).append(new)
            return found
        return self.lawful_of_many(line)

    def lawful_of_many(self, line):
        """The same from several states."""
        found = {}
        for old in self.states:
            for reply, new in self.machine.lawful(old, line):
                begun = old.last if line == b"abandon" else old.now
                self.name(new.now.systems, (self.version(begun.systems), self.lines, line))
                found.setdefault(reply, {}).setdefault(self.key(new), new)
        return {reply: list(states.values()) for reply, states in found.items()}

    def awaits(self, line, lawful):
        """Whether the reply has to be known before the machine can go on."""
        return len(lawful) > 1

    def follow(self, line, lawful, reply):
        """Goes on with a reply, and tells whether it is lawful."""
        states = lawful.get(reply)
        if states:
            self.lines, self.states = self.lines + 1, states
            if len(states) == 1:
                self.versions, self.held = {}, []
        return bool(states)

    def version(self, systems):
        """What names these file systems. States that came from one by the same lines have file systems of one version, though each made its own."""
        self.name(systems, id(systems))
        return self.versions[id(systems)]

    def name(self, systems, version):
        """Gives file systems this version, if they have none."""
        if id(systems) not in self.versions:
            self.held.append(systems)
            self.versions[id(systems)] = version

    def key(self, state):
        """What later replies can tell of a state. Of the blocks to be freed that is how many there are, and how many the last synced world has."""
        now, last = state.now, state.last
        return self.version(now.systems), self.version(last.systems), len(now.freeing), len(now.freeing & last.reach), len(last.freeing)


def is_of_datasets(line):
    """Whether the reply to a line follows from the datasets of the present world alone, which no worker changes."""
    command, _, rest = line.partition(b" ")
    return command in (b"read", b"send", b"list", b"holds", b"wouldfree") or (command == b"get" and not rest.startswith(b"available"))


def of_group(line):
    """Whether a line may be answered with a group's number."""
    return line in (b"pget group", b"sync") or line.startswith(b"get createtxg ")


class JudgeBeside(Judge):
    """The states in which a pool beside workers can be. `synced` tells whether the syncer has synced since the open group's number was last told."""

    def __init__(self, machine, size, pool):
        super().__init__(machine, size, pool)
        state = make_dataclass("State", [("synced", bool, False)], bases=(machine.State,), frozen=True, eq=False)
        self.states, self.groups = [state(self.states[0].now, self.states[0].last, size, pool)], Groups()

    def key(self, state):
        return *super().key(state), state.synced

    def lawful(self, line):
        if not is_of_datasets(line):
            self.states = self.after_workers()
            return self.lawful_of_many(line)
        found, known = {}, {}
        for state in self.states:
            version = self.version(state.now.systems)
            if version not in known:
                ((known[version], _),) = self.machine.lawful(state, line)
            found.setdefault(known[version], []).append(state)
        return found

    def after_workers(self):
        """The states after any turns of the workers. A sync of the syncer leaves the machine's group open."""
        found, left = {}, list(self.states)
        while left:
            state = left.pop()
            if found.setdefault(self.key(state), state) is state:
                left += [replace(state, last=state.now, synced=True)] if state.last is not state.now or not state.synced else []
                left += [new for _, new in state.slice(SLICE)] if state.now.freeing else []
        return list(found.values())

    def awaits(self, line, lawful):
        return len(lawful) > 1 or of_group(line)

    def follow(self, line, lawful, reply):
        if of_group(line) and reply.isdigit():
            lawful = {reply: self.fitting(line, {int(told): states for told, states in lawful.items() if told.isdigit()}, int(reply))}
        if not super().follow(line, lawful, reply):
            return False
        command = line.partition(b" ")[0]
        if reply == "ok" and command in (b"snapshot", b"receive"):
            self.groups.close()
        elif reply == "ok" and command == b"abandon":
            self.groups.back({state.now.group for state in self.states})
            self.join()
        return True

    def join(self):
        """Makes one version of what differs in the numbers of groups alone. After an abandon there may be several worlds that it went back to."""
        for systems in {id(state.now.systems): state.now.systems for state in self.states}.values():
            self.versions[id(systems)] = form(systems)
            self.held.append(systems)
        self.states = list({self.key(state): state for state in self.states}.values())

    def fitting(self, line, told, number):
        """Of the states in which the machine tells a group's number, those that allow this number."""
        states = [state for some in told.values() for state in some]
        if line.startswith(b"get"):
            return states if all(self.groups.tell(it, number) for it in told) else []
        if line == b"sync":
            self.groups.close()
        fit = self.groups.see(number, self.lines)
        return [replace(state, synced=False) for state in states if state.synced in fit]


def form(systems):
    """File systems with groups numbered by their order, and blocks by the place where each is met first."""
    maps = [it for _, f in sorted(systems.items()) for it in (f.live, *(t.map for t in f.snaps.values()))]
    groups = {cell.birth for it in maps for cell in it.values()} | {it[0] for f in systems.values() for it in f.bookmarks.values()}
    groups = sorted(groups | {t.group for f in systems.values() for t in f.snaps.values()})
    order, blocks = {group: place for place, group in enumerate(groups)}, {}
    of_map = lambda it: tuple((key, blocks.setdefault(cell, len(blocks)), order[cell.birth], cell.data) for key, cell in sorted(it.items()))
    of_id = lambda it: it and (order[it[0]], it[1])
    return tuple(
        (name, of_map(f.live), of_id(f.origin), tuple(sorted(f.limits.items())), tuple(sorted((it, of_id(f.bookmarks[it])) for it in f.bookmarks)))
        + tuple((t.name, of_map(t.map), of_id(t.id), t.tags, t.deferred) for t in f.snaps.values())
        for name, f in sorted(systems.items())
    )


class Groups:
    """What is known of the numbers of groups. For each group of the machine: the least and the most that its number can be. `alone` is the open
    group's number if the syncer hasn't synced since that was last told. Once an abandon may have gone back to one of several groups, no more
    is known than `alone`, and `open` as the most that the open group's number can be without the syncer."""

    def __init__(self):
        self.open, self.alone, self.is_known = 1, 1, True
        self.least, self.most = {0: 0, 1: 1}, {}

    def close(self):
        """A request closed the open group."""
        self.open += 1
        self.least[self.open] = self.least[self.open - 1] + 1
        self.alone = self.alone and self.alone + 1

    def back(self, groups):
        """An abandon opened one of these groups again."""
        self.alone, self.is_known = None, self.is_known and len(groups) == 1
        if self.is_known:
            (self.open,) = groups
            self.least, self.most = ({it: number for it, number in of.items() if it < self.open} for of in (self.least, self.most))
            self.least[self.open] = self.least[self.open - 1] + 1

    def tell(self, group, number):
        """Notes the number of a group, and tells whether it can be that."""
        if not self.is_known:
            return True
        if not self.least.get(group, number + 1) <= number <= self.most.get(group, number):
            return False
        self.least[group] = self.most[group] = number
        for it in range(group + 1, self.open + 1):
            self.least[it] = max(self.least[it], self.least[it - 1] + 1)
        for it in range(group - 1, 0, -1):
            self.most[it] = min(self.most.get(it, number), self.most[it + 1] - 1)
        return True

    def see(self, number, lines):
        """Notes the number of the open group. It tells whether the syncer can have synced since the last one: False, True, both, or neither where
        the number can't be."""
        may = {False, True} if self.alone is None else {number > self.alone}
        if number < (self.alone or 0) or number > self.open + lines + 1 or not self.tell(self.open, number):
            return set()
        self.most.pop(self.open, None)
        self.alone = number
        return may
