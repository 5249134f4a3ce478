"""What the scripts share that tell of rows: their words, refusals, and sums."""

from plain import REFUSALS, Refused, target_of

MASK = (1 << 64) - 1
PAST = 1 << 32
LETTERS = set("abcdefghijklmnopqrstuvwxyzABCDEFGHIJKLMNOPQRSTUVWXYZ0123456789-_.:")


def mixed(total, number):
    """The sum of a sequence whose last number this is."""
    total = (total * 6364136223846793005 + number) & MASK
    return (total << 23 | total >> 41) & MASK


def error(name):
    return f"error {REFUSALS.index(name) + 1} {name}"


def answered(state, ask, *operands):
    """What the plain machine tells of a request that no line asks, `ok` or the name of a refusal, and the state after it."""
    try:
        reply, new = ask(*operands)
    except Refused as refused:
        return refused.args[0], state
    return reply, new.swept()


def received(state, mode, name, stream, origin=None):
    """The same of a receive in a mode."""
    return answered(state, state.receive, mode, target_of(name), stream, origin and target_of(origin))


def destroyed(state, recursive, defer, names):
    """The same of a destroy of several snapshots."""
    targets = [target_of(it, ("@",)) for it in names]
    return ("BadName", state) if None in targets else answered(state, state.destroy_snapshots, recursive, defer, *targets)


def renamed(state, name, to):
    """The same of a rename of a file system."""
    targets = [target_of(it, ("",)) for it in (name, to)]
    return ("BadName", state) if None in targets else answered(state, state.rename, *targets)


def snapshot_renamed(state, name, to, recursive):
    """The same of a rename of a snapshot."""
    target = target_of(name, ("@",))
    return answered(state, state.rename_snapshot, recursive, target, to) if target and is_component(to) else ("BadName", state)


def yes(is_so):
    return "yes" if is_so else "no"


class Words:
    """The words of a row, where `{}` is a number."""

    def __init__(self, text, number):
        self.rest, self.stands = text, number

    def word(self):
        word, _, self.rest = self.rest.partition(" ")
        return word

    def chosen(self, inner):
        if not inner:
            return self.stands
        return self.stands % int(inner[1:]) if inner.startswith("%") else (self.stands >> 8) % int(inner)

    def long(self):
        word = self.word()
        return self.chosen(word[1:-1]) if word.startswith("{") else int(word)

    def number(self):
        return self.long() & 0xFFFFFFFF

    def text(self):
        """A word with a number in the place of its braces."""
        head, braces, rest = self.word().partition("{")
        inner, _, tail = rest.partition("}")
        return f"{head}{self.chosen(inner)}{tail}" if braces else head


def is_component(text):
    return bool(text) and set(text) <= LETTERS and text not in (".", "..")


def is_system(text):
    return len(text) <= 255 and all(is_component(it) for it in text.split("/"))
