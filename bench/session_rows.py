#!/usr/bin/env python3
"""Tells of the rows of crates/session_rows what the plain machine and the rules of a session tell, and compares.

    python3 bench/session_rows.py
    python3 bench/session_rows.py --write
    python3 bench/session_rows.py [--gate] PROGRAM

The rows stand in crates/session_rows/stdin, and what they tell in crates/session_rows/stdout, which `rt ci` compares with what the program
prints. A reply is the one that bench/plain.py gives. A session takes so many calls as it has room for, and then none; a view shows what its
snapshot had when it was opened; a book is closed with all seats that have receipts of it, and with no others. Without a word the script compares
the file with what it tells itself, and with --write it writes it.

With a built program it asks more rows than a file has:

- two callers, and nine threads at once: callers, a caller of batches, readers of views, a syncer and a destroyer. Each reply is the one that
  the plain machine gives in the order of the history, each stands at the number that its caller was told, and each view shows its snapshot;
- each request for memory of a session with each kind of request is refused in turn, by calls and by batches, as bench/pool_rows.py does it to
  a pool. With --gate it is one request of thirty.

Anything else than there is printed, and the exit status is 1.
"""

import argparse
import os
import sys
from collections import deque
from functools import lru_cache, partial
from pathlib import Path

import plain
import pool_rows
import refused
from judge import Judge
from row_words import MASK

ROOT = Path(__file__).resolve().parent.parent
CRATE = ROOT / "crates" / "session_rows"
MOST_CALLS, MOST_SEATS = 1_000_000, 64
TURNS = 10


def error(name):
    return f"error {plain.REFUSALS.index(name) + 1} {name}"


def is_of_views(line):
    return line.split(" ")[0] in ("view", "unview")


class View:
    """What a view shows: the state that it was opened in, and its snapshot."""

    def __init__(self, state, name, number):
        self.state, self.name, self.number = state, name, number

    def reply(self, line):
        """The reply to a line on the snapshot, as the pool was."""
        return plain.lawful(self.state, line.encode())[0][0]

    def look(self, place):
        _times, place = place.split(" ", 1)
        return self.reply(f"read {self.name} {place}")

    def send(self, source):
        return self.reply(f"send -i {source} {self.name}" if source else f"send {self.name}")


class Book:
    """A book: its pool, its history, and how many seats were given."""

    def __init__(self, blocks, limit):
        self.judge, self.room, self.history, self.seats = Judge(plain, blocks, 1), limit, [], 0

    def asked(self, line):
        lawful = self.judge.lawful(line.encode())
        reply = next(iter(lawful))
        self.judge.follow(line.encode(), lawful, reply)
        return reply

    def seat(self):
        if self.seats == MOST_SEATS:
            return None
        self.seats += 1
        return Seat(self, self.seats)

    def entered(self, seat, line):
        """What is told of a line that runs, or that there is no room for it."""
        if not self.room:
            return error("SessionFull")
        self.room -= 1
        seat.calls += 1
        reply = self.asked(line)
        self.history.append((seat.number, line, reply))
        return f"{len(self.history) - 1} {reply}"


class Seat:
    """A seat with its views, and how many calls it has made."""

    def __init__(self, book, number):
        self.book, self.number, self.calls, self.views, self.is_there = book, number, 0, [], True


class Section:
    """A session, the books, and what they leave."""

    def __init__(self, blocks, limit):
        self.books = [Book(blocks, limit), Book(blocks, limit)]
        self.book, self.seats, self.lent, self.gone, self.left = self.books[1], [], [], 0, []

    # ---- rows on the session
    def do_seat(self, _rest):
        seat = self.book.seat()
        if not seat:
            return error("TooManySeats")
        self.seats.append(seat)
        return "ok"

    def do_call(self, seat, line):
        return error("NoView") if is_of_views(line) else self.book.entered(seat, line)

    def batch(self, seat, turns, lines):
        """What is told of the requests that run, and how many turns are left. A batch needs room for all of it."""
        lines = lines.split("; ") if lines else []
        if any(map(is_of_views, lines)):
            return error("NoView") + "; ", turns
        if len(lines) > self.book.room:
            return error("SessionFull") + "; ", turns
        ran = min(len(lines), turns + 1)
        left = 0 if ran < len(lines) else turns - max(ran - 1, 0)
        return "".join(f"{self.book.entered(seat, it)}; " for it in lines[:ran]), left

    def do_batch(self, seat, rest):
        turns, _, lines = rest.partition(" ")
        told, left = self.batch(seat, int(turns), lines)
        return f"{told}{min(TURNS, left)}"

    def do_stand(self, seat, rest):
        """The other thread raises the flag."""
        _raised, _awaited, turns, lines = rest.split(" ", 3)
        return self.batch(seat, int(turns), lines)[0] + "yes"

    def do_raise(self, _seat, _flag):
        return "ok"

    def do_wait(self, _seat, _flag):
        return "yes"

    def do_view(self, seat, name):
        before = self.book.judge.states[0]
        told = self.book.entered(seat, f"view {name}")
        number, _, reply = told.partition(" ")
        if number != "error" and not reply.startswith("error "):
            seat.views.append(View(before, name, reply))
        return told

    def do_look(self, seat, rest):
        view, place = rest.split(" ", 1)
        return seat.views[int(view)].look(place)

    def do_see(self, _seat, rest):
        view, place = rest.split(" ", 1)
        return self.lent[int(view)].look(place)

    def do_send(self, seat, rest):
        view, _, source = rest.partition(" ")
        return seat.views[int(view)].send(source)

    def taken(self, seat, rest):
        """A view, whose place the last one takes."""
        place, last = int(rest), seat.views[-1]
        view, seat.views[place] = seat.views[place], last
        seat.views.pop()
        return view

    def do_unview(self, seat, rest):
        view = self.taken(seat, rest)
        told = self.book.entered(seat, f"unview {view.number}")
        if not told.endswith(" ok"):
            seat.views.append(view)
        return told

    def do_forget(self, seat, rest):
        return self.taken(seat, rest).number

    def do_lend(self, seat, rest):
        self.lent.append(self.taken(seat, rest))
        return "ok"

    def do_unlend(self, seat, _rest):
        seat.views.append(self.lent.pop())
        return "ok"

    def work(self, seat, line, turns):
        """A worker ends early where there is no room."""
        ran = min(turns, self.book.room)
        for _ in range(ran):
            self.book.entered(seat, line)
        return f"{ran} {error('SessionFull')}" if ran < turns else str(ran)

    def do_sync(self, seat, turns):
        return self.work(seat, "sync", int(turns))

    def do_free(self, seat, rest):
        count, turns = rest.split(" ")
        return self.work(seat, f"slice {count}", int(turns))

    def do_drop(self, seat, _rest):
        self.gone, seat.is_there = self.gone + seat.calls, False
        return "ok"

    # ---- rows on books and what they leave
    def do_other(self, _rest):
        self.books.reverse()
        self.book = self.books[-1]
        return "ok"

    def do_enter(self, seat, line):
        """A book runs any request, and hands out the entry of one that opens a view."""
        told = self.book.entered(seat, line)
        return f"{told} viewed" if line.startswith("view ") and "error" not in told else told

    def do_room(self, _rest):
        return str(self.book.room)

    def leave(self):
        self.left.append(self.books.pop())
        self.book = self.books[-1] if self.books else None

    def do_close(self, rest):
        """The book is closed with each of its seats once, and no others."""
        given = [self.seats[int(it)] for it in rest.split(" ")]
        if sorted(it.number for it in given) != list(range(1, self.book.seats + 1)) or any(it.book is not self.book for it in given):
            return error("Busy")
        self.leave()
        return "closed"

    def do_give(self, _rest):
        self.leave()
        return "given"

    def do_apply(self, line):
        return self.left[-1].asked(line)

    def do_entry(self, rest):
        number, line = rest.split(" ", 1)
        _seat, asked, reply = self.left[-1].history[int(number)]
        return reply if asked == line else "other"

    def do_history(self, _rest):
        return "".join(f"{seat} {reply}; " for seat, _line, reply in self.left[-1].history)

    def do_replay(self, _rest):
        return "yes yes"

    def row(self, word, rest):
        """What a row tells. Most are of a seat."""
        do = getattr(self, f"do_{word}")
        if word in ("seat", "other", "room", "close", "give", "apply", "entry", "history", "replay"):
            return do(rest)
        seat, _, rest = rest.partition(" ")
        return do(self.seats[int(seat)], rest)


def told(rows):
    """What rows tell. Of rows that are carried out together, those of a seat come before those of the next: where they wait for one another, the
    one that waits has the greater number."""
    section, lines, together = None, [], None
    for row in rows:
        word, _, rest = row.partition(" ")
        if word == "open":
            blocks, limit = map(int, rest.split())
            section = Section(blocks, limit) if 1 <= limit <= MOST_CALLS else None
            lines.append("ok" if section else error("TooMany"))
        elif word == "together":
            together = []
        elif word == "then":
            lines += [section.row(*it) for it in sorted(together, key=lambda it: int(it[1].split(" ")[0]))]
            together = None
        elif together is not None:
            together.append((word, rest))
        elif word != "end":
            lines.append(section.row(word, rest))
    return lines


# ---- threads
class Threads:
    """The rows of seats that are carried out together on a fresh session, and what a program has told of them."""

    def __init__(self, blocks, before, plans, order):
        self.blocks, self.before, self.plans, self.order = blocks, before, plans, order

    def rows(self):
        begin = [f"open {self.blocks} 5000", *["seat"] * (len(self.plans) + 1), *(f"call 0 {it}" for it in self.before)]
        plans = [f"{word} {seat} {rest}".rstrip() for seat, plan in enumerate(self.plans, 1) for word, rest in plan]
        return [*begin, "together", *plans, "then", "end", f"close {' '.join(map(str, self.order))}", "history", "replay"]

    def fault(self, machine):
        """What is wrong with a run, or nothing."""
        rows = self.rows()
        status, came, said = machine.run([it.encode() for it in rows])
        came = [it.decode() for it in came]
        count = sum(map(len, self.plans))
        begun = len(self.plans) + 2 + len(self.before)
        if status or len(came) != begun + count + 3:
            return f"status {status} after {len(came)} lines: {said.decode(errors='replace')[:80]}"
        if came[-3] != "closed" or came[-1] != "yes yes":
            return f"the session ends with {came[-3]}, {came[-1]}"
        lines = iter(came[begun : begun + count])
        seats = [deque((word, rest, next(lines)) for word, rest in plan) for plan in self.plans]
        first = deque(("call", it, reply) for it, reply in zip(self.before, came[begun - len(self.before) : begun]))
        history = [it.split(" ", 1) for it in came[-2].split("; ")[:-1]]
        return Walk(self.blocks, [first, *seats]).fault(history)


class Walk:
    """A walk through a history, beside the plain machine and what each seat was told."""

    def __init__(self, blocks, seats):
        self.judge, self.seats, self.views = Judge(plain, blocks, 1), seats, [[] for _ in seats]
        self.pending = [deque() for _ in seats]

    def begin(self, seat):
        """The next line that a seat has asked, with what it was told, where that is a reply by itself; what it has seen before is looked at."""
        while not self.pending[seat] and self.seats[seat]:
            word, rest, told = self.seats[seat].popleft()
            if word == "call":
                self.pending[seat].append((rest, told))
            elif word == "batch":
                turns, _, lines = rest.partition(" ")
                parts = told.split("; ")
                lines = lines.split("; ")
                if len(parts) - 1 != min(len(lines), int(turns) + 1):
                    raise ValueError(f"{len(parts) - 1} of {len(lines)} requests ran at {turns} turns")
                self.pending[seat].extend(zip(lines, parts[:-1]))
            elif word in ("sync", "free"):
                count, line = (rest, "sync") if word == "sync" else (rest.split(" ")[1], f"slice {rest.split(' ')[0]}")
                if told != count:
                    raise ValueError(f"a worker has run {told}")
                self.pending[seat].extend([(line, None)] * int(count))
            elif word == "view":
                self.pending[seat].append((f"view {rest}", told))
            elif not self.views[seat]:
                if told != "none":
                    raise ValueError(f"{word} {rest} told {told[:60]}")
            elif word == "unview":
                self.pending[seat].append((f"unview {self.views[seat][0].number}", told))
            else:
                _, _, rest = rest.partition(" ")
                view = self.views[seat][0]
                wanted = view.look(rest) if word == "look" else view.send(rest)
                if told != wanted:
                    raise ValueError(f"{word} {rest} showed {told[:60]} and not {wanted[:60]}")
        return self.pending[seat]

    def step(self, number, seat, reply):
        line, told = self.begin(seat).popleft()
        if told is not None and told != f"{number} {reply}":
            raise ValueError(f"{line[:60]} was told {told[:60]}, and not {number} {reply[:60]}")
        before = self.judge.states[0]
        lawful = self.judge.lawful(line.encode())
        if reply not in lawful:
            raise ValueError(f"entry {number}, {line[:60]}: {reply[:60]}, wanted {next(iter(lawful))[:60]}")
        self.judge.follow(line.encode(), lawful, reply)
        if line.startswith("view ") and not reply.startswith("error "):
            self.views[seat].append(View(before, line[5:], reply))
        if line.startswith("unview "):
            self.views[seat].pop()

    def fault(self, history):
        try:
            for number, (seat, reply) in enumerate(history):
                self.step(number, int(seat) - 1, reply)
            if any(self.begin(it) for it in range(len(self.seats))):
                raise ValueError("a reply has no entry")
        except (ValueError, IndexError) as it:
            return str(it) or "an entry that nobody asked for"
        return ""


def randoms(seed):
    """Numbers that look random."""
    while True:
        seed = (seed * 6364136223846793005 + 1442695040888963407) & MASK
        yield seed >> 33


# What callers ask. The streams are one of an empty dataset, and one from it on.
LINES = f"""write p 0 0 61,write p 0 0 62,write p 0 1 63,write p 1 4095 64,read p 0 0,read p 0 0,read p 0 1,read p 1 4095,create p/a,create p/a/d,
write p/a 0 0 65,write p/a 0 1 66,write p/a 1 4095 67,write p/a/d 0 0 68,read p/a 0 0,read p/a/d 0 0,punch p/a 0 1,rmobj p/a 1,snapshot p@1,
snapshot p@2,snapshot p/a@1,snapshot -r p@3,snapshot p/b@1,destroy p@1,destroy -d p@2,destroy -r p@3,destroy -d p/a@1,destroy -r p/a,destroy p/b,
destroy -r p/c,clone p@1 p/b,clone p/a@1 p/b,clone p@3 p/c,clone p@2 p/c,write p/b 0 0 69,write p/b 0 1 6a,write p/c 0 0 6b,read p/b 0 0,
read p/c 0 0,promote p/b,promote p/c,promote p,rollback p/a@1,rollback -r p/a@1,rollback -r p/b@1,hold t p@2,release t p@2,bookmark p@1 p#b,
destroy p#b,get used p,get referenced p/b,get written p,list,holds p@2,wouldfree p 1 3,set quota=102400 p/a,set quota=none p/a,send p@1,
send -i p#b p@3,receive p/e@e {pool_rows.stream(0, pool_rows.FIRST, None).hex()},
receive p/e@f {pool_rows.stream(pool_rows.FIRST, pool_rows.SECOND, None).hex()},write p/e 0 0 6c,destroy -r p/e,abandon""".replace("\n", "").split(",")
FIRST = """write p 0 0 61,snapshot p@1,clone p@1 p/b,write p 0 1 63,snapshot p@2,create p/a,write p/a 0 0 65,snapshot -r p@3""".split(",")
VIEWED = "p@1,p@2,p@3,p/a@1,p/b@1,p/e@e".split(",")
PLACES = ((0, 0), (0, 1), (1, 4095), (2, 0))


def calls(seed, count):
    return [("call", LINES[number % len(LINES)]) for number, _ in zip(randoms(seed), range(count))]


def batches(seed, count, size):
    """Batches at gates that end some of them early."""
    for seed, _ in zip(randoms(seed), range(count)):
        lines = "; ".join(line for _, line in calls(seed, size))
        yield "batch", f"{seed % 24} {lines}"


def views(seed, count):
    """Views that are opened where the pool allows it, read again and again while others go on, sent and closed."""
    for number, _ in zip(randoms(seed), range(count)):
        yield "view", VIEWED[number % len(VIEWED)]
        yield from (("look", f"0 20 {object_} {block}") for object_, block in PLACES)
        yield from (("send", "0"), ("unview", "0"))


def all_at_once(seed, order):
    """Nine threads behind a first seat."""
    plans = [calls(seed + 100 * it, 600) for it in range(4)]
    plans += [list(batches(seed + 400, 30, 16)), *(list(views(seed + it, 60)) for it in (500, 600)), [("sync", "100")], [("free", "3 400")]]
    return Threads(2000, FIRST, plans, order)


def two_callers():
    """Each caller writes and reads 500 blocks of an object of its own."""
    lines = ([(word, f"{line} p {object_} {block}{byte}") for block in range(500) for word, line, byte in (("call", "write", f" {block % 256:02x}"), ("call", "read", ""))] for object_ in (0, 255))
    return Threads(4000, [], list(lines), [2, 1, 0])


THREADS = {
    "two callers": two_callers(),
    "nine threads, seats in reverse": all_at_once(7, range(9, -1, -1)),
    "nine threads, seats mixed": all_at_once(8, (4, 0, 7, 8, 9, 5, 6, 1, 2, 3)),
}


# ---- memory
class Asked(refused.Machine):
    """A program that is asked lines of a script, each of a seat of a session, by calls or by batches, its views and its workers."""

    def __init__(self, machine, way):
        super().__init__(machine.shim, machine.command)
        self.way = way

    def row(self, line):
        word, _, rest = line.partition(b" ")
        if word.startswith(b"#"):
            return line
        if word == b"view":
            return b"view 0 " + rest
        if word == b"unview":
            return b"unview 0 0"
        if word == b"sync":
            return b"sync 0 1"
        if word == b"slice":
            return b"free 0 %s 1" % rest
        return (b"call 0 %s" if self.way == "calls" else b"batch 0 9 list; %s") % line

    @staticmethod
    def reply(row, told):
        """The reply to the line in what a row tells. A batch tells what `list` and the line are told, of as many as have run: where memory is refused
        to `list` alone, the line has run."""
        if row.startswith((b"sync ", b"free ")):
            return refused.REFUSED if told.endswith(refused.REFUSED) else told
        if row.startswith(b"batch "):
            told = told.split(b"; ")
            if len(told) == 2 and not told[0].startswith(b"error "):
                return refused.REFUSED
            told = told[-2]
        return told if told.startswith(b"error ") else told.partition(b" ")[2]

    def rows(self, lines):
        return [b"open 300 1000000", b"seat", *map(self.row, lines), b"end", b"close 0", b"replay"]

    def run(self, lines, refused_at=0, asked=os.devnull):
        """The status, the replies with what the end of the session tells, and what was told of a fault. What stands last before a fault is left out,
        since it may be cut off."""
        rows = self.rows(lines)
        status, came, said = super().run(rows, refused_at, asked)
        if came[:2] != [b"ok", b"ok"]:
            return 3, [], b"no session"
        replies = [self.reply(*it) for it in zip(rows[2:-3], came[2:])] + came[len(rows) - 3 :]
        if status == 3 or replies[-1].endswith(refused.REFUSED):
            return 3, replies[:-1], said or b"no memory"
        return status, replies, said

    @lru_cache(maxsize=None)
    def reads(self, lines):
        """How many requests for memory a program makes while it reads all rows, before it carries out the first: as many as for comments."""
        return refused.Machine(self.shim, self.command).asks([b"#" + it[1:] for it in self.rows(lines)])


class LeftOut(refused.Script):
    """Lines of a session, and all that can be asked then. Memory is refused once all rows were read."""

    def numbers(self):
        first = self.machine.reads(tuple(self.asked))
        return range(first + 1, first + self.asks - self.machine.reads(tuple(self.lines)) + 1)


class AskedAgain(pool_rows.AskedAgain):
    """Lines of a session, which is replayed in the end. Memory is refused once all rows were read."""

    # The replies of a fresh pool, and then its blocks.
    ALIKE = b"yes yes"

    def numbers(self):
        return range(self.machine.reads(tuple(self.rows)) + 1, self.asks + 1)

    def requests_before(self, at):
        """As many as for a comment of the same length."""
        return self.machine.reads((*self.rows, self.rows[at])) - self.machine.reads(tuple(self.rows))


def try_rows(machine, _workers):
    """Has threads call a session; whether something is wrong, which is printed."""
    faults = {name: threads.fault(machine) for name, threads in THREADS.items()}
    print("".join(f"{name}: {it}\n" if it else f"{name}: as the plain machine tells it\n" for name, it in faults.items()), end="")
    return any(faults.values())


def try_memory(machine, workers, share):
    """Refuses memory to a session with each kind of request; whether something is wrong, which is printed."""
    is_wrong, lines = False, [it.encode() for it in pool_rows.each_kind()]
    for way in ("calls", "batches"):
        asked, name = Asked(machine, way), f"each kind of request, by {way}"
        is_wrong |= pool_rows.tried(name, LeftOut(asked, lines), workers, share)
        is_wrong |= pool_rows.tried(f"{name}, and again", AskedAgain(asked, lines), workers, share)
    return is_wrong


def main():
    arguments = argparse.ArgumentParser(usage=__doc__)
    arguments.add_argument("program", nargs="?", type=Path)
    arguments.add_argument("--write", action="store_true")
    arguments.add_argument("--gate", action="store_true")
    words = arguments.parse_args()
    if words.program:
        return pool_rows.try_all(words.program, try_rows, partial(try_memory, share=pool_rows.SHARE if words.gate else 1))
    rows = [it for it in (CRATE / "stdin").read_text().splitlines() if it and not it.startswith("#")]
    wanted = told(rows)
    if words.write:
        (CRATE / "stdout").write_text("".join(f"{it}\n" for it in wanted))
    stands = (CRATE / "stdout").read_text().splitlines()
    for number, (one, other) in enumerate(zip(stands, wanted), 1):
        if one != other:
            sys.exit(f"session_rows: stands {one}\nplain  {other}\nin line {number}")
    if len(stands) != len(wanted):
        sys.exit("session_rows: stdout has another number of lines")
    print(f"{len(rows)} rows of sessions stand as plain values tell them")
    return False


if __name__ == "__main__":
    raise SystemExit(main())
