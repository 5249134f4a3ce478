#!/usr/bin/env python3
"""A live pool, and a backup pool that is kept in step with it: two running zfsp, which exchange streams through their pipes.

    python3 examples/replicate.py ZFSP

An hour of work, a snapshot every ten minutes. After each the backup gets what is younger than the last bookmark. It prints what it does.
"""

import random
import subprocess
import sys


class Pool:
    """A running zfsp. Each line is answered before the next is written."""

    def __init__(self, program, blocks, pool_id):
        words = [program, str(blocks), str(pool_id)]
        self.process = subprocess.Popen(words, stdin=subprocess.PIPE, stdout=subprocess.PIPE, text=True, bufsize=1)

    def ask(self, line):
        self.process.stdin.write(line + "\n")
        return self.process.stdout.readline().rstrip("\n")

    def do(self, line):
        """A line that has to be done."""
        answer = self.ask(line)
        if answer != "ok":
            raise SystemExit(f"{line[:60]}: {answer}")

    def end(self):
        self.process.stdin.close()
        return self.process.wait(10)


def contents(pool, dataset, blocks):
    """The blocks of an object of a dataset."""
    return [pool.ask(f"read {dataset} 0 {block}") for block in range(blocks)]


def work(live, dice, minutes):
    """What is written in so many minutes: a block a minute, and now and then a hole."""
    for _ in range(minutes):
        block = dice.randrange(16)
        live.do(f"punch p/work 0 {block}" if dice.random() < 0.2 else f"write p/work 0 {block} {dice.randrange(256):02x}")


def main():
    program = sys.argv[1]
    live, backup, dice = Pool(program, 4000, 1), Pool(program, 4000, 2), random.Random(60)
    live.do("create p/work")
    work(live, dice, 10)
    live.do("snapshot p/work@at0")
    stream = live.ask("send p/work@at0")
    backup.do(f"receive p/work@at0 {stream}")
    live.do("bookmark p/work@at0 p/work#sent")
    print("at 0: the backup has a first snapshot, by a full stream")
    for minute in range(10, 70, 10):
        work(live, dice, 10)
        live.do(f"snapshot p/work@at{minute}")
        stream = live.ask(f"send -i p/work#sent p/work@at{minute}")
        if minute == 30:
            backup.do("write p/work 0 0 ff")
            answer = backup.ask(f"receive p/work@at{minute} {stream}")
            print(f"at {minute}: somebody has written to the backup, and the receive is refused: {answer}")
            backup.do(f"receive -F p/work@at{minute} {stream}")
            print(f"at {minute}: received with -F, and the stray write is gone")
        elif minute == 50:
            answer = backup.ask(f"receive p/work@at{minute} {stream[:-2]}")
            print(f"at {minute}: the connection was cut, and the receive is refused: {answer}")
            backup.do(f"receive p/work@at{minute} {stream}")
            print(f"at {minute}: sent again, and received")
        else:
            backup.do(f"receive p/work@at{minute} {stream}")
            print(f"at {minute}: received what is younger than the bookmark")
        # A bookmark is enough to go on from, so the live pool keeps no old snapshot.
        live.do("destroy p/work#sent")
        live.do(f"bookmark p/work@at{minute} p/work#sent")
        live.do(f"destroy p/work@at{minute - 10}")
        same = contents(live, f"p/work@at{minute}", 16) == contents(backup, f"p/work@at{minute}", 16)
        print(f"at {minute}: the two snapshots have {'the same blocks' if same else 'DIFFERENT BLOCKS'}")
    print("live:  ", live.ask("list"))
    print("backup:", backup.ask("list"))
    print("ended with", live.end(), "and", backup.end())


if __name__ == "__main__":
    main()
