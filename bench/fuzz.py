#!/usr/bin/env python3
"""Asks zfsp random scripts, and judges each reply by the plain machine.

    python3 bench/fuzz.py ZFSP [--seconds 60] [--lines N] [--seed N] [--jobs N] [--beside PART]
    python3 bench/fuzz.py --faults [ZFSP] [--seconds 60] [--seed N] [--beside PART]

A script is made line by line over all requests, from what the pool has: names that share prefixes and names of 255 bytes, clones of clones,
promotes to and fro, deferred destroys, damaged and forged streams, limits beside what is used, pools that fill up, lines at the edge of their
shape (bench/lines.py). Its lines go to zfsp through a pipe. Each reply must be one that the machine of bench/plain.py gives; bench/judge.py says
what that means where a slice may choose, and beside workers. Each script ends with questions about much of what the pool has. A PART of the
scripts, a tenth if left out, runs beside workers (-w). A tenth of the others is asked again from a file.

It ends after so many seconds or random lines. It prints its seed, and how many scripts and lines it has asked. A script with a wrong reply is
made shorter as long as a reply stays wrong, and printed; the status is then 1. What the fuzzer ever finds becomes a row.

With --faults each edit of bench/faults.txt is made in a copy of the machine, and scripts are asked until a reply is wrong: of zfsp, or, if none is
named, of the machine itself. It prints after how many lines each fault is found. The status is 1 if one isn't found in so many seconds.
"""

import argparse
import itertools
import random
import select
import subprocess
import sys
import tempfile
import time
import types
from concurrent.futures import ProcessPoolExecutor
from dataclasses import dataclass
from pathlib import Path

import plain
from judge import Judge, JudgeBeside
from lines import Maker

PATIENCE, ROOM, MANY_STATES = 60, 30000, 24
FAULTS, MACHINE = Path(__file__).resolve().parent / "faults.txt", Path(plain.__file__)


class Wrong(Exception):
    """What is wrong with a reply, or with the end of a run."""


class Program:
    """A running zfsp. Its replies may be read some lines later."""

    def __init__(self, program, beside, size, pool):
        words = [program, *(["-w"] if beside else []), str(size), str(pool)]
        self.process = subprocess.Popen(words, stdin=subprocess.PIPE, stdout=subprocess.PIPE, bufsize=0)
        self.come = b""

    def write(self, line):
        left = line + b"\n"
        try:
            while left:
                left = left[self.process.stdin.write(left) :]
        except BrokenPipeError as fault:
            raise Wrong("it has ended") from fault

    def read(self):
        while b"\n" not in self.come:
            if not select.select([self.process.stdout], [], [], PATIENCE)[0]:
                raise Wrong(f"no answer in {PATIENCE} seconds")
            more = self.process.stdout.read(65536)
            if not more:
                raise Wrong("no answer: it has ended")
            self.come += more
        answer, _, self.come = self.come.partition(b"\n")
        return answer.decode()

    def end(self):
        """Closes its input. It must end by itself then, with status 0, and print no more."""
        self.process.stdin.close()
        if self.process.stdout.read() or self.come or self.process.wait(PATIENCE) != 0:
            raise Wrong("it doesn't end as it should")

    def stop(self):
        self.process.kill()
        self.process.wait()
        self.process.stdin.close()
        self.process.stdout.close()


class Printed:
    """What zfsp prints for a script in a file."""

    def __init__(self, program, size, pool, lines):
        with tempfile.NamedTemporaryFile(suffix=".script") as script:
            script.write(b"\n".join(lines))
            script.flush()
            run = subprocess.run([program, str(size), str(pool), script.name], capture_output=True, timeout=PATIENCE, check=False)
        self.status, self.left = run.returncode, run.stdout.decode().splitlines()

    def write(self, line):
        pass

    def read(self):
        if not self.left:
            raise Wrong("no answer in a file")
        return self.left.pop(0)

    def end(self):
        if self.left or self.status != 0:
            raise Wrong("its run of a file doesn't end as it should")

    def stop(self):
        pass


class Answerer:
    """The machine itself in the place of zfsp. Its choices, and the turns of its workers, are random."""

    def __init__(self, beside, size, pool):
        self.state, self.answers, self.random, self.beside = plain.fresh(size, pool), [], random.Random(size), beside
        self.turns = {b"sync": 0, b"slice 64": 0}

    def step(self, line):
        reply, self.state = self.random.choice(plain.lawful(self.state, line))
        return reply

    def write(self, line):
        for worker in self.turns if self.beside else ():
            self.turns[worker] += 1
            while self.turns[worker] and self.random.random() < 0.4:
                self.turns[worker] -= 1
                self.step(worker)
        reply = self.step(line)
        self.answers += [reply] if reply is not None else []

    def read(self):
        return self.answers.pop(0)

    def end(self):
        pass

    stop = end


class Run:
    """A script that is being asked. A reply that the machine needn't know to go on is read some lines later."""

    def __init__(self, judge, answerer):
        self.judge, self.answerer, self.asked, self.awaited = judge, answerer, 0, []

    def ask(self, line):
        lawful = self.judge.lawful(line)
        if len(line) > 4096:
            self.settle()
        self.answerer.write(line)
        self.asked += 1
        if self.judge.awaits(line, lawful):
            self.settle()
            answer = self.answerer.read()
        else:
            (answer,) = lawful
            self.awaited += [(line, answer)] if answer is not None else []
        if not self.judge.follow(line, lawful, answer):
            self.wrong(line, answer, lawful)
        if sum(len(it) for _, it in self.awaited) > ROOM or len(self.awaited) > 200:
            self.settle()

    def settle(self):
        """Reads all replies that are awaited."""
        for line, reply in self.awaited:
            answer = self.answerer.read()
            if answer != reply:
                self.wrong(line, answer, [reply])
        self.awaited = []

    def wrong(self, line, answer, lawful):
        shown = " or ".join(str(it)[:80] for it in itertools.islice(lawful, 5))
        raise Wrong(f"{line[:80].decode('latin-1')} is answered {answer[:80]}, and lawful is {shown}")


class Script:
    """A random script: its pool, and its lines, which are made as they are asked."""

    def __init__(self, seed, program=None, part=0.0, machine=plain):
        self.random, self.machine, self.program, self.seed = random.Random(seed), machine, program, seed
        self.beside = self.random.random() < part
        sizes = [6, 12, 12, 40, 40, 100, 100, 200] if self.beside else [1, 5, 6, 11, 12, 20, 40, 40, 100, 100, 200, 200, 400, 400, 1000, 3000]
        self.size, self.pool = self.random.choice(sizes), self.random.choice([1, 1, 7, 4294967295])
        self.lines, self.count, self.asked = [], 0, 0

    def wrong(self, lines=None):
        """What is wrong with the replies to these lines, or else to random ones; empty for nothing."""
        pool = self.beside, self.size, self.pool
        wrong = self.wrong_of(Program(self.program, *pool) if self.program else Answerer(*pool), lines)
        if wrong or not self.program or self.beside or self.seed % 10:
            return wrong
        lines = self.lines if lines is None else lines
        return self.wrong_of(Printed(self.program, self.size, self.pool, lines), lines)

    def wrong_of(self, answerer, lines):
        judge = (JudgeBeside if self.beside else Judge)(self.machine, self.size, self.pool)
        run = Run(judge, answerer)
        try:
            for line in self.made(judge) if lines is None else lines:
                run.ask(line)
            run.settle()
            answerer.end()
        except Wrong as wrong:
            return str(wrong)
        finally:
            answerer.stop()
            self.asked += run.asked
        return ""

    def made(self, judge):
        """Random lines, with questions after them, and among them where the machine can be in many states."""
        maker, most = Maker(self.random, self.size, self.machine), self.random.choice([20, 60, 100, 100, 200, 300])
        for self.count in range(1, most + 1):
            yield self.noted(maker.line(judge.states[0]))
            if len(judge.states) > MANY_STATES:
                yield from map(self.noted, self.telling(judge, maker))
        yield from map(self.noted, maker.questions(judge.states[0]))

    def telling(self, judge, maker):
        """Questions whose replies tell some of the machine's states from others."""
        questions = maker.questions(self.random.choice(judge.states))
        for line in [b"pget group", b"pget waiting", b"pget freeing", *self.random.sample(questions, min(30, len(questions)))]:
            if len(judge.lawful(line)) > 1 or line == b"pget group":
                yield line

    def noted(self, line):
        self.lines.append(line)
        return line

    def shorter(self, lines):
        """Fewer of these lines, with which something is still wrong."""
        step = len(lines)
        while step := step // 2:
            at = 0
            while at < len(lines):
                fewer = lines[:at] + lines[at + step :]
                if self.wrong(fewer):
                    lines = fewer
                else:
                    at += step
        return lines


@dataclass
class Tally:
    """How many scripts, random lines of pools alone and beside workers, and lines in all were asked. `failed` is the seed of a wrong script, what is
    wrong, and its lines."""

    scripts: int = 0
    alone: int = 0
    beside: int = 0
    every: int = 0
    failed: tuple = ()

    def __add__(self, other):
        sums = (getattr(self, it) + getattr(other, it) for it in ("scripts", "alone", "beside", "every"))
        return Tally(*sums, self.failed or other.failed)

    def __str__(self):
        return f"{self.scripts} scripts of {self.alone} random lines alone and {self.beside} beside workers, {self.every} lines with the questions"


def try_some(seeds, until, most, *of):
    """The tally of the scripts of these seeds, until a time, so many random lines, or a wrong reply."""
    tally = Tally()
    for seed in seeds:
        if time.monotonic() > until or tally.alone + tally.beside >= most:
            break
        script = Script(seed, *of)
        wrong = script.wrong()
        lines = (0, script.count) if script.beside else (script.count, 0)
        tally += Tally(1, *lines, script.asked, (seed, wrong, script.lines) if wrong else ())
        if wrong:
            break
    return tally


def planted(old, new):
    """A copy of the machine with this edit."""
    text = MACHINE.read_text()
    if text.count(old) != 1:
        raise SystemExit(f"{FAULTS.name}: {text.count(old)} places have {old}")
    machine = types.ModuleType("planted")
    sys.modules["planted"] = machine
    exec(compile(text.replace(old, new), "planted", "exec"), machine.__dict__)
    return machine


def find_faults(options):
    """Prints how fast each fault is found, and tells whether all are."""
    found, faults = 0, [dict(line.split(": ", 1) for line in it.splitlines()) for it in FAULTS.read_text().strip().split("\n\n")[1:]]
    for fault in faults:
        begin = time.monotonic()
        machine = planted(fault["old"], fault["new"])
        tally = try_some(itertools.count(options.seed), begin + options.seconds, options.lines, options.zfsp, options.beside, machine)
        found += bool(tally.failed)
        told = f"after {tally.every} lines in {time.monotonic() - begin:.1f} s: {tally.failed[1]}" if tally.failed else f"NOT FOUND in {tally}"
        print(f"{fault['fault']}: {told}"[:240], flush=True)
    print(f"{found} of {len(faults)} faults are found")
    return found == len(faults)


def main():
    options = argparse.ArgumentParser(description=__doc__, formatter_class=argparse.RawDescriptionHelpFormatter)
    options.add_argument("zfsp", nargs="?", type=lambda word: str(Path(word).resolve()))
    options.add_argument("--faults", action="store_true")
    options.add_argument("--seconds", type=float, default=60)
    options.add_argument("--lines", type=int, default=10**12)
    options.add_argument("--seed", type=int, default=time.time_ns() % 1_000_000)
    options.add_argument("--jobs", type=int, default=1)
    options.add_argument("--beside", type=float, default=0.1)
    options = options.parse_args()
    print(f"seed {options.seed}", flush=True)
    if options.faults:
        sys.exit(not find_faults(options))
    begin, jobs = time.monotonic(), options.jobs
    with ProcessPoolExecutor(jobs) as pool:
        seeds = [range(options.seed + job, 10**15, jobs) for job in range(jobs)]
        asked = [pool.submit(try_some, it, begin + options.seconds, options.lines // jobs, options.zfsp, options.beside) for it in seeds]
        tally = sum((it.result() for it in asked), Tally())
    if tally.failed:
        seed, wrong, lines = tally.failed
        script = Script(seed, options.zfsp, options.beside)
        script.lines = script.shorter(lines)
        print(f"seed {seed}, zfsp{' -w' * script.beside} {script.size} {script.pool}: {script.wrong(script.lines) or wrong}")
        print(*(it.decode("latin-1") for it in script.lines), sep="\n")
    print(f"{tally}: {f'wrong, by the seed {tally.failed[0]}' if tally.failed else 'nothing wrong'}, in {time.monotonic() - begin:.0f} s")
    sys.exit(bool(tally.failed))


if __name__ == "__main__":
    main()
