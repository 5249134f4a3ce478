#!/usr/bin/env python3
"""Runs each example through a pipe, a line at a time, and compares what comes with the replies beside it.

    python3 bench/examples.py ZFSP

For each examples/NAME.script the program is started on a pipe, with the blocks and the id that the script's first line names, as
`zfsp 1000 1`. A line is written only once the one before has its answer, as at a terminal; an answer that doesn't come within ten seconds
is a fault. Each is run once more beside workers (-w), where each line is answered too. Then the examples in Python run, and a script of
10,000 lines that nothing refuses beside workers, in one piece. It prints a line for each that goes wrong, and at the end how many agree; the
exit status is 1 where one doesn't.
"""

import argparse
import re
import select
import subprocess
import sys
from pathlib import Path

EXAMPLES = Path(__file__).resolve().parent.parent / "examples"
PATIENCE = 10
REQUESTS = (
    "abandon bookmark clone create destroy get hold holds list pget promote punch read receive release rmobj rollback send set "
    "slice snapshot sync unview view wouldfree write"
).split()


class Silence(Exception):
    """No answer came in time."""


class Program:
    """A running zfsp, which is asked a line and answers it."""

    def __init__(self, program, *words):
        self.process = subprocess.Popen([program, *words], stdin=subprocess.PIPE, stdout=subprocess.PIPE, bufsize=0)
        self.come = b""

    def ask(self, line):
        """The answer to a line that has one."""
        self.process.stdin.write(line.encode() + b"\n")
        while b"\n" not in self.come:
            if not select.select([self.process.stdout], [], [], PATIENCE)[0]:
                raise Silence(line)
            more = self.process.stdout.read(65536)
            if not more:
                raise Silence(line)
            self.come += more
        answer, _, self.come = self.come.partition(b"\n")
        return answer.decode()

    def end(self):
        """Closes its input, and tells whether it then ends by itself and says no more."""
        self.process.stdin.close()
        rest = self.process.stdout.read()
        return self.process.wait(PATIENCE) == 0 and not rest and not self.come

    def stop(self):
        self.process.kill()
        self.process.wait()


def lines_of(script):
    """The lines that have an answer."""
    return [it for it in script.read_text().splitlines() if it and not it.startswith("#")]


def sizes_of(script):
    """BLOCKS and POOLID, which the first line names."""
    return re.search(r"`zfsp ([0-9]+) ([0-9]+)`", script.read_text().splitlines()[0]).groups()


def fault_of(program, script, wanted):
    """What is wrong with the answers to a script, where something is. Beside workers the answers are open, and wanted is None."""
    live = Program(program, *["-w"] * (wanted is None), *sizes_of(script))
    try:
        for place, line in enumerate(lines_of(script)):
            answer = live.ask(line)
            if wanted is not None and wanted[place : place + 1] != [answer]:
                return f"{line[:60]} is answered {answer[:60]}, and not {' '.join(wanted[place : place + 1])[:60]}"
        return None if live.end() and (wanted is None or len(wanted) == len(lines_of(script))) else "it doesn't end as it should"
    except (Silence, BrokenPipeError) as silence:
        return f"no answer to {silence}"
    finally:
        live.stop()


def fault_of_many(program):
    """What is wrong with a run of 10,000 lines beside workers, none of which is refused, where something is."""
    turn = "write p {0} {1} {2:02x}|snapshot p@{3}|read p@{3} {0} {1}|clone p@{3} p/c|destroy p/c|destroy p@{3}|get used p|pget free"
    lines = [it for n in range(1250) for it in turn.format(n % 4, n % 64, n % 256, n).split("|")]
    ran = subprocess.run([program, "-e", "-w", "20000", "1"], input="\n".join(lines), capture_output=True, text=True, timeout=60)
    replies = ran.stdout.splitlines()
    if (ran.returncode, len(replies), ran.stderr) == (0, len(lines), "") and not any(it.startswith("error") for it in replies):
        return None
    return f"{len(replies)} of {len(lines)} lines are answered, with status {ran.returncode}{': ' * bool(replies)}{''.join(replies[-1:])[:60]}"


def main():
    options = argparse.ArgumentParser(description=__doc__, formatter_class=argparse.RawDescriptionHelpFormatter)
    options.add_argument("program", type=Path)
    program = options.parse_args().program.resolve()
    faults, count, asked = [], 0, set()
    for script in sorted(EXAMPLES.glob("*.script")):
        replies = script.with_suffix(".replies")
        asked |= {it.split()[0] for it in lines_of(script)}
        for wanted in (replies.read_text().splitlines() if replies.is_file() else [], None):
            count += 1
            fault = fault_of(program, script, wanted)
            faults += [f"{script.stem}{' beside workers' * (wanted is None)}: {fault}"] * bool(fault)
    for story in sorted(EXAMPLES.glob("*.py")):
        count += 1
        ran = subprocess.run([sys.executable, story, program], capture_output=True, text=True, timeout=60)
        wanted = story.with_suffix(".replies").read_text()
        faults += [f"{story.stem}: {ran.stderr[-200:] or 'it tells another story'}"] * (ran.returncode != 0 or ran.stdout != wanted)
    count, fault = count + 1, fault_of_many(program)
    faults += [f"many lines beside workers: {fault}"] * bool(fault)
    unasked = [it for it in REQUESTS if it not in asked]
    faults += [f"no example asks {' '.join(unasked)}"] * bool(unasked)
    print("".join(f"{it}\n" for it in faults) + f"{count - len([it for it in faults if not it.startswith('no example')])} of {count} agree")
    return 1 if faults else 0


if __name__ == "__main__":
    sys.exit(main())
