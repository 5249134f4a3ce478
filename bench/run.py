#!/usr/bin/env python3
"""Times programs on a folder of scripts, in turn.

    python3 bench/run.py FOLDER [NAME=]PROGRAM .. [--times N] [--only SCRIPT,SCRIPT]

For each FOLDER/NAME.script the words of FOLDER/NAME.args stand before it on the command line. Prints, of the fastest of N runs
(3 if left out) of each program, the seconds, the greatest resident memory, and the ratio of both to those of the first program. The
programs take turns, since a shared machine is faster in one minute than in the next.
"""

import argparse
import os
import time
from pathlib import Path


def run_once(program, words, script):
    """The seconds and the greatest resident memory, in MiB, of one run with its output thrown away."""
    begin = time.perf_counter()
    child = os.fork()
    if child == 0:
        nowhere = os.open(os.devnull, os.O_RDWR)
        os.dup2(nowhere, 0)
        os.dup2(nowhere, 1)
        os.execv(program, [program, *words, str(script)])
    _, status, usage = os.wait4(child, 0)
    seconds = time.perf_counter() - begin
    if os.waitstatus_to_exitcode(status) != 0:
        raise SystemExit(f"{script}: exit status {os.waitstatus_to_exitcode(status)}")
    return seconds, usage.ru_maxrss / 1024


def best_of(programs, words, script, times):
    """The least seconds and the greatest memory of each program."""
    best = {name: (float("inf"), 0.0) for name in programs}
    for turn in range(times):
        names = list(programs) if turn % 2 == 0 else list(reversed(programs))
        for name in names:
            seconds, memory = run_once(programs[name], words, script)
            best[name] = (min(best[name][0], seconds), max(best[name][1], memory))
    return best


def main():
    options = argparse.ArgumentParser(description=__doc__, formatter_class=argparse.RawDescriptionHelpFormatter)
    options.add_argument("folder", type=Path)
    options.add_argument("programs", nargs="+")
    options.add_argument("--times", type=int, default=3)
    options.add_argument("--only", default="")
    options = options.parse_args()
    programs = {}
    for program in options.programs:
        name, _, path = program.rpartition("=")
        programs[name or Path(path).name] = path
    first = next(iter(programs))
    wanted = set(filter(None, options.only.split(",")))
    print(f"{'script':28} {'program':14} {'seconds':>9} {'ratio':>6} {'MiB':>7} {'ratio':>6}")
    for script in sorted(options.folder.glob("*.script")):
        if wanted and script.stem not in wanted:
            continue
        words = script.with_suffix(".args").read_text().split()
        best = best_of(programs, words, script, options.times)
        for name, (seconds, memory) in best.items():
            print(
                f"{script.stem:28} {name:14} {seconds:9.3f} {seconds / best[first][0]:6.2f} {memory:7.0f} {memory / best[first][1]:6.2f}",
                flush=True,
            )


if __name__ == "__main__":
    main()
