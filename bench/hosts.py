#!/usr/bin/env python3
"""Times writes of 512 bytes by the hosts in C and Rust, and the same writes by `Pool::apply` in Rattle.

    python3 bench/hosts.py [--calls N] [--times T]

Each program makes a pool, writes N blocks (1,000,000 if left out) and ends. They run in turn, T times each (7 if left out). Prints, of the
fastest run of each, the seconds and the processor's seconds, and the ratio of these to those in Rattle. `rt ci` and `hosts/run.sh` leave the
programs.
"""

import argparse
import resource
import subprocess
import time
from pathlib import Path

ROOT = Path(__file__).resolve().parent.parent
PROGRAMS = {
    "Rattle": ROOT / "crates/workloads/out/workloads",
    "C": ROOT / "hosts/out/host",
    "Rust": ROOT / "hosts/out/rust/release/yuz-host",
}


def used():
    """The processor's seconds of all runs so far."""
    children = resource.getrusage(resource.RUSAGE_CHILDREN)
    return children.ru_utime + children.ru_stime


def run(program, calls):
    """The seconds of one run, and those of the processor."""
    before, begin = used(), time.perf_counter()
    told = subprocess.run([program, "apply", str(calls)], check=True, capture_output=True, text=True).stdout
    seconds = time.perf_counter() - begin
    if told != f"{calls}\n":
        raise SystemExit(f"{program}: {told}")
    return seconds, used() - before


def main():
    options = argparse.ArgumentParser(description=__doc__, formatter_class=argparse.RawDescriptionHelpFormatter)
    options.add_argument("--calls", type=int, default=1_000_000)
    options.add_argument("--times", type=int, default=7)
    options = options.parse_args()
    runs = {name: [] for name in PROGRAMS}
    for _ in range(options.times):
        for name, program in PROGRAMS.items():
            runs[name].append(run(program, options.calls))
    best = {name: [min(it) for it in zip(*each)] for name, each in runs.items()}
    for name, (seconds, processor) in best.items():
        print(f"{name:8} {seconds:8.3f} s {processor:8.3f} s of the processor {processor / best['Rattle'][1]:6.3f}")


if __name__ == "__main__":
    main()
