#!/usr/bin/env python3
"""Times the built `workloads`: writes by a pool alone, by one caller of a session, by four callers in threads, and by
four in batches of sixteen; and reads through a view by four threads, alone and beside a writer.

    python3 bench/sessions.py WORKLOADS [--calls N] [--times T]

Prints, of the fastest of T runs (3 if left out) of N writes (1,000,000 if left out), the seconds and their ratio to the pool's; and of
the fastest of T runs of N reads the seconds, less those of a run without a read, and their ratio to those without a writer.
"""

import argparse
import subprocess
import time
from pathlib import Path


def main():
    options = argparse.ArgumentParser(description=__doc__, formatter_class=argparse.RawDescriptionHelpFormatter)
    options.add_argument("workloads", type=Path)
    options.add_argument("--calls", type=int, default=1_000_000)
    options.add_argument("--times", type=int, default=3)
    options = options.parse_args()
    program = options.workloads.resolve()
    writes = fastest(program, ["apply", "one", "four", "batches"], options.calls, options.times)
    tell(writes, writes["apply"])
    none = fastest(program, ["views"], 0, options.times)["views"]
    reads = fastest(program, ["views", "beside"], options.calls, options.times)
    reads = {who: seconds - none for who, seconds in reads.items()}
    tell(reads, reads["views"])


def fastest(program, names, calls, times):
    """The seconds of the fastest of so many runs, by who works."""
    best = {who: float("inf") for who in names}
    for _ in range(times):
        for who in names:
            begin = time.perf_counter()
            told = subprocess.run([program, who, str(calls)], check=True, capture_output=True, text=True).stdout
            best[who] = min(best[who], time.perf_counter() - begin)
            if told != f"{calls}\n":
                raise SystemExit(f"{who}: {told}")
    return best


def tell(best, unit):
    for who, seconds in best.items():
        print(f"{who:8} {seconds:9.3f} s {seconds / unit:6.2f}")


if __name__ == "__main__":
    main()
