#!/usr/bin/env python3
"""Times the built `workloads`, which does what no script asks for.

    python3 bench/work.py WORKLOADS

Prints, for each work, the time of one round: the fastest of three runs of many rounds, less the fastest of three of none.
"""

import argparse
import subprocess
import time
from pathlib import Path

# a round of each work, and how many make a run
ROUNDS = {
    "push": ("1,000,000 pushes over 1,000 cuts, sorted in as room is made", 1),
    "copy": ("a copy of a dead list of 1,000,000 entries in 1,001 segments", 1000),
    "take-at-cut": ("a copy, and the entries after a cut that is there", 1000),
    "take-between": ("a copy, and the entries after a group between two cuts", 1000),
    "batch": ("a batch of 4,096 leaves on an empty tree", 200),
    "walk": ("a walk of 1,118,481 blocks", 10),
}


def fastest(program, work, rounds):
    """The seconds of the fastest of three runs."""
    runs = []
    for _ in range(3):
        begin = time.perf_counter()
        subprocess.run([program, work, str(rounds)], check=True, stdout=subprocess.DEVNULL)
        runs.append(time.perf_counter() - begin)
    return min(runs)


def main():
    parser = argparse.ArgumentParser(description=__doc__, formatter_class=argparse.RawDescriptionHelpFormatter)
    parser.add_argument("workloads", type=Path)
    program = parser.parse_args().workloads.resolve()
    for work, (what, rounds) in ROUNDS.items():
        seconds = fastest(program, work, rounds) - fastest(program, work, 0)
        print(f"{work:14}{1000 * seconds / rounds:12.3f} ms  {what}")


if __name__ == "__main__":
    main()
