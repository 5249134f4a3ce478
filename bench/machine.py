#!/usr/bin/env python3
"""Asks for the disk and the memory that the gate takes here, and says what is short.

    python3 bench/machine.py
    python3 bench/machine.py --jobs

What `rt ci` has kept of these texts isn't proved again, so what is wanted goes by the proofs that are still to be done. Of memory that is what
`rt` itself plans for the largest of them, and it plans with 85 of 100 parts of what is free. Of disk it is 5,000 MB, below which `rt ci` keeps
nothing of what it proves, and 150 MB for each proof: a library took 72 MB at most, a test's program 20, and the work that the wrong bodies of
must-fail/ are tried over some 200 in one crate of three. The disk is asked for where `rt` writes: here, among the temporary files, and beside the
toolchain. The status is 1 where something is short.

With --jobs it prints how many crates `rt ci` is to prove at once, each by one process: one a processor, where 4,000 MB of memory are free for each.
A crate that several processes prove costs more: `shared_list` took 8.3 minutes of the processors by several, and 5.1 by one. Where there is less
memory it prints nothing, and `rt` plans for itself.
"""

import os
import sys
import tempfile

from libraries import ROOT, Libraries, rt_itself

MB = 1_000_000
PLANNED = 0.85
LEFT, OF_EACH_PROOF = 5_000, 150
# The hosts' library is built whatever is kept.
ALWAYS = "yuzgont_c"
OF_EACH_JOB = 4_000


def open_proofs(libraries):
    """The crates whose proofs, and whose tests' proofs, `rt ci` has not kept."""
    crates = [it for it in libraries.crates if not libraries.entry(it)]
    tests = [it for it in libraries.crates if it.has_tests() and (it in crates or not libraries.entry(it, tests=True))]
    return crates, tests


def jobs(rt):
    """How many crates `rt ci` is to prove at once, or nothing where that is for `rt` to plan."""
    count = rt.processors()
    return str(count) if count * OF_EACH_JOB <= rt.free() // MB else ""


def main():
    if sys.argv[1:] == ["--jobs"]:
        print(jobs(rt_itself()))
        return 0
    libraries = Libraries()
    rt = libraries.rt
    crates, tests = open_proofs(libraries)
    proofs = len(crates) + len(tests)
    beside = os.path.dirname(rt.STORE)
    disk = rt.left_on_disk(str(ROOT), tempfile.gettempdir(), beside)
    memory = rt.free() // MB
    wanted_disk = LEFT + OF_EACH_PROOF * proofs
    wanted_memory = int(max(rt.need(it) for it in {*crates, *tests, libraries.crate(ALWAYS)}) / PLANNED / MB)
    print(
        f"{proofs} proofs are to be done, and the others are kept; they want {wanted_disk:,} MB of disk, of which {disk:,} are left, "
        f"and {wanted_memory:,} MB of memory, of which {memory:,} are free"
    )
    short = [f"{wanted - found:,} MB of {what}" for what, wanted, found in (("disk", wanted_disk, disk), ("memory", wanted_memory, memory)) if found < wanted]
    if short:
        print(f"machine: short of {' and of '.join(short)}: {rt.FULL}, and let nothing else run here")
    return 1 if short else 0


if __name__ == "__main__":
    sys.exit(main())
