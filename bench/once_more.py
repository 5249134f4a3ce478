#!/usr/bin/env python3
"""Runs `rt ci`, and once more where nothing failed but the machine.

    python3 bench/once_more.py rt ci

A fault of the machine or of the toolchain is that the disk was full, that a check was killed or ended with no word on the crate, that a file which
another check had written was not there or not whole, or that `rt` itself was killed. `rt ci` keeps what it has proved, so a second run does the rest.
A proof that is refused, a test that fails, a program that writes something else, and a wrong body that is not refused are no such fault: where there
is one, nothing is run again. The last line says how often the command ran, and why. The status is that of the last run.
"""

import re
import signal
import subprocess
import sys

# What the system and the toolchain say where it isn't the crate that is wrong.
OF_MACHINE = re.compile(
    r"No space left on device|Cannot allocate memory|Input/output error|Too many open files|Resource temporarily unavailable|os error (?:5|12|24|28)\b"
    r"|was killed, most likely for memory|has no checked file in this check|kept work of \S+ can(?:not|'t) be used|the disk is full|ran out of memory(?! that)"
)
# What says that a crate was looked at, and refused.
OF_CRATE = re.compile(r"logic=not-proved|(?:fn|struct|enum|impl|trait) \S+: (?:not proved|no proof)|.*\berror(?:\[[\w-]+\])?: ")
# What `rt` says of a crate whose text it doesn't take, and what it says beside that.
REFUSAL, ASIDE = re.compile(r"rt: "), re.compile(r"rt: (?:chose |note|warning|compiling |the check was killed)")


def run(command):
    """The status of a run, and its lines, which are printed as they come."""
    lines = []
    with subprocess.Popen(command, stdin=subprocess.DEVNULL, stdout=subprocess.PIPE, stderr=subprocess.STDOUT, text=True, errors="replace") as ran:
        for line in ran.stdout:
            print(line, end="", flush=True)
            lines.append(line.rstrip("\n"))
    return ran.returncode, lines


def sections(lines):
    """What was said of each proof that was begun, by its crate: those of its code and of its tests."""
    said, now = {}, None
    for line in lines:
        begun = re.fullmatch(r"== (\w+)(?:: its tests)?", line)
        ended = re.match(r"rt: (\w+)(?:: its tests are)? (NOT PROVED|proved)$", line)
        if begun:
            now = said.setdefault(begun[1], [])
            now.append([])
        elif ended:
            if now and ended[2] == "proved":
                now.pop()
            now = None
        elif now:
            now[-1].append(line)
    return said


def fault_of_proof(lines):
    """Why the machine is to blame for a proof that failed, or None where the crate is."""
    if any(it.startswith("logic=not-proved") for it in lines):
        return None
    machine = next((it for it in lines if OF_MACHINE.search(it)), None)
    if machine:
        return machine.strip()[:160]
    is_refused = any(OF_CRATE.match(it) or REFUSAL.match(it) and not ASIDE.match(it) for it in lines)
    return None if is_refused else "its check ended with no verdict"


def fault_of(name, lines, said):
    """Why the machine is to blame for something that `rt ci` names as failed, or None where it isn't."""
    if "/" in name:
        told = next((it for it in lines if f"must-fail {name}: NOT TRIED" in it), None)
        return told and told.partition("NOT TRIED: ")[2][:160]
    below = next((it for it in (re.match(rf"rt: {name} NOT PROVED: its library (\w+) failed", line) for line in lines) if it), None)
    if below:
        return fault_of(below[1], lines, said)
    reasons = [fault_of_proof(it) for it in said.get(name, [])]
    return reasons[0] if reasons and all(reasons) else None


def fault_of_run(status, lines):
    """Why the machine is to blame for all that failed in a run, or None where it isn't."""
    if status == -signal.SIGKILL:
        return "rt was killed, most likely for memory"
    failed = next((it.partition(": FAILED: ")[2] for it in lines if it.startswith("rt: FAILED: ")), "")
    if not failed:
        told = next((it for it in lines if it.startswith("rt: the disk is full")), None)
        is_broken = any(it.startswith("Traceback ") for it in lines)
        return told or ("rt itself failed" if is_broken else None)
    if " (run)" in failed or " (tests)" in failed:
        return None
    said = sections(lines)
    reasons = {it: fault_of(it, lines, said) for it in failed.split()}
    return "; ".join(f"{it}: {why}" for it, why in reasons.items()) if all(reasons.values()) else None


def main():
    command = sys.argv[1:] or sys.exit(__doc__)
    status, lines = run(command)
    why = fault_of_run(status, lines) if status else None
    if why:
        print(f"== {' '.join(command)} once more: nothing failed but the machine or the toolchain", flush=True)
        status, lines = run(command)
        print(f"{' '.join(command)} was run twice, since in its first run the machine or the toolchain failed: {why[:400]}")
    last = next((it for it in reversed(lines) if re.match(r"\d+ passed, ", it)), "it did not come to its end")
    print(f"{' '.join(command)}: {last}{', in the second of two runs' if why else ''}")
    return status if status >= 0 else 128 - status


if __name__ == "__main__":
    sys.exit(main())
