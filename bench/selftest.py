#!/usr/bin/env python3
"""Breaks what the gate looks at, each in a copy, and sees that the gate's own check fails there, and says why.

    python3 bench/selftest.py [NAME ..]

It proves nothing, and takes a minute or two. What needs the built zfsp or the hosts' library is left out where there is none, and the last line
says so; in the gate both are there. The status is 1 where a check passes, or fails and doesn't name what was broken.
"""

import os
import re
import shutil
import subprocess
import sys
import tempfile
from concurrent.futures import ThreadPoolExecutor
from pathlib import Path

ROOT = Path(__file__).resolve().parent.parent
ZFSP, LIBRARY = "crates/zfsp/out/zfsp", "crates/yuzgont_c/out/libyuzgont_c.a"
# The shared library, which the hosts' part of the gate leaves.
SHARED = "hosts/out/libyuzgont.so"
# The programs of rows that a script of the same name asks.
ROWS = {it: f"crates/{it}/out/{it}" for it in ("pool_rows", "session_rows")}
BUILT = (ZFSP, LIBRARY, "crates/yuzgont_c/out/libyuzgont_c.a.stamp", *ROWS.values())
# A crate whose wrong bodies are broken.
CRATE = "node"
# And one whose wrong bodies strike methods, below free functions of the same files.
METHODS = "batch"
# A script of rows whose program gives another last reply once memory was refused to it, of one request in a hundred.
FORGETS = """import sys
sys.path.insert(0, "bench")
import {script} as rows
import pool_rows
import refused
from functools import partial
from pathlib import Path

told = refused.Machine.run


def run(machine, lines, refused_at=0, asked="/dev/null"):
    status, came, said = told(machine, lines, refused_at, asked)
    is_refused = refused_at and refused.REFUSED in b" ".join(came)
    return status, [*came[:-1], b"other"] if is_refused else came, said


refused.Machine.run = run
sys.exit(pool_rows.try_all(Path("{program}"), lambda *_: False, partial(rows.try_memory, share=100)))
"""
# A command in the place of `rt ci`, which counts its runs in a file: the first says something, and later ones that all passed.
STUB = "echo run >>runs; [ $(wc -l <runs) = 1 ] && { %s; exit 1; }; echo '3 passed, 0 failed'"


class Copy:
    """A copy of the tree, with what was built, in which something is broken."""

    def __init__(self, room):
        self.root = Path(room)
        names = subprocess.run(["git", "ls-files", "-co", "--exclude-standard", "-z"], cwd=ROOT, capture_output=True, text=True, check=True).stdout
        for name in [*names.split("\0"), *BUILT]:
            if name and (ROOT / name).is_file():
                (self.root / name).parent.mkdir(parents=True, exist_ok=True)
                shutil.copy2(ROOT / name, self.root / name)

    def run(self, *words):
        """The status and all that a command says."""
        done = subprocess.run(words, cwd=self.root, stdin=subprocess.DEVNULL, stdout=subprocess.PIPE, stderr=subprocess.STDOUT, text=True, errors="replace", check=False)
        return done.returncode, done.stdout

    def python(self, script, *words):
        return self.run(sys.executable, script, *words)

    def edit(self, name, pattern, new):
        """Changes the first place of a pattern in a file."""
        file = self.root / name
        text, count = re.subn(pattern, new, file.read_text(), count=1, flags=re.M)
        if not count:
            sys.exit(f"selftest: {name} has no {pattern}")
        file.write_text(text)

    def first(self, pattern):
        return sorted(self.root.glob(pattern))[0]

    def commit(self):
        """Makes the copy a repository whose main is the tree as it stands, with a branch that is to be changed."""
        who = ("-c", "user.name=selftest", "-c", "user.email=selftest@localhost")
        for words in (("init", "-q", "-b", "main"), ("add", "-A"), (*who, "commit", "-qm", "main"), ("checkout", "-qb", "changed"), (*who, "commit", "-qm", "a branch", "--allow-empty")):
            self.run("git", *words)


def reply(copy):
    copy.edit("examples/first.replies", r"\Aok$", "error 9 HasClones")
    return *copy.python("bench/examples.py", ZFSP), "first: "


def reply_of_a_row(copy):
    """A row that each program gives otherwise, and a request that reaches more than its row says."""
    copy.edit("rows/write.rows", r" => ok$", " => error 9 HasClones")
    copy.edit("rows/meters.rows", r"^meters 6 36 36$", "meters 6 7 36")
    said = ""
    for words in ((ZFSP, "--only", "write"), (ZFSP, ROWS["pool_rows"], "--only", "meters")):
        status, told = copy.python("bench/rows.py", *words)
        if not status:
            return status, told
        said += told
    return 1, said, "write.rows, zfsp", "meters.rows, pool_rows"


def reply_by_definition(copy):
    copy.edit("examples/first.replies", r"\Aok$", "error 9 HasClones")
    copy.edit("rows/write.rows", r" => ok$", " => error 9 HasClones")
    status, said = copy.python("bench/rows.py")
    return status, said, "write.rows", "first.script"


def rows_told(copy):
    """A row that stands otherwise than plain values tell it; each crate of rows has its own, and base_rows one on streams too."""
    said, rows = "", [(it, r"\bok$") for it in ("base_rows", "ground_rows", "tree_rows", "snapshot_rows", *ROWS)]
    for crate, row in [*rows, ("base_rows", r"(?<=^stream\.laws => )ok$")]:
        file = copy.root / f"crates/{crate}/stdout"
        text = file.read_text()
        copy.edit(f"crates/{crate}/stdout", row, "none")
        status, told = copy.python(f"bench/{crate if crate in ROWS else 'ground'}.py")
        file.write_text(text)
        if not status:
            return status, f"{crate}: {told}"
        said += told
    return 1, said, *(f"{it}: stands " for it, _ in rows), "base_rows: stands stream."


def changed_by_refusal(copy):
    """What was refused memory changes a reply, of a pool and of a session."""
    told, wanted = "", ("is not as left out", "is not answered as ever")
    for script, program in ROWS.items():
        status, said = copy.run(sys.executable, "-c", FORGETS.format(script=script, program=program))
        lacking = [it for it in wanted if it not in said]
        if not status or lacking:
            return 0, f"{script} says nothing of {' or of '.join(lacking)}: {said}"
        told += said
    return 1, told, *wanted


def requests_of_a_line(copy):
    """A line that makes a request for memory more than is told, and one that makes one fewer."""
    copy.edit("bench/refused.py", r'^    "read p/a 0 3": 0,$', '    "read p/a 0 3": 1,')
    copy.edit("bench/refused.py", r'^    "write p/a 0 3 62": 1,$', '    "write p/a 0 3 62": 0,')
    status, said = copy.python("bench/refused.py", "--steady", ZFSP)
    return status, said, "`write p/a 0 3 62` makes more requests for memory than are told: 1 a round, told 0", "`read p/a 0 3` makes fewer", "write 0 into STEADY"


def body_deleted(copy):
    edit = copy.first(f"crates/{CRATE}/refused/*.edit")
    edit.unlink()
    return *copy.python("bench/wrong_bodies.py", "--verify"), f"{CRATE}/refused/{edit.stem} has a line and no file"


def body_without_line(copy):
    edit = copy.first(f"crates/{CRATE}/refused/*.edit")
    shutil.copy(edit, edit.with_name("another.edit"))
    return *copy.python("bench/wrong_bodies.py", "--verify"), f"{CRATE}/refused/another has no line"


def body_made_right(copy):
    edit = copy.first(f"crates/{CRATE}/refused/*.edit")
    old = re.search(r"^old: (.*)$", edit.read_text(), re.M)[1]
    copy.edit(edit.relative_to(copy.root), r"^new: .*$", lambda _: f"new: {old}")
    return *copy.python("bench/wrong_bodies.py", "--verify"), f"{CRATE}/refused/{edit.stem} changes nothing", f"{CRATE}/refused/{edit.stem} has changed since"


def function_changed(copy):
    """A word more at the place of a wrong body, in each function of the crate that one strikes: each has to be tried again, methods too."""
    names = []
    for edit in sorted(copy.root.glob(f"crates/{METHODS}/refused/*.edit")):
        file, old = (re.search(rf"^{it}: (.*)$", edit.read_text(), re.M)[1] for it in ("file", "old"))
        source = copy.root / f"crates/{METHODS}/{file}"
        text = source.read_text()
        source.write_text(text.replace(old, f"{old} /* changed */"))
        status, said = copy.python("bench/wrong_bodies.py", "--verify")
        source.write_text(text)
        name = f"{METHODS}/refused/{edit.stem} has changed since it was tried"
        if not status or name not in said:
            return 0, f"{name} is not said"
        names.append(name)
    return 1, "\n".join(names), METHODS


def line_of_another_function(copy):
    copy.edit("bench/wrong_bodies.txt", rf"^({CRATE}\n  \S+ \S+: ).*$", rf"\1{CRATE}::Nothing::at_all: returns")
    return *copy.python("bench/wrong_bodies.py", "--verify"), "strikes another function than its line says"


def digest_by_hand(copy):
    """With the digests put right by hand no check of digests sees the change, so the crate has to be among those that are tried anew."""
    copy.commit()
    copy.edit(f"crates/{CRATE}/specs/Lib.antt", r"\Z", "-- changed\npub mod Changed\n")
    lines = "{it: (x.digest(it), why) for it, (_, why) in t.bodies['" + CRATE + "'].items()}"
    forge = f"import wrong_bodies as w; t = w.Table(); x = w.Texts(w.folders()['{CRATE}']); t.write('{CRATE}', {lines})"
    copy.run(sys.executable, "-c", f"import sys; sys.path.insert(0, 'bench'); {forge}")
    status, said = copy.python("bench/wrong_bodies.py", "--verify")
    plan = copy.python("bench/wrong_bodies.py", "--gate", "--plan")[1]
    is_tried = re.search(rf"^changed: .*\b{CRATE}\b", plan, re.M)
    return 1 if is_tried else 0, f"{said}{plan}", f"{CRATE}"


def body_let_pass(copy):
    """A prover stands in for the real one that proves whatever it is given."""
    prove = "lambda *given: subprocess.CompletedProcess([], 0, 'logic=proved')"
    stub = f"l = w.Libraries(); l.take = lambda crates: []; l.rt.checked = {prove}; w.planned = lambda: (['{CRATE}'], [])"
    status, said = copy.run(sys.executable, "-c", f"import subprocess, sys; sys.path.insert(0, 'bench'); import wrong_bodies as w; {stub}; sys.exit(w.Gate(l, 5).run())")
    return status, said, "PROVED: the crate is still proved", f"wrong_bodies: {CRATE}/refused/"


def layout(copy):
    copy.edit("crates/toll/src/lib.rt", r"^(pub .*)$", r"  \1")
    return *copy.python("bench/layout.py"), "crates/toll/src/lib.rt isn't laid out"


def count_or_list(copy):
    """Numbers that aren't so, a list that lacks a name, and a ported crate of crates.txt that another list hasn't."""
    copy.edit("README.md", r"The \d+ crates", "The 7 crates")
    copy.edit("docs/AUDIT.md", r"(\d[\d,]*)(?= wrong bodies)", "9,999")
    copy.edit("docs/AUDIT.md", r"(?<=of its crates )`\w+`, ", "")
    copy.edit("crates.txt", r"^(base: .*)$", r"\1 zzz")
    return *copy.python("bench/counts.py"), "README.md: 7 for ", "docs/AUDIT.md: 9,999 for ", "docs/AUDIT.md: `byteorder`, ", "README.md: `arrayvec`, ", "`zzz` (ported crates)"


def leak(copy):
    copy.edit("hosts/c/host.c", r"^(int main\(.*\{)$", r"\1\n    char *volatile lost = malloc(77);\n    lost = NULL;\n    if (lost != NULL) return 3;")
    return *copy.run("env", f"YUZGONT_LIB={Path(LIBRARY).parent}", "bash", "hosts/run.sh", "1000"), "77 bytes in 1 blocks are definitely lost"


def receive_in_a_mode(copy):
    """A plain machine that forgets the limits of a file system whose place a stream takes."""
    copy.edit("bench/plain.py", r"FileSystem\(limits=f\.limits\)", "FileSystem()")
    return *copy.run("env", f"YUZGONT_LIBRARY={ROOT / SHARED}", sys.executable, "bench/receives.py", "--pools", "50", "--requests", "150"), "the plain machine: "


def destroy_of_several(copy):
    """A plain machine that refuses a list where one of its names is no snapshot's."""
    copy.edit("bench/plain.py", r'refuse\("NoDataset", not systems\)', 'refuse("NoDataset", len(systems) < len({*names}))')
    return *copy.run("env", f"YUZGONT_LIBRARY={ROOT / SHARED}", sys.executable, "bench/receives.py", "--pools", "50", "--requests", "150"), "the plain machine: NoDataset"


def rename(copy):
    """A plain machine that leaves limits behind in a rename."""
    copy.edit("bench/plain.py", r"names\.get\(it, it\): f for", "names.get(it, it): replace(f, limits={} if it in names else f.limits) for")
    rows = copy.python("bench/pool_rows.py")
    random = copy.run("env", f"YUZGONT_LIBRARY={ROOT / SHARED}", sys.executable, "bench/receives.py", "--pools", "50", "--requests", "150")
    return min(rows[0], random[0]), rows[1] + random[1], "pool_rows: stands ", "rename p/", "the plain machine: "


def short(copy):
    copy.edit("bench/machine.py", r"^LEFT, OF_EACH_PROOF = \S+", "LEFT, OF_EACH_PROOF = 9_000_000_000,")
    return *copy.python("bench/machine.py"), "machine: short of "


def part(copy):
    copy.edit("bench/machine.py", r"^def main\(\):$", 'def main():\n    sys.exit("broken")')
    return *copy.run("bash", ".ci/run"), "machine: ", "the gate failed at: machine"


def proof_once(copy):
    refused = STUB % r"printf '== base\nfn base::a: not proved\nlogic=not-proved\nrt: base NOT PROVED\nrt: FAILED: base\n2 passed, 1 failed\n'"
    status, said = copy.python("bench/once_more.py", "bash", "-c", refused)
    return (status if (copy.root / "runs").read_text() == "run\n" else 0), said, "2 passed, 1 failed"


def machine_twice(copy):
    """Of a fault of the machine the command is run again, so here it is the first run that must be seen to fail."""
    full = STUB % r"printf '== base\nerror: No space left on device (os error 28)\nrt: base NOT PROVED\nrt: FAILED: base\n2 passed, 1 failed\n'"
    status, said = copy.python("bench/once_more.py", "bash", "-c", full)
    return (1 if status == 0 and (copy.root / "runs").read_text() == "run\n" * 2 else 0), said, "in the second of two runs", "No space left on device"


BROKEN = {
    "a reply of an example": (reply, ZFSP),
    "a reply of a row": (reply_of_a_row, ROWS["pool_rows"]),
    "a row, and a reply by the definition": (reply_by_definition, None),
    "rows that no plain value tells so": (rows_told, None),
    "a reply that a refused request changes": (changed_by_refusal, ROWS["session_rows"]),
    "a request for memory more than is told": (requests_of_a_line, ZFSP),
    "a wrong body deleted": (body_deleted, None),
    "a wrong body that wasn't tried": (body_without_line, None),
    "a wrong body made right": (body_made_right, None),
    "a function that was changed since": (function_changed, None),
    "a wrong body that the prover lets pass": (body_let_pass, None),
    "a line of another function": (line_of_another_function, None),
    "a digest put right by hand": (digest_by_hand, None),
    "a file that isn't laid out": (layout, None),
    "a count or a list in a page": (count_or_list, None),
    "a leak in a host": (leak, LIBRARY),
    "a receive in one of its modes": (receive_in_a_mode, SHARED),
    "a destroy of several snapshots": (destroy_of_several, SHARED),
    "a rename of a file system": (rename, SHARED),
    "a disk that is too small": (short, None),
    "a part of the gate": (part, None),
    "a proof that is refused": (proof_once, None),
    "a full disk": (machine_twice, None),
}


def fault_of(name):
    """What the gate's check of a broken copy lacks, '' where it fails as it must, or None where what it needs isn't built."""
    broken, built = BROKEN[name]
    if built and not (ROOT / built).is_file():
        return None
    with tempfile.TemporaryDirectory(prefix="selftest-") as room:
        status, said, *wanted = broken(Copy(room))
    if status == 0:
        return f"the check passes: {said[-300:]}"
    lacking = [it for it in wanted if it not in said]
    return f"the check fails, and says nothing of {' or of '.join(lacking)}: {said[-600:]}" if lacking else ""


def main():
    names = sys.argv[1:] or [*BROKEN]
    with ThreadPoolExecutor(os.cpu_count()) as pool:
        found = dict(zip(names, pool.map(fault_of, names)))
    for name, why in found.items():
        print(f"{name}: {'left out, since ' + BROKEN[name][1] + ' is not built' if why is None else why or 'its check fails, and says so'}")
    left, wrong = [[it for it, why in found.items() if test(why)] for test in (lambda why: why is None, bool)]
    print(f"{len(found) - len(left) - len(wrong)} of {len(found)} broken things are seen" + f"; {len(left)} left out" * bool(left))
    return 1 if wrong else 0


if __name__ == "__main__":
    sys.exit(main())
