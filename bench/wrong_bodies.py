#!/usr/bin/env python3
"""Shows that the prover refuses each wrong body of the crates, many in one check, and keeps what refused each in bench/wrong_bodies.txt.

    python3 bench/wrong_bodies.py [--all | --changed] [--list] [--at-once N] [--jobs J] [CRATE ..]
    python3 bench/wrong_bodies.py --verify
    python3 bench/wrong_bodies.py --gate [--minutes M] [--plan]

A wrong body is an edit in crates/NAME/must-fail/ or crates/NAME/refused/: a file with lines `file:`, `old:` and `new:` that gives a function
another meaning. Those in must-fail/ `rt ci` tries each time, one by one; those in refused/ are tried by this script alone.

A caller is proved by the contract of what it calls, so wrong bodies of different functions are tried together: as many as can are put into
one copy of the crate (a round: one edit a function), one check reads it over what is kept of the crate's proof, and each edit needs a failed
proof of its own in the function that it strikes. That a callee is not proved is not enough: such an edit goes to a next round, and last alone.
An edit is refused; or only by a name, where the proof names what the edit took away, which says little of the contract; or PROVED, where the
crate alone is still proved with it; or BAD, where it can't be applied, read or typed; or NOT TRIED, where there was no verdict. All but the
first are faults, and the crate's lines then stay as they were.

bench/wrong_bodies.txt has a line a crate, and below it a line a wrong body: its file, a digest, the function whose proof failed, and the goal of
it that refused the body, as returns-clause-NAME for a clause NAME of the contract. The digest is of what the refusal rests on, without comments:
the edit, the function that it strikes with its contract, what is written of that function's proof, and the crate's definitions. This script
alone writes the file. Of a crate that is named all wrong bodies are tried, or with --changed those whose digests have changed; without a name
those of all crates whose digests have changed, or with --all every one. --list prints a line for each edit, N crates are tried at once, one if
left out, and each check has J jobs, one if left out.

--verify tries nothing. It compares the digests with the texts, and the lines with the files: each wrong body has one, of the function that it
strikes. --gate tries a round of wrong bodies anew of each crate whose texts differ from main's (or, on main itself, from the last commit's), and
then of crates in an order that the digest of HEAD's tree gives, until these have taken M minutes, 5 if left out; what has begun goes on to its end. That
digest also says which bodies of a crate come first. It writes nothing, and fails where a body isn't refused by the goals of its line. --plan only prints
which crates --gate would try. The status is 1 where something fails.

The libraries below a crate are those in place, where all are current, or else what `rt ci` has kept; what is in neither is built first.
"""

import argparse
import hashlib
import os
import re
import resource
import shutil
import signal
import subprocess
import sys
import tempfile
import threading
import time
from concurrent.futures import ThreadPoolExecutor
from dataclasses import dataclass, field
from pathlib import Path

from libraries import ROOT, Libraries

LINES = ROOT / "bench" / "wrong_bodies.txt"
PARTS = ("src", "specs", "proofs")
PLACES = ("must-fail", "refused")
HEAD = re.compile(r"\s*(?:pub(?:\([^)]*\))? )?(?:const |unsafe |extern \"C\" )*fn (\w+)")
OWNER = re.compile(r"\s*(?:pub(?:\([^)]*\))? )?(?:unsafe )?(impl|trait|mod)\b(?:<[^{]*?>(?= ))? ?([^{:]*(?:::[^{:]*)*)")
ITEM = re.compile(r"\s*(?:pub(?:\([^)]*\))? )?(const|static|struct|enum|type|use|macro_rules!|ghost|impl|trait|mod)\b")
# A proof that names what is gone from its function, and one that names what may have failed elsewhere.
GONE = r"(?:module|record) `Rattle\.{}\.proofs\.{}\.[^`]*` (?:has no |\(nearest)"
ELSEWHERE = re.compile(r"has no field|is not in scope|has no `|was not admitted|: record `\S+` \(nearest")
# What a line begins with where the proof that failed is not the struck function's own, as of a constant or a type.
ELSE = "elsewhere "
BY_NAME, REFUSED, PROVED, BAD, UNTRIED = "only by a name", "refused", "PROVED", "BAD", "NOT TRIED"


def indent(line):
    return len(line) - len(line.lstrip())


def head_of(lines, row):
    """The row at which the innermost function around a row of a laid out file begins, or None outside each function."""
    least = indent(lines[row]) + bool(HEAD.match(lines[row]))
    for at in range(row, -1, -1):
        line = lines[at]
        if line.strip() and indent(line) < least and not line.lstrip().startswith(("//", "#")):
            if HEAD.match(line):
                return at
            if ITEM.match(line):
                return None
    return None


def struck(crate, path, text, at):
    """A pattern of the prover's names for the function around a place of a laid out file, or None outside each function."""
    lines = text.split("\n")
    head, owners = head_of(lines, text.count("\n", 0, at)), []
    if head is None:
        return None
    name, least = HEAD.match(lines[head])[1], indent(lines[head])
    for line in reversed(lines[:head]):
        if not line.strip() or indent(line) >= least or line.lstrip().startswith(("//", "#")):
            continue
        if OWNER.match(line):
            # `impl From<AllocError> for Refusal` is RefusalFromAllocError, and `impl<T> List<T>` is List
            trait, _, of = re.sub(r" where .*", "", OWNER.match(line)[2]).rpartition(" for ")
            words = (re.findall(r"\w+", of.partition("<")[0]) or [r"\w*"])[-1:]
            words += [it for it in re.findall(r"(?<!')\b\w+\b(?!::)", trait) if len(it) > 1] + [r"\w*"] * bool(trait)
            owners, least = ["".join(words), *owners], indent(line)
    # A method stands in the module of its type, which may be another, and a closure of a function below `fn`.
    parts = [f"{it}::" for it in path[len("src/") : -len(".rt")].split("/") if it not in ("lib", "main", "mod")]
    parts, whole = r"(?:\w+::)*?" if owners else "".join(parts), "::".join([*owners, name])
    return f"{crate}::{parts}(?:{whole}|fn::{whole}::\\S+)"


@dataclass(eq=False)
class Edit:
    """A wrong body: for each pair of texts a mark, the file, and what comes in the place of what."""

    crate: str
    folder: Path
    file: Path
    pairs: list = field(default_factory=list)
    functions: list = field(default_factory=list)
    fault: str = ""

    def __post_init__(self):
        path, old = "", None
        for word, text in re.findall(r"^(file: |old: |new:)(.*)", self.file.read_text(), re.M):
            path, old = text.strip() if word == "file: " else path, text if word == "old: " else old
            if word == "new:":
                self.pairs.append((f"\0{self.file} {len(self.pairs)}\0", path, old, re.sub(r"\A ", "", text)))
        self.fault = self.put({}) if self.pairs else "has no pair of 'old:' and 'new:'"
        if self.pairs and all(old == new for _, _, old, new in self.pairs):
            self.fault = "changes nothing"

    def put(self, texts):
        """Puts the edit's marks into the texts, by their paths; or says why it can't, with the texts as they were."""
        made, functions = dict(texts), []
        for mark, path, old, _ in self.pairs:
            if path not in made and (self.folder / path).is_file():
                made[path] = (self.folder / path).read_text()
            if not old or made.get(path, "").count(old) != 1:
                return f"has an 'old:' text that is not once in {path}"
            at = made[path].index(old) + indent(old)
            functions.append(struck(self.crate, path, made[path], at) if path.startswith("src/") else None)
            made[path] = made[path].replace(old, mark)
        self.functions = functions
        texts.update(made)
        return ""


def round_of(edits):
    """As many of the edits as go together, with the texts that they make and the rows that each of them writes."""
    taken, texts, seen = {}, {}, set()
    for edit in edits:
        keys = set(edit.functions)
        if not taken or not keys & seen and None not in keys | seen:
            if not edit.put(texts):
                taken[edit] = set()
                seen |= keys
    for edit in taken:
        taken[edit] = {(path, texts[path].count("\n", 0, texts[path].index(mark)) + 1) for mark, path, _, _ in edit.pairs}
        for mark, path, _, new in edit.pairs:
            texts[path] = texts[path].replace(mark, new)
    return taken, texts


@dataclass(frozen=True)
class Failure:
    """A failed proof of a function: the goals of it that were refused, by their names, and what the check says of them."""

    function: str
    goals: tuple
    said: str

    def __str__(self):
        return f"{self.function}: {' '.join(self.goals) or 'no goal with a name'}"


def only(edits):
    """The flags that leave a check to the functions which these edits strike, or to their modules where a name is not known; none where one strikes
    no function of a module."""
    names = []
    for edit in edits:
        for (_, path, _, _), of in zip(edit.pairs, edit.functions):
            module = "::".join(it for it in path[len("src/") : -len(".rt")].split("/") if it not in ("lib", "main", "mod"))
            found = re.fullmatch(r"\w+::((?:\w+::)*)(?:\(\?:\\w\+::\)\*\?)?\(\?:([\w:]+)\|fn::.*", of or "")
            name = found[1] + found[2] if found else module
            if not of or not name:
                return []
            names.append(name)
    return [it for name in sorted({*names}) for it in ("--only", name)]


def goals_in(said):
    """The goals that a line of a check names: at its beginning, or behind `did not prove`."""
    unproved = re.search(r"did not prove ((?:`[^`]+`(?:, | and )?)+)", said)
    first = re.match(r"`([^`]+)`: ", said)
    return re.findall(r"`([^`]+)`", unproved[1]) if unproved else [first[1]] if first else []


def own_failures(edit, lines):
    """What a check says of failed proofs of the functions that the edit strikes: of their contracts, and of names alone; and why there is none."""
    said = [it for it in (re.match(r"fn (\S+): (.*)", line) for line in lines) if it]
    said = [it for it in said if any(of and re.fullmatch(of, it[1]) for of in edit.functions)]
    if len({it[1] for it in said if "::fn::" not in it[1]}) != len(set(edit.functions)):
        return [], [], "it does not strike one function of a known name"
    told, gone = [], []
    for of in said:
        crate, *path = of[1].split("::")
        own = [re.match(r"(?:\./)?proofs/(\S+)/[^/]+:\d+:\d+: error: (.*)", re.sub(r"([/.])\+", r"\1", it)) for it in lines]
        own = [it[2] for it in own if it and it[1] == "/".join(path) and of[2] != "proved"]
        own += [of[2][max(of[2].find("`search`"), 0) :]] * ("did not prove" in of[2])
        real = [it for it in own if not ELSEWHERE.search(it)]
        told += [Failure(of[1], tuple(sorted({goal for it in real for goal in goals_in(it)})), real[0])] if real else []
        gone += [f"{of[1]}: {it}" for it in own if re.search(GONE.format(crate, re.escape(".".join(path))), it)]
    return told, gone, "; ".join(it[0] for it in said)


def judge(rt, edit, rows, ran, texts, is_alone):
    """What a round says of one of its edits, and why, which of a refused one is its failures; None where it has to be tried again."""
    lines = ran.stdout.split("\n")
    is_verdict = ran.returncode == 1 and any(it.startswith(("logic=not-proved", "only=")) for it in lines)
    bad = [it for it in lines if rt.unread(it, texts) or not is_verdict and re.search(r"\berror\[[\w-]+\]", it)]
    at = {(path, int(row)) for it in bad for path, row in re.findall(r"((?:src|specs)/\S+?):(\d+):\d+", it)}
    if bad and (is_alone or rows & at):
        return BAD, bad[0]
    if not is_verdict:
        if not is_alone:
            return None, "the round came to no verdict"
        return (PROVED, "the crate is still proved") if ran.returncode == 0 else (UNTRIED, f"status {ran.returncode}: {' '.join(lines[-3:])}")
    told, gone, why = own_failures(edit, lines)
    if told:
        return REFUSED, told
    if not is_alone:
        return None, why
    first = [it for it in lines if (": error: " in it or "did not prove" in it) and not ELSEWHERE.search(it)]
    return (REFUSED, elsewhere(first[0])) if first else (BY_NAME, (gone or [why])[0])


def elsewhere(said):
    """The failure of a proof that is no one function's, as that of a type's, by the file that holds it."""
    found = re.match(r"(?:\./)?(\S+?):\d+:\d+: error: (.*)", said) or re.match(r"fn (\S+): (.*)", said)
    place, why = found.groups() if found else (said[:80], said)
    return [Failure(f"{ELSE}{place}", tuple(sorted(set(goals_in(why)))), why)]


class Trial:
    """The wrong bodies of one crate, or those of these names; with an order only those of one round, of which that word chooses the first."""

    # The jobs of a check.
    jobs = 1

    def __init__(self, libraries, crate, is_told=False, order=None, names=None):
        self.rt, self.crate, self.is_told, self.is_brief = libraries.rt, crate, is_told, order is not None
        self.folder = Path(crate.folder)
        self.edits = [Edit(crate.name, self.folder, it) for it in edits_of(self.folder) if names is None or name_of(it) in names]
        if self.is_brief:
            self.edits.sort(key=lambda it: hashlib.sha256(f"{order} {crate.name} {name_of(it.file)}".encode()).hexdigest())
        self.is_proved = bool(libraries.entry(crate))
        self.said = {it: (BAD, it.fault) for it in self.edits if it.fault}
        self.rounds, self.begun = 0, time.monotonic()

    def tell(self, edit, kind, why):
        self.said[edit] = kind, why
        if self.is_told or kind != REFUSED:
            told = "; ".join(f"{it}: {it.said[:160]}" for it in why) if kind == REFUSED else why[:230]
            print(f"{self.crate.name}/{edit.file.stem}: {kind}: {told}", flush=True)

    def run(self):
        """Tries them all; False where the crate isn't proved as it stands."""
        for edit in self.said:
            self.tell(edit, *self.said[edit])
        os.makedirs(f"{self.crate.folder}/out", exist_ok=True)
        with tempfile.TemporaryDirectory(prefix="wrong-bodies-", dir=f"{self.crate.folder}/out") as room:
            seed, work = f"{room}/seed", self.rt.work_for(self.crate)
            if work:
                shutil.copytree(work, seed, copy_function=link_or_copy)
            os.makedirs(seed, exist_ok=True)
            # What `rt ci` has proved is proved as it stands, and the first round then leaves what the next ones begin with.
            if not self.is_proved and self.rt.checked(self.crate, {}, ["--jobs", "1"], seed).returncode:
                return False
            self.try_rounds(seed, room)
        return True

    def checked(self, texts, flags, seed, room):
        """A check of the crate with these texts, over a copy of what is kept, whose files the two share."""
        kept = f"{room}/{self.rounds}"
        shutil.copytree(seed, kept, copy_function=link_or_copy)
        ran = self.rt.checked(self.crate, texts, ["--jobs", str(self.jobs), *flags], kept)
        if ran.returncode == -signal.SIGKILL or flags and ran.returncode == 2:
            # most likely for memory, or a name fits no function or several
            ran = self.rt.checked(self.crate, texts, ["--jobs", str(self.jobs)], kept)
        if os.listdir(seed):
            shutil.rmtree(kept)
        else:
            os.rmdir(seed)
            os.rename(kept, seed)
        return ran

    def try_rounds(self, seed, room):
        waiting, alone = [it for it in self.edits if it not in self.said], []
        known = len(self.said)
        while (waiting or alone) and not (self.is_brief and len(self.said) > known):
            is_last = not waiting
            taken, texts = round_of(waiting or alone[:1])
            self.rounds += 1
            # The crate itself is proved, so a round asks for the functions that it strikes alone, and only an edit's last try for the whole crate.
            ran, again = self.checked(texts, [] if is_last else only(taken), seed, room), []
            for edit, rows in taken.items():
                (waiting if edit in waiting else alone).remove(edit)
                kind, why = judge(self.rt, edit, rows, ran, texts, is_last)
                if kind:
                    self.tell(edit, kind, why)
                else:
                    again.append(edit)
            (waiting if len(again) < len(taken) else alone).extend(again)

    def tried(self):
        return [it for it in self.edits if it in self.said or not self.is_brief]

    def faults(self):
        return sum(self.said.get(it, (UNTRIED,))[0] != REFUSED for it in self.tried())

    def lines(self):
        """The lines of the refused ones, by their files."""
        refused = {it: why for it, (kind, why) in self.said.items() if kind == REFUSED}
        return {name_of(it.file): "; ".join(map(str, why)) for it, why in refused.items()}

    def told(self):
        of = f"{len(self.tried())} tried" if self.is_brief else f"{len(self.edits)}"
        return f"{len(self.tried()) - self.faults()} of {of} refused, {self.rounds} round{'s' * (self.rounds != 1)}, {time.monotonic() - self.begun:.0f} s"


def link_or_copy(one, other):
    try:
        os.link(one, other)
    except OSError:
        shutil.copy2(one, other)


def name_of(file):
    return f"{file.parent.name}/{file.stem}"


def edits_of(folder):
    return sorted(it for place in PLACES for it in (folder / place).glob("*.edit"))


def counts_of(folder):
    """How many wrong bodies a crate has in each place."""
    return [len([*(folder / it).glob("*.edit")]) for it in PLACES]


def told_by(path, text):
    """What a file's text says to the prover: all of it without the lines that are comments."""
    mark = "//" if path.endswith(".rt") else "--"
    return "\n".join(it for it in text.split("\n") if not it.lstrip().startswith(mark))


def function_at(text, at):
    """The text of the function around a place of a laid out file, with its attributes and contract; the whole text outside each function."""
    lines = text.split("\n")
    head = head_of(lines, text.count("\n", 0, at))
    if head is None:
        return text
    depth, end, has_body = indent(lines[head]), head, False
    for end in range(head, len(lines)):
        line = lines[end]
        has_body = has_body or indent(line) == depth and line.endswith("{")
        if indent(line) == depth and line.strip() in ("}", "{}") or end == head and line.endswith("}") or not has_body and line.endswith(";"):
            break
    while head > 0 and lines[head - 1].lstrip().startswith(("#[", "//")):
        head -= 1
    return "\n".join(lines[head : end + 1])


class Texts:
    """The texts of a crate, of which digests are made."""

    def __init__(self, folder):
        self.folder = folder
        self.edits = {name_of(it): Edit(folder.name, folder, it) for it in edits_of(folder)}
        self.proofs = [it for it in sorted((folder / "proofs").rglob("*")) if it.is_dir()]
        self.specs = [self.told(it) for it in sorted((folder / "specs").rglob("*.antt"))]

    def told(self, file):
        path = str(file.relative_to(self.folder))
        return path, told_by(path, file.read_text())

    def proof_of(self, functions):
        """What is written of the proofs of these functions; the folder of a cycle of calls begins with a plus."""
        for place in self.proofs:
            path = "::".join([self.folder.name, *(it.lstrip("+") for it in place.relative_to(self.folder / "proofs").parts)])
            if any(of and re.fullmatch(of, path) for of in functions):
                yield from map(self.told, sorted(place.glob("*.antt")))

    def digest(self, name):
        """The digest of what the refusal of a wrong body rests on."""
        edit = self.edits[name]
        made = [edit.file.read_text(), edit.functions, self.specs, [*self.proof_of(edit.functions)]]
        for _, path, old, _ in edit.pairs:
            text = (self.folder / path).read_text() if (self.folder / path).is_file() else ""
            made.append(told_by(path, function_at(text, text.index(old) + indent(old)) if old and text.count(old) == 1 else text))
        return hashlib.sha256(repr(made).encode()).hexdigest()[:16]

    def whole(self):
        """The digest of all texts of the crate."""
        files = [self.told(it) for part in ("src", "proofs") for it in sorted((self.folder / part).rglob("*")) if it.is_file()]
        edits = [(name, it.file.read_text()) for name, it in self.edits.items()]
        return hashlib.sha256(repr([files, self.specs, edits]).encode()).hexdigest()[:32]


def folders():
    """The folders of the crates that have wrong bodies."""
    return {it.name: it for it in sorted((ROOT / "crates").iterdir()) if edits_of(it)}


class Table:
    """bench/wrong_bodies.txt: of each wrong body of a crate the digest and what refused it."""

    HEAD = "# Written by bench/wrong_bodies.py alone: each crate's wrong bodies, with the digest of what their refusal rests on, and what refused each.\n"
    CRATE = re.compile(r"(\w+)")
    # A crate that was last tried before the goals were kept: the digest of its texts, and how many wrong bodies it has in must-fail/ and in refused/.
    COUNTED = re.compile(r"(\w+) ([0-9a-f]{32}) (\d+) (\d+) refused")
    BODY = re.compile(r"  ([\w-]+/\S+) ([0-9a-f]{16}): (.+)")

    def __init__(self):
        self.bodies, self.counted = {}, {}
        name = None
        for line in LINES.read_text().splitlines() if LINES.is_file() else []:
            crate, body, counted = (it.fullmatch(line) for it in (self.CRATE, self.BODY, self.COUNTED))
            if counted:
                self.bodies[counted[1]], self.counted[counted[1]] = {}, counted
            elif crate:
                name = crate[1]
                self.bodies[name] = {}
            elif body and name:
                self.bodies[name][body[1]] = body[2], body[3]

    def stale(self, texts):
        """The wrong bodies of a crate that have no line, or whose digests have changed since."""
        name = texts.folder.name
        if name in self.counted and self.counted[name][2] == texts.whole():
            return set()
        kept = self.bodies.get(name, {})
        return {it for it in texts.edits if it not in kept or kept[it][0] != texts.digest(it)}

    def faults(self):
        """What is wrong with the table, a line each: a crate or a wrong body without a line, or the other way round, or a line of another function."""
        here = folders()
        for name in sorted({*here, *self.bodies}):
            if name not in here:
                yield f"{name} has lines and no wrong body"
                continue
            texts = Texts(here[name])
            if name in self.counted:
                if texts.whole() != self.counted[name][2]:
                    yield f"{name} has changed since its wrong bodies were tried"
                if [int(it) for it in self.counted[name].groups()[2:]] != counts_of(here[name]):
                    yield f"{name} has another number of wrong bodies than were tried"
                continue
            for body in sorted({*texts.edits, *self.bodies.get(name, {})}):
                for why in self.faults_of(texts, body, self.bodies.get(name, {}).get(body)):
                    yield f"{name}/{body} {why}"

    @staticmethod
    def faults_of(texts, body, line):
        edit = texts.edits.get(body)
        if not edit or not line:
            yield "has a line and no file" if line else "has no line"
            return
        if edit.fault:
            yield edit.fault
        if line[0] != texts.digest(body):
            yield "has changed since it was tried"
        told = [it.partition(": ")[0] for it in line[1].split("; ")]
        if not all(it.startswith(ELSE) or any(of and re.fullmatch(of, it) for of in edit.functions) for it in told):
            yield "strikes another function than its line says"

    def write(self, name, lines):
        """Puts these lines of a crate in the place of those that it had, and drops those of bodies and crates that are gone."""
        here = folders()
        left = {name_of(it) for it in edits_of(here[name])}
        self.bodies[name] = {it: line for it, line in ({**self.bodies.get(name, {}), **lines}).items() if it in left}
        self.counted.pop(name, None)
        text = self.HEAD
        for it in sorted({*self.bodies} & {*here}):
            text += f"{self.counted[it][0]}\n" if it in self.counted else f"{it}\n"
            text += "".join(f"  {body} {digest}: {why}\n" for body, (digest, why) in sorted(self.bodies[it].items()))
        LINES.write_text(text)


def verify():
    faults, here = [*Table().faults()], folders()
    stale = sorted({it.split()[0].split("/")[0] for it in faults})
    print("".join(f"wrong_bodies: {it}\n" for it in faults), end="")
    if stale:
        print(f"wrong_bodies: python3 bench/wrong_bodies.py --changed {' '.join(stale)}")
    print(f"{sum(len(edits_of(it)) for it in here.values())} wrong bodies of {len(here)} crates, {len(faults)} faults")
    return 1 if faults else 0


def git(*words):
    """What git says, or None where it can't."""
    ran = subprocess.run(["git", *words], cwd=ROOT, capture_output=True, text=True, check=False)
    return ran.stdout.strip() if ran.returncode == 0 else None


def changed_crates():
    """The crates whose texts, without comments, differ from those of main when it last passed: from where this branch left main, or on main itself
    from its last commit but one, as main goes on only by what has passed. None where git doesn't tell."""
    head, base = git("rev-parse", "HEAD"), None
    for main in ("origin/main", "main"):
        found = git("merge-base", main, "HEAD")
        if found and found != head:
            base = found
            break
    base = base or git("rev-parse", "--verify", "-q", "HEAD^")
    if not base:
        return None
    files = (git("diff", "--name-only", "--no-renames", base, "--", "crates") or "").split("\n") + (git("ls-files", "-o", "--exclude-standard", "crates") or "").split("\n")
    files = [it for it in files if it.count("/") > 2 and it.split("/")[2] in (*PARTS, *PLACES)]
    return {it.split("/")[1] for it in files if told_before(base, it) != told_now(it)}


def told_before(base, path):
    return told_by(path, git("show", f"{base}:{path}") or "").strip()


def told_now(path):
    return told_by(path, (ROOT / path).read_text()).strip() if (ROOT / path).is_file() else ""


def order_of_tree():
    """The digest of HEAD's tree, by which crates and their wrong bodies are put in an order in which nobody has a say."""
    return git("rev-parse", "HEAD^{tree}") or "".join(Texts(it).whole() for it in folders().values())


def planned():
    """The crates that the gate must try, and the others in the order that the digest of HEAD's tree gives."""
    here, changed = folders(), changed_crates()
    if changed is None:
        print("wrong_bodies: git has no earlier commit here, so which crates have changed is not known")
    tree = order_of_tree()
    others = sorted({*here} - (changed or set()), key=lambda it: hashlib.sha256(f"{tree} {it}".encode()).hexdigest())
    return [it for it in here if it in (changed or set())], others


def used():
    """The seconds of the processors that the checks so far have taken."""
    children = resource.getrusage(resource.RUSAGE_CHILDREN)
    return children.ru_utime + children.ru_stime


class Gate:
    """The trials of one gate."""

    def __init__(self, libraries, minutes):
        self.libraries, self.minutes, self.table, self.order = libraries, minutes, Table(), order_of_tree()
        self.missing = libraries.take(libraries.crates)
        libraries.proved()
        self.faults, self.bodies, self.tried, self.running = [], 0, [], {}

    def try_crate(self, name):
        """Tries a round of the wrong bodies of a crate, and compares what refuses them with their lines."""
        crate = self.libraries.crate(name)
        missing = [it.name for it in crate.below() if it in self.missing]
        if missing:
            self.faults.append(f"{name}: the libraries of {' '.join(missing)} are missing: run rt ci")
            return
        trial = Trial(self.libraries, crate, order=self.order)
        self.running[name] = time.monotonic()
        is_proved = trial.run()
        del self.running[name]
        if not is_proved:
            self.faults.append(f"{name} is not proved as it stands")
            return
        lines, names = trial.lines(), {name_of(it.file) for it in trial.tried()}
        kept = lines if name in self.table.counted else {it: line for it, (_, line) in self.table.bodies.get(name, {}).items() if it in names}
        self.faults += [f"{name}/{it}: its line says {kept.get(it)}, and now it is {lines.get(it, 'not refused')}" for it in sorted({*lines, *kept}) if lines.get(it) != kept.get(it)]
        self.faults += [f"{name}: {trial.told()}"] * bool(trial.faults())
        self.bodies += len(trial.tried())
        self.tried.append(name)
        print(f"{name}: {trial.told()}", flush=True)

    def in_lanes(self, names, is_enough):
        """Tries the crates, two at once where there are processors for it, and begins none once it is enough."""
        with ThreadPoolExecutor(max(1, self.libraries.rt.processors() // 2)) as pool:
            list(pool.map(lambda it: None if is_enough() else self.try_crate(it), names))

    def at_work(self):
        """The seconds by the clock since the trials that haven't ended were begun."""
        return sum(time.monotonic() - it for it in list(self.running.values()))

    def run(self):
        changed, others = planned()
        self.in_lanes(changed, lambda: False)
        since = used()
        self.in_lanes(others, lambda: used() - since + self.at_work() >= 60 * self.minutes)
        print("".join(f"wrong_bodies: {it}\n" for it in self.faults), end="")
        chosen = [it for it in self.tried if it in others]
        print(
            f"{self.bodies} wrong bodies tried anew in {used() / 60:.1f} minutes of the processors, "
            f"of what has changed: {' '.join(changed) or 'none'}, and by the digest of the tree: {' '.join(chosen) or 'none'}; {len(self.faults)} faults"
        )
        return 1 if self.faults else 0


class Anew:
    """The trials of crates whose lines are written."""

    def __init__(self, is_told):
        self.libraries, self.is_told, self.faults, self.writing = Libraries(), is_told, 0, threading.Lock()

    def make_below(self, crates):
        """Brings the libraries below these crates into place, from what is kept where that is all there, and builds the others."""
        wanted = {below.name for it in crates for below in it.below()}
        if all(it.is_built() for it in self.libraries.crates if it.name in wanted):
            self.libraries.proved()
            return
        for crate in self.libraries.take([it for it in self.libraries.crates if it.name in wanted]):
            print(f"the library of {crate.name} is missing, and is made first", flush=True)
            if crate.build_rlib(["--jobs", "1"], anew=False):
                sys.exit(f"wrong_bodies: {crate.name} is not proved")

    def try_crate(self, crate, names):
        """Tries these wrong bodies of a crate, and writes their lines where each is refused and no text of theirs has changed meanwhile."""
        folder = Path(crate.folder)
        before, trial = Texts(folder), Trial(self.libraries, crate, self.is_told, names=names)
        digests = {it: before.digest(it) for it in names}
        is_tried = trial.run()
        print(f"{crate.name}: {trial.told()}" + ("" if is_tried else ", it is not proved as it stands"), flush=True)
        with self.writing:
            self.faults += trial.faults()
            after, lines = Texts(folder), trial.lines()
            if not trial.faults() and all(it in after.edits and after.digest(it) == digest for it, digest in digests.items()):
                Table().write(crate.name, {it: (digests[it], line) for it, line in lines.items()})

    def run(self, bodies, at_once):
        """Tries the wrong bodies of these crates, a set of names for each."""
        crates = [it for it in self.libraries.crates if bodies.get(it.name)]
        self.make_below(crates)
        with ThreadPoolExecutor(at_once) as pool:
            list(pool.map(lambda it: self.try_crate(it, bodies[it.name]), crates))
        print(f"{self.faults} faults")
        return 1 if self.faults else 0


def try_anew(asked):
    """Tries the wrong bodies that are asked for: of the crates that are named or of all, all or those that have changed."""
    table, texts = Table(), {name: Texts(folder) for name, folder in folders().items() if not asked.crates or name in asked.crates}
    is_all = asked.all or asked.crates and not asked.changed
    return Anew(asked.list).run({name: {*it.edits} if is_all else table.stale(it) for name, it in texts.items()}, asked.at_once)


def main():
    options = argparse.ArgumentParser(description=__doc__, formatter_class=argparse.RawDescriptionHelpFormatter)
    for word in ("--verify", "--gate", "--plan", "--all", "--changed", "--list"):
        options.add_argument(word, action="store_true")
    options.add_argument("--minutes", type=float, default=5)
    options.add_argument("--at-once", type=int, default=1)
    options.add_argument("--jobs", type=int, default=1)
    options.add_argument("crates", nargs="*")
    asked = options.parse_args()
    Trial.jobs = asked.jobs
    os.chdir(ROOT)
    if asked.verify:
        return verify()
    if asked.gate and asked.plan:
        changed, others = planned()
        print(f"changed: {' '.join(changed) or 'none'}\nthen: {' '.join(others)}")
        return 0
    if asked.gate:
        return Gate(Libraries(), asked.minutes).run()
    unknown = set(asked.crates) - set(folders())
    if unknown:
        sys.exit(f"wrong_bodies: no wrong bodies in {' '.join(sorted(unknown))}")
    return try_anew(asked)


if __name__ == "__main__":
    sys.exit(main())
