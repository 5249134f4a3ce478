#!/usr/bin/env python3
"""Compares the numbers and lists that the pages tell of this repository with what is there.

    python3 bench/counts.py [--write]

Each sentence of CLAIMS stands once in its page, with numbers or lists of names where it has words in braces. Each number is what COUNTERS counts
under that word, and each list what LISTS has there, in the order of the alphabet. Where one of these pages counts something of NOUNS in digits
elsewhere, that is a fault too, since nothing compares it. --write puts the numbers and lists that are so into the pages. The status is 1 where one
isn't so, or a sentence isn't there.
"""

import argparse
import re
import sys
from pathlib import Path

from believed import PROMISES, believed, lines_in
from rows import DATA, EXAMPLES
from wrong_bodies import edits_of, folders

ROOT = Path(__file__).resolve().parent.parent
CRATES = ROOT / "crates"
WORDS = "none one two three four five six seven eight nine ten eleven twelve thirteen fourteen fifteen sixteen seventeen eighteen nineteen twenty".split()
WORDS += [f"twenty-{it}" for it in WORDS[1:10]] + ["thirty"]
NUMBER = rf"\d[\d,]*|{'|'.join(sorted(WORDS[1:], key=len, reverse=True))}"
LIST = r"`\w+`(?:,\s+`\w+`)*"
NOUNS = "crates|wrong bodies|cases|examples|refusals|exports|stories|promises|lines of (?:source|definitions|proofs|Python)"
PAGES = ("README.md", "docs/GATE.md", "docs/AUDIT.md", "docs/PROVED.md", "docs/CONTRIBUTING.md")
CLAIMS = (
    ("README.md", "## {promises} promises"),
    ("README.md", "The {crates} crates have some {source} lines of source, {definitions} of definitions and {proofs} of proofs"),
    ("README.md", "`crates/*/refused`: {bodies} wrong bodies of {crates with bodies} crates"),
    ("README.md", "the ported crates {ported crates}, and what they use"),
    ("docs/PROVED.md", "want of memory is one of the {refusals} refusals"),
    ("docs/AUDIT.md", "lists the files that the step and the run use, {believed} of {files of definitions}, each after those that it uses: {believed lines} lines of definitions"),
    ("docs/AUDIT.md", "| `laws/specs/Both`, with others of `laws` and `world/specs` | {snapshots: files}, {snapshots: lines} |"),
    ("docs/AUDIT.md", "| `limits/specs/Limits` | {quotas: files}, {quotas: lines} |"),
    ("docs/AUDIT.md", "| `laws/specs`: `Answered`, `Sends`, `Laws`, with `world/specs` below | {sends: files}, {sends: lines} |"),
    ("docs/AUDIT.md", "| `session/specs`: `Receipts`, `Whole`, `History` | {threads: files}, {threads: lines} |"),
    ("docs/AUDIT.md", "`base/specs/Reading`, `Refusals` | {lines: files}, {lines: lines} |"),
    ("docs/AUDIT.md", "| `pool/specs/Applied`, with `image/specs` and others below | {between: files}, {between: lines} |"),
    ("docs/AUDIT.md", "the same machine in {plain} lines of Python"),
    ("docs/AUDIT.md", "{bodies} wrong bodies of {crates with bodies} crates"),
    ("docs/AUDIT.md", "the kit's library and of its crates {ported crates}, and of what these use"),
    ("docs/CONTRIBUTING.md", "There are {must-fail}, in {crates with must-fail} crates"),
    ("docs/GATE.md", "the {bodies} wrong bodies of {crates with bodies} crates"),
    ("docs/GATE.md", "the {cases} cases of `rows/` and the {scripts} scripts of `examples/`"),
    ("docs/GATE.md", "each of the {crates} crates is proved"),
    ("docs/GATE.md", "the {must-fail} wrong bodies of `must-fail/`"),
    ("docs/GATE.md", "the {examples} examples"),
    ("docs/GATE.md", "the {scripts of refused memory} scripts of `bench/refused.txt`"),
)


def thousands_of(pattern):
    """The lines of files, to the nearest thousand."""
    return round(sum(len(file.read_text(encoding="utf-8").splitlines()) for file in CRATES.glob(pattern)), -3)


def count_bodies(place):
    return [len([it for it in edits_of(folder) if place in (None, it.parent.name)]) for folder in folders().values()]


def listed(file):
    """The lines of a file that are neither empty nor comments."""
    return [it for it in file.read_text().splitlines() if it and not it.startswith("#")]


def is_case(line):
    return line.startswith("pool ") and " => " not in line


def promises():
    """The rows of the table below the heading in README.md."""
    table = re.search(r" promises\n\n((?:\|.*\n)+)", (ROOT / "README.md").read_text())
    return len(table[1].splitlines()) - 2 if table else 0


def refusals():
    """The variants of the type that has them."""
    text = next(CRATES.glob("base/src/**/refusal.rt")).read_text()
    body = re.search(r"pub enum Refusal \{\n(.*?)\n\}", text, re.S)[1]
    return len(re.findall(r"^    \w+(?: = \d+)?,", body, re.M))


def ported_crates():
    """The names in the lines of crates.txt that are no crates of this repository."""
    lines = [it.partition(":") for it in listed(ROOT / "crates.txt")]
    return sorted({name for _, _, names in lines for name in names.split()} - {head.split()[0] for head, _, _ in lines})


COUNTERS = {
    "promises": promises,
    "refusals": refusals,
    "crates": lambda: len(listed(ROOT / "crates.txt")),
    "source": lambda: thousands_of("*/src/**/*.rt"),
    "definitions": lambda: thousands_of("*/specs/**/*.antt"),
    "proofs": lambda: thousands_of("*/proofs/**/*.antt"),
    "files of definitions": lambda: sum(1 for _ in CRATES.glob("*/specs/**/*.antt")),
    "believed": lambda: len(believed()),
    "believed lines": lambda: sum(map(lines_in, believed())),
    **{f"{it}: files": lambda it=it: len(believed(it)) for it in PROMISES},
    **{f"{it}: lines": lambda it=it: sum(map(lines_in, believed(it))) for it in PROMISES},
    "plain": lambda: len((ROOT / "bench" / "plain.py").read_text().splitlines()),
    "bodies": lambda: sum(count_bodies(None)),
    "crates with bodies": lambda: len(folders()),
    "must-fail": lambda: sum(count_bodies("must-fail")),
    "crates with must-fail": lambda: sum(it > 0 for it in count_bodies("must-fail")),
    "cases": lambda: sum(is_case(line) for file in DATA.glob("*.rows") for line in file.read_text().splitlines()),
    "scripts": lambda: len([*EXAMPLES.glob("*.script")]),
    "examples": lambda: len([*EXAMPLES.glob("*.script"), *EXAMPLES.glob("*.py")]),
    "scripts of refused memory": lambda: len(listed(ROOT / "bench" / "refused.txt")),
}
LISTS = {"ported crates": ported_crates}
REAL = COUNTERS | LISTS


def value_of(text):
    """The number that a text tells, in digits or as a word, or the names of its list."""
    if text.startswith("`"):
        return re.findall(r"\w+", text)
    return WORDS.index(text.lower()) if text.lower() in WORDS else int(text.replace(",", ""))


def as_told(real, like=""):
    """A list, or a number in the form of the one that it replaces: in digits or as a word, with its capital."""
    if isinstance(real, list):
        return ", ".join(f"`{it}`" for it in real)
    if like.lower() not in WORDS or real >= len(WORDS):
        return f"{real:,}"
    return WORDS[real].capitalize() if like[0].isupper() else WORDS[real]


def pattern_of(claim):
    """A claim as a pattern in which any whitespace stands for a space, and its words in braces in their order."""
    parts = re.split(r"\{(.*?)\}", claim)
    patterns = [re.escape(it).replace(r"\ ", r"\s+") for it in parts]
    patterns[1::2] = [f"({LIST if it in LISTS else NUMBER})" for it in parts[1::2]]
    return re.compile("".join(patterns), re.I), parts[1::2]


def compare(page, text, claim):
    """The page's text with the numbers and lists that are so, what is wrong with the claim there, and where it stands."""
    pattern, names = pattern_of(claim)
    found = [*pattern.finditer(text)]
    if len(found) != 1:
        return text, [f"{page}: this stands {len(found)} times, and not once: {claim}"], []
    faults, made, at = [], "", 0
    for place, name in enumerate(names, 1):
        told, real = found[0][place], REAL[name]()
        faults += [f"{page}: {told} for {as_told(real)} ({name}): {claim}"] * (value_of(told) != real)
        made += text[at : found[0].start(place)] + (as_told(real, told) if value_of(told) != real else told)
        at = found[0].end(place)
    return made + text[at:], faults, [found[0].span()]


def uncounted(page, text):
    """The numbers of such things in a page that no claim compares."""
    spans = [it for place, claim in CLAIMS if place == page for it in compare(page, text, claim)[2]]
    for found in re.finditer(rf"\b\d[\d,]*\s+(?:{NOUNS})\b", text):
        if not any(first <= found.start() < last for first, last in spans):
            yield f"{page}: nothing compares this number: {' '.join(found[0].split())}"


def main():
    options = argparse.ArgumentParser(description=__doc__, formatter_class=argparse.RawDescriptionHelpFormatter)
    options.add_argument("--write", action="store_true")
    is_written = options.parse_args().write
    faults, count = [], 0
    for page in PAGES:
        text = old = (ROOT / page).read_text(encoding="utf-8")
        for claim in [it for place, it in CLAIMS if place == page]:
            text, wrong, _ = compare(page, text, claim)
            faults, count = faults + wrong, count + len(re.findall(r"\{", claim))
        faults += uncounted(page, old)
        if is_written and text != old:
            (ROOT / page).write_text(text, encoding="utf-8")
    print("".join(f"counts: {it}\n" for it in faults) + f"{count} numbers and lists of {len(PAGES)} pages, {len(faults)} faults{' before they were written' * is_written}")
    return 1 if faults and not is_written else 0


if __name__ == "__main__":
    sys.exit(main())
