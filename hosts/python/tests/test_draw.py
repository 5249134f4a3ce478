"""The lineage, as a tree and as SVG."""

import os
import subprocess
import sys
import tempfile
import unittest
from pathlib import Path
from xml.etree import ElementTree

from yuzgont import Lineage, Pool

PACKAGE = Path(__file__).resolve().parents[1]
SCRIPT = """\
# a clone of a snapshot between two others, and one that was promoted
write p 0 0 61
snapshot p@monday
write p 0 0 62
clone p@monday p/try
create p/a
snapshot p/a@s1
hold keep p/a@s1
snapshot p/a@s2
bookmark p/a@s2 p/a#sent
clone p/a@s1 p/c
promote p/try
set quota=1048576 p/a
"""
# A first block takes 3,072 bytes (docs/CONCEPTS.md): p has its own block beside that of its origin, which p/try has now.
TREE = """\
6K of 50K allocated
p/a  used 0B, refers 0B, quota 1M
├─ @s1  used 0B, refers 0B, group 2, 1 hold
│  └─ clone p/c  used 0B, refers 0B
├─ @s2  used 0B, refers 0B, group 3
└─ #sent  bookmark of group 3
p/try  used 3K, refers 3K
└─ @monday  used 0B, refers 3K, group 1
   └─ clone p  used 6K, refers 3K
"""
SVG = "{http://www.w3.org/2000/svg}"


def lineage(script, blocks=100):
    with Pool(blocks) as pool:
        for line in script.splitlines():
            if not line.startswith("#"):
                pool.line(line)
        return Lineage.of(pool)


class Tree(unittest.TestCase):
    def test_tree(self):
        self.assertEqual(lineage(SCRIPT).tree(), TREE)

    def test_an_empty_pool(self):
        self.assertEqual(lineage("").tree(), "0B of 50K allocated\np  used 0B, refers 0B\n")


class Drawing(unittest.TestCase):
    def setUp(self):
        self.root = ElementTree.fromstring(lineage(SCRIPT).svg())

    def test_each_dataset_has_a_box_of_its_own(self):
        titles = sorted(box.find(f"{SVG}title").text.split("\n")[0] for box in self.root.iter(f"{SVG}g"))
        self.assertEqual(titles, sorted(["p", "p/a", "p/c", "p/try", "@s1", "@s2", "@monday"]))
        places = [(float(it.get("x")), float(it.get("y"))) for it in self.root.iter(f"{SVG}rect") if it.get("x")]
        self.assertEqual(len(set(places)), 7)
        width, height = float(self.root.get("width")), float(self.root.get("height"))
        self.assertTrue(all(x + 140 <= width and y + 50 <= height for x, y in places))

    def test_an_arrow_for_each_dataset_that_something_stands_before(self):
        """@s2, the live maps of p/a, p/try, p and p/c; but not @s1 and @monday."""
        lines = list(self.root.iter(f"{SVG}line"))
        self.assertEqual(len(lines), 5)
        self.assertTrue(all(float(it.get("x2")) < float(it.get("x1")) for it in lines))

    def test_long_chains_of_clones(self):
        script = "".join(f"snapshot {name}@s\nclone {name}@s p/c{at}\n" for at, name in enumerate(["p", *(f"p/c{it}" for it in range(30))]))
        told = lineage(script, 1000)
        self.assertEqual(told.tree().count("clone"), 31)
        self.assertEqual(len(list(ElementTree.fromstring(told.svg()).iter(f"{SVG}g"))), 63)


class Command(unittest.TestCase):
    def draw(self, *words, given=""):
        """The program's end; it finds the package where these tests do."""
        environment = {**os.environ, "PYTHONPATH": str(PACKAGE)}
        return subprocess.run([sys.executable, "-m", "yuzgont", *words], input=given, capture_output=True, text=True, env=environment, check=False)

    def test_draw(self):
        with tempfile.TemporaryDirectory() as room:
            script, drawing = Path(room) / "script", Path(room) / "drawing.svg"
            script.write_text(SCRIPT)
            done = self.draw("draw", str(script), "--svg", str(drawing), "--blocks", "100")
            self.assertEqual((done.returncode, done.stdout, done.stderr), (0, TREE, ""))
            self.assertEqual(ElementTree.parse(drawing).getroot().tag, f"{SVG}svg")

    def test_refused_lines_are_told(self):
        done = self.draw("draw", "-", given="destroy p\n\nsnapshot p@s\n")
        self.assertEqual((done.returncode, done.stderr), (0, "line 1: destroy p: error 27 IsRoot\n"))
        self.assertIn("└─ @s", done.stdout)

    def test_what_cannot_be_drawn(self):
        self.assertEqual(self.draw("draw", "/nowhere/script").returncode, 1)
        self.assertEqual(self.draw("draw", "-", "--id", "0").returncode, 1)


if __name__ == "__main__":
    unittest.main()
