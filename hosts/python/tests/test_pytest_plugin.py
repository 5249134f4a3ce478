"""The fixtures: by pytest where it is installed, and else by a stand-in for its decorator, which leaves a function as it is."""

import importlib
import importlib.util
import os
import subprocess
import sys
import tempfile
import types
import unittest
from pathlib import Path
from unittest import mock

import yuzgont

PACKAGE = Path(__file__).resolve().parents[1]
TESTS = """
def test_one(yuzgont_pool):
    yuzgont_pool.snapshot("p@s")

def test_another_is_fresh(yuzgont_pool):
    assert yuzgont_pool.list() == ["p"]

def test_two(make_yuzgont_pool):
    live, backup = make_yuzgont_pool(), make_yuzgont_pool(blocks=1000)
    assert live.id != backup.id
"""


class Fixtures(unittest.TestCase):
    @unittest.skipUnless(importlib.util.find_spec("pytest"), "pytest is not installed")
    def test_by_pytest(self):
        with tempfile.TemporaryDirectory() as room:
            (Path(room) / "test_it.py").write_text(TESTS)
            words = [sys.executable, "-m", "pytest", "-q", "-p", "yuzgont.pytest_plugin", room]
            done = subprocess.run(words, env={**os.environ, "PYTHONPATH": str(PACKAGE)}, capture_output=True, text=True, check=False)
            self.assertEqual(done.returncode, 0, done.stdout)
            self.assertIn("3 passed", done.stdout)

    def test_pools_are_fresh_and_closed_after_the_test(self):
        stand_in = types.SimpleNamespace(fixture=lambda function: function)
        with mock.patch.dict(sys.modules, {"pytest": stand_in}):
            sys.modules.pop("yuzgont.pytest_plugin", None)
            plugin = importlib.import_module("yuzgont.pytest_plugin")
        sys.modules.pop("yuzgont.pytest_plugin", None)
        fixture = plugin.make_yuzgont_pool()
        make = next(fixture)
        pools = [plugin.yuzgont_pool(make), make(blocks=1000), make(10, pool_id=7)]
        self.assertEqual([pool.blocks for pool in pools], [100_000, 1000, 10])
        self.assertEqual([pool.list() for pool in pools], [["p"]] * 3)
        self.assertEqual(pools[2].id, 7)
        self.assertEqual(list(fixture), [])
        for pool in pools:
            self.assertRaises(yuzgont.PoolMissing, pool.list)


if __name__ == "__main__":
    unittest.main()
