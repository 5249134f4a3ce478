"""Fixtures for pytest: installed with the package, they are there without an import.

    def test_backup(yuzgont_pool):
        yuzgont_pool.snapshot("p@s")

    def test_two(make_yuzgont_pool):
        live, backup = make_yuzgont_pool(), make_yuzgont_pool(blocks=1000)
"""

from contextlib import ExitStack

import pytest

from .pool import Pool


@pytest.fixture
def make_yuzgont_pool():
    """Makes fresh pools, each with a random id, which are closed after the test. It takes what Pool takes."""
    with ExitStack() as pools:
        yield lambda *words, **named: pools.enter_context(Pool(*words, **named))


@pytest.fixture
def yuzgont_pool(make_yuzgont_pool):
    """A fresh pool of 100,000 blocks with a random id, closed after the test."""
    return make_yuzgont_pool()
