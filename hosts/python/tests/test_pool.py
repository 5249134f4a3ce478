"""The calls of a pool. What is expected stands in docs/COMMANDS.md, REFUSALS.md and DEFINITIONS.md."""

import gc
import threading
import unittest
from pathlib import Path

import yuzgont
from yuzgont import BLOCK_SIZE, Pool, Receiving

HOSTS = Path(__file__).resolve().parents[2]
# The first block of a file system: its leaf and five levels of indirect blocks.
FIRST = 6 * BLOCK_SIZE


def filled(byte):
    return bytes([byte]) * BLOCK_SIZE


class Case(unittest.TestCase):
    def setUp(self):
        self.pool = self.enter(Pool(1000, 7))

    def enter(self, pool):
        self.addCleanup(pool.close)
        return pool

    def refused(self, kind, call, *words, **named):
        """A call is refused by this kind, and nothing of the pool has changed."""
        before = self.told()
        with self.assertRaises(kind) as caught:
            call(*words, **named)
        self.assertIs(type(caught.exception), kind)
        self.assertEqual(self.told(), before)
        return caught.exception

    def told(self):
        pool = self.pool
        sums = [pool.pool_get(prop) for prop in ("allocated", "free", "freeing", "waiting", "group")]
        return [pool.list(), sums, [(name, pool.get(name, "used"), pool.get(name, "guid")) for name in pool.list()]]


class Session(Case):
    def test_replies_of_the_readme(self):
        lines = (HOSTS / "session.script").read_text().splitlines()
        wanted = (HOSTS / "session.replies").read_text()
        self.assertEqual("".join(map(self.pool.reply, lines)), wanted)


class Blocks(Case):
    def test_a_block_is_read_as_it_was_written(self):
        self.pool.write("p", 255, 4095, filled(97))
        self.assertEqual(self.pool.read("p", 255, 4095), filled(97))
        self.assertEqual(self.pool.get("p", "referenced"), FIRST)

    def test_short_bytes_have_zeros_after_them(self):
        self.pool.write("p", 0, 0, b"a\0b")
        self.assertEqual(self.pool.read("p", 0, 0), b"a\0b" + bytes(509))

    def test_holes(self):
        self.assertIsNone(self.pool.read("p", 0, 0))
        for block in range(3):
            self.pool.write("p", 1, block, filled(block))
        self.pool.punch("p", 1, 0)
        self.assertIsNone(self.pool.read("p", 1, 0))
        self.assertEqual(self.pool.read("p", 1, 1), filled(1))
        self.pool.remove_object("p", 1)
        self.assertIsNone(self.pool.read("p", 1, 1))

    def test_what_is_no_block(self):
        self.refused(yuzgont.BadLength, self.pool.write, "p", 0, 0, bytes(513))
        self.refused(yuzgont.BadKey, self.pool.write, "p", 256, 0, b"a")
        self.refused(yuzgont.BadKey, self.pool.write, "p", 0, 4096, b"a")
        self.refused(yuzgont.BadKey, self.pool.write, "p", -1, 0, b"a")
        self.refused(yuzgont.BadKey, self.pool.read, "p", 0, 2**32)
        self.refused(yuzgont.NoDataset, self.pool.read, "p/a", 0, 0)


class Snapshots(Case):
    def test_a_snapshot_keeps_its_blocks(self):
        self.pool.write("p", 0, 0, filled(1))
        self.pool.snapshot("p@s")
        self.pool.write("p", 0, 0, filled(2))
        self.assertEqual(self.pool.read("p@s", 0, 0), filled(1))
        self.assertEqual(self.pool.get("p@s", "used"), FIRST)
        self.assertEqual(self.pool.get("p", "usedbysnapshots"), FIRST)
        self.assertEqual(self.pool.written_since("p", "p@s"), FIRST)
        self.assertEqual(self.pool.would_free("p", "s", "s"), FIRST)
        self.pool.rollback("p@s")
        self.assertEqual(self.pool.read("p", 0, 0), filled(1))

    def test_guids_are_the_pools_id_and_a_counter(self):
        self.pool.snapshot("p@a")
        self.pool.snapshot("p@b")
        self.assertEqual([self.pool.get(f"p@{name}", "guid") for name in "ab"], [7 * 2**32 + 1, 7 * 2**32 + 2])
        self.assertEqual([self.pool.get(f"p@{name}", "createtxg") for name in "ab"], [1, 2])

    def test_recursive(self):
        self.pool.create("p/a")
        self.pool.snapshot("p@s", recursive=True)
        self.assertEqual(self.pool.list(), ["p", "p@s", "p/a", "p/a@s"])
        self.refused(yuzgont.HasChildren, self.pool.destroy, "p/a")
        self.pool.destroy("p/a", recursive=True)
        self.assertEqual(self.pool.list(), ["p", "p@s"])

    def test_destroys_of_several(self):
        self.pool.create("p/a")
        for name in "1234":
            self.pool.write("p", 0, 0, name.encode())
            self.pool.snapshot(f"p@{name}", recursive=True)
        self.pool.write("p", 0, 0, b"5")
        self.pool.destroy_snapshots(["p@3", "p/a@2", "p@none", "p@1", "p@3"])
        self.assertEqual(self.pool.list(), ["p", "p@2", "p@4", "p/a", "p/a@1", "p/a@3", "p/a@4"])
        self.assertEqual(self.pool.pool_get("freeing"), 2 * FIRST)
        self.pool.destroy_snapshots(["p@4", "p/a@1"], recursive=True)
        self.assertEqual(self.pool.list(), ["p", "p@2", "p/a", "p/a@3"])

    def test_destroys_of_several_are_all_or_none(self):
        for name in "123":
            self.pool.snapshot(f"p@{name}")
        self.pool.clone("p@2", "p/c")
        self.refused(yuzgont.HasClones, self.pool.destroy_snapshots, ["p@1", "p@2"])
        self.pool.hold("kept", "p@3")
        self.refused(yuzgont.Busy, self.pool.destroy_snapshots, ["p@1", "p@2", "p@3"])
        self.refused(yuzgont.NoDataset, self.pool.destroy_snapshots, ["p@4", "p/a@1"])
        self.refused(yuzgont.BadName, self.pool.destroy_snapshots, ["p@1", "p"])
        self.refused(yuzgont.BadName, self.pool.destroy_snapshots, ["p@1 p@2"])
        self.refused(yuzgont.BadName, self.pool.destroy_snapshots, [])
        self.assertRaises(TypeError, self.pool.destroy_snapshots, [b"p@1"])
        self.pool.destroy_snapshots(iter(["p@1", "p@2", "p@3"]), deferred=True)
        self.assertEqual([self.pool.get(f"p@{name}", "defer_destroy") for name in "23"], [True, True])
        self.pool.release("kept", "p@3")
        self.pool.destroy("p/c")
        self.assertEqual(self.pool.list(), ["p"])

    def test_clones(self):
        self.pool.write("p", 0, 0, filled(1))
        self.pool.snapshot("p@s")
        self.pool.clone("p@s", "p/c")
        self.assertEqual(self.pool.get("p/c", "origin"), "p@s")
        self.assertEqual(self.pool.get("p@s", "clones"), ["p/c"])
        self.assertEqual(self.pool.get("p/c", "used"), 0)
        self.assertIsNone(self.pool.get("p", "origin"))
        self.refused(yuzgont.HasClones, self.pool.destroy, "p@s")
        self.pool.promote("p/c")
        self.assertEqual(self.pool.get("p", "origin"), "p/c@s")
        self.refused(yuzgont.NotClone, self.pool.promote, "p/c")

    def test_holds(self):
        self.pool.snapshot("p@s")
        self.assertEqual(self.pool.holds("p@s"), [])
        self.pool.hold("b", "p@s")
        self.pool.hold("a", "p@s")
        self.assertEqual(self.pool.holds("p@s"), ["b", "a"])
        self.refused(yuzgont.Busy, self.pool.destroy, "p@s")
        self.refused(yuzgont.TagExists, self.pool.hold, "a", "p@s")
        self.pool.destroy("p@s", deferred=True)
        self.assertIs(self.pool.get("p@s", "defer_destroy"), True)
        self.pool.release("a", "p@s")
        self.pool.release("b", "p@s")
        self.assertEqual(self.pool.list(), ["p"])

    def test_views(self):
        self.pool.write("p", 0, 0, filled(1))
        self.pool.snapshot("p@s")
        with self.pool.view("p@s") as view:
            self.pool.write("p", 0, 0, filled(2))
            self.assertEqual(view.read(0, 0), filled(1))
            self.refused(yuzgont.Busy, self.pool.destroy, "p@s")
            self.refused(yuzgont.Busy, self.pool.abandon)
        self.pool.destroy("p@s")
        view.close()
        self.refused(yuzgont.NoView, self.pool.line, f"unview {view.number}")
        self.pool.snapshot("p@t")
        late = self.pool.view("p@t")
        self.pool.close()
        late.close()


class Renames(Case):
    def setUp(self):
        super().setUp()
        self.pool.create("p/a")
        self.pool.write("p/a", 0, 0, filled(1))
        self.pool.snapshot("p/a@s")
        self.pool.bookmark("p/a@s", "p/a#m")
        self.pool.create("p/a/x")
        self.pool.snapshot("p/a/x@u")
        self.pool.clone("p/a@s", "p/c")

    def test_all_below_goes_with_it(self):
        self.pool.set("p/a", "quota", 51200)
        self.pool.hold("kept", "p/a@s")
        sent, guid = self.pool.send("p/a@s"), self.pool.get("p/a@s", "guid")
        self.pool.rename("p/a", "p/d")
        self.assertEqual(self.pool.list(), ["p", "p/c", "p/d", "p/d@s", "p/d#m", "p/d/x", "p/d/x@u"])
        self.assertEqual(self.pool.get("p/c", "origin"), "p/d@s")
        self.assertEqual(self.pool.get("p/d@s", "clones"), ["p/c"])
        self.assertEqual(self.pool.get("p/d", "quota"), 51200)
        self.assertEqual(self.pool.holds("p/d@s"), ["kept"])
        self.assertEqual([self.pool.get(name, "guid") for name in ("p/d@s", "p/d#m")], [guid, guid])
        self.assertEqual(self.pool.read("p/d", 0, 0), filled(1))
        self.assertEqual(self.pool.send("p/d@s"), sent)
        self.refused(yuzgont.NoDataset, self.pool.read, "p/a", 0, 0)

    def test_into_another_and_under_its_own_clone(self):
        self.pool.rename("p/a", "p/c/a")
        self.assertEqual(self.pool.list(), ["p", "p/c", "p/c/a", "p/c/a@s", "p/c/a#m", "p/c/a/x", "p/c/a/x@u"])
        self.assertEqual(self.pool.get("p/c", "origin"), "p/c/a@s")
        self.pool.rename("p/c/a/x", "p/a")
        self.assertEqual(self.pool.list(), ["p", "p/a", "p/a@u", "p/c", "p/c/a", "p/c/a@s", "p/c/a#m"])

    def test_an_abandon_takes_it_back(self):
        before = self.told()
        self.pool.sync()
        self.pool.rename("p/a", "p/d")
        self.pool.abandon()
        self.assertEqual(self.told()[0], before[0])

    def test_what_is_refused(self):
        self.refused(yuzgont.NoDataset, self.pool.rename, "p/none", "p/c")
        self.refused(yuzgont.IsRoot, self.pool.rename, "p", "p/c")
        for name in ("p", "p/c", "p/a", "p/a/x"):
            self.refused(yuzgont.Exists, self.pool.rename, "p/a", name)
        for name in ("q", "p/none/a", "p/a/none/y"):
            self.refused(yuzgont.NoParent, self.pool.rename, "p/a", name)
        for name in ("p/a/y", "p/a/x/y", "p/" + "l" * 250, "p/d@s", "p/d e", ""):
            self.refused(yuzgont.BadName, self.pool.rename, "p/a", name)
        for name in ("p/a@s", "p/a#m", ""):
            self.refused(yuzgont.BadName, self.pool.rename, name, "p/d")
        self.assertRaises(TypeError, self.pool.rename, "p/a", b"p/d")
        self.assertIn("rename p/none p/c", str(self.refused(yuzgont.NoDataset, self.pool.rename, "p/none", "p/c")))
        self.pool.rename("p/a", "p/" + "l" * 249)

    def test_the_limits_above_the_new_name(self):
        self.pool.create("p/q")
        self.pool.set("p/q", "quota", FIRST - BLOCK_SIZE)
        self.refused(yuzgont.Quota, self.pool.rename, "p/a", "p/q/a")
        self.pool.set("p/q", "quota", FIRST)
        self.pool.rename("p/a", "p/q/a")
        self.assertEqual((self.pool.get("p/q", "used"), self.pool.get("p/q", "available")), (FIRST, 0))


class RenamesOfSnapshots(Case):
    """p/a, p/a/x and p/a/x/y, of which p/a/x has no snapshot s, and a clone p/c of p/a@s with p/c@s."""

    def setUp(self):
        super().setUp()
        self.pool.create("p/a")
        self.pool.write("p/a", 0, 0, filled(1))
        self.pool.snapshot("p/a@s")
        self.pool.bookmark("p/a@s", "p/a#s")
        self.pool.write("p/a", 0, 0, filled(2))
        self.pool.snapshot("p/a@t")
        for name in ("p/a/x", "p/a/x/y"):
            self.pool.create(name)
        self.pool.snapshot("p/a/x/y@s")
        self.pool.clone("p/a@s", "p/c")
        self.pool.snapshot("p/c@s")
        self.pool.hold("kept", "p/a@s")

    def test_its_name_alone_changes(self):
        sent, guid = self.pool.send("p/a@t", "p/a@s"), self.pool.get("p/a@s", "guid")
        self.pool.rename_snapshot("p/a@s", "u")
        self.assertEqual(self.pool.list(), ["p", "p/a", "p/a@u", "p/a@t", "p/a#s", "p/a/x", "p/a/x/y", "p/a/x/y@s", "p/c", "p/c@s"])
        self.assertEqual(self.pool.get("p/c", "origin"), "p/a@u")
        self.assertEqual(self.pool.get("p/a@u", "clones"), ["p/c"])
        self.assertEqual(self.pool.holds("p/a@u"), ["kept"])
        self.assertEqual([self.pool.get(name, "guid") for name in ("p/a@u", "p/a#s")], [guid, guid])
        self.assertEqual(self.pool.read("p/a@u", 0, 0), filled(1))
        self.assertEqual(self.pool.send("p/a@t", "p/a@u"), sent)
        self.refused(yuzgont.NoDataset, self.pool.read, "p/a@s", 0, 0)

    def test_those_below_go_with_it(self):
        self.pool.rename_snapshot("p/a@s", "u", recursive=True)
        self.assertEqual(self.pool.list(), ["p", "p/a", "p/a@u", "p/a@t", "p/a#s", "p/a/x", "p/a/x/y", "p/a/x/y@u", "p/c", "p/c@s"])
        self.assertEqual(self.pool.get("p/c", "origin"), "p/a@u")
        self.assertEqual(self.pool.holds("p/a@u"), ["kept"])

    def test_an_abandon_takes_it_back(self):
        before = self.told()
        self.pool.sync()
        self.pool.rename_snapshot("p/a@s", "u", recursive=True)
        self.pool.abandon()
        self.assertEqual(self.told()[0], before[0])

    def test_what_is_refused(self):
        self.pool.snapshot("p/a/x/y@w")
        for name in ("p/a@none", "p/none@s", "p/a/x@s"):
            self.refused(yuzgont.NoDataset, self.pool.rename_snapshot, name, "u", True)
        for name, recursive in (("t", False), ("s", False), ("w", True)):
            self.refused(yuzgont.Exists, self.pool.rename_snapshot, "p/a@s", name, recursive)
        for name in ("p/a@u", "u v", "l" * 252, ""):
            self.refused(yuzgont.BadName, self.pool.rename_snapshot, "p/a@s", name)
        self.refused(yuzgont.BadName, self.pool.rename_snapshot, "p/a@s", "l" * 248, True)
        for name in ("p/a", "p/a#s", ""):
            self.refused(yuzgont.BadName, self.pool.rename_snapshot, name, "u")
        self.assertRaises(TypeError, self.pool.rename_snapshot, "p/a@s", b"u")
        self.assertIn("rename -r p/a@none u", str(self.refused(yuzgont.NoDataset, self.pool.rename_snapshot, "p/a@none", "u", True)))
        self.pool.rename_snapshot("p/a@s", "l" * 247, True)
        self.pool.rename_snapshot("p/a@t", "l" * 251)

    def test_a_view_keeps_the_name(self):
        with self.pool.view("p/a/x/y@s") as view:
            self.refused(yuzgont.Busy, self.pool.rename_snapshot, "p/a/x/y@s", "u")
            self.refused(yuzgont.Busy, self.pool.rename_snapshot, "p/a@s", "u", True)
            self.pool.rename_snapshot("p/a@s", "u")
            self.assertIsNone(view.read(0, 0))
        self.pool.rename_snapshot("p/a/x/y@s", "u")


class Space(Case):
    def test_limits(self):
        for prop, size in (("quota", 102400), ("refquota", 51200), ("reservation", 20480), ("refreservation", 10240)):
            self.pool.set("p", prop, size)
            self.assertEqual(self.pool.get("p", prop), size)
        self.pool.set("p", "quota", None)
        self.assertEqual(self.pool.get("p", "quota"), 0)
        self.pool.set("p", "refreservation", None)
        self.pool.set("p", "refquota", FIRST)
        self.pool.write("p", 0, 0, b"a")
        self.refused(yuzgont.RefQuota, self.pool.write, "p", 0, 1, b"a")
        with self.assertRaises(ValueError):
            self.pool.set("p", "used", 512)

    def test_space_comes_back_by_slices_and_a_sync(self):
        self.pool.write("p", 0, 0, b"a")
        self.pool.snapshot("p@s")
        self.assertEqual(self.pool.sync(), 3)
        self.pool.punch("p", 0, 0)
        self.pool.destroy("p@s")
        self.assertEqual(self.pool.pool_get("freeing"), FIRST)
        self.assertEqual([self.pool.slice(1), self.pool.slice(100), self.pool.slice(100)], [1, 5, 0])
        self.assertEqual(self.pool.pool_get("waiting"), FIRST)
        self.assertEqual(self.pool.sync(), 4)
        self.assertEqual((self.pool.pool_get("free"), self.pool.pool_get("size")), (1000 * BLOCK_SIZE,) * 2)

    def test_abandon_goes_back_to_the_last_sync(self):
        self.pool.write("p", 0, 0, filled(1))
        self.pool.sync()
        self.pool.write("p", 0, 0, filled(2))
        self.pool.create("p/a")
        self.pool.abandon()
        self.assertEqual(self.pool.read("p", 0, 0), filled(1))
        self.assertEqual(self.pool.list(), ["p"])

    def test_no_space(self):
        small = self.enter(Pool(6))
        small.write("p", 0, 0, b"a")
        with self.assertRaises(yuzgont.NoSpace) as caught:
            small.write("p", 0, 1, b"a")
        self.assertEqual((caught.exception.code, caught.exception.name), (20, "NoSpace"))


class Streams(Case):
    def setUp(self):
        super().setUp()
        self.backup = self.enter(Pool(1000, 8))
        self.pool.write("p", 0, 0, filled(1))
        self.pool.snapshot("p@monday")
        self.pool.bookmark("p@monday", "p#sent")
        self.pool.write("p", 0, 0, filled(2))
        self.pool.snapshot("p@tuesday")

    def test_full_and_from_a_bookmark(self):
        self.backup.receive("p/copy@monday", self.pool.send("p@monday"))
        self.pool.destroy("p@monday")
        self.backup.receive("p/copy@tuesday", self.pool.send("p@tuesday", "p#sent"))
        self.assertEqual(self.backup.read("p/copy@monday", 0, 0), filled(1))
        self.assertEqual(self.backup.read("p/copy", 0, 0), filled(2))
        self.assertEqual(self.backup.get("p/copy@tuesday", "guid"), self.pool.get("p@tuesday", "guid"))

    def test_what_does_not_fit(self):
        full, younger = self.pool.send("p@monday"), self.pool.send("p@tuesday", "p@monday")
        for size in (0, len(full) - 1):
            with self.assertRaises(yuzgont.BadStream):
                self.backup.receive("p/copy@monday", full[:size])
        damaged = bytearray(full)
        damaged[len(full) // 2] ^= 1
        with self.assertRaises(yuzgont.BadStream):
            self.backup.receive("p/copy@monday", damaged)
        with self.assertRaises(yuzgont.NoDataset):
            self.backup.receive("p/copy@tuesday", younger)
        self.assertEqual(self.backup.list(), ["p"])
        self.backup.receive("p/copy@monday", full)
        self.backup.write("p/copy", 0, 1, b"own")
        with self.assertRaises(yuzgont.Modified):
            self.backup.receive("p/copy@tuesday", younger)
        self.backup.receive("p/copy@tuesday", younger, Receiving.BACK)
        self.assertIsNone(self.backup.read("p/copy", 0, 1))
        self.refused(yuzgont.NotAncestor, self.pool.send, "p@monday", "p@tuesday")

    def test_a_stream_of_many_blocks(self):
        """More than a line can have."""
        live, backup = self.enter(Pool(20000)), self.enter(Pool(20000))
        for number in range(6000):
            live.write("p", number // 4096, number % 4096, number.to_bytes(4, "big"))
        live.snapshot("p@s")
        stream = live.send("p@s")
        self.assertGreater(len(stream), 6000 * BLOCK_SIZE)
        backup.receive("p/copy@s", stream)
        self.assertEqual(backup.read("p/copy", 1, 1000)[:4], (5096).to_bytes(4, "big"))


class Ids(unittest.TestCase):
    def test_an_id_is_drawn_where_none_is_given(self):
        ids = {yuzgont.random_id() for _ in range(100)}
        self.assertGreater(len(ids), 90)
        self.assertTrue(all(0 < it < 2**32 for it in ids))
        with Pool(10) as one, Pool(10) as other:
            self.assertNotEqual(one.id, other.id)
            one.snapshot("p@s")
            self.assertEqual(one.get("p@s", "guid") >> 32, one.id)

    def increments(self, first_id, second_id):
        """A backup of a pool, and an increment of a second pool, which was started anew with other contents."""
        with Pool(1000, first_id) as first, Pool(1000, second_id) as second, Pool(1000) as backup:
            first.write("p", 0, 0, filled(1))
            first.snapshot("p@a")
            backup.receive("p/copy@a", first.send("p@a"))
            second.write("p", 0, 1, filled(2))
            second.snapshot("p@a")
            second.write("p", 0, 2, filled(3))
            second.snapshot("p@b")
            backup.receive("p/copy@b", second.send("p@b", "p@a"))
            return [backup.read("p/copy", 0, block) for block in range(3)], [second.read("p", 0, block) for block in range(3)]

    def test_why_an_id_is_never_used_twice(self):
        """With one id the receiver takes an increment onto another snapshot of the same guid, and has what no pool ever had."""
        received, sent = self.increments(7, 7)
        self.assertEqual(sent, [None, filled(2), filled(3)])
        self.assertEqual(received[1:], [None, filled(3)])
        with self.assertRaises(yuzgont.WrongSource):
            self.increments(None, None)

    def test_what_is_no_id_or_no_size(self):
        for pool_id in (0, -1, 2**32):
            self.assertRaises(yuzgont.BadName, Pool, 10, pool_id)
        for blocks in (0, -1, 4_194_305, 2**32 + 1):
            self.assertRaises(yuzgont.TooMany, Pool, blocks)


class Errors(Case):
    def test_each_refusal_has_its_number_and_its_name(self):
        """As docs/REFUSALS.md lists them."""
        table = (HOSTS.parent / "docs" / "REFUSALS.md").read_text().splitlines()
        listed = dict(row[2:].split(" |")[0].split() for row in table if row[2:3].isdigit())
        self.assertEqual({str(code): kind.__name__ for code, kind in yuzgont.REFUSALS.items()}, listed)
        self.assertEqual(len(listed), 30)
        for kind in yuzgont.REFUSALS.values():
            self.assertIs(getattr(yuzgont, kind.__name__), kind)
            self.assertTrue(issubclass(kind, yuzgont.Refusal))

    def test_an_exception_tells_what_was_asked(self):
        error = self.refused(yuzgont.NoDataset, self.pool.destroy, "p@gone")
        self.assertEqual((error.code, error.name), (2, "NoDataset"))
        self.assertIn("destroy p@gone", str(error))
        self.assertTrue(issubclass(yuzgont.NoMemory, MemoryError))

    def test_a_name_stays_one_word(self):
        self.pool.create("p/a")
        for name in ("p/a p", "-r p/a", "", "p/a\nlist", "p/\xe4", "p/a\0"):
            self.refused(yuzgont.BadName, self.pool.destroy, name)
            self.refused(yuzgont.BadName, self.pool.snapshot, f"{name}@s")
        self.refused(yuzgont.BadLine, self.pool.destroy, "-r")
        self.assertRaises(TypeError, self.pool.destroy, b"p/a")

    def test_lines(self):
        self.assertEqual(self.pool.line("list"), "p")
        self.assertEqual(self.pool.reply("nothing"), "error 28 BadLine\n")
        self.refused(yuzgont.BadLine, self.pool.line, "nothing")
        self.refused(yuzgont.BadLine, self.pool.line, "list\nlist")
        self.assertEqual(self.pool.reply(""), "")

    def test_a_closed_pool(self):
        self.pool.close()
        self.pool.close()
        self.assertRaises(yuzgont.PoolMissing, self.pool.sync)
        self.assertRaises(yuzgont.PoolMissing, self.pool.line, "list")
        self.assertIn("closed", repr(self.pool))


class Threads(Case):
    def test_calls_of_one_pool_wait_for_each_other(self):
        """The library takes no lock of its own, and ctypes lets other threads run during a call."""
        def work(object):
            for block in range(300):
                self.pool.write("p", object, block, bytes([object]))
                self.assertEqual(self.pool.line(f"read p {object} {block}")[:2], f"{object:02x}")

        faults = []
        threads = [threading.Thread(target=self.catching, args=(work, object, faults)) for object in range(4)]
        self.pool.close()
        self.pool = self.enter(Pool(20000))
        for thread in threads:
            thread.start()
        for thread in threads:
            thread.join()
        self.assertEqual(faults, [])
        for object in range(4):
            self.assertEqual(self.pool.read("p", object, 299)[0], object)

    @staticmethod
    def catching(work, object, faults):
        try:
            work(object)
        except Exception as fault:  # noqa: BLE001
            faults.append(fault)

    def test_a_pool_is_let_go_by_another_thread(self):
        pools = [Pool(100)]
        thread = threading.Thread(target=lambda: (pools.pop(), gc.collect()))
        thread.start()
        thread.join()
        self.assertEqual(pools, [])


if __name__ == "__main__":
    unittest.main()
