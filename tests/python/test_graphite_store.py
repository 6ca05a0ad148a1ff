# SPDX-License-Identifier: MIT OR Apache-2.0
"""Tests of Graphite's store at its edges, with a library that keeps the batches. No program is needed."""
from __future__ import annotations

import errno
from typing import List
from unittest import mock

import graphite_doubles as graphite
from cases import DataCase, use_library
from rrdi.graphite import store as stores
from rrdi.graphite.layout import template
from rrdi.graphite.losses import Losses
from rrdi.graphite.slots import Line
from rrdi.library import Answer

NOW = 1_700_000_000


class Edges(DataCase):
    def use(self, *answers: Answer) -> graphite.KeepingLibrary:
        library = graphite.KeepingLibrary(*answers)
        use_library(self, library)
        return library

    def test_a_refused_revert(self) -> None:
        """Another program has reverted changes meanwhile. A revert has no slots, so none is left for another try."""
        lines = [Line(f"update {end}:1", (end,)) for end in (10, 20)]
        for reverts, refused, left in ((2, (1, 2), {}), (1, (1,), {}), (3, (1, 2, 3), {}), (2, (2, 4), {20: "1"})):
            self.use(Answer(0, 0, 0, b"ERROR: nothing to revert\n" * len(refused), refused))
            tried = stores.give(str(self.folder / "m.rrdi"), reverts, lines, {10: "1", 20: "1"}, {})
            self.assertEqual((dict(tried.slots), tried.reason), (left, "nothing to revert"), (reverts, refused))

    def test_the_usual_options(self) -> None:
        """Those of a carbon.conf that sets none: 16 changes, 10 minutes ahead, and files named after hashes."""
        self.assertEqual(stores.StoreOptions("/d")[:4], ("/d", 16, 600, True))

    def test_how_far_ahead_a_point_may_be(self) -> None:
        library, said = self.use(), []  # type: graphite.KeepingLibrary, List[str]
        losses = Losses(said.append)
        store = stores.Store(stores.StoreOptions(str(self.folder)), losses, lambda: NOW)
        store.create("m", template([(10, 100)], 0.5, "average", 16))
        ahead = stores.StoreOptions("").most_future
        self.assertEqual(ahead, 600)
        store.write("m", [(NOW + ahead, 1.0), (NOW + ahead + 0.5, 2.0), (NOW + ahead + 1, 3.0)])
        self.assertEqual([line for line in library.batches[0][1] if line.startswith("update")], [f"update {NOW + 610}:1.000000"])
        self.assertEqual(losses.take()["future"], 2)


    def store(self, said: List[str]) -> stores.Store:
        store = stores.Store(stores.StoreOptions(str(self.folder)), Losses(said.append), lambda: NOW)
        store.create("m", template([(10, 100)], 0.5, "average", 16))
        return store

    def test_any_exception(self) -> None:
        """The points wait, whatever it is."""
        for fault, text in ((MemoryError(), "MemoryError: "), (ValueError("no number"), "ValueError: no number"),
                            (RuntimeError("x"), "RuntimeError: x")):
            library, said = self.use(), []  # type: graphite.KeepingLibrary, List[str]
            store = self.store(said)
            with mock.patch.object(library, "batch", side_effect=fault):
                store.write("m", [(NOW - 20, 1.0)])
            self.assertEqual((store.waiting, said), (1, [f"rrdi: m: {text}; 1 points wait for the next ones"]))
            store.create("m", template([(10, 100)], 0.5, "average", 16))
            store.write("m", [(NOW - 10, 2.0)])
            self.assertEqual(library.batches[0][1][1:], [f"update {NOW - 10}:1.000000", f"update {NOW}:2.000000"])
            self.assertEqual((store.waiting, sum(store.losses.take().values())), (0, 0))
            (self.folder / "m.rrdi").unlink()

    def test_points_of_a_metric_that_gets_no_others(self) -> None:
        """They are tried again beside other metrics, one file at a time, and not too often: a try may take seconds."""
        library, said = self.use(*[graphite.BUSY] * 3), []  # type: graphite.KeepingLibrary, List[str]
        store, now = self.store(said), [1_000.0]
        store.create("n", template([(10, 100)], 0.5, "average", 16))
        with mock.patch("time.monotonic", lambda: now[0]):
            for metric in ("m", "n"):
                store.write(metric, [(NOW - 20, 1.0)])
                now[0] = 1_009.9
            store.write("", [])
            self.assertEqual((store.waiting, len(library.batches)), (2, 2))
            now[0] = 1_010
            store.write("", [])  # m is tried, and fails
            self.assertEqual((store.waiting, len(library.batches), store._next_try), (2, 3, 1_020))
            now[0] = 1_019.9
            store.write("", [])
            self.assertEqual(len(library.batches), 3)
            for waiting in (1, 0, 0):
                now[0] += 20
                store.write("", [])
                self.assertEqual(store.waiting, waiting)
        self.assertEqual([lines[-1] for _, lines in library.batches], [f"update {NOW - 10}:1.000000"] * 5)
        self.assertEqual(self.files(), ["data/m.rrdi", "data/n.rrdi"])
        self.assertEqual(sum(store.losses.take().values()), 0)

    def test_the_pause_after_a_long_try(self) -> None:
        store, times = self.store([]), iter([500.0, 503.0, 504.0])
        self.use(*[graphite.BUSY] * 2)
        store.write("m", [(NOW - 20, 1.0)])
        store._next_try = 0
        with mock.patch("time.monotonic", lambda: next(times)):
            store._try_waiting()
        self.assertEqual(store._next_try, 504 + 80)

    def test_the_end(self) -> None:
        """Each file is tried once more; what is lost is counted and said; and not for longer than half a minute."""
        for answers, late, found in ((1, False, (0, 0)), (3, False, (0, 2)), (2, False, (0, 1)), (1, True, (0, 2))):
            said: List[str] = []
            store = self.store(said)
            store.create("n", template([(10, 100)], 0.5, "average", 16))
            self.use(*[graphite.BUSY] * 2)
            for metric in ("m", "n"):
                store.write(metric, [(NOW - 20, 1.0)])
            self.use(*[graphite.BUSY] * (answers - 1))
            times = iter([0.0] + [31.0 if late else 1.0] * 9)
            with mock.patch("time.monotonic", lambda: next(times)):
                store.end()
            lost = store.losses.take().get("failed", 0)
            self.assertEqual((store.waiting, lost), found, (answers, late))
            self.assertEqual(len([line for line in said if "its file could not be written up to the end" in line]), found[1])
            for path in self.folder.glob("*.rrdi"):
                path.unlink()

    def test_a_file_at_which_the_system_cannot_look(self) -> None:
        """carbon is told that it is there, so that it gives its points, which wait."""
        self.use()
        store = stores.Store(stores.StoreOptions(str(self.folder)), Losses(lambda text: None), lambda: NOW)
        self.assertFalse(store.has("m"))
        for error in (OSError(errno.EIO, "Input/output error"), PermissionError(errno.EACCES, "Permission denied"), MemoryError()):
            with mock.patch("os.stat", side_effect=error):
                self.assertTrue(store.has("m"))
                store.write("m", [(NOW - 20, 1.0)])
        self.assertEqual((store.waiting, sum(store.losses.take().values())), (3, 0))

    def test_a_file_that_is_taken_away(self) -> None:
        """Between the look at a file and the batch another process has renamed it: the points wait."""
        gone = Answer(0, 0, 0, b"ERROR: no database\nERROR: no database\n", (1, 2))
        self.use(gone)
        said: List[str] = []
        store = self.store(said)
        path = self.folder / "m.rrdi"
        with mock.patch.object(stores, "read_known", side_effect=[stores.Known(mock.Mock(last=NOW - 100, step=10, sources=1, depth=16), (0, 0)),
                                                                  FileNotFoundError(errno.ENOENT, "No such file", str(path))]):
            store._new.clear()
            store.write("m", [(NOW - 20, 1.0)])
        self.assertEqual((store.waiting, sum(store.losses.take().values())), (1, 0))
        self.assertIn("No such file", said[0])

    def test_what_is_counted_before_a_fault(self) -> None:
        """Points that wait are counted once, when they are written."""
        self.use()
        store = self.store([])
        store._new.clear()
        known = stores.Known(mock.Mock(last=0, step=10, sources=1, depth=16), (0, 0))
        left = stores.Tried({NOW: "1"}, {"late": 1}, "not later than")
        with mock.patch.object(stores, "read_known", return_value=known), \
                mock.patch.object(stores, "put", side_effect=[left, OSError(errno.EIO, "Input/output error")]):
            store.write("m", [(NOW - 20, 1.0), (NOW - 10, 1.0), (-1.0, 1.0)])
        self.assertEqual((store.waiting, sum(store.losses.take().values())), (3, 0))
