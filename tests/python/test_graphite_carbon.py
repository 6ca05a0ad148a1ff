# SPDX-License-Identifier: MIT OR Apache-2.0
"""Tests of carbon's database. The lines for rrdi are compared with a C library that only keeps them; the rows are those
of the library or the program, if one is there."""
from __future__ import annotations

import contextlib
import errno
import io
import math
import os
import sys
import unittest
from typing import Any, Callable, Dict, List, Optional
from unittest import mock

import graphite_doubles as graphite
from cases import DataCase, use_any_library
from doubles import NothingStaysOpen, TOP
from rrdi import errors, library
from rrdi.graphite import carbon, store
from rrdi.library import Answer, Library
from rrdi.reader import read_file
from rrdi.reader.selected import OpenFile
from rrdi.tools import carbon_cache
from test_graphite_layout import WRONG_NAMES

NOW = 1_700_000_000  # a multiple of 10
RETENTIONS = [(10, 60), (60, 60)]


class CarbonCase(DataCase):
    def setUp(self) -> None:
        super().setUp()
        self.lines: List[str] = []
        self.metrics: Dict[str, float] = {}

    def database(self, chosen: Library, **settings: object) -> Any:
        """A database whose clock stands at NOW."""
        self.addCleanup(library.use_library, None)
        with mock.patch.object(carbon, "load_library", lambda path: library.use_library(chosen)), \
                mock.patch.object(carbon, "at_end") as at_end:
            made = carbon.RrdiDatabase(graphite.carbon_settings(str(self.folder), **settings))
        at_end.assert_called_once_with(made.store.end)
        made.losses._log = self.lines.append
        made.store._clock = lambda: NOW + 1_000
        return made

    def counts(self, database: Any) -> Dict[str, int]:
        return {kind: count for kind, count in database.losses.take().items() if count}


class Lines(CarbonCase):
    """What the library is given."""

    def test_a_new_file(self) -> None:
        keeping = graphite.KeepingLibrary()
        database = self.database(keeping)
        self.assertFalse(database.exists("a.b"))
        database.create("a.b", RETENTIONS, 0.5, "average")
        self.assertTrue(database.exists("a.b"))
        database.write("a.b", {NOW + 30: 3.0, NOW + 3: 1.0, NOW + 5: 2.0}.items())
        (_, lines), = keeping.batches
        self.assertEqual((self.files(), (self.folder / "a/b.rrdi").read_bytes()), (["data/a/b.rrdi"], b"a database"))
        self.assertEqual(lines, [f"create --start {NOW} --step 10 --journal 16 DS:average:GAUGE:10:U:U "
                                 "RRA:AVERAGE:0.500000:1:60 RRA:AVERAGE:0.500000:6:60", f"update {NOW + 10}:2.000000",
                                 f"update {NOW + 30}:U {NOW + 40}:3.000000"])
        self.assertEqual(self.counts(database), {})

    def test_no_file_without_points(self) -> None:
        keeping = graphite.KeepingLibrary()
        database = self.database(keeping)
        database.create("a.b", RETENTIONS, None, None)
        database.write("a.b", [(NOW, math.nan), (-5.0, 1.0), (math.inf, 1.0), (NOW + 10**6, 1.0)])
        self.assertEqual((keeping.batches, self.files(), database.exists("a.b")), ([], [], False))
        self.assertEqual(self.counts(database), {"value": 1, "time": 2, "future": 1})
        self.assertEqual(self.lines, ["rrdi: a.b: points lost: 1 value, 2 time, 1 future"])

    def test_names_without_a_file(self) -> None:
        keeping = graphite.KeepingLibrary()
        database = self.database(keeping)
        for metric in WRONG_NAMES:
            # carbon does not create what exists, so that the points come to `write`.
            self.assertTrue(database.exists(metric))
            database.create(metric, RETENTIONS, None, None)
            database.write(metric, [(NOW, 1.0)])
        self.assertEqual((keeping.batches, self.files()), ([], []))
        self.assertEqual(self.counts(database), {"name": len(WRONG_NAMES)})

    def test_points_wait_while_the_file_is_busy(self) -> None:
        keeping = graphite.KeepingLibrary(graphite.BUSY)
        database = self.database(keeping)
        database.create("a", RETENTIONS, None, None)
        database.write("a", [(NOW, 1.0)])
        self.assertEqual((self.files(), database.store.waiting), ([], 1))
        self.assertIn("another program holds its lock; 1 points wait", self.lines[0])
        self.assertTrue(database.exists("a"))  # carbon need not create it again
        database.create("a", RETENTIONS, None, None)
        database.write("a", [(NOW + 10, 2.0)])
        self.assertEqual(keeping.batches[1][1][1:], [f"update {NOW + 10}:1.000000", f"update {NOW + 20}:2.000000"])
        self.assertEqual((database.store.waiting, self.counts(database)), (0, {}))

    def test_too_many_points_wait(self) -> None:
        database = self.database(graphite.KeepingLibrary(*[graphite.BUSY] * 3))
        with mock.patch.object(store, "MOST_OF_A_FILE", 3):
            for number in range(3):
                database.create("a", RETENTIONS, None, None)
                database.write("a", [(NOW + 20 * number, 1.0), (NOW + 20 * number + 10, 2.0)])
        self.assertEqual((database.store.waiting, self.counts(database)), (3, {"failed": 3}))
        self.assertEqual([when for when, _ in database.store._waiting[database.getFilesystemPath("a")].points],
                         [NOW + 30, NOW + 40, NOW + 50])

    def test_a_folder_that_cannot_be_made(self) -> None:
        database = self.database(graphite.KeepingLibrary())
        (self.folder / "a").write_text("in the way")
        database.create("a.b", RETENTIONS, None, None)
        database.write("a.b", [(NOW, 1.0)])
        self.assertEqual(database.store.waiting, 1)
        self.assertEqual(len(self.lines), 1)

    def test_a_refused_create(self) -> None:
        """The points are counted, and nothing is left."""
        refused = Answer(0, 0, 0, b"ERROR: too many cells\nERROR: no database\n", (1, 2))
        database = self.database(graphite.KeepingLibrary(refused))
        database.create("a", RETENTIONS, None, None)
        database.write("a", [(NOW, 1.0)])
        self.assertEqual((self.files(), self.counts(database)), ([], {"refused": 1}))
        self.assertEqual(self.lines, ["rrdi: a: points lost: 1 refused (too many cells)"])


class Asked(CarbonCase):
    """What carbon asks beside points."""

    def test_registered(self) -> None:
        self.assertEqual(carbon.RrdiDatabase.plugin_name, "rrdi")
        self.assertEqual(sorted(carbon.RrdiDatabase.aggregationMethods), ["average", "avg_zero", "last", "max", "min", "sum"])

    @unittest.skipUnless(graphite.HAS_CARBON, "carbon is not installed for this Python")
    def test_registered_with_carbon(self) -> None:
        from carbon.database import TimeSeriesDatabase
        self.assertIs(TimeSeriesDatabase.plugins["rrdi"], carbon.RrdiDatabase)

    def test_each_setting_has_its_effect(self) -> None:
        """Each setting of carbon.conf has its effect."""
        for is_hashed in (True, False):
            made = self.database(graphite.KeepingLibrary(), TAG_HASH_FILENAMES=is_hashed, RRDI_JOURNAL=7, RRDI_MAX_FUTURE=90)
            self.assertEqual(str(made.getFilesystemPath("a;b=c")).endswith("/a;b=c.rrdi"), not is_hashed)
            self.assertEqual((made.store.options.journal, made.store.options.most_future), (7, 90))
        self.assertEqual(made.store.options.folder, str(self.folder))

    def test_metadata(self) -> None:
        database = self.database(graphite.KeepingLibrary())
        (self.folder / "a.rrdi").write_bytes(graphite.file_bytes(130, ("sum", "zero")))
        self.assertEqual(database.getMetadata("a", "aggregationMethod"), "sum")
        calls: List[Callable[[], object]] = [
            lambda: database.getMetadata("a", "other"), lambda: database.getMetadata("..", "aggregationMethod"),
            lambda: database.setMetadata("a", "aggregationMethod", "max"),
            lambda: database.validateArchiveList([(10, 60), (15, 60)])]
        for call in calls:
            with self.assertRaises(ValueError):
                call()
        database.validateArchiveList([(10, 60)])

    def test_settings(self) -> None:
        for name, value in (("RRDI_JOURNAL", 0), ("RRDI_JOURNAL", "many"), ("RRDI_MAX_FUTURE", -1), ("RRDI_JOURNAL", 10**6),
                            ("RRDI_OPEN_FILES", -1), ("RRDI_OPEN_SECONDS", 0), ("RRDI_OPEN_MEMORY", "2M")):
            with self.assertRaises(SystemExit) as ended:
                self.database(graphite.KeepingLibrary(), **{name: value})
            self.assertIn(name, str(ended.exception))
        for name, least, most in (("RRDI_JOURNAL", 1, 100_000), ("RRDI_MAX_FUTURE", 1, 10**9), ("RRDI_OPEN_FILES", 0, 10**6), ("RRDI_OPEN_SECONDS", 1, 10**9), ("RRDI_OPEN_MEMORY", 1, 10**9)):
            for value in (least - 1, most + 1, str(least), None):
                with self.assertRaisesRegex(SystemExit, f"^{name} must be a whole number from {least} to {most}, not {value}$"):
                    self.database(graphite.KeepingLibrary(), **{name: value})
            for value in (least, most):
                options = self.database(graphite.KeepingLibrary(), **{name: value}).store.options
                found = dict(zip(("RRDI_JOURNAL", "RRDI_MAX_FUTURE", "RRDI_OPEN_FILES", "RRDI_OPEN_SECONDS", "RRDI_OPEN_MEMORY"), (options.journal, options.most_future, *options.open)))
                self.assertEqual(found, {"RRDI_JOURNAL": 16, "RRDI_MAX_FUTURE": 600, "RRDI_OPEN_FILES": 256, "RRDI_OPEN_SECONDS": 2, "RRDI_OPEN_MEMORY": 64, name: value})

    def test_no_library(self) -> None:
        with self.assertRaises(SystemExit) as ended:
            carbon.RrdiDatabase(graphite.carbon_settings(str(self.folder), RRDI_LIBRARY="/none/librrdi.so"))
        self.assertIn("/none/librrdi.so", str(ended.exception))

    def test_metrics_of_each_interval(self) -> None:
        database = self.database(graphite.KeepingLibrary())
        given: Dict[str, float] = {}
        database.write("..", [(NOW, 1.0), (NOW + 1, 1.0)])
        with mock.patch.object(vars(carbon)["instrumentation"], "cache_record", given.__setitem__):
            database.report()
            self.assertEqual((given["rrdi.name"], given["rrdi.late"], given["rrdi.waiting"]), (2, 0, 0))
            database.report()
        self.assertEqual(given["rrdi.name"], 0)

    def test_reports_are_started_by_the_reactor(self) -> None:
        for interval in (10, 1):
            with mock.patch.object(carbon, "every") as every:
                database = self.database(graphite.KeepingLibrary(), CARBON_METRIC_INTERVAL=interval)
            every.assert_called_once_with(interval, database.report)

    def test_every(self) -> None:
        """The first report comes an interval after carbon's start."""
        looping = mock.Mock()
        reactor = mock.Mock(callWhenRunning=lambda call: call())
        modules = {"twisted": mock.Mock(), "twisted.internet": mock.Mock(reactor=reactor),
                   "twisted.internet.task": mock.Mock(LoopingCall=looping)}
        with mock.patch.dict(sys.modules, modules):
            carbon.every(7, self.setUp)
        looping.assert_called_once_with(self.setUp)
        looping.return_value.start.assert_called_once_with(7, False)

    def test_at_end(self) -> None:
        """After the shutdown, in which the writer's thread ends."""
        reactor = mock.Mock()
        with mock.patch.dict(sys.modules, {"twisted": mock.Mock(), "twisted.internet": mock.Mock(reactor=reactor)}):
            carbon.at_end(self.setUp)
        reactor.addSystemEventTrigger.assert_called_once_with("after", "shutdown", self.setUp)


class Rows(CarbonCase):
    """Points to rows, by the library or the program."""

    def setUp(self) -> None:
        super().setUp()
        self.chosen = use_any_library(self)

    def made(self, method: str = "average", **settings: object) -> Any:
        database = self.database(self.chosen, **settings)
        database.create("m", RETENTIONS, 0.5, method)
        return database

    def rows(self, archive: int = 0, source: int = 0) -> Dict[int, Optional[float]]:
        """The known rows by the beginning of their slots, as seconds after NOW."""
        with OpenFile(str(self.folder / "m.rrdi")) as file:
            chosen = file.outline().archives[archive]
            rows = file.rows(chosen, 0, file.front.last)
            found = {time - chosen.seconds - NOW: cells[source] for time, cells in rows.items()}
        return {time: cell / 1_000_000 for time, cell in found.items() if cell is not None}

    def test_points(self) -> None:
        database = self.made()
        database.write("m", {NOW + 10 * n: float(n) for n in range(10)}.items())
        database.write("m", {NOW + 120: 12.0}.items())
        self.assertEqual(self.rows(), {**{10 * n: float(n) for n in range(10)}, 120: 12.0})
        self.assertEqual(self.counts(database), {})
        read_file(str(self.folder / "m.rrdi"))

    def test_twice_in_a_slot(self) -> None:
        database = self.made()
        database.write("m", [(NOW, 1.0), (NOW + 5, 2.0)])
        database.write("m", [(NOW + 9, 3.0)])
        self.assertEqual((self.rows(), self.counts(database)), ({0: 3.0}, {"rewritten": 1}))

    def test_late(self) -> None:
        database = self.made()
        for n in (0, 1, 2, 3, 6, 7):
            database.write("m", [(NOW + 10 * n, float(n))])
        database.write("m", [(NOW + 40, 4.5), (NOW + 80, 8.0), (NOW + 20, 2.5)])
        self.assertEqual(self.rows(), {0: 0.0, 10: 1.0, 20: 2.5, 30: 3.0, 40: 4.5, 60: 6.0, 70: 7.0, 80: 8.0})
        self.assertEqual(self.counts(database), {"rewritten": 2})
        # The coarse row is that of the points in order.
        database.write("m", [(NOW + 10 * n, 0.0) for n in range(9, 14)])
        in_order = self.made()
        with OpenFile(str(self.folder / "m.rrdi")) as file:
            late = file.rows(file.outline().archives[1], 0, file.front.last)
        (self.folder / "m.rrdi").unlink()
        in_order.create("m", RETENTIONS, 0.5, "average")
        values = {0: 0.0, 1: 1.0, 2: 2.5, 3: 3.0, 4: 4.5, 6: 6.0, 7: 7.0, 8: 8.0, **dict.fromkeys(range(9, 14), 0.0)}
        in_order.write("m", [(NOW + 10 * n, value) for n, value in values.items()])
        with OpenFile(str(self.folder / "m.rrdi")) as file:
            self.assertEqual(late, file.rows(file.outline().archives[1], 0, file.front.last))

    def test_files_that_stay_open(self) -> None:
        """From the third write on; late points, which look and change under one lock, close the file first."""
        database = self.made(RRDI_OPEN_SECONDS=1_000)
        store = database.store
        for n in (0, 1, 2, 3, 5, 6):
            database.write("m", [(NOW + 10 * n, float(n))])
        if isinstance(self.chosen, NothingStaysOpen):
            self.assertEqual(store._files.open_paths(), [])
        else:
            self.assertEqual(store._files.open_paths(), [os.fsencode(self.folder / "m.rrdi")])
        database.write("m", [(NOW + 40, 4.0), (NOW + 70, 7.0)])
        self.assertEqual(store._files.open_paths(), [])
        self.assertEqual((self.rows(), self.counts(database)), ({10 * n: float(n) for n in range(8)}, {"rewritten": 1}))

    def test_too_late(self) -> None:
        database = self.made(RRDI_JOURNAL=4)
        for n in range(10):
            database.write("m", [(NOW + 10 * n, float(n))])
        database.store.close()
        before = (self.folder / "m.rrdi").read_bytes()
        database.write("m", [(NOW + 20, 9.0)])
        self.assertEqual((self.folder / "m.rrdi").read_bytes(), before)
        database.write("m", [(NOW + 20, 9.0), (NOW + 100, 1.0), (NOW + 80, 7.0)])
        self.assertEqual(self.rows(), {**{10 * n: float(n) for n in range(10)}, 80: 7.0, 100: 1.0})
        self.assertEqual(self.counts(database), {"rewritten": 1, "late": 2})
        self.assertEqual(self.lines[0], "rrdi: m: points lost: 1 late")

    def test_late_with_zeros(self) -> None:
        database = self.made("sum")
        for n in (0, 1, 3, 5):
            database.write("m", [(NOW + 10 * n, float(n))])
        database.write("m", [(NOW + 20, 2.0)])
        database.write("m", [(NOW + 60, 6.0), (NOW + 70, 7.0), (NOW + 120, 1.0)])
        self.assertEqual(self.rows(), {0: 0.0, 10: 1.0, 20: 2.0, 30: 3.0, 50: 5.0, 60: 6.0, 70: 7.0, 120: 1.0})
        zeros = self.rows(source=1)
        self.assertEqual([zeros[10 * n] for n in range(13)], [0, 1, 2, 3, 0, 5, 6, 7, 0, 0, 0, 0, 1])

    def test_a_gap_longer_than_the_archives(self) -> None:
        database = self.made()
        database.write("m", [(NOW - 10**6, 1.0)])
        database.write("m", [(NOW, 2.0)])
        database.write("m", [(NOW + 10, 3.0)])
        self.assertEqual((self.rows(), self.counts(database)), ({0: 2.0, 10: 3.0}, {}))
        # What was reverted over the gap can't be given again from the rows, so nothing is reverted.
        database.write("m", [(NOW - 500_000, 2.0)])
        self.assertEqual((self.rows(), self.counts(database)), ({0: 2.0, 10: 3.0}, {"late": 1}))

    def test_the_past_and_the_future(self) -> None:
        database = self.made()
        database.write("m", [(0.0, 1.0)])
        database.write("m", [(NOW, 2.0), (NOW + 1_601, 3.0), (NOW + 86_400, 3.0), (NOW * 1000.0, 3.0), (-1.0, 4.0)])
        database.write("m", [(NOW + 10, 3.0)])
        self.assertEqual((self.rows(), self.counts(database)), ({0: 2.0, 10: 3.0}, {"future": 3, "time": 1}))

    def test_many_points_at_once(self) -> None:
        database = self.made()
        database.write("m", [(NOW - 10 * n, float(n)) for n in range(20_000)])
        self.assertEqual((self.rows(), self.counts(database)), ({-10 * n: float(n) for n in range(60)}, {}))

    def test_values(self) -> None:
        values = [1e17, -1e17, 4.9e-7, 0.1, 123456789012345.678, -12.3456789]
        database = self.made()
        for number, value in enumerate(values):
            database.write("m", [(NOW + 10 * number, value)])
        found = list(self.rows().values())
        for value, cell in zip(values, found):
            self.assertAlmostEqual(cell or 0, value, delta=max(abs(value) * 1e-15, 6e-7))
        # A late point gives the others again to the millionth.
        before = read_file(str(self.folder / "m.rrdi"))["archives"][0]["rows"]
        database.write("m", [(NOW, values[0])])
        self.assertEqual(before, read_file(str(self.folder / "m.rrdi"))["archives"][0]["rows"])

    def test_a_damaged_file(self) -> None:
        database = self.made()
        database.write("m", [(NOW, 1.0)])
        file = self.folder / "m.rrdi"
        for damaged in (b"\0" * 100, b"", file.read_bytes()[:-30]):
            file.write_bytes(damaged)
            os.utime(file, (NOW, NOW))
            database.write("m", [(NOW + 10, 2.0)])
            self.assertEqual(database.store.waiting, 1)
            self.assertFalse(database.exists("m"))
            aside = [path for path in self.folder.iterdir() if ".damaged-" in path.name]
            self.assertEqual([path.read_bytes() for path in aside], [damaged])
            aside[0].unlink()
            database.create("m", RETENTIONS, 0.5, "average")
            database.write("m", [(NOW + 20, 3.0)])
            self.assertEqual((self.rows(), self.counts(database)), ({10: 2.0, 20: 3.0}, {}))

    def test_a_file_that_another_program_is_making(self) -> None:
        """A file that is there, and not yet locked by its maker, is not damaged: the points wait."""
        import rrdi
        database, file = self.made(), self.folder / "m.rrdi"
        database.store._new.clear()
        file.write_bytes(b"")
        database.write("m", [(NOW, 1.0)])
        self.assertEqual((database.store.waiting, self.files()), (1, ["data/m.rrdi"]))
        rrdi.create(str(file), "DS:average:GAUGE:60:U:U", "RRA:AVERAGE:0.5:1:10", step=10, start=NOW,
                    overwrite=True)
        database.write("m", [(NOW + 10, 2.0)])
        self.assertEqual((self.rows(), self.counts(database)), ({0: 1.0, 10: 2.0}, {}))

    def test_a_file_of_a_later_version(self) -> None:
        database = self.made()
        data = graphite.file_bytes(NOW)
        (self.folder / "m.rrdi").write_bytes(data[:5] + b"\x09" + data[6:])
        database.store._new.clear()
        database.write("m", [(NOW + 10, 2.0)])
        self.assertEqual(self.files(), ["data/m.rrdi"])

    def test_another_program_changes_the_file(self) -> None:
        """What is refused, since the file is newer than it was read to be, is put in as late points are."""
        database = self.made()
        database.write("m", [(NOW, 1.0)])
        stale = store.read_known(str(self.folder / "m.rrdi"))
        import rrdi
        rrdi.update(str(self.folder / "m.rrdi"), f"{NOW + 20}:5", f"{NOW + 30}:6")
        with mock.patch.object(store, "read_known", side_effect=[stale, store.read_known(str(self.folder / "m.rrdi"))]):
            database.write("m", [(NOW + 10, 2.0), (NOW + 30, 3.0)])
        self.assertEqual((self.rows(), self.counts(database)), ({0: 1.0, 10: 2.0, 20: 6.0, 30: 3.0}, {"rewritten": 1}))

    def test_a_file_is_read_once(self) -> None:
        """After the first point of a file, a point needs the batch alone."""
        database = self.made()
        database.write("m", [(NOW, 1.0)])
        database.write("m", [(NOW + 10, 2.0)])
        with mock.patch.object(store, "OpenFile", side_effect=AssertionError("the file is read again")):
            for n in (2, 3, 5, 9):
                database.write("m", [(NOW + 10 * n, float(n))])
        self.assertEqual((self.rows(), self.counts(database)), ({0: 1.0, 10: 2.0, 20: 2.0, 30: 3.0, 50: 5.0, 90: 9.0}, {}))

    def test_another_program_takes_back_samples(self) -> None:
        """The point after them is not lost in an interval that is longer than it seemed."""
        import rrdi
        database = self.made()
        for n in range(5):
            database.write("m", [(NOW + 10 * n, float(n))])
        rrdi.revert(str(self.folder / "m.rrdi"))
        rrdi.revert(str(self.folder / "m.rrdi"))
        database.write("m", [(NOW + 50, 5.0)])
        self.assertEqual(self.rows(), {0: 0.0, 10: 1.0, 20: 2.0, 50: 5.0})

    def test_another_file_of_the_name(self) -> None:
        """The numbers of a file that was replaced are not used for the new one."""
        import rrdi
        database = self.made()
        for n in range(3):
            database.write("m", [(NOW + 10 * n, float(n))])
        new = str(self.folder / "new.rrdi")
        rrdi.create(new, "DS:average:GAUGE:30:U:U", "RRA:AVERAGE:0.5:1:20", step=30, start=NOW)
        os.replace(new, self.folder / "m.rrdi")
        database.write("m", [(NOW + 45, 4.0)])
        self.assertEqual((self.rows(), self.counts(database)), ({40: 4.0}, {}))  # the steps are multiples of 30

    def test_files_of_users(self) -> None:
        """A file that was made by hand takes points too."""
        import rrdi
        rrdi.create(str(self.folder / "m.rrdi"), "DS:temp:GAUGE:60:U:U", "RRA:MAX:0.5:1:10", step=10, start=NOW)
        database = self.database(self.chosen)
        database.write("m", [(NOW, 1.0), (NOW + 10, 2.0)])
        self.assertEqual(self.rows(), {0: 1.0, 10: 2.0})
        # Samples within a step are not reverted for a late point.
        rrdi.update(str(self.folder / "m.rrdi"), f"{NOW + 25}:5")
        database.write("m", [(NOW + 5, 9.0), (NOW + 30, 4.0)])
        self.assertEqual((self.rows(), self.counts(database)), ({0: 1.0, 10: 2.0, 20: 5.0, 30: 4.0}, {"late": 1}))

    def test_a_full_disk(self) -> None:
        """Points wait until there is room, and are counted once."""
        database = self.made()
        database.write("m", [(NOW, 1.0)])
        full = errors.CannotWrite("cannot write", "m.rrdi", errors.CANNOT_WRITE, None, errno.ENOSPC)
        with mock.patch.object(database.store._files, "batch", side_effect=full):
            database.write("m", [(NOW + 10, 2.0), (NOW + 10, math.inf)])
            database.write("m", [(NOW + 20, 3.0)])
        self.assertEqual((database.store.waiting, self.counts(database)), (3, {}))
        self.assertIn("m.rrdi: cannot write: No space left on device; 2 points wait", self.lines[0])
        database.write("m", [(NOW + 30, 4.0)])
        self.assertEqual((self.rows(), self.counts(database)), ({0: 1.0, 10: 2.0, 20: 3.0, 30: 4.0}, {"value": 1}))


class Program(unittest.TestCase):
    """The program rrdi-carbon-cache."""

    def test_help(self) -> None:
        import subprocess
        ran = subprocess.run([sys.executable, str(TOP / "tools/rrdi-carbon-cache"), "--help"], capture_output=True,
                             text=True)
        self.assertEqual((ran.returncode, ran.stderr), (0, ""))
        self.assertIn("Exit status:", ran.stdout)

    def test_carbon_itself(self) -> None:
        """It runs as its own script, with rrdi's database; what is wrong in its configuration is told."""
        class Wrong(Exception):
            pass
        util, imported = mock.Mock(), []
        modules = {"rrdi.graphite.carbon": None, "carbon.util": util, "carbon.exceptions": mock.Mock(CarbonConfigException=Wrong)}

        def module(name: str) -> Any:
            imported.append(name)
            return modules[name]
        for found, script in (("/opt/bin/carbon-cache", "/opt/bin/carbon-cache"), (None, "/usr/bin/carbon-cache")):
            with mock.patch("shutil.which", return_value=found), mock.patch("sys.argv", ["rrdi-carbon-cache", "start"]), \
                    mock.patch("importlib.import_module", module):
                self.assertEqual(carbon_cache.main(), 0)
                util.run_twistd_plugin.assert_called_with(script)
        self.assertEqual(imported[:1], ["rrdi.graphite.carbon"])
        util.run_twistd_plugin.side_effect = Wrong("no such folder")
        with mock.patch("importlib.import_module", module), self.assertRaises(SystemExit) as ended:
            carbon_cache.start()
        self.assertEqual(ended.exception.code, "no such folder")

    def test_what_is_lacking(self) -> None:
        with contextlib.redirect_stderr(io.StringIO()) as said, mock.patch("sys.argv", ["rrdi-carbon-cache", "start"]), \
                mock.patch.object(carbon_cache, "start", side_effect=ImportError("No module named 'carbon'")):
            self.assertEqual(carbon_cache.main(), 1)
        self.assertEqual(said.getvalue(), f"rrdi-carbon-cache: No module named 'carbon'; {sys.executable} needs carbon "
                                          "(Debian: graphite-carbon)\n")

    def test_help_that_nobody_can_read(self) -> None:
        import subprocess
        for words in (["--help"], ["start", "-h"], ["--version"]):
            with open("/dev/full", "w") as full:
                ran = subprocess.run([sys.executable, str(TOP / "tools/rrdi-carbon-cache"), *words], stdout=full, stderr=subprocess.PIPE, text=True)
            self.assertEqual((ran.returncode, ran.stderr), (1, "rrdi-carbon-cache: No space left on device\n"))

    @unittest.skipIf(graphite.HAS_CARBON, "carbon is installed for this Python")
    def test_without_carbon(self) -> None:
        import subprocess
        ran = subprocess.run([sys.executable, str(TOP / "tools/rrdi-carbon-cache"), "status"], capture_output=True,
                             text=True)
        self.assertEqual((ran.returncode, ran.stdout), (1, ""))
        self.assertRegex(ran.stderr, r"^rrdi-carbon-cache: No module named 'carbon'; .* needs carbon .*\n$")
