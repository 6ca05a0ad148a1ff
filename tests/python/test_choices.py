# SPDX-License-Identifier: MIT OR Apache-2.0
"""Tests of what is chosen from several: the nearest, the first, the oldest, the last. Each has two or more to choose from, and
the right one comes neither always first nor always last."""
from __future__ import annotations

import datetime
import os
import time
import unittest
from decimal import Decimal
from pathlib import Path
from typing import Any, List
from unittest import mock

import graphite_doubles as graphite
from cases import DataCase, WithLibrary, WithProgram, new_folder, use_library
from test_feeding import Stub
from tool_case import taken

import rrdi
from rrdi import reader
from rrdi.feeding.feeder import Feeder, FeedOptions
from rrdi.feeding.writers import Outcome
from rrdi.graphite import web
from rrdi.reader.selected import OpenFile
from rrdi.tools import program, record, rrdtool_program
from rrdi.tools.compare import Counts

NOW = 1_700_000_400
GREATEST = 2**64 - 1  # of a bound


class Chosen(unittest.TestCase):
    def setUp(self) -> None:
        self.folder = new_folder(self)

    def test_the_newest_readable_copy(self) -> None:
        for readable, chosen in (("123", ".1"), ("23", ".2"), ("3", ".3"), ("13", ".1"), ("", "")):
            def last(file: str) -> int:
                if file[-1] not in readable:
                    raise program.CommandFailed("file: not ours")
                return 5
            with mock.patch.object(program, "last", last):
                self.assertEqual(record.newest_copy("f"), f"f{chosen}" if chosen else "")

    def test_the_newest_cell_that_differs(self) -> None:
        for times in ((10, 30, 20), (30, 20, 10), (10, 20, 30)):
            counts = Counts()
            for moment, apart in zip(times, (0.5, 2.0, 1.0)):
                counts.add(moment, 1.0, 1.0 + apart)
            counts.add(90, 1.0, 1.0)
            self.assertEqual(counts.text(), "4 cells, 1 agree, 3 apart by up to 2.000000, the newest at 30")

    def test_the_first_rrdtool_on_the_path(self) -> None:
        paths: List[Path] = []
        for name, text, mode in (("own", "#!/bin/sh\nexec rrdi-rrdtool", 0o755), ("no", "#!/bin/sh\n", 0o644),
                                 ("one", "#!/bin/sh\n", 0o755), ("two", "#!/bin/sh\n", 0o755)):
            paths.append(self.folder / name)
            paths[-1].mkdir()
            (paths[-1] / "rrdtool").write_text(text)
            (paths[-1] / "rrdtool").chmod(mode)
        for order, found in (((0, 1, 2, 3), 2), ((3, 0, 2), 3), ((0, 1), None)):
            with mock.patch.dict(os.environ, {"PATH": ":".join(str(paths[at]) for at in order)}):
                self.assertEqual(rrdtool_program.find(), None if found is None else str(paths[found] / "rrdtool"))

    def test_the_file_whose_samples_are_given_up(self) -> None:
        """If too many samples wait, those of the file that has the most are lost."""
        stub = Stub()
        counts = {b"a": 2, b"b": 4, b"c": 3}
        stub.outcomes = {file: [Outcome(again="cannot open")] * 9 for file in counts}
        feeder = Feeder(FeedOptions(held=9, seconds=0, jobs=1), stub)
        self.addCleanup(feeder.threads.shutdown)
        said = taken(feeder, b"\n".join(b"%s %d:1" % (file, at) for file, count in counts.items() for at in range(count)))
        for file in counts:
            feeder.running.add(file)
            feeder.end_batch(file, feeder.held.pop(file), Outcome(again="cannot open"))
        feeder.since.clear()
        feeder.count = sum(counts.values())
        with mock.patch.object(feeder, "start"), mock.patch.object(feeder, "say_lost") as lost:
            feeder.start_due()
        self.assertEqual((said, [call[0][0] for call in lost.call_args_list]), ("", [b"b"]))
        self.assertEqual((sorted(feeder.waiting), feeder.count), ([b"a", b"c"], 5))


class Archives(DataCase):
    """Of several archives of a file, in both orders."""

    def test_the_longest_archive_of_a_metric(self) -> None:
        """What graphite-web is told of a metric, by a clock that is given."""
        for shapes in (((1, 6), (6, 10)), ((6, 10), (1, 6))):
            path = self.folder / "m.rrdi"
            path.write_bytes(graphite.file_bytes(NOW, archives=[(steps, rows, {}) for steps, rows in shapes]))
            os.utime(path, (NOW - 7, NOW - 7))
            with mock.patch.object(time, "time", lambda: NOW + 0.5):
                found = list(web.RrdiReader(str(path), "m").get_intervals())[0]
            start, end = (found.start, found.end) if graphite.HAS_WEB else found
            self.assertEqual((start, end), (NOW + 0.5 - 600, NOW - 7))
            os.utime(path, (NOW - 700, NOW - 700))
            with mock.patch.object(time, "time", lambda: NOW + 0.5):
                found = list(web.RrdiReader(str(path), "m").get_intervals())[0]
            self.assertEqual((found.start, found.end) if graphite.HAS_WEB else found, (NOW - 599.5, NOW - 599.5))

    def test_the_clock_that_graphite_web_gives(self) -> None:
        """`now` of a request counts, and not the present; without it the present does."""
        fine = {NOW - 10 * at: [float(at)] for at in range(6)}
        coarse = {NOW - 60 * at: [100.0 + at] for at in range(10)}
        path = self.folder / "m.rrdi"
        path.write_bytes(graphite.file_bytes(NOW, archives=[(1, 6, fine), (6, 10, coarse)]))
        reading = web.RrdiReader(str(path), "m")

        def fetch(now: Any, *given: Any) -> Any:
            with mock.patch.object(web, "merge_with_carbonlink", side_effect=lambda *words: words[3]), \
                    mock.patch.object(time, "time", lambda: now):
                return reading.fetch(NOW - 35, NOW - 15, *given)
        fine_rows, coarse_rows = ((NOW - 30, NOW - 10, 10), [2.0, 1.0]), ((NOW, NOW + 60, 60), [None])
        self.assertEqual(fetch(NOW + 10**6, NOW + 9), fine_rows)
        self.assertEqual(fetch(NOW + 24.9), fine_rows)
        self.assertEqual(fetch(NOW, NOW + 26), coarse_rows)
        self.assertEqual(fetch(NOW + 26), coarse_rows)
        self.assertIsNone(fetch(NOW, NOW + 10**6))


class Values:
    """What the functions of the package take and give; each library runs these."""

    def setUp(self: Any) -> None:
        super().setUp()  # type: ignore[misc]
        use_library(self, self.library())
        self.file = self.folder / "f.rrdi"

    def test_the_local_zone(self: Any) -> None:
        """Without `tz` the time of the last sample is the local one, and a time with a zone is taken by its zone."""
        self.addCleanup(time.tzset)
        utc = datetime.datetime(2023, 11, 14, 22, 20)
        east = datetime.timezone(datetime.timedelta(hours=9))
        for zone, hours in (("XXX-5:30", 5.5), ("YYY8", -8)):
            with mock.patch.dict(os.environ, {"TZ": zone}):
                time.tzset()
                local = utc + datetime.timedelta(hours=hours)
                rrdi.create(self.file, "DS:g:GAUGE:60:U:U", "RRA:LAST:0.5:1:4", step=10, start=local.astimezone(), overwrite=True)
                self.assertEqual(rrdi.last(self.file), NOW)
                rrdi.update(self.file, ((utc + datetime.timedelta(hours=9, seconds=10)).replace(tzinfo=east), 1.5))
                found = rrdi.lastupdate(self.file).date
                self.assertEqual((found, found.tzinfo), (local + datetime.timedelta(seconds=10), None))
                self.assertEqual(rrdi.lastupdate(self.file, tz=east).date.isoformat(), "2023-11-15T07:20:10+09:00")

    def test_bounds_above_the_largest_value(self: Any) -> None:
        """A bound may have a size of up to 2^64 - 1, a value of a GAUGE one below 10^18."""
        rrdi.create(self.file, f"DS:g:GAUGE:60:-{GREATEST}:{GREATEST}", "DS:d:COUNTER:60:0:2000000000000000000",
                    "RRA:LAST:0.5:1:4", step=10, start=NOW)
        found = rrdi.info(self.file, values=Decimal)
        self.assertEqual((found.sources["g"].min, found.sources["g"].max, found.sources["d"].max), (-GREATEST, GREATEST, 2 * 10**18))
        sources = reader.read_file(str(self.file))["sources"]
        self.assertEqual([source["max"] for source in sources], [GREATEST * 10**6, 2 * 10**24])
        rrdi.update(self.file, f"{NOW + 10}:{10**18 - 1}:0")
        rrdi.update(self.file, f"{NOW + 20}:{-10**18 + 1}:{19 * 10**18 // 2}")
        self.assertEqual([row[0] for row in rrdi.fetch(self.file, "LAST", start=NOW, end=NOW + 19, values=Decimal)[2]],
                         [10**18 - 1, -10**18 + 1])
        for value in (10**18, -10**18):
            with self.assertRaises(rrdi.Error):
                rrdi.update(self.file, f"{NOW + 30}:{value}:U")
        with self.assertRaises(rrdi.Error):
            rrdi.tune(self.file, f"--maximum=g:{GREATEST + 1}")

    def test_as_many_sources_as_there_may_be(self: Any) -> None:
        """64 sources, each with its own value in each row, by all readers."""
        names = [f"s{number}" for number in range(64)]
        sources = [f"DS:{name}:GAUGE:60:U:U" for name in names]
        with self.assertRaises(rrdi.Error):
            rrdi.create(self.file, *sources, "DS:more:GAUGE:60:U:U", "RRA:AVERAGE:0.5:1:3", step=10, start=NOW)
        rrdi.create(self.file, *sources, "RRA:AVERAGE:0.5:1:3", "RRA:MAX:0:2:2", step=10, start=NOW)
        for row in range(1, 5):
            rrdi.update(self.file, f"{NOW + 10 * row}:" + ":".join(str(100 * row + number) for number in range(64)))
        span, found, rows = rrdi.fetch(self.file, "AVERAGE", start=NOW + 10, end=NOW + 39)
        self.assertEqual((span, found), ((NOW + 10, NOW + 40, 10), tuple(names)))
        self.assertEqual(rows, [tuple(100.0 * row + number for number in range(64)) for row in range(2, 5)])
        self.assertEqual(rrdi.fetch(self.file, "MAX", start=NOW, end=NOW + 39)[2],
                         [tuple(100.0 * row + number for number in range(64)) for row in (2, 4)])
        with OpenFile(str(self.file)) as file:
            for archive, wanted in zip(file.outline().archives, (range(2, 5), (2, 4))):
                self.assertEqual(file.rows(archive, NOW, NOW + 40),
                                 {NOW + 10 * row: [(100 * row + number) * 10**6 for number in range(64)] for row in wanted})
        self.assertEqual(rrdi.lastupdate(self.file).values, {name: 400.0 + number for number, name in enumerate(names)})


class ByTheProgram(WithProgram, Values, DataCase):
    pass


class ByTheLibrary(WithLibrary, Values, DataCase):
    pass
