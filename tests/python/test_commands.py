# SPDX-License-Identifier: MIT OR Apache-2.0
"""Tests of the functions over a path, each with its options, results and faults. The same tests are run with the C
library, and with the built program in its place."""
from __future__ import annotations

import datetime
import errno
import fcntl
import os
import pickle
import threading
import time
import unittest
from decimal import Decimal
from typing import Any, List
from unittest import mock

from cases import HANG, WithLibrary, WithProgram, run_in_threads
from file_case import BOTH, LAST, OfFiles

import rrdi
from rrdi import environment
from rrdi.errors import OK, REFUSED
from rrdi.library import Answer

NONE_LEFT = "no change is left in the journal, which keeps the newest 16"


class Commands(OfFiles):
    def test_fetch(self: Any) -> None:
        file = self.fill()
        found = rrdi.fetch(file, "AVERAGE", "--start", "1600000000", "--end", "1600000029")
        self.assertEqual(found, ((1_600_000_000, LAST, 10), ("g", "c"), [(1.5, None), (None, 0.3), (-2.25, 0.7)]))
        self.assertEqual(rrdi.fetch(file, "AVERAGE", start=1_600_000_000, end=1_600_000_029), found)
        self.assertEqual(rrdi.fetch(file, ["AVERAGE", "-s", 1_600_000_000], ["-e", "1600000029"]), found)
        self.assertEqual(rrdi.fetch(os.fsencode(file), "AVERAGE", "-s1600000000", "-e=1600000029"), found)

    def test_fetch_exactly(self: Any) -> None:
        file = self.fill()
        _, _, rows = rrdi.fetch(file, "AVERAGE", start=1_600_000_000, end=1_600_000_029, values=Decimal)
        self.assertEqual(rows, [(Decimal("1.5"), None), (None, Decimal("0.3")), (Decimal("-2.25"), Decimal("0.7"))])
        self.assertEqual(str(rows[2][0]), "-2.250000")
        with self.assertRaises(TypeError):
            rrdi.fetch(file, "AVERAGE", start=1_600_000_000, end=1_600_000_029, values=str)  # type: ignore[type-var]

    def test_fetch_of_a_single_row(self: Any) -> None:
        file = self.fill()
        one = ((1_600_000_010, 1_600_000_020, 10), ("g", "c"), [(None, 0.3)])
        for words in (["-s", "1600000010", "-e", "1600000010"], ["--start=1600000010", "--end=1600000019"],
                      ["-s1600000010", "-e", "1600000012", "-r", "10"], ["-e=1600000019", "-s=1600000011"]):
            self.assertEqual(rrdi.fetch(file, "AVERAGE", *words), one, words)
        self.assertEqual(rrdi.fetch(file, "AVERAGE", start=1_600_000_015, end=1_600_000_015), one)
        found = rrdi.fetch(file, "MAX", "--", start=1_600_000_000, end=1_600_000_010)
        self.assertEqual(found[0], (1_600_000_000, 1_600_000_020, 20))
        # Rows of more than a day: the start is a day before the end.
        rrdi.create(file, "DS:g:GAUGE:9:U:U", "RRA:LAST:0:1000:5", step=1_000, start=0, overwrite=True)
        self.assertEqual(rrdi.fetch(file, "LAST", end=1_500_000)[0], (1_000_000, 2_000_000, 1_000_000))
        self.assertEqual(rrdi.fetch(file, "LAST", end=80_000)[0], (0, 1_000_000, 1_000_000))

    def test_fetch_until_now(self: Any) -> None:
        file = self.create()
        span, _, rows = rrdi.fetch(file, "AVERAGE")
        self.assertEqual((span[1] - span[0], span[2], len(rows)), (86_410, 10, 8_641))
        self.assertLessEqual(abs(span[1] - time.time()), 60)
        span, _, rows = rrdi.fetch(file, "MAX", resolution=20, start=1_600_000_000, end=1_600_000_050)
        self.assertEqual((span, rows), ((1_600_000_000, 1_600_000_060, 20), [(None, None)] * 3))

    def test_numbers(self: Any) -> None:
        file = self.fill()
        self.assertEqual(rrdi.last(file), LAST)
        self.assertEqual(rrdi.first(file), 1_600_000_000)
        self.assertEqual(rrdi.first(file, rraindex=1), 1_599_999_960)
        self.assertEqual(rrdi.first(file, "--rraindex", "1"), 1_599_999_960)

    def test_lastupdate(self: Any) -> None:
        file = self.fill()
        date = datetime.datetime.fromtimestamp(LAST)
        self.assertEqual(rrdi.lastupdate(file), (date, {"g": -2.25, "c": 15.0}))
        self.assertIsInstance(rrdi.lastupdate(file).values["c"], float)
        found = rrdi.lastupdate(file, values=Decimal).values
        self.assertEqual({name: str(value) for name, value in found.items()}, {"g": "-2.250000", "c": "15"})
        rrdi.update(file, "1600000040:U:18446744073709551615")
        self.assertEqual(rrdi.lastupdate(file, values=Decimal).values, {"g": None, "c": Decimal(2**64 - 1)})

    def test_info(self: Any) -> None:
        file = str(self.fill())
        for values in (float, Decimal):
            found = rrdi.info(file, values=values)
            wanted = rrdi.Info(file, 10, LAST, 16, 1, {
                "g": rrdi.SourceInfo("g", "GAUGE", 100, values("-10"), None, values("-2.25")),
                "c": rrdi.SourceInfo("c", "COUNTER", 100, values("0"), values("50"), values("15"))}, (
                rrdi.ArchiveInfo("AVERAGE", values("0.5"), 1, 4, 10), rrdi.ArchiveInfo("MAX", values("0.25"), 2, 4, 20)))
            self.assertEqual(found, wanted)
            self.assertEqual((list(found.sources), type(found.archives[0].xff)), (["g", "c"], values))
        with self.assertRaises(TypeError):
            rrdi.info(self.file, values=str)  # type: ignore[type-var]
        rrdi.tune(self.file, "--maximum", f"g:{2**64 - 1}")
        self.assertEqual(rrdi.info(self.file, values=Decimal).sources["g"].max, 2**64 - 1)
        rrdi.update(self.file, "1600000040:100:U")
        self.assertEqual((rrdi.info(self.file).sources["g"].last_raw, rrdi.info(self.file).sources["c"].last_raw), (100, None))

    def test_changes_and_revert(self: Any) -> None:
        file = self.fill()
        before = file.read_bytes()
        rrdi.tune(file, "--heartbeat", "g:200", "--minimum=g:-5")
        self.assertEqual((rrdi.info(file).sources["g"].heartbeat, rrdi.info(file).sources["g"].min), (200, -5.0))
        rrdi.revert(file)
        self.assertEqual(file.read_bytes(), before)
        rrdi.tune(file, "RRA:LAST:0:1:9")
        self.assertEqual(rrdi.info(file).archives[2].rows, 9)
        rrdi.resize(file, 2, "GROW", 3)
        rrdi.resize(file, ["0", "SHRINK", "1"])
        self.assertEqual((rrdi.info(file).archives[2].rows, rrdi.info(file).archives[0].rows), (12, 3))
        for _ in range(3):
            rrdi.revert(file)
        self.assertEqual(file.read_bytes(), before)
        rrdi.update(file, "1600000040:7", template="g")
        self.assertEqual(rrdi.lastupdate(file).values, {"g": 7.0, "c": None})

    def test_create(self: Any) -> None:
        rrdi.create(self.file, ["DS:g:GAUGE:9:U:U"], "RRA:LAST:0:1:5")
        found = rrdi.info(self.file)
        self.assertEqual((found.step, found.journal), (300, 16))
        self.assertLessEqual(abs(rrdi.last(self.file) - time.time() + 10), 30)
        rrdi.create(self.file, "DS:g:GAUGE:9:U:U", "RRA:LAST:0:1:5", "--journal", "3", step=7, start=70,
                    overwrite=True)
        found = rrdi.info(self.file)
        self.assertEqual((found.step, found.journal, found.last_update), (7, 3, 70))
        rrdi.create(self.file, "DS:g:GAUGE:9:U:U", "RRA:LAST:0:1:5", journal=4, overwrite=True)
        self.assertEqual(rrdi.info(self.file).journal, 4)

    def test_refusals(self: Any) -> None:
        file = self.fill()
        self.refuses(rrdi.Refused, "not later than 1600000030", rrdi.update, file, "1600000030:1:2")
        self.refuses(rrdi.Refused, "wrong number of values", rrdi.update, file, "1600000040:1")
        self.refuses(rrdi.Refused, "no sample", rrdi.update, file)
        self.refuses(rrdi.Refused, "no such archive", rrdi.first, file, rraindex=9)
        self.refuses(rrdi.Refused, "no archive for this function", rrdi.fetch, file, "MIN")
        self.refuses(rrdi.Refused, "bad span", rrdi.fetch, file, "MAX", start=20, end=10)
        self.refuses(rrdi.Refused, "nothing to tune", rrdi.tune, file)
        self.refuses(rrdi.Refused, "shrinks too far", rrdi.resize, file, 0, "SHRINK", 4)
        self.refuses(rrdi.Refused, "no archive", rrdi.create, file, "DS:g:GAUGE:9:U:U", overwrite=True)
        rrdi.revert(file)
        error = self.refuses(rrdi.Refused, "nothing to revert", rrdi.revert, file)
        self.assertEqual((error.fault, error.at, str(error)), (13, None, f"{file}: nothing to revert: {NONE_LEFT}"))

    def test_words_that_are_wrong(self: Any) -> None:
        file = self.fill()
        error = self.refuses(rrdi.Unreadable, "unreadable sample 2", rrdi.update, file, "1600000040:1:2", "x")
        self.assertEqual((error.fault, isinstance(error, rrdi.ProgrammingError)), (11, True))
        self.refuses(rrdi.Unreadable, "unreadable sample 1", rrdi.update, file, "")
        self.refuses(rrdi.Unreadable, "unreadable function", rrdi.fetch, file, "MEAN")
        error = self.refuses(rrdi.Usage, "usage", rrdi.fetch, file, "MAX", "--wrong")
        self.assertEqual((error.fault, isinstance(error, rrdi.ProgrammingError)), (10, True))
        self.refuses(rrdi.Usage, "usage", rrdi.resize, file)
        self.refuses(rrdi.Usage, "usage", rrdi.update, file, "1600000040:1:2\0001600000050:1:2")
        self.refuses(rrdi.Usage, "usage", rrdi.update, file, "\udcff")
        others: List[Any] = [None, 1.5, b"1600000040:1:2", {"g": 1}, True]
        for wrong in others:
            with self.assertRaises(TypeError):
                rrdi.update(file, wrong)
        for seconds in (-1, float("nan")):
            with self.assertRaises(ValueError):
                rrdi.last(file, busy_timeout=seconds)
        calls: List[Any] = [rrdi.last, lambda path: rrdi.batch(path, ["last"])]
        for call in calls:
            with self.assertRaises(ValueError):
                call("f\0.rrdi")

    def test_no_file(self: Any) -> None:
        for call in (rrdi.last, rrdi.info, rrdi.revert, rrdi.lastupdate, rrdi.first,
                     lambda file: rrdi.update(file, "N:1"), lambda file: rrdi.fetch(file, "MAX")):
            error = self.refuses(rrdi.NoDatabase, "cannot open", call, self.file)
            self.assertEqual((error.fault, error.path), (14, str(self.file)))
            self.assertEqual((error.errno, error.strerror, error.filename),
                             (errno.ENOENT, "No such file or directory", str(self.file)))
        self.assertEqual(str(error), f"{self.file}: cannot open: No such file or directory")
        error = self.refuses(rrdi.CannotWrite, "cannot write", rrdi.create, self.folder / "none" / "f", *BOTH)
        self.assertEqual(error.fault, 15)

    def test_permissions(self: Any) -> None:
        self.fill().chmod(0)
        with self.as_nobody():
            self.refuses_without_reading(rrdi.MayNotOpen, "cannot open: Permission denied", rrdi.last)
        self.file.chmod(0o444)
        with self.as_nobody():
            self.assertEqual(rrdi.last(self.file), LAST)
            self.refuses_without_reading(rrdi.MayNotWrite, "cannot write: Permission denied", rrdi.revert)

    def refuses_without_reading(self: Any, kind: type, reason: str, call: Any) -> None:
        with self.assertRaises(kind) as raised:
            call(self.file)
        self.assertEqual((type(raised.exception), str(raised.exception)), (kind, f"{self.file}: {reason}"))

    def test_each_function_passes_on_what_it_is_given(self: Any) -> None:
        """The time, how long to wait, and whether to flush, also where a creation looks at the file that is there; what only
        reads flushes as the environment says."""
        own: Any = {"now": LAST + 60, "busy_timeout": 7.5}
        both: Any = {**own, "sync": True}
        file, library = self.fill(), mock.Mock(update_file=None)
        library.run_file.return_value = library.batch_file.return_value = Answer(REFUSED, 0, 0, b"refused")
        one, other = rrdi.Database(file, **both), rrdi.Database(file, collect=True, **both)
        reads: List[Any] = [
            lambda: rrdi.last(file, **own), lambda: rrdi.first(file, **own), lambda: rrdi.info(file, **own),
            lambda: rrdi.lastupdate(file, **own), lambda: rrdi.fetch(file, "AVERAGE", **own),
            lambda: rrdi.create(file, *BOTH, exist_ok=True, **both), lambda: one.create(*BOTH, exist_ok=True),
            lambda: other.create(*BOTH, exist_ok=True), other.last]
        changes: List[Any] = [
            lambda: rrdi.update(file, "N:1:2", **both), lambda: rrdi.tune(file, "--heartbeat", "g:9", **both),
            lambda: rrdi.resize(file, "0", "GROW", "1", **both), lambda: rrdi.revert(file, **both),
            lambda: rrdi.create(file, *BOTH, overwrite=True, **both),
            lambda: rrdi.create(self.folder / "new.rrdi", *BOTH, **both), lambda: rrdi.batch(file, ["last"], **both),
            one.last, lambda: one.create(*BOTH, overwrite=True), lambda: one.batch(["last"]), lambda: other.batch(["last"])]
        for number, (function, syncs) in enumerate([*((read, False) for read in reads), *((change, True) for change in changes)]):
            library.reset_mock()
            with mock.patch("rrdi.commands.the_library", lambda: library), mock.patch.object(environment, "SYNC", False), \
                    self.assertRaises(rrdi.Refused):
                function()
            calls = library.run_file.call_args_list + library.batch_file.call_args_list
            self.assertEqual([call[0][2:] for call in calls], [(LAST + 60, 7_500, syncs)], number)

    def test_damaged_files(self: Any) -> None:
        whole = self.fill().read_bytes()
        for data, reason, fault, at in ((b"", "truncated at 0", 22, 0), (b"RRDX", "not ours", 20, None),
                                        (whole[:4] + b"\0\3" + whole[6:], "version", 21, None),
                                        (whole[:100], "truncated at 100", 22, 100),
                                        (whole + b"x", f"trailing at {len(whole)}", 25, len(whole)),
                                        (whole[:6] + bytes(4) + whole[10:], "bad block at 6", 23, 6)):
            self.file.write_bytes(data)
            for call in (rrdi.last, rrdi.revert):
                error = self.refuses(rrdi.Damaged, f"file: {reason}", call, self.file)
                self.assertEqual((error.fault, error.at), (fault, at))
            if data:
                with self.assertRaises(rrdi.Fault) as raised:
                    rrdi.read_file(str(self.file))
                self.assertEqual((str(raised.exception), raised.exception.at), (f"file: {reason}", at))
        self.refuses_without_reading_folder()

    def test_files_of_others(self: Any) -> None:
        for name, data, whose in (("old.rrd", b"RRD\x000003", "RRDtool"), ("old.wsp", b"\0\0\0\1", "whisper")):
            (self.folder / name).write_bytes(data)
            with self.assertRaises(rrdi.Damaged) as raised:
                rrdi.last(self.folder / name)
            path = self.folder / name
            self.assertEqual(raised.exception.detail, f"{path} is a file of {whose}; rrdi-import converts it")

    def refuses_without_reading_folder(self: Any) -> None:
        with self.assertRaises((rrdi.CannotRead, rrdi.CannotOpen)):
            rrdi.last(self.folder)

    def test_busy(self: Any) -> None:
        file = self.fill()
        with open(file, "rb") as other:
            fcntl.flock(other, fcntl.LOCK_EX)
            begin = time.monotonic()
            with mock.patch.object(environment, "WAIT", 2 * HANG * 1_000):
                error = self.refuses(rrdi.Busy, "cannot open", rrdi.last, file, busy_timeout=0)
            self.assertLess(time.monotonic() - begin, HANG)
            self.assertEqual(str(error), f"{file}: cannot open: another program holds its lock")
            self.refuses(rrdi.Busy, "cannot open", rrdi.update, file, "1600000040:1:2", busy_timeout=0)
            self.refuses(rrdi.Busy, "cannot write", rrdi.create, file, *BOTH, busy_timeout=0,
                         overwrite=True)
            begin = time.monotonic()
            self.refuses(rrdi.Busy, "cannot open", rrdi.last, file, busy_timeout=1)
            self.assertGreater(time.monotonic() - begin, 0.9)
        with open(file, "rb") as other:
            fcntl.flock(other, fcntl.LOCK_SH)
            self.assertEqual(rrdi.last(file, busy_timeout=0), LAST)
            self.refuses(rrdi.Busy, "cannot open", rrdi.revert, file, busy_timeout=0)

    def test_waiting_for_a_lock(self: Any) -> None:
        file = self.fill()
        other = open(file, "rb")
        fcntl.flock(other, fcntl.LOCK_EX)
        timer = threading.Timer(0.3, other.close)
        timer.start()
        self.addCleanup(timer.join)
        rrdi.update(file, "1600000040:1:2", busy_timeout=30)
        self.assertEqual(rrdi.last(file), 1_600_000_040)

    def test_a_reading_function_flushes_as_the_environment_says(self: Any) -> None:
        """A reading function writes nothing, but passes the setting on."""
        library = mock.Mock()
        library.run_file.return_value = Answer(OK, 0, 0, b"10\n")
        for sync in (False, True):
            with mock.patch.object(environment, "SYNC", sync), mock.patch("rrdi.commands.the_library", lambda: library):
                rrdi.last(self.file)
                rrdi.first(self.file)
            self.assertEqual([call[0][4] for call in library.run_file.call_args_list], [sync, sync])
            library.run_file.reset_mock()

    def test_wait_of_the_environment(self: Any) -> None:
        file, library = self.fill(), mock.Mock()
        library.run_file.return_value = Answer(OK, 0, 0, b"10\n")
        for wait in (0, 7_000):
            with mock.patch.object(environment, "WAIT", wait), mock.patch("rrdi.commands.the_library", lambda: library):
                rrdi.last(file)
            self.assertEqual(library.run_file.call_args[0][3], wait)
        with open(file, "rb") as other, mock.patch("rrdi.environment.WAIT", 0):
            fcntl.flock(other, fcntl.LOCK_EX)
            self.refuses(rrdi.Busy, "cannot open", rrdi.last, file)

    def test_threads(self: Any) -> None:
        """Threads that update one file, and others: no sample is lost, and no call sees another's buffers."""
        rrdi.create(self.file, "DS:g:GAUGE:9999:U:U", "RRA:LAST:0:1:5", step=10, start=0, journal=1_000)
        failed: List[BaseException] = []

        def work(number: int) -> None:
            own = self.folder / f"{number}.rrdi"
            try:
                rrdi.create(own, f"DS:s{number}:GAUGE:9999:U:U", "RRA:LAST:0:1:5", step=10, start=0)
                for count in range(1, 26):
                    rrdi.update(own, f"{count * 10}:{number}", busy_timeout=60)
                    rrdi.tune(self.file, f"--heartbeat=g:{number + 1}", busy_timeout=60)
                    self.assertEqual(rrdi.lastupdate(own).values, {f"s{number}": float(number)})
            except BaseException as error:
                failed.append(error)

        run_in_threads(8, work)
        self.assertEqual(failed, [])
        self.assertEqual(rrdi.info(self.file).undoable, 200)
        self.assertEqual([rrdi.last(self.folder / f"{number}.rrdi") for number in range(8)], [250] * 8)


class Batches(OfFiles):
    def test_batch(self: Any) -> None:
        file = self.create("DS:g:GAUGE:100:U:U", "RRA:AVERAGE:0.5:1:4")
        lines = ["update 1600000010:1", "update 1600000010:2", "", "last", "wrong", "update 1600000020:3",
                 "fetch AVERAGE -s 1600000000 -e 1600000019"]
        ran = rrdi.batch(file, lines)
        self.assertEqual([line[:3] for line in ran.refused], [(2, "update 1600000010:2", "not later than 1600000010"),
                                                              (5, "wrong", "usage")])
        wanted = "ERROR: not later than 1600000010\n1600000010\nERROR: usage\n" \
                 "time: g\n1600000010: 1.000000\n1600000020: 3.000000\n"
        self.assertEqual(ran.output, wanted)
        self.assertEqual(rrdi.info(file).undoable, 2)
        file.unlink()
        self.create("DS:g:GAUGE:100:U:U", "RRA:AVERAGE:0.5:1:4")
        self.assertEqual(rrdi.batch(file, "\n".join(lines)), ran)
        file.unlink()
        self.create("DS:g:GAUGE:100:U:U", "RRA:AVERAGE:0.5:1:4")
        self.assertEqual(rrdi.batch(file, (line + "\n" for line in lines)).output, wanted)

    def test_batch_without_a_file(self: Any) -> None:
        ran = rrdi.batch(self.file, ["last", "revert"])
        self.assertEqual([(line.number, line.reason) for line in ran.refused], [(1, "no database"), (2, "no database")])
        self.assertFalse(self.file.exists())
        ran = rrdi.batch(self.file, ["create --step 10 --start 0 DS:g:GAUGE:9:U:U RRA:LAST:0:1:3", "update 10:1"])
        self.assertEqual((ran.output, ran.refused, rrdi.last(self.file)), ("", (), 10))

    def test_faults_of_a_batch(self: Any) -> None:
        self.file.write_bytes(b"other bytes")
        self.refuses(rrdi.Damaged, "file: not ours", rrdi.batch, self.file, ["last"])
        self.file.unlink()
        self.fill()
        with open(self.file, "rb") as other:
            fcntl.flock(other, fcntl.LOCK_EX)
            self.refuses(rrdi.Busy, "cannot open", rrdi.batch, self.file, ["last"], busy_timeout=0)
        self.refuses(rrdi.Usage, "usage", rrdi.batch, self.file, ["last", "revert\nrevert"])

    def test_many_refused_lines(self: Any) -> None:
        file = self.fill()
        lines = ["update 5:1:2"] * 5_000 + ["revert"] + ["revert"] * 3_000
        ran = rrdi.batch(file, lines)
        self.assertEqual([line.number for line in ran.refused], [*range(1, 5_001), *range(5_002, 8_002)])
        self.assertEqual({line.reason for line in ran.refused[:5_000]}, {"not later than 1600000030"})
        self.assertEqual(ran.refused[-1], rrdi.RefusedLine(8_001, "revert", "nothing to revert"))
        self.assertEqual(rrdi.last(file), 1_600_000_000)


class Collecting(OfFiles):
    """Blocks whose changes wait."""

    def test_block(self: Any) -> None:
        file = self.create()
        with rrdi.Database(file, collect=True) as database:
            database.update("1600000010:1:2", "1600000020:2:5")
            database.update("1600000030:7", template="g")
            database.tune("--heartbeat", "g:50")
            self.assertEqual(rrdi.last(file), 1_600_000_000)
        found = rrdi.info(file)
        self.assertEqual((found.last_update, found.undoable, found.sources["g"].heartbeat), (LAST, 3, 50))

    def test_questions(self: Any) -> None:
        file = self.create()
        with rrdi.Database(file, collect=True) as database:
            self.assertEqual(database.last(), 1_600_000_000)
            database.update("1600000010:1.5:5")
            database.update("1600000010:2:5")
            self.assertEqual(database.last(), 1_600_000_010)
            self.assertEqual(rrdi.last(file), 1_600_000_010)
            database.update("1600000020:U:8")
            self.assertEqual(database.fetch("AVERAGE", start=1_600_000_000, end=1_600_000_019),
                             ((1_600_000_000, 1_600_000_020, 10), ("g", "c"), [(1.5, None), (None, 0.3)]))
            database.update("1600000030:-2.25:15")
            one = database.fetch("AVERAGE", start=1_600_000_020, end=1_600_000_020, values=Decimal)
            self.assertEqual(one, ((1_600_000_020, LAST, 10), ("g", "c"), [(Decimal("-2.25"), Decimal("0.7"))]))
            database.revert()
            self.assertEqual(database.lastupdate().values, {"g": None, "c": 8.0})
            self.assertEqual(database.lastupdate(values=Decimal).values, {"g": None, "c": Decimal(8)})
            database.resize(0, "GROW", 2)
            self.assertEqual((database.info().archives[0].rows, database.info().filename), (6, str(file)))
            self.assertEqual((database.first(), database.first(1)), (1_599_999_970, 1_599_999_960))
            self.assertEqual([line.number for line in database.refused], [2])
            database.refused.clear()

    def test_refused_lines(self: Any) -> None:
        file = self.create()
        with self.assertRaises(rrdi.Refused) as raised:
            with rrdi.Database(file, collect=True) as database:
                database.update("1600000010:1:2")
                database.update("1600000010:1:2")
                database.last()
                database.update("1600000020:1:2")
                database.update("x")
        error = raised.exception
        self.assertEqual([line[:3] for line in error.lines], [(2, "update 1600000010:1:2", "not later than 1600000010"),
                                                              (4, "update x", "unreadable sample 1")])
        self.assertEqual(str(error), f"{file}: line 2, update 1600000010:1:2: not later than 1600000010: 1600000010 is not later "
                                     "than the last update, 1600000010; the next sample may be at 1600000011 or later (and 1 more)")
        again = pickle.loads(pickle.dumps(error))
        self.assertEqual((again.lines, str(again), again.fault), (error.lines, str(error), 13))
        self.assertEqual(rrdi.last(file), 1_600_000_020)

    def test_questions_that_are_refused(self: Any) -> None:
        with rrdi.Database(self.create(), collect=True) as database:
            asked: List[Any] = [(rrdi.Refused, "no such archive", lambda: database.first(9)),
                                (rrdi.Unreadable, "unreadable function", lambda: database.fetch("MEAN")),
                                (rrdi.Usage, "usage", lambda: database.fetch("MAX", "--wrong"))]
            for kind, reason, ask in asked:
                for is_waiting in (False, True):
                    if is_waiting:
                        database.update("N:1:2")
                        database.revert()
                    with self.assertRaises(kind) as raised:
                        ask()
                    self.assertEqual((type(raised.exception), raised.exception.reason), (kind, reason))
            self.assertEqual(database.refused, [])

    def test_lines(self: Any) -> None:
        with rrdi.Database(self.create(), collect=True) as database:
            database.update("1600000010:1:2")
            self.assertEqual(database.batch(["last", "update 1600000020:1:2"]), rrdi.Batch("1600000010\n", ()))
            self.assertEqual(rrdi.last(self.file), 1_600_000_020)

    def test_an_exception_drops_what_waits(self: Any) -> None:
        before = self.create().read_bytes()
        with self.assertRaises(ZeroDivisionError):
            with rrdi.Database(self.file, collect=True) as database:
                database.update("1600000010:1:2")
                raise ZeroDivisionError
        self.assertEqual(self.file.read_bytes(), before)

    def test_what_waits_stays_after_a_fault(self: Any) -> None:
        database = rrdi.Database(self.create(), collect=True, busy_timeout=0)
        database.update("1600000010:1:2")
        with open(self.file, "rb") as other:
            fcntl.flock(other, fcntl.LOCK_EX)
            self.refuses(rrdi.Busy, "cannot open", database.flush)
        database.flush()
        self.assertEqual(rrdi.last(self.file), 1_600_000_010)
        database.flush()
        self.assertEqual(rrdi.info(self.file).undoable, 1)

    def test_words_that_are_no_line(self: Any) -> None:
        database = rrdi.Database(self.create(), collect=True)
        for wrong in ("1600000010:1:2\nrevert", "1600000010:1:2 1600000020:1:2", "", "\t", "1600000010:1:\xe4",
                      "9" * 70_000):
            with self.assertRaises(rrdi.Usage):
                database.update(wrong)
        database.flush()
        self.assertEqual(rrdi.last(self.file), 1_600_000_000)

    def test_now(self: Any) -> None:
        rrdi.create(self.file, *BOTH, step=10, start=1_600_000_000)
        with rrdi.Database(self.file, collect=True) as database:
            database.update("N:1:2")
            time.sleep(1.1)
            database.update("N:3:4")
        self.assertLessEqual(abs(rrdi.last(self.file) - time.time()), 30)
        with rrdi.Database(self.file, collect=True, now=9_000_000_000) as database:
            database.update("N:1:2")
        self.assertEqual(rrdi.last(self.file), 9_000_000_000)

    def test_create(self: Any) -> None:
        with rrdi.Database(self.file, collect=True) as database:
            database.create(*BOTH, step=10, start=50, journal=5)
            database.update("60:1:2")
            for _ in range(2):  # it waits, and then it is there: by the same words too
                with self.assertRaises(rrdi.Exists) as raised:
                    database.create(*BOTH, step=10, start=50, journal=5)
                self.assertIs(type(raised.exception), rrdi.Exists)
                database.create(*BOTH, step=10, start=50, exist_ok=True)
                database.flush()
            self.assertEqual(rrdi.info(self.file).undoable, 1)
        self.assertEqual((rrdi.last(self.file), rrdi.info(self.file).journal), (60, 5))


class InMemory(OfFiles):
    def test_run(self: Any) -> None:
        data, output = rrdi.run(None, "create", "--step", "10", "--start", "0", "DS:g:GAUGE:99:U:U", "RRA:LAST:0:1:3")
        self.assertEqual((data[:4], output), (b"RRDI", ""))
        newer, output = rrdi.run(data, "update", ["10:1", "20:2"])
        self.assertNotEqual(newer, data)
        same, output = rrdi.run(newer, "fetch", "LAST", "-s", 0, "-e", 19)
        self.assertEqual(output, "time: g\n10: 1.000000\n20: 2.000000\n")
        self.assertIs(same, newer)
        self.assertEqual(rrdi.run(newer, "revert").data, data)
        self.assertEqual(rrdi.read(newer)["last_time"], 20)

    def test_faults(self: Any) -> None:
        data = rrdi.run(None, "create", "--step", "10", "--start", "0", "DS:g:GAUGE:99:U:U", "RRA:LAST:0:1:3").data
        faults: List[Any] = [(None, rrdi.NoDatabase, ["last"], "cannot open"),
                             (data, rrdi.Refused, ["revert"], f"nothing to revert: {NONE_LEFT}"),
                             (data, rrdi.Unreadable, ["update", "x"],
                              "unreadable sample 1: 'x' has no value; write TIME:VALUE"),
                             (data, rrdi.Usage, ["last", "x"], "usage: 'x' is a word too many; last takes none"),
                             (data, rrdi.Usage, [], "usage: the name of the command is empty"),
                             (data[:9], rrdi.Damaged, ["last"], "file: truncated at 9"),
                             (b"", rrdi.Damaged, ["last"], "file: truncated at 0")]
        for given, kind, words, text in faults:
            with self.assertRaises(kind) as raised:
                rrdi.run(given, *words)
            self.assertEqual((type(raised.exception), str(raised.exception)), (kind, text))
            self.assertIsNone(raised.exception.path)

    def test_batch(self: Any) -> None:
        lines = ["create --step 10 --start 0 DS:g:GAUGE:99:U:U RRA:LAST:0:1:3", "update 10:1", "update 10:2", "last"]
        ran = rrdi.run_batch(None, ["last", *lines])
        self.assertEqual([(line.number, line.reason) for line in ran.refused],
                         [(1, "no database"), (4, "not later than 10")])
        self.assertEqual(ran.output, "ERROR: no database\nERROR: not later than 10\n10\n")
        again = rrdi.run_batch(ran.data, "update 20:5\n\nlast")
        self.assertEqual((again.output, again.refused, rrdi.read(again.data or b"")["last_time"]), ("20\n", (), 20))
        with self.assertRaises(rrdi.Damaged):
            rrdi.run_batch(b"other", "last")

    def test_large(self: Any) -> None:
        """Rooms that are too small at first."""
        data = rrdi.run(None, "create", "--step", "1", "--start", "0", "DS:g:GAUGE:99:U:U", "RRA:LAST:0:1:50000").data
        self.assertGreater(len(data), 800_000)
        later = rrdi.run_batch(data, [f"update {time}:{time % 7}" for time in range(1, 20_001)]).data
        output = rrdi.run(later, "fetch", "LAST", "-s", "0", "-e", "19999").output
        self.assertEqual(output.splitlines()[1:], [f"{time}: {time % 7}.000000" for time in range(1, 20_001)])


class CommandsByProgram(WithProgram, Commands, unittest.TestCase):
    pass


class BatchesByProgram(WithProgram, Batches, unittest.TestCase):
    pass


class CollectingByProgram(WithProgram, Collecting, unittest.TestCase):
    pass


class InMemoryByProgram(WithProgram, InMemory, unittest.TestCase):
    pass


class CommandsByLibrary(WithLibrary, Commands, unittest.TestCase):
    def test_now(self) -> None:
        """A time for now, which the program takes from its clock."""
        rrdi.create(self.file, *BOTH, step=10, now=1_600_000_010)
        self.assertEqual(rrdi.last(self.file), 1_600_000_000)
        rrdi.update(self.file, "N:1:2", now=1_600_000_020)
        self.assertEqual(rrdi.last(self.file), 1_600_000_020)
        self.assertEqual(rrdi.fetch(self.file, "AVERAGE", now=1_600_000_020)[0],
                         (1_599_913_620, 1_600_000_030, 10))

    def test_paths(self) -> None:
        self.fill()
        self.refuses(rrdi.NoDatabase, "cannot open", rrdi.last, os.fsencode(self.folder / "none") + b"\xff")
        name = self.folder / "-näme \n"
        os.rename(self.file, name)
        self.assertEqual(rrdi.last(name), LAST)

    def test_the_interpreter_goes_on_during_a_call(self) -> None:
        """A call that waits for a lock keeps no other thread waiting."""
        self.fill()
        with open(self.file, "rb") as other:
            fcntl.flock(other, fcntl.LOCK_EX)
            waiting = threading.Thread(target=rrdi.last, args=(self.file,), kwargs={"busy_timeout": HANG})
            waiting.start()
            for _ in range(20):
                time.sleep(0.01)
            self.assertTrue(waiting.is_alive())
            fcntl.flock(other, fcntl.LOCK_UN)
            waiting.join()


class BatchesByLibrary(WithLibrary, Batches, unittest.TestCase):
    pass


class CollectingByLibrary(WithLibrary, Collecting, unittest.TestCase):
    pass


class InMemoryByLibrary(WithLibrary, InMemory, unittest.TestCase):
    pass
