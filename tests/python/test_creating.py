# SPDX-License-Identifier: MIT OR Apache-2.0
"""Tests of `create`: a file is replaced only if the caller says so, and it appears whole or not at all. By the C library,
and by the program in its place."""
from __future__ import annotations

import datetime
import errno
import os
import pickle
import unittest
from typing import Any, Dict, List
from unittest import mock

from cases import WithLibrary, WithProgram, use_library
from file_case import BOTH, OfFiles

import rrdi
from rrdi import library

ONE = ("DS:g:GAUGE:100:U:U", "RRA:LAST:0.5:1:4")
OTHERS = b"bytes of another program"


class Meanwhile:
    """A library during whose first call another program makes a file."""

    def __init__(self, chosen: Any, make: Any):
        self.chosen, self.make = chosen, make

    def __getattr__(self, name: str) -> Any:
        def call(*words: Any) -> Any:
            make, self.make = self.make, lambda: None
            make()
            return getattr(self.chosen, name)(*words)
        return call


class Creating(OfFiles):
    def files(self: Any) -> List[str]:
        return sorted(os.listdir(self.folder))

    def test_a_file_stays(self: Any) -> None:
        error = self.refuses(rrdi.Exists, "cannot write", rrdi.create, self.fill(), *ONE)
        self.assertEqual(str(error), f"{self.file}: cannot write: File exists; "
                                     "overwrite=True replaces it, exist_ok=True keeps it")
        self.assertEqual((error.fault, error.system_error, error.errno), (15, errno.EEXIST, errno.EEXIST))
        self.assertTrue(isinstance(error, rrdi.CannotWrite) and isinstance(error, FileExistsError))
        again = pickle.loads(pickle.dumps(error))
        self.assertEqual((type(again), str(again), again.errno), (rrdi.Exists, str(error), errno.EEXIST))
        self.file.write_bytes(b"")
        self.refuses(rrdi.Exists, "cannot write", rrdi.create, self.file, *ONE)
        self.refuses(rrdi.Exists, "cannot write", rrdi.create, os.fsencode(self.file), *ONE)
        with self.assertRaises(rrdi.Exists):
            rrdi.create(self.folder, *ONE)
        self.assertEqual(self.files(), ["f.rrdi"])

    def test_exist_ok(self: Any) -> None:
        rrdi.create(self.file, *BOTH, step=10, start=5, exist_ok=True)
        rrdi.update(self.file, "6:1:2")
        before = self.file.read_bytes()
        same = [one.replace(":100:", ":0100:").replace(":0.5:", ":0.500:") for one in BOTH]
        given: List[Dict[str, Any]] = [{}, {"start": 7}, {"journal": 16}]
        for options in given:
            rrdi.create(self.file, *same, step=10, exist_ok=True, **options)
        self.assertEqual((self.file.read_bytes(), self.files()), (before, ["f.rrdi"]))

    def test_another_definition(self: Any) -> None:
        """A database with another definition is kept, and the error says what differs."""
        self.create()
        g, c, average, most = BOTH
        for definitions, step, journal, text in (
                (BOTH, None, None, "step=10, not step=300"), (BOTH, 10, 17, "journal=16, not journal=17"),
                ((c, g, average, most), 10, None, f"{g}, not {c}"), ((g, average, most), 10, None, f"{c}, not {average}"),
                ((g.replace("100", "99"), c, average, most), 10, None, f"{g}, not DS:g:GAUGE:99:-10:U"),
                ((g, c, average), 10, None, most), ((*BOTH, "RRA:LAST:0:1:5"), 10, None, "lacks RRA:LAST:0:1:5")):
            error = self.refuses(rrdi.Different, "cannot write", rrdi.create, self.file, *definitions, step=step,
                                 journal=journal, exist_ok=True)
            told = f"the file {'' if text.startswith('lacks') else 'has '}{text}"
            self.assertEqual(str(error), f"{self.file}: cannot write: File exists; {told}")
            self.assertIsInstance(error, rrdi.Exists)
            again = pickle.loads(pickle.dumps(error))
            self.assertEqual((type(again), str(again)), (rrdi.Different, str(error)))
        error = self.refuses(rrdi.Refused, "bad heartbeat", rrdi.create, self.file, "DS:g:GAUGE:0:U:U", average,
                             exist_ok=True)
        self.assertIn("heartbeat of g", error.detail)
        self.file.write_bytes(OTHERS)
        self.refuses(rrdi.Damaged, "file: not ours", rrdi.create, self.file, *ONE, exist_ok=True)

    def test_overwrite(self: Any) -> None:
        for contents in (None, OTHERS, b""):
            if contents is not None:
                self.file.write_bytes(contents)
            rrdi.create(self.file, *BOTH, step=10, start=5, overwrite=True)
            self.assertEqual((rrdi.last(self.file), self.files()), (5, ["f.rrdi"]))
        with self.assertRaises(ValueError):
            rrdi.create(self.file, *ONE, overwrite=True, exist_ok=True)

    def test_nothing_is_left_of_a_create_that_fails(self: Any) -> None:
        error = self.refuses(rrdi.Refused, "no archive", rrdi.create, self.file, "DS:g:GAUGE:9:U:U")
        self.assertEqual(error.path, str(self.file))
        self.refuses(rrdi.Usage, "usage", rrdi.create, self.file, "--wrong")
        with mock.patch("os.link", side_effect=OSError(errno.ENOSPC, "No space left on device")):
            error = self.refuses(rrdi.CannotWrite, "cannot write", rrdi.create, self.file, *ONE)
        self.assertEqual(str(error), f"{self.file}: cannot write: No space left on device")
        self.assertEqual(self.files(), [])

    def make_meanwhile(self: Any, make: Any) -> None:
        use_library(self, Meanwhile(self.library() or library.load_library(), make))

    def test_another_program_makes_the_file_meanwhile(self: Any) -> None:
        self.make_meanwhile(lambda: self.file.write_bytes(OTHERS))
        with self.assertRaises(rrdi.Exists):
            rrdi.create(self.file, *ONE)
        self.assertEqual((self.file.read_bytes(), self.files()), (OTHERS, ["f.rrdi"]))

    def test_times(self: Any) -> None:
        begin = datetime.datetime(2020, 9, 13, 14, 26, 40, 999_999, datetime.timezone(datetime.timedelta(hours=2)))
        rrdi.create(self.file, *ONE, step=datetime.timedelta(minutes=1), start=begin)
        found = rrdi.info(self.file)
        self.assertEqual((found.step, found.last_update), (60, 1_600_000_000))
        rrdi.create(self.file, *ONE, step=20, start=1_600_000_001.9, overwrite=True)
        found = rrdi.info(self.file)
        self.assertEqual((found.step, found.last_update), (20, 1_600_000_001))
        with self.assertRaisesRegex(ValueError, "has no zone"):
            rrdi.create(self.file, *ONE, start=datetime.datetime(2020, 9, 13), overwrite=True)
        with self.assertRaisesRegex(ValueError, "whole seconds, not 0:00:00.500000"):
            rrdi.create(self.file, *ONE, step=datetime.timedelta(milliseconds=500), overwrite=True)
        wrong: List[Any] = [0.5, True, b"10"]
        for step in wrong:
            with self.assertRaises(TypeError):
                rrdi.create(self.file, *ONE, step=step, overwrite=True)


class InBlocks(Creating):
    """`Database.create` with `collect`, where its line waits."""

    def test_a_file_stays(self: Any) -> None:
        file = self.fill()
        before = file.read_bytes()
        with self.assertRaises(rrdi.Exists):
            with rrdi.Database(file, collect=True) as database:
                database.update("1600000040:1:2")
                database.create(*ONE)
        self.assertEqual(file.read_bytes(), before)
        with self.assertRaises(ValueError):
            rrdi.Database(file, collect=True).create(*ONE, overwrite=True, exist_ok=True)

    def test_exist_ok(self: Any) -> None:
        for _ in range(2):
            with rrdi.Database(self.file, collect=True) as database:
                database.create(*BOTH, step=10, start=5, exist_ok=True)
                if self.file.exists():
                    self.assertRaises(rrdi.Different, database.create, *ONE, exist_ok=True)
                else:
                    database.create(*ONE, exist_ok=True)  # the first one waits
                database.update((rrdi.last(self.file) + 1 if self.file.exists() else 6, 1, 2))
        self.assertEqual((rrdi.last(self.file), rrdi.info(self.file).undoable, self.files()), (7, 2, ["f.rrdi"]))

    def test_overwrite(self: Any) -> None:
        with rrdi.Database(self.fill(), collect=True) as database:
            database.create(*BOTH, step=10, start=5, overwrite=True)
            database.update("6:1:2")
        self.assertEqual((rrdi.last(self.file), self.files()), (6, ["f.rrdi"]))

    def test_nothing_is_left_of_a_create_that_fails(self: Any) -> None:
        with self.assertRaises(rrdi.RefusedLines) as raised:
            with rrdi.Database(self.file, collect=True) as database:
                database.create("DS:g:GAUGE:9:U:U")
                database.update("N:1")
        self.assertEqual([line.reason for line in raised.exception.lines], ["no archive", "no database"])
        with self.assertRaises(ZeroDivisionError):
            with database:
                database.create(*ONE)
                raise ZeroDivisionError
        self.assertEqual(self.files(), [])
        rrdi.create(self.file, *ONE, start=5)
        database.update("6:1")
        self.assertEqual(database.last(), 6)

    def test_changes_after_a_create(self: Any) -> None:
        with rrdi.Database(self.file, collect=True) as database:
            database.create(*ONE, start=5)
            self.assertEqual((database.last(), self.files()), (5, ["f.rrdi"]))
            database.update("6:1")
        self.assertEqual(rrdi.last(self.file), 6)

    def test_another_program_makes_the_file_meanwhile(self: Any) -> None:
        self.make_meanwhile(lambda: self.file.write_bytes(OTHERS))
        database = rrdi.Database(self.file, collect=True)
        database.create(*ONE)
        with self.assertRaises(rrdi.Exists):
            database.flush()
        self.assertEqual((self.file.read_bytes(), self.files()), (OTHERS, ["f.rrdi"]))
        self.file.unlink()
        database.flush()  # the change has waited
        self.assertEqual(rrdi.info(self.file).sources["g"].type, "GAUGE")

    def test_a_flush_that_fails(self: Any) -> None:
        """The changes wait for the next one, which still makes no database in place of somebody else's file."""
        file = self.folder / "later/f.rrdi"
        database = rrdi.Database(file, collect=True)
        database.create(*ONE)
        with self.assertRaises(rrdi.Error):
            database.flush()
        file.parent.mkdir()
        file.write_bytes(OTHERS)
        with self.assertRaises(rrdi.Exists):
            database.flush()
        self.assertEqual(file.read_bytes(), OTHERS)

    def test_another_program_makes_the_database_meanwhile(self: Any) -> None:
        chosen = self.library() or library.load_library()
        self.make_meanwhile(lambda: chosen.run_file(os.fsencode(self.file), "\0".join(
            ["create", "--start=5", *BOTH]).encode(), 0, 0, False))
        database = rrdi.Database(self.file, collect=True)
        database.tune("--heartbeat", "g:7")
        database.create(*ONE, exist_ok=True)
        database.update("6:1:2")
        database.flush()
        self.assertEqual((rrdi.last(self.file), rrdi.info(self.file).sources["g"].heartbeat), (6, 7))
        self.assertEqual(self.files(), ["f.rrdi"])

    def test_the_numbers_of_lines_after_a_creation_that_another_program_made(self: Any) -> None:
        """They count the line of the creation, which has done nothing."""
        chosen = self.library() or library.load_library()
        self.make_meanwhile(lambda: chosen.run_file(os.fsencode(self.file), "\0".join(
            ["create", "--start=5", *BOTH]).encode(), 0, 0, False))
        database = rrdi.Database(self.file, collect=True)
        database.create(*ONE, exist_ok=True)
        for line in ("6:1:2", "6:3:4", "7:5:6"):
            database.update(line)
        with self.assertRaises(rrdi.RefusedLines) as raised:
            database.flush()
        self.assertEqual([(line.number, line.line) for line in raised.exception.lines], [(3, "update 6:3:4")])
        self.assertEqual(rrdi.last(self.file), 7)

    def test_times(self: Any) -> None:
        begin = datetime.datetime(2020, 9, 13, 12, 26, 40, tzinfo=datetime.timezone.utc)
        with rrdi.Database(self.file, collect=True, now=begin + datetime.timedelta(seconds=3)) as database:
            database.create(*ONE, step=datetime.timedelta(minutes=1), start=begin)
            database.update(("N", 5))
        self.assertEqual((rrdi.last(self.file), rrdi.info(self.file).step), (1_600_000_003, 60))


class CreatingByProgram(WithProgram, Creating, unittest.TestCase):
    pass


class InBlocksByProgram(WithProgram, InBlocks, unittest.TestCase):
    pass


class CreatingByLibrary(WithLibrary, Creating, unittest.TestCase):
    pass


class InBlocksByLibrary(WithLibrary, InBlocks, unittest.TestCase):
    pass
