# SPDX-License-Identifier: MIT OR Apache-2.0
"""Tests of `rrdi.kept_file`: when a file is opened, closed and opened again, with a library that really locks the file, and
answers what a test wants."""
from __future__ import annotations

import errno
import fcntl
import os
import signal
import threading
import unittest
from pathlib import Path
from typing import Any, Callable, List, Optional, Tuple
from unittest import mock

from building import ByExtension
from cases import HANG, DataCase, run_in_threads, sleeping_child, use_library
from locking import BUSY, Locking
from opcodes import between_all, between_each

import rrdi
from rrdi.by_ctypes import FileByWords
from rrdi.errors import CANNOT_OPEN, CANNOT_WRITE, NO_MEMORY, READ_FAILED, REFUSED
from rrdi.fetching import Asked
from rrdi.kept_file import KeptFile
from rrdi.protocol import DONE, Answer, OpenedFile
from rrdi.results import Table

def is_locked(path: Path) -> bool:
    """Checks whether anybody has the lock of a file."""
    with open(path, "rb") as file:
        try:
            fcntl.flock(file, fcntl.LOCK_EX | fcntl.LOCK_NB)
        except BlockingIOError:
            return True
    return False


class KeptCase(DataCase):
    def setUp(self) -> None:
        super().setUp()
        self.path = self.folder / "f.rrdi"
        self.path.write_bytes(b"a database")
        self.library = Locking()
        use_library(self, self.library.library)
        self.kept = KeptFile(self.path, 2, True)

    def said(self) -> List[str]:
        """Returns what was called since the last time."""
        said, self.library.said = self.library.said, []
        return said


class FastWays(KeptCase):
    def test_faults_of_the_fast_ways(self) -> None:
        """A fault closes the file. A refusal does not: `run` has to say it."""
        samples, answer = ((10, 1.5), (20, 2.5)), DONE
        with mock.patch.object(FileByWords, "update", lambda *_: answer), \
                mock.patch.object(FileByWords, "update_many", lambda *_: (answer, 1)):
            for fault in (CANNOT_WRITE, NO_MEMORY):
                answer = Answer(fault, errno.ENOSPC, 0, b"a fault")
                ways: List[Tuple[Callable[[], object], int]] = [
                    (lambda: self.kept.add(samples[:1]), 0), (lambda: self.kept.add_many(samples, 3), 4)]
                for add, stored in ways:
                    self.kept.run(["last"])
                    with self.assertRaises(rrdi.Error) as raised:
                        add()
                    error = raised.exception
                    self.assertEqual((error.path, error.fault, error.stored), (str(self.path), fault, stored))
                    self.assertFalse(is_locked(self.path))
            answer = Answer(REFUSED, 0, 0, b"bad value")
            self.kept.run(["last"])
            self.assertEqual((self.kept.add(samples[:1]), self.kept.add_many(samples, 0)), (False, 1))
            self.assertTrue(is_locked(self.path))


    def test_rows(self) -> None:
        """Rows without a row, or of a file that was closed meanwhile, are left to `run`."""
        names, asked = b"time: a b\n10: 1.000000 2.000000\n", Asked("AVERAGE", None, 100, 120)
        rows: List[Any] = [(1.0, 2.0), (3.0, 4.0)]
        found: List[Any] = [(100, 10, []), (100, 10, rows), (100, 10, rows[:1]), None]
        self.assertIsNone(self.kept.rows(asked, 130))  # not open yet
        self.kept.run(["last"])
        with mock.patch.object(FileByWords, "fetch", lambda *_: found.pop(0)):
            self.assertIsNone(self.kept.rows(asked, 130))
            self.library.answers = [DONE._replace(output=names)]
            for end, wanted in ((120, rows), (110, rows[:1])):
                self.assertEqual(self.kept.rows(asked, 130), Table((100, end, 10), ("a", "b"), wanted))
            self.assertIsNone(self.kept.rows(asked, 130))


class Files(KeptCase):
    def test_one_opening_for_many_commands(self) -> None:
        self.assertEqual((self.said(), is_locked(self.path)), ([], False))
        self.library.answers = [DONE, DONE._replace(output=b"20\n")]
        self.assertEqual((self.kept.run(["update"]), self.kept.run(["last"])), ("", "20\n"))
        self.kept.batch(["update 30:1", "last"])
        self.assertEqual(self.said(), ["open 2000 True", "open update", "open last", "open update 30:1\nlast"])
        self.assertTrue(is_locked(self.path))
        for _ in range(2):
            self.kept.close()
        self.assertEqual((self.said(), is_locked(self.path)), (["close"], False))
        self.kept.run(["last"])
        self.assertEqual(self.said(), ["open 2000 True", "open last"])

    def test_refusals_close_nothing(self) -> None:
        self.library.answers = [Answer(REFUSED, 0, 0, b"bad value", explanation=b"why"),
                                Answer(REFUSED, 0, 0, b"nothing to revert")]
        for words, detail in ((["update", "10:1"], "why"), (["revert"], "")):
            with self.assertRaises(rrdi.Refused) as raised:
                self.kept.run(words)
            self.assertEqual(raised.exception.detail, detail)
        self.assertTrue(is_locked(self.path))
        self.library.answers = [DONE._replace(output=b"ERROR: bad value\n", refused=(2,))]
        ran = self.kept.batch(["last", "update 1:x"])
        self.assertEqual(ran.refused, (rrdi.RefusedLine(2, "update 1:x", "bad value"),))
        self.assertNotIn("close", self.said())

    def test_other_faults_close_the_file(self) -> None:
        for fault in (CANNOT_WRITE, CANNOT_OPEN, NO_MEMORY, READ_FAILED, 22):
            self.library.answers = [DONE, Answer(fault, 0, 0, b"a fault")]
            self.kept.run(["last"])
            with self.assertRaises(rrdi.Error):
                self.kept.run(["update"])
            self.assertEqual((self.said(), is_locked(self.path)),
                             (["open 2000 True", "open last", "open update", "close"], False))
        self.library.answers = [Answer(CANNOT_WRITE, 0, 0, b"")]
        with self.assertRaises(rrdi.CannotWrite):
            self.kept.batch(["update 10:1"])
        self.assertFalse(is_locked(self.path))
        self.said()
        self.kept.run(["last"])
        self.assertEqual(self.said(), ["open 2000 True", "open last"])

    def test_a_file_that_cannot_stay_open(self) -> None:
        for fault in (Answer(CANNOT_OPEN, errno.EINVAL, 0, b""), Answer(CANNOT_OPEN, errno.EACCES, 0, b""),
                      Answer(22, 0, 9, b"")):
            self.library.at_open = lambda path, fault=fault: fault  # type: ignore[misc]
            self.kept.run(["last"])
            self.kept.batch(["last"])
            self.assertEqual(self.said(), ["open 2000 True", "path last"] * 2)
        self.assertEqual(self.library.asked, [(2_000, True)] * 6)
        self.library.answers = [Answer(22, 0, 9, b"file: truncated at 9")]
        with self.assertRaisesRegex(rrdi.Damaged, "truncated at 9"):
            self.kept.run(["last"])

    def test_samples_before_the_file_is_open(self) -> None:
        """`run` has to add them."""
        self.assertEqual((self.kept.add(((10, 1.5),)), self.kept.add_many(((10, 1.5), (20, 2.5)), 0)), (False, 0))
        self.assertEqual(self.said(), [])

    def test_a_file_of_another_program(self) -> None:
        """Who has waited for the lock does not wait again."""
        self.library.at_open = lambda path: BUSY
        with self.assertRaisesRegex(rrdi.Busy, "another program holds its lock"):
            self.kept.run(["last"])
        self.assertEqual(self.said(), ["open 2000 True"])

    def test_a_file_of_this_program(self) -> None:
        self.kept.run(["last"])
        self.library.answers = [BUSY, BUSY]
        with self.assertRaises(rrdi.Busy) as raised:
            rrdi.last(self.path)
        self.assertEqual(str(raised.exception), f"{self.path}: cannot open: this program has it open by rrdi.Database")
        self.said()
        with self.assertRaisesRegex(rrdi.Busy, "this program has it open"):
            KeptFile(self.path, 2, True).run(["last"])
        self.assertEqual(self.said(), ["open 0 True"])
        self.kept.close()
        with self.assertRaisesRegex(rrdi.Busy, "another program holds its lock"):
            rrdi.last(self.path)

    def test_another_file_of_the_name(self) -> None:
        self.kept.run(["last"])
        (self.folder / "new").write_bytes(b"a new database")
        os.rename(self.folder / "new", self.path)
        self.said()
        self.kept.run(["update"])
        self.assertEqual((self.said(), is_locked(self.path)), (["close", "open 2000 True", "open update"], True))
        self.path.unlink()
        self.library.at_open = lambda path: Answer(CANNOT_OPEN, errno.ENOENT, 0, b"")
        self.kept.run(["update"])
        self.assertEqual(self.said(), ["close", "open 2000 True", "path update"])

    def test_another_file_at_the_opening(self) -> None:
        """What opens an old file just before it loses its name writes nothing to it."""
        def replace(path: bytes) -> None:
            os.rename(path, self.folder / "old")
            self.path.write_bytes(b"a new database")
            self.library.renamed[path] = os.fsencode(self.folder / "old")
        self.library.at_open = replace
        self.kept.run(["update"])
        self.assertEqual(self.said(), ["open 2000 True", "close", "path update"])
        self.assertFalse(is_locked(self.folder / "old"))

    def test_a_name_that_the_system_does_not_tell(self) -> None:
        """A file stays open only if it can be compared with the file at its path: an error of the system is no answer."""
        for number in (errno.EACCES, errno.EIO, errno.ESTALE, errno.ENOENT):
            with mock.patch("rrdi.locks.os.stat", side_effect=OSError(number, "why")):
                self.kept.run(["update"])
                self.kept.run(["update"])
            self.assertEqual(self.said(), ["open 2000 True", "close", "path update"] * 2)
            self.assertFalse(is_locked(self.path))


class FilesByExtension(ByExtension, Files):
    pass


class Handlers(KeptCase):
    """Handlers of signals use the file of the command that they interrupt."""

    def setUp(self) -> None:
        super().setUp()
        self.library.is_echo = True

    def act(self, inner: List[str]) -> None:
        """Runs a command, and notes its answer."""
        try:
            inner.append(self.kept.run(["inner"]))
        except rrdi.Busy:
            inner.append("busy")

    def test_a_command_at_each_step(self) -> None:
        """Both get their answers. Only while the outer one opens the file, the inner one finds it locked."""
        for is_open in (False, True):
            inner: List[str] = []
            if not is_open:
                self.kept.close()
            self.assertEqual(between_all(lambda: self.act(inner), lambda: self.kept.run(["outer"])), "outer")
            self.assertEqual(set(inner) - {"busy"}, {"inner"})
            self.assertLess(inner.count("busy"), len(inner) / 2)
            self.assertTrue(not is_open or "busy" not in inner)

    def test_a_command_at_one_step(self) -> None:
        """The file that the inner one opens is the file of both."""
        inner: List[str] = []

        def work() -> str:
            found = self.kept.run(["outer"])
            self.kept.close()
            return found
        outer = list(between_each(lambda: self.act(inner), work))
        self.assertEqual((set(outer), set(inner)), ({"outer"}, {"inner", "busy"}))
        self.assertLess(inner.count("busy"), len(inner) / 2)
        self.kept.close()
        self.assertFalse(is_locked(self.path))

    def test_a_close_at_each_step(self) -> None:
        self.assertEqual(between_all(self.kept.close, lambda: self.kept.run(["outer"])), "outer")
        between_all(self.kept.close, self.kept.close)
        self.assertFalse(is_locked(self.path))

    def test_an_exception_at_the_end_of_a_block(self) -> None:
        """The file is closed all the same, although the program keeps the database."""
        database = rrdi.Database(self.path)

        def interrupted() -> None:
            with database:
                database.last()
        with mock.patch.object(KeptFile, "close", side_effect=KeyboardInterrupt):
            self.assertRaises(KeyboardInterrupt, interrupted)
        self.assertFalse(is_locked(self.path))

    def test_changes_that_come_while_others_run(self) -> None:
        """They wait, and run afterwards: with `collect=True` no change is lost, and none runs twice."""
        database = rrdi.Database(self.path, collect=True)
        times = iter(range(20, 40, 10))

        def update() -> None:
            for time in times:
                return database.update(f"{time}:1")
        self.library.at_call = update
        with database:
            database.update("10:1")
        self.assertEqual(self.said(), [f"path update {time}:1" for time in (10, 20, 30)])
        self.library.answers = [BUSY]
        database.update("40:1")
        with self.assertRaises(rrdi.Busy):
            database.flush()
        database.update("50:1")
        database.flush()
        self.assertEqual(self.said()[1:], ["path update 40:1\nupdate 50:1"])


class HandlersByExtension(ByExtension, Handlers):
    pass


class Threads(KeptCase):
    def test_one_call_at_a_time(self) -> None:
        run_in_threads(8, lambda number: [self.kept.run(["update"]) for _ in range(50)])
        self.assertEqual(self.said().count("open update"), 400)


class ThreadsByExtension(ByExtension, Threads):
    pass


class Forks(KeptCase):
    def test_a_child_has_no_lock(self) -> None:
        self.kept.run(["update"])
        sleeping_child(self)
        self.assertEqual((self.said(), is_locked(self.path)), (["open 2000 True", "open update", "close"], False))
        self.kept.run(["update"])
        self.assertEqual((self.said(), is_locked(self.path)), (["open 2000 True", "open update"], True))

    def test_a_child_opens_for_itself(self) -> None:
        self.kept.run(["update"])
        child = os.fork()
        if child == 0:
            self.library.said.clear()
            self.kept.run(["last"])
            os._exit(0 if self.library.said == ["open 2000 True", "open last"] else 1)
        self.assertEqual(os.waitpid(child, 0)[1], 0)

    def test_a_fork_between_the_opening_and_the_command(self) -> None:
        """A handler of a signal forks: the command opens the file again, in both processes."""
        with mock.patch.object(self.kept, "_current", forking(self, self.kept._current)):
            self.kept.run(["update"])
        self.assertEqual(self.said(), ["open 2000 True", "close", "closed", "open 2000 True", "open update"])

    def test_a_thread_that_is_in_a_command(self) -> None:
        """A child that was forked meanwhile runs commands on the file too."""
        is_held, may_end = threading.Event(), threading.Event()
        self.addCleanup(may_end.set)

        def hold() -> None:
            with self.kept.guard:
                is_held.set()
                may_end.wait()
        thread = threading.Thread(target=hold)
        thread.start()
        is_held.wait()
        child = os.fork()
        if child == 0:
            signal.alarm(HANG)
            self.kept.run(["last"])
            os._exit(0)
        self.assertEqual(os.waitpid(child, 0)[1], 0)
        may_end.set()
        thread.join()


class ForksByExtension(ByExtension, Forks):
    pass


Opening = Callable[[], Optional[OpenedFile]]


def forking(case: unittest.TestCase, original: Opening) -> Opening:
    """Forks once, after the file was opened."""
    forks = [True]

    def current() -> Optional[OpenedFile]:
        found = original()
        if forks:
            forks.pop()
            sleeping_child(case)
        return found
    return current
