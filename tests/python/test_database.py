# SPDX-License-Identifier: MIT OR Apache-2.0
"""Tests of the blocks of `Database` whose commands run at once. By the library the file stays open and locked; by the
program each command opens it."""
from __future__ import annotations

import dataclasses
import fcntl
import os
import random
import resource
import shutil
import signal
import subprocess
import sys
import unittest
from decimal import Decimal
from pathlib import Path
from typing import Any, Callable, List, Optional
from unittest import mock

from cases import WithLibrary, WithProgram, sleeping_child
from doubles import TOP
from file_case import BOTH, LAST, OfFiles

import rrdi
from rrdi.kept_file import KeptFile
from rrdi.locks import Identity
from rrdi.reader import settled

ONE = ("DS:g:GAUGE:9:U:U", "RRA:MAX:0:1:3")
Change = Callable[[Any], object]
CHANGES: List[Change] = [
    lambda to: to.update("1600000010:1.5:5", (1_600_000_020, None, 8)),
    lambda to: to.update("1600000030:7", template="g"), lambda to: to.tune("--heartbeat", "g:50"),
    lambda to: to.resize(0, "GROW", 2), lambda to: to.revert(), lambda to: to.update((1_600_000_045, -2.25, 15)),
    lambda to: to.tune("DELRRA:1")]


class OfPath:
    """The functions of the package on one path, as methods."""

    def __init__(self, path: Path):
        self.path = path

    def __getattr__(self, name: str) -> Callable[..., object]:
        return lambda *words, **options: getattr(rrdi, name)(self.path, *words, **options)


def random_change(numbers: random.Random, now: int) -> Change:
    """Returns a random command, which may be refused."""
    sample = (now, numbers.choice([None, 1.5, -20, 7]), now // 3)
    archive, setting = numbers.choice([0, 9]), numbers.choice(["RRA:MIN:0.5:1:9", "DELRRA:1", "x"])
    commands: List[Change] = [
        lambda to: to.update(sample), lambda to: to.update(sample, (now + 5, 1, now)), lambda to: to.revert(),
        lambda to: to.update(sample), lambda to: to.tune(setting), lambda to: to.tune("--minimum", "g:U"),
        lambda to: to.resize(archive, "GROW", 3), lambda to: to.resize(archive, "SHRINK", 2),
        lambda to: to.batch([f"update {now}:1:2", "last", "revert", "info", f"update {now + 1}:U:9"]),
        lambda to: to.fetch("AVERAGE", start=now - 100, end=now), lambda to: to.lastupdate()]
    return numbers.choice(commands)


def outcome(command: Change, to: Any) -> object:
    """Returns what a command returned, or what its error says besides the path."""
    try:
        return command(to)
    except rrdi.Error as error:
        return type(error), error.reason, error.detail


class Blocks(OfFiles):
    def bytes_of(self: Any) -> bytes:
        """Returns the bytes that the file stands for."""
        return settled(self.file.read_bytes())

    def last_in_file(self: Any) -> int:
        """Returns the last time in the file, which may be open."""
        return rrdi.last(self.file)

    def test_each_change_is_in_the_file(self: Any) -> None:
        """After each change the file has the bytes that the functions of the package would have left."""
        other = self.folder / "other.rrdi"
        shutil.copyfile(self.create(), other)
        with rrdi.Database(self.file) as database:
            for change in CHANGES:
                change(database)
                change(OfPath(other))
                self.assertEqual(self.bytes_of(), other.read_bytes())
        self.assertEqual((rrdi.info(self.file).undoable, self.bytes_of()), (5, other.read_bytes()))

    def test_questions(self: Any) -> None:
        with rrdi.Database(self.create()) as database:
            self.assertEqual(database.last(), 1_600_000_000)
            database.update("1600000010:1.5:5", "1600000020:U:8", "1600000030:-2.25:15")
            shutil.copyfile(self.file, self.folder / "copy")
            whole = OfPath(self.folder / "copy")
            asked: List[Change] = [
                lambda of: of.last(), lambda of: of.first(), lambda of: of.first(rraindex=1),
                lambda of: of.lastupdate(),
                lambda of: of.fetch("AVERAGE", start=1_600_000_000, end=1_600_000_029),
                lambda of: of.fetch("AVERAGE", start=1_600_000_020, end=1_600_000_020, values=Decimal),
                lambda of: dataclasses.replace(of.info(), filename="")]
            for ask in asked:
                self.assertEqual(ask(database), ask(whole))
            self.assertEqual(database.info().filename, str(self.file))

    def test_an_error_at_the_call(self: Any) -> None:
        with rrdi.Database(self.fill()) as database:
            wrong: List[Any] = [
                (rrdi.Refused, f"not later than {LAST}: 5 is not later than the last update, {LAST}; the next sample may be at "
                 f"{LAST + 1} or later", lambda: database.update("5:1:2")),
                (rrdi.Refused, "wrong number of values: sample 1 has 1 value, 2 are wanted: g, c",
                 lambda: database.update((LAST + 10, 1))),
                (rrdi.Unreadable, "unreadable sample 1: its value 1 is '1,5'; write '1.5', with a point",
                 lambda: database.update("N:1,5:2")),
                (rrdi.BadSample, "bad time: sample 1 has the time -5, which is before 1970",
                 lambda: database.update((-5, 1, 2))),
                (rrdi.Refused, "no such archive: the file has 2 archives, 0 to 1", lambda: database.first(9)),
                (rrdi.Usage, "usage: give the number of rows after GROW or SHRINK, such as 100",
                 lambda: database.resize(0, "GROW"))]
            for kind, text, call in wrong:
                before = self.bytes_of()
                with self.assertRaises(kind) as raised:
                    call()
                self.assertEqual((type(raised.exception), str(raised.exception)), (kind, f"{self.file}: {text}"))
                self.assertEqual(self.bytes_of(), before)
            database.update((LAST + 10, 1, 20))
            database.flush()
        self.assertEqual((rrdi.last(self.file), database.refused), (LAST + 10, []))

    def test_lines(self: Any) -> None:
        lines = [f"update {LAST + 10}:1:20", "last", "update 5:1:2"]
        with rrdi.Database(self.fill()) as database:
            database.update((LAST + 5, 1, 20))
            ran = database.batch(lines)
            self.assertEqual(ran, rrdi.Batch(f"{LAST + 10}\nERROR: not later than {LAST + 10}\n", (
                rrdi.RefusedLine(3, "update 5:1:2", f"not later than {LAST + 10}", f"5 is not later than the last update, {LAST + 10}; "
                                 f"the next sample may be at {LAST + 11} or later"),)))
            self.assertEqual((database.last(), self.last_in_file()), (LAST + 10, LAST + 10))
        self.assertEqual(database.batch("last").output, f"{LAST + 10}\n")

    def test_what_was_changed_before_an_exception_stays(self: Any) -> None:
        with self.assertRaises(ZeroDivisionError):
            with rrdi.Database(self.create()) as database:
                database.update("1600000010:1:2")
                raise ZeroDivisionError
        self.assertEqual(rrdi.last(self.file), 1_600_000_010)

    def test_no_file(self: Any) -> None:
        with rrdi.Database(self.file) as database:
            with self.assertRaises(rrdi.NoDatabase):
                database.update("10:1")
            database.create(*BOTH, step=10, start=50, journal=5)
            database.update("60:1:2")
            self.assertEqual(self.last_in_file(), 60)
        self.assertEqual((rrdi.last(self.file), rrdi.info(self.file).journal), (60, 5))

    def test_create_in_a_block(self: Any) -> None:
        with rrdi.Database(self.fill()) as database:
            self.assertEqual(database.last(), LAST)
            database.create(*BOTH, step=10, exist_ok=True)
            with self.assertRaises(rrdi.Different):
                database.create(*ONE, step=10, exist_ok=True)
            with self.assertRaises(rrdi.Exists):
                database.create(*ONE)
            self.assertEqual(database.last(), LAST)
            with self.assertRaises(rrdi.Refused):
                database.create("DS:g:GAUGE:9:U:U", overwrite=True)
            database.create(*ONE, start=5, overwrite=True)
            database.update("6:1")
            self.assertEqual(database.last(), 6)
        self.assertEqual(sorted(path.name for path in self.folder.iterdir()), ["f.rrdi"])

    def test_a_damaged_file(self: Any) -> None:
        self.file.write_bytes(self.fill().read_bytes()[:100])
        with rrdi.Database(self.file) as database:
            with self.assertRaisesRegex(rrdi.Damaged, "truncated at 100"):
                database.last()

    def test_another_file_of_the_name(self: Any) -> None:
        with rrdi.Database(self.fill()) as database:
            database.update((LAST + 10, 1, 20))
            shutil.copyfile(self.file, self.folder / "new")
            rrdi.update(self.folder / "new", (LAST + 50, 1, 2))
            os.rename(self.folder / "new", self.file)
            self.assertEqual(database.last(), LAST + 50)
            database.update((LAST + 60, 1, 2))
        self.assertEqual(rrdi.last(self.file), LAST + 60)

    def test_a_long_answer(self: Any) -> None:
        """Rooms that are too small at first."""
        rrdi.create(self.file, "DS:g:GAUGE:99:U:U", "RRA:LAST:0:1:9000", step=1, start=0)
        with rrdi.Database(self.file) as database:
            database.update([(time, time % 7) for time in range(1, 9_001)])
            rows = database.fetch("LAST", start=0, end=8_999)[2]
        self.assertEqual(rows, [(float(time % 7),) for time in range(1, 9_001)])

    def test_without_a_block(self: Any) -> None:
        """Nothing stays open, and a block may follow."""
        database = rrdi.Database(self.fill())
        database.update((LAST + 10, 1, 20))
        self.assertEqual(rrdi.last(self.file), LAST + 10)
        for _ in range(2):
            with database:
                database.update((database.last() + 1, 1, 20))
            self.assertEqual(rrdi.last(self.file), database.last())

    def test_a_block_in_a_block(self: Any) -> None:
        database = rrdi.Database(self.fill(), busy_timeout=0)
        with database:
            database.last()
            with database:
                database.update((LAST + 10, 1, 20))
            database.update((LAST + 20, 1, 20))
        self.assertEqual(rrdi.last(self.file), LAST + 20)


class BlocksByProgram(WithProgram, Blocks, unittest.TestCase):
    pass


# Updates with the seconds from 1 on, and prints each one that the file has.
RECORDER = """
import sys
sys.path.insert(0, sys.argv[1])
import rrdi
with rrdi.Database(sys.argv[2]) as database:
    for second in range(1, 1_000_000):
        database.update((second, second % 7))
        print(second, flush=True)
"""


class BlocksByLibrary(WithLibrary, Blocks, unittest.TestCase):
    def is_locked(self, kind: int = fcntl.LOCK_EX) -> bool:
        with open(self.file, "rb") as other:
            try:
                fcntl.flock(other, kind | fcntl.LOCK_NB)
            except BlockingIOError:
                return True
        return False

    def test_random_commands(self) -> None:
        """On an open file and by path: the same results, errors and files."""
        other = self.folder / "other.rrdi"
        for seed in range(30):
            numbers, now = random.Random(seed), 1_600_000_000
            for path in (self.file, other):
                rrdi.create(path, *BOTH, step=10, start=now, journal=1 + seed % 5, overwrite=True)
            with rrdi.Database(self.file) as database:
                for _ in range(50):
                    now += numbers.choice([0, 1, 7, 10, 25, 300])
                    command = random_change(numbers, now)
                    self.assertEqual(outcome(command, database), outcome(command, OfPath(other)), seed)
                    self.assertEqual(self.bytes_of(), other.read_bytes(), seed)

    def test_the_lock(self) -> None:
        """From the first command to the end of the block nobody else gets in to change the file, and everybody to read it.
        What this program itself keeps out does not wait for it."""
        with rrdi.Database(self.fill()) as database:
            self.assertFalse(self.is_locked())
            asked: List[Change] = [lambda of: of.last(), lambda of: of.update((LAST + 10, 1, 20)),
                                   lambda of: of.first()]
            for ask in asked:
                ask(database)
                self.assertEqual((self.is_locked(), self.is_locked(fcntl.LOCK_SH)), (True, False))
                self.assertEqual(rrdi.last(self.file, busy_timeout=0), database.last())
            changes: List[Callable[[], object]] = [
                lambda: rrdi.update(self.file, (LAST + 20, 1, 20), busy_timeout=3_600),
                lambda: rrdi.batch(self.file, ["last"], busy_timeout=3_600), lambda: another.last()]
            with rrdi.Database(self.file, busy_timeout=3_600) as another:
                for change in changes:
                    with self.assertRaisesRegex(rrdi.Busy, "this program has it open by rrdi.Database"):
                        change()
        self.assertFalse(self.is_locked())
        with self.assertRaises(ZeroDivisionError):
            with rrdi.Database(self.file) as database:
                database.last()
                raise ZeroDivisionError
        self.assertFalse(self.is_locked())

    def test_many_open_files(self) -> None:
        """A change by path asks at most the one object that may have its file open, and not each of a thousand."""
        paths = [shutil.copyfile(self.fill() if number == 0 else self.file, self.folder / str(number)) for number in range(9)]
        files = [rrdi.Database(path) for path in paths]
        asked: List[int] = []

        def has(kept: KeptFile, identity: Optional[Identity]) -> bool:
            asked.append(0)
            return was(kept, identity)
        was = KeptFile.has
        for file in files:
            file.open().last()
        with mock.patch.object(KeptFile, "has", has):
            rrdi.update(self.file, (LAST + 10, 1, 20))
            self.assertEqual(len(asked), 0)
            for path in paths:
                with self.assertRaises(rrdi.Busy):
                    rrdi.update(path, (LAST + 10, 1, 20), busy_timeout=3_600)
        self.assertLessEqual(len(asked), 2 * len(paths))
        for file in files:
            file.close()
        rrdi.update(paths[0], (LAST + 10, 1, 20), busy_timeout=0)

    def test_a_file_that_another_program_has(self) -> None:
        with open(self.fill(), "rb") as other:
            fcntl.flock(other, fcntl.LOCK_EX)
            with rrdi.Database(self.file, busy_timeout=0) as database:
                with self.assertRaisesRegex(rrdi.Busy, "another program holds its lock"):
                    database.update((LAST + 10, 1, 20))
                fcntl.flock(other, fcntl.LOCK_UN)
                database.update((LAST + 10, 1, 20))
        self.assertEqual(rrdi.last(self.file), LAST + 10)

    def test_open_and_close(self) -> None:
        """A block without `with`."""
        database = rrdi.Database(self.fill()).open()
        database.update((LAST + 10, 1, 20))
        self.assertTrue(self.is_locked())
        for _ in range(2):
            database.close()
            self.assertFalse(self.is_locked())
        self.assertEqual(database.last(), LAST + 10)
        collecting = rrdi.Database(self.file, collect=True).open()
        collecting.update((LAST + 20, 1, 20))
        collecting.update((LAST + 20, 1, 20))
        with self.assertRaises(rrdi.RefusedLines):
            collecting.close()
        self.assertEqual(rrdi.last(self.file), LAST + 20)

    def test_a_file_that_can_only_be_read(self) -> None:
        self.fill().chmod(0o444)
        with self.as_nobody(), rrdi.Database(self.file) as database:
            self.assertEqual((database.last(), self.is_locked()), (LAST, False))
            with self.assertRaisesRegex(rrdi.CannotWrite, "cannot write: Permission denied"):
                database.update((LAST + 10, 1, 20))
            self.assertEqual(database.last(), LAST)

    def test_a_change_that_fails(self) -> None:
        """The file is closed, and the next command opens it again."""
        self.create("DS:g:GAUGE:99:U:U", "RRA:LAST:0:1:90")
        old = self.bytes_of()
        before, handler = resource.getrlimit(resource.RLIMIT_FSIZE), signal.signal(signal.SIGXFSZ, signal.SIG_IGN)
        with rrdi.Database(self.file) as database:
            self.assertEqual(database.last(), 1_600_000_000)
            resource.setrlimit(resource.RLIMIT_FSIZE, (len(old), before[1]))
            try:
                with self.assertRaises(rrdi.CannotWrite):
                    database.resize(0, "GROW", 10_000)
            finally:
                resource.setrlimit(resource.RLIMIT_FSIZE, before)
                signal.signal(signal.SIGXFSZ, handler)
            self.assertFalse(self.is_locked())
            self.assertEqual(self.bytes_of(), old)
            database.update("1600000010:1")
            self.assertTrue(self.is_locked())
        self.assertEqual(rrdi.last(self.file), 1_600_000_010)

    def test_a_fork(self) -> None:
        with rrdi.Database(self.fill()) as database:
            database.update((LAST + 10, 1, 20))
            sleeping_child(self)
            self.assertFalse(self.is_locked())
            database.update((LAST + 20, 1, 20))
            child = os.fork()
            if child == 0:
                database.update((LAST + 30, 1, 20))
                os._exit(0)
            self.assertEqual(os.waitpid(child, 0)[1], 0)
            self.assertEqual(database.last(), LAST + 30)
        self.assertFalse(self.is_locked())

    def test_a_kill(self) -> None:
        """No sample is lost whose call has returned, and the lock ends with the process."""
        rrdi.create(self.file, "DS:g:GAUGE:99:U:U", "RRA:LAST:0:1:500", step=1, start=0)
        for count in (1, 30, 200):
            words = [sys.executable, "-B", "-c", RECORDER, str(TOP / "python"), str(self.file)]
            with subprocess.Popen(words, stdout=subprocess.PIPE, text=True) as recorder:
                assert recorder.stdout is not None
                for _ in range(count):
                    recorder.stdout.readline()
                recorder.kill()
                told = recorder.stdout.read().split()
            last = rrdi.last(self.file, busy_timeout=0)
            self.assertIn(last - max([count, *map(int, told)]), (0, 1))
            rows = rrdi.fetch(self.file, "LAST", start=max(last - 500, 0), end=last - 1)[2]
            self.assertEqual(rows[-count:], [(float(second % 7),) for second in range(last - count + 1, last + 1)])
            rrdi.create(self.file, "DS:g:GAUGE:99:U:U", "RRA:LAST:0:1:500", step=1, start=0, overwrite=True)
