# SPDX-License-Identifier: MIT OR Apache-2.0
"""Tests of `rrdi.locks` and of those who hold its locks: exceptions at each step, forks, pipes in the place of a file,
and a system whose calls are interrupted without an end."""
from __future__ import annotations

import errno
import io
import os
import signal
import threading
import time
import unittest
import warnings
from contextlib import ExitStack
from pathlib import Path
from typing import Callable, ContextManager, Dict, List, Optional, Tuple
from unittest import mock

import graphite_doubles as graphite
from cases import HANG, DataCase, sleeping_child
from opcodes import raised_at_each
from test_calls import open_numbers
from test_kept import is_locked

import rrdi
from rrdi import kinds, locks, reader
from rrdi.damaged import held, set_aside
from rrdi.locks import EXCLUSIVE, SHARED, lock, open_file, open_locked
from rrdi.reader.files import opened, read_bytes
from rrdi.reader.selected import OpenFile
from rrdi.tools import record

DATA = graphite.file_bytes(130)
READERS: Tuple[Callable[[str], object], ...] = (reader.read_file, read_bytes, OpenFile)


class LockCase(DataCase):
    def setUp(self) -> None:
        super().setUp()
        self.path = str(self.folder / "f.rrdi")
        Path(self.path).write_bytes(DATA)

    def holders(self) -> Dict[str, Callable[[], ContextManager[object]]]:
        """Returns all that holds a lock for a block."""
        return {"opened": lambda: opened(self.path), "OpenFile": lambda: OpenFile(self.path),
                "held": lambda: held(self.path, lambda path: True), "alone": lambda: record.alone(self.path)}


class Interrupted(LockCase):
    def test_an_exception_at_each_step(self) -> None:
        """No lock is held then, and no file is open."""
        numbers = open_numbers()
        for name, holder in self.holders().items():
            def work() -> None:
                with holder():
                    pass

            def check(number: int) -> None:
                self.assertEqual((is_locked(Path(self.path)), open_numbers()), (False, numbers), (name, number))
            with warnings.catch_warnings():
                warnings.simplefilter("ignore", ResourceWarning)  # the interpreter closes what the work could not
                self.assertGreater(raised_at_each(work, check), 100)

    def test_an_exception_while_waiting(self) -> None:
        """Ctrl-C is told, and not that the file is locked."""
        def raise_interrupt(number: int, frame: object) -> None:
            raise KeyboardInterrupt
        before = signal.signal(signal.SIGALRM, raise_interrupt)
        self.addCleanup(signal.signal, signal.SIGALRM, before)
        with open_locked(self.path, EXCLUSIVE, 0):
            signal.setitimer(signal.ITIMER_REAL, 0.1)
            with self.assertRaises(KeyboardInterrupt):
                open_locked(self.path, SHARED, HANG)

    def test_a_system_that_interrupts_without_an_end(self) -> None:
        """A call is repeated up to 1,000 times, with pauses."""
        calls = []

        def interrupted(number: int, operation: int) -> int:
            calls.append(operation)
            return -1
        with mock.patch.object(locks, "_system", lambda: (interrupted, lambda: errno.EINTR)), \
                mock.patch("time.sleep") as sleep, open_file(self.path, os.O_RDONLY) as file:
            with self.assertRaises(InterruptedError):
                lock(file, SHARED, 2)
            self.assertEqual((len(calls), sleep.call_count), (1_001, 1_000))
            with self.assertRaises(BlockingIOError):
                lock(file, SHARED, 0)
            calls.clear()
            locks.unlock(file)
            self.assertLessEqual(len(calls), 1_000)

    def test_an_interruption(self) -> None:
        flock, errors = locks.flock, [errno.EINTR, errno.EINTR]
        with mock.patch.object(locks, "flock", lambda file, kind: errors.pop() if errors else flock(file, kind)), \
                open_locked(self.path, EXCLUSIVE, 1):
            self.assertTrue(is_locked(Path(self.path)))

    def test_the_error_of_a_call(self) -> None:
        """An error is that of its own call, even if a handler locks another file at once."""
        with open_locked(self.path, EXCLUSIVE, 0), open_file(self.path, os.O_RDONLY) as other:
            self.assertEqual(locks.flock(other, SHARED | 4), errno.EWOULDBLOCK)
            self.assertEqual(locks.flock(other, 0), errno.EINVAL)
            self.assertEqual(locks.flock(other, 8), 0)


class Forks(LockCase):
    def test_a_child_of_other_code(self) -> None:
        """A child that was forked by code in C keeps its copy of the open file, but not the lock after the block."""
        for name, holder in self.holders().items():
            with holder():
                copies = [os.dup(number) for number in locks._open_numbers()
                          if locks.identity_at(number) == locks.identity_at(os.fsencode(self.path))]
                self.assertTrue(copies and is_locked(Path(self.path)), name)
            self.assertFalse(is_locked(Path(self.path)), name)
            for copy in copies:
                os.close(copy)

    def test_a_child_has_no_lock(self) -> None:
        """Not even if the parent is killed, and calls no `unlock`."""
        for name, holder in self.holders().items():
            block = holder()
            block.__enter__()
            sleeping_child(self)
            with mock.patch.object(locks, "unlock"):
                block.__exit__(None, None, None)
            self.assertFalse(self.is_locked_for_long(), name)

    def is_locked_for_long(self) -> bool:
        until = time.monotonic() + HANG
        while is_locked(Path(self.path)) and time.monotonic() < until:  # until the child has begun
            time.sleep(0.01)
        return is_locked(Path(self.path))

    def test_a_child_takes_no_lock_away(self) -> None:
        """A child that leaves the block leaves the parent's lock alone, and cannot read on."""
        for name, holder in self.holders().items():
            with ExitStack() as stack:
                file = stack.enter_context(holder())
                child = os.fork()
                if child == 0:
                    os._exit(self.status_of(stack, file))
                self.assertEqual(os.waitpid(child, 0)[1], 0, name)
                self.assertTrue(is_locked(Path(self.path)), name)

    def status_of(self, stack: ExitStack, file: object) -> int:
        """Returns 0 if a child cannot read a file of its parent. Ends the parent's block."""
        try:
            if isinstance(file, OpenFile):
                file.settings()
                os.pread(file.file, 1, 0)
            elif isinstance(file, reader.Stored):
                file._read(0, 1)
            else:
                raise OSError(errno.EBADF, "not read")
        except OSError as error:
            stack.close()
            return 0 if error.errno == errno.EBADF else 2
        return 1

    def test_a_thread_that_waits_for_a_lock(self) -> None:
        """The child gives up the file, though the lock comes later."""
        waits = threading.Event()
        original = locks.Patience.waits

        def waiting(patience: locks.Patience) -> bool:
            waits.set()
            return original(patience)
        found: List[io.FileIO] = []
        with mock.patch.object(locks.Patience, "waits", waiting):
            with open_locked(self.path, EXCLUSIVE, 0) as other:
                thread = threading.Thread(target=lambda: found.append(open_locked(self.path, EXCLUSIVE, HANG)))
                thread.start()
                waits.wait(HANG)
                sleeping_child(self)
                locks.close(other)
            thread.join(HANG)
        found.pop().close()  # without a word about the lock
        self.assertFalse(self.is_locked_for_long())

    def test_standard_input_stays(self) -> None:
        before = os.fstat(0)
        with io.FileIO(0, closefd=False) as stream, locks.locked(stream, SHARED, 0):
            child = os.fork()
            if child == 0:
                os._exit(0 if os.fstat(0) == before else 1)
            self.assertEqual(os.waitpid(child, 0)[1], 0)


class Numbers(unittest.TestCase):
    def test_the_numbers_of_open_files(self) -> None:
        """Without /proc, all that can be are looked at."""
        with open(os.devnull, "rb") as file:
            self.assertIn(file.fileno(), locks._open_numbers())
        with mock.patch("os.listdir", side_effect=FileNotFoundError):
            self.assertEqual(locks._open_numbers(), list(range(1_024)))


class Replaced(LockCase):
    """Another program puts another file in the place of the one whose lock is waited for."""

    def replacing(self, times: int) -> ContextManager[object]:
        real = locks.lock

        def lock_replaced(file: io.FileIO, kind: int, seconds: float) -> None:
            real(file, kind, seconds)
            self.count += 1
            if self.count <= times:
                os.unlink(self.path)
                if self.count % 2:
                    Path(self.path).write_bytes(DATA)
        return mock.patch.object(locks, "lock", lock_replaced)

    def setUp(self) -> None:
        super().setUp()
        self.count = 0

    def test_the_new_file_is_opened(self) -> None:
        with self.replacing(1):
            file = open_locked(self.path, SHARED, 0)
        self.assertEqual((os.fstat(file.fileno()).st_ino, self.count), (os.stat(self.path).st_ino, 2))
        locks.close(file)

    def test_a_file_that_is_gone(self) -> None:
        numbers = open_numbers()
        with self.replacing(2), self.assertRaises(FileNotFoundError):
            open_locked(self.path, SHARED, 0)
        self.assertEqual((self.count, open_numbers()), (2, numbers))

    def test_a_fault_before_the_file_is_looked_at(self) -> None:
        """The lock is given up, which a child may have too."""
        numbers = open_numbers()
        with mock.patch("os.path.samestat", side_effect=RuntimeError), self.assertRaises(RuntimeError), \
                mock.patch.object(locks, "unlock", wraps=locks.unlock) as unlocked:
            open_locked(self.path, EXCLUSIVE, 0)
        self.assertEqual((unlocked.call_count, open_numbers()), (1, numbers))

    def test_again_and_again(self) -> None:
        numbers = open_numbers()
        with mock.patch("os.path.samestat", return_value=False), self.replacing(0), self.assertRaises(OSError) as raised, \
                mock.patch.object(locks, "unlock", wraps=locks.unlock) as unlocked:
            open_locked(self.path, SHARED, 0)
        self.assertEqual((raised.exception.errno, self.count, open_numbers()), (errno.EBUSY, 100, numbers))
        self.assertEqual(unlocked.call_count, 100)  # a child may have each of them open


class Pipes(LockCase):
    """No reader waits for the other end of a pipe that takes the name of a file."""

    def setUp(self) -> None:
        super().setUp()
        signal.alarm(HANG)
        self.addCleanup(signal.alarm, 0)

    def replaced(self) -> "mock._patch[Callable[..., io.FileIO]]":
        """Puts a pipe in the place of the file, just before it is opened."""
        def open_pipe(path: str, flags: int, mode: int = 0o666) -> io.FileIO:
            os.unlink(path)
            os.mkfifo(path)
            return open_file(path, flags, mode)
        return mock.patch.object(locks, "open_file", open_pipe)

    def test_a_pipe_that_takes_the_name(self) -> None:
        ways: List[Callable[[str], object]] = [reader.read_file, read_bytes, OpenFile]
        with_opened: Callable[[str], object] = lambda path: opened(path).__enter__()  # noqa: E731
        for read in (*ways, with_opened):
            with self.replaced(), self.assertRaisesRegex(OSError, "not a regular file"):
                read(self.path)
            os.unlink(self.path)
            Path(self.path).write_bytes(DATA)
        with self.replaced():
            self.assertEqual(kinds.first_bytes(self.path), b"")

    def test_a_damaged_file(self) -> None:
        def open_pipe(path: str, flags: int) -> io.FileIO:
            if os.path.isfile(path):
                os.unlink(path)
                os.mkfifo(path)
            if flags & os.O_ACCMODE != os.O_RDONLY:
                raise PermissionError(errno.EACCES, "why")
            return open_file(path, flags)
        with mock.patch("rrdi.damaged.open_file", open_pipe), held(self.path, lambda path: True) as is_held:
            self.assertFalse(is_held)

    def test_a_pipe(self) -> None:
        """A pipe is read to its end."""
        pipe = str(self.folder / "pipe")
        os.mkfifo(pipe)
        thread = threading.Thread(target=Path(pipe).write_bytes, args=(DATA,))
        thread.start()
        self.assertEqual(reader.read_file(pipe)["last_time"], 130)
        thread.join()
        self.assertEqual(kinds.first_bytes(pipe), b"")

    def test_reading_is_waiting(self) -> None:
        """A file is open as others are: without the flag that opened it."""
        with locks.open_regular(self.path) as file:
            self.assertTrue(os.get_blocking(file.fileno()))

    def test_a_file_that_another_machine_has_leased(self) -> None:
        answers: List[Optional[OSError]] = [BlockingIOError(errno.EWOULDBLOCK, "leased"), None]

        def open_leased(path: str, flags: int) -> io.FileIO:
            answer = answers.pop(0)
            if answer is not None:
                raise answer
            return open_file(path, flags)
        with mock.patch.object(locks, "open_file", open_leased), locks.open_regular(self.path, HANG) as file:
            self.assertEqual(file.read(4), b"RRDI")
        answers[:] = [BlockingIOError(errno.EWOULDBLOCK, "leased")]
        with mock.patch.object(locks, "open_file", open_leased), self.assertRaises(BlockingIOError):
            locks.open_regular(self.path)

    def test_other_errors(self) -> None:
        """What the system does not open is told as the system tells it: no error says that there is no file."""
        for number in (errno.EACCES, errno.EIO, errno.ESTALE, errno.ENOMEM):
            for read in READERS:
                with mock.patch("os.stat", side_effect=OSError(number, "why")), self.assertRaises(OSError) as raised:
                    read(self.path)
                self.assertEqual(raised.exception.errno, number)
        for error in (OSError(errno.EIO, "why"), rrdi.Busy("cannot open", self.path)):
            with mock.patch("rrdi.damaged.is_still_damaged", side_effect=error):
                said = set_aside(self.path, rrdi.Damaged("file: trailing at 9", None, 25, 9))
            self.assertEqual(said, f"file: trailing at 9, and the file cannot be renamed: "
                             f"{error if isinstance(error, rrdi.Error) else 'why'}")
        numbers = open_numbers()
        for read in (READERS[0], READERS[-1]):
            with self.assertRaises(IsADirectoryError):
                read(str(self.folder))
        self.assertEqual(open_numbers(), numbers)
