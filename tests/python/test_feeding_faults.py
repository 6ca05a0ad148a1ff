# SPDX-License-Identifier: MIT OR Apache-2.0
"""Tests of what rrdi-feed does if its input cannot be read, or memory or threads run out: each sample that was read is passed
on once, or named as lost."""
from __future__ import annotations

import contextlib
import errno
import io
import os
import signal
import threading
import time
import unittest
from typing import Any, Callable, Dict, Iterator, List, Optional, Tuple
from unittest import mock

from cases import HANG, assert_ends, new_folder
from rrdi.damaged import LONGEST_CREATION
from rrdi.errors import TRUNCATED
from rrdi.feeding import feeder as feeders
from rrdi.feeding import metrics, workers
from rrdi.feeding.feeder import Feeder, FeedOptions
from rrdi.feeding.rules import Names, read_rules
from rrdi.feeding.writers import BatchWriter, Outcome
from rrdi.library import Answer
from test_feeding import Stub

LINES = b"".join(b"%d.rrdi %d:1\n" % (at % 7, 10 * at) for at in range(300))
MEGABYTES_16 = 1 << 24


class FaultCase(unittest.TestCase):
    def setUp(self) -> None:
        self.writer = Stub()
        self.feeder = Feeder(FeedOptions(patience=0), self.writer)
        self.said, self.given = "", b""

    def stored(self) -> Dict[bytes, List[bytes]]:
        found: Dict[bytes, List[bytes]] = {}
        for file, samples in self.writer.batches:
            found.setdefault(file, []).extend(samples)
        return found

    def wanted(self, lines: bytes = LINES) -> Dict[bytes, List[bytes]]:
        found: Dict[bytes, List[bytes]] = {}
        for line in lines.splitlines():
            found.setdefault(line.split()[0], []).append(line.split()[1])
        return found

    def fed(self, *reads: "bytes | BaseException") -> Optional[int]:
        """Feeds what some reads give. Returns the status; None if an exception ends all."""
        given = list(reads)

        def read(source: int, count: int) -> bytes:
            found = given.pop(0)
            if isinstance(found, BaseException):
                raise found
            self.given += found
            return found
        with contextlib.redirect_stderr(io.StringIO()) as said, mock.patch("sys.stdin", mock.Mock(fileno=lambda: 0)), \
                mock.patch.object(feeders, "selector_of", return_value=None), mock.patch("os.read", read):
            try:
                return self.feeder.feed()
            except (KeyboardInterrupt, RuntimeError):
                return None
            finally:
                self.said = said.getvalue()


    def fed_to_its_end(self) -> None:
        """Feeds the lines, and fails if that never ends."""
        def end(*_: object) -> None:
            raise AssertionError("feed does not end")
        before = signal.signal(signal.SIGALRM, end)
        signal.setitimer(signal.ITIMER_REAL, HANG, 1)
        try:
            self.assertEqual((self.fed(LINES, b""), self.stored(), self.said), (0, self.wanted(), ""))
        finally:
            signal.setitimer(signal.ITIMER_REAL, 0)
            signal.signal(signal.SIGALRM, before)


class Reading(FaultCase):
    def test_a_read_that_fails(self) -> None:
        cannot = "rrdi-feed: cannot read the input any further: "
        for error, status, text in (
                (ConnectionResetError(errno.ECONNRESET, "Connection reset by peer"), 1, f"{cannot}Connection reset by peer\n"),
                (OSError(errno.EIO, "Input/output error"), 1, f"{cannot}Input/output error\n"),
                (MemoryError(), 1, f"{cannot}out of memory\n"), (KeyboardInterrupt(), None, ""), (RuntimeError(), None, "")):
            self.setUp()
            self.assertEqual((self.fed(LINES[:1_000], LINES[1_000:], error), self.said), (status, text))
            self.assertEqual(self.stored(), self.wanted())

    def test_a_line_that_is_cut(self) -> None:
        """A number in it may be another one, so it is not stored."""
        for end in (OSError(errno.EIO, "Input/output error"), KeyboardInterrupt()):
            self.setUp()
            self.fed(LINES + b"a.rrdi 10:12", end)
            self.assertEqual(self.stored(), self.wanted())
            self.assertIn("rrdi-feed: a line without its end may be lost, got: a.rrdi 10:12\n", self.said)
        # At the end of the input a line may lack its end.
        self.setUp()
        self.assertEqual((self.fed(b"a.rrdi 10:12", b""), self.stored(), self.said), (0, {b"a.rrdi": [b"10:12"]}, ""))

    def test_a_line_that_a_signal_cuts(self) -> None:
        def cut(*words: Any) -> bytes:
            self.feeder.end()
            return LINES + b"a.rrdi 10:12"
        with contextlib.redirect_stderr(io.StringIO()) as said, mock.patch("sys.stdin", mock.Mock(fileno=lambda: 0)), \
                mock.patch("os.read", cut), mock.patch.object(feeders, "selector_of", return_value=None):
            self.assertEqual(self.feeder.feed(), 1)
        self.assertEqual((self.stored(), said.getvalue()),
                         (self.wanted(), "rrdi-feed: a line without its end may be lost, got: a.rrdi 10:12\n"))

    def test_nothing_to_read_yet(self) -> None:
        """Another program may have made the input fail at once, or read what was there."""
        self.assertEqual(self.fed(LINES[:500], BlockingIOError(errno.EAGAIN, "again"), InterruptedError(errno.EINTR, "again"),
                                  LINES[500:], b""), 0)
        self.assertEqual((self.stored(), self.said), (self.wanted(), ""))

    def test_no_input(self) -> None:
        with contextlib.redirect_stderr(io.StringIO()) as said, mock.patch("sys.stdin", None):
            self.assertEqual(self.feeder.feed(), 1)
        self.assertEqual(said.getvalue(), "rrdi-feed: cannot read the input any further: Bad file descriptor\n")

    def test_a_line_without_an_end(self) -> None:
        """It costs its length, in pieces of any size, and is refused as before."""
        def feed() -> None:
            with contextlib.redirect_stderr(io.StringIO()) as said:
                for _ in range(MEGABYTES_16 // 500):
                    self.feeder.take_data(b"x" * 500)
                self.feeder.take_data(b"x\n" + LINES)
            self.assertEqual(self.feeder.held, self.wanted())
            self.assertRegex(said.getvalue(), "^rrdi-feed: a line has over 16777216 bytes, got: x{4096}[.][.]\n$")
        self.feeder.take_data(b"x" * 500)
        assert_ends(self, feed)


class NoMemory(FaultCase):
    """Memory runs out at any place, once."""

    @contextlib.contextmanager
    def failing(self, owner: object, name: str, after: int) -> Iterator[None]:
        function, count = getattr(owner, name), [0]

        def call(*words: Any, **named: Any) -> Any:
            count[0] += 1
            if count[0] == after + 1:
                raise MemoryError
            return function(*words, **named)
        with mock.patch.object(owner, name, call):
            yield

    def test_while_lines_are_taken(self) -> None:
        """The line at which it happened, and all after it, are taken once the others are written."""
        text = b"".join(b"UPDATE " + line + b"\n" for line in LINES.splitlines())
        for name in ("take", "hold", "take_all", "split_data", "take_lines", "start", "start_due", "end_batch", "end_batches"):
            for after in (0, 1, 2, 5, 150, 299):
                self.setUp()
                with self.subTest(name=name, after=after), self.failing(self.feeder, name, after):
                    status = self.fed(text[:3_000], text[3_000:], b"")
                    lines, _, rest = self.given.rpartition(b"\n")
                    self.assertEqual(self.stored(), self.wanted(lines.replace(b"UPDATE ", b"")))
                    self.assertEqual(rest != b"", "a line without its end may be lost" in self.said)
                    self.assertEqual((status, self.said != ""), (1, True) if "out of memory" in self.said else (0, False))

    def test_a_table_that_cannot_grow(self) -> None:
        class Table(Dict[bytes, Any]):
            left = 3

            def __setitem__(self, key: bytes, value: Any) -> None:
                self.left -= 1
                if self.left == 0:
                    raise MemoryError
                super().__setitem__(key, value)
        for name in ("held", "since", "waiting", "pauses"):
            self.setUp()
            self.writer.outcomes = {b"%d.rrdi" % at: [Outcome(again="cannot open")] for at in range(7)}
            self.feeder.options.patience = HANG
            setattr(self.feeder, name, Table())
            self.fed(LINES, b"")
            tried = {file: [sample for samples in batches for sample in samples] for file, batches in self.last_batches().items()}
            self.assertEqual(tried, self.wanted(), name)

    def last_batches(self) -> Dict[bytes, List[List[bytes]]]:
        """The batches of each file that were not to be tried again."""
        found: Dict[bytes, List[List[bytes]]] = {}
        for file, samples in self.writer.batches:
            found.setdefault(file, []).append(samples)
        return {file: batches[1:] for file, batches in found.items()}

    def test_lines_that_cannot_be_taken(self) -> None:
        """They are named, those before them are stored."""
        real = self.feeder.take

        def take(words: List[bytes], line: bytes) -> None:
            if b"2.rrdi" in line:
                raise MemoryError
            real(words, line)
        with mock.patch.object(self.feeder, "take", take):
            self.assertEqual(self.fed(b"1.rrdi 1:1\n2.rrdi 2:2\n3.rrdi 3:3\n", b""), 1)
        self.assertEqual(self.stored(), {b"1.rrdi": [b"1:1"]})
        self.assertEqual(self.said, "rrdi-feed: cannot read the input any further: out of memory\n"
                                    "rrdi-feed: a line may be lost, got: 2.rrdi 2:2\nrrdi-feed: a line may be lost, got: 3.rrdi 3:3\n")

    def test_lines_that_cannot_be_shown(self) -> None:
        with mock.patch.object(self.feeder, "take", side_effect=MemoryError), mock.patch("rrdi.feeding.feeder.as_text", side_effect=MemoryError):
            self.assertEqual(self.fed(b"1.rrdi 1:1\n", b""), 1)
        self.assertEqual(self.said, "rrdi-feed: cannot read the input any further: out of memory\nrrdi-feed: lines may be lost that there is no memory to show\n")

    def test_one_file_at_a_time(self) -> None:
        """The first one that can be started: no other batch of it runs, and it does not wait for its next try."""
        self.feeder.take_all([b"1 1:1", b"2 1:1", b"3 1:1", b"4 1:1"])
        self.feeder.running.add(b"1")
        self.feeder.waiting[b"2"] = feeders.Waiting([], "no", 1, 1e9)
        with mock.patch.object(self.feeder, "start") as start:
            self.assertTrue(self.feeder.start_one())
            self.feeder.running.update((b"3", b"4"))
            self.assertFalse(self.feeder.start_one())
        self.assertEqual(start.mock_calls, [mock.call(b"3")])

    def test_what_is_lost_without_memory(self) -> None:
        """A batch of this thread whose end has no room; and all that is held or waits, once the patience is over."""
        with contextlib.redirect_stderr(io.StringIO()) as said:
            with mock.patch.object(self.feeder, "end_batch", side_effect=MemoryError):
                self.feeder.running.add(b"a")
                self.feeder.run_here(b"a", [b"20:1", b"10:1"])
            self.assertEqual(self.feeder.running, set())
            self.feeder.take_all([b"b 10:1 20:2", b"c 10:1"])
            self.feeder.waiting[b"d"] = feeders.Waiting([b"5:1"], "no", 1, 1e9)
            self.feeder.give_up_all()
        self.assertEqual((self.feeder.held, self.feeder.since, self.feeder.waiting), ({}, {}, {}))
        lost = (("a", "10:1 20:1"), ("b", "10:1 20:2"), ("c", "10:1"), ("d", "5:1"))
        self.assertEqual(said.getvalue(), "".join(f"rrdi-feed: {file}: out of memory; {len(samples.split())} samples may be lost\nrrdi-feed: may be lost: {file} {samples}\n" for file, samples in lost))

    def test_batches_that_cannot_be_started(self) -> None:
        """After the patience they are named, and feed ends."""
        with mock.patch.object(self.feeder, "start", side_effect=MemoryError):
            self.assertEqual(self.fed(b"1.rrdi 1:1\n", b""), 1)
        self.assertEqual(self.said, "rrdi-feed: 1.rrdi: out of memory; 1 samples may be lost\nrrdi-feed: may be lost: 1.rrdi 1:1\n")

    def test_a_batch_that_cannot_be_given(self) -> None:
        """It is given again, once there is memory."""
        with self.failing(workers.Workers, "give", 0):
            self.fed_to_its_end()

    def test_a_thread_that_cannot_be_seen(self) -> None:
        """The batch runs once, in some thread."""
        with self.failing(threading.Thread, "is_alive", 0):
            self.fed_to_its_end()

    def test_no_memory_for_the_list_of_files(self) -> None:
        """Until there is, the files have a batch one by one."""
        real, left, held = self.feeder.start_due, [9], []  # type: Any, List[int], List[int]

        def start_due() -> None:
            if self.feeder.is_ending:
                left[0] -= 1
                if left[0] >= 0:
                    raise MemoryError
                held.append(len(self.feeder.held))
            real()
        self.feeder.options.patience = HANG
        with mock.patch.object(self.feeder, "start_due", start_due):
            self.fed_to_its_end()
        self.assertEqual(held[0], 0)

    def test_again_after_it_ran_out(self) -> None:
        self.feeder.start_one = mock.Mock(side_effect=MemoryError)  # type: ignore[assignment]
        with self.failing(self.feeder, "start_due", 2):
            self.fed_to_its_end()

    def test_no_memory_for_the_time(self) -> None:
        """That at which the patience ends, or that at which it is over."""
        for after in (0, 1, 2):
            self.setUp()
            read, real = self.feeder.read, time.monotonic

            def read_all() -> None:
                read()
                enter.enter_context(self.failing(time, "monotonic", after))
            with contextlib.ExitStack() as enter, mock.patch.object(self.feeder, "read", read_all):
                self.fed_to_its_end()
            self.assertIs(time.monotonic, real)

    def test_the_end_of_threads(self) -> None:
        """All samples are stored by then."""
        with self.failing(workers.Workers, "shutdown", 0):
            self.fed_to_its_end()

    def test_the_end_of_a_batch(self) -> None:
        """A thread tells it in any case: feed waits for it."""
        real, failures = self.feeder.ended, [3]

        class Ended:
            def put(self, found: Any) -> None:
                failures[0] -= 1
                if failures[0] >= 0:
                    raise MemoryError
                real.put(found)

            def __getattr__(self, name: str) -> Any:
                return getattr(real, name)
        self.feeder.ended = Ended()  # type: ignore[assignment]
        self.assertEqual((self.fed(LINES, b""), self.stored(), self.said), (0, self.wanted(), ""))

    def test_the_lines_of_a_batch(self) -> None:
        """What cannot be written into memory was not given to rrdi, and is tried again."""
        with mock.patch("rrdi.feeding.writers.lines_of", side_effect=MemoryError):
            self.assertEqual(BatchWriter(mock.Mock()).write(b"a", [b"10:1"]), Outcome(again="out of memory"))

    def test_messages(self) -> None:
        with mock.patch("rrdi.feeding.feeder.as_text", side_effect=MemoryError):
            self.writer.outcomes = {b"1.rrdi": [Outcome(lost="cannot write")]}
            self.assertEqual(self.fed(b"1.rrdi 1:1\n2.rrdi 1:1\n", b""), 1)
        self.assertEqual(self.said, "rrdi-feed: samples may be lost that there is no memory to show\n")


class Threads(FaultCase):
    """Threads that do not begin, or begin late: each batch runs once, and is waited for."""

    def with_start(self, start: Callable[[threading.Thread], None]) -> None:
        with mock.patch.object(threading.Thread, "start", start):
            self.assertEqual((self.fed(LINES, b""), self.said), (0, ""))
        self.assertEqual(self.stored(), self.wanted())

    def test_no_thread(self) -> None:
        def refuse(thread: threading.Thread) -> None:
            raise RuntimeError("can't start new thread")
        self.with_start(refuse)

    def test_no_lock_for_a_thread(self) -> None:
        with mock.patch("rrdi.feeding.workers.threading.Thread", side_effect=RuntimeError("no lock")):
            self.fed_to_its_end()

    def test_a_thread_that_begins_with_an_error(self) -> None:
        """It runs, and feed ends all the same."""
        real, count = threading.Thread.start, [0]

        def start(thread: threading.Thread) -> None:
            real(thread)
            count[0] += 1
            if count[0] == 2:
                raise RuntimeError("can't allocate lock")
        with mock.patch.object(threading.Thread, "start", start):
            self.fed_to_its_end()

    def test_no_memory_for_a_thread(self) -> None:
        """Before the first line, nothing is read; later the present thread runs the batches."""
        with mock.patch.object(threading.Thread, "start", side_effect=MemoryError):
            self.assertEqual((self.fed(LINES, b""), self.stored()), (1, {}))
            self.assertEqual(self.said, "rrdi-feed: cannot read the input any further: out of memory\n")
            self.setUp()
            with mock.patch.object(feeders, "FIRST", 0):
                self.assertEqual((self.fed(LINES, b""), self.stored(), self.said), (0, self.wanted(), ""))

    def test_a_few_threads(self) -> None:
        real, count = threading.Thread.start, [0]

        def start(thread: threading.Thread) -> None:
            count[0] += 1
            if count[0] > 2:
                raise RuntimeError("can't start new thread")
            real(thread)
        self.with_start(start)

    def test_a_late_thread(self) -> None:
        """Its start was not waited for, and it begins while others work, or at the end."""
        real, late = threading.Thread.start, []  # type: Callable[[threading.Thread], None], List[threading.Timer]

        def start(thread: threading.Thread) -> None:
            if isinstance(thread, threading.Timer):
                return real(thread)
            late.append(threading.Timer(0.05 * len(late), lambda: real(thread)))
            late[-1].start()
            return None
        self.with_start(start)
        for timer in late:
            timer.join(HANG)

    def test_a_batch_that_a_late_thread_has_taken(self) -> None:
        """It is not run here too."""
        found = workers.Workers(1, lambda file, samples: None)
        with mock.patch.object(found, "begin", lambda wanted: found.batches.get()):
            self.assertIsNone(found.give((b"a", [b"10:1"]), 1))
        with mock.patch.object(found, "begin"):
            self.assertEqual(found.give((b"a", [b"10:1"]), 1), (b"a", [b"10:1"]))

    def test_as_many_as_jobs(self) -> None:
        found = workers.Workers(3, lambda file, samples: None)
        found.begin(10)
        self.assertEqual(len(found.threads), 3)
        found.shutdown()
        self.assertEqual(found.threads, [])


class CannotLook(unittest.TestCase):
    """What cannot be looked at may be there."""

    def setUp(self) -> None:
        self.folder = new_folder(self)

    def test_an_empty_file(self) -> None:
        file = os.fsencode(self.folder / "f")
        (self.folder / "f").write_text("")
        library = mock.Mock(batch_file=lambda *words: Answer(TRUNCATED, 0, 0, b"file: truncated at 0"))
        again = Outcome(again="file: truncated at 0")
        self.assertEqual(BatchWriter(library).write(file, [b"10:1"]), again)
        os.utime(file, (time.time() - LONGEST_CREATION - 9,) * 2)
        self.assertEqual(BatchWriter(library).write(file, [b"10:1"]), Outcome(lost="file: truncated at 0"))
        with mock.patch("os.stat", side_effect=OSError(errno.ESTALE, "Stale file handle")):
            self.assertEqual(BatchWriter(library).write(file, [b"10:1"]), again)

    def test_a_file_to_create(self) -> None:
        file = os.fsencode(self.folder / "f")
        rules = read_rules("** ** DS:v:GAUGE:60:U:U RRA:AVERAGE:0.5:1:9")
        writer = mock.Mock(write=mock.Mock(return_value=Outcome()), create=mock.Mock(return_value=""))
        feeder = metrics.MetricFeeder(FeedOptions(), writer, Names(os.fsencode(self.folder), rules))
        feeder.take_data(b"f 1 10\n")
        creating = feeder.creating
        for error, reason in ((OSError(errno.EIO, "Input/output error"), "cannot open: input/output error"),
                              (PermissionError(errno.EACCES, "Permission denied"), "cannot open: permission denied")):
            with mock.patch("os.stat", side_effect=error):
                self.assertEqual(creating.write(file, [b"10:1"]), Outcome(again=reason))
        failures: List[Tuple[Exception, str]] = [
            (MemoryError(), "out of memory"), (OSError(errno.EIO, "Input/output error"), "input/output error")]
        for failure, reason in failures:
            with mock.patch.object(metrics, "make", side_effect=failure):
                self.assertEqual(creating.write(file, [b"10:1"]), Outcome(again=f"cannot create: {reason}"))
        self.assertEqual(writer.write.call_count, 0)
        feeder.threads.shutdown()
