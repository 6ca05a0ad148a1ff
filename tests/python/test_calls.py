# SPDX-License-Identifier: MIT OR Apache-2.0
"""Tests of calls of the library that meet: of handlers of signals and what the collector runs within a call, of
exceptions at each step of it, of threads, and of forks and the end of the process."""
from __future__ import annotations

import ctypes
import fcntl
import gc
import os
import signal
import subprocess
import sys
import threading
import time
import unittest
from typing import Any, Callable, Dict, List, Optional
from unittest import mock

from building import ByExtension, chosen
from cases import HANG, run_in_threads, sleeping_child
from doubles import TOP
from locking import c_library, put
from opcodes import between_all, raised_at_each
from test_kept import KeptCase, is_locked

from rrdi import calls as running
import rrdi
from rrdi import by_ctypes
from rrdi.errors import REFUSED
from rrdi.kept_file import KeptFile
from rrdi.locks import keepers
from rrdi.open_files import OpenFiles
from rrdi.protocol import Answer

Call = Callable[[bytes], Answer]


def open_numbers() -> List[str]:
    return sorted(os.listdir("/proc/self/fd"))


class Echo:
    """A library whose answers tell what was called: a refusal with the words. `at_call` runs before an answer."""

    def __init__(self) -> None:
        self.at_call: Callable[[], None] = lambda: None
        at_path, in_memory = self.function(2, 7), self.function(3, 8)
        self.library = c_library({
            "rrdi_run": in_memory, "rrdi_batch": in_memory, "rrdi_run_file": at_path, "rrdi_batch_file": at_path,
            "rrdi_open": self.open, "rrdi_close": self.close, "rrdi_run_open": self.function(1, 4),
            "rrdi_batch_open": self.function(1, 4)})

    def function(self, text: int, output: int) -> Callable[..., None]:
        def called(*words: int) -> None:
            given = ctypes.string_at(words[text], words[text + 1])
            self.at_call()
            put(words[-1], Answer(REFUSED, 0, len(given), given), words[output])
        return called

    def open(self, *words: int) -> None:
        by_ctypes._File.from_address(words[4]).is_open = True
        put(words[-1], Answer(0, 0, 0, b""), words[5])

    def close(self, file: int) -> None:
        by_ctypes._File.from_address(file).is_open = False

    def calls(self) -> Dict[str, Call]:
        """Returns a call of each function, which takes its words."""
        _, found = self.library.open(b"f", 0, False)
        assert found is not None
        opened = found
        return {"run_file": lambda words: self.library.run_file(b"f", words, 0, 0, False),
                "batch_file": lambda words: self.library.batch_file(b"f", words, 0, 0, False),
                "run": lambda words: self.library.run(b"data", words, 0),
                "batch": lambda words: self.library.batch(b"data", words, 0),
                "run_open": lambda words: opened.run(words, 0), "batch_open": lambda words: opened.batch(words, 0)}


def told(words: bytes) -> Answer:
    return Answer(REFUSED, 0, len(words), words)


class Meeting(unittest.TestCase):
    """The answer of a call is its own, whatever is called meanwhile."""

    least_steps = 50  # of Python, at which something may come between

    def setUp(self) -> None:
        self.echo = Echo()
        self.calls = self.echo.calls()

    def test_calls_in_a_handler_at_each_step(self) -> None:
        for name, call in self.calls.items():
            for other in self.calls.values():
                inner: List[Answer] = []
                found = between_all(lambda: inner.append(other(b"of the handler")), lambda: call(b"of the program"))
                self.assertEqual(found, told(b"of the program"), name)
                self.assertEqual(set(inner), {told(b"of the handler")} if self.least_steps else set(), name)

    def test_calls_in_a_handler_of_a_signal(self) -> None:
        """A handler runs between the call and the reading of its answer, if the signal came during the call."""
        inner: List[Answer] = []
        before = signal.signal(signal.SIGUSR1, lambda *_: inner.append(self.calls["run_file"](b"of the handler")))
        self.addCleanup(signal.signal, signal.SIGUSR1, before)

        def at_call() -> None:
            self.echo.at_call = lambda: None
            signal.raise_signal(signal.SIGUSR1)
        for name, call in self.calls.items():
            self.echo.at_call = at_call
            self.assertEqual(call(b"of the program"), told(b"of the program"), name)
        self.assertEqual(inner, [told(b"of the handler")] * len(self.calls))

    def test_calls_of_the_collector(self) -> None:
        inner: List[Answer] = []
        call = self.calls["run_file"]

        class Cycle:
            def __init__(self) -> None:
                self.itself = self

            def __del__(self) -> None:
                inner.append(call(b"of the collector"))

        def collect() -> None:
            Cycle()
            gc.collect()
        found = between_all(collect, lambda: call(b"of the program"))
        by_collector = {told(b"of the collector")} if self.least_steps else set()
        self.assertEqual((found, set(inner)), (told(b"of the program"), by_collector))

    def test_calls_of_threads(self) -> None:
        def work(number: int) -> None:
            words = b"of thread %d" % number
            for _ in range(100):
                for name, call in self.calls.items():
                    if "open" not in name and call(words) != told(words):
                        wrong.append(name)
        wrong: List[str] = []
        self.echo.at_call = lambda: time.sleep(0.00001)
        run_in_threads(8, work)
        self.assertEqual(wrong, [])

    def test_an_exception_at_each_step(self) -> None:
        for name, call in self.calls.items():
            def check(number: int) -> None:
                self.assertEqual(call(b"of the next call"), told(b"of the next call"), (name, number))
                self.assertEqual(running.calls._running(), [], (name, number))
            self.assertGreaterEqual(raised_at_each(lambda: call(b"of the program"), check), self.least_steps)


class MeetingByExtension(ByExtension, Meeting):
    """A call is one step of Python's."""

    least_steps = 0


class Interrupted(KeptCase):
    """After an exception at any step no lock is held, and no file is open."""

    least_steps = 200

    def setUp(self) -> None:
        super().setUp()
        self.addCleanup(gc.enable)
        gc.disable()

    def test_a_file_that_stays_open(self) -> None:
        numbers = open_numbers()

        def closing() -> None:
            kept = KeptFile(self.path)
            try:
                kept.run(["update"])
            finally:
                kept.close()

        def forgetful() -> None:
            KeptFile(self.path).run(["update"])

        def check(number: int) -> None:
            self.assertEqual((is_locked(self.path), open_numbers()), (False, numbers), number)
            self.assertEqual(running.calls._running(), [], number)
            keepers.clear()  # an interrupted object waits for the collector, and each one adds steps to the next run
        for work in (closing, forgetful):
            with mock.patch("sys.unraisablehook", lambda of_del: None):
                self.assertGreater(raised_at_each(work, check), self.least_steps)

    def test_a_file_that_is_kept(self) -> None:
        """The object of a command that was interrupted closes the file, and runs the next command."""
        kept = KeptFile(self.path)

        def check(number: int) -> None:
            kept.close()
            self.assertFalse(is_locked(self.path), number)
            self.assertEqual(kept.run(["last"]), "", number)
        with mock.patch("sys.unraisablehook", lambda of_del: None):
            raised_at_each(lambda: kept.run(["update"]), check)


class InterruptedByExtension(ByExtension, Interrupted):
    least_steps = 100


class Forks(KeptCase):
    """No child keeps a lock after its parent was killed, of which nobody calls an `unlock`."""

    def setUp(self) -> None:
        super().setUp()
        self.begun, self.may_end = threading.Event(), threading.Event()
        self.addCleanup(self.may_end.set)
        self.library.at_call = self.in_a_call
        self.thread: Optional[threading.Thread] = None

    def in_a_call(self) -> None:
        self.begun.set()
        self.may_end.wait(HANG)

    def start(self, work: Callable[[], object]) -> None:
        self.thread = threading.Thread(target=work)
        self.thread.start()
        self.begun.wait(HANG)

    def opened(self) -> Any:
        _, opened = self.library.library.open(os.fsencode(self.path), 0, False)
        return opened

    def test_a_call_that_ends_soon(self) -> None:
        opened = self.opened()
        self.start(lambda: opened.run(b"update", 0))
        threading.Timer(0.1, self.may_end.set).start()
        with mock.patch.object(running, "LONGEST_WAIT", HANG):
            sleeping_child(self)
        self.assertEqual((self.library.said[-1], is_locked(self.path)), ("close", False))

    def test_a_call_that_takes_long(self) -> None:
        """The child gives up the file of the call."""
        with open(self.path, "rb+", buffering=0) as file:
            path = os.fsencode(self.path)
            fcntl.flock(file, fcntl.LOCK_EX)
            self.check_long_call(lambda: self.library.library.run_file(path, b"update", 0, 0, False), file.close)

    def test_a_long_call_on_a_file_that_stays_open(self) -> None:
        opened = self.opened()

        def close_as_a_kill_does() -> None:
            os.close(self.library.numbers[-1])
            opened.forget()
        self.check_long_call(lambda: opened.run(b"update", 0), close_as_a_kill_does)

    def test_a_child_that_uses_the_file_of_a_long_call(self) -> None:
        """It hears that the file is locked: it does not wait for the thread of the call, which it does not have."""
        kept, self.library.at_call = KeptFile(self.path, 0), lambda: None
        kept.run(["last"])
        self.library.at_call = self.in_a_call
        self.start(lambda: kept.run(["update"]))
        with mock.patch.object(running, "LONGEST_WAIT", 0.05):
            child = os.fork()
        if child == 0:
            signal.alarm(HANG)
            self.library.at_call = lambda: None
            try:
                kept.run(["last"])
            except rrdi.Busy:
                os._exit(7)
            os._exit(1)
        self.assertEqual(os.waitpid(child, 0)[1], 7 << 8)
        self.may_end.set()
        assert self.thread is not None
        self.thread.join()

    def test_a_child_that_forks(self) -> None:
        """It does not wait for a call that its parent was in."""
        path = os.fsencode(self.path)
        self.start(lambda: self.library.library.run_file(path, b"update", 0, 0, False))
        with mock.patch.object(running, "LONGEST_WAIT", 0.05):
            child = os.fork()
        if child == 0:
            signal.alarm(HANG)
            with mock.patch.object(running, "LONGEST_WAIT", 2 * HANG):
                if os.fork() == 0:
                    os._exit(0)
            os._exit(7)
        self.assertEqual(os.waitpid(child, 0)[1], 7 << 8)
        self.may_end.set()
        assert self.thread is not None
        self.thread.join()

    def check_long_call(self, call: Callable[[], object], close: Callable[[], None]) -> None:
        self.start(call)
        with mock.patch.object(running, "LONGEST_WAIT", 0.05):
            sleeping_child(self)
        self.assertTrue(is_locked(self.path))
        close()
        self.assert_not_locked()
        self.may_end.set()
        assert self.thread is not None
        self.thread.join()

    def assert_not_locked(self) -> None:
        until = time.monotonic() + HANG
        while is_locked(self.path) and time.monotonic() < until:  # until the child has begun
            time.sleep(0.01)
        self.assertFalse(is_locked(self.path))

    def test_a_fork_that_an_exception_cut_short(self) -> None:
        """The child gives up the files that the fork should have closed."""
        opened = self.opened()
        with mock.patch.object(running.calls, "stop", side_effect=KeyboardInterrupt), \
                mock.patch("sys.unraisablehook", lambda of_fork: None):
            sleeping_child(self)
        os.close(self.library.numbers[-1])
        opened.forget()
        self.assert_not_locked()

    def test_no_call_begins_during_a_fork(self) -> None:
        """Nor for ever after a fork that an exception cut short."""
        for is_ended, longest in ((True, HANG), (False, 0.5)):
            self.library.said.clear()
            with mock.patch.object(running, "LONGEST_STOP", longest):
                running.calls.stop()
                self.may_end.set()
                self.thread = threading.Thread(target=lambda: self.library.library.run_file(b"f", b"last", 0, 0, False),
                                               daemon=True)
                self.thread.start()
                if is_ended:
                    time.sleep(0.1)
                    self.assertEqual(self.library.said, [])
                    running.calls.after_fork()
                self.thread.join(10)
                self.assertEqual(self.library.said, ["path last"])
        running.calls.after_fork()

    def test_calls_of_the_thread_that_forks(self) -> None:
        running.calls.stop()
        self.may_end.set()
        self.library.library.run_file(b"f", b"last", 0, 0, False)
        running.calls.after_fork()

    def test_a_call_within_a_call(self) -> None:
        """A thread whose call a fork waits for does not wait for the fork."""
        def within() -> None:
            self.library.at_call = lambda: None
            self.in_a_call()
            self.library.library.run_file(b"f", b"inner", 0, 0, False)
        self.library.at_call = within
        self.start(lambda: self.library.library.run_file(b"f", b"outer", 0, 0, False))
        threading.Timer(0.1, self.may_end.set).start()
        begun = time.monotonic()
        with mock.patch.object(running, "LONGEST_WAIT", HANG), mock.patch.object(running, "LONGEST_STOP", HANG):
            running.calls.stop()
            running.calls.after_fork()
        self.assertLess(time.monotonic() - begun, HANG / 2)
        self.assertEqual(self.library.said, ["path outer", "path inner"])

    def test_forks_and_calls_at_once(self) -> None:
        """The calls go on, each with its answer."""
        self.may_end.set()
        is_over = threading.Event()
        done: List[int] = []

        def work(number: int) -> None:
            kept = KeptFile(self.folder / str(number))
            while not is_over.is_set():
                kept.run(["update"])
                self.library.library.run_file(b"f", b"last", 0, 0, False)
                done.append(number)
            kept.close()
        for number in range(4):
            (self.folder / str(number)).write_bytes(b"a database")
        threads = [threading.Thread(target=work, args=(number,)) for number in range(4)]
        for thread in threads:
            thread.start()
        start, longest = time.monotonic(), 10 * HANG
        with mock.patch.object(running, "LONGEST_WAIT", longest), mock.patch.object(running, "LONGEST_STOP", longest):
            for _ in range(50):
                child = os.fork()
                if child == 0:
                    os._exit(0)
                self.assertEqual(os.waitpid(child, 0)[1], 0)
        is_over.set()
        for thread in threads:
            thread.join()
        self.assertLess(time.monotonic() - start, longest)  # no fork waited for the longest time
        self.assertEqual((set(done), self.library.said.count("open update")), ({0, 1, 2, 3}, len(done)))


class ForksByExtension(ByExtension, Forks):
    pass


SCRIPT = """import sys, threading, time
sys.path[:0] = {path!r}
import building, locking
from rrdi import calls
calls.LONGEST_WAIT = 60
building.chosen.extension = building.the_extension() if {by_extension} else None
library = locking.Locking()
begun = threading.Event()

def at_call():
    begun.set()
    time.sleep(0.3)
    print("the call has ended", flush=True)
library.at_call = at_call
threading.Thread(target=lambda: library.library.run_file(b"f", b"update", 0, 0, False), daemon=True).start()
begun.wait()
"""


class End(unittest.TestCase):
    def test_a_call_at_the_end_of_the_process(self) -> None:
        path = [str(TOP / "tests/python"), str(TOP / "python")]
        script = SCRIPT.format(path=path, by_extension=chosen.extension is not None)
        ran = subprocess.run([sys.executable, "-B", "-c", script], stdout=subprocess.PIPE,
                             stderr=subprocess.PIPE, universal_newlines=True, timeout=HANG)
        self.assertEqual((ran.returncode, ran.stdout, ran.stderr), (0, "the call has ended\n", ""))


class EndByExtension(ByExtension, End):
    pass


class Begun:
    """A call that another thread has begun."""

    path: Optional[bytes] = b"/nowhere/f"
    opened = None
    thread = -1


class Registered(unittest.TestCase):
    def test_a_fork(self) -> None:
        """It is known beforehand, and in both processes afterwards; the child has locks of its own."""
        kept, files = KeptFile("f"), OpenFiles()
        before = kept.guard, files._guard
        with mock.patch.object(running.calls, "stop") as stop, mock.patch.object(running.calls, "_set_stopped") as set_stopped:
            child = os.fork()
            if child == 0:
                os._exit(7 * (stop.called and set_stopped.called and kept.guard is not before[0] and files._guard is not before[1]))
            self.assertEqual(os.waitpid(child, 0)[1], 7 << 8)
        self.assertEqual((stop.call_count, set_stopped.mock_calls, (kept.guard, files._guard)), (1, [mock.call(0.0, 0)], before))


class Bookkeeping(unittest.TestCase):
    """What is known of the calls of other threads, without calls."""

    def setUp(self) -> None:
        self.calls = running.Calls()
        self.elsewhere = mock.Mock(running=lambda: [], files=lambda: [])
        self.calls.elsewhere.append(self.elsewhere)

    def test_a_child_forgets_each_call(self) -> None:
        begun = [Begun(), Begun(), Begun()]
        self.calls.known.update(enumerate(begun))  # type: ignore[arg-type]
        self.assertEqual(len(self.calls.running_elsewhere()), 3)
        self.calls.after_fork_in_child()
        self.assertEqual([one.path for one in begun], [None] * 3)
        self.assertEqual((self.calls.running_elsewhere(), self.calls.are_stopped()), ([], False))
        self.assertEqual(self.elsewhere.mock_calls, [mock.call.stop(False), mock.call.forget_calls()])

    def test_each_other_interpreter_is_told(self) -> None:
        others = [self.elsewhere, mock.Mock(running=lambda: [], files=lambda: [])]
        self.calls.elsewhere.append(others[1])
        for act, told in ((self.calls.stop, [mock.call.stop(True)]), (self.calls.after_fork, [mock.call.stop(False)]), (self.calls.wait, [mock.call.stop(False)]),
                          (self.calls.after_fork_in_child, [mock.call.stop(False), mock.call.forget_calls()])):
            for one in others:
                one.reset_mock()
            act()
            self.assertEqual([one.mock_calls for one in others], [told, told])

    def test_when_a_call_may_begin(self) -> None:
        """Not while another thread forks, but for two seconds at most; then it goes on without asking again."""
        now = time.monotonic()
        for thread, until, waits in ((-1, now + HANG, True), (threading.get_ident(), now + HANG, False), (-1, now - 1, False), (0, 0.0, False)):
            self.elsewhere.stop.reset_mock()
            self.calls.stopped_by, self.calls.stopped_until = thread, until
            self.assertEqual((self.calls.are_stopped(), self.calls.wait()), (waits, waits), (thread, until - now))
            self.assertEqual(self.elsewhere.stop.mock_calls, [mock.call(False)] if until < now else [])
        with mock.patch.object(running, "LONGEST_WAIT", 0):
            self.calls.stop()
        self.assertEqual(self.calls.stopped_by, threading.get_ident())
        self.assertTrue(1.5 < self.calls.stopped_until - time.monotonic() <= 2)
        self.assertEqual(self.elsewhere.stop.mock_calls[-1], mock.call(True))
        self.calls.after_fork()
        self.assertEqual((self.calls.stopped_by, self.calls.stopped_until, self.elsewhere.stop.mock_calls[-1]), (0, 0, mock.call(False)))
        self.assertEqual((running.Calls().stopped_by, running.Calls().stopped_until), (0, 0))
