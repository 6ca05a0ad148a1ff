# SPDX-License-Identifier: MIT OR Apache-2.0
"""Tests of changes that wait, with a library that keeps the lines of each batch. No program is needed."""
from __future__ import annotations

import os
import sys
import threading
import time
from typing import Any, Callable, List, Optional
from unittest import mock

import graphite_doubles as graphite
from cases import HANG, DataCase, use_library

import rrdi
from rrdi.protocol import Answer


class Acting(graphite.KeepingLibrary):
    """Does something else once, in the middle of its first batch."""

    act: Optional[Callable[[], object]] = None

    def batch_file(self, *words: Any) -> Answer:
        answer, act, self.act = super().batch_file(*words), self.act, None
        if act is not None:
            act()
        return answer


class Waiting(DataCase):
    """Each change runs once, whoever calls meanwhile."""

    def setUp(self) -> None:
        super().setUp()
        self.library = Acting()
        use_library(self, self.library)
        (self.folder / "f").write_bytes(b"a database")
        self.database = rrdi.Database(self.folder / "f", collect=True)

    def lines(self) -> List[List[str]]:
        return [lines for _, lines in self.library.batches]

    def test_threads(self) -> None:
        """Two that change, and one that flushes, as often as threads can change places."""
        count, switching = 3_000, sys.getswitchinterval()

        def change(first: int) -> None:
            for number in range(first, first + count):
                self.database.tune("--heartbeat", f"g:{number}")
        threads = [threading.Thread(target=change, args=(first,)) for first in (0, count)]
        sys.setswitchinterval(1e-6)
        try:
            for thread in threads:
                thread.start()
            while any(thread.is_alive() for thread in threads):
                self.database.flush()
        finally:
            sys.setswitchinterval(switching)
        self.database.flush()
        found = sorted(int(line.split(":")[1]) for lines in self.lines() for line in lines)
        self.assertEqual(found, list(range(2 * count)))

    def test_a_handler_of_a_signal(self) -> None:
        """What it adds during a batch waits, or runs first if it flushes; what runs already does not run again."""
        for flushes in (False, True):
            self.library.batches.clear()

            def act() -> None:
                self.database.tune("--heartbeat", "g:2")
                if flushes:
                    self.database.flush()
                    self.database.tune("--heartbeat", "g:3")
            self.database.tune("--heartbeat", "g:1")
            self.library.act = act
            self.database.flush()
            self.database.flush()
            self.assertEqual(self.lines(), [[f"tune --heartbeat g:{number}"] for number in range(1, 4 if flushes else 3)])

    def test_a_batch_that_fails(self) -> None:
        """Its lines wait, before those that came meanwhile."""
        self.database.tune("--heartbeat", "g:1")
        self.library.answers = [graphite.BUSY]
        self.library.act = lambda: self.database.tune("--heartbeat", "g:2")
        self.assertRaises(rrdi.Busy, self.database.flush)
        self.database.flush()
        self.assertEqual(self.lines()[1], ["tune --heartbeat g:1", "tune --heartbeat g:2"])

    def test_a_handler_during_a_creation(self) -> None:
        """What it runs does not create the file once more."""
        database = rrdi.Database(self.folder / "new", collect=True)
        database.create("DS:g:GAUGE:9:U:U", "RRA:MAX:0:1:3", step=1, start=0)
        made = self.library.batch

        def batch(*words: Any) -> Answer:
            if not self.library.batches:
                self.library.batches.append(("", []))
                (self.folder / "new").write_bytes(b"a database")
                database.tune("--heartbeat", "g:1")
                database.flush()
                (self.folder / "new").unlink()
            return made(*words)
        with mock.patch.object(self.library, "batch", batch):
            database.flush()
        self.assertEqual([[line.split()[0] for line in lines] for lines in self.lines()[1:]], [["tune"], ["create"]])

    def test_a_fork_while_another_thread_runs_a_batch(self) -> None:
        """The child need not wait for that thread, which it does not have."""
        held, done = threading.Event(), threading.Event()

        def hold() -> None:
            with self.database._way.guard:  # type: ignore[attr-defined]
                held.set()
                done.wait(HANG)
        thread = threading.Thread(target=hold)
        thread.start()
        held.wait(HANG)
        child = os.fork()
        if child == 0:
            self.database.tune("--heartbeat", "g:1")
            os._exit(0)
        done.set()
        thread.join()
        end = time.monotonic() + HANG
        while os.waitpid(child, os.WNOHANG)[0] == 0:
            self.assertLess(time.monotonic(), end)
            time.sleep(0.01)


class Many(DataCase):
    def test_a_sample_of_a_wrong_type(self) -> None:
        """The exception says how many came before it."""
        use_library(self, graphite.KeepingLibrary())
        (self.folder / "f").write_bytes(b"a database")
        database = rrdi.Database(self.folder / "f", collect=True)
        with self.assertRaises(TypeError) as raised:
            database.update_many([(10, 1), (20, 2), (30, True)])
        self.assertEqual(getattr(raised.exception, "stored", None), 2)
