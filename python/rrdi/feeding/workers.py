# SPDX-License-Identifier: MIT OR Apache-2.0
"""Threads that write the files. Each batch that is given runs once, even if the system has no room for a thread."""
from __future__ import annotations

import threading
import time
from contextlib import suppress
from queue import Empty, SimpleQueue
from typing import Callable, List, Optional, Tuple

FIRST = 4  # threads that begin before the first line is read, while there is memory
PAUSE = 1.0  # seconds until the next try after the system has refused a thread: each such try costs Python memory

Batch = Tuple[bytes, List[bytes]]  # a file and its samples


class Workers:
    """At most so many threads. They call `work`, which raises no exception, with each batch."""

    def __init__(self, most: int, work: Callable[[bytes, List[bytes]], None]):
        self.most, self.work = most, work
        self.batches: SimpleQueue[Optional[Batch]] = SimpleQueue()
        self.threads: List[threading.Thread] = []  # those that began, and those that may begin late
        self.next_try = 0.0

    def begin(self, wanted: int) -> None:
        """Begins threads, until there are as many as are wanted or the system refuses one."""
        while len(self.threads) < min(wanted, self.most) and time.monotonic() >= self.next_try:
            thread: Optional[threading.Thread] = None
            try:
                # At the end of the process no thread is waited for that has no batch.
                thread = threading.Thread(target=self.run, daemon=True)
                self.threads.append(thread)
                thread.start()
            except RuntimeError:  # no thread, or no memory for one of its locks: then it may run all the same
                self.next_try = time.monotonic() + PAUSE
                if thread in self.threads:
                    self.threads.remove(thread)

    def give(self, batch: Batch, running: int) -> Optional[Batch]:
        """Gives a batch to the threads, of which `running` are wanted. Returns a batch for the caller to run if there is no
        thread, or none yet: one that begins late finds the batch taken, and waits for the next."""
        self.batches.put(batch)
        has_threads = False
        try:
            self.begin(running)
            has_threads = any(thread.is_alive() for thread in self.threads)
        except MemoryError:
            pass
        try:
            return None if has_threads else self.batches.get_nowait()
        except Empty:
            return None

    def run(self) -> None:
        while self.run_one(self.batches.get()):
            pass

    def run_one(self, batch: Optional[Batch]) -> bool:
        """Runs a batch. Returns False if there are no more."""
        if batch is None:
            self.batches.put(None)  # for the next thread: some may run that are not among `threads`
            return False
        self.work(*batch)
        return True

    def shutdown(self) -> None:
        """Ends the threads, once all batches have run."""
        self.batches.put(None)
        for thread in self.threads:
            with suppress(RuntimeError):  # it never began
                thread.join()
        self.threads.clear()
