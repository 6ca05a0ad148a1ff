# SPDX-License-Identifier: MIT OR Apache-2.0
"""The calls of the library that run now, and the files that it keeps open: a fork waits for them, and so does the end
of the process.

A child has its parent's open files, and with them their locks, which it would keep if the parent were killed. So a fork
lets no call begin, waits for those that run, and closes what is open. A call that takes too long goes on in the parent,
and the child gives its file up. Nothing here holds a lock of Python's, so no thread and no child waits for one.
"""
from __future__ import annotations

import atexit
import os
import time
from threading import get_ident
from typing import Callable, List, NamedTuple, Optional, Protocol, Tuple
from weakref import WeakValueDictionary

from .locks import give_up, still_there

LONGEST_WAIT = 1.0  # seconds, for calls that run
LONGEST_STOP = 2.0  # seconds in which no call begins: no longer, even if an exception cut a fork short
PAUSE = 0.0005  # seconds


class StaysOpen(Protocol):
    """A file that the library keeps open between calls."""

    path: bytes

    @property
    def is_open(self) -> bool: ...

    def close(self) -> None: ...

    def forget(self) -> None: ...


class Elsewhere(Protocol):
    """What has calls and open files of its own: the extension."""

    def stop(self, are_stopped: bool) -> None:
        """Says whether a call has to wait by `Calls.wait` before it begins."""

    def running(self) -> List[Tuple[bytes, Optional[StaysOpen], int]]:
        """Returns the path, the open file, and the thread of each call that runs."""

    def files(self) -> List[StaysOpen]:
        """Returns the files that may be open."""

    def forget_calls(self) -> None:
        """Forgets the calls that run: they are of threads that a child does not have."""


class Running(NamedTuple):
    """A call that runs: the path of its file, its open file, if it has one, and its thread."""

    path: bytes
    opened: Optional[StaysOpen]
    thread: int
    call: Optional[Call] = None  # of ctypes


class Call:
    """One call of the library at a time. `path` names the file that the call uses, while it runs."""

    def __init__(self) -> None:
        self.path: Optional[bytes] = None
        self.opened: Optional[StaysOpen] = None
        self.thread = 0
        calls.known[id(self)] = self

    def run(self, function: Callable[..., None], path: bytes, opened: Optional[StaysOpen], *words: object) -> None:
        """Calls a function of the library that uses a file. Waits while another thread forks."""
        try:
            self.opened, self.thread, self.path = opened, get_ident(), path
            while calls.stopped_until and calls.are_stopped(self):
                self.path = None
                time.sleep(PAUSE)
                self.path = path
            function(*words)
        finally:
            self.path = self.opened = None


class Calls:
    """All calls."""

    def __init__(self) -> None:
        self.known: WeakValueDictionary[int, Call] = WeakValueDictionary()
        self.open: WeakValueDictionary[int, StaysOpen] = WeakValueDictionary()
        self.elsewhere: List[Elsewhere] = []
        self.stopped_until, self.stopped_by = 0.0, 0

    def are_stopped(self, begun: Optional[Call] = None) -> bool:
        """Checks whether a call that is about to begin has to wait for a thread that forks. It does not if this thread
        is in another call, for which that thread waits."""
        thread = get_ident()
        if self.stopped_by == thread or time.monotonic() >= self.stopped_until:
            return False
        return all(running.thread != thread or running.call is begun is not None for running in self._running())

    def wait(self) -> bool:
        """Waits for a moment if a call has to wait for a thread that forks. Returns whether it has to ask again."""
        if self.are_stopped():
            time.sleep(PAUSE)
            return True
        if time.monotonic() >= self.stopped_until:
            for one in self.elsewhere:
                one.stop(False)
        return False

    def running_elsewhere(self) -> List[Running]:
        """Returns the calls of other threads: a thread that asks is not in a call itself."""
        return [call for call in self._running() if call.thread != get_ident()]

    def _running(self) -> List[Running]:
        found = [Running(path, call.opened, call.thread, call)
                 for call, path in ((call, call.path) for call in still_there(self.known)) if path is not None]
        return [*found, *(Running(*call) for one in self.elsewhere for call in one.running())]

    def stop(self) -> None:
        """Lets no call begin, and waits until those that run have ended, if they end soon."""
        start = time.monotonic()
        self._set_stopped(start + LONGEST_STOP, get_ident())
        while self.running_elsewhere() and time.monotonic() < start + LONGEST_WAIT:
            time.sleep(PAUSE)

    def _set_stopped(self, until: float, thread: int) -> None:
        self.stopped_by, self.stopped_until = thread, until
        for one in self.elsewhere:
            one.stop(until > 0)

    def before_fork(self) -> None:
        self.stop()
        used = [call.opened for call in self.running_elsewhere()]
        for file in self._open_files():
            if file not in used:
                file.close()

    def after_fork(self) -> None:
        self._set_stopped(0.0, 0)

    def after_fork_in_child(self) -> None:
        self._set_stopped(0.0, 0)
        running, files = self.running_elsewhere(), [file for file in self._open_files() if file.is_open]
        give_up([call.path for call in running] + [file.path for file in files])
        for file in files:
            file.forget()
        for begun in running:
            if begun.call is not None:
                begun.call.path = begun.call.opened = None
        for one in self.elsewhere:
            one.forget_calls()

    def _open_files(self) -> List[StaysOpen]:
        return still_there(self.open) + [file for one in self.elsewhere for file in one.files()]


calls = Calls()
os.register_at_fork(before=calls.before_fork, after_in_parent=calls.after_fork,
                    after_in_child=calls.after_fork_in_child)
atexit.register(calls.stop)
