# SPDX-License-Identifier: MIT OR Apache-2.0
"""A file that stays open between commands, locked, with its database in memory.

A command on such a file spares the opening, reading and decoding of the file, which is most of its work, and writes its
change before it returns, as every command does. Until the file is closed, others can read it by rrdi between two
commands, and cannot change it. A change that meets a reader opens the file again; who waits for it may come first.
"""
from __future__ import annotations

import os
import threading
from typing import Callable, List, Optional, Tuple
from weakref import WeakValueDictionary

from .commands import Batch, Lines, batch_of, failed, lines_of, text_of_lines
from .environment import is_synced, milliseconds
from .errors import CANNOT_OPEN, EXPLAINED, LOCKED, OK
from .fetching import Asked
from .library import the_library
from .locks import Identity, identity_at, is_open_here, keepers, still_there
from .printed import printed_rows
from .protocol import CLOSED, DONE, Answer, OpenedFile
from .results import Table
from .times import Time, moment
from .words import FilePath, encoded, encoded_path

# After any other fault the file is closed, and the next command opens and reads it again.
_HARMLESS = EXPLAINED | {OK}
TRIES = 10  # of a command whose file is closed each time before the command runs


class KeptFile:
    """A file that stays open from its first command until `close`.

    The next command opens the file again if it was closed after a fault or by a fork, or if the name belongs to another
    file by now. Each command opens the file anew if it cannot stay open: on a file system without locks, or without the
    right to write. Several threads may call.
    """

    def __init__(self, path: FilePath, busy_timeout: Optional[float] = None, sync: Optional[bool] = None):
        self.path = os.fsdecode(path)
        self._path, self._wait, self._syncs = encoded_path(path), milliseconds(busy_timeout), is_synced(sync)
        self._opened: Optional[OpenedFile] = None
        self._identity: Optional[Identity] = None
        self._names: Optional[Tuple[str, ...]] = None  # of the sources, until a command may have changed them
        self.guard = threading.RLock()
        _files[id(self)] = self

    def run(self, words: List[str], now: Optional[Time] = None) -> str:
        """Runs one command, and returns its output."""
        given, time = encoded(words), moment(now)
        answer = self._answer(lambda opened: opened.run(given, time), lambda: the_library().run_file(
            self._path, given, time, self._wait, self._syncs))
        if answer.fault != OK:
            raise failed(answer, self.path)
        return answer.output.decode()

    def add(self, samples: Tuple[object, ...], now: Optional[int] = None) -> bool:
        """Adds samples in the library's fast way. Returns False if nothing was added, and `run` has to do it, or say what
        is wrong: the file is not open yet, or is another one by now; the samples are not such that the way is fast."""
        opened = self._opened
        answer = None if opened is None else opened.update(samples, now)
        if answer is DONE:
            return True
        if answer is None or answer.fault in _HARMLESS:
            return False
        self._noted(answer)
        raise failed(answer, self.path)

    def add_many(self, samples: Tuple[object, ...], first: int, now: Optional[int] = None) -> int:
        """Adds the samples from the one of index `first` on, each as a change of its own, in the library's fast way. Returns
        how many were stored: fewer than all if `add` or `run` has to add the next one, or say what is wrong."""
        opened = self._opened
        found = None if opened is None else opened.update_many(samples, first, now)
        if found is None:
            return 0
        answer, stored = found
        if answer.fault not in _HARMLESS:
            self._noted(answer)
            error = failed(answer, self.path)
            error.stored = first + stored
            raise error
        return stored

    def rows(self, asked: Asked, now: Optional[int] = None) -> Optional[Table[float]]:
        """Fetches rows in the library's fast way. Returns None if `run` has to do it, as in `add`."""
        numbers = asked.numbers(moment(now))
        with self.guard:
            opened = self._opened
            found = None if opened is None or numbers is None else opened.fetch(*numbers)
            if found is None or not found[2]:
                return None
            names = self._names or printed_rows(self.run(["lastupdate"], now)).names
            if self._opened is not opened:
                return None
            self._names = names
        start, step, rows = found
        return Table((start, start + step * len(rows), step), names, rows)

    def batch(self, lines: Lines, now: Optional[Time] = None) -> Batch:
        """Runs lines, as `rrdi.batch`: writes the file once."""
        given = lines_of(lines)
        text, time = text_of_lines(given), moment(now)
        answer = self._answer(lambda opened: opened.batch(text, time), lambda: the_library().batch_file(
            self._path, text, time, self._wait, self._syncs))
        return batch_of(given, answer, self.path)

    def close(self) -> None:
        """Closes the file, and releases its lock. Does nothing if the file is closed."""
        with self.guard:
            opened = self._opened
            if opened is not None:
                opened.close()
            self._opened = None

    def has(self, identity: Optional[Identity]) -> bool:
        """Checks whether this is the file that is open."""
        opened = self._opened
        return opened is not None and opened.is_open and self._identity == identity

    def _answer(self, run: Callable[[OpenedFile], Answer], run_at_path: Callable[[], Answer]) -> Answer:
        """Runs a command on the open file, or on the file at the path if it cannot stay open. A fork, or a handler of a
        signal, may close the file before the command runs; then the command opens it again."""
        with self.guard:
            self._names = None
            for _ in range(TRIES):
                opened = self._current()
                if opened is None:
                    break
                answer = run(opened)
                if answer[:2] != CLOSED[:2]:
                    return self._noted(answer)
                self.close()
            return run_at_path()

    def _current(self) -> Optional[OpenedFile]:
        """Returns the open file, which is opened if need be; None if the command has to open it itself.

        # Errors
        `Busy` if another program holds the lock.
        """
        opened = self._opened
        if opened is not None and not opened.is_current():
            self.close()
        if self._opened is None:
            self._open()
        return self._opened

    def _open(self) -> None:
        before = identity_at(self._path)
        wait = 0 if is_open_here(self._path) else self._wait
        answer, opened = the_library().open(self._path, wait, self._syncs)
        if opened is None:
            is_locked = answer.fault == CANNOT_OPEN and answer.system_error in LOCKED
            if is_locked and self._opened is None:  # no handler of a signal has opened it meanwhile
                raise failed(answer, self.path)
        elif before is None or identity_at(self._path) != before:  # another file has taken the name meanwhile
            opened.close()
        else:
            opened.device, opened.inode = before
            keepers[before] = self  # first: after an interrupt here nothing is open
            self._opened, self._identity = opened, before

    def _noted(self, answer: Answer) -> Answer:
        """Closes the file after a fault of the file or of the system."""
        if answer.fault not in _HARMLESS:
            self.close()
        return answer


_files: WeakValueDictionary[int, KeptFile] = WeakValueDictionary()


def _after_fork_in_child() -> None:
    for file in still_there(_files):
        file.guard = threading.RLock()  # another thread may have held it, and is not in the child


os.register_at_fork(after_in_child=_after_fork_in_child)
