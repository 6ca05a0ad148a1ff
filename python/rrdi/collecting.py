# SPDX-License-Identifier: MIT OR Apache-2.0
"""Changes of one file that wait, and then run together, in one batch."""
from __future__ import annotations

import os
import threading
from typing import List, Optional, Tuple
from weakref import WeakValueDictionary

from .commands import Batch, Lines, RefusedLine, batch, batch_on_new, check_same, make_at, run_on
from .errors import REFUSED, Exists, Refused, error_of_line, reasons_in
from .fetching import Asked
from .locks import still_there
from .results import Table
from .times import moment
from .words import line_of


class RefusedLines(Refused):
    """Refused lines of a `Database`; `lines` has each line with its number and its reason."""

    def __init__(self, path: str, lines: Tuple[RefusedLine, ...]):
        one = lines[0]
        first = error_of_line(one.reason, None, one.detail)
        more = f" (and {len(lines) - 1} more)" if len(lines) > 1 else ""
        super().__init__(f"line {one.number}, {one.line}: {first}{more}", path, REFUSED)
        self.lines = lines

    def __reduce__(self) -> Tuple[object, ...]:
        return RefusedLines, (self.path, self.lines)


class _Creation(str):
    """The line of a waiting `create` of a file that did not exist."""

    exist_ok: bool  # whether another's file is kept


class Collected:
    """Changes that wait until a question, `flush` or the end of a block. One call then locks the file, reads it, runs
    them and writes it once."""

    def __init__(self, path: str, now: Optional[int], busy_timeout: Optional[float], sync: Optional[bool]):
        self.path, self.now, self.busy_timeout, self.sync = path, now, busy_timeout, sync
        self.refused: List[RefusedLine] = []
        self._waiting: List[str] = []
        self._taken = 0  # the waiting lines that run now, while a handler of a signal may call
        self._count = 0  # the lines that were run
        self.guard = threading.RLock()
        _collected[id(self)] = self

    def time_of_samples(self) -> Optional[int]:
        return moment(self.now)

    def begin(self) -> None:
        pass

    def create(self, words: List[str], overwrite: bool, exist_ok: bool) -> None:
        with self.guard:
            if not overwrite:
                if self._is_created() or os.path.exists(self.path):
                    if not exist_ok:
                        raise Exists(self.path)
                    if not self._is_created():
                        check_same(self.path, words, self.now, self.busy_timeout)
                    return
                line = _Creation(line_of(words))
                line.exist_ok = exist_ok
                self._waiting.append(line)
                return
            self.change(words)

    def _is_created(self) -> bool:
        """Returns whether a `create` waits."""
        return any(line.startswith("create ") for line in self._waiting)

    def add(self, samples: Tuple[object, ...]) -> bool:
        return False

    def add_many(self, samples: Tuple[object, ...], first: int) -> int:
        return 0

    def rows(self, asked: Asked) -> Optional[Table[float]]:
        return None

    def change(self, words: List[str]) -> None:
        line = line_of(words)
        with self.guard:
            self._waiting.append(line)

    def ask(self, words: List[str]) -> str:
        """Runs the waiting changes and then a query; returns the output of the query."""
        with self.guard:
            if len(self._waiting) == self._taken:
                return run_on(self.path, words, self.now, self.busy_timeout, None)
            before = len(self.refused)
            output = self._run([line_of(words)])
            if len(self.refused) > before and self.refused[-1].number == self._count + 1:
                question = self.refused.pop()
                raise error_of_line(question.reason, self.path, question.detail)
        return "\n".join(output.splitlines()[len(reasons_in(output)):])

    def batch(self, lines: Lines) -> Batch:
        with self.guard:
            if len(self._waiting) > self._taken:
                self._run([])
            return self._batch(self.path, lines)

    def flush(self) -> None:
        with self.guard:
            while len(self._waiting) > self._taken:
                self._run([])
            refused, self.refused = tuple(self.refused), []
        if refused:
            raise RefusedLines(self.path, refused)

    def end(self, is_whole: bool) -> None:
        if is_whole:
            self.flush()
            return
        with self.guard:
            del self._waiting[self._taken:]

    def _run(self, question: List[str]) -> str:
        """Runs the waiting changes and then a query; returns the output of all. Keeps the refused lines."""
        start = self._taken
        try:  # an exception of a handler may come at any place
            waiting = self._waiting[start:]
            self._taken = start + len(waiting)
            ran = self._ran(waiting + question)
            del self._waiting[start:start + len(waiting)]
        finally:
            self._taken = start
        self.refused += [one._replace(number=one.number + self._count) for one in ran.refused]
        self._count += len(waiting)
        return ran.output

    def _ran(self, lines: List[str]) -> Batch:
        """Runs lines. If they create a file that did not exist, they run on a new one, which gets its name when it is whole."""
        creation = next((line for line in lines if isinstance(line, _Creation)), None)
        if creation is None:
            return self._batch(self.path, lines)
        ran = make_at(self.path, lambda new: batch_on_new(new, lines, self.now, self.sync), self.sync)
        if ran is None:
            if not creation.exist_ok:
                raise Exists(self.path)
            # An empty line does nothing.
            ran = self._batch(self.path, ["" if line is creation else line for line in lines])
        return ran

    def _batch(self, path: str, lines: Lines) -> Batch:
        return batch(path, lines, now=self.now, busy_timeout=self.busy_timeout, sync=self.sync)


_collected: WeakValueDictionary[int, Collected] = WeakValueDictionary()


def _after_fork_in_child() -> None:
    for one in still_there(_collected):
        one.guard = threading.RLock()  # another thread may have held it, and is not in the child


os.register_at_fork(after_in_child=_after_fork_in_child)
