# SPDX-License-Identifier: MIT OR Apache-2.0
"""The database in a file, for a block of commands."""
from __future__ import annotations

import datetime
import os
from types import TracebackType
from typing import TYPE_CHECKING, Iterable, List, Optional, Protocol, Tuple, Type, overload

from .collecting import Collected
from .collecting import RefusedLines as RefusedLines
from .commands import Batch, Lines, RefusedLine, batch, creation, fetch_words, made, run_on
from .errors import Error
from .fetching import Asked, fetched
from .kept_file import KeptFile
from .results import LastUpdate, Table, Value, info_of, last_update
from .samples import Sample, is_table, no_sample, sample_words
from .times import Span, Time, moment, seconds_of
from .words import FilePath, Words, flat, options

if TYPE_CHECKING:
    from .described import Info


class _Way(Protocol):
    """When the commands run: at once, or together."""

    refused: List[RefusedLine]

    def time_of_samples(self) -> Optional[int]:
        """Returns the time that replaces N; None if the command runs now, and may replace it."""

    def begin(self) -> None: ...

    def create(self, words: List[str], overwrite: bool, exist_ok: bool) -> None: ...

    def add(self, samples: Tuple[object, ...]) -> bool:
        """Adds samples in a fast way. Returns False if they have to be added by words."""

    def add_many(self, samples: Tuple[object, ...], first: int) -> int:
        """Adds samples from one on, each as a change, in a fast way. Returns how many: not all if others are slower."""

    def change(self, words: List[str]) -> None: ...

    def ask(self, words: List[str]) -> str: ...

    def rows(self, asked: Asked) -> Optional[Table[float]]:
        """Fetches rows in a fast way. Returns None if it has to be done by words."""

    def batch(self, lines: Lines) -> Batch: ...

    def flush(self) -> None: ...

    def end(self, is_whole: bool) -> None: ...


class _AtOnce:
    """Each command runs when it is called. In a block the file stays open."""

    def __init__(self, path: str, now: Optional[int], busy_timeout: Optional[float], sync: Optional[bool]):
        self.path, self.now, self.busy_timeout, self.sync = path, now, busy_timeout, sync
        self.refused: List[RefusedLine] = []
        self._file: Optional[KeptFile] = None

    def time_of_samples(self) -> Optional[int]:
        return None

    def begin(self) -> None:
        self._file = self._file or KeptFile(self.path, self.busy_timeout, self.sync)

    def create(self, words: List[str], overwrite: bool, exist_ok: bool) -> None:
        if self._file is not None:
            self._file.close()  # the next command opens the new file
        made(self.path, words, overwrite, exist_ok, self.now, self.busy_timeout, self.sync)

    def add(self, samples: Tuple[object, ...]) -> bool:
        return self._file is not None and self._file.add(samples, self.now)

    def add_many(self, samples: Tuple[object, ...], first: int) -> int:
        return 0 if self._file is None else self._file.add_many(samples, first, self.now)

    def change(self, words: List[str]) -> None:
        self.ask(words)

    def rows(self, asked: Asked) -> Optional[Table[float]]:
        return None if self._file is None else self._file.rows(asked, self.now)

    def ask(self, words: List[str]) -> str:
        if self._file is None:
            return run_on(self.path, words, self.now, self.busy_timeout, self.sync)
        return self._file.run(words, self.now)

    def batch(self, lines: Lines) -> Batch:
        if self._file is None:
            return batch(self.path, lines, now=self.now, busy_timeout=self.busy_timeout, sync=self.sync)
        return self._file.batch(lines, self.now)

    def flush(self) -> None:
        pass

    def end(self, is_whole: bool) -> None:
        try:
            if self._file is not None:
                self._file.close()
        finally:
            self._file = None  # after an exception, too: a file that nobody uses is closed


class Database:
    """The database in a file, which stays open for a block.

        with rrdi.Database("net.rrdi") as database:
            database.update("10:1")
            database.update("20:2")

    Each command runs when it is called, and its change is then in the file. The first command of a block opens the
    file, and the end of the block closes it. In between others can read the file by rrdi, and nobody else can change it,
    this program by the path included; but a change that meets a reader opens the file again, and another program that
    waits for it may come first. (If a handler of a signal raises just as the block ends, the file may stay open
    until this object is dropped, or its next block ends.) Without a block, each command opens and closes the file.
    `open` and `close` are a block without `with`.

    With `collect=True` changes wait, and run together at the end of the block, in one call; the file is locked only
    during a call. A query such as `fetch` or `last` first runs the waiting changes, in the same call. If the block ends
    by an exception, the waiting changes are dropped. Each change is a line, counted from 1. A refused line changes
    nothing, and the other lines run. The end of the block, or `flush`, raises `RefusedLines` with the refused lines. A
    time `N` is the time at which `update` was called.
    """

    def __init__(self, path: FilePath, *, collect: bool = False, now: Optional[Time] = None,
                 busy_timeout: Optional[float] = None, sync: Optional[bool] = None):
        self.path = os.fsdecode(path)
        self.now = None if now is None else seconds_of(now)
        self._way: _Way = _AtOnce(self.path, self.now, busy_timeout, sync)
        if collect:
            self._way = Collected(self.path, self.now, busy_timeout, sync)

    @property
    def refused(self) -> List[RefusedLine]:
        """The refused lines that no exception has shown yet; only with `collect=True` there are any."""
        return self._way.refused

    def open(self) -> Database:
        """Begins a block that `close` ends, for a program that cannot use `with`. Returns this object."""
        self._way.begin()
        return self

    def close(self) -> None:
        """Ends a block, as the end of a `with` does: closes the file, or runs the waiting changes.

        # Errors
        Those of `flush`.
        """
        self._way.end(True)

    def __enter__(self) -> Database:
        return self.open()

    def __exit__(self, kind: Optional[Type[BaseException]], error: Optional[BaseException],
                 trace: Optional[TracebackType]) -> None:
        self._way.end(kind is None)

    # ---- Changes

    def create(self, *definitions: Words, step: Optional[Span] = None, start: Optional[Time] = None,
               journal: Optional[int] = None, overwrite: bool = False, exist_ok: bool = False) -> None:
        """Creates a database, as `rrdi.create`.

        With `collect=True`, looks for a file at once, and again when the waiting changes run. If another program has
        made the file in between, `flush` raises `Exists`, or with `exist_ok` runs the other changes.
        """
        words = creation(definitions, step, start, journal, overwrite, exist_ok)
        self._way.create(words, overwrite, exist_ok)

    def update(self, *samples: Sample, template: Optional[str] = None) -> None:
        """Adds samples, as `rrdi.update`: all samples of a call or none."""
        if template is None and self._way.add(samples):
            return
        words = sample_words(samples, self.path, self._way.time_of_samples(), template)
        self._way.change(["update", *words])

    def update_many(self, samples: Iterable[Sample]) -> int:
        """Adds samples one after the other: each is a change of its own, which `revert` undoes alone. Returns their number.

        # Errors
        Those of `update`, for the first sample that is refused. The samples before it are in the file; `stored` of the
        exception is their number.
        """
        if is_table(samples):
            raise no_sample(samples)
        given, stored = tuple(samples), 0
        while stored < len(given):
            more = self._way.add_many(given, stored)
            if not more:
                try:
                    self.update(given[stored])
                except Exception as error:  # a sample of a wrong type, too
                    setattr(error, "stored", stored)
                    raise
            stored += more or 1
        return stored

    def tune(self, *words: Words) -> None:
        """Changes settings, or adds or removes an archive, as `rrdi.tune`."""
        self._way.change(["tune", *flat(words)])

    def resize(self, *words: Words) -> None:
        """Gives an archive more or fewer rows, as `rrdi.resize`."""
        self._way.change(["resize", *flat(words)])

    def revert(self) -> None:
        """Undoes the newest change, as `rrdi.revert`; an `update` with many samples is one change."""
        self._way.change(["revert"])

    def batch(self, lines: Lines) -> Batch:
        """Runs lines, as `rrdi.batch`: writes the file once. With `collect=True` the waiting changes run before."""
        return self._way.batch(lines)

    def flush(self) -> None:
        """Runs the waiting changes.

        # Errors
        - `RefusedLines` if the database refused lines, now or since the last time. The other lines are in the file.
        - another `Error` if nothing could be changed; the changes still wait.
        """
        self._way.flush()

    # ---- Queries

    def first(self, rraindex: Optional[int] = None) -> int:
        """Returns the time of the oldest row of an archive, as `rrdi.first`."""
        return int(self._way.ask(["first", *options(rraindex=rraindex)]))

    def last(self) -> int:
        """Returns the time of the last sample, as `rrdi.last`."""
        return int(self._way.ask(["last"]))

    @overload
    def info(self) -> Info[float]: ...

    @overload
    def info(self, *, values: Type[Value]) -> Info[Value]: ...

    def info(self, *, values: type = float) -> object:
        """Returns the settings, as `rrdi.info`."""
        return info_of(self._way.ask(["info"]), self.path, values)

    @overload
    def lastupdate(self, *, tz: Optional[datetime.tzinfo] = ...) -> LastUpdate[float]: ...

    @overload
    def lastupdate(self, *, values: Type[Value], tz: Optional[datetime.tzinfo] = ...) -> LastUpdate[Value]: ...

    def lastupdate(self, *, values: type = float, tz: Optional[datetime.tzinfo] = None) -> object:
        """Returns the last raw values, as `rrdi.lastupdate`."""
        return last_update(self._way.ask(["lastupdate"]), values, tz)

    @overload
    def fetch(self, function: Words, *words: Words, resolution: Optional[Span] = ..., start: Optional[Time] = ...,
              end: Optional[Time] = ...) -> Table[float]: ...

    @overload
    def fetch(self, function: Words, *words: Words, values: Type[Value], resolution: Optional[Span] = ...,
              start: Optional[Time] = ..., end: Optional[Time] = ...) -> Table[Value]: ...

    def fetch(self, function: Words, *words: Words, values: type = float, resolution: Optional[Span] = None,
              start: Optional[Time] = None, end: Optional[Time] = None) -> object:
        """Returns rows of one archive, as `rrdi.fetch`."""
        if values is float and not words:
            found = self._way.rows(Asked(function, resolution, start, end))
            if found is not None:
                return found
        asked = fetch_words(function, words, resolution, start, end)
        return fetched(self._way.ask, asked, moment(self.now), values)
