# SPDX-License-Identifier: MIT OR Apache-2.0
"""Reads parts of a database's file: its settings, some rows of one archive, and the times of the journal's updates.

The file is open and locked (shared) until `close`. If a change of the file was broken off, the parts are those of the
database that the next command of rrdi would find.
"""
from __future__ import annotations

import struct
from typing import Dict, Iterator, List, NamedTuple, Optional, Tuple

from ..amounts import Millionths
from ..errors import Damaged
from ..locks import SHARED, close, open_locked, open_regular
from .files import patience
from .pieces import UNKNOWN, VERSIONS, Parts, Reader, not_ours, truncated
from .stored import MARK, Stored

VERSION_END = 6  # the bytes before the header
PARTIAL, CELL = 20, 16  # bytes of a piece
UPDATE = 1  # the tag of a journal entry

Cells = List[Optional[Millionths]]


class Front(NamedTuple):
    """The first numbers of a file. `last` is the time of the last sample, or the start."""

    step: int
    last: int
    depth: int
    sources: int
    archives: int
    entries: int


class StoredArchive(NamedTuple):
    """An archive: its settings, where its cells are in the file, and its unfinished row.

    `partial` has, for each source, the number of known steps, and their sum, minimum, maximum or last one.
    """

    function: str
    steps: int
    xff: int  # the share of steps that may be unknown, in millionths
    rows: int
    seconds: int  # of a row
    at: int
    partial: Tuple[Tuple[int, Millionths], ...]

    @property
    def retention(self) -> int:
        """The seconds that all rows cover."""
        return self.seconds * self.rows


class Outline(NamedTuple):
    """All pieces of a file before its first cell."""

    step: int
    last: int
    sources: Tuple[str, ...]
    steps: Tuple[Tuple[int, Millionths], ...]  # of each source the known seconds of the unfinished step, and their sum
    archives: Tuple[StoredArchive, ...]
    cells_end: int


class OpenFile:
    """A file that is read in parts. `is_held` says that the caller holds the lock already, and is the only one to change it.

    # Errors
    - `OSError` if the file can't be opened, locked or read.
    - `Damaged` if its first pieces are no database's. Only the parts that are read are checked.
    """

    def __init__(self, path: str, is_held: bool = False):
        self._opened = open_regular(path, patience()) if is_held else open_locked(path, SHARED, patience())
        try:
            self.file = self._opened.fileno()
            self._stored = Stored.of_file(self.file)
            self.front = self._read_front()
            self._outline: Optional[Outline] = None
        except BaseException:
            self.close()
            raise

    def close(self) -> None:
        close(self._opened)

    def __enter__(self) -> OpenFile:
        return self

    def __exit__(self, *_: object) -> None:
        self.close()

    # ---- Parts

    def outline(self) -> Outline:
        """Returns the settings, and what is unfinished."""
        if self._outline is None:
            self._outline = self._read_outline()
        return self._outline

    def settings(self) -> Parts:
        """Returns all pieces before the first cell, by their names. Each archive has its number of rows as `row_count`."""
        reader = Reader(self._stored)
        found = self._taken_outline(reader)
        for archive, count in zip(found["archives"], reader.row_counts):
            archive["row_count"] = count
        return found

    def rows(self, archive: StoredArchive, first: int, last: int) -> Dict[int, Cells]:
        """Returns the cells of the rows that end from `first` to `last`, by their times, as far as the archive has them."""
        seconds, count = archive.seconds, self.front.sources
        newest = self.front.last // seconds
        lowest, highest = max(-(-first // seconds), newest - archive.rows + 1), min(last // seconds, newest)
        found: Dict[int, Cells] = {}
        while lowest <= highest:
            slot = lowest % archive.rows
            length = min(highest - lowest + 1, archive.rows - slot)
            data = self._part(archive.at + slot * CELL * count, length * CELL * count)
            cells = list(_cells(data))
            for number in range(length):
                found[(lowest + number) * seconds] = cells[number * count:(number + 1) * count]
            lowest += length
        return found

    def times_before(self) -> Iterator[int]:
        """Yields the last time before each update of the journal, the newest first, up to an entry of another kind.
        Reads the entries as far as they are asked for, and none of their rows."""
        outline, count, at = self.outline(), self.front.sources, self.outline().cells_end
        self._check_end(at)
        for _ in range(self.front.entries):
            if self._part(at, 1)[0] != UPDATE:
                break
            before, = struct.unpack(">Q", self._part(at + 1, 8))
            at += 9 + 36 * count
            for _ in outline.archives:
                rows, = struct.unpack(">I", self._part(at + PARTIAL * count, 4))
                at += PARTIAL * count + 4 + CELL * count * rows
            self._check_end(at)
            yield before

    # ---- Bytes

    def _check_end(self, at: int) -> None:
        if at > len(self._stored):
            raise truncated(len(self._stored))

    def _part(self, at: int, length: int) -> bytes:
        data = self._stored[at:at + length]
        if len(data) < length:
            raise truncated(len(self._stored))
        return data

    def _taken_outline(self, reader: Reader) -> Parts:
        """Takes the pieces before the first cell; under a mark that no database has, the file is not one."""
        try:
            return reader.outline()
        except Damaged:
            if self._stored.is_marked:
                raise not_ours() from None
            raise

    def _read_front(self) -> Front:
        begin = self._stored[:VERSION_END]
        if begin[:4] == MARK and len(begin) == VERSION_END and begin[5] in VERSIONS:
            reader = Reader(self._stored)
            reader.at = VERSION_END
            return Front(*reader.take(VERSIONS[begin[5]][0]))
        self._taken_outline(Reader(self._stored))
        raise truncated(len(self._stored))

    def _read_outline(self) -> Outline:
        reader, front = Reader(self._stored), self.front
        found, archives = self._taken_outline(reader), []
        at = reader.at
        for archive, rows in zip(found["archives"], reader.row_counts):
            partial = tuple((part["known_steps"], part["value"]) for part in archive["preparations"])
            archives.append(StoredArchive(archive["function"], archive["steps"], int(archive["xff"]), rows,
                                    front.step * archive["steps"], at, partial))
            at += CELL * front.sources * rows
        return Outline(front.step, front.last, tuple(source["name"] for source in found["sources"]),
                       tuple((source["known_seconds"], source["sum"]) for source in found["sources"]), tuple(archives), at)


def _cells(data: bytes) -> Iterator[Optional[Millionths]]:
    for high, low in struct.iter_unpack(">qQ", data):
        value = high << 64 | low
        yield None if value == UNKNOWN else Millionths(value)
