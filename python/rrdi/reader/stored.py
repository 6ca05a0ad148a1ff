# SPDX-License-Identifier: MIT OR Apache-2.0
"""The bytes that a file stands for, also if a change of the file was broken off: those that the next command of rrdi would
find. docs/file-format.md, "A file that is being changed", has the rules."""
from __future__ import annotations

import os
import struct
from typing import Callable, Dict, Iterator, List, NamedTuple, Optional, Tuple

PAGE = 4_096
# Of the checksum.
SEED, FIRST_FACTOR, SECOND_FACTOR = 0x9E3779B97F4A7C15, 0xD6E8FEB86659FD93, 0xBF58476D1CE4E5B9
MARK, CUT_MARK, LOG_WORD = b"RRDI", b"RRDC", b"RRDLog\0\0"
LOG_MARK, HEAD, PIECE = struct.Struct(">8sQ"), struct.Struct(">6Q"), struct.Struct(">QQ")
LEAST = 16  # bytes of a database under a log mark

# Reads a number of bytes of a file from a position on; fewer at the end of the file.
Read = Callable[[int, int], bytes]


def checksum(data: bytes) -> int:
    """Returns the checksum of bytes. Zeros complete the last word of eight bytes."""
    count = (len(data) + 7) // 8
    total = SEED
    for word in struct.unpack(f">{count}Q", data.ljust(8 * count, b"\0")):
        total = (total ^ word) * FIRST_FACTOR % 2**64
        total = (total ^ total >> 32) * SECOND_FACTOR % 2**64
    return total


class LogChange(NamedTuple):
    """A change in a log: the length of the database after it, its new bytes with their positions, and where it ends."""

    size: int
    pieces: List[Tuple[int, bytes]]
    end: int


def read_change(read: Read, length: int, tail: int, at: int) -> Optional[LogChange]:
    """Returns the right change at `at` in a file of this length, whose log begins at `tail`; None if there is none."""
    head = read(at, HEAD.size) if at < length else b""
    if len(head) < HEAD.size:
        return None
    own, own_tail, count, number, size, total = HEAD.unpack(head)
    if (own, own_tail) != (at, tail) or count > length or not LEAST <= size <= tail:
        return None
    body = read(at + HEAD.size, count)
    if len(body) < count or total != checksum(head[:-8] + body):
        return None
    pieces, done = [], 0
    while done + PIECE.size <= count:
        start, more = PIECE.unpack_from(body, done)
        done += PIECE.size + more
        pieces.append((start, body[done - more:done]))
    if done != count or len(pieces) != number or any(start + len(data) > size for start, data in pieces):
        return None
    return LogChange(size, pieces, at + HEAD.size + count)


def in_pages(begin: int, end: int) -> Iterator[Tuple[int, int, int]]:
    """Yields the parts of the bytes between two positions that are in a page each: its number, and their positions."""
    while begin < end:
        last = min(end, (begin // PAGE + 1) * PAGE)
        yield begin // PAGE, begin, last
        begin = last


class Stored:
    """The bytes that a file stands for. They are read when they are asked for, and taken like those of `bytes`.

    The bytes of a file with a mark (`is_marked`) count only if they are a database: otherwise the file stands for itself,
    and is none. Under a cut mark (`is_cut`) other bytes may follow the database.
    """

    def __init__(self, read: Read, size: int):
        self._read, self._length = read, size
        self._own = size  # so many of the file's own bytes count
        self._pages: Dict[int, bytearray] = {}  # those of which a byte is another than the file's own
        self._window, self._window_at = read(0, PAGE), 0
        start = self._window[:LOG_MARK.size]
        self.is_cut = self.is_marked = start[:4] == CUT_MARK
        if self.is_cut:
            self._lay(0, MARK)
        elif start[:8] == LOG_WORD and len(start) == LOG_MARK.size:
            self._lay_log(LOG_MARK.unpack(start)[1], size)
        if self.is_marked:
            self._window = b""

    @classmethod
    def of_file(cls, file: int) -> Stored:
        """Returns the bytes that an open file stands for."""
        return cls(lambda at, count: read_at(file, at, count), os.fstat(file).st_size)

    @classmethod
    def of_bytes(cls, data: bytes) -> Stored:
        """Returns the bytes that the bytes of a file stand for."""
        return cls(lambda at, count: data[at:at + count], len(data))

    def _lay_log(self, tail: int, size: int) -> None:
        """Lays the changes of a log over the bytes of the file, up to the first change that is not right."""
        change = read_change(self._read, size, tail, tail)
        self.is_marked = change is not None
        while change is not None:
            self._end_at(change.size)
            for at, data in change.pieces:
                self._lay(at, data)
            change = read_change(self._read, size, tail, change.end)

    def _end_at(self, size: int) -> None:
        """Sets the length. The bytes behind it are zeros if it grows again."""
        self._own = min(self._own, size)
        if size < self._length:
            for number, page in self._pages.items():
                page[:] = page[:max(size - number * PAGE, 0)].ljust(PAGE, b"\0")
        self._length = size

    def _lay(self, at: int, data: bytes) -> None:
        """Lays bytes over those that are there."""
        for number, first, last in in_pages(at, at + len(data)):
            if number not in self._pages:
                self._pages[number] = bytearray(self._own_bytes(number * PAGE, (number + 1) * PAGE))
            self._pages[number][first % PAGE:first % PAGE + last - first] = data[first - at:last - at]

    def __len__(self) -> int:
        return self._length

    def __getitem__(self, part: slice) -> bytes:
        begin, end, _ = part.indices(self._length)
        at = begin - self._window_at
        if at >= 0 and end <= self._window_at + len(self._window):
            return self._window[at:max(end - self._window_at, 0)]
        if end - begin >= PAGE:
            return self._taken(begin, end)
        # The bytes of a page are put together once, however many pieces of it are taken.
        self._window, self._window_at = self._taken(begin, min(begin + PAGE, self._length)), begin
        return self._window[:max(end - begin, 0)]

    def _own_bytes(self, begin: int, end: int) -> bytes:
        """Returns the file's own bytes, with zeros in place of those that do not count."""
        return self._read(begin, max(min(end, self._own) - begin, 0)).ljust(end - begin, b"\0")

    def _taken(self, begin: int, end: int) -> bytes:
        """Returns bytes, with those of the changes in their places."""
        if not self.is_marked:
            return self._read(begin, end - begin)
        found = bytearray(self._own_bytes(begin, end))
        for number, first, last in in_pages(begin, end):
            if number in self._pages:
                found[first - begin:last - begin] = self._pages[number][first % PAGE:first % PAGE + last - first]
        return bytes(found)


def read_at(file: int, at: int, count: int) -> bytes:
    """Reads bytes of an open file from a position on, as many as there are.

    # Errors
    `OSError` if a read fails.
    """
    data = os.pread(file, count, at)
    while data and len(data) < count:
        more = os.pread(file, count - len(data), at + len(data))
        if not more:
            break
        data += more
    return data
