# SPDX-License-Identifier: MIT OR Apache-2.0
"""Reads files of RRDtool that have the usual layout, that of 64-bit machines with little-endian numbers, without RRDtool.

What is read is what `rrdtool dump` prints: of each number eleven digits. Whatever else a file may have, such as formulas or
forecasts, RRDtool has to tell.
"""
from __future__ import annotations

import os
import struct
from array import array
from typing import Any, Callable, List, Optional, Tuple

from ..kinds import RRDTOOL_MARK
from ..limits import FUNCTIONS, TYPES
from ..locks import open_regular
from .dump import Refusal, RrdArchive, RrdFile, RrdSource, read_rrd

VERSIONS, FLOAT_COOKIE = (b"0003\0", b"0004\0", b"0005\0"), 8.642135e130
KINDS = (*TYPES, "DCOUNTER", "DDERIVE")
CELL = 8  # bytes

# A file has these records in this order: the head; the definition of each source, and of each archive; the last update; the
# unfinished step of each source; the unfinished row of each archive for each source; where each archive has its newest row.
HEAD, SOURCE, ARCHIVE = struct.Struct("<4s5s7xd3Q80x"), struct.Struct("<20s20sQ2d56x"), struct.Struct("<20s4x2Qd72x")
LAST, STEP, ROW, NEWEST = struct.Struct("<2q"), struct.Struct("<30s2xQd64x"), struct.Struct("<dQ64x"), struct.Struct("<Q")

Record = Tuple[Any, ...]


class OtherLayout(Exception):
    """The file has something that is not read here."""


def read_old(file: str, rrdtool: Callable[[], str], progress: Callable[[int], None] = lambda cells: None) -> RrdFile:
    """Reads a file of RRDtool. If RRDtool has to tell what it has, `rrdtool` returns the path of that program, and `progress`
    gets the number of cells from time to time.

    # Errors
    `Refusal` if the file can't be read, or changes meanwhile; those of `rrdtool`.
    """
    data = bytes_of(file)
    old = read_native(data)
    if old is None:
        return read_rrd(rrdtool(), file, progress)
    if bytes_of(file) != data:
        raise Refusal("the file changed while it was read")
    return old


def bytes_of(file: str) -> bytes:
    """Returns the bytes of a file of RRDtool; none of another file, if RRDtool has to say why it can't be read, or if RRDtool
    first has to ask its daemon for what that holds of the file."""
    if "RRDCACHED_ADDRESS" in os.environ:
        return b""
    try:
        with open_regular(file) as opened:
            first = opened.read(len(RRDTOOL_MARK))
            return first + opened.readall() if first == RRDTOOL_MARK else b""
    except OSError:
        return b""


def read_native(data: bytes) -> Optional[RrdFile]:
    """Returns what a file of these bytes has; None if RRDtool has to tell."""
    try:
        return Records(data).file()
    except (OtherLayout, struct.error):
        return None


def printed(number: float) -> float:
    """Returns a number in the digits that RRDtool prints."""
    return float(f"{number:.10e}")


def text_of(field: bytes) -> str:
    """Returns the text of a field, which a zero byte ends."""
    text, end, _ = field.partition(b"\0")
    if not end or not text.isascii() or text != text.strip():
        raise OtherLayout
    return text.decode()


class Records:
    """Takes the records of a file, one after the other. Each method raises `OtherLayout` or `struct.error` if there is
    something else."""

    def __init__(self, data: bytes):
        self.data, self.at = data, 0

    def take(self, record: struct.Struct) -> Record:
        self.at += record.size
        return record.unpack_from(self.data, self.at - record.size)

    def many(self, record: struct.Struct, count: int) -> List[Record]:
        if count > len(self.data) // record.size:
            raise OtherLayout
        return [self.take(record) for _ in range(count)]

    def file(self) -> RrdFile:
        mark, version, number, source_count, archive_count, step = self.take(HEAD)
        if mark != RRDTOOL_MARK or version not in VERSIONS or number != FLOAT_COOKIE:
            raise OtherLayout
        sources, archives = self.many(SOURCE, source_count), self.many(ARCHIVE, archive_count)
        (last, _), steps = self.take(LAST), self.many(STEP, source_count)
        rows = [self.many(ROW, source_count) for _ in archives]
        newest = [number for number, in self.many(NEWEST, archive_count)]
        found = [self.archive(number, *each) for number, each in enumerate(zip(archives, rows, newest))]
        if self.at != len(self.data) or last < 0:
            raise OtherLayout
        return RrdFile(step, last, [source_of(*each) for each in zip(range(source_count), sources, steps)], found)

    def archive(self, number: int, definition: Record, unfinished: List[Record], newest: int) -> RrdArchive:
        """Takes the cells of an archive: those of its newest row are before those of its oldest one."""
        name, count, steps, share = definition
        columns, function = len(unfinished), text_of(name)
        cells, end = array("d"), self.at + CELL * columns * count
        if function not in FUNCTIONS or not newest < count or not steps or end > len(self.data):
            raise OtherLayout
        cells.frombytes(self.data[self.at:end])
        self.at = end
        oldest = columns * (newest + 1)
        return RrdArchive(number, function, steps, printed(share), [printed(value) for value, _ in unfinished],
                          [unknown for _, unknown in unfinished],
                          array("d", map(printed, cells[oldest:] + cells[:oldest])), columns)


def source_of(column: int, definition: Record, unfinished: Record) -> RrdSource:
    name, kind, heartbeat, minimum, maximum = definition
    last_raw, unknown, total = unfinished
    found = RrdSource(column, text_of(name), text_of(kind), heartbeat, printed(minimum), printed(maximum),
                      text_of(last_raw) or "U", printed(total), unknown)
    if found.kind not in KINDS:
        raise OtherLayout
    return found
