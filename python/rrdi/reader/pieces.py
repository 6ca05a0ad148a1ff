# SPDX-License-Identifier: MIT OR Apache-2.0
"""The pieces of a file, in their order, as docs/file-format.md describes the bytes."""
from __future__ import annotations

import re
import struct
from typing import Any, Dict, List, Optional, Tuple, Union

from ..amounts import MILLION, Millionths
from ..errors import BAD_BLOCK, BAD_ENTRY, NOT_OURS, TRAILING, TRUNCATED, VERSION, Damaged
from ..limits import (FUNCTIONS, LATEST, LONGEST_STEP, MOST_ARCHIVES, MOST_CELLS, MOST_CHANGES, MOST_ROWS, MOST_SOURCES,
                      MOST_STEPS, NAME_OF_SOURCE, TYPES)
from .stored import Stored

Parts = Dict[str, Any]

NAME = re.compile(NAME_OF_SOURCE.encode())
TOP = (2**64 - 1) * MILLION  # the largest absolute value of a rate, a cell and a bound, in millionths
UNKNOWN = -(2**127)  # the number that represents an unknown cell or raw value, and no bound

# By version: the encoding of the header, and the maximum numbers of journal entries, archives and cells.
VERSIONS = {1: (">IQHHHH", 1_000, 64, 4_000_000), 2: (">IQIHHI", MOST_CHANGES, MOST_ARCHIVES, MOST_CELLS)}
SETTINGS = "20sBQ16s16s16s"


def is_name(field: bytes) -> bool:
    end = 1 + field[0]
    return end <= len(field) and NAME.fullmatch(field, 1, end) is not None and not any(field[end:])


def amount(field: bytes) -> Millionths:
    return Millionths.from_bytes(field, "big", signed=True)


def bound(field: bytes) -> Optional[Millionths]:
    return None if amount(field) == UNKNOWN else amount(field)


def not_ours() -> Damaged:
    return Damaged("file: not ours", None, NOT_OURS)


def truncated(at: int) -> Damaged:
    return Damaged(f"file: truncated at {at}", None, TRUNCATED, at)


class Reader:
    """Takes the pieces in their order, and checks each piece against the preceding pieces."""

    def __init__(self, data: Union[bytes, Stored]):
        self.data, self.at, self.piece_at, self.entry = data, 0, 0, 0

    def take(self, spelling: str) -> Tuple[Any, ...]:
        size = struct.calcsize(spelling)
        if self.at + size > len(self.data):
            raise truncated(len(self.data))
        self.piece_at, self.at = self.at, self.at + size
        return struct.unpack(spelling, self.data[self.piece_at:self.at])

    def check(self, *rules: bool) -> None:
        if all(rules):
            return
        if self.entry:
            raise Damaged(f"file: bad entry {self.entry}", None, BAD_ENTRY, self.entry)
        raise Damaged(f"file: bad block at {self.piece_at}", None, BAD_BLOCK, self.piece_at)

    def raw(self, kind: str, field: bytes) -> Optional[int]:
        """Checks and returns a raw value: for COUNTER and DERIVE in units, otherwise in millionths."""
        value = bound(field)
        if value is None:
            return None
        if kind in ("GAUGE", "ABSOLUTE"):
            self.check(abs(value) < 10**18 * MILLION)
            return value
        self.check(0 <= value < 2**64 if kind == "COUNTER" else -2**63 <= value < 2**63)
        return int(value)

    def settings(self, name: bytes, kind: int, heartbeat: int, least: bytes, greatest: bytes, raw: bytes) -> Parts:
        bounds = [value for value in (bound(least), bound(greatest)) if value is not None]
        self.check(is_name(name), kind < len(TYPES), 1 <= heartbeat <= LATEST)
        self.check(all(abs(value) <= TOP for value in bounds), bounds == sorted(bounds))
        return {"name": name[1:1 + name[0]].decode(), "type": TYPES[kind], "heartbeat": heartbeat,
                "min": bound(least), "max": bound(greatest), "last_raw": self.raw(TYPES[kind], raw)}

    def part(self, known: int, field: bytes, most: int, is_sum: bool) -> Millionths:
        """Checks and returns the summary of the known seconds of a step, or of the known steps of a row."""
        self.check(known <= most, abs(amount(field)) <= (TOP * known if is_sum else TOP))
        self.check(known > 0 or amount(field) == 0)
        return amount(field)

    def step(self, known: int, field: bytes, last: int) -> Parts:
        return {"known_seconds": known, "sum": self.part(known, field, last % self.step_length, True)}

    def preparations(self, archive: Parts, last: int) -> List[Parts]:
        most, is_sum, parts = last // self.step_length % archive["steps"], archive["function"] == "AVERAGE", []
        for _ in range(self.sources):
            known, field = self.take(">I16s")
            parts.append({"known_steps": known, "value": self.part(known, field, most, is_sum)})
        return parts

    def rows(self, count: int) -> List[List[Optional[Millionths]]]:
        """Reads rows in the order of the file. If the file ends within the rows, checks the complete cells first."""
        whole = min(count * self.sources, (len(self.data) - self.at) // 16)
        cells: List[Optional[Millionths]] = []
        for high, low in struct.iter_unpack(">qQ", self.data[self.at:self.at + whole * 16]):
            value = high << 64 | low
            if -TOP <= value <= TOP:
                cells.append(Millionths(value))
                continue
            self.piece_at = self.at + len(cells) * 16
            self.check(value == UNKNOWN)
            cells.append(None)
        self.at += whole * 16
        if whole < count * self.sources:
            self.take(">qQ")
        return [cells[at:at + self.sources] for at in range(0, whole, self.sources)]

    def head(self, number: int) -> Parts:
        """Reads an archive's settings and adds the archive at the given number."""
        function, steps, xff, rows = self.take(">BIII")
        self.check(function < len(FUNCTIONS), 1 <= steps <= MOST_STEPS, xff < MILLION, 1 <= rows <= MOST_ROWS)
        self.row_counts.insert(number, rows)
        self.check(self.sources * sum(self.row_counts) <= self.most_cells)
        return {"function": FUNCTIONS[function], "steps": steps, "xff": Millionths(xff)}

    def old_rows(self, archive: Parts, count: int) -> List[Parts]:
        """Reads all rows of an archive, oldest first, with their times."""
        length = self.step_length * archive["steps"]
        oldest = (self.last // length - count + 1) * length
        return [{"time": oldest + at * length, "cells": cells} for at, cells in enumerate(self.rows(count))]

    def outline(self) -> Parts:
        """Takes all pieces before the first cell: the settings, and what is unfinished."""
        if self.take("4s") != (b"RRDI",):
            raise not_ours()
        version, = self.take(">H")
        if version not in VERSIONS:
            raise Damaged("file: version", None, VERSION)
        header, most_changes, most_archives, self.most_cells = VERSIONS[version]
        self.step_length, last, depth, self.sources, archive_count, entries = self.take(header)
        self.check(1 <= self.step_length <= LONGEST_STEP, last <= LATEST, 1 <= depth <= most_changes)
        self.check(1 <= self.sources <= MOST_SOURCES, 1 <= archive_count <= most_archives, entries <= depth)
        sources: List[Parts] = []
        for _ in range(self.sources):
            *fields, known, total = self.take(">" + SETTINGS + "I16s")
            source = self.settings(*fields)
            self.check(all(source["name"] != other["name"] for other in sources))
            sources.append({**source, **self.step(known, total, last)})
        archives: List[Parts] = []
        self.row_counts: List[int] = []
        for _ in range(archive_count):
            archives.append(self.head(len(archives)))
            archives[-1]["preparations"] = self.preparations(archives[-1], last)
        return {"version": version, "step": self.step_length, "last_time": last, "journal_depth": depth,
                "entries": entries, "sources": sources, "archives": archives}

    def database(self) -> Parts:
        """Takes all pieces.

        # Errors
        `Damaged` with the first fault.
        """
        marked = self.data if isinstance(self.data, Stored) and self.data.is_marked else None
        try:
            found = self.pieces()
            if self.at < len(self.data) and not (marked and marked.is_cut):
                raise Damaged(f"file: trailing at {self.at}", None, TRAILING, self.at)
            return found
        except Damaged:
            if marked:  # the mark is not that of a database
                raise not_ours() from None
            raise

    def pieces(self) -> Parts:
        """Takes the pieces of a database, whatever follows them."""
        found = self.outline()
        version, last, entries = found["version"], found["last_time"], found.pop("entries")
        sources, archives = found["sources"], found["archives"]
        for archive, count in zip(archives, self.row_counts):
            slots, length = self.rows(count), self.step_length * archive["steps"]
            newest = last // length
            numbers = range(newest - count + 1, newest + 1)
            archive["rows"] = [{"time": number * length, "cells": slots[number % count]} for number in numbers]
        # An entry is checked against the times and settings after its change, and sets those before it for the older entry.
        journal: List[Parts] = []
        self.last, self.now, then = last, [dict(source) for source in sources], list(archives)
        changes = [self.update, self.tune, self.resize, self.addition, self.removal][:3 if version == 1 else 5]
        for self.entry in range(1, entries + 1):
            tag, = self.take("B")
            self.check(1 <= tag <= len(changes))
            journal.append(changes[tag - 1](then))
        return {**found, "journal": journal}

    def update(self, archives: List[Parts]) -> Parts:
        last, = self.take(">Q")
        self.check(last < self.last)
        sources, replaced = [], []
        for source in self.now:
            field, known, total = self.take(">16sI16s")
            sources.append({"last_raw": self.raw(source["type"], field), **self.step(known, total, last)})
        for archive, count in zip(archives, self.row_counts):
            preparations, length = self.preparations(archive, last), self.step_length * archive["steps"]
            finished, = self.take(">I")
            self.check(finished == min(count, self.last // length - last // length))
            oldest = (last // length - count + 1) * length
            rows = [{"time": oldest + number * length, "cells": cells}
                    for number, cells in enumerate(self.rows(finished))]
            replaced.append({"preparations": preparations, "rows": rows})
        self.last = last
        return {"change": "update", "last_time": last, "sources": sources, "archives": replaced}

    def tune(self, _archives: List[Parts]) -> Parts:
        count, = self.take(">H")
        self.check(1 <= count <= 5)
        sources: List[Parts] = []
        for _ in range(count):
            number, *fields = self.take(">H" + SETTINGS)
            self.check(number < self.sources, not sources or sources[-1]["number"] < number)
            sources.append({"number": number, **self.settings(*fields)})
            self.now[number] = sources[-1]
        self.check(len({source["name"] for source in self.now}) == self.sources)
        return {"change": "tune", "sources": sources}

    def resize(self, archives: List[Parts]) -> Parts:
        number, = self.take(">H")
        self.check(number < len(archives))
        count, = self.take(">I")
        self.check(1 <= count <= MOST_ROWS, count != self.row_counts[number])
        self.row_counts[number] = count
        self.check(self.sources * sum(self.row_counts) <= self.most_cells)
        return {"change": "resize", "archive": number, "rows": self.old_rows(archives[number], count)}

    def addition(self, archives: List[Parts]) -> Parts:
        self.check(len(archives) > 1)
        archives.pop()
        self.row_counts.pop()
        return {"change": "addition"}

    def removal(self, archives: List[Parts]) -> Parts:
        number, = self.take(">H")
        self.check(number <= len(archives), len(archives) < VERSIONS[2][2])
        archive = self.head(number)
        archives.insert(number, archive)
        preparations = self.preparations(archive, self.last)
        rows = self.old_rows(archive, self.row_counts[number])
        return {"change": "removal", "archive": number, **archive, "preparations": preparations, "rows": rows}
