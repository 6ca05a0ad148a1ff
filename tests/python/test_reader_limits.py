# SPDX-License-Identifier: MIT OR Apache-2.0
"""Tests of the reader at each limit of docs/file-format.md, "Checks and faults": what just keeps a rule is read, and what just
breaks it is the fault of its piece."""
from __future__ import annotations

import struct
import unittest
from typing import List, Optional, Sequence, Tuple

import doubles  # noqa: F401 -- it puts the package on the path
from rrdi import errors, reader

MILLION = 10**6
TOP = (2**64 - 1) * MILLION
LATEST = 9_999_999_999
GAUGE, COUNTER, DERIVE, ABSOLUTE = range(4)
AVERAGE, LEAST, GREATEST, LAST = range(4)
UPDATE, TUNE, RESIZE, ADDITION, REMOVAL = (bytes([tag]) for tag in range(1, 6))
# Of the databases here: the last time, which is 5 seconds after the end of a step, and the 2nd of 3 steps of a row.
STEP, NOW = 10, 25
HEADERS = {1: ">IQHHHH", 2: ">IQIHHI"}


def amount(value: Optional[int]) -> bytes:
    return (-2**127 if value is None else value).to_bytes(16, "big", signed=True)


def settings(name: bytes = b"g", kind: int = GAUGE, heartbeat: int = 99, least: Optional[int] = None,
             most: Optional[int] = None, raw: Optional[int] = None, length: int = -1) -> bytes:
    begin = bytes([len(name) if length < 0 else length]) + name.ljust(19, b"\0")
    return begin + struct.pack(">BQ", kind, heartbeat) + amount(least) + amount(most) + amount(raw)


def known(count: int = 0, total: int = 0) -> bytes:
    """A partial step or a partial row: how much is known, and the sum or the summary."""
    return struct.pack(">I", count) + amount(total)


def archive(function: int = AVERAGE, steps: int = 3, xff: int = 500_000, rows: int = 2, partial: bytes = known(),
            sources: int = 1) -> bytes:
    return struct.pack(">BIII", function, steps, xff, rows) + partial * sources


def update(before: int = 15, raw: Optional[int] = None, step: bytes = known(), partial: bytes = known(), rows: int = 0) -> bytes:
    """An entry of an update of one source and one archive, and its old rows."""
    return UPDATE + struct.pack(">Q", before) + amount(raw) + step + partial + struct.pack(">I", rows) + amount(None) * rows


def removal(number: int, **changed: int) -> bytes:
    return REMOVAL + struct.pack(">H", number) + archive(**changed) + amount(None) * changed.get("rows", 2)  # type: ignore[arg-type]


class File:
    """The pieces of a database: by default one source, one archive of two rows, and no journal."""

    def __init__(self, sources: Sequence[bytes] = (), archives: Sequence[bytes] = (), cells: Sequence[bytes] = (),
                 entries: Sequence[bytes] = (), version: int = 2, step: int = STEP, last: int = NOW, depth: int = 16,
                 counts: Tuple[int, int, int] = (-1, -1, -1)):
        self.sources, self.archives = list(sources) or [settings() + known()], list(archives) or [archive()]
        self.cells, self.entries = list(cells) or [amount(None)] * 2, list(entries)
        there = len(self.sources), len(self.archives), len(self.entries)
        told = [own if own >= 0 else count for own, count in zip(counts, there)]
        self.front = b"RRDI" + struct.pack(">H", version) + struct.pack(HEADERS[version], step, last, depth, *told)

    @property
    def pieces(self) -> List[bytes]:
        return [self.front, *self.sources, *self.archives, *self.cells, *self.entries]

    @property
    def data(self) -> bytes:
        return b"".join(self.pieces)

    def bad(self, number: int, more: int = 0) -> str:
        """The fault of a piece by its number. The header's begins after the version, and that of a piece within another one
        `more` bytes later."""
        return f"file: bad block at {sum(map(len, self.pieces[:number])) + (6 if number == 0 else more)}"


TO_ROW = len(archive(partial=b""))  # the size of what is before a partial row in an archive
BAD = "file: bad entry 1"


class Limits(unittest.TestCase):
    def check(self, file: File, fault: str = "") -> None:
        if not fault:
            reader.read(file.data)
            return
        with self.assertRaises(errors.Damaged) as raised:
            reader.read(file.data)
        self.assertEqual(str(raised.exception), fault)
        if fault.startswith("file: bad "):
            kind = errors.BAD_ENTRY if "entry" in fault else errors.BAD_BLOCK
            self.assertEqual((raised.exception.fault, raised.exception.at), (kind, int(fault.rpartition(" ")[2])))

    def check_header(self, is_right: bool, file: File) -> None:
        self.check(file, "" if is_right else file.bad(0))

    def test_header(self) -> None:
        for step, is_right in ((1, True), (MILLION, True), (0, False), (MILLION + 1, False)):
            self.check_header(is_right, File(step=step))
        for last, is_right in ((LATEST, True), (LATEST + 1, False), (0, True)):
            self.check_header(is_right, File(last=last))
        for version, depth, is_right in ((1, 1_000, True), (1, 1_001, False), (1, 0, False), (2, 100_000, True), (2, 100_001, False)):
            self.check_header(is_right, File(version=version, depth=depth))
        names = [settings(b"g%d" % number) + known() for number in range(65)]
        for count, is_right in ((64, True), (65, False)):
            self.check_header(is_right, File(names[:count], [archive(sources=count)], [amount(None)] * 2 * count))
        for version, count, is_right in ((2, 128, True), (2, 129, False), (1, 64, True), (1, 65, False)):
            self.check_header(is_right, File(archives=[archive()] * count, cells=[amount(None)] * 2 * count, version=version))
        for counts in ((0, 1, 0), (1, 0, 0), (1, 1, 17)):
            self.check_header(False, File(counts=counts))
        self.check(File(entries=[update()], depth=1))
        self.check_header(False, File(entries=[update(), update(5)], depth=1))

    def test_sources(self) -> None:
        right = [settings(b"x" * 19), settings(b"_9aZ"), settings(kind=ABSOLUTE), settings(heartbeat=1), settings(heartbeat=LATEST),
                 settings(least=-TOP, most=TOP), settings(least=5, most=5), settings(least=TOP), settings(most=-TOP)]
        wrong = [settings(b""), settings(b"x" * 19, length=20), settings(b"a-b"), settings(b"a\0b", length=1), settings(kind=4),
                 settings(heartbeat=0), settings(heartbeat=LATEST + 1), settings(least=-TOP - 1), settings(most=TOP + 1),
                 settings(least=6, most=5), settings(least=TOP + 1), settings(most=-TOP - 1)]
        for kind, least, most in ((GAUGE, 1 - 10**24, 10**24 - 1), (ABSOLUTE, 1 - 10**24, 10**24 - 1), (COUNTER, 0, 2**64 - 1),
                                  (DERIVE, -2**63, 2**63 - 1)):
            right += [settings(kind=kind, raw=raw) for raw in (least, most)]
            wrong += [settings(kind=kind, raw=raw) for raw in (least - 1, most + 1)]
        for one in right:
            self.check(File([one + known()]))
        for one in wrong:
            file = File([one + known()])
            self.check(file, file.bad(1))
        twice = File([settings() + known(), settings() + known()], [archive(sources=2)], [amount(None)] * 4)
        self.check(twice, twice.bad(2))

    def test_partial_steps(self) -> None:
        for count, total, is_right in ((5, 5 * TOP, True), (5, -5 * TOP, True), (6, 0, False), (5, 5 * TOP + 1, False),
                                       (5, -5 * TOP - 1, False), (0, 1, False), (0, -1, False), (1, TOP, True), (1, TOP + 1, False)):
            file = File([settings() + known(count, total)])
            self.check(file, "" if is_right else file.bad(1))

    def test_archives(self) -> None:
        for one, is_right in ((archive(LAST), True), (archive(4), False), (archive(steps=0), False), (archive(steps=MILLION), True),
                              (archive(steps=MILLION + 1), False), (archive(xff=999_999), True), (archive(xff=MILLION), False),
                              (archive(rows=0), False)):
            file = File(archives=[one])
            self.check(file, "" if is_right else file.bad(2))
        # Of a file with many cells the fault is that they are missing.
        for sources, rows, version, is_right in ((1, MILLION, 2, True), (1, MILLION + 1, 2, False), (8, MILLION, 2, True),
                                                 (9, 888_889, 2, False), (4, MILLION, 1, True), (4, MILLION + 1, 1, False),
                                                 (5, 800_001, 1, False)):
            names = [settings(b"g%d" % number) + known() for number in range(sources)]
            file = File(names, [archive(rows=rows, sources=sources)], version=version)
            self.check(file, f"file: truncated at {len(file.data)}" if is_right else file.bad(1 + sources))
        self.check(File(archives=[archive(rows=1)], cells=[amount(None)]))
        most = [archive(rows=MILLION)] * 4
        file = File(archives=[*most, archive(rows=1)], version=1)
        self.check(file, file.bad(6))
        file = File(archives=most, version=1)
        self.check(file, f"file: truncated at {len(file.data)}")

    def test_partial_rows(self) -> None:
        for function, count, total, is_right in (
                (AVERAGE, 2, 2 * TOP, True), (AVERAGE, 2, -2 * TOP - 1, False), (AVERAGE, 3, 0, False), (AVERAGE, 1, TOP + 1, False),
                (AVERAGE, 0, 1, False), (GREATEST, 2, TOP, True), (GREATEST, 2, TOP + 1, False), (LEAST, 1, -TOP, True),
                (LEAST, 1, -TOP - 1, False), (LAST, 0, 1, False), (LAST, 3, 1, False)):
            file = File(archives=[archive(function, partial=known(count, total))])
            self.check(file, "" if is_right else file.bad(2, TO_ROW))

    def test_cells(self) -> None:
        for value, is_right in ((TOP, True), (-TOP, True), (None, True), (TOP + 1, False), (-TOP - 1, False)):
            file = File(cells=[amount(0), amount(value)])
            self.check(file, "" if is_right else file.bad(4))

    def check_entry(self, is_right: bool, entry: bytes, file: Optional[File] = None, version: int = 2) -> None:
        of = file or File()
        self.check(File(of.sources, of.archives, of.cells, [entry], version), "" if is_right else BAD)

    def test_tags(self) -> None:
        for tag in (0, 6, 255):
            self.check_entry(False, bytes([tag]))
        two = File(archives=[archive()] * 2, cells=[amount(None)] * 4)
        for version, is_right in ((2, True), (1, False)):
            self.check_entry(is_right, ADDITION, two, version)
            self.check_entry(is_right, removal(0), None, version)

    def test_updates(self) -> None:
        steps_of_one = File(archives=[archive(steps=1)])
        for before, rows, is_right in ((24, 0, True), (25, 0, False), (26, 0, False), (24, 1, False), (19, 1, True), (19, 0, False),
                                       (19, 2, False), (9, 2, True), (0, 2, True), (0, 3, False)):
            self.check_entry(is_right, update(before, rows=rows), steps_of_one)
        # At the entry's last time.
        for entry, is_right in ((update(17, step=known(7, 7 * TOP)), True), (update(17, step=known(8)), False),
                                (update(17, step=known(7, 7 * TOP + 1)), False), (update(17, step=known(0, 1)), False),
                                (update(17, partial=known(1, TOP)), True), (update(17, partial=known(2)), False),
                                (update(17, partial=known(1, TOP + 1)), False), (update(17, raw=10**24 - 1), True),
                                (update(17, raw=10**24), False), (update(17, raw=-10**24), False)):
            self.check_entry(is_right, entry)
        # The second entry is before the first.
        self.check(File(entries=[update(17), update(16)]))
        self.check(File(entries=[update(17), update(17)]), "file: bad entry 2")

    def test_tunes(self) -> None:
        names = [b"g%d" % number for number in range(6)]
        six = File([settings(name) + known() for name in names], [archive(sources=6)], [amount(None)] * 12)

        def tune(changed: Sequence[Tuple[int, bytes]]) -> bytes:
            return TUNE + struct.pack(">H", len(changed)) + b"".join(struct.pack(">H", number) + one for number, one in changed)
        same = [(number, settings(name)) for number, name in enumerate(names)]
        tried: List[Tuple[Sequence[Tuple[int, bytes]], bool]] = [
            (same[:5], True), (same, False), ([], False), (same[5:], True), ([(6, settings(b"x"))], False), ([same[1], same[0]], False),
            ([same[1], same[1]], False), ([same[0], same[2], same[1]], False), ([same[0], same[2], same[3]], True), ([(5, settings(names[0]))], False), ([(0, settings(names[1])), (1, settings(names[0]))], True),
            ([(0, settings(heartbeat=0))], False), ([(0, settings(kind=COUNTER, raw=-1))], False)]
        for changed, is_right in tried:
            self.check_entry(is_right, tune(changed), six)

    def test_resizes(self) -> None:
        def resize(number: int, rows: int, there: int) -> bytes:
            return RESIZE + struct.pack(">HI", number, rows) + amount(None) * there
        for number, rows, is_right in ((0, 3, True), (0, 1, True), (1, 3, False), (0, 2, False), (0, 0, False), (0, MILLION + 1, False)):
            self.check_entry(is_right, resize(number, rows, rows if is_right else 0))
        for version in (2, 1):
            file = File(entries=[resize(0, MILLION, 1)], version=version)
            self.check(file, f"file: truncated at {len(file.data)}")

    def test_cells_before_a_change(self) -> None:
        """There were at most as many cells as there may be: one more is the fault of the entry, before its rows are missing."""
        for sources, version, rows, is_right in ((8, 2, MILLION - 2, True), (8, 2, MILLION - 1, False), (4, 1, MILLION - 2, True),
                                                 (4, 1, MILLION - 1, False)):
            names = [settings(b"g%d" % number) + known() for number in range(sources)]
            there = [archive(sources=sources)] * 2
            file = File(names, there, [amount(None)] * 4 * sources, [RESIZE + struct.pack(">HI", 1, rows)], version)
            self.check(file, f"file: truncated at {len(file.data)}" if is_right else BAD)
        removed = archive(rows=MILLION - 2, sources=8), archive(rows=MILLION - 1, sources=8)
        names = [settings(b"g%d" % number) + known() for number in range(8)]
        for one, is_right in zip(removed, (True, False)):
            file = File(names, [archive(sources=8)], [amount(None)] * 16, [REMOVAL + struct.pack(">H", 1) + one])
            self.check(file, f"file: truncated at {len(file.data)}" if is_right else BAD)

    def test_archives_before_a_change(self) -> None:
        for count, is_right in ((1, False), (2, True)):
            self.check_entry(is_right, ADDITION, File(archives=[archive()] * count, cells=[amount(None)] * 2 * count))
        for number, is_right in ((0, True), (1, True), (2, False)):
            self.check_entry(is_right, removal(number))
        for count, is_right in ((127, True), (128, False)):
            self.check_entry(is_right, removal(0), File(archives=[archive()] * count, cells=[amount(None)] * 2 * count))
        for changed, is_right in (({"xff": 999_999}, True), ({"xff": MILLION}, False), ({"steps": 0}, False), ({"rows": 0}, False),
                                  ({"function": 4}, False)):
            self.check_entry(is_right, removal(0, **changed))
        for partial, is_right in ((known(2, 2 * TOP), True), (known(3), False), (known(0, 1), False), (known(2, 2 * TOP + 1), False)):
            self.check_entry(is_right, REMOVAL + struct.pack(">H", 0) + archive(partial=partial) + amount(None) * 2)


class Contents(unittest.TestCase):
    """What a file with two archives has: rows of 30 seconds, two of them, and four rows of one step."""

    ARCHIVES = [archive(AVERAGE, partial=known(2, 7)), archive(LAST, 1, rows=4)]
    # In the first archive the row with the number 0 ends at 0. In the second one the rows lie by their numbers, from -1 on.
    CELLS = [amount(value) for value in (70, None, 40, 50, 60, 30)]

    def read(self, *entries: bytes, source: bytes = settings() + known(5, 11)) -> reader.Parts:
        return reader.read(File([source], self.ARCHIVES, self.CELLS, entries).data)

    def test_rows(self) -> None:
        found = self.read()
        self.assertEqual([one["rows"] for one in found["archives"]],
                         [[{"time": -30, "cells": [None]}, {"time": 0, "cells": [70]}],
                          [{"time": time, "cells": [cell]} for time, cell in ((-10, 30), (0, 40), (10, 50), (20, 60))]])
        self.assertEqual([one["preparations"] for one in found["archives"]],
                         [[{"known_steps": 2, "value": 7}], [{"known_steps": 0, "value": 0}]])
        self.assertEqual([(one["known_seconds"], one["sum"]) for one in found["sources"]], [(5, 11)])
        self.assertNotIn("entries", found)

    def test_raw_values(self) -> None:
        for kind, raw, text in ((COUNTER, 7, "7"), (DERIVE, -7, "-7"), (GAUGE, 7, "0.000007"), (ABSOLUTE, -7, "-0.000007")):
            source, = self.read(source=settings(kind=kind, raw=raw) + known())["sources"]
            self.assertEqual((source["last_raw"], str(source["last_raw"])), (raw, text))

    def test_updates(self) -> None:
        """Two of them: the second one is older, and its rows are those that the first one's time says."""
        first = UPDATE + struct.pack(">Q", 15) + amount(8) + known(4, 9)
        first += known(1, 3) + struct.pack(">I", 0) + known() + struct.pack(">I", 1) + amount(77)
        second = UPDATE + struct.pack(">Q", 3) + amount(None) + known(2, -1)
        second += known() + struct.pack(">I", 0) + known() + struct.pack(">I", 1) + amount(None)
        unknown = {"known_steps": 0, "value": 0}
        self.assertEqual(self.read(first, second)["journal"], [
            {"change": "update", "last_time": 15, "sources": [{"last_raw": 8, "known_seconds": 4, "sum": 9}],
             "archives": [{"preparations": [{"known_steps": 1, "value": 3}], "rows": []},
                          {"preparations": [unknown], "rows": [{"time": -20, "cells": [77]}]}]},
            {"change": "update", "last_time": 3, "sources": [{"last_raw": None, "known_seconds": 2, "sum": -1}],
             "archives": [{"preparations": [unknown], "rows": []},
                          {"preparations": [unknown], "rows": [{"time": -30, "cells": [None]}]}]}])

    def test_an_update_of_two_sources(self) -> None:
        two = [settings(b"g") + known(), settings(b"h") + known()]
        entry = UPDATE + struct.pack(">Q", 15) + amount(1) + known(1, 2) + amount(3) + known(4, 5)
        entry += known(1, 6) + known(0, 0) + struct.pack(">I", 0)
        change, = reader.read(File(two, [archive(sources=2)], [amount(None)] * 4, [entry]).data)["journal"]
        self.assertEqual(change["sources"], [{"last_raw": 1, "known_seconds": 1, "sum": 2},
                                             {"last_raw": 3, "known_seconds": 4, "sum": 5}])
        self.assertEqual(change["archives"][0]["preparations"], [{"known_steps": 1, "value": 6}, {"known_steps": 0, "value": 0}])

    def test_a_tune(self) -> None:
        """An older entry is checked against the settings before the change: here those of a COUNTER."""
        tune = TUNE + struct.pack(">HH", 1, 0) + settings(b"old", COUNTER, 7, 1, 2, 3)
        older = UPDATE + struct.pack(">Q", 24) + amount(2**64 - 1) + known() + (known() + struct.pack(">I", 0)) * 2
        found = self.read(tune, older)["journal"]
        self.assertEqual(found[0], {"change": "tune", "sources": [{"number": 0, "name": "old", "type": "COUNTER", "heartbeat": 7,
                                                                   "min": 1, "max": 2, "last_raw": 3}]})
        self.assertEqual(found[1]["sources"][0]["last_raw"], 2**64 - 1)
        with self.assertRaisesRegex(errors.Damaged, "bad entry 1"):
            self.read(older.replace(amount(2**64 - 1), amount(10**24)))

    def test_an_addition(self) -> None:
        """Before it there was one archive less, and its rows do not count."""
        older = UPDATE + struct.pack(">Q", 24) + amount(None) + known() + known() + struct.pack(">I", 0)
        found = self.read(ADDITION, older)["journal"]
        self.assertEqual((found[0], len(found[1]["archives"])), ({"change": "addition"}, 1))
        with self.assertRaisesRegex(errors.Damaged, "bad entry 2"):
            self.read(ADDITION, RESIZE + struct.pack(">HI", 1, 1))
        names = [settings(b"g%d" % number) + known() for number in range(8)]
        there = [archive(sources=8), archive(LAST, 1, rows=1, sources=8)]
        file = File(names, there, [amount(None)] * 24, [ADDITION, RESIZE + struct.pack(">HI", 0, MILLION)])
        with self.assertRaisesRegex(errors.Damaged, f"truncated at {len(file.data)}"):
            reader.read(file.data)

    def test_a_removal(self) -> None:
        """Before it there was one archive more, with its rows at the time of the change."""
        rows = b"".join(map(amount, (1, None, 3)))
        entry = REMOVAL + struct.pack(">H", 1) + archive(GREATEST, 2, 250_000, 3, known(0, 0)) + rows
        older = RESIZE + struct.pack(">HI", 1, 1) + amount(5)
        found = self.read(entry, older)["journal"]
        self.assertEqual(found, [
            {"change": "removal", "archive": 1, "function": "MAX", "steps": 2, "xff": 250_000,
             "preparations": [{"known_steps": 0, "value": 0}],
             "rows": [{"time": time, "cells": [cell]} for time, cell in ((-20, 1), (0, None), (20, 3))]},
            {"change": "resize", "archive": 1, "rows": [{"time": 20, "cells": [5]}]}])
        with self.assertRaisesRegex(errors.Damaged, "bad entry 2"):
            self.read(entry, RESIZE + struct.pack(">HI", 1, 3) + rows)
        with self.assertRaisesRegex(errors.Damaged, "truncated"):
            self.read(entry, RESIZE + struct.pack(">HI", 2, 1))


if __name__ == "__main__":
    unittest.main()
