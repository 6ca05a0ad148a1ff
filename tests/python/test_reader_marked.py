# SPDX-License-Identifier: MIT OR Apache-2.0
"""Tests of the reader with files whose change was broken off, whole and forged ones. `support/marks.py` writes the bytes, as
docs/file-format.md describes them."""
from __future__ import annotations

import fcntl
import io
import os
import random
import re
import tempfile
import unittest
from pathlib import Path
from typing import List
from unittest import mock

import graphite_doubles as graphite
from cases import DataCase, child_status, counted_reads, sleeping_child
from support import marks
from support.marks import PAGE, number
from rrdi import errors, locks, reader
from rrdi.locks import SHARED, locked
from rrdi.reader.files import opened, patience, read_bytes
from rrdi.reader.selected import OpenFile
from rrdi.reader.stored import read_at

OLD = graphite.file_bytes(130, archives=[(1, 400, {130: [2.5], 20: [1.5]})])  # over a page
NEW = graphite.file_bytes(140, archives=[(1, 400, {140: [9.5], 130: [2.5]})])
SMALL = graphite.file_bytes(130)
FULL = graphite.file_bytes(130, archives=[(1, 246, {130: [2.5]})])  # it ends with a page
NOTES = b"RRDCached notes of a user\n" * 40
# A log at byte 32 that says of a database of 20 bytes how it began, and then another byte 19.
WRITTEN = bytes.fromhex("""
    0000000000000020 0000000000000020 0000000000000020 0000000000000001 0000000000000014 db370110b9a57a13
    0000000000000000 0000000000000010 52524449 000200000000000000000001
    0000000000000070 0000000000000020 0000000000000011 0000000000000001 0000000000000014 998c989becdef643
    0000000000000013 0000000000000001 07""")


def flipped(data: bytes, at: int) -> bytes:
    return data[:at] + bytes([data[at] ^ 1]) + data[at + 1:]


def runs(data: bytes, begin: int) -> List[marks.Piece]:
    """The bytes from a position on that are not zero, as pieces."""
    return [(begin + found.start(), found.group()) for found in re.finditer(rb"[^\0]+", data[begin:])]


class Marked(DataCase):
    def setUp(self) -> None:
        super().setUp()
        self.path = self.folder / "f.rrdi"

    def check(self, data: bytes, wanted: bytes) -> None:
        """A file stands for these bytes; those of no database are `file: not ours`."""
        self.path.write_bytes(data)
        self.assertEqual(reader.settled(data), wanted)
        if wanted == data:
            self.refused(data)
            return
        whole = reader.read(wanted)
        self.assertEqual(reader.read(data), whole)
        self.assertEqual(reader.read_file(str(self.path)), whole)
        with opened(str(self.path)) as stored, OpenFile(str(self.path)) as file:
            length = len(wanted)
            for begin, end in ((0, length), (0, 20), (3, 5), (15, 17), (PAGE - 3, PAGE + 3), (length - 9, length), (9, 2)):
                self.assertEqual(stored[begin:min(end, length)], wanted[begin:end], (begin, end))
            archive = file.outline().archives[0]
            rows = {row["time"]: row["cells"] for row in whole["archives"][0]["rows"]}
            self.assertEqual(file.rows(archive, -10**6, 10**6), rows)
            self.assertEqual(list(file.times_before()), [])

    def refused(self, data: bytes) -> None:
        self.path.write_bytes(data)
        with self.assertRaises(errors.Damaged) as of_bytes:
            reader.read(data)
        with self.assertRaises(errors.Damaged) as of_file:
            reader.read_file(str(self.path))
        self.assertEqual([str(of_bytes.exception), str(of_file.exception)], ["file: not ours"] * 2)

    def test_a_cut_mark(self) -> None:
        """The database with which the bytes begin, whatever follows it."""
        self.assertEqual(len(FULL) % PAGE, 0)
        for data in (SMALL, NEW, FULL):
            for rest in (b"", b"x", bytes(64), bytes(PAGE), marks.logged(data, OLD)[len(data):], SMALL):
                self.check(marks.cut(data) + rest, data)

    def test_bytes_by_hand(self) -> None:
        """The definitions byte by byte: the log mark, and two changes."""
        file = b"RRDLog\0\0" + number(32) + b"\1\2\3\4" + bytes(12) + WRITTEN
        first = b"RRDI\0\2" + bytes(9) + b"\1"
        for data, wanted in ((file, first + b"\1\2\3\7"), (file[:-1], first + b"\1\2\3\4")):
            stored = reader.Stored.of_bytes(data)
            self.assertEqual((stored[0:99], len(stored), stored.is_marked), (wanted, 20, True))
        self.assertEqual(reader.Stored.of_bytes(flipped(file, 111))[0:99], flipped(file, 111)[:99])
        self.assertEqual([marks.change(32, 32, 20, (0, first)), marks.change(32, 112, 20, (19, b"\7"))],
                         [WRITTEN[:80], WRITTEN[80:]])
        for data, total in ((b"", 0x9E3779B97F4A7C15), (b"RRDI", 0x9063A9EC83AE697C), (bytes(8), 0x0DD9089542A42EE9),
                            (bytes(7) + b"\1\2", 0x66B8CEE99AB16011)):
            self.assertEqual([marks.checksum(data), reader.checksum(data)], [total] * 2, data)

    def test_a_log(self) -> None:
        for old, new in ((OLD, NEW), (SMALL, NEW), (NEW, SMALL), (FULL, SMALL), (SMALL, FULL), (SMALL, SMALL)):
            self.check(marks.with_base(old), old)
            self.check(marks.with_base(old, len(old) + 99), old)
            for data in (marks.logged(old, new), marks.placed(old, new), marks.uncut(old, new)):
                self.check(data, new)
                self.check(data + b"more", new)
            for data in (marks.logged(old, new)[:-1], marks.uncommitted(old, new)):
                self.check(data, old)

    def test_several_changes(self) -> None:
        """The later one of two counts, and the later piece of two."""
        held = marks.with_change(marks.with_base(OLD), len(OLD), (16, b"x" * 100), (0, b""), (len(OLD), b""))
        held = marks.with_change(held, len(OLD), (0, b"y" * 50), (100, OLD[100:400]), (0, OLD[:150]),
                                 (120, OLD[120:130]))
        self.check(held, OLD)
        self.check(marks.with_change(held, len(NEW), (0, NEW)), NEW)
        for length in range(1, 18):  # the checksum takes eight bytes at a time
            self.check(marks.with_change(marks.with_base(OLD[:20] + b"x" * length + OLD[20 + length:]), len(OLD),
                                         (20, OLD[20:20 + length])), OLD)

    def test_a_database_that_grows_again(self) -> None:
        """What was behind its end counts as zeros, in the file and in the changes."""
        base = marks.with_base(b"\7" * len(NEW))
        for begun in (base, marks.with_change(base, len(NEW), (50, b"\7" * (len(NEW) - 50)))):
            for size in (100, PAGE - 100, PAGE, PAGE + 100):
                held = marks.with_change(begun, size, (0, NEW[:size]))
                self.check(marks.with_change(held, len(NEW), *runs(NEW, size)), NEW)

    def test_a_change_that_is_not_right(self) -> None:
        """It does not count, nor what follows it. Without a right change the file stands for itself."""
        base, whole = marks.with_base(OLD), marks.logged(OLD, OLD[:20] + b"x" + OLD[21:])
        tail = len(OLD)
        for at in range(0, len(base) - tail):
            self.refused(flipped(base, tail + at))
        for at in (*range(0, 90, 8), len(whole) - len(base) - 1):
            self.check(marks.with_change(flipped(whole, len(base) + at), len(NEW), (0, NEW)), OLD)
        for length in (tail, tail + 1, tail + marks.HEAD, len(base) - 1):
            self.refused(base[:length])
        for length in (len(base) + 1, len(base) + marks.HEAD, len(whole) - 1):
            self.check(whole[:length], OLD)

    def test_forged_changes(self) -> None:
        base = marks.with_base(OLD)
        tail, at = len(OLD), len(base)
        right = marks.change(tail, at, len(NEW), (0, NEW))
        self.check(base + right, NEW)
        body = right[marks.HEAD:]
        whole = [at, tail, len(body), 1, tail]
        for place, wrong in ((0, at + 1), (0, tail), (1, tail + 1), (1, at), (2, len(body) - 1), (2, len(body) + 1), (2, 2**64 - 1),
                             (3, 0), (3, 2), (3, 2**64 - 1), (4, tail - 1), (4, 15), (4, tail + 1), (4, 2**64 - 1)):
            front = [*whole[:place], wrong, *whole[place + 1:]]
            self.check(base + marks.spelled(b"".join(map(number, front)), body) + b"x", OLD)
        for size, piece in ((15, (0, b"")), (tail + 1, (0, NEW)), (tail, (1, NEW)), (tail, (tail + 1, b"")),
                            (16, (2, NEW[:15]))):
            self.check(marks.with_change(base, size, piece), OLD)
        for body in (bytes(15), number(0) + number(2) + b"x", number(0) + number(1) + b"xx",
                     number(0) + number(2**64 - 1) + b"x", number(2**64 - 1) + number(1) + b"x"):
            self.check(base + marks.spelled(b"".join(map(number, (at, tail, len(body), 1, tail))), body), OLD)

    def test_marks_that_lead_nowhere(self) -> None:
        for tail in (0, 15, len(SMALL) - 1, len(SMALL) + 1, len(SMALL) + 1000, 2**63, 2**64 - 1):
            held = marks.LOG + number(tail) + marks.with_base(SMALL)[16:]
            self.check(held, held)
        # What is read has to be a database.
        bad = SMALL[:5] + b"\x09" + SMALL[6:]
        for held in (marks.with_base(SMALL[:16]), marks.with_base(bad), marks.logged(SMALL, bad), marks.logged(SMALL, SMALL[:-1]),
                     marks.logged(OLD, SMALL + b"x"), marks.with_change(marks.begun(SMALL), len(SMALL))):
            self.check(held, held)

    def test_files_of_others(self) -> None:
        for data in (NOTES, b"RRDC", b"RRDc" + SMALL[4:], marks.LOG, marks.LOG + bytes(7), marks.LOG + b"\xff" * 8,
                     marks.LOG + bytes(90), marks.LOG[:7] + b"\1" + marks.with_base(SMALL)[8:], b"RRDLogs of a user\n" * 9,
                     b"RRDUndo\0" + bytes(90), b"RRDC" + bytes(300), marks.cut(OLD[:-1]),
                     marks.cut(SMALL[:5] + b"\x09" + SMALL[6:])):
            self.check(data, data)
            if data[4:6] != OLD[4:6] or data[:4] == b"RRDc":  # otherwise only its last byte is missing
                with self.assertRaises(errors.Damaged) as raised:
                    OpenFile(str(self.path)).outline()
                self.assertEqual(str(raised.exception), "file: not ours")

    def test_a_file_cut_within_its_cells(self) -> None:
        self.path.write_bytes(SMALL[:-20])
        with OpenFile(str(self.path)) as file, self.assertRaises(errors.Damaged) as raised:
            list(file.times_before())
        self.assertEqual(str(raised.exception), f"file: truncated at {len(SMALL) - 20}")

    def test_settings(self) -> None:
        self.path.write_bytes(NEW)
        with OpenFile(str(self.path)) as file:
            found = file.settings()
        whole = reader.read(NEW)
        self.assertEqual([archive.pop("row_count") for archive in found["archives"]], [400])
        self.assertEqual(found.pop("entries"), 0)
        whole.pop("journal")
        for archive in whole["archives"]:
            archive.pop("rows")
        self.assertEqual(found, whole)

    def test_only_parts_are_read(self) -> None:
        """Of a marked file the log is read once, and then what is asked for."""
        large = graphite.file_bytes(130, archives=[(1, 100_000, {130: [2.5]})])
        change = (16, large[16:PAGE])
        self.path.write_bytes(marks.with_change(marks.with_base(large), len(large), change) + bytes(300 * PAGE))
        with counted_reads() as read, OpenFile(str(self.path)) as file:
            file.rows(file.outline().archives[0], 130, 130)
        self.assertTrue(0 < read.count < 10 * PAGE, read.count)


class Slices(unittest.TestCase):
    """What a file stands for is taken like `bytes`, whatever was taken before."""

    def check(self, chance: random.Random, data: bytes, wanted: bytes) -> None:
        self.assertEqual(len(reader.Stored.of_bytes(data)), len(wanted))
        places = [0, 1, 15, 16, PAGE - 1, PAGE, PAGE + 1, 2 * PAGE, 3 * PAGE, len(wanted) - 1, len(wanted), len(wanted) + 9]
        for _ in range(20):
            stored = reader.Stored.of_bytes(data)
            for _ in range(6):
                begin, end = (chance.choice([*places, chance.randrange(len(wanted) + 1)]) for _ in range(2))
                self.assertEqual(stored[begin:end], wanted[begin:end], (begin, end))
                self.assertEqual(stored[begin:begin + 1], wanted[begin:begin + 1], begin)

    def test_bytes_without_a_mark(self) -> None:
        chance = random.Random(1)
        for size in (0, 1, 5, PAGE - 1, PAGE, PAGE + 1, 3 * PAGE + 7):
            data = bytes(chance.choices(range(256), k=size))
            self.check(chance, data, data)

    def test_random_logs(self) -> None:
        """Each change sets the length, where what was behind it is zeros, and then lays its pieces, one after the other."""
        for seed in range(100):
            chance = random.Random(seed)
            tail = chance.choice([20, PAGE - 1, PAGE, PAGE + 1, 3 * PAGE + 50])
            wanted = bytearray(b"RRDI" + bytes(chance.choices(range(1, 256), k=chance.choice([16, tail - 4, tail - 4]))))
            held = marks.with_base(bytes(wanted), tail)
            for _ in range(chance.randrange(8)):
                size = chance.choice([16, 17, tail, tail, min(PAGE, tail), min(PAGE + 1, tail), chance.randrange(16, tail + 1)])
                wanted[:] = wanted[:size].ljust(size, b"\0")
                pieces = []
                for _ in range(chance.randrange(4)):
                    at = chance.choice([4, size, min(PAGE - 3, size), min(PAGE, size), chance.randrange(size + 1)])
                    data = bytes(chance.choices(range(1, 256), k=chance.randrange(min(size - at, 2 * PAGE) + 1)))
                    pieces.append((at, data))
                    wanted[at:at + len(data)] = data
                held = marks.with_change(held, size, *pieces)
            self.check(chance, held + b"x" * chance.randrange(3), bytes(wanted))

    def test_reads_that_move_little(self) -> None:
        """The system may give fewer bytes than asked for; at the end of a file it gives none."""
        pread, data = os.pread, bytes(range(200))
        with tempfile.TemporaryFile() as file:
            file.write(data)
            file.flush()
            with mock.patch("os.pread", lambda file, count, at: pread(file, min(count, 3), at)):
                for at, count in ((0, 200), (0, 10), (5, 7), (190, 10), (190, 11), (190, 99), (200, 5), (300, 5), (0, 0), (7, 1)):
                    self.assertEqual(read_at(file.fileno(), at, count), data[at:at + count], (at, count))


class Locks(DataCase):
    def setUp(self) -> None:
        super().setUp()
        self.path = str(self.folder / "f.rrdi")
        Path(self.path).write_bytes(SMALL)

    def test_a_child_has_no_lock(self) -> None:
        """A child that was forked while a file was read does not keep others from changing it."""
        with OpenFile(self.path):
            children = [sleeping_child(self)]
        with open(self.path, "rb", buffering=0) as file, locked(file, SHARED, 0):
            children.append(sleeping_child(self))
        with opened(self.path):
            children.append(sleeping_child(self))

        def forking(file: int) -> bytes:
            children.append(sleeping_child(self))
            return SMALL
        with mock.patch("rrdi.reader.files.Stored.of_file", forking):
            reader.read_file(self.path)
        with mock.patch("rrdi.reader.selected.Stored.of_file", forking), mock.patch.object(OpenFile, "_read_front", side_effect=OSError):
            self.assertRaises(OSError, OpenFile, self.path)

        class Forking(io.FileIO):
            def readall(self) -> bytes:
                forking(self.fileno())
                return super().readall()

        def opened_for_a_fork(path: str, kind: int, seconds: float) -> io.FileIO:
            file = Forking(path)
            locks.lock(file, kind, seconds)
            return file
        with mock.patch("rrdi.reader.files.open_locked", opened_for_a_fork):
            self.assertEqual(read_bytes(self.path), SMALL)
        with open(self.path, "rb") as other:
            fcntl.flock(other, fcntl.LOCK_EX | fcntl.LOCK_NB)
        self.assertEqual([child_status(child) for child in children], [None] * 6)

    def test_a_file_that_is_replaced_meanwhile(self) -> None:
        """The lock of a file that has lost its name is worth nothing: the new file is read."""
        flock = locks.flock

        def replace(file: io.FileIO, kind: int) -> int:
            if os.path.exists(self.path + ".new"):
                os.rename(self.path + ".new", self.path)
            return flock(file, kind)
        Path(self.path + ".new").write_bytes(NEW)
        with mock.patch("rrdi.locks.flock", replace):
            self.assertEqual(reader.read_file(self.path)["last_time"], 140)

    def test_patience(self) -> None:
        """A reader waits for as long as RRDI_WAIT says, which is read in seconds and kept in milliseconds."""
        for wait, seconds in ((5_000, 5), (0, 0), (1_500, 1.5)):
            with mock.patch("rrdi.environment.WAIT", wait):
                self.assertEqual(patience(), seconds)

    def test_errors_of_locks(self) -> None:
        """Only a file system without locks is read without one."""
        import errno
        for number, is_read in ((errno.ENOSYS, True), (errno.EOPNOTSUPP, True), (errno.ENOLCK, False), (errno.EIO, False)):
            with mock.patch("rrdi.locks.flock", return_value=number):
                if is_read:
                    self.assertEqual(reader.read_file(self.path)["last_time"], 130)
                else:
                    with self.assertRaises(OSError) as raised:
                        reader.read_file(self.path)
                    self.assertEqual(raised.exception.errno, number)
