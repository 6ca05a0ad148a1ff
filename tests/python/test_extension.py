# SPDX-License-Identifier: MIT OR Apache-2.0
"""Tests of the extension `_rrdi`: what it gives the library, and what it makes of the answers; samples and rows in numbers,
beside those of Python; and memory and threads.

test_calls.py and test_kept.py run by it too."""
from __future__ import annotations

import contextlib
import ctypes
import gc
import os
import random
import sys
import time
import unittest
from decimal import Decimal
from fractions import Fraction
from pathlib import Path
from typing import Any, Callable, Iterator, List, Optional, Tuple
from unittest import mock

import test_library
from building import ByExtension, extension_path, stub_of, the_extension
from cases import DataCase, needs_library, new_folder, run_in_threads, use_library
from locking import c_library, put
from rrdi import by_ctypes, extension, fetching, library
from rrdi.calls import calls
from rrdi.errors import CANNOT_WRITE, NO_ROOM, REFUSED, BadSample, Error
from rrdi.fetching import Asked
from rrdi.kept_file import KeptFile
from rrdi.limits import LATEST
from rrdi.library import library_path
from rrdi.protocol import DONE, Answer, OpenedFile
from rrdi.results import Table
from rrdi.samples import sample_words, value_text
from rrdi.words import encoded

import rrdi

UNKNOWN, DECIMAL = 0, 2
MANY = 100_000
LOST = 300 * 16  # bytes: no block is so small


class _Value(ctypes.Structure):
    """`struct rrdi_value` of rrdi.h."""

    _fields_ = [("units", ctypes.c_uint64), ("millionths", ctypes.c_uint32), ("kind", ctypes.c_uint8),
                ("is_negative", ctypes.c_bool)]

    units: int
    millionths: int
    kind: int
    is_negative: bool


class _Rows(ctypes.Structure):
    """`struct rrdi_rows` of rrdi.h."""

    _fields_ = [(name, ctypes.c_uint64) for name in ("start", "step", "count", "sources")]


def text_of(value: _Value) -> str:
    """Returns a value as a sample in words has it."""
    if value.kind == UNKNOWN:
        return "U"
    fraction = f".{value.millionths:06}".rstrip("0") if value.kind == DECIMAL else ""
    return f"{'-' * value.is_negative}{value.units}{fraction}"


def lost_by(act: Callable[[], object]) -> int:
    """Returns how many bytes 300 calls lose, as malloc counts them: the least of three tries, since another thread may take some."""
    info, sizes = ctypes.CDLL(None).mallinfo2, []  # type: Any, List[int]
    info.restype = type("Numbers", (ctypes.Structure,), {"_fields_": [(name, ctypes.c_size_t) for name in "abcdefghij"]})
    for _ in range(4):
        for _ in range(300):
            act()
        gc.collect()
        sizes.append(info().e + info().h)  # hblkhd and uordblks
    return min(after - before for before, after in zip(sizes, sizes[1:]))


class Fast:
    """A library that keeps what it gets, in words and in numbers, and answers with these rows, or this answer."""

    def __init__(self) -> None:
        self.said: List[str] = []
        self.answer = DONE
        self.at_call: Callable[[], object] = lambda: None  # on an open file
        self.rows: Tuple[int, int, int, int] = (0, 10, 0, 1)
        self.values: List[_Value] = []
        self.library = c_library({
            "rrdi_run": self._nothing, "rrdi_batch": self._nothing, "rrdi_run_file": self._at_path,
            "rrdi_batch_file": self._at_path, "rrdi_open": self._open, "rrdi_close": self._close,
            "rrdi_run_open": self._on_open, "rrdi_batch_open": self._on_open, "rrdi_update_open": self._update,
            "rrdi_update_many": self._update_many, "rrdi_fetch_open": self._fetch})

    def _nothing(self, *words: int) -> None:
        pass

    def _at_path(self, *words: int) -> None:
        self.said.append(f"path {ctypes.string_at(words[2], words[3]).decode()}")
        put(words[-1], self.answer, words[7])

    def _open(self, *words: int) -> None:
        by_ctypes._File.from_address(words[4]).is_open = True
        put(words[-1], DONE, words[5])

    def _close(self, file: int) -> None:
        self.said.append("close")
        by_ctypes._File.from_address(file).is_open = False

    def _on_open(self, *words: int) -> None:
        self.at_call()
        given = ctypes.string_at(words[1], words[2]).decode()
        self.said.append(f"open {given} at {words[3]}")
        put(words[-1], DONE._replace(output=b"time: a b\n10: 1 2\n") if given == "lastupdate" else self.answer, words[4])

    def _update(self, file: int, time: int, values: int, count: int, output: int, room: int, answer: int) -> None:
        self.at_call()
        found = (_Value * count).from_address(values)
        self.said.append(f"numbers {time}:{':'.join(map(text_of, found))}")
        put(answer, self.answer, output)

    def _update_many(self, *words: int) -> None:
        file, times, values, count, sources, stored, output, room, answer = words
        found, when = (_Value * (count * sources)).from_address(values), (ctypes.c_uint64 * count).from_address(times)
        rows = (found[at * sources:(at + 1) * sources] for at in range(count))
        self.said.append(" ".join(["many", *(":".join([str(time), *map(text_of, row)]) for time, row in zip(when, rows))]))
        ctypes.c_size_t.from_address(stored).value = count
        put(answer, self.answer, output)

    def _fetch(self, *words: int) -> None:
        file, function, resolution, start, end, rows, values, room, output, _, answer = words
        self.said.append(f"fetch {function} {resolution} {start} {end}")
        found = _Rows.from_address(rows)
        found.start, found.step, found.count, found.sources = self.rows
        if len(self.values) > room:
            put(answer, Answer(NO_ROOM, 0, 0, b""), output)
            return
        if self.values:
            ctypes.memmove(values, (_Value * len(self.values))(*self.values), len(self.values) * ctypes.sizeof(_Value))
        put(answer, self.answer, output)


class FastCase(ByExtension, DataCase):
    def setUp(self) -> None:
        super().setUp()
        self.path = self.folder / "f.rrdi"
        self.path.write_bytes(b"a database")
        self.fast = Fast()
        use_library(self, self.fast.library)
        assert self.fast.library.update_file is not None
        self.update_file = self.fast.library.update_file

    def opened(self) -> OpenedFile:
        _, opened = self.fast.library.open(os.fsencode(self.path), 0, False)
        assert opened is not None
        found = self.path.stat()
        opened.device, opened.inode = found.st_dev, found.st_ino
        return opened

    def said(self) -> List[str]:
        said, self.fast.said = self.fast.said, []
        return said


# ---- What both ways have


class Rooms(ByExtension, unittest.TestCase):
    test_words_of_a_call = test_library.Rooms.test_words_of_a_call
    test_answers = test_library.Rooms.test_answers
    test_a_batch_that_may_have_changed_the_file = test_library.Rooms.test_a_batch_that_may_have_changed_the_file

    def test_rooms_that_grow(self) -> None:
        long, data = b"o" * 65_537, b"f" * 200_000
        acts: List[Any] = [lambda of: of.run_file(b"f", b"info", 0, 0, False), lambda of: of.batch_file(b"f", b"info", 0, 0, False),
                           lambda of: of.run(b"f", b"info", 0), lambda of: of.batch(b"f", b"info", 0)]
        for act in acts:
            called = test_library.Called(long)
            self.assertEqual((act(called.library).output, len(called.given)), (long, 2))
        called = test_library.Called(long, data)
        answer = called.library.run(None, b"create", 0)
        self.assertEqual((answer.data, answer.output, len(called.given)), (data, long, 2))
        many = tuple(range(1, 20_001))
        self.assertEqual(test_library.Called(refused=many).library.batch_file(b"f", b"\n" * 19_999, 0, 0, False).refused, many)

    def test_more_refused_lines_than_there_are(self) -> None:
        answer = test_library.Called(refused=(1, 2, 3)).library.batch_file(b"f", b"1", 0, 0, False)
        self.assertEqual(answer.refused, (1,))

    def test_what_is_no_bytes(self) -> None:
        called = test_library.Called()
        for words in (("f", b"last", 0, 0, False), (b"f", "last", 0, 0, False), (b"f", b"last", "0", 0, False), (b"f", b"last")):
            self.assertRaises(TypeError, called.library.run_file, *words)
        self.assertRaises(TypeError, called.library.open, "f", 0, False)
        self.assertEqual(called.given, [])


class Opened(ByExtension, unittest.TestCase):
    opened: Any = test_library.Opened.opened
    test_rooms_that_grow = test_library.Opened.test_rooms_that_grow
    test_a_fault = test_library.Opened.test_a_fault
    test_what_nobody_uses_is_closed = test_library.Opened.test_what_nobody_uses_is_closed

    def test_words_of_a_call(self) -> None:
        called = test_library.Called()
        opened = self.opened(called)
        self.assertIs(opened.run(b"update\0" b"10:1", 2**40), DONE)
        called.output, called.refused = b"ERROR: bad value\n", (2,)
        answer = opened.batch(b"last\nupdate x", 7)
        self.assertEqual((answer.output, answer.refused, opened.path), (b"ERROR: bad value\n", (2,), b"f"))
        opened.close()
        del opened
        self.assertEqual(called.given, [("rrdi_run_open", 4711, b"update\0" b"10:1", 2**40),
                                        ("rrdi_batch_open", 4711, b"last\nupdate x", 7), ("rrdi_close", True, 4711)])

    def test_what_a_child_forgets_stays_open(self) -> None:
        called = test_library.Called()
        opened = self.opened(called)
        opened.forget()
        del opened
        self.assertEqual(called.given, [])


class Loading(ByExtension, unittest.TestCase):
    def test_what_is_no_library(self) -> None:
        found = the_extension()
        assert found is not None
        for path in ("/nowhere/librrdi.so.0", "libc.so.6"):
            with self.assertRaisesRegex(OSError, path):
                found.load(path, Answer, DONE, calls.wait)
        self.assertRaises(ValueError, found.load, "a\0b", Answer, DONE, calls.wait)

    def test_what_is_no_library_is_forgotten(self) -> None:
        found, done = the_extension(), object()
        assert found is not None
        used = sys.getrefcount(done)
        for _ in range(9):
            self.assertRaises(OSError, found.load, "libc.so.6", Answer, done, calls.wait)
        self.assertEqual(sys.getrefcount(done), used)

    def test_what_is_no_extension(self) -> None:
        path = new_folder(self) / extension.NAME
        self.assertIsNone(extension.loaded(str(path)))
        path.write_bytes(b"")
        self.assertIsNone(extension.loaded(str(path)))

    def test_an_extension_of_another_version(self) -> None:
        with mock.patch.object(extension, "__version__", "0.0.1"):
            self.assertIsNone(extension.loaded(str(extension_path())))

    def test_what_only_a_library_makes(self) -> None:
        called = test_library.Called()
        _, opened = called.library.open(b"f", 0, False)
        for made in (called.library, opened):
            self.assertRaises(TypeError, type(made))


# ---- Samples

BOUNDARIES = [sign * value for sign in (1, -1) for value in (
    0.0, 5e-324, 2.2250738585072014e-308, 1e-7, 4.9999e-7, 5e-7, 5.0000000001e-7, 1e-6, 1.5e-6, 2.5e-6, 0.9999995, 0.99999949, 1.0,
    1.0000005, 0.5, 1 / 3, 21.5, 2.0**32, 2.0**33, 2.0**52 + 0.5, 2.0**53 - 1, 2.0**53, 2.0**53 + 2, 999_999_999_999_999.9,
    999_999_999_999_999_872.0, 1e17, 1e18, 1.0000000000000002e18, 2.0**63, 2.0**64, 1e300, float("inf"))] + [float("nan")]
WHOLE_NUMBERS = [0, 1, -1, 2**31, 2**53 + 1, 10**18 - 1, 10**18, 2**63 - 1, 2**63, 2**64 - 1, 2**64, 10**30, -2**63, -2**63 - 1]


def any_float(chance: random.Random) -> float:
    """Returns a float of any size: of random bits, of few digits, or halfway between two millionths."""
    kind = chance.randrange(4)
    if kind == 0:
        return float.fromhex(f"{'+-'[chance.randrange(2)]}0x1.{chance.getrandbits(52):013x}p{chance.randrange(-1074, 1024)}")
    if kind == 1:
        return round(chance.uniform(-1e6, 1e6), chance.randrange(8))
    if kind == 2:
        return (2 * chance.randrange(-10**12, 10**12) + 1) / (1 << chance.randrange(1, 24))
    return chance.uniform(-1, 1) * float(10**chance.randrange(28)) / 10**8


class Samples(FastCase):
    """What the extension takes is what samples.py writes; all else is left to samples.py."""

    def check(self, *samples: object) -> bool:
        """Checks samples by path. Returns whether the extension has taken them."""
        answer = self.update_file(b"f", samples, 0, 0, False)
        said = self.said()
        if answer is None:
            self.assertEqual(said, [])
            return False
        self.assertEqual(said, ["path " + encoded(["update", *sample_words(samples)]).decode()])
        return True

    def test_numbers(self) -> None:
        chance, opened, taken = random.Random(1), self.opened(), 0
        numbers = [*BOUNDARIES, *WHOLE_NUMBERS, *(any_float(chance) for _ in range(MANY)),
                   *(chance.randrange(-2**66, 2**66) >> chance.randrange(66) for _ in range(MANY // 10))]
        for number in numbers:
            try:
                wanted = value_text(number)
            except ValueError:
                self.assertIsNone(opened.update(((10, number),), None), number)
                self.assertIsNone(self.update_file(b"f", ((10, number),), 0, 0, False), number)
                continue
            found = opened.update(((10, number),), None)
            if found is not None:
                taken += 1
                self.assertEqual(self.said(), [f"numbers 10:{wanted}"], repr(number))
                self.assertTrue(self.check((10, number)))
        self.assertGreater(taken, 0.7 * MANY)

    def test_numbers_that_python_writes(self) -> None:
        """Few good numbers are left to Python: from 10^18 on, where a float is good only if it is a whole number."""
        for number in (*BOUNDARIES, *WHOLE_NUMBERS):
            if abs(number) < 1e18 or number != number or (isinstance(number, int) and -2**63 <= number < 2**64):
                self.assertTrue(self.check((10, number)), number)

    def test_forms(self) -> None:
        forms: Any = ([(10, 1)], [[10, 1.5, None]], [(10, [1, 2])], [(10, (1, 2))], ["10:1"], ["10:1", (20, 2)], [("N", 1)],
                        [(10.9, 1)], [(0, 1)], [(LATEST, 1)], [(LATEST + 0.9, 1)], [(-0.0, 1)], [[(10, 1), (20, 2)]],
                        [[[(10, 1)], "20:1"], (30, 3)], ["--template=a:b", "10:1:2"], ["N:1"], ["10:\u00fc"], [(10, *range(64))])
        for samples in forms:
            self.assertTrue(self.check(*samples), samples)

    def test_what_is_left_to_python(self) -> None:
        class Number(float):
            pass
        itself: List[object] = []
        itself.append(itself)
        deep: object = (10, 1)
        for _ in range(10):
            deep = [deep]
        opened = self.opened()
        for sample in (itself, deep, (10, True), (True, 1), (10, Number(1)), (10, Decimal(1)), (10, Fraction(1)), (10, "1"), (10, [[1]]),
                       (10, {"a": 1}), (10, []), (10,), (), [], ("10", 1), ("n", 1), (-1, 1), (-0.1, 1), (LATEST + 1, 1), (LATEST + 1.0, 1),
                       (float("nan"), 1), (float("inf"), 1), (10**30, 1), {10: 1}, iter([10, 1]), b"10:1", 10, None, "a\0b", "\ud800",
                       (10, *range(65)), (10, b"1")):
            self.assertFalse(self.check(sample), sample)
            self.assertIsNone(opened.update((sample,), None), sample)
        self.assertFalse(self.check())
        self.assertFalse(self.check((10, 1), (20, "1")))
        with self.assertRaises(TypeError):
            self.update_file(b"f", [(10, 1)], 0, 0, False)  # type: ignore[arg-type]

    def test_texts(self) -> None:
        """In a file that is open, one text is read, if it is surely a sample; the library reads all others."""
        opened = self.opened()
        for text, numbers in (("10:1", ""), ("10:-1.5:U:0", ""), ("010:0021", "10:21"), ("10:1.500000", "10:1.5"), ("10:0.000001", ""),
                              ("10:-0", "10:0"), ("10:-0.0", "10:0."), ("10:7.0", "10:7."), ("10:9999999999999999999", ""),
                              ("9999999999:1", ""), ("N:1", "7:1"), ("10" + ":1" * 64, ""), ("10:-0.5", "")):
            opened.update((text,), 7)
            self.assertEqual(self.said(), [f"numbers {numbers or text}"], text)
        for text in ("10", "10:", ":1", "10:1:", "10:1 ", " 10:1", "10:+1", "10:1e5", "10:.5", "10:1.", "10:1.1234567", "10:--1", "10:-",
                     "10:UU", "10:u", "10:99999999999999999999", "10000000000:1", "NN:1", "N", "n:1", "10:1;", "-t=a", "\u0661:1", "",
                     "10" + ":1" * 65, "10:nan", "10:-U"):
            opened.update((text,), 7)
            self.assertEqual(self.said(), [f"open update\0{text} at 7"], text)
        self.assertIsNone(opened.update(("10:1\0",), 7))

    def test_the_time_now(self) -> None:
        opened = self.opened()
        opened.update((("N", 1),), 2**40)
        opened.update(("N:1", "N:2"), 7)
        self.assertEqual(self.said(), [f"numbers {2**40}:1", "open update\0N:1\0N:2 at 7"])
        opened.update((("N", 1),), None)
        time = int(self.said()[0].split()[1].split(":")[0])
        self.assertAlmostEqual(time, rrdi.times.moment(None), delta=60)
        self.assertIsNone(opened.update((("N", 1),), -1))


# ---- The package's functions


class Updates(FastCase):
    def test_by_path(self) -> None:
        rrdi.update(self.path, (10, 1.5), "20:2")
        rrdi.update(self.path, (10, Decimal("1.5")))
        rrdi.update(self.path, (10, 1), template="a")
        self.assertEqual(self.said(), ["path update\0" "10:1.5\0" "20:2", "path update\0" "10:1.5",
                                       "path update\0--template=a\0" "10:1"])

    def test_refusals_by_path(self) -> None:
        """The answer says why."""
        self.fast.answer = Answer(REFUSED, 0, 0, b"bad value", explanation=b"why")
        with self.assertRaisesRegex(rrdi.Refused, "bad value: why"):
            rrdi.update(self.path, (10, 1.5))
        self.assertEqual(self.said(), ["path update\0" "10:1.5"])

    def test_faults_by_path(self) -> None:
        self.fast.answer = Answer(CANNOT_WRITE, 28, 0, b"cannot write")
        with self.assertRaisesRegex(rrdi.CannotWrite, "No space left") as raised:
            rrdi.update(self.path, (10, 1.5))
        self.assertEqual((self.said(), raised.exception.errno), (["path update\0" "10:1.5"], 28))

    def test_a_block(self) -> None:
        """The first command opens the file by words; the others are in numbers, if they can be."""
        with rrdi.Database(self.path, now=7) as database:
            samples: Any = ((10, 1), (20, 1.5, None), (30, Decimal(2)), "40:1", ("N", 1))
            for sample in samples:
                database.update(sample)
            database.update((50, 1), (60, 2))
            database.update((70, 1), template="a")
        self.assertEqual(self.said(), ["open update\0" "10:1 at 7", "numbers 20:1.5:U", "open update\0" "30:2 at 7",
                                       "numbers 40:1", "numbers 7:1", "open update\0" "50:1\0" "60:2 at 7",
                                       "open update\0--template=a\0" "70:1 at 7", "close"])

    def test_refusals_in_a_block(self) -> None:
        with rrdi.Database(self.path) as database:
            database.update((10, 1))
            self.said()
            self.fast.answer = Answer(REFUSED, 0, 0, b"bad value")
            with self.assertRaises(rrdi.Refused):
                database.update((20, 1))
            self.assertEqual([said.split(" at ")[0] for said in self.said()[:2]], ["numbers 20:1", "open update\0" "20:1"])
            with self.assertRaises(BadSample):
                database.update((20, 10**30))
            self.assertEqual(self.said(), [])

    def test_faults_in_a_block(self) -> None:
        kept = KeptFile(self.path)
        kept.run(["last"])
        self.said()
        self.fast.answer = Answer(CANNOT_WRITE, 28, 0, b"cannot write")
        with self.assertRaisesRegex(rrdi.CannotWrite, "No space left"):
            kept.add(((10, 1),))
        self.assertEqual(self.said(), ["numbers 10:1", "close"])
        self.assertFalse(kept.add(((10, 1),)))

    def test_faults_among_many(self) -> None:
        """How many samples of the caller's are stored is told, also those before the first one of the call."""
        kept = KeptFile(self.path)
        kept.run(["last"])
        self.said()
        self.fast.answer = Answer(CANNOT_WRITE, 28, 0, b"cannot write")
        with self.assertRaisesRegex(rrdi.CannotWrite, "No space left") as raised:
            kept.add_many(((10, 1), (20, 1), (30, 1)), 1)
        self.assertEqual((raised.exception.stored, self.said()), (3, ["many 20:1 30:1", "close"]))
        self.assertEqual(kept.add_many(((40, 1),), 0), 0)

    def test_the_memory_of_files(self) -> None:
        """A file that nobody uses leaves nothing behind."""
        path = os.fsencode(self.path)
        self.assertLess(lost_by(lambda: (self.fast.library.open(path, 0, False), self.said())), LOST)

    def test_another_file_of_the_name(self) -> None:
        kept = KeptFile(self.path)
        kept.run(["last"])
        self.assertTrue(kept.add(((10, 1),)))
        (self.folder / "new").write_bytes(b"a new database")
        os.rename(self.folder / "new", self.path)
        self.assertFalse(kept.add(((10, 1),)))
        kept.run(["last"])
        self.assertTrue(kept.add(((10, 1),)))
        self.path.unlink()
        self.assertFalse(kept.add(((10, 1),)))
        kept.close()
        self.assertFalse(kept.add(((10, 1),)))

    def test_a_closed_file(self) -> None:
        opened = self.opened()
        opened.close()
        self.assertEqual((opened.is_open, opened.update(((10, 1),), None), opened.fetch(0, 1, 0, 10)), (False, None, None))
        self.assertEqual(self.said(), ["close"])


class ManySamples(FastCase):
    def test_from_which_one_on(self) -> None:
        opened, samples = self.opened(), ((10, 1.5), "20:2.5", (30, None))
        for first in range(3):
            self.assertEqual(opened.update_many(samples, first, 5), (DONE, 3 - first))
        self.assertEqual(self.said(), ["many 10:1.5 20:2.5 30:U", "many 20:2.5 30:U", "many 30:U"])
        wrong: List[Tuple[Tuple[object, ...], int]] = [(samples, -1), (samples, 3), ((object(), *samples), 0)]
        for given, first in wrong:
            self.assertIsNone(opened.update_many(given, first, 5))
        self.assertEqual(self.said(), [])

    def test_up_to_which_one(self) -> None:
        """One with another number of values, or what is no sample: those before it are added, and nothing is raised."""
        opened = self.opened()
        for last in ((40, 1, 2), object(), (2**70, 1)):
            self.assertEqual(opened.update_many(((10, 1.5), "20:2.5", last, (50, 1.5)), 0, 5), (DONE, 2))
            self.assertEqual(self.said(), ["many 10:1.5 20:2.5"])

    def test_a_file_that_is_no_longer_open(self) -> None:
        opened = self.opened()
        opened.close()
        self.assertIsNone(opened.update_many(((10, 1.5), (20, 2.5)), 0, 5))
        self.assertEqual(self.said(), ["close"])


class Fetches(FastCase):
    def rows(self, values: List[Optional[float]], sources: int = 1) -> None:
        """Puts values into the rows of the next fetch."""
        self.fast.rows = 100, 10, len(values) // sources, sources
        self.fast.values = [_Value(0, 0, UNKNOWN, False) if value is None else
                            _Value(abs(int(value)), round(abs(value) % 1 * 10**6), DECIMAL, value < 0) for value in values]

    def test_rows(self) -> None:
        self.rows([1.5, None, -2.25, 0.0], 2)
        with rrdi.Database(self.path, now=200_000) as database:
            database.tune("x")
            self.said()
            for _ in range(2):
                self.assertEqual(database.fetch("MAX", resolution=60, start=100, end=119),
                                 ((100, 120, 10), ("a", "b"), [(1.5, None), (-2.25, 0.0)]))
            self.assertEqual(self.said(), ["fetch 2 60 100 119", "open lastupdate at 200000", "fetch 2 60 100 119"])
            self.assertIsInstance(database.fetch("LAST"), Table)
            database.fetch("AVERAGE", start=5)
            database.tune("x")  # after which the sources may have other names
            database.fetch("MIN", end=100)
        self.assertEqual([said for said in self.said() if "tune" not in said],
                         ["fetch 3 1 113600 200000", "fetch 0 1 5 200000", "fetch 1 1 0 100", "open lastupdate at 200000", "close"])

    def test_what_is_done_by_words(self) -> None:
        now = 10**9
        for asked in (Asked("average", None, None, None), Asked("AVERAGE", "60", None, None), Asked("AVERAGE", None, "5", None),
                      Asked("AVERAGE", None, -1, None), Asked("AVERAGE", None, None, 2**63), Asked(["AVERAGE"], None, None, None)):
            self.assertIsNone(asked.numbers(now), asked)
        self.assertEqual(Asked("AVERAGE", None, None, None).numbers(now), (0, 1, now - 86_400, now))
        kept = KeptFile(self.path)
        self.assertIsNone(kept.rows(Asked("AVERAGE", None, None, None)))  # not open yet
        kept.run(["last"])
        self.assertIsNone(kept.rows(Asked("AVERAGE", None, None, None)))  # no row
        self.rows([1.0])
        self.assertIsNotNone(kept.rows(Asked("AVERAGE", None, None, None)))
        self.fast.answer = Answer(REFUSED, 0, 0, b"no archive")
        self.assertIsNone(kept.rows(Asked("AVERAGE", None, None, None)))

    def test_many_rows(self) -> None:
        """There is too little room at first."""
        self.rows([float(number) for number in range(64 * 1_000)], 64)
        found = self.opened().fetch(0, 1, 0, 1)
        assert found is not None
        self.assertEqual((found[:2], len(found[2]), found[2][-1][-1]), ((100, 10), 1_000, 63_999.0))
        self.assertEqual(self.said().count("fetch 0 1 0 1"), 2)

    def test_values(self) -> None:
        """Each float is the one that its text stands for."""
        chance = random.Random(2)
        units = [0, 1, 2**33 - 1, 2**33, 2**53 - 1, 2**53, 2**53 + 1, 2**54 - 1, 2**54, 2**54 + 2, 10**18 - 1, 2**64 - 1,
                 *(chance.getrandbits(64) >> chance.randrange(64) for _ in range(MANY))]
        values = [_Value(one, chance.choice([0, 1, 500_000, 999_999, chance.randrange(10**6)]), DECIMAL, chance.random() < 0.5)
                  for one in units]
        self.fast.rows, self.fast.values = (0, 1, len(values), 1), values
        found = self.opened().fetch(0, 1, 0, 1)
        assert found is not None
        for value, (number,) in zip(values, found[2]):
            text = f"{'-' * value.is_negative}{value.units}.{value.millionths:06}"
            self.assertEqual(repr(number), repr(float(text)), text)


class Tables(ByExtension, unittest.TestCase):
    """What `fetch` has printed is read as Python reads it, or not at all."""

    def both(self, text: str) -> bool:
        """Returns whether the extension has read a text."""
        with mock.patch.object(fetching, "the_extension", the_extension):
            found = fetching.in_floats(text)
        if found is None:
            return False
        with mock.patch.object(fetching, "the_extension", lambda: None):
            wanted = fetching.fetched(lambda words: text, [], 0, float)
        self.assertEqual((repr(found), type(found)), (repr(wanted), Table))
        return True

    def test_rows(self) -> None:
        chance = random.Random(3)
        for _ in range(300):
            sources, count, step = chance.randrange(1, 65), chance.randrange(2, 40), chance.choice([1, 10, 300])
            text = "time:" + "".join(f" {'a' * chance.randrange(1, 20)}" for _ in range(sources)) + "\n"
            for row in range(count):
                values = (chance.choice(["nan", f"{'-' * chance.randrange(2)}{chance.getrandbits(59) >> chance.randrange(59)}."
                                                f"{chance.randrange(10**6):06}"]) for _ in range(sources))
                text += f"{step * (7 + row)}: {' '.join(values)}\n"
            self.assertTrue(self.both(text), text)

    def test_other_texts(self) -> None:
        """Texts with a change somewhere: most are not read, and none is read wrongly."""
        chance, read = random.Random(4), 0
        text = "time: a bb\n10: 1.500000 nan\n20: -2.250000 0.000000\n30: nan 123456789012345678.000001\n"
        for _ in range(20_000):
            at, end = chance.randrange(len(text)), chance.randrange(3)
            changed = text[:at] + chance.choice(["", " ", "\n", ":", "1", "0", ".", "-", "n", "nan", "\u00fc", "\0"]) + text[at + end:]
            with contextlib.suppress(ValueError, IndexError):  # of Python's reading
                read += self.both(changed)
        self.assertGreater(read, 1_000)
        for text in ("", "time: a", "time: a\n", "time: a\n10: 1.000000\n", "time: a\n10: 1.000000\n20: 1.000000",
                     "time: a\n10: 12345678901234567890.000000\n20: 1.000000\n", "\ud800"):
            with contextlib.suppress(UnicodeEncodeError):
                self.assertFalse(self.both(text), text)


def any_value(chance: random.Random) -> object:
    kind = chance.randrange(6)
    if kind == 0:
        return chance.choice([None, float("nan"), *BOUNDARIES])
    if kind == 1:
        return chance.choice(WHOLE_NUMBERS)
    return chance.randrange(10**chance.randrange(1, 6)) if kind < 4 else any_float(chance) if kind == 4 else chance.uniform(0, 100)


@needs_library
class BothWays(ByExtension, DataCase):
    """With the C library itself: what is done in the fast ways leaves the same file, rows and errors as words do."""

    def setUp(self) -> None:
        super().setUp()
        found = the_extension()
        path = library_path()
        assert found is not None and path is not None
        self.library = found.load(path, Answer, DONE, calls.wait)
        use_library(self, self.library)
        self.twins = [str(self.folder / name) for name in ("fast", "words")]
        for file in self.twins:
            rrdi.create(file, "DS:g:GAUGE:100:-10:U", "DS:c:COUNTER:100:U:U", "DS:d:DERIVE:100:U:U", "DS:a:ABSOLUTE:100:U:U",
                        "RRA:AVERAGE:0.5:1:50", "RRA:MAX:0.5:3:20", step=10, start=1_000_000)

    @staticmethod
    def outcome(act: Callable[[], object]) -> object:
        try:
            return act()
        except (Error, TypeError) as error:
            return type(error), str(error).replace("fast", "").replace("words", ""), getattr(error, "detail", "")

    @contextlib.contextmanager
    def only_words(self) -> Iterator[None]:
        with mock.patch.object(KeptFile, "add", return_value=False), mock.patch.object(KeptFile, "rows", return_value=None), \
                mock.patch.object(fetching, "the_extension", return_value=None):
            yield

    def test_updates(self) -> None:
        chance, accepted, time, added = random.Random(5), 0, 1_000_000, KeptFile.add
        fast = []

        def add(kept: KeptFile, *words: Any) -> bool:
            fast.append(added(kept, *words))
            return fast[-1]
        with rrdi.Database(self.twins[0], now=1_500_000) as one, rrdi.Database(self.twins[1], now=1_500_000) as other:
            for _ in range(3_000):
                time += chance.choice([0, 1, 5, 10, 10, 10, 33])
                values = [any_value(chance) for _ in range(chance.choice([4, 4, 4, 4, 4, 4, 3, 5]))]
                sample: Any = chance.choice([(time, *values), [time, values], (float(time), *values)])
                if chance.randrange(3) == 0:
                    with contextlib.suppress(ValueError):
                        sample = sample_words([sample])[0]
                with mock.patch.object(KeptFile, "add", add):
                    found = self.outcome(lambda: one.update(sample))
                with self.only_words():
                    wanted = self.outcome(lambda: other.update(sample))
                self.assertEqual(found, wanted, sample)
                accepted += found is None
                if chance.randrange(50) == 0:
                    one.revert()
                    other.revert()
                if chance.randrange(50) == 0:
                    self.compare_rows(one, other, chance)
        self.assertGreater(accepted, 300)
        self.assertGreater(sum(fast), 0.9 * accepted)
        self.assertEqual(*(Path(file).read_bytes() for file in self.twins))

    def test_many_updates(self) -> None:
        """`update_many` is an `update` for each sample, up to the first that is refused."""
        chance, time, fast, added = random.Random(7), 1_000_000, [], KeptFile.add_many

        def add(kept: KeptFile, *words: Any) -> int:
            fast.append(added(kept, *words))
            return fast[-1]
        whole = refused = 0
        with rrdi.Database(self.twins[0], now=1_500_000) as one, rrdi.Database(self.twins[1], now=1_500_000) as other:
            for _ in range(150):
                samples: List[Any] = []
                for _ in range(chance.randrange(12)):
                    time += chance.choice([10] * 40 + [0])
                    values = [chance.choice([1, 2, None, 7]) for _ in range(chance.choice([4] * 30 + [3]))]
                    samples.append(chance.choice([(time, *values), [time, values]]))
                stored = 0
                with self.only_words(), contextlib.suppress(Error):
                    for sample in samples:
                        other.update(sample)
                        stored += 1
                with mock.patch.object(KeptFile, "add_many", add):
                    try:
                        self.assertEqual(one.update_many(iter(samples)), stored)
                        whole += 1
                    except Error as error:
                        self.assertEqual((error.stored, stored < len(samples)), (stored, True))
                        refused += 1
            self.assertEqual(one.info().undoable, other.info().undoable)
        self.assertGreater(min(whole, refused, sum(fast) / 10), 10)
        self.assertEqual(*(Path(file).read_bytes() for file in self.twins))

    def compare_rows(self, one: rrdi.Database, other: rrdi.Database, chance: random.Random) -> None:
        last = one.last()
        asked: Any = {"function": chance.choice(["AVERAGE", "MAX", "MIN"]), "resolution": chance.choice([None, 1, 30, 0, 10**10]),
                      "start": chance.choice([None, last - 100, last + 10]), "end": chance.choice([None, last, last + 50, 10**12])}
        found = self.outcome(lambda: one.fetch(**asked))
        with self.only_words():
            wanted = self.outcome(lambda: other.fetch(**asked))
        self.assertEqual(repr(found), repr(wanted), asked)

    def test_by_path(self) -> None:
        chance, accepted, time = random.Random(6), 0, 1_000_000
        for _ in range(300):
            time += chance.choice([0, 1, 10, 10, 10])
            samples: Any = [(time + 10 * at, *(any_value(chance) for _ in range(4))) for at in range(chance.randrange(1, 4))]
            found = self.outcome(lambda: rrdi.update(self.twins[0], *samples))
            with mock.patch.object(library, "the_extension", return_value=None):
                library.load_library()
            wanted = self.outcome(lambda: rrdi.update(self.twins[1], *samples))
            library.use_library(self.library)
            self.assertEqual(found, wanted, samples)
            accepted += found is None
        self.assertGreater(accepted, 10)
        self.assertEqual(*(Path(file).read_bytes() for file in self.twins))
        last = rrdi.last(self.twins[0])
        with mock.patch.object(fetching, "in_floats", side_effect=fetching.in_floats) as read:
            found = rrdi.fetch(self.twins[0], "AVERAGE", start=last - 500, end=last)
        self.assertIsNotNone(fetching.in_floats(read.call_args[0][0]))
        with self.only_words():
            self.assertEqual(repr(found), repr(rrdi.fetch(self.twins[1], "AVERAGE", start=last - 500, end=last)))


# ---- Memory, threads, the interpreter


class Costs(FastCase):
    def test_memory(self) -> None:
        """Neither references nor memory are lost, whatever a call ends with."""
        kept, opened, found = KeptFile(self.path), self.opened(), the_extension()
        assert found is not None
        of_tree = found  # the functions below need a name that is never None
        kept.run(["last"])
        self.fast.rows = 100, 10, 2, 2
        self.fast.values = [_Value(1, 5, DECIMAL, False)] * 3 + [_Value(0, 0, UNKNOWN, False)]
        samples = ((10, 1.5, None), [20, [2**64 - 1]], "30:5", [(40, 1)], "50:" + "5" * 2_000)
        refused = Answer(REFUSED, 0, 0, b"bad value")

        table = of_tree.table
        self.fast.at_call = of_tree.running  # as a fork asks during a call
        grown, path = test_library.Called(b"o" * 20_000, b"f" * 200_000, (1,)), stub_of({})

        def work() -> None:
            grown.library.run(b"data", b"info", 0)
            grown.library.batch(None, b"1\n2", 0)
            grown.library.batch_file(b"f", b"1\n2", 0, 0, False)
            grown.given.clear()
            of_tree.stop(True)
            of_tree.stop(False)
            of_tree.files()
            of_tree.forget_calls()
            of_tree.load(path, Answer, DONE, calls.wait)
            for answer in (DONE, refused):
                self.fast.answer = answer
                self.update_file(b"f", samples, 0, 0, False)
                self.update_file(b"f", (*samples, (50, "x")), 0, 0, False)
                self.fast.library.batch_file(b"f", b"last\nlast", 0, 0, False)
                opened.update(samples[:1], None)
                opened.update(samples, 5)
                opened.update(((10, True),), None)
                opened.update_many(samples, 0, None)
                opened.update_many(((10, 1), (20, 2), object()), 0, None)
                opened.batch(b"last\nlast", 0)
                opened.fetch(0, 1, 0, 10)
                opened.run(b"last", 0)
                for text in ("time: a\n10: 1.000000\n", "time: a\n10: 1.000000\n20: x\n", "x"):
                    table(text)
            for _ in range(2):
                self.opened().run(b"last", 0)
            self.fast.said.clear()
        watched = [DONE, Answer, refused, samples, samples[1], calls.wait, opened, self.fast.library, None, True, type(opened), type(self.fast.library)]
        for _ in range(100):
            work()
        gc.collect()  # what it frees has references too
        before = [sys.getrefcount(one) for one in watched]
        lost = lost_by(work)
        for one, count in zip(watched, before):
            self.assertLess(abs(sys.getrefcount(one) - count), 100, one)
        self.assertLess(lost, LOST)

    def test_threads(self) -> None:
        """One call at a time uses an open file, by whatever way, while another thread closes it."""
        kept = KeptFile(self.path)
        kept.run(["last"])
        inside: List[int] = []
        most: List[int] = []

        def at_call() -> None:
            inside.append(1)
            most.append(len(inside))
            time.sleep(0.0001)
            inside.pop()
        self.fast.at_call = at_call

        def work(number: int) -> None:
            for at in range(50):
                if not kept.add(((at, number),)):
                    kept.run(["update", f"{at}:{number}"])
                if number == 0 and at % 10 == 0:
                    kept.close()
        run_in_threads(8, work)
        self.assertEqual((len(most), max(most)), (400, 1))
