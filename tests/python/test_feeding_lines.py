# SPDX-License-Identifier: MIT OR Apache-2.0
"""Tests of the short ways of rrdi-feed: by the extension the same samples as by Python reach the same files in the same order, and
the same is reported."""
from __future__ import annotations

import contextlib
import io
import random
import unittest
from typing import Any, Dict, Iterator, List, Tuple
from unittest import mock

from building import the_extension
from cases import needs_library, new_folder
from rrdi.extension import Extension
from rrdi.feeding import feeder as feeders
from rrdi.feeding import ordering
from rrdi.feeding.feeder import Feeder, FeedOptions
from rrdi.feeding.opened import OpenWriter
from rrdi.feeding.ordering import further_by_python, in_order
from rrdi.library import load_library
from rrdi.open_files import OpenFiles
from test_feeding import Stub
from tool_case import finished, taken

import rrdi

FILES = (b"a", b"b/c", b"\xff", "ü".encode(), b"UPDATE", b"update", b"-x", b"a\0b", b"", b"\x1b[2J")
SAMPLES = (b"10:1", b"1700000000:1:2", b"1700000001:1", b"1600000000:U", b"N:1", b"-5:1", b"x", b":1", b"5", b"9\0:1", b"\xb2:1",
           b"1700000000.5:1", b"1700000000", b"01700000000:1", b"999999999:1", b"170000000\0:1", b"1700000000;1")
# The last three part no words of bytes.
SPACES = (b" ", b" ", b" ", b"\t", b"  ", b"\v", b"\f", b"\r", b"\0", b"\x1c", b"\xa0")


def random_line(numbers: random.Random) -> bytes:
    words = [numbers.choice(FILES[:4] if numbers.random() < 0.8 else FILES)]
    words += [numbers.choice(SAMPLES) for _ in range(numbers.choice((1, 1, 1, 1, 1, 1, 0, 2, 3)))]
    line = numbers.choice(SPACES).join(words)
    return numbers.choice((b"", b"", b"", b" ", b"UPDATE ")) + line + numbers.choice((b"", b"", b"", b"\r", b" "))


class BothWays(unittest.TestCase):
    extension: Extension

    def setUp(self) -> None:
        found = the_extension()
        if found is None:
            self.skipTest("no compiler, or no Python.h")
        self.extension = found

    def ways(self) -> Iterator[Any]:
        """Yields for each way what is to be chosen in place of the extension."""
        for found in (None, self.extension):
            with mock.patch.object(ordering, "the_extension", lambda: found), mock.patch("time.time", lambda: 1_700_000_000.5):
                yield found


class Lines(BothWays):
    def test_lines_one_by_one(self) -> None:
        """The short way takes what is a further sample of a held file, and nothing else."""
        for line, sample in ((b"a 10:1", b"10:1"), (b"\ta\v\f5\r", b"5"), (b"a  9\0x ", b"9\0x"), (b"a\x1c5:1", None), (b"a\0 5:1", None),
                             (b"a", None), (b"", None), (b" \n", None), (b"b 10:1", None), (b"a N:1", None), (b"a -5:1", None),
                             (b"a :1", None), (b"a /:1", None), (b"a 5:1 6:1", None), (b"UPDATE a 5:1", None), (b"a 5:" + b"1" * 9, b"5:" + b"1" * 9),
                             (b"a 5:" + b"1" * 10, None)):
            for further in (further_by_python, self.extension.further):
                held, left = {b"a": [b"1:1"]}, iter([line, b"next"])
                self.assertEqual(further(held, left, 13), b"next" if sample is not None else line, line)
                self.assertEqual((held, list(left)), ({b"a": [b"1:1"] if sample is None else [b"1:1", sample]},
                                                      [b"next"] if sample is None else []), line)
        self.assertIsNone(self.extension.further({}, iter([]), 9))
        with self.assertRaises(TypeError):
            self.extension.further([], iter([]), 9)  # type: ignore[arg-type]
        with self.assertRaises(ZeroDivisionError):
            self.extension.further({}, (1 // 0 for _ in [1]), 9)  # type: ignore[misc]

    def test_random_lines(self) -> None:
        for seed in range(400):
            numbers = random.Random(seed)
            text = b"\n".join(random_line(numbers) for _ in range(40))
            cuts = sorted(numbers.randrange(len(text)) for _ in range(3))
            pieces = [text[begin:end] for begin, end in zip([0, *cuts], [*cuts, len(text)])]
            with mock.patch.object(feeders, "SHORT", numbers.choice((14, 20, 65_529))):
                first, second = (self.fed(pieces) for _ in self.ways())
            self.assertEqual(first, second, text)

    def fed(self, pieces: List[bytes]) -> Tuple[Any, ...]:
        writer = Stub()
        feeder = Feeder(FeedOptions(jobs=1), writer)
        self.addCleanup(feeder.threads.shutdown)
        with contextlib.redirect_stderr(io.StringIO()) as said:
            for piece in [*pieces, b""]:
                feeder.take_data(piece)
        held, count = {file: list(samples) for file, samples in feeder.held.items()}, feeder.count
        return held, count, said.getvalue(), finished(feeder), writer.batches, feeder.count

    def test_no_memory_for_a_line(self) -> None:
        """The rest of the lines is left, from the one on at which it happened."""
        for found in self.ways():
            feeder = Feeder(FeedOptions(), Stub())
            self.addCleanup(feeder.threads.shutdown)
            with mock.patch.object(feeder, "take", side_effect=[None, MemoryError]), self.assertRaises(MemoryError):
                feeder.held = {b"a": []}
                feeder.take_data(b"a 1:1\nb 1:1\na 2:1\na 3:1\nc 1:1\na 4:1\n")
            self.assertEqual((feeder.held, feeder.count, feeder.untaken()), ({b"a": [b"1:1", b"2:1", b"3:1"]}, 3, [b"c 1:1", b"a 4:1"]))


class Orders(BothWays):
    def test_samples_in_order(self) -> None:
        cases: List[Tuple[List[bytes], bool]] = [
            ([], True), ([b"1700000000:1"], True), ([b"1700000000:1", b"1700000000:0", b"1700000001:U"], True),
            ([b"1700000001:1", b"1700000000:1"], False), ([b"1700000000:1", b"x"], False),
            *(([odd], False) for odd in (b"999999999:1", b"17000000000:1", b"1700000000", b"170000000\0:1", b"", b"/700000000:1",
                                         b":700000000:1"))]
        for samples, is_sure in cases:
            self.assertIs(self.extension.are_ordered(samples), is_sure, samples)
        self.assertIs(self.extension.are_ordered(()), False)  # type: ignore[arg-type]
        self.assertIs(self.extension.are_ordered(["1700000000:1"]), False)  # type: ignore[list-item]

    def test_random_samples(self) -> None:
        for seed in range(2_000):
            numbers = random.Random(seed)
            odd = numbers.choice((0.0, 0.0, 0.3))
            given = [numbers.choice(SAMPLES) if numbers.random() < odd else b"17000000%02d:%d" % (numbers.randrange(5), at)
                     for at in range(numbers.choice((0, 1, 2, 3, 9)))]
            given = sorted(given) if numbers.random() < 0.5 else given
            first, second = (in_order(list(given)) for _ in self.ways())
            self.assertEqual(first, second, given)


@needs_library
class Files(BothWays):
    def test_files(self) -> None:
        """The files are the same, byte for byte, with refused samples between good ones."""
        for seed in range(8):
            numbers = random.Random(seed)
            lines = [b"%d.rrdi %s" % (numbers.randrange(4), self.sample(numbers, at)) for at in range(150)]
            first, second = (self.stored(lines) for _ in self.ways())
            self.assertEqual(first, second)
            self.assertIn("not later than", first[1])

    def sample(self, numbers: random.Random, at: int) -> bytes:
        if numbers.random() < 0.1:
            return numbers.choice(SAMPLES)
        return b"%d:%d.%d" % (1_700_000_000 + at + numbers.choice((0, 0, 0, 0, 0, -9)), numbers.randrange(99), numbers.randrange(99))

    def stored(self, lines: List[bytes]) -> Tuple[Dict[str, bytes], str]:
        folder = new_folder(self)
        for number in range(3):
            rrdi.create(f"{folder}/{number}.rrdi", "DS:v:GAUGE:60:U:U", "RRA:AVERAGE:0.5:1:50", "RRA:MAX:0.5:3:20", step=2, start=1_600_000_000)
        feeder, files = Feeder(FeedOptions(jobs=1, patience=0), OpenWriter(load_library(), OpenFiles())), str(folder)
        said = ""
        for part in (lines[:60], lines[60:100], lines[100:]):
            said += taken(feeder, b"\n".join(files.encode() + b"/" + line for line in part))
            with contextlib.redirect_stderr(io.StringIO()) as more:
                feeder.hurry()
                feeder.write_held()
            said += more.getvalue()
        said += finished(feeder)
        return {path.name: path.read_bytes() for path in folder.iterdir()}, said.replace(files, "")
