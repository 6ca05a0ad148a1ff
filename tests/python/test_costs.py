# SPDX-License-Identifier: MIT OR Apache-2.0
"""Tests that no input costs more than its size: lines, rules, patterns and files that are made to cost much. They count what
is done, or do what would never end."""
from __future__ import annotations

import contextlib
import fnmatch
import os
import random
import re
import struct
import time
import unittest
from pathlib import Path
from typing import Callable, List, Optional
from unittest import mock

import graphite_doubles as graphite
from cases import DataCase, assert_ends, counted_reads
from rrdi import errors, reader
from rrdi.compat import syntax
from rrdi.compat.syntax import LONGEST_NUMBER, read_number
from rrdi.feeding import metrics
from rrdi.feeding.rules import Names, read_rules, texts_of_stars
from rrdi.graphite import finding
from rrdi.graphite.globs import Globs, matcher
from rrdi.graphite.names import LONGEST_PART
from rrdi.importing.whisper import read_whisper, whisper_batch
from rrdi.reader.selected import OpenFile

MANY = 1_000_000
GIGABYTES = 3 * 2**30
NOW = 1_700_000_400


class Numbers(unittest.TestCase):
    def test_a_long_line(self) -> None:
        for digits in (b"1" * MANY, b"1" * MANY + b"." + b"1" * MANY, b"." + b"1" * MANY):
            assert_ends(self, lambda: self.assertIsNone(metrics.NUMBER.fullmatch(digits + b"x")))
            assert_ends(self, lambda: self.assertIsNone(syntax.NUMBER.fullmatch(digits.decode() + "x")))
        self.assertIsNotNone(metrics.NUMBER.fullmatch(b"1" * MANY))
        self.assertIsNotNone(syntax.NUMBER.fullmatch("1" * MANY))

    def test_a_long_number(self) -> None:
        for text in ("1" * MANY + "x", "1" * MANY + "e5", "0." + "1" * MANY, "1" * (LONGEST_NUMBER + 1)):
            assert_ends(self, lambda: self.assertEqual(read_number(text), text))
        self.assertEqual(read_number("0." + "0" * (LONGEST_NUMBER - 3) + "1"), "0")


def by_expression(pattern: str, name: bytes) -> Optional[List[bytes]]:
    """The texts of the stars, by a regular expression."""
    texts = {"*": rb"([^.]+)", "**": rb"(.+)"}
    parts = [piece for piece in re.split(r"(\*\*?)", pattern) if piece]
    found = re.fullmatch(b"".join(texts.get(part, re.escape(part.encode())) for part in parts), name, re.DOTALL)
    return list(found.groups()) if found else None


class Rules(unittest.TestCase):
    def test_many_stars(self) -> None:
        for pattern, name in (("*a" * 12 + "b", "a" * 1_000), ("*a*b." * 10 + "c", "aab" * 30 + ".b" * 30),
                              ("**-" + "*a" * 12 + "*", "a" * 500 + "." + "a" * 500 + "."), ("*a" * 200 + "b", "a" * 1_000)):
            rules = read_rules(f"{pattern} x{re.sub('[^*]+', '-', pattern)}y\n** **")
            assert_ends(self, lambda: Names(b"/d", rules[:1]).rules[0].path(name.encode()))

    def test_each_star_takes_as_much_as_before(self) -> None:
        """Random patterns and names: the texts are those of the regular expression with the same stars."""
        chance, matched = random.Random(5), 0
        for _ in range(20_000):
            pattern = re.sub(r"\*\*\*+", "**", "".join(chance.choice(["a", "b", ".", "*", "*", "**"])
                                                          for _ in range(chance.randrange(1, 8))))
            if pattern.count("**") > 1:
                continue
            name = "".join(chance.choice("aab.") for _ in range(chance.randrange(0, 12))).encode()
            pieces = [piece.encode() for piece in re.split(r"(\*\*?)", pattern) if piece]
            wanted = by_expression(pattern, name)
            self.assertEqual(texts_of_stars(pieces, name), wanted, (pattern, name))
            matched += wanted is not None
        self.assertGreater(matched, 1_000)


class Patterns(DataCase):
    """Patterns of Graphite, and folders that links lead to. What is counted is how often a folder is listed."""

    def found(self, pattern: str) -> List[str]:
        with mock.patch.object(finding, "entries", side_effect=finding.entries) as self.listed:
            return sorted(found.relative for found in finding.find(str(self.folder), pattern) if found.is_file)

    def put(self, *names: str) -> None:
        for name in names:
            path = self.folder / (name + ".rrdi")
            path.parent.mkdir(parents=True, exist_ok=True)
            path.write_bytes(b"")

    def test_braces(self) -> None:
        self.put("ab", "abab")
        for pattern in ("{a,b}" * 18, "{a,b}" * 5_000, "{" + "," * 2_000_000 + "}", "a.{{a,b}" + "{c,d}" * 40 + "}.c",
                        "{" + ",".join(f"{number}*" for number in range(1_001)) + "}"):
            assert_ends(self, lambda: self.assertRaises(finding.TooMuch, self.found, pattern))
        self.assertEqual(self.found("{a,b}" * 4), ["abab.rrdi"])
        # A folder is listed once, however many patterns the braces stand for.
        self.assertEqual(self.found("{" + ",".join(f"{number}*" for number in range(900)) + ",a*}"), ["ab.rrdi", "abab.rrdi"])
        self.assertEqual(self.listed.call_count, 1)
        names = "{" + ",".join(f"host-{number}" for number in range(20_000)) + ",ab}"
        self.assertEqual(self.found(names), ["ab.rrdi"])

    def test_names_that_braces_stand_for(self) -> None:
        """Of many names the folder tells which it has; if it can't be listed, the system is asked for each."""
        self.put("ab", "host-7")
        names = "{" + ",".join(f"host-{number}" for number in range(300)) + ",ab}"
        for is_listed, most in ((True, 2), (False, 301)):
            with mock.patch("os.path.isfile", side_effect=os.path.isfile) as asked, \
                    mock.patch("os.access", return_value=is_listed):
                self.assertEqual(self.found(names), ["ab.rrdi", "host-7.rrdi"])
            self.assertEqual((asked.call_count, self.listed.call_count), (most, int(is_listed)))

    def test_patterns_that_cost_much(self) -> None:
        """Patterns of at most 4 KB: each is answered or refused within a second of computing."""
        self.put(*("a" * (number % 40) + f"server{number}" for number in range(500)))
        braces = "{a,b}" * 9
        for pattern in ("[" * 4_045, "{a,b}" * 8 + "[" * 900 + "*", braces + "[" * 400 + "*", braces + "[!" * 120 + "*",
                        braces + "*a" * 250, "*a" * 2_000, "*a" * 120 + "b", "[a]" * 1_300, "[\u0100-\uffff]" * 500,
                        f"[{'a-z' * 1_300}]*", braces + f"[{'a-z' * 500}]*", "{a,b}" * 14, ("{a,b}" * 14 + ".") * 56,
                        "*." + "{a,b}" * 14, "*.".join(["{a,b}" * 3 + "[" * 50] * 60), ("[" * 60 + ".") * 66, "**.a*." * 600,
                        braces + "".join(chr(0x4E00 + number) for number in range(250)) + "*", "?" * 4_000,
                        "{" + ",".join(f"s*{number}*" for number in range(600)) + "}", "{" * 1_000 + "a,b" + "}" * 1_000):
            before = time.process_time()
            with contextlib.suppress(finding.TooMuch):
                self.found(pattern)
            self.assertLess(time.process_time() - before, 1, f"{pattern[:60]!r}, {len(pattern.encode())} bytes")

    def test_all_parts_together(self) -> None:
        """What the parts of a pattern stand for is limited for all of them together."""
        two = "{" + ",".join(f"{number}*" for number in range(501)) + "}"
        for pattern in (f"{two}.{two}", ".".join(["{a,b}" * 13] * 4), "**.a." * 11 + "x"):
            self.assertRaises(finding.TooMuch, self.found, pattern)
        self.assertEqual(self.found("**.a." * 10 + "x"), [])
        self.assertEqual(self.found("*." * 2_000 + "x"), [])

    def test_words_match_as_before(self) -> None:
        """Random words and names: as `fnmatch` has it."""
        chance, matched = random.Random(7), 0
        for _ in range(8_000):
            words = ["".join(chance.choice("ab*?[]!-^c&|~") for _ in range(chance.randrange(9))) for _ in range(chance.randrange(1, 4))]
            globs, plain = Globs(words), matcher(words)
            matches = [re.compile(fnmatch.translate(word)).match for word in words]
            for _ in range(5):
                name = "".join(chance.choice("abc-]![^\n&") for _ in range(chance.randrange(7)))
                wanted = any(match(name) for match in matches)
                self.assertEqual(globs.match(name), wanted, (words, name))
                self.assertEqual(bool(plain(name)), wanted, (words, name))
                matched += wanted
        self.assertGreater(matched, 1_000)
        longest = "x" * LONGEST_PART
        self.assertTrue(matcher(["x" * LONGEST_PART + "*"])(longest))
        self.assertEqual([Globs([word]).match(longest) for word in ("?" * LONGEST_PART, "?" * LONGEST_PART + "*", "?" * 256)],
                         [True, True, False])

    def test_plain_words_cost_little(self) -> None:
        names = [f"web-{number:06}-cpu{number % 7}" for number in range(5_000)]
        for words in (["*"], ["web-*-cpu3"], ["*0*1*"], ["web-[0-9]*"], [f"web-*{number}" for number in range(6)]):
            costs, found = [], []
            for match in (Globs(words).match, matcher(words)):
                before = time.process_time()
                found.append(list(filter(match, names)))
                costs.append(time.process_time() - before)
            self.assertEqual(*found)
            self.assertLess(2 * costs[1], costs[0], words[0])

    def test_words_that_a_regular_expression_matches_slowly(self) -> None:
        """Each costs about as much as a step for each character of a name and each sign."""
        names = ["a" * LONGEST_PART, "a" * 254 + "b", "ab" * 127]
        for words in (["*a" * 60 + "b"], ["*" + "a" * 120 + "b*", "*" + "a" * 120 + "c"], ["*" + "?" * 200 + "b"],
                      ["*" + "[!b]" * 80 + "b"], ["[!ace]*" + "a" * 126 + "b*"], [f"*a*{number}" for number in range(63)],
                      [f"*{'?' * 120}{number}" for number in range(500)]):
            match, before = matcher(words), time.process_time()
            for _ in range(50):
                self.assertEqual(len(list(map(match, names))), 3)
            self.assertLess(time.process_time() - before, 1, words[0])

    def test_links_that_loop(self) -> None:
        self.put("x", "f/y")
        for name in ("a", "b", "c"):
            (self.folder / name).symlink_to(".")
            (self.folder / "f" / name).symlink_to("..")
        for pattern, names in [("**", ["f/y.rrdi", "x.rrdi"]), ("**.{x,y}", ["f/y.rrdi", "x.rrdi"]),
                               *((f"{part}." * 40 + "x", []) for part in ("*", "{a,b,c}", "[a-c]"))]:
            assert_ends(self, lambda: self.assertEqual(self.found(pattern), names))
            self.assertEqual(self.found(pattern), names)
            self.assertLess(self.listed.call_count, 10)

    def test_links_to_other_folders(self) -> None:
        """Each name is found that a link gives; only loops are left out."""
        self.put("hosts/w1/load")
        for rack in ("r1", "r2"):
            (self.folder / rack).mkdir()
            (self.folder / rack / "w1").symlink_to("../hosts/w1")
        names = ["hosts/w1/load.rrdi", "r1/w1/load.rrdi", "r2/w1/load.rrdi"]
        self.assertEqual(self.found("**"), names)
        self.assertEqual(self.found("*.w1.load"), names)
        with mock.patch.object(finding, "MOST_LINKS", 1), self.assertRaises(finding.TooMuch):
            self.found("**")

    def test_any_depth_again_and_again(self) -> None:
        self.put("a/" * 60 + "x")
        self.assertEqual(self.found("**.a." * 2 + "**.x"), ["a/" * 60 + "x.rrdi"])
        self.assertLess(self.listed.call_count, 10 * 60)
        self.found("**." * 500 + "x")
        self.assertLess(self.listed.call_count, 100)


class Whisper(DataCase):
    def lines(self, data: bytes, length: int = 0) -> List[str]:
        path = self.folder / "m.wsp"
        path.write_bytes(data)
        if length:
            os.truncate(path, length)
        return list(whisper_batch(read_whisper(str(path)), None, lambda text: None))

    def test_a_wrong_time(self) -> None:
        """A point of the year 2106 in the finer archive; the coarser one has the true ones."""
        seconds, rows = 1, 10
        head = struct.pack("!2LfL", 1, 10**6, 0.5, 2) + struct.pack("!6L", 40, seconds, rows, 40 + 12 * rows, 2, 20)
        fine = struct.pack("!Ld", 2**32 - 1, 5.0).ljust(12 * rows, b"\0")
        coarse = b"".join(struct.pack("!Ld", NOW + 2 * number, number) for number in range(20))
        assert_ends(self, lambda: self.lines(head + fine + coarse))
        samples = self.lines(head + fine + coarse)[1].split()[1:]
        self.assertEqual(samples[:2], [f"{NOW + 2}:0.000000", f"{NOW + 4}:1.000000"])
        self.assertEqual(samples[-2:], [f"{2**32 - 1}:U", f"{2**32}:5.000000"])

    def test_a_sparse_file(self) -> None:
        data = struct.pack("!2LfL3L", 1, 10**6, 0.5, 1, 28, 10, 2) + struct.pack("!LdLd", NOW, 1.0, NOW + 10, 2.0)
        assert_ends(self, lambda: self.assertEqual(len(self.lines(data, GIGABYTES)), 3))


class Files(DataCase):
    """Files with few bytes on the disk and a great length. What is counted is the bytes that are read; a child with little
    memory reads them, since a reader may take a file whole in another way."""

    def setUp(self) -> None:
        super().setUp()
        self.path = str(self.folder / "f.rrdi")

    def write(self, data: bytes, length: int = GIGABYTES) -> None:
        Path(self.path).write_bytes(data)
        os.truncate(self.path, max(length, len(data)))

    def reads_at_most(self, most: int, work: Callable[[], object]) -> None:
        def read() -> None:
            with counted_reads() as counted:
                work()
            self.assertTrue(0 < counted.count < most, f"{counted.count} bytes were read")
        assert_ends(self, read)

    def test_a_journal(self) -> None:
        def times() -> None:
            with OpenFile(self.path) as file:
                self.assertEqual(list(file.times_before()), [120])
        self.write(graphite.file_bytes(130, entries=graphite.update_entry(120, 1), count=16))
        self.reads_at_most(20_000, times)

    def test_only_the_entries_that_are_asked_for(self) -> None:
        """Of many entries as many are read, and none of their rows."""
        def newest() -> None:
            with OpenFile(self.path) as file:
                self.assertEqual(next(iter(file.times_before())), 10_000)
        entries = b"".join(graphite.update_entry(before, 1) for before in range(10_000, 0, -1))
        self.write(graphite.file_bytes(10_010, entries=entries, count=10_000, depth=10_000), 0)
        self.reads_at_most(20_000, newest)

    def test_what_is_no_database(self) -> None:
        def refused() -> None:
            with self.assertRaises(errors.Damaged):
                reader.read_file(self.path)
            with self.assertRaises(errors.Damaged):
                OpenFile(self.path).outline()
        for mark in (b"RRDX", b"RRDC", b"RRDLog\0\0" + bytes(8), b"RRDLog\0\0" + b"\xff" * 8, b"RRDI\0\2", b""):
            self.write(mark)
            self.reads_at_most(50_000, refused)

    def test_a_database_with_a_tail(self) -> None:
        def refused() -> None:
            with self.assertRaises(errors.Damaged) as raised:
                reader.read_file(self.path)
            self.assertEqual(str(raised.exception), "file: trailing at 256")
        self.write(graphite.file_bytes(130))
        self.reads_at_most(50_000, refused)
