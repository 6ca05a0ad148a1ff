# SPDX-License-Identifier: MIT OR Apache-2.0
"""Tests of words of users that would become other words, lines or options: each call runs one command or is refused.

A small library or a script takes the place of rrdi and keeps what it is given, so no database is needed.
"""
from __future__ import annotations

import ctypes
import errno
import math
import os
import random
import shutil
import subprocess
import unittest
from fractions import Fraction
from functools import lru_cache
from pathlib import Path
from typing import Callable, List, Optional, Tuple

from building import workshop
from cases import new_folder, use_library
from doubles import TOP, NothingStaysOpen
from test_recorder import Recorder
from tool_case import ToolCase

from rrdi.compat import rrdtool
from rrdi.errors import BAD_BLOCK, CANNOT_OPEN, CANNOT_WRITE, NO_MEMORY, OperationalError
from rrdi.library import DONE, Answer
from rrdi.tools import program
from rrdi.tools.command_line import Failure

CC, PERL = shutil.which("cc"), shutil.which("perl")
# Each text would be more than one word or line if a line were made of it.
BREAKING = ["110:1\ncreate --start 0 DS:x:GAUGE:9:U:U RRA:MAX:0:1:1", "110:1 120:2", "110:1\t120:2", "\n", " ", "110:1\r\n", "110:1\x0b",
            "110:1\x7f", "--template=x 110:1", "110:1\nrevert"]


@lru_cache(maxsize=None)
def recorder_of_lines() -> Path:
    """Returns librrd/record.c with a library that keeps lines, compiled once."""
    made, object_of_it = workshop() / "recorder_of_lines.so", workshop() / "record.o"
    options = (str(CC), "-std=c11", "-Wall", "-Wextra", "-Werror", "-fPIC", f"-I{TOP}/include")
    subprocess.run([*options, "-Drealloc=some_blocks", "-Dfree=free_block", "-c", "-o", object_of_it, TOP / "librrd/record.c"], check=True)
    subprocess.run([*options, "-shared", "-o", made, object_of_it, TOP / "tests/python/lines.c"], check=True)
    return made


@unittest.skipUnless(CC, "there is no C compiler cc")
class Record(unittest.TestCase):
    """librrd/record.c over a library that keeps lines."""

    def setUp(self) -> None:
        folder = new_folder(self)
        path = folder / "record.so"
        shutil.copy(recorder_of_lines(), path)  # whose state is that of no other test
        self.recorder = Recorder(str(path))
        self.library = self.recorder.library
        self.library.last_given.restype = ctypes.c_void_p
        self.library.last_length.restype = self.library.last_room.restype = ctypes.c_size_t
        self.file = str(folder / "f.rrd")
        (folder / "f.rrd").touch()
        self.addCleanup(self.check_blocks)

    def check_blocks(self) -> None:
        self.assertEqual(self.library.damaged_blocks(), 0, "something was written behind a block of memory")
        self.assertEqual(self.library.live_blocks(), 0, "a block of memory was not freed")

    def given(self) -> bytes:
        return ctypes.string_at(self.library.last_given(), self.library.last_length())

    def refused(self, wanted: str, error: str) -> None:
        self.assertEqual(error, wanted)
        self.assertEqual(self.library.call_count(), 0)

    def test_samples(self) -> None:
        reason = "has a space or a control character"
        for word in BREAKING:
            with self.subTest(word=word):
                update = self.recorder.update
                self.refused(f"{self.file}: sample 1 of 1 {reason}", update(self.file, None, word))
                self.refused(f"{self.file}: sample 2 of 3 {reason}", update(self.file, "a", "10:1", word, "20:2"))
                self.refused(f"{self.file}: the template {reason}", update(self.file, word, "10:1"))

    def test_definitions(self) -> None:
        for word in BREAKING:
            with self.subTest(word=word):
                self.refused(f"{self.file}: definition 2 of 2 has a space or a control character",
                             self.recorder.create(self.file, 10, 0, "RRA:MAX:0:1:1", "DS:" + word))
        self.refused("can't parse argument '--journal=100000'", self.recorder.create(self.file, 10, 0, "--journal=100000"))

    def test_what_is_passed(self) -> None:
        self.assertEqual(self.recorder.update(self.file, "a:b", "10:1:U", "N:2:1e3"), "")
        self.assertEqual(self.given(), b"update --template=a:b 10:1:U\nupdate --template=a:b N:2:1000\n")
        self.assertEqual(self.recorder.create(self.file, 10, 5, "DS:g:GAUGE:9:U:U", "RRA:MAX:0.5:1:4"), "")
        self.assertEqual(self.given(), b"create\0--step=10\0--start=5\0DS:g:GAUGE:9:U:U\0RRA:MAX:0.5:1:4")
        # Numbers are read in each field, as RRDtool has them; a half of a millionth rounds up, also below zero.
        self.assertEqual(self.recorder.create(self.file, 10, 5, "DS:g:GAUGE:9:-1e3:nan", "RRA:MAX:5e-1:1:4"), "")
        self.assertEqual(self.given(), b"create\0--step=10\0--start=5\0DS:g:GAUGE:9:-1000:U\0RRA:MAX:0.5:1:4")
        self.recorder.update(self.file, None, "10:NaN:-NAN:nan:-1.5000005:1.5000005")
        self.assertEqual(self.given(), b"update 10:U:U:U:-1.5:1.500001\n")
        # What is no number is passed as it is, and rrdi refuses it.
        self.recorder.update(self.file, None, "10:1.2.3:1..2:1e:1e+:e5:.:-:+nan:nano:1e2e3")
        self.assertEqual(self.given(), b"update 10:1.2.3:1..2:1e:1e+:e5:.:-:U:nano:1e2e3\n")
        # An exponent may have many digits; rrdi refuses what is too large.
        self.recorder.update(self.file, None, "10:1e100:-2.5e+30:1e-100:1e0000000000000000000001")
        self.assertEqual(self.given(), b"update 10:1" + b"0" * 100 + b":-25" + b"0" * 29 + b":0:10\n")
        for text, zeros in (("1e9999", 9_999), ("1e99999999999999999999", 9_999)):
            self.recorder.update(self.file, None, f"10:{text}")
            self.assertEqual(self.given(), b"update 10:1" + b"0" * zeros + b"\n")
        # A start of 0 is one; a negative one stands for the present.
        self.recorder.create(self.file, 10, 0, "DS:g:GAUGE:9:U:U", "RRA:MAX:0.5:1:4")
        self.assertIn(b"\0--start=0\0", self.given())
        self.recorder.create(self.file, 10, -1, "DS:g:GAUGE:9:U:U", "RRA:MAX:0.5:1:4")
        self.assertNotIn(b"--start", self.given())

    def fields(self, texts: List[str]) -> List[str]:
        """Returns what becomes of the fields of a sample."""
        self.assertEqual(self.recorder.update(self.file, None, "10:" + ":".join(texts)), "")
        begin, *found = self.given().decode()[:-1].split(":")
        self.assertEqual((begin, len(found)), ("update 10", len(texts)))
        return found

    def test_each_number(self) -> None:
        """All short numbers of some digits, with a point at each place and an exponent: each is the nearest number of millionths,
        and of two the upper one, without zeros that say nothing."""
        texts: List[str] = []
        chance = random.Random(5)
        for digits in ("0", "5", "9", "10", "05", "49", "50", "95", "99", "499", "500", "501", "995", "999", "4999999", "5000001", "9999999", "9999995",
                       "99999995", "123456789", "1000000000", *("".join(chance.choices("0459", k=chance.randrange(1, 15))) for _ in range(60))):
            for at in {0, 1, len(digits) // 2, len(digits) - 1, len(digits)}:
                for sign in ("", "-", "+"):
                    texts += [f"{sign}{digits[:at]}.{digits[at:]}", *(f"{sign}{digits[:at]}.{digits[at:]}{letter}{power}" for letter, power in (
                        ("e", chance.randrange(-14, 14)), ("E", -len(digits) - chance.randrange(9)), ("e", f"+{chance.randrange(12)}"), ("e", "-07"), ("E", "6")))]
            texts += [f"{digits}e{power}" for power in range(-16, 3)]
        for at in range(0, len(texts), 500):
            part = texts[at:at + 500]
            for text, found in zip(part, self.fields(part)):
                mantissa, _, power = text.lower().partition("e")
                exact = Fraction(mantissa.replace(".", ".0") if mantissa[-1:] == "." else mantissa) * Fraction(10)**int(power or 0)
                self.assertEqual(Fraction(found), Fraction(math.floor(exact * 10**6 + Fraction(1, 2)), 10**6), text)
                self.assertRegex(found, r"^-?[0-9]+(\.[0-9]{0,5}[1-9])?$", text)

    def test_whole_numbers_stay_as_they_are(self) -> None:
        """Also those that no float has; and so does what is no number, with each sign and each byte beside a digit's."""
        for text in ("0", "-0", "00", "-9", "9", "18446744073709551615", "-9223372036854775808", "1" * 60, "007", "", "-", "+", "--1", "1-", "1-1", "-+1", "/",
                     "1/", ";1", "1;", "1,5", "e", ".", "-.", "+.", ".e1", "1e", "1e-", "1e+", "1e1.", "1e1-", "1e--1", "1ee1", "1e1e1", "1..", "1.1.", "0x1", "nan1", "-nan1", "xnan", "na",
                     "inf", "U", "NANx", "nab", "-nab", "nbn", "bna", "na-",  "1f", "1d5"):
            self.assertEqual(self.fields([text, "1.50"]), [text, "1.5"])
        for text in ("nan", "NAN", "NaN", "-nan", "+nan", "-NaN"):
            self.assertEqual(self.fields([text]), ["U"])

    def test_long_texts(self) -> None:
        """Of each length, so that a text grows at each place; and long exponents, of which four digits count."""
        for length in (*range(240, 270), *range(500, 530), 5_000):
            self.assertEqual(self.fields(["7" * length]), ["7" * length])
            self.assertEqual(self.fields(["0." + "1" * length, "." + "9" * length, "9" * length + ".9999995"]), ["0.111111", "1", "1" + "0" * length])
        for exponent in ("99", "100", "999", "0999", "1000", "9999", "00001"):
            self.assertEqual(self.fields([f"1e{exponent}"]), ["1" + "0" * int(exponent)])
        self.assertEqual(self.fields(["1e-9999", "9e-6", "9e-7", "4e-7", "-9e-7", "1e-99999999999999999999"]), ["0", "0.000009", "0.000001", "0", "-0.000001", "0"])

    def test_times(self) -> None:
        """The fraction of a second goes, and no other point; the names of sources stay."""
        for sample, line in (("10.5:1", "10:1"), ("10.:1", "10:1"), (".5:1", ":1"), ("10:1.50", "10:1.5"), ("N:1.50", "N:1.5"), ("10.5", "10.5"), ("10", "10"), (":1", ":1"),
                             ("10:", "10:"), ("10::1", "10::1"), ("10.7:1.50:2.50", "10:1.5:2.5"), ("", "")):
            self.assertEqual(self.recorder.update(self.file, None, sample), "")
            self.assertEqual(self.given().decode(), f"update {line}\n")
            self.assertEqual(self.recorder.update(self.file, "1.50:2e1", sample, sample), "")
            self.assertEqual(self.given().decode(), f"update --template=1.50:2e1 {line}\n" * 2)

    def test_which_parts_of_a_definition_are_numbers(self) -> None:
        """A minimum and a maximum, and all of an archive but its function."""
        for word, wanted in (("DS:1e1:1e1:1e1:1e1:1e1", "DS:1e1:1e1:1e1:10:10"), ("DS:a:GAUGE:9:-1.50:nan", "DS:a:GAUGE:9:-1.5:U"), ("RRA:1e1:1e1:1e1:1e1", "RRA:1e1:10:10:10"),
                             ("RRA:MAX:0.50", "RRA:MAX:0.5"), ("RRA:", "RRA:"), ("DS:", "DS:"), ("DS:a:b:c:1.0:1.0:1.0", "DS:a:b:c:1:1:1")):
            for at in range(3):
                words = ["DS:x:GAUGE:9:U:U"] * at + [word] + ["RRA:MAX:0:1:1"]
                self.assertEqual(self.recorder.create(self.file, 300, 1, *words), "")
                self.assertEqual(self.given().decode().split("\0"), ["create", "--step=300", "--start=1", *words[:at], wanted, *words[at + 1:]])
        before = self.library.call_count()
        for word in ("DS", "ds:a", "RRA", "XRRA:", "D:S", "RR:A", "", "-", "DSS:"):
            for others in ((), ("RRA:MAX:0:1:1",)):
                self.assertEqual(self.recorder.create(self.file, 10, 1, *others, word), f"can't parse argument '{word}'")
        self.assertEqual(self.library.call_count(), before)

    def test_each_byte_of_a_word(self) -> None:
        """A word has what is printable, and bytes of other languages: no spaces, and no control characters."""
        for byte in (*range(1, 34), *range(126, 130), 255):
            text = bytes([byte])
            sample = (ctypes.c_char_p * 2)(b"10:" + text, None)
            status = self.library.rrd_update_r(self.file.encode(), None, 1, sample)
            self.assertEqual(status, -1 if byte <= 32 or byte == 127 else 0, byte)
            names = self.library.rrd_update_r(self.file.encode(), b"a" + text, 0, sample)
            self.assertEqual(names, status, byte)

    def test_faults(self) -> None:
        """The system's reason with the path, or rrdi's own text; of refused samples the first one, by its number."""
        reason = os.strerror(errno.EACCES)
        for fault, number, refused, output, of_update, of_create in (
                (CANNOT_OPEN, errno.EACCES, 0, "cannot open", f"opening '{self.file}': {reason}", f"opening '{self.file}': {reason}"),
                (CANNOT_WRITE, errno.EACCES, 0, "x", f"writing '{self.file}': {reason}", f"writing '{self.file}': {reason}"),
                (CANNOT_OPEN, 0, 0, "cannot open", f"{self.file}: cannot open", f"{self.file}: cannot open"), (CANNOT_WRITE, 0, 0, "x", f"{self.file}: cannot write", f"{self.file}: x"),
                (NO_MEMORY, 0, 0, "x", f"{self.file}: out of memory", f"{self.file}: x"), (BAD_BLOCK, errno.EACCES, 0, "file: bad block at 6", f"{self.file}: file: bad block at 6", f"{self.file}: file: bad block at 6"),
                (0, 0, 1, "ERROR: why\nERROR: other\n", f"{self.file}: sample 2 of 1: why", ""), (0, 0, 2, "why", f"{self.file}: sample 2 of 1: why", ""),
                (0, 0, 1, "ERROR:", f"{self.file}: sample 2 of 1: ERROR:", ""), (0, 0, 1, "\n", f"{self.file}: sample 2 of 1: ", ""), (0, errno.EACCES, 0, "text", "", "")):
            self.answer(fault, number, refused, output)
            self.assertEqual((self.recorder.update(self.file, None, "10:1"), self.recorder.create(self.file, 10, 1, "RRA:MAX:0:1:1")), (of_update, of_create), (fault, output))

    def test_no_memory(self) -> None:
        """Whichever block is refused, a call says so and changes nothing; the next one has memory again."""
        self.recorder.update("/nowhere", None, "10:1")  # whose error stays if a call says nothing
        calls: List[Tuple[Callable[[], str], int]] = [(lambda: self.recorder.update(self.file, "a" * 300, "10:" + "9" * 700 + ".9999995", "20:1"), 3),
                            (lambda: self.recorder.create(self.file, 10, 1, "DS:a:GAUGE:9:U:" + "9" * 400, "RRA:MAX:0:1:1"), 2)]
        for call, least in calls:
            refused = 0
            while True:
                before = self.library.call_count()
                self.library.set_blocks(ctypes.c_long(refused))
                error = call()
                self.library.set_blocks(ctypes.c_long(-1))
                if not error:
                    break
                self.assertEqual((error, self.library.call_count()), ("out of memory", before))
                refused += 1
            self.assertGreaterEqual(refused, least)
            self.assertEqual(self.library.call_count(), before + 1)

    def test_an_answer_of_any_length(self) -> None:
        """Its end is that of the text, also if the text fills the room."""
        for count in (0, 1, 2):
            self.answer(0, 0, 0, "")
            self.recorder.update(self.file, None, *["10:1"] * count)
            room = self.library.last_room()
            for length in (0, 1, room - 1, room):
                self.answer(BAD_BLOCK, 0, 0, "y" * length)
                self.assertEqual(self.recorder.update(self.file, None, *["10:1"] * count), f"{self.file}: {'y' * length}"[:1_023])

    def answer(self, fault: int, number: int, refused: int, output: str) -> None:
        self.kept = ctypes.create_string_buffer(output.encode())
        self.library.set_answer(ctypes.c_uint32(fault), ctypes.c_uint32(number), ctypes.c_uint64(refused), self.kept)

    def test_an_error_is_that_of_the_last_call(self) -> None:
        create = ("DS:g:GAUGE:9:U:U", "RRA:MAX:0.5:1:4")
        self.answer(0, 0, 1, "ERROR: not later than 10\n")
        self.assertEqual(self.recorder.update(self.file, None, "5:1", "6:1"), f"{self.file}: sample 2 of 2: not later than 10")
        self.answer(CANNOT_OPEN, errno.EAGAIN, 0, "cannot open")
        self.assertEqual(self.recorder.create(self.file, 10, 5, *create), f"opening '{self.file}': Resource temporarily unavailable")
        self.answer(0, 0, 0, "")
        for is_update in (True, False):
            self.recorder.update("/nowhere", None, "10:1")
            self.assertEqual(self.library.rrd_test_error(), 1)
            if is_update:
                self.recorder.update(self.file, None, "10:1")
            else:
                self.recorder.create(self.file, 10, 5, *create)
            self.assertEqual((self.library.rrd_test_error(), self.recorder.error()), (0, ""))

    def test_there_is_room_for_each_refusal(self) -> None:
        """Each of the samples can be refused, with the longest message that one may have."""
        self.recorder.create(self.file, 10, 1, "RRA:MAX:0:1:1")
        self.assertTrue(256 <= self.library.last_room() < 512)
        self.library.last_refused_room.restype = ctypes.c_size_t
        for count in (1, 64, 1_500):
            self.recorder.update(self.file, None, *["10:1"] * count)
            self.assertEqual(self.library.last_refused_room(), 1)
            self.assertGreaterEqual(self.library.last_room(), count * len("ERROR: unreadable sample 18446744073709551615\n"))


class KeptCalls(NothingStaysOpen):
    """A library that keeps the words of each call, and accepts them."""

    def __init__(self) -> None:
        self.calls: List[Tuple[bytes, ...]] = []

    def run_file(self, path: bytes, words: bytes, now: int, wait: int, syncs: bool) -> Answer:
        self.calls.append((path, *words.split(b"\0")))
        return DONE

    def batch_file(self, path: bytes, lines: bytes, now: int, wait: int, syncs: bool) -> Answer:
        self.calls.append((path, *lines.split(b"\n")))
        return DONE

    def run(self, data: Optional[bytes], words: bytes, now: int) -> Answer:
        raise NotImplementedError

    def batch(self, data: Optional[bytes], lines: bytes, now: int) -> Answer:
        raise NotImplementedError


class Compat(unittest.TestCase):
    def test_each_word_stays_one(self) -> None:
        library = KeptCalls()
        use_library(self, library)
        for word in BREAKING:
            if not word.startswith("-"):
                rrdtool.update("f\n.rrd", word)
                self.assertEqual((library.calls[-1][0], len(library.calls[-1])), (b"f\n.rrd", 3), word)
            rrdtool.update("f", "-t", word, "10:1")
            self.assertEqual(library.calls[-1], (b"f", b"update", b"--template", word.encode(), b"10:1"))
            rrdtool.create("f", "-b", "1000000000", "DS:g:GAUGE:9:U:U" + word, "RRA:MAX:0.5:1:4")
            self.assertEqual(library.calls[-1], (b"f", b"create", b"--start", b"1000000000", b"DS:g:GAUGE:9:U:U" + word.encode(),
                                                 b"RRA:MAX:0.5:1:4"))
        for word in ("10:1\0create", "\0"):
            with self.subTest(word=word), self.assertRaises(OperationalError):
                rrdtool.update("f", word)


class Programs(ToolCase):
    """rrdi-rrdtool, RRDs.pm and tools/program.py over a program that keeps its arguments."""

    def setUp(self) -> None:
        super().setUp()
        self.env.pop("RRDI_LIBRARY", None)
        self.env["RRDI"] = self.stub("kept", f'printf "%s\\0" "$@" >>"{self.folder}/kept"; echo >>"{self.folder}/kept"; echo 7')

    def kept(self) -> List[bytes]:
        """Returns the arguments of the calls since the last time."""
        kept = self.folder / "kept"
        data = kept.read_bytes() if kept.exists() else b""
        kept.unlink(missing_ok=True)
        return data.split(b"\0")

    def test_arguments(self) -> None:
        for word in BREAKING:
            if word.startswith("-"):
                continue
            with self.subTest(word=word):
                self.assertEqual(self.tool("rrdi-rrdtool", "update", "f\n.rrd", word).status, 0)
                kept = self.kept()
                self.assertEqual((kept[:2], len(kept)), ([b"update", b"f\n.rrd"], 4))

    @unittest.skipUnless(PERL, "perl is not installed")
    def test_perl(self) -> None:
        assert PERL
        for word in BREAKING:
            if word.startswith("-"):
                continue
            with self.subTest(word=word):
                ran = self.run_command([PERL, f"-I{TOP}/perl", "-MRRDs", "-e", "RRDs::update(@ARGV); print RRDs::error() // 'none'",
                                        "f.rrd", word])
                kept = self.kept()
                self.assertEqual((ran.out, kept[:2], len(kept)), ("none", [b"update", b"f.rrd"], 4))

    def test_lines_of_a_batch(self) -> None:
        from unittest import mock
        with mock.patch.object(program, "answered") as answered:
            for line in ("update 10:1\nrevert", "update 10:1\0", "update 10:1\r", "update \x7f", "update \u00e4", "x" * 65_537):
                with self.subTest(line=line[:20]), self.assertRaisesRegex(Failure, "a line of a batch"):
                    program.batch("f", ["update 5:1", line])
            answered.assert_not_called()
