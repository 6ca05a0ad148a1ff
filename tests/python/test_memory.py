# SPDX-License-Identifier: MIT OR Apache-2.0
"""Tests of `rrdi.memory` with a library that keeps what it is asked, and gives the answers that a test wants."""
from __future__ import annotations

import errno
import time
import unittest
from typing import Any, Callable, List, Optional, Tuple

from cases import use_library
from doubles import NothingStaysOpen

import rrdi
from rrdi.errors import BAD_WORD, CANNOT_OPEN, REFUSED, TRUNCATED
from rrdi.protocol import DONE, Answer

Asked = Tuple[str, Optional[bytes], bytes, int]


class Keeping(NothingStaysOpen):
    """A library that keeps the calls in memory."""

    def __init__(self) -> None:
        self.asked: List[Asked] = []
        self.answer = DONE

    def run(self, data: Optional[bytes], words: bytes, now: int) -> Answer:
        self.asked.append(("run", data, words, now))
        return self.answer

    def batch(self, data: Optional[bytes], lines: bytes, now: int) -> Answer:
        self.asked.append(("batch", data, lines, now))
        return self.answer

    def run_file(self, path: bytes, words: bytes, now: int, wait: int, syncs: bool) -> Answer:
        raise AssertionError("a file")

    def batch_file(self, path: bytes, lines: bytes, now: int, wait: int, syncs: bool) -> Answer:
        raise AssertionError("a file")


class Memory(unittest.TestCase):
    def setUp(self) -> None:
        self.library = Keeping()
        use_library(self, self.library)

    def test_words(self) -> None:
        """The words go to the library, samples of an update as their texts, with the time that was given."""
        tries: List[Tuple[Tuple[Any, ...], bytes]] = [
            (("last",), b"last"), (("update", (10, 1.5)), b"update\00010:1.5"),
            (("update", [(10, 1.5), (20, None)], "30:7"), b"update\00010:1.5\00020:U\00030:7"),
            (("fetch", "LAST", ["-s", 5]), b"fetch\0LAST\0-s\0005"), ((), b"")]
        for words, asked in tries:
            self.library.asked.clear()
            rrdi.run(b"data", *words, now=77)
            self.assertEqual(self.library.asked, [("run", b"data", asked, 77)])
        before = int(time.time())
        rrdi.run(b"data", "last")
        self.assertTrue(before <= self.library.asked[-1][3] <= time.time())

    def test_what_comes_back(self) -> None:
        """The new database, or the same object if nothing has changed it; and what was printed."""
        data = bytes(bytearray(b"data"))
        self.library.answer = DONE._replace(output=b"20\n")
        found = rrdi.run(data, "last")
        self.assertEqual(found, (b"data", "20\n"))
        self.assertIs(found.data, data)
        self.library.answer = DONE._replace(data=b"new")
        self.assertEqual((rrdi.run(data, "update", "10:1"), rrdi.run(None, "create")), ((b"new", ""), (b"new", "")))

    def test_batches(self) -> None:
        self.library.answer = DONE._replace(data=b"new", output=b"ERROR: bad value\n10\n", refused=(2,),
                                            explanation=b"line 2: why\n")
        found = rrdi.run_batch(b"data", ["last", "update 10:x", "last"], now=77)
        self.assertEqual(self.library.asked, [("batch", b"data", b"last\nupdate 10:x\nlast", 77)])
        refused = rrdi.RefusedLine(2, "update 10:x", "bad value", "why")
        self.assertEqual(found, (b"new", "ERROR: bad value\n10\n", (refused,)))
        self.library.answer = DONE
        data = bytes(bytearray(b"data"))
        for given in (data, None):
            self.assertIs(rrdi.run_batch(given, "last").data, given)

    def test_faults(self) -> None:
        """A database is lacking, whatever the system said; an explanation belongs to some of the faults only."""
        for answer, kind, at, detail in (
                (Answer(CANNOT_OPEN, 0, 0, b"cannot open"), rrdi.NoDatabase, None, ""),
                (Answer(CANNOT_OPEN, errno.EACCES, 0, b"cannot open"), rrdi.NoDatabase, None, ""),
                (Answer(REFUSED, 0, 0, b"nothing to revert", explanation=b"why"), rrdi.Refused, None, "why"),
                (Answer(BAD_WORD, 0, 0, b"unreadable sample 1", explanation=b"why"), rrdi.Unreadable, None, "why"),
                (Answer(TRUNCATED, 0, 9, b"file: truncated at 9", explanation=b"why"), rrdi.Damaged, 9, "")):
            self.library.answer = answer
            functions: Tuple[Callable[..., object], ...] = (rrdi.run, rrdi.run_batch)
            for function in functions:
                with self.subTest(answer=answer), self.assertRaises(kind) as raised:
                    function(b"data", "last")
                error = raised.exception
                self.assertEqual((type(error), error.path, error.system_error), (kind, None, 0))
                self.assertEqual((error.at, error.detail), (at, detail))
