# SPDX-License-Identifier: MIT OR Apache-2.0
"""Tests of `rrdi.fetching`: words of a fetch, numbers for the C library, and the step of one row. No program is needed."""
from __future__ import annotations

import datetime
import unittest
from decimal import Decimal
from typing import Any, List, Tuple

import doubles  # noqa: F401
from rrdi.errors import OperationalError
from rrdi.fetching import DAY, TRIES, Asked, fetched, take_option, with_next_row, with_step
from rrdi.results import Table

NOW = 1_700_000_000
UTC = datetime.timezone.utc


class Numbers(unittest.TestCase):
    """What the C library is asked for: the place of a function, the resolution, the start and the end."""

    def test_what_is_not_given(self) -> None:
        """The finest rows, of the day before now, or before the end."""
        self.assertEqual(DAY, 86_400)
        for asked, wanted in ((Asked("AVERAGE", None, None, None), (0, 1, NOW - DAY, NOW)), (Asked("MIN", 5, None, 100_000), (1, 5, 13_600, 100_000)),
                              (Asked("MAX", None, 7, None), (2, 1, 7, NOW)), (Asked("LAST", 0, None, DAY), (3, 0, 0, DAY)),
                              (Asked("LAST", 0, None, DAY + 1), (3, 0, 1, DAY + 1)), (Asked("LAST", 0, None, DAY - 1), (3, 0, 0, DAY - 1)), (Asked("LAST", 0, 0, 0), (3, 0, 0, 0)),
                              (Asked("LAST", datetime.timedelta(minutes=5), datetime.datetime(1970, 1, 2, tzinfo=UTC), 2**63 - 1), (3, 300, DAY, 2**63 - 1))):
            self.assertEqual(asked.numbers(NOW), wanted, asked)

    def test_what_is_no_number(self) -> None:
        for asked in (Asked("AVG", None, None, None), Asked("AVERAGE", "5", None, None), Asked("AVERAGE", None, "5", None), Asked("AVERAGE", None, None, "5"),
                      Asked("AVERAGE", -1, None, None), Asked("AVERAGE", None, -1, None), Asked("AVERAGE", None, 0, -1), Asked("AVERAGE", 2**63, None, None),
                      Asked("AVERAGE", None, 2**63, None), Asked("AVERAGE", None, None, 2**63), Asked(["AVERAGE"], None, None, None)):
            self.assertIsNone(asked.numbers(NOW), asked)


class Options(unittest.TestCase):
    def test_each_spelling(self) -> None:
        """As the program takes it: a letter or a name, with its value in the next word or in the same one."""
        for words, value, others in (
                ("a -e 5 b", "5", "a b"), ("a --end 5 b", "5", "a b"), ("a --end=5 b", "5", "a b"), ("a -e5 b", "5", "a b"), ("a -e=5 b", "5", "a b"), ("-e5", "5", ""),
                ("-e 5", "5", ""), ("--end=", "", ""), ("a --end= b", "", "a b"), ("a -e= b", "", "a b"), ("--end=a=b", "a=b", ""), ("-ea=b", "a=b", ""), ("-e 1 -e 2", "1", "-e 2"),
                ("-e -e 5", "-e", "5"), ("a b", None, "a b"), ("", None, ""), ("a -e", None, "a -e"), ("a --end", None, "a --end"), ("-- -e 5", None, "-- -e 5"),
                ("a -- --end=5", None, "a -- --end=5"), ("-e 5 -- -e 6", "5", "-- -e 6"), ("--ending=5", None, "--ending=5"), ("e 5", None, "e 5"), ("-s 5 -e6", "6", "-s 5")):
            given = words.split()
            self.assertEqual(take_option(given, "-e", "--end"), (value, others.split()), words)
            self.assertEqual(given, words.split())

    def test_up_to_the_next_row(self) -> None:
        """The same archive, from the same start: that of the call, or the day before its end."""
        for words, wanted in (("LAST", f"--start={NOW - DAY} --end=500 LAST"), ("LAST -e 90000", "--start=3600 --end=500 LAST"), ("LAST --end=5 -r 7", "--start=0 --end=500 LAST -r 7"),
                              ("LAST -s 7 -e 9", "--start=7 --end=500 LAST"), ("-s7 LAST", "--start=7 --end=500 LAST"), ("LAST -e 86401", "--start=1 --end=500 LAST"),
                              ("LAST -e 86399", "--start=0 --end=500 LAST")):
            self.assertEqual(with_next_row(words.split(), 500, NOW), wanted.split(), words)


class Steps(unittest.TestCase):
    """What `fetch` prints has a line of names and a line for each row: the time at its end, and its values."""

    def answers(self, *texts: str) -> Tuple[Any, List[List[str]]]:
        asked: List[List[str]] = []

        def run(words: List[str]) -> str:
            asked.append(words)
            return texts[len(asked) - 1]
        return run, asked

    def test_two_rows_tell_the_step(self) -> None:
        run, asked = self.answers()
        for text, step in (("time: g\n10: 1.000000\n20: 2.000000\n", 10), ("time: g\n10: 1.000000\n17: 2.000000\n24: U\n", 7)):
            self.assertEqual(with_step(run, ["LAST"], NOW, text)[1], step)
        self.assertEqual(asked, [])

    def test_one_row(self) -> None:
        """The next row is asked for, from the same start; it is not among the rows."""
        run, asked = self.answers("time: g\n10: 1.000000\n40: 2.000000\n")
        rows, step = with_step(run, ["LAST", "-s", "5", "-e", "15"], NOW, "time: g\n10: 1.000000\n")
        self.assertEqual((list(rows.times), list(rows.words), step), ([10], [["1.000000"]], 30))
        self.assertEqual(asked, [["fetch", "--start=5", "--end=10", "LAST"]])

    def test_settings_that_change_meanwhile(self) -> None:
        """Both queries are made again, ten times at most."""
        one, two, three, other = "time: g\n10: 1.000000\n", "time: g\n10: 1.000000\n20: 2.000000\n", "time: g\n10: 1.000000\n20: 2.000000\n30: U\n", "time: g\n7: 1.000000\n14: U\n"
        for first in (other, three, one):
            run, asked = self.answers(first, one, two)
            rows, step = with_step(run, ["LAST"], NOW, one)
            self.assertEqual((list(rows.times), step, len(asked)), ([10], 10, 3))
            self.assertEqual(asked[1], ["fetch", "LAST"])
        run, asked = self.answers(other, two)
        rows, step = with_step(run, ["LAST"], NOW, one)
        self.assertEqual((list(rows.times), step), ([10, 20], 10))
        run, asked = self.answers(*[other, one] * TRIES)
        with self.assertRaisesRegex(OperationalError, "^the archives changed while they were read$"):
            with_step(run, ["LAST"], NOW, one)
        self.assertEqual((TRIES, len(asked)), (10, 19))

    def test_a_table(self) -> None:
        cases: List[Tuple[Any, Any]] = [(float, [(1.5,), (None,)]), (Decimal, [(Decimal("1.500000"),), (None,)])]
        for kind, cells in cases:
            run, asked = self.answers("time: g\n10: 1.500000\n40: U\n")
            self.assertEqual(fetched(run, ["LAST"], NOW, kind), Table((-20, 40, 30), ("g",), cells))
            self.assertEqual(asked, [["fetch", "LAST"]])


if __name__ == "__main__":
    unittest.main()
