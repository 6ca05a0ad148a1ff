# SPDX-License-Identifier: MIT OR Apache-2.0
"""Tests of the words of a command, and of the times and spans of Python that become words."""
from __future__ import annotations

import datetime
import numbers
import unittest
from datetime import timedelta, timezone
from fractions import Fraction
from typing import Any, List, Tuple, Union
from unittest import mock

import doubles  # noqa: F401 -- it puts the package on the path
import rrdi
from rrdi import errors, times, words
from rrdi.escaping import escaped
from rrdi.limits import LONGEST_LINE

UTC = timezone.utc


class Whole:
    """A whole number that is no `int`, such as those of numpy."""

    def __int__(self) -> int:
        return 25


numbers.Integral.register(Whole)


class Times(unittest.TestCase):
    def test_seconds(self) -> None:
        """A fraction is dropped, also below 0, as by the program's N."""
        zone = timezone(timedelta(hours=2))
        for time, seconds in ((0, 0), (-5, -5), (2.0, 2), (2.999, 2), (-0.5, -1), (Fraction(7, 2), 3), (Whole(), 25), (datetime.datetime(1970, 1, 1, 0, 0, 1, tzinfo=UTC), 1),
                              (datetime.datetime(1970, 1, 1, 2, 0, 0, 999_999, zone), 0), (datetime.datetime(1969, 12, 31, 23, 59, 59, 999_999, UTC), -1),
                              (datetime.datetime(2286, 11, 20, 17, 46, 39, 999_999, UTC), 9_999_999_999)):
            self.assertEqual(times.seconds_of(time), seconds, time)  # type: ignore[arg-type]
            self.assertIs(type(times.seconds_of(time)), int)  # type: ignore[arg-type]

    def test_no_seconds(self) -> None:
        for time, kind, why in ((True, TypeError, "a time must be a number or a datetime, not True"), (None, TypeError, "a time must be a number or a datetime, not NoneType"),
                                ("25", TypeError, "a time must be a number or a datetime, not str"),
                                (datetime.date(2024, 1, 1), TypeError, "a time must be a number or a datetime, not date"), (1j, TypeError, "a time must be a number or a datetime, not complex"),
                                (float("nan"), ValueError, "nan is no time"), (float("inf"), ValueError, "inf is no time"),
                                (datetime.datetime(2024, 1, 1), ValueError, "the datetime 2024-01-01 00:00:00 has no zone; write datetime.now")):
            with self.assertRaisesRegex(kind, f"^{why}"):
                times.seconds_of(time)  # type: ignore[arg-type]

    def test_words_of_times(self) -> None:
        for time, word in ((None, None), ("", ""), ("end-1h", "end-1h"), (0, 0), (25.5, 25), (datetime.datetime(1970, 1, 2, tzinfo=UTC), 86_400)):
            self.assertEqual(times.time_word(time), word)

    def test_words_of_spans(self) -> None:
        for span, word in ((None, None), ("", ""), ("2d", "2d"), (0, 0), (60, 60), (Whole(), 25), (timedelta(minutes=2), 120),
                           (timedelta(0), 0), (timedelta(seconds=-5), -5)):
            self.assertEqual(times.span_word(span), word)  # type: ignore[arg-type]
        self.assertIs(type(times.span_word(Whole())), int)  # type: ignore[arg-type]
        for wrong in (True, False, 1.0, b"1", [1]):
            with self.assertRaisesRegex(TypeError, f"^a span must be whole seconds or a timedelta, not {type(wrong).__name__}$"):
                times.span_word(wrong)  # type: ignore[arg-type]
        for micros in (1, 999_999, -1, 1_000_001):
            with self.assertRaisesRegex(ValueError, f"^a span must be whole seconds, not {timedelta(microseconds=micros)}$"):
                times.span_word(timedelta(microseconds=micros))

    def test_now(self) -> None:
        for now, seconds in ((-5, 0), (0, 0), (1, 1), (2, 2), (25.5, 25), (-0.5, 0)):
            self.assertEqual(times.moment(now), seconds)
        for clock, seconds in ((1_700_000_000.9, 1_700_000_000), (1.5, 1), (0.5, 0), (-5.0, 0)):
            with mock.patch("rrdi.words.clock", return_value=clock):
                self.assertEqual((times.moment(None), words.present(None)), (seconds, seconds))


class Words(unittest.TestCase):
    def refused(self, error: errors.Usage) -> None:
        self.assertEqual((error.reason, error.path, error.fault, error.at), ("usage", None, errors.USAGE, None))

    def test_flat(self) -> None:
        given: Any = ["a", 5, ["b", ("c", -1, [])], ()]
        self.assertEqual(words.flat(given), ["a", "5", "b", "c", "-1"])
        for wrong in (True, False, 1.5, None, b"a", {"a": 1}, Whole()):
            with self.assertRaisesRegex(TypeError, f"a word must be .*, not {type(wrong).__name__}$"):
                words.flat(["a", [wrong]])  # type: ignore[list-item]

    def test_options(self) -> None:
        self.assertEqual(words.options(step=0, start=None, end="", pick=-1), ["--step=0", "--end=", "--pick=-1"])

    def test_encoded(self) -> None:
        self.assertEqual([words.encoded(given) for given in (["a"], ["a", "", "b"], ["ä", "-1"])],
                         [b"a", b"a\0\0b", "ä".encode() + b"\0-1"])
        for wrong in (["a\0b"], ["\0"], ["a", "b\0"], ["\udcff"]):
            with self.assertRaises(rrdi.Usage) as raised:
                words.encoded(wrong)
            self.refused(raised.exception)

    def test_lines(self) -> None:
        self.assertEqual(words.line_of(["update", "5:1", "!", "~"]), "update 5:1 ! ~")
        longest = ["x" * (LONGEST_LINE - 2), "y"]
        self.assertEqual(len(words.line_of(longest)), LONGEST_LINE)
        for wrong in ([*longest, ""], ["x" * LONGEST_LINE, "y"], ["x" * (LONGEST_LINE + 1)], ["a b"], ["a", ""], ["a\n"], ["ä"],
                      ["\x7f"], ["a\t"]):
            with self.assertRaises(rrdi.Usage) as raised:
                words.line_of(wrong)
            self.refused(raised.exception)

    def test_paths(self) -> None:
        paths: List[Tuple[Union[str, bytes], bytes]] = [("ä", "ä".encode()), (b"\xff", b"\xff"), ("\udcff", b"\xff")]
        for path, found in paths:
            self.assertEqual(words.encoded_path(path), found)
        for wrong in ("a\0b", "\0"):
            self.assertRaises(ValueError, words.encoded_path, wrong)

    def test_texts(self) -> None:
        self.assertEqual((words.as_text(b"a\xff"), words.as_bytes("a\udcff")), ("a\udcff", b"a\xff"))

    def test_what_no_call_takes(self) -> None:
        """What is refused before the library sees it is explained too; a command without a word is left to the library."""
        for given, detail in ((["last", "\udcff"], "an argument is not in UTF-8"), (["last\0", "x"], "a word has a zero byte")):
            with self.assertRaises(errors.Usage) as raised:
                words.encoded(given)
            self.assertEqual((raised.exception.reason, raised.exception.detail), ("usage", detail))
        self.assertEqual((words.encoded([]), words.encoded([""]), words.encoded(["", "a"])), (b"", b"", b"\0a"))

    def test_escaped(self) -> None:
        """The program escapes the same characters, in the same way."""
        for text, shown in (("", ""), ("plain 'text' ~ größer \U0001f600", "plain 'text' ~ größer \U0001f600"),
                            ("a\nb\rc\td", "a\\nb\\rc\\td"), ("\0\x1b[2J\x7f", "\\u{0}\\u{1b}[2J\\u{7f}"),
                            ("\x80\x9f\xa0\xad", "\\u{80}\\u{9f}\xa0\\u{ad}"),
                            ("\u200b\u200f\u2010", "\\u{200b}\\u{200f}\u2010"),
                            ("\u2027\u2028\u2029\u202a\u202e\u202f", "\u2027\\u{2028}\\u{2029}\\u{202a}\\u{202e}\u202f"),
                            ("\u2066\u2069\u061c\ufeff", "\\u{2066}\\u{2069}\\u{61c}\\u{feff}"),
                            ("\u034f\u115e\u115f\u1161\u17b5\u180b\u3164", "\\u{34f}\u115e\\u{115f}\u1161\\u{17b5}\\u{180b}\\u{3164}"),
                            ("\ufe0f\ufe10\uffa0\ufff0\ufffc\U0001d173", "\\u{fe0f}\ufe10\\u{ffa0}\\u{fff0}\ufffc\\u{1d173}"),
                            ("\U000e0041\U0010ffff", "\\u{e0041}\U0010ffff"), ("\udcff\udc80", "\\xff\\x80"),
                            # Other surrogates stand for no byte.
                            ("\ud800\udc7f\udd00\udfff", "\\u{d800}\\u{dc7f}\\u{dd00}\\u{dfff}")):
            self.assertEqual(escaped(text), shown)


if __name__ == "__main__":
    unittest.main()
