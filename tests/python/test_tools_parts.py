# SPDX-License-Identifier: MIT OR Apache-2.0
"""Tests of the small parts that tools share, at each of their boundaries: words, functions, numbers, progress, hints, and the columns
of a picture. No program is needed."""
from __future__ import annotations

import fcntl
import io
import math
import unittest
from typing import Any, Dict, List, Optional, Tuple
from unittest import mock

from cases import DataCase

from rrdi.locks import Identity, identity_at, open_regular
from rrdi.tools import exponents
from rrdi.tools.command_line import Failure, Progress, WrongArguments
from rrdi.tools.fixing import held
from rrdi.tools.options import function_at, given_words, number_of
from rrdi.tools.plotting.columns import (Columns, Curve, NothingToDraw, chosen, columns_of, filled, group_size, grouped, known, limits, segments, series_of,
                                         since_known)
from rrdi.tools.plotting.legend import Legend, Place
from rrdi.tools.plotting.numbers import Axis, axis, number_text, power_of

NAN = math.nan


class LockedFiles(DataCase):
    """A file that a session has locked is opened once more; one that another program has put in its place is not."""

    def read_by(self, before: Identity) -> Tuple[bool, List[io.FileIO]]:
        """Returns whether the file was given, and what was opened."""
        opened: List[io.FileIO] = []

        def open_it(path: str) -> io.FileIO:
            opened.append(open_regular(path))
            return opened[-1]
        session: Any = None
        with mock.patch.object(held, "open_regular", open_it):
            file = held.read_by(session, str(self.folder / "f"), before)
        self.assertIs(file, opened[0] if file else None)
        return file is not None, opened

    def test_files(self) -> None:
        path = self.folder / "f"
        self.assertEqual(self.read_by((0, 0)), (False, []))
        path.write_bytes(b"")
        identity = identity_at(bytes(path))
        assert identity is not None
        for kind, before, is_given in ((fcntl.LOCK_SH, identity, True), (fcntl.LOCK_EX, identity, True), (fcntl.LOCK_UN, identity, False),
                                       (fcntl.LOCK_EX, (identity[0], identity[1] + 1), False), (fcntl.LOCK_EX, (identity[0] + 1, identity[1]), False)):
            with open(path, "rb") as session:
                fcntl.flock(session, kind)
                was_given, (file,) = self.read_by(before)
                self.assertEqual((was_given, file.closed), (is_given, not is_given), (kind, before))
                file.close()

    def test_what_is_no_file(self) -> None:
        (self.folder / "f").mkdir()
        with self.assertRaisesRegex(Failure, f"^{self.folder / 'f'}: "):
            self.read_by((0, 0))


class Words(unittest.TestCase):
    def test_options_between_others(self) -> None:
        names = {"-s": "start", "--start": "start", "--end": "end"}
        for words, values, flags, others in (
                ("", {}, "", ""), ("a b", {}, "", "a b"), ("a -s 5 b", {"start": "5"}, "", "a b"), ("-s=5", {"start": "5"}, "", ""), ("--start=5 --start=6", {"start": "6"}, "", ""),
                ("--start= a", {"start": ""}, "", "a"), ("--start a=b", {"start": "a=b"}, "", ""), ("--start=a=b", {"start": "a=b"}, "", ""), ("-f a -f", {}, "-f -f", "a"),
                ("--end -f", {"end": "-f"}, "", ""), ("- a", {}, "", "- a"), ("-f --end 1 a --flag b", {"end": "1"}, "-f --flag", "a b"), ("a=b", {}, "", "a=b")):
            given = given_words(words.split(), names, {"-f", "--flag"})
            self.assertEqual((given.values, given.flags, given.others), (values, flags.split(), others.split()), words)
        for wrong in (["-x"], ["a", "-s"], ["--end"], ["--ends=1"], [""], ["a", ""], ["--"], ["-f=1"], ["--flag="]):
            with self.assertRaises(WrongArguments, msg=str(wrong)):
                given_words(wrong, names, {"-f", "--flag"})

    def test_functions(self) -> None:
        for words, at, function in (("f AVERAGE", 1, "AVERAGE"), ("MIN f", 0, "MIN"), ("f", 1, None), ("", 0, None), ("f MAX LAST", 2, "LAST"), ("f MAX", 2, None)):
            self.assertEqual(function_at(words.split(), at), function)
        for word in ("average", "AVG", "", "f"):
            with self.assertRaisesRegex(WrongArguments, f"^the function '{word}' must be AVERAGE, MIN, MAX or LAST$"):
                function_at([word], 0)

    def test_numbers(self) -> None:
        cases: List[Tuple[Dict[str, str], Optional[int]]] = [({}, None), ({"jobs": "0"}, 0), ({"jobs": "007"}, 7), ({"jobs": "9999999999"}, 9_999_999_999), ({"other": "x"}, None)]
        for values, number in cases:
            self.assertEqual(number_of(values, "jobs"), number)
        for text in ("", "x", "-1", "+1", "1.0", "10000000000", "1 ", "\u0661"):
            with self.assertRaisesRegex(WrongArguments, "^--jobs must be a whole number, not "):
                number_of({"jobs": text}, "jobs")


class Exponents(unittest.TestCase):
    def test_digits(self) -> None:
        """Ten after the point, as RRDtool prints them, or those with which the text is the same number."""
        for value, text in ((1.5, "1.5000000000e+00"), (-0.1, "-1.0000000000e-01"), (0.0, "0.0000000000e+00"), (1e300, "1.0000000000e+300"), (None, "NaN"), (NAN, "NaN")):
            self.assertEqual(exponents.exponent(value, "NaN"), text)
        with mock.patch.object(exponents, "_digits", exponents.PRINTED):
            exponents.be_exact()
            for value in (0.1, 1 / 3, 2 / 3 * 1e-300, 123456789.123456789):
                self.assertEqual(float(exponents.exponent(value, "-")), value)
                self.assertEqual(len(exponents.exponent(value, "-").partition("e")[0]), 18)
            self.assertEqual(exponents.exponent(None, "-"), "-")


class Shown(unittest.TestCase):
    """Progress on a terminal."""

    def progress(self, is_terminal: bool = True, **options: Any) -> Tuple[Progress, List[float], io.StringIO]:
        now, terminal = [100.0], io.StringIO()
        patch = mock.patch("sys.stderr", terminal)
        patch.start()
        self.addCleanup(patch.stop)
        with mock.patch.object(terminal, "isatty", lambda: is_terminal):
            return Progress("moving", lambda: now[0], **options), now, terminal

    def said(self, terminal: io.StringIO) -> str:
        text = terminal.getvalue()
        terminal.seek(0)
        terminal.truncate()
        return text

    def test_when(self) -> None:
        """Nothing in the first second, and then five times a second."""
        progress, now, terminal = self.progress()
        for time, is_shown in ((100.0, False), (100.99, False), (101.0, True), (101.1, False), (101.19, False), (101.21, True), (101.3, False), (150.0, True)):
            now[0] = time
            progress.show(5)
            self.assertEqual(self.said(terminal), "\rmoving: 5\x1b[K" if is_shown else "", time)
        progress.end()
        self.assertEqual(self.said(terminal), "\r\x1b[K")
        progress.end()
        self.assertEqual(self.said(terminal), "")

    def test_nothing_to_clear(self) -> None:
        for is_terminal in (True, False):
            progress, now, terminal = self.progress(is_terminal)
            now[0] += 0.5 if is_terminal else 50
            progress.show(5, 10)
            progress.end()
            self.assertEqual(self.said(terminal), "")
        with mock.patch("sys.stderr", None):
            Progress("moving").show(5)

    def test_shares(self) -> None:
        """Of a total in whole hundredths, never more than all; without one the number itself."""
        for has_bar in (False, True):
            for done, total, text, signs in ((0, 7, "0 %", 0), (1, 3, "33 %", 9), (2, 3, "66 %", 19), (3, 3, "100 %", 30), (299, 300, "99 %", 29), (9, 3, "100 %", 30), (1, 101, "0 %", 0),
                                             (1, 100, "1 %", 0), (4, 100, "4 %", 1), (12_345, None, "12,345", None), (12_345, 0, "12,345", None)):
                progress, now, terminal = self.progress(has_bar=has_bar)
                now[0] += 1
                progress.show(done, total)
                bar = f"[{'#' * signs}{' ' * (30 - signs)}] " if has_bar and signs is not None else ""
                self.assertEqual(self.said(terminal), f"\rmoving: {bar}{text}\x1b[K", (done, total))


def texts(numbers: "List[float]") -> List[Optional[float]]:
    """Returns numbers that can be compared: None in place of nan."""
    return [None if math.isnan(number) else number for number in numbers]


class Pictures(unittest.TestCase):
    ROWS = Columns(["a", "b"], 10, [20, 30, 40], [[1.0, NAN, 3.0], [10.0, 20.0, NAN]])

    def test_columns(self) -> None:
        found = columns_of(["a", "b"], {20: ["1", "10"], 30: ["nan", "20"], 40: ["3", "nan"]})
        self.assertEqual((found.names, found.seconds, found.times, [texts(column) for column in found.columns]), (["a", "b"], 10, [20, 30, 40], [[1, None, 3], [10, 20, None]]))
        self.assertEqual((found.begin, found.end), (10, 40))
        cases: List[Dict[int, List[str]]] = [{}, {20: ["1"]}, {20: ["nan"], 30: ["nan"]}]
        for printed in cases:
            with self.assertRaisesRegex(NothingToDraw, "^nothing to draw: no known value, or fewer than two rows$"):
                columns_of(["a"], printed)
        self.assertEqual(columns_of(["a"], {20: ["nan"], 30: ["5"]}).times, [20, 30])

    def test_from_the_first_known_row_on(self) -> None:
        for columns, times in (([[1.0, NAN, 3.0]], [20, 30, 40]), ([[NAN, 2.0, NAN]], [30, 40]), ([[NAN, NAN, 3.0]], [30, 40]), ([[NAN, NAN, NAN]], [30, 40]),
                               ([[NAN, NAN, 3.0], [NAN, 1.0, NAN]], [30, 40]), ([[NAN, NAN, 3.0], [1.0, NAN, NAN]], [20, 30, 40])):
            found = since_known(Columns(["a", "b"][:len(columns)], 10, [20, 30, 40], columns))
            self.assertEqual((found.times, [len(column) for column in found.columns]), (times, [len(times)] * len(columns)), columns)
            self.assertEqual([texts(column) for column in found.columns], [texts(column[-len(times):]) for column in columns])

    def test_sources(self) -> None:
        found = chosen(self.ROWS, ["b", "a"])
        self.assertEqual((found.names, [texts(column) for column in found.columns]), (["b", "a"], [[10, 20, None], [1, None, 3]]))
        with self.assertRaisesRegex(Failure, "^there is no source c, only a, b$"):
            chosen(self.ROWS, ["a", "c"])
        unknown = self.ROWS._replace(columns=[[NAN] * 3, [1.0] * 3])
        self.assertRaises(NothingToDraw, chosen, unknown, ["a"])
        self.assertEqual(chosen(unknown, ["a", "b"]).names, ["a", "b"])

    def curve(self, one: Curve) -> "Tuple[Any, ...]":
        return (one.name, *(texts(column) for column in (one.values, one.bottoms, one.lows, one.highs)), one.last, one.least, one.mean, one.greatest)

    def test_curves_beside_each_other(self) -> None:
        one, other = series_of(self.ROWS, None, None, False)
        self.assertEqual(self.curve(one), ("a", [1, None, 3], [0, 0, 0], [1, None, 3], [1, None, 3], 3, 1, 2, 3))
        self.assertEqual(self.curve(other), ("b", [10, 20, None], [0, 0, 0], [10, 20, None], [10, 20, None], 20, 10, 15, 20))

    def test_a_stack(self) -> None:
        """Each source stands on those before it; an unknown one adds nothing. The numbers of the legend are its own."""
        rows = Columns(["a", "b", "c"], 10, [20, 30, 40], [[1.0, NAN, 3.0], [10.0, 20.0, NAN], [100.0, 200.0, 300.0]])
        one, other, third = series_of(rows, None, None, True)
        self.assertEqual(self.curve(one), ("a", [1, None, 3], [0, 0, 0], [1, None, 3], [1, None, 3], 3, 1, 2, 3))
        self.assertEqual(self.curve(other), ("b", [11, 20, None], [1, 0, 3], [10, 20, None], [10, 20, None], 20, 10, 15, 20))
        self.assertEqual(self.curve(third), ("c", [111, 220, 303], [11, 20, 3], [100, 200, 300], [100, 200, 300], 300, 100, 200, 300))
        self.assertEqual(limits([one, other, third], False), (1, 303))
        self.assertEqual(limits([one, other, third], True), (1, 300))

    def test_bands(self) -> None:
        """An end that is unknown is the value; the least and the greatest value are those of the band."""
        low, high = (self.ROWS._replace(columns=columns) for columns in ([[0.5, NAN, NAN], [9.0, 18.0, NAN]], [[NAN, NAN, 4.0], [11.0, 25.0, NAN]]))
        one, other = series_of(self.ROWS, low, high, False)
        self.assertEqual(self.curve(one), ("a", [1, None, 3], [0, 0, 0], [0.5, None, 3], [1, None, 4], 3, 0.5, 2, 4))
        self.assertEqual(self.curve(other), ("b", [10, 20, None], [0, 0, 0], [9, 18, None], [11, 25, None], 20, 9, 15, 25))
        self.assertEqual((limits([one, other], True), limits([one, other], False)), ((0.5, 25), (1, 20)))
        self.assertEqual((filled([NAN, 2.0], [5.0, 6.0]), known([1.0, NAN, 2.0])), ([5, 2], [1, 2]))

    def test_a_source_of_which_nothing_is_known(self) -> None:
        none, = series_of(Columns(["a"], 10, [20, 30], [[NAN, NAN]]), None, None, False)
        self.assertEqual([math.isnan(number) for number in (none.last, none.least, none.mean, none.greatest)], [True] * 4)

    def test_stretches(self) -> None:
        """Each known row has a point where it begins and one where it ends."""
        one = Curve("a", [1.0, NAN, 3.0, 4.0], [0.1, 0.2, 0.3, 0.4], [0.5, NAN, 2.5, 3.5], [1.5, NAN, 3.5, 4.5], 0, 0, 0, 0)
        rows = Columns(["a"], 10, [20, 30, 40, 50], [one.values])
        self.assertEqual(list(segments(rows, one)), [
            [(10, 0.1, 1.0, 0.5, 1.5), (20, 0.1, 1.0, 0.5, 1.5)],
            [(30, 0.3, 3.0, 2.5, 3.5), (40, 0.3, 3.0, 2.5, 3.5), (40, 0.4, 4.0, 3.5, 4.5), (50, 0.4, 4.0, 3.5, 4.5)]])
        self.assertEqual(list(segments(rows, one._replace(values=[NAN] * 4))), [])
        self.assertEqual([len(stretch) for stretch in segments(rows, one._replace(values=[NAN, 1.0, 1.0, NAN]))], [4])

    def test_groups(self) -> None:
        """At most so many rows: the least number of them that makes rows of parts of a day, or of days, if that is up to four times
        the least one at all."""
        for count, most, seconds, size in ((10, 10, 60, 1), (11, 10, 60, 2), (20, 10, 60, 2), (21, 10, 60, 3), (70, 10, 60, 8), (70, 10, 86_400, 7), (7, 1, 50_000, 7), (2, 1, 43_200, 2),
                                           (3, 1, 21_600, 4), (11, 1, 10_800, 16), (7, 1, 10_800, 8), (600, 100, 25_200, 24), (600, 120, 25_200, 5)):
            rows = Columns(["a"], seconds, [seconds * at for at in range(1, count + 1)], [[1.0] * count])
            self.assertEqual(group_size(rows, most), size, (count, most, seconds))
        rows = Columns(["a", "b"], 10, [30, 40, 50, 60], [[1.0, 2.0, 4.0, NAN], [NAN, NAN, 7.0, 9.0]])
        for function, cells in (("AVERAGE", [[1, 3], [None, 8]]), ("MIN", [[1, 2], [None, 7]]), ("MAX", [[1, 4], [None, 9]]), ("LAST", [[1, 4], [None, 9]])):
            found = grouped(rows, 3, function)
            self.assertEqual((found.seconds, found.times, [texts(column) for column in found.columns]), (30, [30, 60], cells), function)

    def test_places_of_a_legend(self) -> None:
        """Tables side by side have 40 points between them; a table with less than a line more has its last line empty."""
        legend = Legend(["a", "b", "c"], ["last"], [["1"]] * 3, 100, 60, 2)
        self.assertEqual((legend.lines, legend.table_width, legend.height), (2, 160, 63))
        self.assertEqual(list(legend.places()), [Place(16, 1), Place(16, 2), Place(216, 1)])
        self.assertEqual(list(legend._replace(tables=1, heads=[]).places()), [Place(16, 1), Place(16, 2), Place(16, 3)])
        self.assertEqual(list(legend._replace(tables=3).places()), [Place(16, 1), Place(216, 1), Place(416, 1)])

    def test_powers(self) -> None:
        for size, power in ((0, 0), (0.01, 0), (0.0099, -1), (0.001, -1), (0.00099, -2), (1e-9, -2), (999, 0), (999.999, 0), (1_000, 1), (999_999, 1), (1e6, 2), (1e18, 6), (1e30, 6)):
            self.assertEqual((power_of(size), power_of(size, "%")), (power, 0), size)
        for value, text in ((NAN, "-"), (0.0, "0"), (1.0, "1.00"), (-1.0, "-1.00"), (9.999, "10.0"), (99.99, "100"), (12.34, "12.3"), (123.4, "123"), (999.4, "999"), (999.6, "1.00 k"),
                            (-999.6, "-1.00 k"), (1e18, "1.00 E"), (999.6e18, "1000 E"), (0.001, "1.00 m"), (0.0001, "100 \u00b5")):
            self.assertEqual(number_text(value), text)

    def test_axes_of_one_value(self) -> None:
        """The axis of one value is a tenth of it long, or 1; that of two has both."""
        for low, high, values in ((0, 0, [0.0, 0.2, 0.4, 0.6, 0.8, 1.0]), (10, 10, [10.0, 10.2, 10.4, 10.6, 10.8, 11.0]), (-10, -10, [-10.0, -9.8, -9.6, -9.4, -9.2, -9.0]), (0, 10, [0, 2, 4, 6, 8, 10]), (0, 15, [0, 2.5, 5, 7.5, 10, 12.5, 15]), (0, 13, [0, 2.5, 5, 7.5, 10, 12.5, 15]), (0, 16, [0, 5, 10, 15, 20]),
                                  (0, 6, [0, 1, 2, 3, 4, 5, 6]), (0, 7, [0, 2, 4, 6, 8]), (0, 30, [0, 5, 10, 15, 20, 25, 30]), (0, 31, [0, 10, 20, 30, 40]),
                                  (-3, 7, [-4, -2, 0, 2, 4, 6, 8])):
            found = axis(low, high)
            self.assertEqual([round(value, 9) for value in found.values], values)
            self.assertEqual((found.low, found.high), (found.values[0], found.values[-1]))

    def test_other_ends(self) -> None:
        """An end that is given stands; marks beyond the ends go, but for those at an end."""
        found = Axis([0, 10, 20, 30], ["a", "b", "c", "d"], 0, 30)
        for low, high, texts_left in ((None, None, "abcd"), (0, 30, "abcd"), (10, 20, "bc"), (10.1, 19.9, ""), (9.9, 20.1, "bc"), (None, 10, "ab"), (20, None, "cd"), (-50, 50, "abcd"), (-5, 5, "a")):
            cut = found.ending_at(low, high)
            self.assertEqual(("".join(cut.texts), len(cut.values)), (texts_left, len(texts_left)), (low, high))
            self.assertEqual((cut.low, cut.high), (0 if low is None else low, 30 if high is None else high))


if __name__ == "__main__":
    unittest.main()
