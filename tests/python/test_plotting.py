# SPDX-License-Identifier: MIT OR Apache-2.0
"""Tests of the parts of a picture of rrdi-plot that depend on its size."""
from __future__ import annotations

import math
import os
import re
import time
import xml.etree.ElementTree as ElementTree
import unittest
from contextlib import contextmanager
from typing import Dict, Iterator, List, Optional, Tuple
from unittest import mock

import cases  # noqa: F401  (finds the package)

from rrdi.tools.command_line import WrongArguments
from rrdi.tools.plotting.asked import Bounds, read_bounds, read_size
from rrdi.tools.plotting.columns import Columns, Curve, series_of
from rrdi.tools.plotting import pages
from rrdi.tools.plotting.gnuplot import Picture
from rrdi.tools.plotting.labels import DISTANCES, Label, distance_of, label_days, labels
from rrdi.tools.plotting.legend import legend_of
from rrdi.tools.plotting.look import LEAST_PLOT_HEIGHT, LIGHT, UNTITLED, plot_height, size_of, title_room
from rrdi.tools.plotting.numbers import axis, number_text
from rrdi.tools.plotting.pages import Section
from rrdi.tools.plotting.spikes import alike, CutMark, cut, cut_curve, cut_marks, range_of, runs
from rrdi.tools.plotting.svg import STYLES, Frame, outline, path_of, placed, svg_of, widened

DAY = 86_400


def curves(names: List[str], value: float = 1.0) -> List[Curve]:
    """Sources with two rows of one value."""
    return series_of(Columns(names, 10, [10, 20], [[value, value] for _ in names]), None, None, False)


class Legends(unittest.TestCase):
    def test_narrower_pictures_have_fewer_columns(self) -> None:
        """The mean goes first, then the minimum, then the maximum; what is left fits."""
        for width, heads in ((900, ["last", "min", "mean", "max"]), (340, ["last", "min", "mean", "max"]), (300, ["last", "min", "max"]),
                             (240, ["last", "max"]), (200, ["last", "max"])):
            with self.subTest(width=width):
                legend = legend_of(width, curves(["load1"]), "")
                self.assertEqual((legend.heads, len(legend.numbers[0])), (heads, len(heads)))
                self.assertLessEqual(16 + legend.table_width, width)
        long = legend_of(200, curves(["temperature_of_cpu1"], 1234.5), "MB/s")
        self.assertEqual((long.heads, long.numbers), ([], [[]]))

    def test_the_longest_text_has_room(self) -> None:
        """The columns are as wide as for the source with the longest name, and for that with the longest numbers."""
        short, long = curves(["in"]), curves(["temperature_of_the_room"], -123_456.75)
        for unit in ("", "of_a_long_unit"):
            alone, low = legend_of(2_000, long, unit), legend_of(2_000, short, unit)
            self.assertTrue(alone.name_width > low.name_width and alone.column >= low.column)
            for both in ([*short, *long], [*long, *short]):
                found = legend_of(2_000, both, unit)
                self.assertEqual((found.name_width, found.column), (alone.name_width, alone.column))

    def test_many_sources(self) -> None:
        """More than eight sources are beside each other if they fit."""
        names = [f"disk_sda_read_byte_{number:x}"[:19] for number in range(16)]
        for width, tables, lines in ((900, 2, 8), (500, 1, 16), (3_000, 2, 8)):
            with self.subTest(width=width):
                legend = legend_of(width, curves(names), "")
                self.assertEqual((legend.tables, legend.lines, legend.height), (tables, lines, 21 * (lines + 1)))
                places = list(legend.places())
                self.assertEqual([place.line for place in places], [at % lines + 1 for at in range(16)])
                self.assertLessEqual(places[-1].left + legend.table_width, width)
        self.assertEqual((legend_of(900, curves(names[:8]), "").tables, legend_of(900, curves(names[:9]), "").lines), (1, 5))

    def test_sources_wider_than_the_picture(self) -> None:
        legend = legend_of(200, curves(["a_name_of_" + 4 * "characters", "b"]), "")
        self.assertEqual((legend.tables, [place.line for place in legend.places()]), (1, [1, 2]))


@contextmanager
def in_zone(zone: str) -> Iterator[None]:
    with mock.patch.dict(os.environ, {"TZ": zone}):
        time.tzset()
        yield
    time.tzset()


class Marks(unittest.TestCase):
    def test_low_plots_have_fewer_marks(self) -> None:
        for height, values in ((250, [0, 1, 2, 3, 4, 5, 6]), (180, [0, 1, 2, 3, 4, 5, 6]), (97, [0, 2, 4, 6]), (74, [0, 5, 10]), (10, [0, 10])):
            with self.subTest(height=height):
                self.assertEqual(axis(0, 6, "", height).values, values)

    def test_the_texts_of_marks(self) -> None:
        """They have as many digits as tell the marks apart, up to the millionths that rrdi has."""
        for low, high, unit, texts in (
                (1e6, 1e6 + 0.5, "", [f"1.000000{digit} M" for digit in range(6)]),
                (1e9, 1e9 + 1, "B/s", [f"1.0000000{digit:03} GB/s" for digit in range(0, 11, 2)]),
                (100, 100.00001, "", [f"100.0000{digit:02}" for digit in range(0, 13, 2)]),
                (7, 7.0000001, "", ["7.000000"] * 6), (1e6, 1e6 + 3.9e-7, "", ["1.000000000000 M"] * 5),
                (1e6, 1e6 + 4.9e-6, "", [f"1.00000000000{digit} M" for digit in range(6)]),
                (0, 1_000, "", ["0", "0.2 k", "0.4 k", "0.6 k", "0.8 k", "1.0 k"]),
                (0, 3e18, "", ["0", "0.5 E", "1.0 E", "1.5 E", "2.0 E", "2.5 E", "3.0 E"]),
                (-1_000, 0, "", ["-1.0 k", "-0.8 k", "-0.6 k", "-0.4 k", "-0.2 k", "0"]),
                # In floating point, 0.9 - 0.3 is more than 0.6, and 0.3 / 0.1 less than 3.
                (0.3, 0.9, "", ["0.3", "0.4", "0.5", "0.6", "0.7", "0.8", "0.9"]),
                (-1e-6, 0, "", [*(f"-{digits} \u00b5" for digits in ("1.0", "0.8", "0.6", "0.4", "0.2")), "0"]),
                (5e6, 5e6 + 0.5, "%", [f"5000000.{digit} %" for digit in range(6)])):
            with self.subTest(low=low, high=high):
                self.assertEqual(axis(low, high, unit).texts, texts)

    def test_numbers(self) -> None:
        """Three digits, up to the millionths that rrdi has, with the prefix of which there is the most."""
        for value, unit, text in (
                (0.01, "", "0.0100"), (0.0099, "", "9.90 m"), (1e12, "", "1.00 T"), (2e15, "", "2.00 P"),
                (1e-9, "", "0.00100 \u00b5"), (1e-10, "", "0.000100 \u00b5"), (999_400, "", "999 k"),
                (999_600, "", "1.00 M"), (0.0001, "%", "0.000100 %"), (0.000012, "%", "0.000012 %"),
                (999.4, "B", "999 B"), (1_000, "B", "1.00 kB")):
            self.assertEqual(number_text(value, unit), text)

    def test_distances_of_labels(self) -> None:
        """The shortest with which so many fit; beyond a year it is doubled."""
        year = DISTANCES[-1]
        for seconds, most, distance in ((7, 7, 1), (8, 7, 2), (7 * DAY, 7, DAY), (7 * DAY + 1, 7, 2 * DAY), (DAY, 1, DAY),
                                        (7 * year, 7, year), (7 * year + 1, 7, 2 * year), (14 * year, 7, 2 * year),
                                        (14 * year + 1, 7, 4 * year), (28 * year, 7, 4 * year)):
            with self.subTest(seconds=seconds, most=most):
                self.assertEqual(distance_of(seconds, most), distance)

    def test_round_distances(self) -> None:
        """Each divides a minute, an hour or a day, has whole days or weeks, or months that divide a year."""
        distances = [distance_of(1, 1)]
        while distances[-1] < DISTANCES[-1]:
            distances.append(distance_of(distances[-1] + 1, 1))
        self.assertEqual(len(distances), len(DISTANCES))
        for distance in distances:
            if distance < DAY:
                self.assertEqual(next(one for one in (60, 3_600, DAY) if distance <= one) % distance, 0, distance)
            elif distance < 31 * DAY:
                self.assertEqual(distance % (DAY if distance < 7 * DAY else 7 * DAY), 0, distance)
            else:
                self.assertEqual((distance % (31 * DAY), 12 * 31 * DAY % distance), (0, 0), distance)

    def test_narrow_plots_have_fewer_labels(self) -> None:
        start = 1_700_006_400  # midnight, UTC
        with in_zone("UTC"):
            for width, distance in ((822, 21_600), (300, 21_600), (206, 43_200), (100, DAY), (10, DAY)):
                with self.subTest(width=width):
                    found: List[Label] = labels(start, start + DAY, width)
                    self.assertEqual([at for _, at in found], list(range(start, start + DAY + 1, distance)))
                    self.assertEqual(found[0][0], "15 Nov\\n2023" if distance == DAY else "00:00\\n15 Nov")

    def test_seconds_and_months(self) -> None:
        """Seconds are told if there are some between two labels; months apart, labels are at the first days."""
        start = 1_704_067_200  # 1 January 2024, UTC
        with in_zone("UTC"):
            self.assertEqual([text for text, _ in labels(start, start + 180, 822)],
                             ["00:00:00\\n01 Jan", *(f"00:0{at // 2}:{at % 2 * 3}0" for at in range(1, 7))])
            self.assertEqual([text for text, _ in labels(start, start + 420, 822)],
                             ["00:00\\n01 Jan", *(f"00:0{at}" for at in range(1, 8))])
            self.assertEqual([text for text, _ in labels(start, start + 150 * DAY, 822)],
                             [f"{month}\\n2024" for month in ("Jan", "Feb", "Mar", "Apr", "May")])

    def test_times_that_begin_anywhere(self) -> None:
        """The first label may come within the first quarter of an hour, and the last one at the very end."""
        start = 1_700_006_400  # midnight, UTC
        with in_zone("UTC"):
            for begin in (start - 3_600, start - 3_599, start - 900, start - 100, start - 1, start):
                for end in (start + 7_200, start + 7_201, start + 7_999):
                    found = [at for at, in ((at,) for _, at in labels(begin, end, 822)) if at % 3_600 == 0]
                    self.assertEqual(found, [at for at in range(start - 3_600, end + 1, 3_600) if at >= begin])
        with in_zone("Asia/Kathmandu"):  # 5:45 ahead of UTC
            self.assertEqual([text for text, _ in labels(start, start + 7 * 3_600, 822)], ["06:00\\n15 Nov", *(f"{hour:02}:00" for hour in range(7, 13))])

    def test_months_and_years(self) -> None:
        """Months apart, labels are at months that divide a year, from January on, in each year."""
        start = 1_640_995_200  # 1 January 2022, UTC
        years = {year: start + DAY * days for year, days in ((2022, 0), (2023, 365), (2024, 730), (2025, 1_096), (2026, 1_461), (2027, 1_826))}
        with in_zone("UTC"):
            for end, months in ((2023, "Jan Mar May Jul Sep Nov"), (2024, "Jan Jul"), (2025, "Jan Jul"), (2027, "Jan")):
                found = [text.split("\\n") for text, _ in labels(start, years[end] - 1, 822)]
                self.assertEqual(found, [[month, str(year)] for year in range(2022, end) for month in months.split()], end)
            self.assertEqual([at for _, at in labels(start, years[2027], 822)], list(years.values()))
            self.assertEqual(distance_of(49 * DAY), 7 * DAY)
            self.assertEqual([text for text, _ in label_days(start, start + 28 * DAY, 7 * DAY)], [f"{day:02} Jan\\n2022" for day in (1, 8, 15, 22, 29)])

    def test_days_when_clocks_change(self) -> None:
        """A midnight at the end has its label, though a day was an hour shorter, or two hours, as in Troll."""
        begin, end = 1_679_785_199, 1_679_868_000  # 25 March 2023, 23:59:59, to 27 March, 0:00
        with in_zone("Europe/Berlin"):
            self.assertEqual([text for text, _ in label_days(begin, end, DAY)], ["26 Mar\\n2023", "27 Mar\\n2023"])
        with in_zone("Antarctica/Troll"):
            self.assertEqual([text for text, _ in label_days(end - 2 * DAY, end + DAY, DAY)],
                             [f"{day} Mar\\n2023" for day in (25, 26, 27, 28)])

    def test_sizes(self) -> None:
        """A picture without a height gets the room that its parts need."""
        size = size_of(900, 0, 3, title_room(1), 63)
        self.assertEqual((size.height, size.top, size.bottom, size.legend), (66 + 250 + 121, 66, 121, 77))
        self.assertEqual((plot_height(0, 66, 63), plot_height(300, 82, 0), plot_height(300, 82, 63)), (250, 174, 97))
        self.assertLess(plot_height(200, 82, 42), LEAST_PLOT_HEIGHT)


ALL = Bounds(None, None, False, False)


def curve_of(values: List[float], lows: Optional[List[float]] = None, highs: Optional[List[float]] = None) -> Curve:
    """A source with rows of ten seconds from 0 on."""
    rows = Columns(["g"], 10, [10 * at for at in range(1, len(values) + 1)], [values])
    return series_of(rows, rows._replace(columns=[lows or values]), rows._replace(columns=[highs or values]), False)[0]


class Asked(unittest.TestCase):
    def test_sizes(self) -> None:
        sizes: List[Tuple[Dict[str, str], Tuple[int, int]]] = [
            ({}, (900, 0)), ({"size": "300"}, (300, 0)), ({"size": "300x200"}, (300, 200)),
            ({"size": "300,200", "width": "10000"}, (10_000, 200)), ({"height": "250"}, (900, 250))]
        for given, size in sizes:
            self.assertEqual(read_size(given), size)
        for given in ({"size": "199"}, {"size": "300x"}, {"size": "300x10001"}, {"width": "300x200"}, {"height": "-5"}):
            self.assertRaises(WrongArguments, read_size, given)
        for given, text in (({"width": "199"}, "--width must be a number of points from 200 to 10000, not '199'"), ({"height": "x"}, "--height must be a number of points from 200 to 10000, not 'x'"),
                            ({"size": "300x10001"}, "--size must be WIDTHxHEIGHT, each from 200 to 10000, not '300x10001'"), ({"size": ""}, "--size must be WIDTHxHEIGHT, each from 200 to 10000, not ''")):
            with self.assertRaises(WrongArguments) as wrong:
                read_size(given)
            self.assertEqual(str(wrong.exception), text)
        self.assertEqual([read_size({name: "200", "size": "10000x200"}) for name in ("width", "height")], [(200, 200), (10_000, 200)])

    def test_bounds(self) -> None:
        self.assertEqual(read_bounds({}, {"--cut-spikes"}), Bounds(None, None, False, True))
        self.assertEqual(read_bounds({"min": "-1.5", "max": "2e3"}, {"--rigid"}), Bounds(-1.5, 2_000.0, True, False))
        for given in ({"min": "x"}, {"min": "nan"}, {"max": "inf"}, {"max": "1e18"}, {"min": "2", "max": "2"}):
            self.assertRaises(WrongArguments, read_bounds, given, set())
        self.assertRaises(WrongArguments, read_bounds, {}, {"--rigid"})


class Ranges(unittest.TestCase):
    """The range of an axis: what is asked, and what is a spike."""

    def test_limits(self) -> None:
        curve = curve_of([20.0, 30.0, math.nan])
        for bounds, has_zero, found in (
                (ALL, False, (20, 30)), (ALL, True, (0, 30)), (Bounds(10.0, None, False, False), True, (10, 30)),
                (Bounds(25.0, 28.0, False, False), False, (20, 30)), (Bounds(10.0, 40.0, False, False), False, (10, 40)),
                (Bounds(25.0, 28.0, True, False), True, (25, 28)), (Bounds(None, 28.0, True, False), True, (0, 28)),
                (Bounds(None, 15.0, True, False), False, (13, 15)), (Bounds(40.0, None, True, False), False, (40, 44))):
            with self.subTest(bounds=bounds, has_zero=has_zero):
                self.assertEqual(range_of([curve], False, has_zero, bounds), found)

    def test_spikes(self) -> None:
        """One row of fifty may be a spike, which is farther away than twice the range of the others."""
        cuts = ALL._replace(cuts_spikes=True)
        usual = [1.0 + at % 2 for at in range(98)]
        for others, has_zero, found in (
                ([90.0, 1.5], True, (0, 2)), ([6.0, 1.5], True, (0, 6)), ([6.1, 1.5], True, (0, 2)), ([-90.0, 90.0], False, (1, 2)),
                ([90.0, 90.0], True, (0, 2)), ([-1.0, 4.0], False, (-1, 4)), ([-1.1, 4.1], False, (1, 2)),
                ([math.nan, 90.0, 1.0, 90.0, 90.0], True, (0, 90))):
            with self.subTest(others=others, has_zero=has_zero):
                self.assertEqual(range_of([curve_of(usual + others)], False, has_zero, cuts), found)
        self.assertEqual(range_of([curve_of(usual[1:] + [90.0, 90.0])], False, True, cuts), (0, 90))  # two of 99 rows
        self.assertEqual(range_of([curve_of(usual + [90.0, 1.5])], False, True, ALL), (0, 90))
        self.assertEqual(range_of([curve_of(usual + [90.0, 1.5])], False, True, cuts._replace(greatest=8.0)), (0, 8))
        self.assertEqual(range_of([curve_of([0.0] * 99 + [5.0])], False, True, cuts), (0, 5))  # all others are equal
        few = curve_of([math.nan] * 97 + [70.0, 80.0, 75.0])
        self.assertEqual(range_of([curve_of(usual + [1.0, 1.0]), few], False, True, cuts), (0, 80))

    def test_sources_that_have_one_axis(self) -> None:
        """None has less than a twentieth of another one's usual value; what is 0 or unknown goes with the one before it, or
        with the first that is not."""
        for greatest, groups in (([1.0, 20.0], [[0, 1]]), ([1.0, 21.0], [[0], [1]]), ([-21.0, 1.0, 10.0], [[0, 2], [1]]),
                                 ([2.0, 5e6, 3.0, 0.0, 4e6, math.nan], [[0, 2, 3], [1, 4, 5]]), ([0.0, 5.0], [[0, 1]]),
                                 ([math.nan, 5e6, 1.0], [[0, 1], [2]]),
                                 ([math.nan, 0.0], [[0, 1]]), ([1.0, 15.0, 240.0], [[0], [1, 2]])):
            with self.subTest(greatest=greatest):
                series = [curve_of([one] * 3) for one in greatest]
                self.assertEqual([[next(at for at, one in enumerate(series) if one is found) for found in group]
                                  for group in alike(series)], groups)
        usual = [1.0] * 99
        self.assertEqual(len(alike([curve_of([*usual, 900.0]), curve_of([19.0] * 100)])), 1)  # a spike is not usual

    def test_spikes_of_a_band(self) -> None:
        """Of the rows of a band, one of four may be a spike."""
        cuts, values = ALL._replace(cuts_spikes=True), [1.0] * 100
        for spikes, greatest in ((25, 3), (26, 90)):
            highs = [90.0] * spikes + [3.0] * (100 - spikes)
            self.assertEqual(range_of([curve_of(values, [0.5] * 100, highs)], True, True, cuts), (0, greatest))

    def test_ends(self) -> None:
        """A rigid axis ends where it must; its marks stay at round values."""
        found = axis(0, 97).ending_at(3, 97)
        self.assertEqual((found.values, found.low, found.high), ([20, 40, 60, 80], 3, 97))
        self.assertEqual(found.texts, ["20", "40", "60", "80"])
        self.assertEqual(axis(0, 97).ending_at(None, None), axis(0, 97))

    def test_what_is_cut(self) -> None:
        unknown = cut([math.nan, -5.0, 2.0, 9.0], 0, 4)
        self.assertTrue(math.isnan(unknown[0]))
        self.assertEqual(unknown[1:], [0, 2, 4])
        rows = Columns(["g"], 10, [10, 20, 30, 40, 50], [[1.0, 9.0, 9.0, 1.0, -9.0]])
        series = series_of(rows, None, None, False)
        self.assertEqual(cut_marks(rows, series, False, 0, 4), [CutMark(0, 20, True), CutMark(0, 45, False)])
        self.assertEqual(cut_marks(rows, series, False, -9, 9), [])
        # The axis ends at 10^15, and no value is seen to be beyond it.
        large = axis(0, 1e15 + 1)
        others = series_of(rows._replace(columns=[[1e15, 1e15 + 1, 1e15, 1e15 - 1, -1.0]]), None, None, False)
        self.assertEqual((large.high, cut_marks(rows, others, False, 0, large.high)), (1e15, []))
        # How far beyond it is, is measured by the length of the axis, wherever its ends are.
        for low, high, value, is_seen in ((-9.0, 9.0, 9.00000001, False), (-9.0, 9.0, 9.0000001, True),
                                          (1e6, 1e6 + 1, 1e6 + 1.001, True)):
            middle = (low + high) / 2
            near = series_of(rows._replace(columns=[[middle, middle, value, middle, middle]]), None, None, False)
            self.assertEqual(cut_marks(rows, near, False, low, high), [CutMark(0, 25, True)] if is_seen else [], value)
        self.assertEqual(cut_curve(series[0], 0, 4).values, [1, 4, 4, 1, 0])
        band = cut_curve(curve_of([1.0, 2.0], [-3.0, 1.5], [3.0, 9.0]), 0, 4)
        self.assertEqual((band.values, band.lows, band.highs), ([1, 2], [0, 1.5], [3, 4]))

    def test_places_that_follow_each_other(self) -> None:
        """Each run of rows has a mark in its middle, also if a later row is as far from an earlier one."""
        tries: List[Tuple[List[int], List[Tuple[int, int]]]] = [
            ([], []), ([20], [(20, 20)]), ([10, 20, 30], [(10, 30)]), ([10, 30], [(10, 10), (30, 30)]),
            ([10, 20, 40, 50, 60, 80], [(10, 20), (40, 60), (80, 80)])]
        for times, found in tries:
            self.assertEqual(runs(times, 10), found)

    def test_a_band_within_the_axis(self) -> None:
        """Without a limit, the axis has the band if there is one, and else the values only."""
        curve = curve_of([20.0, 30.0], [5.0, 25.0], [25.0, 70.0])
        for has_band, found in ((True, (5, 70)), (False, (20, 30))):
            self.assertEqual(range_of([curve], has_band, False, ALL), found)
        self.assertEqual(range_of([curve_of([0.0, 0.0])], False, False, ALL), (0, 1))
        self.assertEqual(range_of([curve_of([30.0, 30.0])], False, False, ALL), (30, 33))
        self.assertEqual(range_of([curve_of([30.0, 30.0])], False, False, Bounds(None, 30.0, True, False)), (27, 30))


class SvgPictures(unittest.TestCase):
    def picture(self, values: List[float], style: str = "lines", name: str = "g") -> Picture:
        rows = Columns([name], 10, [10 * at for at in range(1, len(values) + 1)], [values])
        marks = axis(0, 4)
        series = series_of(rows, None, None, style == "stack")
        return Picture(rows, [cut_curve(one, 0, 4) for one in series], marks, "", [], style, False,
                       cut_marks(rows, series, False, 0, 4), None, LIGHT, size_of(900, 0, 1, UNTITLED, 0))

    def drawn(self, picture: Picture) -> Dict[str, str]:
        """The paths by their classes."""
        root = ElementTree.fromstring(svg_of(picture, 0, 100, "'<g>' & \""))
        self.assertEqual(root.attrib["aria-label"], "'<g>' & \"")
        return {path.attrib["class"]: path.attrib["d"] for path in root.iter("path")}

    def test_paths(self) -> None:
        self.assertEqual(path_of([(0, 1), (2.04, 1), (2.04, 3), (2.04, 3), (5, 6.26)]), "M0 1H2V3L5 6.3")

    def test_times_below_it(self) -> None:
        """Those that any picture of this width has, from the left to the right."""
        root = ElementTree.fromstring(svg_of(self.picture([1.0, 2.0]), DAY, 3 * DAY, ""))
        shown = [(one.text, float(one.attrib["x"])) for one in root.iter() if one.attrib.get("class") == "time"]
        wanted = [text for label, _ in labels(DAY, 3 * DAY, 800) for text in label.split("\\n")]
        self.assertEqual(([text for text, _ in shown], len(shown) > 4), (wanted, True))
        self.assertEqual([at for _, at in shown], sorted(at for _, at in shown))

    def test_a_line_has_gaps(self) -> None:
        """The plot is from 29 to 872 across, and from 260 to 10 down."""
        found = self.drawn(self.picture([1.0, 2.0, math.nan, 4.0, 9.0]))
        self.assertEqual(found["line c0"], "M29 197.5H113.3V135H197.6M281.9 10H366.2H450.5")
        self.assertEqual(found["cut c0"], "M408.4 10l-4 6h8z")
        self.assertIn("M29 260H872", found["grid"])

    def test_one_value_alone(self) -> None:
        """A row that is narrower than what can be seen is drawn wider."""
        values = [math.nan] * 500 + [1.0] + [math.nan] * 499
        rows = Columns(["g"], 1, list(range(1, 1001)), [values])
        picture = self.picture([1.0, 1.0])._replace(rows=rows, series=series_of(rows, None, None, False))
        root = ElementTree.fromstring(svg_of(picture, 0, 1_000, ""))
        self.assertEqual([path.attrib["d"] for path in root.iter("path") if path.attrib["class"] == "line c0"],
                         ["M449.4 197.5H450.5H451.3H452.4"])

    def test_areas(self) -> None:
        self.assertEqual(self.drawn(self.picture([1.0, 2.0], "area"))["area c0"],
                         "M29 197.5H113.3V135H197.6V260H113.3H29z")

    def test_times_beyond_the_picture(self) -> None:
        """A row that begins before the picture is drawn from its edge on."""
        rows = Columns(["g"], 100, [50, 150], [[1.0, 1.0]])
        picture = self.picture([1.0, 1.0])._replace(rows=rows)
        self.assertEqual(self.drawn(picture)["line c0"], "M29 197.5H450.5H872")

    def test_places(self) -> None:
        """From the left to the right and from below to above, wherever times and values begin; times stay within the plot."""
        frame = Frame(10, 110, 20, 120, 1_000, 2_000, 5, 25)
        self.assertEqual([frame.across(time) for time in (900, 1_000, 1_250, 2_000, 2_100)], [10, 10, 35, 110, 110])
        self.assertEqual([frame.down(value) for value in (5, 10, 25, 30)], [120, 95, 20, -5])
        stretch = [(1_000, 5.0, 10.0, 7.5, 15.0), (1_250, 5.0, 10.0, 7.5, 15.0), (1_250, 10.0, 20.0, 15.0, 25.0), (2_000, 10.0, 20.0, 15.0, 25.0)]
        self.assertEqual(placed(frame, stretch, 2), [(10, 95), (35, 95), (35, 45), (110, 45)])
        self.assertEqual(outline("line", frame, stretch), "M10 95H35V45H110")
        self.assertEqual(outline("area", frame, stretch), "M10 95H35V45H110V95H35V120H10z")
        self.assertEqual(outline("band", frame, stretch), "M10 70H35V20H110V70H35V107.5H10z")

    def test_short_lines(self) -> None:
        """A line is three points long at least."""
        for end, points in ((0, [(3.5, 1), (5, 1), (5, 1), (6.5, 1)]), (2.5, [(4.75, 1), (5, 1), (7.5, 1), (7.75, 1)]), (3, [(5, 1), (8, 1)]), (4, [(5, 1), (9, 1)])):
            self.assertEqual(widened([(5, 1), (5 + end, 1)]), points)

    def test_what_is_drawn_of_a_source(self) -> None:
        """Its band and its area, if the picture has them, and its line; after sixteen sources the colors come again."""
        for has_band, style, kinds in ((False, "lines", ["line"]), (True, "lines", ["band", "line"]), (False, "area", ["area", "line"]), (True, "area", ["band", "area", "line"]),
                                       (False, "stack", ["area", "line"])):
            found = self.drawn(self.picture([1.0, 2.0])._replace(has_band=has_band, style=style))
            self.assertEqual([name for name in found if name != "grid"], [f"{kind} c0" for kind in kinds])
        names = [f"s{at}" for at in range(18)]
        rows = Columns(names, 10, [10, 20], [[1.0, 2.0]] * 18)
        found = self.drawn(self.picture([1.0, 2.0])._replace(rows=rows, series=series_of(rows, None, None, False)))
        self.assertEqual(list(found), ["grid", *(f"line c{at}" for at in range(16))])

    def test_marks_and_triangles(self) -> None:
        """The text of a mark is left of its line, and a triangle at the edge beyond which a source goes."""
        picture = self.picture([1.0, 9.0, -9.0, 1.0])
        root = ElementTree.fromstring(svg_of(picture, 0, 40, ""))
        marks = [(one.text, float(one.attrib["x"]), float(one.attrib["y"])) for one in root.iter() if one.attrib.get("class") == "mark"]
        self.assertEqual([(text, across) for text, across, _ in marks], [(str(at), 21) for at in range(5)])
        self.assertEqual([[round(one - other, 1) for (_, _, one), (_, _, other) in zip(marks, marks[1:])], [abs(marks[-1][2] - 10) < 8]], [[62.5] * 4, [True]])
        found = svg_of(picture, 0, 40, "").splitlines()
        self.assertEqual([line for line in found if 'class="cut' in line], ['<path class="cut c0" d="M345.1 10l-4 6h8z"/>', '<path class="cut c0" d="M555.9 260l-4-6h8z"/>'])

    def test_light_and_dark(self) -> None:
        light, dark = STYLES.split("@media (prefers-color-scheme:dark)")
        self.assertIn("--ground:#ffffff", light)
        self.assertIn("--ground:#181b1f", dark)


class PageParts(SvgPictures):
    """What a page shows of a file: the pictures of a length of time, and for whom does not see them, what they show."""

    def section(self, *names: str, is_cut: bool = False) -> Section:
        pictures = [self.picture([1.0, 9.0 if is_cut else 2.0], name=name)._replace(subtitle=["LAST of 10 s", f"cut of {name}"]) for name in names]
        return Section("Last day", 10, 50, pictures)

    def test_a_length_of_time(self) -> None:
        for names in ((), ("a",), ("a", "b")):
            one = self.section(*names)
            parts = pages.section_of(one, "net<1>", "B/s")
            told = [f"net<1>, last day{f': {name}' if len(names) > 1 else ''}" for name in names]
            self.assertEqual([part for part in parts if part.startswith("<svg")], [svg_of(picture, 10, 50, text) for picture, text in zip(one.pictures, told)])
            self.assertEqual([part for part in parts if part.startswith("<p>")], [f"<p>LAST of 10 s; cut of {name}</p>" for name in names]
                             or ["<p>No value is known in this time, or there are fewer than two rows.</p>"])
            self.assertEqual([part for part in parts if part.startswith("<tr")], [f'<tr><td class="name"><span class="swatch c0"></span>{name}</td><td>2.00 B/s</td><td>1.00 B/s</td>'
                                                                                  '<td>1.50 B/s</td><td>2.00 B/s</td></tr>' for name in names])

    def test_a_card(self) -> None:
        """How far cut values go is told, and nothing where none is cut."""
        for is_cut in (False, True):
            for names in ((), ("a",), ("a", "b")):
                one = self.section(*names, is_cut=is_cut)
                lines = pages.card("x/net<1>", "<p>now</p>", one).splitlines()
                self.assertEqual(lines[:2], ['<div><h2><a href="x/net%3C1%3E.html">x/net&lt;1&gt;</a></h2>', "<p>now</p>"])
                told = [f"x/net<1>, last day{f': {name}' if len(names) > 1 else ''}" for name in names]
                drawn = "\n".join(lines)
                for picture, text in zip(one.pictures, told):
                    self.assertIn(svg_of(picture, 10, 50, text), drawn)
                self.assertEqual([line for line in lines[2:] if line.startswith("<p>")], ([f"<p>cut of {name}</p>" for name in names] if is_cut else [])
                                 if names else ["<p>No value is known in this day.</p></div>"])
                self.assertEqual(drawn.count('class="key"'), len(names))

    def test_the_page_of_all(self) -> None:
        light, dark = pages.page("t", "all", []).split("@media (prefers-color-scheme:dark)")
        for text in (light, dark):  # what is behind an area or a band is seen through it, and a band is denser
            fill, band = (float(re.findall(f"--{name}:([0-9.]+)[;}}]", text)[0]) for name in ("fill", "band"))
            self.assertTrue(0.1 < fill < band < 0.4, (fill, band))
        cases: List[Tuple[List[str], str]] = [([], "0 files"), (["c"], "1 file"), (["c", "d"], "2 files")]
        for cards, files in cases:
            text = pages.index_page("a<b", cards, [pages.NotDrawn("x<y", "why")] if cards else [])
            self.assertIn(f"<p>{files}, each with its last day;", text)
            self.assertTrue(all(part in text for part in ("<title>a&lt;b</title>", '<body class="all">', "<h1>a&lt;b</h1>")))
            self.assertEqual("<li>x&lt;y: why</li>" in text, bool(cards))
            self.assertEqual(text.count("Not drawn"), bool(cards))
        for name, up in (("f", "index.html"), ("a/f", "../index.html"), ("a/b/f", "../../index.html")):
            text = pages.file_page(name, pages.age_text("noon", False), [self.section("a")], "")
            self.assertTrue(all(part in text for part in (f'<a href="{up}">All files</a>', f"<title>{name}</title>", '<body class="one">', "<p>Last sample noon</p>")))
