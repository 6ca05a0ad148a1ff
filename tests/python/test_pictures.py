# SPDX-License-Identifier: MIT OR Apache-2.0
"""Tests of which rows a picture of rrdi-plot shows, and of what gnuplot is told. No program is needed."""
from __future__ import annotations

import contextlib
import errno
import io
import math
import os
import re
import tempfile
import time
import unittest
from typing import Any, Callable, Dict, List, Optional, Tuple
from unittest import mock

import cases

from rrdi.printed import Archive, Settings, Source
from rrdi.tools import plot_folder, program
from rrdi.tools.command_line import Failure
from rrdi.tools.plotting import composing, gnuplot
from rrdi.tools.plotting.asked import PlotOptions
from rrdi.tools.plotting.columns import Columns, NothingToDraw
from rrdi.tools.plotting.gnuplot import Picture, commands, draw, points
from rrdi.tools.plotting.labels import labels
from rrdi.tools.plotting.look import DARK, LIGHT
from rrdi.tools.plotting.spikes import CutMark

START, DAY = 1_700_006_400, 86_400  # midnight, UTC
NOW = START + 7 * DAY
Cells = Callable[[int], List[float]]
Archives = Dict[Tuple[str, int], Cells]  # by their functions and the seconds of their rows


def always(*cells: float) -> Cells:
    return lambda at: list(cells)


class File:
    """A database that is computed: each of its archives has the cells of a time, up to the last sample."""

    def __init__(self, names: str, last: int, archives: Archives, rows: int = 10_000, step: int = 10):
        self.names, self.last, self.archives, self.rows, self.step = names.split(), last, archives, rows, step
        self.asked: List[List[str]] = []

    def settings(self, file: str = "") -> Settings:
        sources = [Source(name, "GAUGE", 99, "U", "U", "U") for name in self.names]
        archives = [Archive(name, "0.5", seconds // self.step, self.rows) for name, seconds in self.archives]
        return Settings(self.step, self.last, 1, 0, sources, archives)

    def ask(self, words: List[str]) -> str:
        """Prints the rows from the first that ends after the start to the first that ends after the end, as `fetch`."""
        self.asked.append(words)
        _, _, function, _, resolution, _, start, _, end = words
        found = [seconds for name, seconds in self.archives if name == function]
        if not found:
            raise Failure("no such archive")
        seconds = min(found, key=lambda one: abs(one - int(resolution)))
        first, last = (int(text) // seconds * seconds + seconds for text in (start, end))
        lines = [f"time: {' '.join(self.names)}"]
        for at in range(first, last + 1, seconds):
            cells = self.archives[function, seconds](at) if at <= self.last else [math.nan] * len(self.names)
            lines.append(f"{at}: {' '.join(f'{cell:.6f}' for cell in cells)}")
        return "\n".join(lines) + "\n"


class FileCase(unittest.TestCase):
    """Tests in the zone UTC at one time."""

    def setUp(self) -> None:
        self.addCleanup(time.tzset)
        self.change(mock.patch.dict(os.environ, {"TZ": "UTC"}))
        self.change(mock.patch.object(time, "time", lambda: NOW + 0.5))
        time.tzset()

    def change(self, patch: Any) -> None:
        patch.start()
        self.addCleanup(patch.stop)

    def use(self, file: File) -> File:
        self.change(mock.patch.object(program, "ask", file.ask))
        self.change(mock.patch.object(program, "settings", file.settings))
        return file

    def options(self, *flags: str, picture: str = "x.svg", function: Optional[str] = None,
                **values: str) -> PlotOptions:
        return PlotOptions("dir/room.rrdi", picture, function, values, set(flags))

    def picture(self, *flags: str, function: Optional[str] = None, **values: str) -> Picture:
        """The picture of the ten minutes up to START, unless another time is asked."""
        given = {"start": str(START - 600), "end": str(START), **values}
        return composing.picture_of(self.options(*flags, function=function, **given))


class Rows(FileCase):
    def test_rows_that_have_seconds_between_two_times(self) -> None:
        """A row that ends at the start has none of them, and one that begins at the end neither."""
        self.use(File("g", START + 100, {("AVERAGE", 10): always(1.0)}))
        for begin, until, first, last in ((0, 40, 10, 40), (0, 31, 10, 40), (0, 30, 10, 30), (9, 30, 10, 30),
                                          (10, 30, 20, 30), (0, 39, 10, 40)):
            with self.subTest(begin=begin, until=until):
                rows = composing.fetch(self.options(), "AVERAGE", 10, START + begin, START + until)
                self.assertEqual(rows.times, list(range(START + first, START + last + 1, 10)))
        self.assertRaises(NothingToDraw, composing.fetch, self.options(), "AVERAGE", 10, START, START + 10)

    def test_times_of_seconds(self) -> None:
        """Up to ten digits alone are seconds since 1970."""
        for text, at in (("1700006400", "epoch+1700006400"), ("5", "epoch+5"), ("17000064000", "17000064000"),
                         ("-1d", "-1d"), (None, None)):
            self.assertEqual(composing.as_time(text), at)

    def test_the_usual_end(self) -> None:
        """It is now, or the last sample, if that is a day old; a day before it is the start."""
        for last, end in ((NOW - 5, NOW), (NOW - DAY + 1, NOW), (NOW - DAY, NOW - DAY), (START, START),
                          (NOW + 60, NOW)):
            with self.subTest(last=last - NOW):
                settings = File("g", last, {("AVERAGE", 10): always(1.0)}).settings()
                self.assertEqual(composing.span(settings, self.options()), (end - DAY, end))
                given = self.options(start=str(START), end=str(START + 50))
                self.assertEqual(composing.span(settings, given), (START, START + 50))

    def test_without_a_start_the_known_rows(self) -> None:
        """They are read again if unknown rows come before, because a shorter time may have finer rows."""
        def cells(at: int) -> List[float]:
            return [2.0 if at > START - 3_600 else math.nan]
        file = self.use(File("g", START, {("AVERAGE", 10): cells, ("AVERAGE", 600): cells}))
        # A row has 1.75 points.
        tries: List[Tuple[int, Dict[str, str], List[str], int, int]] = [
            (900, {}, ["168", "7"], 10, 3_600), (15, {}, ["10080", "420"], 600, 3_600),
            (900, {"start": "0"}, ["168"], 10, DAY), (15, {"start": "0"}, ["10080"], 600, DAY),
            (900, {"resolution": "600"}, ["600", "600"], 600, 3_600)]
        for width, values, resolutions, seconds, length in tries:
            with self.subTest(width=width, values=values):
                file.asked.clear()
                rows = composing.fetch_for(self.options(**values), "AVERAGE", width, START - DAY, START)
                self.assertEqual((rows.seconds, rows.begin, rows.end), (seconds, START - length, START))
                self.assertEqual([words[4] for words in file.asked], resolutions)
        file.asked.clear()
        composing.fetch_for(self.options(), "AVERAGE", 900, START - 600, START)
        self.assertEqual([words[4] for words in file.asked], ["1"])

    def test_the_oldest_row(self) -> None:
        """Of the archives of a function, the one that reaches back farthest tells."""
        kinds = (("AVERAGE", 10), ("AVERAGE", 600), ("MAX", 1_200))
        file = File("g", START + 9, {kind: always(1.0) for kind in kinds}, 50)
        for last, function, oldest in ((START + 9, "AVERAGE", START - 30_000), (START + 9, "MAX", START - 60_000),
                                       (START, "LAST", 0), (29_999, "AVERAGE", 0), (30_600, "AVERAGE", 600)):
            with self.subTest(last=last, function=function):
                file.last = last
                self.assertEqual(composing.oldest_row(file.settings(), function), oldest)

    def test_a_long_time_on_a_page(self) -> None:
        """Only the rows that a file can have are read, as many as their part of the width has room for."""
        file = self.use(File("g", START, {("AVERAGE", 10): always(1.0)}, rows=100))
        # A row has 1.75 points, and the rows of a file have 8 points at least.
        for picture, since, resolution, begin, seconds in (
                ("", 10_000, "19", 1_000, 10), ("x.svg", 10_000, "19", 10_000, 10), ("", 1_000_000, "218", 1_000, 270),
                ("", 500, "1", 500, 10)):
            with self.subTest(picture=picture, since=since):
                given = self.options(picture=picture, start=str(START - since), end=str(START))
                shown = composing.shown(given, file.settings(), "AVERAGE", 900)
                self.assertEqual(file.asked[-1][4:7:2], [resolution, str(START - begin)])
                self.assertEqual(shown.rows.seconds, seconds)

    def test_a_time_before_all_rows(self) -> None:
        """A page reads nothing then."""
        file = self.use(File("g", START, {("AVERAGE", 10): always(1.0)}, rows=100))
        for until, is_drawn in ((START - 1_000, False), (START - 980, True)):
            given = self.options(picture="", start=str(START - 2_000), end=str(until))
            if is_drawn:
                self.assertEqual(composing.shown(given, file.settings(), "AVERAGE", 900).rows.begin, START - 1_000)
            else:
                self.assertRaises(NothingToDraw, composing.shown, given, file.settings(), "AVERAGE", 900)
            self.assertEqual(len(file.asked), is_drawn)


class Bands(FileCase):
    MEAN, LOW, HIGH = ("AVERAGE", 60), ("MIN", 60), ("MAX", 60)

    def curves(self, archives: Archives, *flags: str, names: str = "a b", **values: str) -> composing.Shown:
        file = self.use(File(names, START, archives))
        given = {"start": str(START - 600), "end": str(START), **values}
        return composing.shown(self.options(*flags, **given), file.settings(), "AVERAGE", 900)

    def test_from_the_least_to_the_greatest_value(self) -> None:
        """Where a file has the rows of only one of them, the band ends at the means on the other side."""
        archives = {self.MEAN: always(2.0, 5.0), self.LOW: always(1.0, 4.0), self.HIGH: always(7.0, 9.0)}
        for others, lows, highs, has_band in (
                ((self.LOW, self.HIGH), [1.0, 4.0], [7.0, 9.0], True), ((self.LOW,), [1.0, 4.0], [2.0, 5.0], True),
                ((self.HIGH,), [2.0, 5.0], [7.0, 9.0], True), ((), [2.0, 5.0], [2.0, 5.0], False)):
            with self.subTest(others=others):
                found = self.curves({key: archives[key] for key in (self.MEAN, *others)})
                self.assertEqual((found.has_band, [one.name for one in found.series]), (has_band, ["a", "b"]))
                self.assertEqual([one.values[0] for one in found.series], [2.0, 5.0])
                self.assertEqual([one.lows[0] for one in found.series], lows)
                self.assertEqual([one.highs[0] for one in found.series], highs)

    def test_pictures_without_a_band(self) -> None:
        """It needs averages of several steps, at most four sources, unstacked; and nobody may have said no."""
        def archives(count: int, seconds: int = 60) -> Archives:
            cells = (("AVERAGE", 2.0), ("MIN", 1.0), ("MAX", 3.0))
            return {(function, seconds): always(*[cell] * count) for function, cell in cells}
        names = "a b c d e"
        self.assertTrue(self.curves(archives(5), names=names, source="a,b,c,d").has_band)
        self.assertFalse(self.curves(archives(5), names=names).has_band)
        self.assertFalse(self.curves(archives(2), "--stack").has_band)
        self.assertFalse(self.curves(archives(2), "--no-band").has_band)
        self.assertTrue(self.curves(archives(2), "--area").has_band)
        self.assertFalse(self.curves(archives(2, 10)).has_band)
        file = self.use(File("a b", START, archives(2)))
        given = self.options(start=str(START - 600), end=str(START))
        self.assertFalse(composing.shown(given, file.settings(), "MAX", 900).has_band)

    def test_extremes_of_other_rows(self) -> None:
        """Rows of another length have no part in the band."""
        self.assertFalse(self.curves({self.MEAN: always(2.0, 5.0), ("MIN", 120): always(1.0, 4.0)}).has_band)
        unknown = self.curves({self.MEAN: always(2.0, 5.0), self.LOW: always(math.nan, math.nan)})
        self.assertFalse(unknown.has_band)

    def test_sources_in_the_order_asked(self) -> None:
        archives = {self.MEAN: always(2.0, 5.0), self.LOW: always(1.0, 4.0), self.HIGH: always(7.0, 9.0)}
        found = self.curves(archives, source="b,a")
        self.assertEqual([(one.name, one.values[0], one.lows[0], one.highs[0]) for one in found.series],
                         [("b", 5.0, 4.0, 9.0), ("a", 2.0, 1.0, 7.0)])
        self.assertEqual([one.name for one in self.curves(archives, source="b").series], ["b"])

    def test_a_stack(self) -> None:
        """Each source begins where the one before it ends."""
        found = self.curves({self.MEAN: always(2.0, 5.0)}, "--stack")
        self.assertEqual([(one.bottoms[0], one.values[0]) for one in found.series], [(0.0, 2.0), (2.0, 7.0)])
        for flag in ("--area", "--fit"):
            found = self.curves({self.MEAN: always(2.0, 5.0)}, flag)
            self.assertEqual([(one.bottoms[0], one.values[0]) for one in found.series], [(0.0, 2.0), (0.0, 5.0)])

    def test_narrow_rows(self) -> None:
        """Several rows narrower than half a point become one, with a band; unless a resolution is asked."""
        file = self.use(File("g", START, {("AVERAGE", 10): lambda at: [float(at // 10 % 4)]}))
        tries: List[Tuple[int, Dict[str, str], int]] = [
            (200, {}, 10), (199, {}, 40), (100, {}, 80), (100, {"resolution": "10"}, 10)]
        for width, values, seconds in tries:
            with self.subTest(width=width, values=values):
                given = self.options(start=str(START - 4_000), end=str(START), **values)
                found = composing.shown(given, file.settings(), "AVERAGE", width)
                self.assertEqual((found.rows.seconds, found.has_band), (seconds, seconds > 10))
        given = self.options(start=str(START - 4_000), end=str(START))
        one = composing.shown(given, file.settings(), "AVERAGE", 199).series[0]
        self.assertEqual((one.values[1:3], one.lows[1:3], one.highs[1:3]), ([1.5, 1.5], [0.0, 0.0], [3.0, 3.0]))

    def test_narrow_rows_with_extremes(self) -> None:
        """The band of several rows has their least and their greatest values."""
        file = self.use(File("g", START, {("AVERAGE", 20): lambda at: [float(at // 20 % 4)],
                                          ("MIN", 20): lambda at: [-float(at // 20 % 4)],
                                          ("MAX", 20): lambda at: [5.0 + at // 20 % 4]}))
        given = self.options(start=str(START - 8_000), end=str(START))
        one = composing.shown(given, file.settings(), "AVERAGE", 199).series[0]
        self.assertEqual((one.values[1], one.lows[1], one.highs[1]), (1.5, -3.0, 8.0))


class Titles(FileCase):
    def test_titles_that_do_not_fit(self) -> None:
        """A letter of the title takes 9.4 points, and 16 points are free at each side."""
        for title, width, shown in (("a" * 17, 200, "a" * 17), ("a" * 18, 200, "a" * 16 + "\u2026"),
                                    ("a" * 92, 900, "a" * 92)):
            with self.subTest(title=title, width=width):
                self.assertEqual(composing.title_of(self.options(title=title), width), shown)
        self.assertEqual(composing.title_of(self.options(), 900), "room")

    def test_which_rows_are_drawn(self) -> None:
        """In two lines where one is too long: of 6.4 points a letter. Seconds are told where there are some."""
        self.use(File("g", START, {("AVERAGE", 10): always(1.0)}))
        rows = composing.fetch(self.options(), "AVERAGE", 10, START - 600, START)
        first, second = "AVERAGE of 10 s", "2023-11-14 23:50 to 2023-11-15 00:00 UTC"
        least = math.ceil(len(f"{first}, {second}") * 6.4) + 32
        self.assertEqual(composing.subtitle_of("AVERAGE", rows, least), [f"{first}, {second}"])
        self.assertEqual(composing.subtitle_of("AVERAGE", rows, least - 1), [first, second])
        self.assertEqual(composing.short_time(START + 5), "2023-11-15 00:00:05")
        weeks = Columns(["g"], 14 * DAY, [START - 14 * DAY, START], [[1.0, 1.0]])
        line = "AVERAGE of 2 weeks, 2023-10-18 00:00 to 2023-11-15 00:00 UTC"
        self.assertEqual((len(line), composing.subtitle_of("AVERAGE", weeks, 416)), (60, [line]))  # 384 points and 32


class Pictures(FileCase):
    def setUp(self) -> None:
        super().setUp()
        self.file = self.use(File("in out", START, {
            ("AVERAGE", 60): always(2.0, 5.0), ("MIN", 60): always(1.0, 4.0), ("MAX", 60): always(3.0, 800.0)}))

    def test_what_is_asked(self) -> None:
        usual = self.picture()
        other = self.picture("--dark", "--area", "--no-legend", title="A", unit="B/s", size="400x300")
        self.assertEqual((usual.look, usual.style, usual.title, usual.has_band), (LIGHT, "lines", "room", True))
        self.assertEqual((other.look, other.style, other.title, other.has_band), (DARK, "area", "A", True))
        self.assertEqual((usual.size.width, other.size[:2], other.legend), (900, (400, 300), None))
        assert usual.legend is not None
        self.assertEqual(usual.legend.names, ["in", "out"])
        self.assertEqual(usual.legend.numbers[0], ["2.00", "1.00", "2.00", "3.00"])
        self.assertEqual((usual.rows.begin, usual.rows.end), (START - 600, START))
        self.assertEqual([one.name for one in usual.series], ["in", "out"])
        self.assertEqual(usual.subtitle, ["AVERAGE of 1 min, 2023-11-14 23:50 to 2023-11-15 00:00 UTC"])
        self.assertEqual((usual.axis.texts[-1], other.axis.texts[-1]), ("800", "800 B/s"))
        self.assertEqual(self.picture(function="MIN").subtitle[0][:12], "MIN of 1 min")

    def test_a_low_picture_has_no_legend(self) -> None:
        """The plot has 80 points at least: of 267 points, 66 are above it, and 44 and a legend of 77 below."""
        self.assertIsNotNone(self.picture(height="267").legend)
        low = self.picture(height="266")
        self.assertIsNone(low.legend)
        self.assertEqual((low.size.bottom, low.size.legend), (44, 0))

    def test_cut_values(self) -> None:
        """What is beyond the axis is marked, and a line says how far it goes."""
        below, above = CutMark(0, START - 300, False), CutMark(1, START - 300, True)
        for bounds, marks, text in (
                ({"max": "10"}, [above], "cut values go up to 800"),
                ({"min": "1.5"}, [below], "cut values go down to 1.00"),
                ({"min": "1.5", "max": "10"}, [below, above], "cut values go down to 1.00 and up to 800")):
            with self.subTest(bounds=bounds):
                found = self.picture("--rigid", **bounds)
                self.assertEqual((found.marks, found.subtitle[1:]), (marks, [text]))
                self.assertEqual(found.axis.low, float(bounds.get("min", 0)))
                self.assertEqual(found.axis.high, float(bounds.get("max", 800)))
                self.assertLessEqual(max(found.series[1].highs), found.axis.high)
                self.assertGreaterEqual(min(found.series[0].lows), found.axis.low)
                # The line takes room above the plot.
                self.assertEqual(found.size.top, self.picture().size.top + 16)

    def test_where_the_axis_begins(self) -> None:
        """At 0, unless values are negative or the axis is to fit; an area always has 0."""
        tries: List[Tuple[Tuple[float, float], Tuple[str, ...], float, float]] = [
            ((60.0, 90.0), (), 0, 100), ((60.0, 90.0), ("--fit",), 60, 90), ((60.0, 90.0), ("--fit", "--area"), 0, 100),
            ((0.0, 100.0), (), 0, 100), ((0.5, 0.9), (), 0, 1), ((0.5, 0.9), ("--fit",), 0.5, 0.9),
            ((-60.0, -40.0), (), -60, -40), ((-60.0, -40.0), ("--area",), -60, 0)]
        for cells, flags, low, high in tries:
            with self.subTest(cells=cells, flags=flags):
                self.use(File("in out", START, {("AVERAGE", 60): always(*cells)}))
                found = self.picture(*flags)
                self.assertEqual((found.axis.low, found.axis.high), (low, high))

    def test_one_zero_is_no_spike(self) -> None:
        """An axis begins at 0, and does not leave out the only row with this value."""
        self.use(File("g", START, {("AVERAGE", 10): lambda at: [0.0 if at == START - 300 else 50.0 + at // 10 % 2]}))
        found = self.picture("--cut-spikes")
        self.assertEqual((found.axis.low, found.marks), (0, []))

    def test_marks_of_a_low_picture(self) -> None:
        """A picture of 200 points has 90 of them for its plot, with room for marks at 0, 2, 4 and 6."""
        self.use(File("g", START, {("AVERAGE", 60): always(6.0)}))
        self.assertEqual(self.picture("--no-legend", height="200").axis.values, [0, 2, 4, 6])

    def test_settings_are_read_once(self) -> None:
        """Those that are given are taken."""
        with mock.patch.object(program, "settings", side_effect=AssertionError):
            found, = composing.pictures_of(self.options(start=str(START - 600), end=str(START)), self.file.settings())
        self.assertEqual(found.rows.end, START)

    def test_a_picture_for_each_size(self) -> None:
        """In a stack all sources have one axis."""
        self.use(File("load bytes", START, {("AVERAGE", 60): lambda at: [2.0, 2e6]}))
        for flags, names in (((), [["load"], ["bytes"]]), (("--stack",), [["load", "bytes"]])):
            found = composing.pictures_of(self.options(*flags), self.file.settings())
            self.assertEqual([[one.name for one in picture.series] for picture in found], names)
        self.assertEqual([one.name for one in self.picture().series], ["load", "bytes"])


class Commands(FileCase):
    """What gnuplot is told."""

    def setUp(self) -> None:
        super().setUp()
        self.change(mock.patch.dict(os.environ, {"RRDI_PLOT_SETUP": ""}))
        self.use(File("in out", START, {
            ("AVERAGE", 60): always(2.0, 5.0), ("MIN", 60): always(1.0, 4.0), ("MAX", 60): always(3.0, 9.0)}))

    def lines(self, picture: Picture, end: str = ".svg") -> List[str]:
        return commands("/tmp/f", end, picture).split("\n")

    def labels(self, picture: Picture) -> List[Tuple[str, int, int]]:
        """The labels that are not of the axes: their texts, and their points from the left and from above."""
        found: List[Tuple[str, int, int]] = []
        for line in self.lines(picture):
            label = re.match(r"set label '(.+)' at screen ([0-9.]+), screen ([0-9.]+) (left|right) front", line)
            if label is not None:
                width, height = picture.size[:2]
                found.append((label[1], round(float(label[2]) * width), round((1 - float(label[3])) * height)))
        return found

    def densities(self, picture: Picture) -> List[float]:
        """The densities of what is filled, from below to above."""
        filled = [line for line in self.lines(picture) if "with filledcurves" in line]
        return [float(line.split("solid ")[1].split()[0]) for line in filled]

    def test_contrasts(self) -> None:
        """The title stands out most; times and numbers are legible, as WCAG 2 has it, and the grid recedes."""
        def light(color: str) -> float:
            parts = [int(color[at:at + 2], 16) / 255 for at in (1, 3, 5)]
            red, green, blue = (part / 12.92 if part <= 0.04045 else ((part + 0.055) / 1.055) ** 2.4 for part in parts)
            return float(0.2126 * red + 0.7152 * green + 0.0722 * blue + 0.05)
        for look in (self.picture().look, self.picture("--dark").look):
            text, faint, grid = (max(light(color), light(look.background)) / min(light(color), light(look.background))
                                 for color in (look.text, look.faint, look.grid))
            self.assertTrue(text > 1.5 * faint > faint >= 4.5 > 2 > grid, (text, faint, grid))

    def test_densities(self) -> None:
        """Areas of a stack, of which none is below another one, are the densest."""
        for flags, look in (((), LIGHT), (("--dark",), DARK)):
            self.assertEqual(self.densities(self.picture(*flags)), [look.band] * 2)
            self.assertEqual(self.densities(self.picture("--area", *flags)), [look.band] * 2 + [look.fill] * 2)
            self.assertEqual(self.densities(self.picture("--area", "--no-band", *flags)), [look.fill] * 2)
            stacked = self.densities(self.picture("--stack", *flags))
            self.assertEqual(len(stacked), 2)
            self.assertTrue(all(look.fill < density <= 1 for density in stacked))

    def test_lines_of_each_source(self) -> None:
        """Each source has its color; after the last color the first one comes again."""
        picture = self.picture("--no-band")
        drawn = [line for line in self.lines(picture) if "with lines" in line]
        self.assertEqual([line.split("rgb ")[1].rstrip(", \\") for line in drawn],
                         [f"'{color}' title '{name}'" for color, name in zip(LIGHT.colors, ("in", "out"))])
        self.assertEqual([picture.color(at) for at in (0, 15, 16, 17)], [LIGHT.colors[at] for at in (0, 15, 0, 1)])

    def test_titles(self) -> None:
        """The title is above the line that says which rows are drawn, and that above the plot."""
        picture = self.picture("--no-legend", "--rigid", title="it's", max="4")
        (title, *place), (first, *below), (second, *last) = self.labels(picture)
        self.assertEqual((title, first, second), ("it''s", picture.subtitle[0], "cut values go up to 9.00"))
        self.assertEqual([place[0], below[0], last[0]], [16, 16, 16])
        self.assertTrue(0 < place[1] < below[1] < last[1] < picture.size.top)
        self.assertEqual(last[1] - below[1], 16)
        self.assertEqual(self.labels(self.picture("--no-legend", title=""))[0][0], picture.subtitle[0])

    def test_texts_in_quotes(self) -> None:
        """gnuplot takes an apostrophe at the beginning of a text, or one of two in a row, for its end, and so a line feed, which the
        name of a folder may have. The codes in double quotes leave nothing in it that has a meaning, and no digit that a code
        before it would take."""
        for text, wanted in (("it's", "'it''s'"), ("a'", "'a'''"), ("`a` @b \\", r"'`a` @b \'"), ("'24 a", r'"\047\062\064 a"'), ("5''", r'"\065\047\047"'), ("/a\n!b\r\x7f/c", r'"\057a\012\041b\015\177\057c"'),
                             ("'`a` @b \\ \" $x\u00e9", '"\\047\\140a\\140 \\100b \\134 \\042 \\044x\u00e9"')):
            self.assertEqual(gnuplot.quoted(text), wanted)

    def test_the_legend(self) -> None:
        """A line for each source below the heads, with its numbers below theirs."""
        picture = self.picture()
        found = self.labels(picture)[2:]
        texts = "last min mean max in 2.00 1.00 2.00 3.00 out 5.00 4.00 5.00 9.00"
        self.assertEqual([text for text, _, _ in found], texts.split())
        heads, first, second = found[:4], found[4:9], found[9:]
        self.assertEqual([across for _, across, _ in heads], [across for _, across, _ in first[1:]])
        self.assertEqual([across for _, across, _ in first], [across for _, across, _ in second])
        downs = [{down for _, _, down in row} for row in (heads, first, second)]
        self.assertEqual([len(row) for row in downs], [1, 1, 1])
        head, one, other = (row.pop() for row in downs)
        self.assertEqual((one - head, other - one), (21, 21))
        self.assertTrue(picture.size.height - picture.size.legend < head < other < picture.size.height)
        assert picture.legend is not None
        # The square of 10 points and the room of 8 points are before a name, whose width they are part of.
        self.assertEqual(first[0][1], 16 + 18)
        self.assertEqual([across for _, across, _ in heads],
                         [16 + picture.legend.name_width + number * picture.legend.column for number in (1, 2, 3, 4)])
        squares = [line for line in self.lines(picture) if line.startswith("set object rectangle")]
        colors = [re.findall("#[0-9a-f]{6}", line) for line in squares]
        self.assertEqual(colors, [[color] for color in LIGHT.colors[:2]])

    def test_two_tables(self) -> None:
        """Each of the tables side by side has its heads."""
        names = [f"s{number}" for number in range(10)]
        self.use(File(" ".join(names), START, {("AVERAGE", 60): always(*[1.0] * 10)}))
        found = self.labels(self.picture())[2:]
        self.assertEqual([text for text, _, _ in found].count("mean"), 2)
        downs = {text: down for text, _, down in found}
        self.assertEqual((downs["s0"], downs["s4"]), (downs["s5"], downs["s9"]))

    def test_triangles(self) -> None:
        """They point to where the values go: up at the upper edge, down at the lower one."""
        picture = self.picture("--rigid", min="1.5", max="4.5")
        found = [re.findall(r"first ([0-9.]+), (graph .) point pointtype (\S+) .*'(#.*)'", line)
                 for line in self.lines(picture) if " pointtype " in line]
        self.assertEqual(found, [[(f"{START - 300}.0", edge, form, LIGHT.colors[number])] for number, edge, form in (
            (0, "graph 0", "11"), (1, "graph 1", "9"))])

    def test_marks_of_the_axes(self) -> None:
        """A percent sign is one in a text, not a format; labels of times have the room of the plot."""
        picture = self.picture(unit="%", size="300x200", start=str(START - 2_400))
        lines = self.lines(picture)
        self.assertIn("set ytics ('0' 0.0, '5 %%' 5.0, '10 %%' 10.0)", lines)
        self.assertIn(f"set yrange [{picture.axis.low!r}:{picture.axis.high!r}]", lines)
        self.assertIn(f"set xrange ['{START - 2_400}':'{START}']", lines)
        times = next(line for line in lines if line.startswith("set xtics"))
        room = picture.size.width - picture.size.left - picture.size.right
        self.assertEqual((room // 56, times.count('" '), len(labels(START - 2_400, START, room))), (3, 3, 3))
        self.assertIn(f'" {START}', times)

    def test_commands_of_the_user(self) -> None:
        """They come before the plot. If they set a title, no other one is drawn."""
        scale, title = "set logscale y", "set title 'x'"
        tries: List[Tuple[Dict[str, str], str]] = [
            ({"RRDI_PLOT_SETUP": scale}, scale), ({"RRDI_PLOT_SETUP": title}, title), ({"LOOK": title}, ""), ({}, "")]
        for variables, setup in tries:
            with self.subTest(setup=setup), mock.patch.dict(os.environ, variables):
                picture = self.picture("--no-legend")
                lines = self.lines(picture)
                plot = next(at for at, line in enumerate(lines) if line.startswith("plot "))
                self.assertEqual(lines[plot - 1], setup)
                self.assertEqual(len(self.labels(picture)), 0 if "title" in setup else 2)

    def test_points(self) -> None:
        """A row begins and ends with a point; an empty line is between two stretches, and three are after a source."""
        def cells(at: int) -> List[float]:
            return [math.nan if at == START - 60 else 2.0, 5.0]
        self.use(File("in out", START, {("AVERAGE", 60): cells}))
        lines = list(points(self.picture(start=str(START - 180))))
        first = [f"{at} 0 2 2 2" for at in (START - 180, START - 120)]
        last = [f"{at} 0 2 2 2" for at in (START - 60, START)]
        other = [f"{at} 0 5 5 5" for at in (START - 180, START - 120, START - 120, START - 60, START - 60, START)]
        head = ": time, bottom, value, least, greatest"
        self.assertEqual(lines, [f"# in{head}", *first, "", *last, "", "", "", f"# out{head}", *other, "", "", ""])


DRAWN = "printf 'drawn IEND\\256B`\\202'"  # as a PNG ends


class Drawing(FileCase):
    """How gnuplot is run: here a script in its place."""

    def setUp(self) -> None:
        super().setUp()
        self.folder = cases.new_folder(self)
        self.change(mock.patch.dict(os.environ, {"PATH": f"{self.folder}:{os.environ['PATH']}"}))
        self.use(File("in out", START, {("AVERAGE", 60): always(2.0, 5.0)}))
        self.path = self.folder / "x.png"

    def draw(self, script: str) -> str:
        """Draws a picture by a script. Returns what is said on standard error."""
        program_path = self.folder / "gnuplot"
        program_path.write_text(f"#!/bin/sh\n{script}\n")
        program_path.chmod(0o755)
        with contextlib.redirect_stderr(io.StringIO()) as said, contextlib.redirect_stdout(said):
            try:
                draw("room.rrdi", str(self.path), self.picture())
            except Failure as failed:
                return f"{said.getvalue()}{failed}"
        return said.getvalue()

    def test_the_picture(self) -> None:
        """The script gets the commands beside the points, and what it draws gets its name."""
        said = self.draw(f'own=${{1%/*}}; cp "$1" "$own/points" {self.folder}; {DRAWN} >"$own/picture"; echo unseen')
        self.assertEqual((said, self.path.read_bytes()), ("", b"drawn IEND\xaeB`\x82"))
        told = (self.folder / "commands").read_text()
        self.assertIn("set terminal pngcairo size 900,", told)
        output = re.findall("set output '(.*)/picture'", told)[0]
        self.assertIn(f"plot '{output}/points' index 0", told)
        self.assertFalse(os.path.exists(output))
        self.assertEqual((self.folder / "points").read_text(), "\n".join(points(self.picture())) + "\n")

    def test_no_picture(self) -> None:
        """Whatever ends without one is a failure; a picture from before stays."""
        self.path.write_text("before")
        for script, why in (("echo why >&2; exit 1", "why\n"), ("exit 0", ""),
                            ("echo part >${1%/*}/picture; exit 3", "")):
            self.assertEqual(self.draw(script), f"{why}gnuplot did not draw room.rrdi")
            self.assertEqual(self.path.read_text(), "before")
        for path in (self.path, self.folder / "x.svg"):  # the disk was full, and gnuplot did not say so
            path.write_text("before")
            self.path = path
            self.assertEqual(self.draw("echo part >${1%/*}/picture"),
                             f"gnuplot did not draw room.rrdi to its end; is there space in {tempfile.gettempdir()}?")
            self.assertEqual(path.read_text(), "before")
        self.assertEqual(self.draw("printf '</g>\n</svg>\n\n' >${1%/*}/picture"), "")
        self.assertEqual(self.path.read_text(), "</g>\n</svg>\n\n")

    def test_no_space_for_what_gnuplot_needs(self) -> None:
        with mock.patch.object(gnuplot, "points", side_effect=OSError(errno.ENOSPC, "No space left on device")):
            self.assertRegex(self.draw("exit 1"), rf"^{tempfile.gettempdir()}/rrdi-plot\w+: No space left on device$")


class Folders(FileCase):
    """The pages of a folder, all of whose files have the same rows."""

    def setUp(self) -> None:
        super().setUp()
        self.folder = cases.new_folder(self)
        self.tree, self.out = self.folder / "tree", self.folder / "out"
        (self.tree / "sub").mkdir(parents=True)
        for name, data in (("a.rrdi", b"RRDI"), ("sub/b.rrd", b"RRDI"), ("old.rrd", b"RRD\0"), ("note.txt", b"RRDI")):
            (self.tree / name).write_bytes(data)
        self.file = self.use(File("in out", NOW - 600, {
            ("AVERAGE", 600): lambda at: [float(at // 600 % 3), 5.0], ("MAX", 600): always(9.0, 9.0)}, 500, 600))
        self.change(mock.patch.object(plot_folder, "chosen", lambda: None))
        self.change(mock.patch.object(program, "settings", self.settings))

    def settings(self, path: str) -> Settings:
        if "bad" in path:
            raise program.CommandFailed("file: not ours")
        if "odd" in path:
            raise OSError(5, "Input/output error", path)
        if "large" in path:
            raise MemoryError
        if "wrong" in path:
            raise Failure("why")
        return self.file.settings()

    def draw(self, *flags: str, function: Optional[str] = None, **values: str) -> Tuple[int, str, str]:
        """Draws the pages. Returns the status, and what is said."""
        asked = plot_folder.PagesAsked(str(self.tree), str(self.out), function, values, set(flags), 2)
        with contextlib.redirect_stdout(io.StringIO()) as out, contextlib.redirect_stderr(io.StringIO()) as err:
            status = plot_folder.draw_folder(asked, "rrdi-plot")
        return status, out.getvalue(), err.getvalue().replace(str(self.folder), "")

    def page(self, name: str) -> str:
        return (self.out / name).read_text(encoding="utf-8")

    def has(self, name: str, text: str) -> None:
        self.assertTrue(text in self.page(name), text)

    def test_pages(self) -> None:
        """One of each file of rrdi, and one of all; those of RRDtool are passed over."""
        self.assertEqual(self.draw(unit="B"), (0, "2 files drawn; 1 of RRDtool passed over\n", ""))
        names = sorted(str(path.relative_to(self.out)) for path in self.out.rglob("*") if path.is_file())
        self.assertEqual(names, ["a.rrdi.html", "index.html", "sub/b.rrd.html"])
        index, page = self.page("index.html"), self.page("sub/b.rrd.html")
        self.has("index.html", "<h1>tree</h1>")
        self.assertEqual(re.findall('href="(.*?)"', index), ["a.rrdi.html", "sub/b.rrd.html"])
        self.assertEqual(re.findall("<h2>(.*?)</h2>", page), ["Day", "Week", "Month", "Year"])
        self.assertEqual(re.findall("<h1>(.*?)</h1>", page), ["sub/b.rrd"])
        for name in ("index.html", "a.rrdi.html", "sub/b.rrd.html"):
            self.has(name, "<p>Last sample 2023-11-21 23:50:00 UTC</p>")
        self.assertEqual(re.findall('viewBox="0 0 ([0-9]+) ([0-9]+)"', index), [("460", "200")] * 2)
        self.assertEqual({width for width, _ in re.findall('viewBox="0 0 ([0-9]+) ([0-9]+)"', page)}, {"900"})
        self.has("a.rrdi.html", "AVERAGE of 10 min, 2023-11-21 00:00 to 2023-11-22 00:00 UTC")
        self.has("a.rrdi.html", "<td>5.00 B</td>")

    def test_what_is_asked(self) -> None:
        """The function, the end and the title. A file that ends a day before is old."""
        self.assertEqual(self.draw(function="MAX", end=str(NOW + DAY - 601), title="All")[0], 0)
        self.has("a.rrdi.html", "<p>Last sample ")
        self.has("a.rrdi.html", "MAX of 10 min, 2023-11-21 23:40 to 2023-11-22 23:50 UTC")
        self.has("index.html", "<h1>All</h1>")
        self.draw(end=str(NOW + DAY - 600))
        self.has("a.rrdi.html", '<p class="old">No sample since 2023-11-21 23:50:00 UTC</p>')
        self.file.last = START
        self.draw()
        self.has("a.rrdi.html", '<p class="old">No sample since 2023-11-15 00:00:00 UTC</p>')

    def test_files_that_are_not_drawn(self) -> None:
        """Each gets a line with the reason, and the status is 1."""
        odd = f"{self.tree}/odd.rrdi: Input/output error"
        why = {"bad": "file: not ours", "large": "out of memory", "odd": odd, "wrong": "why"}
        for name in why:
            (self.tree / f"{name}.rrdi").write_bytes(b"RRDI")
        status, out, err = self.draw()
        self.assertEqual((status, out), (1, "2 files drawn; 4 not drawn; 1 of RRDtool passed over\n"))
        lines = [f"rrdi-plot: {self.tree}/{name}.rrdi: not drawn: {text}" for name, text in why.items()]
        self.assertEqual(err.splitlines(), [line.replace(str(self.folder), "") for line in lines])
        for name, text in why.items():
            self.has("index.html", f"<li>{name}.rrdi: {text}</li>")
            self.assertFalse((self.out / f"{name}.rrdi.html").exists())

    def test_times_without_rows(self) -> None:
        """A length of time in which nothing is known has no picture, but those that are longer have."""
        self.file.archives = {("AVERAGE", 600): lambda at: [1.0 if at <= NOW - 2 * DAY else math.nan] * 2}
        self.assertEqual(self.draw()[0], 0)
        page = self.page("a.rrdi.html")
        self.assertEqual((page.count("<svg"), page.count("No value is known in this time")), (3, 1))
        self.has("index.html", "No value is known in this day")

    def test_files_of_others_stay(self) -> None:
        """A page is written again; a file that is no page stays, and that of all files is looked at before anything."""
        self.draw()
        self.out.joinpath("a.rrdi.html").write_text("mine")
        before = self.page("sub/b.rrd.html")
        self.file.archives = {("AVERAGE", 600): always(7.0, 7.0)}
        status, _, err = self.draw()
        self.assertEqual((status, self.page("a.rrdi.html")), (1, "mine"))
        self.assertIn("rrdi-plot has not made this file, which stays as it is", err)
        self.assertTrue(self.page("sub/b.rrd.html") != before)
        self.out.joinpath("index.html").write_text("mine")
        (self.out / "sub/b.rrd.html").unlink()
        self.assertRaises(FileExistsError, self.draw)
        self.assertEqual((self.page("index.html"), (self.out / "sub/b.rrd.html").exists()), ("mine", False))

    def test_nothing_to_draw(self) -> None:
        for name in ("a.rrdi", "sub/b.rrd"):
            (self.tree / name).unlink()
        with self.assertRaisesRegex(Failure, "tree: there is no database below it"):
            self.draw()
        self.assertFalse(self.out.exists())

    def test_what_a_kill_has_left(self) -> None:
        (self.out / "sub").mkdir(parents=True)
        for folder in (self.out, self.out / "sub"):
            left = folder / ".rrdi-0123456789abcdef.new"
            left.write_text("")
            os.utime(left, (NOW - 2 * DAY,) * 2)
        self.draw()
        self.assertEqual([path for path in self.out.rglob(".rrdi-*")], [])
