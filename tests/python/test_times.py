# SPDX-License-Identifier: MIT OR Apache-2.0
"""Tests of the times that the tools take, besides RRDtool's own: with a zone, after an @, and dates that there are not."""
from __future__ import annotations

import os
import re
import subprocess
import time
import unittest
from unittest import mock

from cases import use_zone
from tool_case import NO_RRDTOOL, RRDTOOL, ToolCase

from rrdi.tools.command_line import Failure, WrongArguments
from rrdi.tools.fix import times_of
from rrdi.tools.graph import with_times
from rrdi.tools.spans import as_of_rrdtool, length_text, local_times, span_of, time_text, typed_seconds, zone_of

NOON = 1_704_106_800  # 2024-01-01 11:00 UTC, and 12:00 in Berlin


class Times(unittest.TestCase):
    """Berlin is one hour ahead of UTC in January, and two in July. The seconds are those of GNU date."""

    def setUp(self) -> None:
        use_zone(self, "Europe/Berlin")

    def test_zones(self) -> None:
        for text in ("2024-01-01T11:00:00Z", "2024-01-01 11:00Z", "2024-01-01 11:00:00 Z", "2024-01-01T12:00+01:00",
                     "2024-01-01T16:30:00+0530", "2024-01-01T07:15-03:45", "@1704106800", "2024-01-01 12:00"):
            self.assertEqual(as_of_rrdtool(text), f"epoch+{NOON}", text)
        self.assertEqual(as_of_rrdtool("2024-07-01T00:00Z"), "epoch+1719792000")
        self.assertEqual(as_of_rrdtool("2024-07-01"), "epoch+1719784800")
        self.assertEqual(as_of_rrdtool("@60"), "epoch+60")
        for text in ("202\u0664-01-01", "202\u0664-01-01T00:00Z", "2024-01-01T00:00+0\u0661", "@6\u0660"):
            self.assertIsNone(typed_seconds(text), text)

    def test_spans(self) -> None:
        self.assertEqual(span_of("@1704106000", "2024-01-01T11:00Z", 5), (1_704_106_000, NOON))
        self.assertEqual(span_of("end-5min", "@1704106800", 5), (NOON - 300, NOON))
        with mock.patch.object(time, "time", lambda: NOON + 0.5):
            self.assertEqual(span_of("-5min", "now", 5), (NOON - 300, NOON))

    def test_an_hour_that_there_is_twice(self) -> None:
        """A start in it is the earlier one, and an end the later one."""
        twice = "2023-10-29 02:30"
        self.assertEqual(span_of(twice, twice, 5), (1_698_539_400, 1_698_543_000))

    def test_a_day_without_a_midnight(self) -> None:
        """Where clocks were set forward at midnight, the day begins at one; a time in between there is not."""
        with mock.patch.dict(os.environ, {"TZ": "America/Sao_Paulo"}):
            time.tzset()
            self.assertEqual(as_of_rrdtool("2017-10-15"), "epoch+1508036400")
            self.assertEqual(span_of("2017-10-15", "2017-10-16", 5), (1_508_036_400, 1_508_119_200))
            self.assertEqual(span_of("2017-10-14", "2017-10-15", 5), (1_507_950_000, 1_508_036_400))
            with self.assertRaisesRegex(WrongArguments, "there is no time '2017-10-15 00:30'"):
                as_of_rrdtool("2017-10-15 00:30")

    def test_clocks_that_are_set_back_by_hours(self) -> None:
        """Three of them in Casey, at 2 o'clock of 5 March 2010: both times are found, whichever `mktime` tells."""
        with mock.patch.dict(os.environ, {"TZ": "Antarctica/Casey"}):
            time.tzset()
            for text, first in (("2010-03-04 23:00", 1_267_704_000), ("2010-03-05 00:30", 1_267_709_400), ("2010-03-05 01:59:59", 1_267_714_799)):
                for told in (first, first + 10_800):
                    with mock.patch.object(time, "mktime", lambda parts: float(told)):
                        self.assertEqual(local_times(text, (*text[:10].split("-"), *text[11:].split(":"), *["00"] * (text.count(":") == 1))), [first, first + 10_800])
            self.assertEqual(as_of_rrdtool("2010-03-05 02:00"), "epoch+1267725600")

    def test_spans_that_are_none(self) -> None:
        """The start is before the end; a time is one that there is."""
        self.assertEqual(span_of(None, "@100000", 5), (13_600, 100_000))
        self.assertEqual(span_of(None, "@86400", 5), (0, 86_400))
        self.assertEqual(span_of(None, "@86399", 5), (0, 86_399))
        self.assertEqual(span_of("@5", None, 6), (5, 6))
        at = {0: "1970-01-01 01:00:00", 5: "1970-01-01 01:00:05", 6: "1970-01-01 01:00:06"}
        for start, end, last, text in (("@5", "@5", 0, f"the start, {at[5]}, is not before the end, {at[5]}"), ("@6", "@5", 0, f"the start, {at[6]}, is not before the end, {at[5]}"),
                                       ("@5", None, 5, f"the start, {at[5]}, is not before the end, {at[5]}, which is the last update of the file"),
                                       (None, None, 0, f"the start, {at[0]}, is not before the end, {at[0]}, which is the last update of the file"), (None, "@0", 7, f"the start, {at[0]}, is not before the end, {at[0]}")):
            with self.assertRaises(Failure) as failed:
                span_of(start, end, last)
            self.assertEqual(str(failed.exception), text)
        for start, end, text in (("x", None, "cannot parse time: x"), (None, "x", "cannot parse time: x"), ("end-1h", "start+1h", "--start and --end cannot both be relative to each other")):
            with self.assertRaises(WrongArguments) as wrong:
                span_of(start, end, 5)
            self.assertEqual(str(wrong.exception), text)

    def test_zone_names(self) -> None:
        for times, names in (((NOON,), "CET"), ((NOON, NOON + 5), "CET"), ((NOON, 1_719_792_000), "CET/CEST"), ((1_719_792_000, NOON, 1_719_792_000), "CEST/CET")):
            self.assertEqual(zone_of(*times), names)
        self.assertEqual((time_text(NOON), time_text(1_719_792_059)), ("2024-01-01 12:00:00", "2024-07-01 02:00:59"))

    def test_each_end_of_a_date(self) -> None:
        """The last second of a year, of a leap day, of a day; the first one of years that the calendar has."""
        for text, seconds in (("2023-12-31T23:59:59Z", 1_704_067_199), ("2024-02-29T00:00:00Z", 1_709_164_800), ("2024-01-31 23:59:59Z", 1_706_745_599), ("1970-01-01T00:00Z", 0),
                              ("2024-01-01T00:00:00+23:59", 1_703_980_860), ("2024-01-01T00:00:00-23:59", 1_704_153_540), ("2024-01-01T00:00-0030", 1_704_069_000), ("2024-01-01 12:59:59", 1_704_110_399),
                              ("@0", 0), ("@9999999999", 9_999_999_999)):
            self.assertEqual(as_of_rrdtool(text), f"epoch+{seconds}", text)
        for text in ("@10000000000", "@", "@-1", "@1.5", "2024-1-01", "2024-01-01T1:00Z", "2024-01-01T", "2024-01-01T00Z", "2024-01-01+1", "noon", "now-5min"):
            self.assertEqual(as_of_rrdtool(text), text)

    def test_lengths(self) -> None:
        """In the longest unit of which there are whole ones."""
        for seconds, text in ((0, "0 s"), (59, "59 s"), (60, "1 min"), (61, "61 s"), (5_400, "90 min"), (7_200, "2 h"),
                              (3_599, "3599 s"), (3_600, "1 h"), (82_800, "23 h"), (90_000, "25 h"), (86_400, "1 day"), (172_800, "2 days"), (604_800, "1 week"), (1_209_600, "2 weeks")):
            self.assertEqual(length_text(seconds), text)

    def test_no_times(self) -> None:
        for text in ("2024-02-30", "2024-13-01", "2024-01-00", "2023-02-29 12:00", "2024-01-01 24:00", "2024-01-01 24:00Z", "2024-01-01T10:60Z",
                     "2024-01-01T10:00:60Z", "0000-01-01T00:00Z", "0000-02-29T00:00+01:00", "0000-01-01"):
            with self.assertRaisesRegex(WrongArguments, re.escape(f"there is no time '{text}'")):
                as_of_rrdtool(text)

    def test_rrdi_fix(self) -> None:
        for text in ("2024-01-01T11:00:00Z", "@1704106800", "1704106800", "2024-01-01 12:00:00"):
            self.assertEqual(times_of(text), {NOON})

    def test_words_of_a_graph(self) -> None:
        words = ["p.png", "--start", "2024-01-01T11:00Z", "--end=@1704106900", "-s2024-01-01 12:00", "-e", "now",
                 "DEF:a=f:g:LAST:start=noon"]
        self.assertEqual(with_times(words),
                         ["p.png", "--start", f"{NOON}", "--end=1704106900", f"-s{NOON}", "-e", "now",
                          "DEF:a=f:g:LAST:start=noon"])

    def test_a_time_that_clocks_show_twice_in_a_graph(self) -> None:
        """A start is the earlier one, and an end the later one, as in the other tools."""
        text, begin, end = "2024-10-27 02:30", "1729989000", "1729992600"
        for first, second in (("-s", "-e"), ("--start", "--end")):
            self.assertEqual(with_times([first, text, second, text]), [first, begin, second, end])
        for first, second in (("-s", "-e"), ("--start=", "--end=")):
            self.assertEqual(with_times([first + text, second + text]), [first + begin, second + end])

    def test_times_of_a_graph_before_1980(self) -> None:
        """RRDtool reads such digits as an hour of today, a month or a date."""
        for text in ("@0", "@20240101", "@315360000", "1970-08-23T06:15:01Z"):
            for words in (["p.png", "--start", text], ["p.png", f"--end={text}"]):
                with self.assertRaisesRegex(WrongArguments, f"^RRDtool draws nothing before 1980: '{text}'$"):
                    with_times(words)
        self.assertEqual(with_times(["p.png", "-s", "@315360001"]), ["p.png", "-s", "315360001"])


@unittest.skipUnless(RRDTOOL, NO_RRDTOOL)
class BesideRRDtool(ToolCase):
    def test_m_is_a_month(self) -> None:
        """As the help says: RRDtool goes back by months for -5m, and by minutes for -5min."""
        def rows(start: str) -> int:
            ran = subprocess.run([str(RRDTOOL), "fetch", "f.rrd", "LAST", "-s", start, "-e", "now"], cwd=self.folder,
                                 env=self.env, check=True, capture_output=True, text=True)
            first = ran.stdout.splitlines()[2]
            return int(first.split(":")[0])
        subprocess.run([str(RRDTOOL), "create", "f.rrd", "--step", "60", "DS:g:GAUGE:600:U:U", "RRA:LAST:0.5:1:10"],
                       cwd=self.folder, check=True)
        for text, least, most in (("-5min", 0, 600), ("-5m", 140 * 86_400, 160 * 86_400)):
            now = int(time.time())
            self.assertTrue(least <= now - rows(text) <= most, text)
            self.assertTrue(least <= now - span_of(text, "now", now)[0] <= most, text)


if __name__ == "__main__":
    unittest.main()
