# SPDX-License-Identifier: MIT OR Apache-2.0
"""Tests of the times of `rrdi.compat.at_style` at, before and after each boundary. What a text means is what `rrdtool fetch`
1.7.2 took it for at the second 1,700,000,000, which is 2023-11-14 22:13:20 UTC, a Tuesday."""
from __future__ import annotations

import datetime
import os
import re
import time
import unittest
from unittest import mock

import doubles  # noqa: F401
from rrdi.compat.at_style import Moment, span
from rrdi.compat.syntax import Untranslatable

NOW = 1_700_000_000
OFFSETS = (
    ("-1y", 1_668_464_000), ("-1yr", 1_668_464_000), ("-1year", 1_668_464_000), ("-2years", 1_636_928_000), ("+1y", 1_731_622_400),
    ("-1mon", 1_697_321_600), ("-1month", 1_697_321_600), ("-2months", 1_694_729_600),
    ("-1w", 1_699_395_200), ("-1wk", 1_699_395_200), ("-1week", 1_699_395_200), ("-2weeks", 1_698_790_400), ("+1w", 1_700_604_800),
    ("-1d", 1_699_913_600), ("-1day", 1_699_913_600), ("-2days", 1_699_827_200),
    ("-1h", 1_699_996_400), ("-1hr", 1_699_996_400), ("-1hour", 1_699_996_400), ("-2hours", 1_699_992_800),
    ("-7m", 1_699_999_580), ("-7min", 1_699_999_580), ("-7minute", 1_699_999_580), ("-7minutes", 1_699_999_580),
    ("-9s", 1_699_999_991), ("-9sec", 1_699_999_991), ("-9second", 1_699_999_991), ("-9seconds", 1_699_999_991), ("-9", 1_699_999_991),
    # An m is a month or a minute, by its number, or by the unit before.
    ("-5m", 1_686_780_800), ("-6m", 1_699_999_640), ("-1y1m", 1_665_785_600), ("-1mon7m", 1_678_832_000), ("-1h7m", 1_699_995_980),
    # RRDtool takes hrs, which it does not know, for seconds, and does not say so.
    ("-2hrs", 1_699_992_800), ("-2wks", 1_698_790_400), ("-2yrs", 1_636_928_000),
    # After a sign, its number alone says which.
    ("-1d-30m", 1_699_911_800), ("-1w-10m", 1_699_394_600), ("-1mon+7m", 1_697_322_020), ("-1h-5m", 1_686_777_200), ("-1d-5m", 1_686_694_400),
    ("-1min6m", 1_699_999_580), ("-1d2h", 1_699_906_400), ("+1h-1s", 1_700_003_599), ("-1d1h", 1_699_910_000), ("-1w1d", 1_699_308_800))
HOURS = (
    ("midnight", 1_706_918_400), ("noon", 1_706_961_600), ("teatime", 1_706_976_000), ("0", 1_706_918_400), ("00:00", 1_706_918_400),
    ("22:59", 1_707_001_140), ("23:00", 1_707_001_200), ("23:59", 1_707_004_740), ("23", 1_707_001_200), ("0am", 1_706_918_400),
    ("0pm", 1_706_961_600), ("1am", 1_706_922_000), ("11pm", 1_707_001_200), ("12am", 1_706_918_400), ("12pm", 1_706_961_600),
    ("12:30am", 1_706_920_200), ("12:30 pm", 1_706_963_400), ("1:05pm", 1_706_965_500))
NO_HOURS = ("24", "24:00", "32:00", "23:60", "13am", "13pm", "99", "12:5", "12:x", "12:000", "8:30:00", "008", "noonday", "pm", ":30")
DAYS = (
    ("jan 5", 1_672_956_800), ("jan 5 24", 1_704_492_800), ("jan 5 12", 1_325_801_600), ("jan 5 2024", 1_704_492_800),
    ("january 5 2024", 1_704_492_800), ("noon jan 5", 1_672_920_000), ("jan 5 24 12:00", 1_704_456_000), ("jan 5 2024 12:00", 1_704_456_000),
    ("NOON_Jan,5 2024", 1_704_456_000), ("noon feb 30 2024", 1_709_294_400), ("2/3/2024", 1_706_918_400), ("3.2.2024", 1_706_918_400),
    ("02/03/24", 1_706_918_400), ("01/31/2024", 1_706_659_200), ("31.01.2024", 1_706_659_200), ("12/01/2024", 1_733_011_200),
    ("01.12.2024", 1_733_011_200), ("01/02/00", 946_771_200), ("01/02/37", 2_114_467_200), ("01/02/99", 915_235_200),
    ("01/02/0138", 2_146_003_200), ("01/02/1980", 315_619_200), ("20240131", 1_706_659_200), ("20241201", 1_733_011_200),
    ("20240231", 1_709_337_600), ("23991231", 13_569_379_200), ("20000101", 946_684_800), ("315360001", 315_360_001), ("noon 315360001", 315_360_001),
    ("315360001+1h", 315_363_601), ("99999999999", 99_999_999_999), ("noon today", 1_699_963_200), ("noon yesterday-1h", 1_699_873_200),
    ("noon tomorrow", 1_700_049_600), ("noon monday", 1_699_876_800), ("03.02.24", 1_706_918_400), ("02/03/95", 791_769_600),
    ("noon mar 3 24", 1_709_467_200), ("december 31 99 6pm", 946_663_200), ("noon may 9", 1_683_633_600),
    ("now", NOW), ("N", NOW), ("1600000000", 1_600_000_000), ("1600000000-10", 1_599_999_990),
    # `rrdtool fetch` takes no time before 1980: these are from the calendar.
    ("01/02/1971", 31_622_400), ("19710101", 31_536_000), ("19710102", 31_622_400), ("01.01.1971", 31_536_000), ("epoch+1y", 31_536_000),
    # rrdi takes an hour after a day without a year, and the beginning of a month's name.
    ("jan 5 12:00", 1_672_920_000), ("noon sept 5 2024", 1_725_537_600))
NO_DAYS = (
    "00/01/2024", "13/01/2024", "01/00/2024", "01/32/2024", "31/12/2024", "00.12.2024", "32.01.2024", "01.00.2024", "01.13.2024",
    "01/02/38", "01/02/39", "01/02/69", "01/02/0139", "01/02/1970", "31.12.1970", "02/03.2024", "02.03/2024", "20240200", "20240232",
    "20240001", "20241301", "24000101", "19700102", "19701231", "00240203", "2024020", "202402030", "315360000", "noon se 5 2024",
    "", "x", "1970-01-01", "jan", "jan foo", "1/x/2000", "1/2.2000", "1/2/x", "epoch", "epoch 5", "noon foo 5 2024", "noon septemberx 5", "jan 32", "jan 0", "jan 5 38", "noon tues", "noon mond", "noon noday", "noon foo")
TWICE = (
    "noon jan 5 jan 6", "noon mon tue", "noon today today", "noon 02/03/2024 02/03/2024", "noon 20240203 20240204", "20240203 jan 5",
    "today 20240203", "jan 5 2024 02/03/2024", "12:00 13:00", "12:00 20240203 13:00", "noon midnight", "315360001 noon",
    "315360001 20240203", "20240203 315360001", "315360001 315360002", "noon now", "now+1d noon")


class Boundaries(unittest.TestCase):
    def setUp(self) -> None:
        self.in_zone("UTC")

    def in_zone(self, zone: str) -> None:
        patch = mock.patch.dict(os.environ, {"TZ": zone})
        patch.start()
        self.addCleanup(time.tzset)
        self.addCleanup(patch.stop)
        time.tzset()

    def refused(self, text: str) -> bool:
        """Checks whether a time cannot be read, and the reason names it."""
        try:
            Moment(text, NOW).seconds()
        except Untranslatable as refusal:
            return str(refusal) == f"cannot parse time: {text}"
        return False

    def test_offsets(self) -> None:
        for text, wanted in OFFSETS:
            for spaced in (text, text[0] + " " + text[1:]):
                self.assertEqual(Moment(f"now{spaced}", NOW).seconds(), wanted, spaced)
                self.assertEqual(Moment(spaced, NOW).seconds(), wanted, spaced)

    def test_no_offsets(self) -> None:
        for text in ("-", "+", "now-", "now--1h", "now-1h-", "now-h", "now-x", "now-1x", "now-1ds", "now-2ms", "now-3hs", "now-3ss", "now-1 h h", "now+9999999999y", "now+10000000000y"):
            self.assertTrue(self.refused(text), text)

    def test_hours(self) -> None:
        for text, wanted in HOURS:
            self.assertEqual(Moment(f"{text} 20240203", NOW).seconds(), wanted, text)
            self.assertEqual(Moment(f"20240203 {text}", NOW).seconds(), wanted, text)

    def test_no_hours(self) -> None:
        for text in NO_HOURS:
            self.assertTrue(self.refused(f"{text} 20240203"), text)

    def test_days(self) -> None:
        for text, wanted in DAYS:
            self.assertEqual(Moment(text, NOW).seconds(), wanted, text)

    def test_no_days_and_nothing_twice(self) -> None:
        for text in (*NO_DAYS, *TWICE):
            self.assertTrue(self.refused(text), text)

    def test_digits_and_spaces_of_other_scripts(self) -> None:
        for text in ("now\u2003-1h", "\u0661:00", "now-\u0661h", "epoch+\u0661", "20240203".translate({48 + digit: 0x660 + digit for digit in range(10)}), "now-1\u00b2h"):
            self.assertTrue(self.refused(text), text)

    def test_each_day_of_each_week(self) -> None:
        """A day's name is the day of that name in the week of now, which begins with its Sunday."""
        names = ("sunday", "monday", "tuesday", "wednesday", "thursday", "friday", "saturday")
        sunday = datetime.datetime(2023, 11, 12, 12, tzinfo=datetime.timezone.utc)
        for today in range(7):
            now = int((sunday + datetime.timedelta(today)).timestamp())
            for number, name in enumerate(names):
                wanted = int((sunday + datetime.timedelta(number)).timestamp())
                for word in (name, name[:3]):
                    self.assertEqual(Moment(f"noon {word}", now).seconds(), wanted, (today, word))

    def test_days_of_summer(self) -> None:
        """Half an hour before a Tuesday of summer ends, it is Wednesday by the winter's clock; the name is that of the summer's. A
        day from or to another time has 24 hours, as in `rrdtool fetch`, even when clocks are set back."""
        self.in_zone("CET-1CEST,M3.5.0,M10.5.0/3")
        self.assertEqual(Moment("tuesday", 1_721_165_400).seconds(), 1_721_165_400)
        self.assertEqual(Moment("noon tuesday", 1_721_165_400).seconds(), 1_721_124_000)
        for words in (("end-1d", "1698577200"), ("1698490800", "start+1d")):
            self.assertEqual(span(*words, NOW), (1_698_490_800, 1_698_577_200))

    def test_now_while_clocks_show_a_time_twice(self) -> None:
        self.in_zone("CET-1CEST,M3.5.0,M10.5.0/3")
        for now in (1_729_988_999, 1_729_992_599):  # half past two in summer time, and an hour later
            self.assertEqual(span("now-10min", "now", now), (now - 600, now))
            self.assertEqual(span("end-1h", str(now), 1_729_988_999), (now - 3_600, now))

    def test_months_and_minutes(self) -> None:
        """An m alone is a month up to 5, and a minute from 6 on; after hours it is a minute, and after days a month, whatever
        its number, as in RRDtool's manual of fetch."""
        for number in range(1, 13):
            month = datetime.datetime.fromtimestamp(NOW, datetime.timezone.utc)
            month = month.replace(year=2023 if number < 11 else 2022, month=(10 - number) % 12 + 1)
            minutes, months = NOW - 60 * number, int(month.timestamp())
            for text, wanted in ((f"-{number}m", months if number <= 5 else minutes), (f"-{number}min", minutes), (f"-{number}mon", months),
                                 (f"-1h{number}m", minutes - 3_600), (f"-1d{number}m", months - 86_400)):
                self.assertEqual(span(text, "now", NOW)[0], wanted, text)

    def test_relative_times(self) -> None:
        """Each field moves by itself: the last day of January and a month are the second of March in a leap year."""
        for first, second, wanted in (
                ("end-1h", "1700000000", (NOW - 3_600, NOW)), ("e-1s", "1700000000", (NOW - 1, NOW)), ("end-1mon", "1711891800", (1_709_386_200, 1_711_891_800)),
                ("1706702400", "start+1mon", (1_706_702_400, 1_709_380_800)), ("1706702400", "s+1y", (1_706_702_400, 1_738_324_800)),
                ("1706702400", "start+1w1d", (1_706_702_400, 1_707_393_600)), ("1706702400", "start+0", (1_706_702_400, 1_706_702_400))):
            self.assertEqual(span(first, second, NOW), wanted, (first, second))
        for first, second in (("end-1h", "start+1h"), ("start-1h", "end"), ("end", "now"), ("now", "start"), ("end-1h", "end-2h"), ("start-2h", "start-1h")):
            with self.assertRaises(Untranslatable):
                span(first, second, NOW)
        for text in ("end-1h", "start+1h"):
            with self.assertRaisesRegex(Untranslatable, f"^this time is relative to itself: {re.escape(text)}$"):
                Moment(text, NOW).seconds()
        self.assertEqual((Moment("end-1h", NOW).seconds(end=5_000), Moment("start+1h", NOW).seconds(start=5_000)), (1_400, 8_600))
        for text in ("end", "start", "s", "e", "end 5", "start noon"):
            with self.assertRaisesRegex(Untranslatable, "^cannot parse time: "):
                Moment(text, NOW).seconds(NOW, NOW)

    def test_nothing_before_1970(self) -> None:
        for text, wanted in (("epoch+0", 0), ("epoch+0s", 0), ("epoch+1s", 1), ("epoch+7", 7)):
            self.assertEqual(Moment(text, NOW).seconds(), wanted)
        for text in ("epoch-1s", "epoch-1y", "now-54y"):
            self.assertTrue(self.refused(text), text)
        self.assertEqual(span("now-53y", "now", NOW)[0], 27_468_800)


if __name__ == "__main__":
    unittest.main()
