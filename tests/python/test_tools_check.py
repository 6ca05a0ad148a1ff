# SPDX-License-Identifier: MIT OR Apache-2.0
"""Tests of rrdi-check: its words, its judgement by hand-computed values at each boundary, its lines, and the status that it
keeps. Only those of whole files need the program."""
from __future__ import annotations

import fcntl
import os
import time
import types
import unittest
from typing import Any, Dict, List, Optional, Tuple
from unittest import mock

import graphite_doubles as graphite
from cases import needs_program, new_folder, use_zone
from doubles import TOP
from tool_case import Ran, ToolCase

from rrdi.amounts import MILLION, Millionths
from rrdi.reader.selected import OpenFile
from rrdi.tools import check
from rrdi.tools.check import CRITICAL, OK, UNKNOWN, WARNING, CheckOptions, KnownRow, ValueRange, Verdict, WatchedSource
from rrdi.tools.command_line import Failure, WrongArguments

USAGE = ("FILE SOURCE [--above N] [--below N] [-w RANGE] [-c RANGE]\n"
         "                  [--for SPAN] [--stale SPAN] [--changes STATE]")
START = LAST = 1_700_000_040  # 2023-11-14 22:14:00 UTC, a whole minute


class Arguments(ToolCase):
    def test_usage(self) -> None:
        """Wrong arguments are UNKNOWN, which is 3: 2 would be an alarm."""
        self.assertIn("Exit status:", self.tool("rrdi-check", "--help").out)
        for words in ("", "f g h", "f g --changes="):
            ran = self.tool("rrdi-check", *words.split())
            self.assertEqual((ran.status, ran.out), (3, ""), words)
            self.assertTrue(ran.err.startswith(f"usage: rrdi-check {USAGE}\n"), ran.err)
        self.assertEqual(self.tool("rrdi-check", "f", "g", "-c", "7:5"), Ran(3, "", "rrdi-check: the range '7:5' of --critical ends below its start\n"))


class Words(unittest.TestCase):
    def test_ranges(self) -> None:
        """The table of the guidelines for Nagios plugins: 10 is from 0 to 10, ~ is no limit, and an @ forbids what is inside."""
        cases: List[Tuple[str, Dict[float, str]]] = [
            ("10", {-0.000001: "below 0", 0: "", 10: "", 10.000001: "above 10"}), ("10:", {9.999999: "below 10", 10: "", 1e17: ""}), ("~:10", {-1e17: "", 10: "", 10.000001: "above 10"}),
            ("5:10", {4.999999: "below 5", 5: "", 10: "", 10.000001: "above 10"}), ("5:5", {4.999999: "below 5", 5: "", 5.000001: "above 5"}), ("-5:-1.5", {-5.000001: "below -5", -5: "", -1.5: "", -1.499999: "above -1.5"}),
            ("@5:10", {4.999999: "", 5: "within 5:10", 10: "within 5:10", 10.000001: ""}), ("@10", {-0.000001: "", 0: "within 10", 10: "within 10", 10.000001: ""}), ("@~:10", {-1e17: "within ~:10", 10.000001: ""}),
            ("@10:", {9.999999: "", 10: "within 10:"}), (":10", {-0.000001: "below 0", 0: "", 10.000001: "above 10"}), ("~:", {-1e17: "", 0: "", 1e17: ""}), ("0", {-0.000001: "below 0", 0: "", 0.000001: "above 0"}),
            ("0.5:0.75", {0.499999: "below 0.5", 0.5: "", 0.75: "", 0.750001: "above 0.75"})]
        for text, faults in cases:
            found = check.range_of("warning", text)
            for value, fault in faults.items():
                self.assertEqual(found.fault_of(round(value * MILLION)), fault, (text, value))
        for text in ("", ":", "@", "~", "@:", "x", "10:5", "1:2:3", "1.1234567", "5:-5", "-5", "--5", "5 ", "+5", "1e3", "~5", "5:~"):
            with self.assertRaisesRegex(WrongArguments, "^(--warning must be a range such as 10, 5:10, 10:, ~:10 or @5:10, not |the range '(10:5|5:-5|-5)' of --warning ends below its start)"):
                check.range_of("warning", text)
        with self.assertRaisesRegex(WrongArguments, "not '/root:10'; bash needs quotes around '~:10'$"):
            check.range_of("critical", "/root:10")
        with self.assertRaisesRegex(WrongArguments, "not 'x/'$"):
            check.range_of("critical", "x/")

    def test_limits(self) -> None:
        cases: List[Tuple[Dict[str, str], Optional[Tuple[str, Optional[int], Optional[int]]]]] = [
            ({}, None), ({"above": "10"}, ("~:10", None, 10 * MILLION)), ({"below": "5"}, ("5:", 5 * MILLION, None)), ({"above": "10", "below": "5.5"}, ("5.5:10", 5_500_000, 10 * MILLION)), ({"above": "5", "below": "5"}, ("5:5", 5 * MILLION, 5 * MILLION)),
            ({"above": "0"}, ("~:0", None, 0)), ({"below": "-0.000001"}, ("-0.000001:", -1, None)), ({"critical": "5:10"}, ("5:10", 5 * MILLION, 10 * MILLION))]
        for values, wanted in cases:
            found = check.critical_range(values)
            self.assertEqual(found and found[:3], wanted, values)
        for values, text in (({"above": "5", "below": "5.000001"}, "--below is greater than --above, so no value would be in order"), ({"critical": "5", "above": "5"}, "give --critical, or --above and --below"),
                             ({"critical": "5", "below": "5"}, "give --critical, or --above and --below"), *(({option: text}, f"--{option} must be a number with at most six decimals, not {text!r}") for option in ("above", "below") for text in ("x", "1e3", "nan", "1.0000001"))):
            with self.assertRaises(WrongArguments) as wrong:
                check.critical_range(values)
            self.assertEqual(str(wrong.exception), text)

    def test_digits(self) -> None:
        """Two numbers that are one float: 2^60 millionths and the next one."""
        limit = check.read_options(["f", "g", "--above", "1152921504606.846976"]).limits[CRITICAL]
        self.assertEqual((limit.fault_of(2**60), limit.fault_of(2**60 + 1)), ("", "above 1152921504606.846976"))

    def test_spans(self) -> None:
        """m is a minute here, as in RRDtool's lengths."""
        for text, seconds in (("1", 1), ("5s", 5), ("5m", 300), ("5min", 300), ("2h", 7_200), ("1d", 86_400), ("1w", 604_800), ("999999999", 999_999_999), ("007", 7)):
            self.assertEqual(check.span_of("for", text), seconds)
        self.assertIsNone(check.span_of("for", None))
        for text in ("0", "0s", "00d", "", "x", "5 m", "-5", "1000000000", "5mon", "m", "1.5h"):
            with self.assertRaisesRegex(WrongArguments, "^--for must be seconds or a span such as 30s, 5m, 2h or 1d, not "):
                check.span_of("for", text)

    def test_options(self) -> None:
        found = check.read_options("f a --above 10 -w 5 --for 5m --stale=2h --changes s".split())
        self.assertEqual((found.file, found.source, list(found.limits), found.seconds, found.stale, found.state), ("f", "a", [CRITICAL, WARNING], 300, 7_200, "s"))
        found = check.read_options(["f", "a"])
        self.assertEqual(found[2:], ({}, 0, None, None))
        for words in ("f", "f a b", "f a --for=", "f a --changes=", "", "f a -x", "f a --above", "f a --stale 0"):
            self.assertRaises(WrongArguments, check.read_options, words.split())
        limits = {CRITICAL: check.range_of("c", "20"), WARNING: check.range_of("w", "10")}
        for value, wanted in ((10, (OK, "")), (11, (WARNING, "above 10")), (20, (WARNING, "above 10")), (21, (CRITICAL, "above 20")), (-1, (CRITICAL, "below 0"))):
            self.assertEqual(check.status_of(value * MILLION, limits), wanted)
        self.assertEqual(check.status_of(5, {}), (OK, ""))


class Sources(unittest.TestCase):
    def setUp(self) -> None:
        use_zone(self, "UTC")
        self.path = str(new_folder(self) / "f.rrdi")

    def watched(self, cells: Dict[int, Optional[float]], rows: int = 30, seconds: int = 0, coarse: int = 0) -> WatchedSource:
        """A source with rows of ten seconds, by how long ago they ended, and perhaps rows of a minute."""
        archives: List[Any] = [(1, rows, {LAST - ago: [0.0, value] for ago, value in cells.items()})]
        archives += [(6, coarse, {})] if coarse else []
        with open(self.path, "wb") as file:
            file.write(graphite.file_bytes(LAST, ("other", "a"), archives))
        opened = OpenFile(self.path)
        self.addCleanup(opened.close)
        return WatchedSource(opened, "a", seconds)

    def test_archives(self) -> None:
        """The finest one that has rows for so many seconds."""
        for seconds, found in ((0, 10), (300, 10), (301, 60), (600, 60)):
            self.assertEqual(self.watched({}, 30, seconds, 10).archive.seconds, found)
        with self.assertRaisesRegex(Failure, "^no archive has rows of the last 601 s$"):
            self.watched({}, 30, 601, 10)
        with self.assertRaisesRegex(Failure, "^there is no source b, only other, a$"):
            WatchedSource(self.watched({}).file, "b", 0)

    def test_no_row_of_extremes(self) -> None:
        """An average before the least or the greatest of several steps, even of shorter rows; of one step they are alike."""
        def chosen(*archives: Tuple[str, int]) -> int:
            listed: List[Any] = [types.SimpleNamespace(function=function, steps=steps, seconds=10 * steps, retention=600) for function, steps in archives]
            file = mock.Mock(outline=lambda: types.SimpleNamespace(sources=["a"], archives=listed),
                             settings=lambda: {"sources": [{"heartbeat": 20}]})
            return listed.index(WatchedSource(file, "a", 60).archive)
        for archives, wanted in (([("MIN", 5), ("AVERAGE", 5), ("MAX", 5)], 1), ([("MIN", 5), ("AVERAGE", 6)], 1), ([("AVERAGE", 6), ("MAX", 1)], 1),
                                 ([("LAST", 6), ("MAX", 5)], 1)):
            self.assertEqual(chosen(*archives), wanted, archives)

    def rows(self, found: List[KnownRow]) -> Dict[int, float]:
        return {LAST - row.time: row.value / MILLION for row in found}

    def test_rows(self) -> None:
        source = self.watched({0: 1.0, 10: 2.0, 20: None, 30: 4.0})
        self.assertEqual(source.oldest, LAST - 300)
        for after, until, found in ((40, 0, {30: 4, 10: 2, 0: 1}), (30, 0, {10: 2, 0: 1}), (31, 10, {30: 4, 10: 2}), (10, 10, {}), (999, 0, {30: 4, 10: 2, 0: 1}), (29, 11, {})):
            self.assertEqual(self.rows(source.rows(LAST - after, LAST - until)), found, (after, until))

    def test_the_newest_row(self) -> None:
        """However far back it is, in whatever part of the rows that are read at once."""
        for at in (0, 10, 50, 280, 290):
            for at_once in (1, 2, 3, 7, 1_000):
                with mock.patch.object(check, "ROWS_AT_ONCE", at_once):
                    source = self.watched({at: 5.0, 290: 7.0})
                    newest = source.newest(LAST)
                    self.assertEqual(newest and (LAST - newest.time, newest.value), (at, (7 if at == 290 else 5) * MILLION), (at, at_once))
                    self.assertIsNone(self.watched({}).newest(LAST))
        self.assertIsNone(self.watched({0: 5.0, 10: 5.0}).newest(LAST - 11))

    def test_rows_for_a_time(self) -> None:
        """Those of the seconds before the newest one; if the first of them are unknown, with the row before them, and without one none,
        unless there are no earlier rows at all."""
        known: Dict[int, Optional[float]] = {0: 1.0, 10: 2.0, 20: 3.0, 100: 9.0}
        cases: List[Tuple[Dict[int, Optional[float]], int, int, Dict[int, float]]] = [(known, 30, 30, {20: 3, 10: 2, 0: 1}), (known, 30, 29, {20: 3, 10: 2, 0: 1}), (known, 30, 20, {10: 2, 0: 1}), (known, 30, 31, {100: 9, 20: 3, 10: 2, 0: 1}), (known, 30, 10, {0: 1}), (known, 30, 1, {0: 1}),
                                            ({0: 1.0, 10: 2.0}, 30, 30, {}), ({0: 1.0, 10: 2.0}, 3, 30, {10: 2, 0: 1}), ({0: 1.0, 10: 2.0}, 4, 30, {}), ({0: 1.0}, 30, 10, {0: 1}), ({0: 1.0}, 30, 11, {})]
        for cells, rows, seconds, found in cases:
            source = self.watched(cells, rows)
            newest = source.newest(LAST)
            assert newest is not None
            self.assertEqual(self.rows(check.rows_for(source, newest, seconds)), found, (rows, seconds))

    def judged(self, cells: Dict[int, Optional[float]], now: int = 0, **more: Any) -> Verdict:
        options = CheckOptions("f", "a", {CRITICAL: check.range_of("c", "20"), WARNING: check.range_of("w", "10")}, 0, 60, None)._replace(**more)
        return check.judged(self.watched(cells), options, LAST + now)

    def test_verdicts(self) -> None:
        for cells, more, status, text in (
                ({0: 5.0}, {}, OK, "a is 5, at 2023-11-14 22:14:00"), ({0: 11.5}, {}, WARNING, "a is 11.5, above 10, at 2023-11-14 22:14:00"), ({0: 21.0}, {}, CRITICAL, "a is 21, above 20, at 2023-11-14 22:14:00"),
                ({10: 5.0}, {}, OK, "a is 5, at 2023-11-14 22:13:50"), ({}, {}, CRITICAL, "a has no known value"),
                ({0: 21.0, 10: 21.0}, {"seconds": 20}, CRITICAL, "a is 21, above 20 for 20 s, at 2023-11-14 22:14:00"), ({0: 21.0, 10: 11.0}, {"seconds": 20}, WARNING, "a is 21, above 20, but not for 20 s, at 2023-11-14 22:14:00"),
                ({0: 21.0, 10: 5.0}, {"seconds": 20}, OK, "a is 21, above 20, but not for 20 s, at 2023-11-14 22:14:00"), ({0: 5.0, 10: 21.0}, {"seconds": 20}, OK, "a is 5, at 2023-11-14 22:14:00"),
                ({0: 21.0}, {"seconds": 20}, OK, "a is 21, above 20, but not for 20 s, at 2023-11-14 22:14:00"), ({0: 21.0}, {"limits": {}}, OK, "a is 21, at 2023-11-14 22:14:00")):
            found = self.judged(cells, **more)  # type: ignore[arg-type]
            self.assertEqual((found.status, found.text), (status, text))

    def test_ages(self) -> None:
        """A value may be as old as the time that is given, and as far ahead."""
        for now, status, text in ((60, OK, "a is 5, at 2023-11-14 22:14:00"), (61, CRITICAL, "a has no known value after 2023-11-14 22:14:00, for 61 s"), (-60, OK, "a is 5, at 2023-11-14 22:14:00"),
                                  (-61, CRITICAL, "a has a value of 2023-11-14 22:14:00, 61 s from now")):
            found = self.judged({0: 5.0}, now)
            self.assertEqual((found.status, found.text, found.value), (status, text, Millionths(5_000_000) if status == OK else None), now)
        with self.assertRaisesRegex(Failure, "^--stale must be longer than a row, which has 10 s$"):
            self.judged({0: 5.0}, stale=10)
        self.assertEqual(self.judged({0: 5.0}, 11, stale=11).status, OK)
        # Without such a time it is the heartbeat, which is the longest one here, and a row.
        self.assertEqual([self.judged({0: 5.0}, now, stale=None).status for now in (9_999_999_999 + 10, 9_999_999_999 + 11)], [OK, CRITICAL])

    def test_lines(self) -> None:
        limits = {CRITICAL: check.range_of("c", "~:20"), WARNING: check.range_of("w", "@5:10")}
        cases: List[Tuple[Dict[int, ValueRange], Verdict, str]] = [
                ({}, Verdict(OK, "fine", Millionths(1_500_000)), "OK - f: fine | a=1.5"), (limits, Verdict(CRITICAL, "bad", Millionths(0)), "CRITICAL - f: bad | a=0;@5:10;~:20"), (limits, Verdict(WARNING, "x", None), "WARNING - f: x | a=U;@5:10;~:20"),
                ({WARNING: limits[WARNING]}, Verdict(OK, "x", Millionths(7)), "OK - f: x | a=0.000007;@5:10"), ({CRITICAL: limits[CRITICAL]}, Verdict(OK, "x", None), "OK - f: x | a=U;;~:20"), (limits, Verdict(UNKNOWN, "a|b\n", None), "UNKNOWN - f: a?b\\n")]
        for limits_of, verdict, line in cases:
            self.assertEqual(check.line_of(CheckOptions("f", "a", limits_of, 0, None, None), verdict), line)

    def test_files(self) -> None:
        """One that cannot be read is UNKNOWN, and its name stands once."""
        found = check.verdict_of(CheckOptions(self.path, "a", {}, 0, None, None))
        self.assertEqual((found.status, found.text), (UNKNOWN, "No such file or directory"))
        self.watched({0: 5.0})
        self.assertEqual(check.verdict_of(CheckOptions(self.path, "x", {}, 0, None, None))[:2], (UNKNOWN, "there is no source x, only other, a"))
        with mock.patch.object(time, "time", lambda: LAST + 7.9):
            self.assertEqual(check.verdict_of(CheckOptions(self.path, "a", {}, 0, 60, None))[:2], (OK, "a is 5, at 2023-11-14 22:14:00"))


class Kept(unittest.TestCase):
    def test_the_last_status(self) -> None:
        """Before the first run it is OK; a file with anything else stays as it is."""
        state = str(new_folder(self) / "state")
        self.assertEqual((check.kept_status(state), check.is_kept(state, OK), check.is_kept(state, WARNING)), ("0", True, False))
        for status in (CRITICAL, OK, UNKNOWN, WARNING):
            check.keep_status(state, status)
            with open(state, encoding="ascii") as file:
                self.assertEqual(file.read(), f"{status}\n")
            self.assertEqual([check.is_kept(state, other) for other in range(4)], [other == status for other in range(4)])
        for text, status in (("", ""), ("\n", ""), ("2", "2"), ("3\n", "3")):  # type: ignore[assignment]
            with open(state, "w", encoding="ascii") as file:
                file.write(text)
            self.assertEqual(check.kept_status(state), status)
        for text in ("4", "22", "2\n\n", "RRDI", " ", "-1", "2 "):
            with open(state, "w", encoding="ascii") as file:
                file.write(text)
            with self.assertRaisesRegex(OSError, "the file has something else"):
                check.kept_status(state)
            self.assertFalse(check.is_kept(state, OK))
            with mock.patch.object(check, "say") as said:
                check.keep_status(state, OK)
            self.assertEqual(said.call_args[0][1], f"{state}: the status is not kept: the file has something else")
            with open(state, encoding="ascii") as file:
                self.assertEqual(file.read(), text)


@needs_program
class Files(ToolCase):
    """A sample each minute: the row that ends at its time has its value."""

    def setUp(self) -> None:
        super().setUp()
        self.create("room.rrdi", "DS:temp:GAUGE:150:U:U", "DS:dew:GAUGE:150:U:U", "RRA:AVERAGE:0.5:1:10",
                    "RRA:AVERAGE:0.5:10:30", start=START, step=60)
        self.update("21.5:9", "31:U", "U:U", "30.5:U", "32:10")

    def update(self, *samples: str) -> None:
        last = int(self.rrdi("last", "room.rrdi"))
        self.rrdi("update", "room.rrdi", *(f"{last + 60 * number}:{values}" for number, values in enumerate(samples, 1)))

    def judged(self, words: str, after: int = 30) -> "tuple[int, str]":
        """Returns the status and the reason, some seconds after the last sample."""
        now = int(self.rrdi("last", "room.rrdi")) + after
        with mock.patch.dict(os.environ, {"TZ": "UTC"}), mock.patch.object(time, "time", lambda: now + 0.5):
            time.tzset()
            options = check.read_options([str(self.folder / "room.rrdi"), *words.split()])
            verdict = check.verdict_of(options)
        return verdict.status, verdict.text

    def test_limits(self) -> None:
        at = ", at 2023-11-14 22:19:00"
        for words, status, why in (
                ("--above 32", OK, ""), ("--above 31.999999", CRITICAL, ", above 31.999999"), ("--below 32", OK, ""),
                ("--below 33", CRITICAL, ", below 33"), ("-w 30", WARNING, ", above 30"),
                ("-w 30 -c 31", CRITICAL, ", above 31"),
                ("-w 30 -c 40", WARNING, ", above 30"), ("-c @32:40", CRITICAL, ", within 32:40"), ("", OK, "")):
            self.assertEqual(self.judged(f"temp {words}"), (status, f"temp is 32{why}{at}"), words)

    def test_how_long(self) -> None:
        """The known rows of four minutes are 31, 30.5 and 32, and those of five have 21.5 too."""
        for words, status, why in (
                ("--above 30 --for 1", CRITICAL, "above 30 for 1 s"), ("--above 30 --for 4m", CRITICAL, "above 30 for 4 min"),
                ("--above 30 --for 241", OK, "above 30, but not for 241 s"),
                ("--above 30 --for 5m", OK, "above 30, but not for 5 min"),
                ("--above 31 --for 2m", OK, "above 31, but not for 2 min"),
                ("-w 30 -c 31 --for 2m", WARNING, "above 31, but not for 2 min")):
            self.assertEqual(self.judged(f"temp {words}"), (status, f"temp is 32, {why}, at 2023-11-14 22:19:00"), words)

    def test_the_archive(self) -> None:
        """The finest one that reaches back: ten minutes, or five hours. None has six."""
        self.update(*["40:1"] * 2)
        self.assertEqual(self.judged("temp --above 30 --for 10m")[1],
                         "temp is 40, above 30, but not for 10 min, at 2023-11-14 22:21:00")
        # The row up to 22:20 has 21.5, 31, unknown, 30.5, 32 and 40, which is 31 on average. It has ten minutes, and none is
        # known before.
        self.assertEqual(self.judged("temp --above 30 --for 11m")[1],
                         "temp is 31, above 30, but not for 11 min, at 2023-11-14 22:20:00")
        self.assertEqual(self.judged("temp --for 6h"), (3, "no archive has rows of the last 6 h"))

    def test_after_a_gap(self) -> None:
        """One value stands for the minutes before it only if the last one before the gap was outside too."""
        self.update(*["U:U"] * 4, "40:1")
        at = ", at 2023-11-14 22:24:00"
        self.assertEqual(self.judged("temp --above 30 --for 3m"), (CRITICAL, f"temp is 40, above 30 for 3 min{at}"))
        self.assertEqual(self.judged("temp --above 32 --for 3m"), (OK, f"temp is 40, above 32, but not for 3 min{at}"))
        self.assertEqual(self.judged("temp --above 32 --for 1m"), (CRITICAL, f"temp is 40, above 32 for 1 min{at}"))
        self.assertEqual(self.judged("dew --below 5 --for 3m"), (OK, f"dew is 1, below 5, but not for 3 min{at}"))
        self.update("40:U", "41:U")
        self.assertEqual(self.judged("temp --above 32 --for 3m")[0], CRITICAL)
        # The archive has no rows before the last ten minutes.
        self.assertEqual(self.judged("temp --above 30 --for 10m")[0], CRITICAL)

    def test_the_first_value(self) -> None:
        self.create("room.rrdi", "DS:temp:GAUGE:150:U:U", "RRA:AVERAGE:0.5:1:10", start=START, step=60)
        self.update("40")
        self.assertEqual(self.judged("temp --above 30 --for 3m")[0], OK)
        self.update("40", "40")
        self.assertEqual(self.judged("temp --above 30 --for 3m")[0], CRITICAL)

    def test_dead_sources(self) -> None:
        """By default a row may be as old as the heartbeat and a row: 210 seconds."""
        self.assertEqual(self.judged("temp --above 50", 210)[0], OK)
        dead = "temp has no known value after 2023-11-14 22:19:00, for 211 s"
        self.assertEqual(self.judged("temp --above 50", 211), (CRITICAL, dead))
        self.assertEqual(self.judged("temp --stale 4m", 211)[0], OK)
        self.update(*["20:U"] * 9)
        with mock.patch("rrdi.tools.check.ROWS_AT_ONCE", 2):
            self.assertEqual(self.judged("dew --stale 10m"), (OK, "dew is 10, at 2023-11-14 22:19:00"))
        self.assertEqual(self.judged("temp --stale 61s")[0], OK)
        self.assertEqual(self.judged("dew --stale 10m"), (OK, "dew is 10, at 2023-11-14 22:19:00"))
        self.assertEqual(self.judged("dew --stale 569"), (
            CRITICAL, "dew has no known value after 2023-11-14 22:19:00, for 570 s"))
        self.assertEqual([self.judged("temp", -210)[0], self.judged("temp --stale 4m", -240)[0]], [OK, OK])
        self.assertEqual(self.judged("temp", -211), (CRITICAL, "temp has a value of 2023-11-14 22:28:00, 211 s from now"))
        self.update("20:U")
        self.assertEqual(self.judged("dew --stale 1d"), (CRITICAL, "dew has no known value"))
        self.assertEqual(self.judged("temp --stale 60"), (3, "--stale must be longer than a row, which has 1 min"))

    def test_the_line(self) -> None:
        """The value and its limits stand after a bar, in Nagios' order."""
        self.write("zone", "")
        for words, status, line in (
                ("room.rrdi temp --stale 9999d --above 30 --below -5.50 -w @1:2", 2,
                 "CRITICAL - room.rrdi: temp is 32, above 30, at 2023-11-14 22:19:00 | temp=32;@1:2;-5.5:30"),
                ("room.rrdi temp --stale 9999d -w 40", 0, "OK - room.rrdi: temp is 32, at 2023-11-14 22:19:00 | temp=32;40"),
                ("room.rrdi temp --stale 9999d", 0, "OK - room.rrdi: temp is 32, at 2023-11-14 22:19:00 | temp=32"),
                ("room.rrdi wind", 3, "UNKNOWN - room.rrdi: there is no source wind, only temp, dew"),
                ("none.rrdi temp", 3, "UNKNOWN - none.rrdi: No such file or directory"),
                ("zone temp", 3, "UNKNOWN - zone: file: truncated at 0")):
            self.assertEqual(self.tool("rrdi-check", *words.split()), Ran(status, line + "\n", ""))
        ran = self.tool("rrdi-check", "room.rrdi", "temp")
        self.assertRegex(ran.out,
                         r"^CRITICAL - room.rrdi: temp has no known value after 2023-11-14 22:19:00, for .* \| temp=U$")
        (self.folder / "room.rrdi").rename(self.folder / "a|b\n.rrdi")
        self.assertEqual(self.tool("rrdi-check", "a|b\n.rrdi", "temp", "--stale", "9999d").out,
                         "OK - a?b\\n.rrdi: temp is 32, at 2023-11-14 22:19:00 | temp=32\n")

    def test_a_locked_file(self) -> None:
        with open(self.folder / "room.rrdi", "rb") as file:
            fcntl.flock(file, fcntl.LOCK_EX)
            self.assertEqual(self.tool("rrdi-check", "room.rrdi", "temp", env={"RRDI_WAIT": "0"}), Ran(
                3, "UNKNOWN - room.rrdi: cannot open: another program holds its lock\n", ""))

    def test_failing_output(self) -> None:
        """Nobody takes a line that was not printed for WARNING, which is 1."""
        ran = self.tool("rrdi-check", "room.rrdi", "temp", stdout="/dev/full")
        self.assertEqual(ran, Ran(3, "", "rrdi-check: No space left on device\n"))
        ran = self.tool("rrdi-check", "\u00e9.rrdi", "temp", env={"PYTHONIOENCODING": "ascii"})
        self.assertEqual((ran.status, ran.out), (3, ""))


@needs_program
class Changes(ToolCase):
    """What cron mails: a line when the status changes, and none while it stands."""

    def setUp(self) -> None:
        super().setUp()
        self.create("f.rrdi", "DS:g:GAUGE:20:U:U", "RRA:AVERAGE:0.5:1:9")
        self.rrdi("update", "f.rrdi", "10:5")

    def check(self, above: int, stdout: Optional[str] = None, **more: "Dict[str, str] | int") -> Ran:
        words: List[str] = ["f.rrdi", "g", "--stale", "99999d", "--above", str(above), "--changes", "g.state"]
        return self.tool("rrdi-check", *words, stdout=stdout, **more)  # type: ignore[arg-type]

    def test_changes(self) -> None:
        alarm = "CRITICAL - f.rrdi: g is 5, above 4, at 1970-01-01 00:00:10 | g=5;;~:4\n"
        fine = "OK - f.rrdi: g is 5, at 1970-01-01 00:00:10 | g=5;;~:5\n"
        self.assertEqual([self.check(5), self.check(4), self.check(4), self.check(5), self.check(5)], [
            Ran(0, "", ""), Ran(2, alarm, ""), Ran(2, "", ""), Ran(0, fine, ""), Ran(0, "", "")])
        self.assertEqual(sorted(path.name for path in self.folder.glob("*.*")), ["f.rrdi", "g.state"])

    def test_an_empty_state(self) -> None:
        """It says nothing: the line comes."""
        for data in (b"", b"\n"):
            self.write("g.state", data)
            self.assertEqual([self.check(4).out != "", self.check(4).out], [True, ""])

    def test_what_is_no_state(self) -> None:
        """A database, or whatever else has the name by a slip, stays, and the line comes each time."""
        for data in (self.read("f.rrdi"), b"2.0\n", b"\xff" * 99, b"4\n"):
            self.write("g.state", data)
            for _ in range(2):
                ran = self.check(4)
                self.assertEqual((ran.status, ran.out[:8], ran.err), (
                    2, "CRITICAL", "rrdi-check: g.state: the status is not kept: the file has something else\n"))
            self.assertEqual(self.read("g.state"), data)
        (self.folder / "g.state").unlink()
        os.mkfifo(self.folder / "g.state")  # nobody writes
        self.assertEqual((self.check(4).status, (self.folder / "g.state").is_fifo()), (2, True))

    def test_what_cannot_be_kept(self) -> None:
        """The line comes each time, with the reason, and the status is that of the check."""
        (self.folder / "g.state").mkdir()
        for _ in range(2):
            ran = self.check(4)
            self.assertEqual((ran.status, ran.out[:8], ran.err), (
                2, "CRITICAL", "rrdi-check: g.state: the status is not kept: Is a directory\n"))
        (self.folder / "g.state").rmdir()
        ran = self.check(4, size=1)
        self.assertEqual((ran.status, ran.err), (2, "rrdi-check: g.state: the status is not kept: File too large\n"))
        self.assertEqual(sorted(path.name for path in self.folder.glob("*.*")), ["f.rrdi"])

    def test_what_nobody_has_read(self) -> None:
        """A line that was not printed comes again."""
        self.assertEqual(self.check(4, stdout="/dev/full").status, 3)
        command = f"{TOP}/tools/rrdi-check f.rrdi g --stale 99999d --above 4 --changes g.state >&-"
        self.assertEqual(self.run_command(["sh", "-c", command]), Ran(3, "", "rrdi-check: standard output is closed\n"))
        self.assertEqual(self.check(4).status, 2)
        self.assertNotEqual(self.read("g.state"), b"0\n")


if __name__ == "__main__":
    unittest.main()
