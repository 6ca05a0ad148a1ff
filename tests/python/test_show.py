# SPDX-License-Identifier: MIT OR Apache-2.0
"""Tests of rrdi-show: rows, the overview, the journal, and the words of its command line."""
from __future__ import annotations

import json
import os
import time
import unittest
from unittest import mock

from cases import needs_program, use_zone
from tool_case import Ran, ToolCase

from rrdi.tools.command_line import Failure, WrongArguments
from rrdi.tools.spans import span_of

USAGE = ("[--csv|--json|--openmetrics] FILE [FUNCTION] [-s START] [-e END] [-r SECONDS] [-a ARCHIVE]\n"
         "       rrdi-show --journal [--json] FILE")
DAY = 86_400


class Words(ToolCase):
    def test_usage(self) -> None:
        self.check_usage("rrdi-show", USAGE, [[], ["-x", "f"]])

    def test_refusals(self) -> None:
        for words, why in ((["f", "max"], "the function 'max' must be AVERAGE, MIN, MAX or LAST"),
                           (["f", "-s", "never"], "f: No such file or directory")):
            ran = self.tool("rrdi-show", *words)
            self.assertEqual((ran.out, ran.err), ("", f"rrdi-show: {why}\n"))


class Spans(unittest.TestCase):
    def setUp(self) -> None:
        use_zone(self, "Europe/Berlin")

    def test_spans(self) -> None:
        """Hand-computed: Berlin is one hour ahead of UTC in January, and two in July."""
        noon = 1_704_106_800  # 2024-01-01 12:00 in Berlin
        self.assertEqual(span_of(None, None, noon), (noon - DAY, noon))
        self.assertEqual(span_of("end-1h", None, noon), (noon - 3_600, noon))
        self.assertEqual(span_of("2024-01-01", "2024-01-01 12:00", 5), (noon - 12 * 3_600, noon))
        self.assertEqual(span_of("2024-01-01T11:59:30", "start+10s", 5), (noon - 30, noon - 20))
        self.assertEqual(span_of(None, "2024-07-01 00:00:01", 5)[1], 1_719_784_801)
        self.assertEqual(span_of(None, None, 20), (0, 20))
        with mock.patch.object(time, "time", lambda: noon + 0.5):
            self.assertEqual(span_of("-2h", "now", 5), (noon - 7_200, noon))

    def test_wrong_ones(self) -> None:
        for start, end in (("never", None), (None, "2024-13-99x"), ("end-1h", "start+1h")):
            with self.assertRaises(WrongArguments):
                span_of(start, end, 9)
        with self.assertRaisesRegex(Failure, "is not before the end, .* the last update of the file"):
            span_of("2024-01-01", None, 9)


@needs_program
class Files(ToolCase):
    """The database has gauges and a counter every ten seconds. What is expected was computed by hand."""

    def setUp(self) -> None:
        super().setUp()
        self.create("f.rrdi", "DS:g:GAUGE:100:U:U", "DS:c:COUNTER:100:0:U", "RRA:AVERAGE:0.5:1:3", "RRA:MAX:0.5:2:5")
        self.rrdi("update", "f.rrdi", "10:-1.5:100", "20:2.25:150")
        self.rrdi("update", "f.rrdi", "30:U:170")

    def show(self, *words: str) -> str:
        ran = self.tool("rrdi-show", *words)
        self.assertEqual((ran.status, ran.err), (0, ""), words)
        return ran.out

    def test_the_overview(self) -> None:
        self.assertEqual(self.show("f.rrdi").splitlines(), [
            "last update 1970-01-01 00:00:30 UTC, step 10 s, 2 of 16 changes can be reverted", "",
            "source  type     heartbeat  min  max  last value", "g       GAUGE    100 s      U    U    U",
            "c       COUNTER  100 s      0    U    170", "",
            "archive  function  row   rows  from                 to",
            "0        AVERAGE   10 s  3     1970-01-01 00:00:00  1970-01-01 00:00:30",
            "1        MAX       20 s  5     1970-01-01 00:00:00  1970-01-01 00:00:20"])

    def test_rows(self) -> None:
        table = ["AVERAGE of 10 s (archive 0); a row ends at its time, UTC", "time                     g  c",
                 "1970-01-01 00:00:10  -1.50  -", "1970-01-01 00:00:20   2.25  5", "1970-01-01 00:00:30      -  2"]
        self.assertEqual(self.show("f.rrdi", "AVERAGE").splitlines(), table)
        self.assertEqual(self.show("f.rrdi", "AVERAGE", "-s", "epoch+10s", "-e", "epoch+20s").splitlines(),
                         [*table[:1], "time                    g  c", "1970-01-01 00:00:20  2.25  5"])
        self.assertEqual(self.show("f.rrdi", "-s", "end-5s").splitlines()[2:], ["1970-01-01 00:00:30  -  2"])
        self.assertEqual(self.show("f.rrdi", "MAX").splitlines()[2:], ["1970-01-01 00:00:20  2.25  5"])
        self.create("s.rrdi", "DS:g:GAUGE:9:U:U", "RRA:LAST:0:1:9", step=1)
        self.rrdi("update", "s.rrdi", "1:1", "2:2", "3:3")
        self.assertEqual(self.show("s.rrdi", "-s", "epoch+1s", "-e", "epoch+3s").splitlines()[2:],
                         ["1970-01-01 00:00:02  2", "1970-01-01 00:00:03  3"])
        self.assertEqual(self.show("f.rrdi", "-a", "1"), self.show("f.rrdi", "MAX"))

    def test_other_forms(self) -> None:
        """With a function one archive, and its number stays; otherwise all archives, or all that is in the file."""
        self.assertEqual(self.show("--csv", "f.rrdi").splitlines(), [
            "archive,function,seconds,time,g,c", "0,AVERAGE,10,10,-1.500000,", "0,AVERAGE,10,20,2.250000,5.000000",
            "0,AVERAGE,10,30,,2.000000", "1,MAX,20,20,2.250000,5.000000"])
        self.assertEqual(self.show("f.rrdi", "MAX", "--csv").splitlines(), [
            "archive,function,seconds,time,g,c", "1,MAX,20,20,2.250000,5.000000"])
        self.assertIn('{source="c",file="f.rrdi",archive="1",function="MAX",seconds="20"} 5.000000 20\n',
                      self.show("f.rrdi", "MAX", "--openmetrics"))
        # OpenMetrics is UTF-8, whatever the locale says.
        os.link(self.folder / "f.rrdi", self.folder / "r\u00e4um.rrdi")
        ran = self.tool("rrdi-show", "--openmetrics", "r\u00e4um.rrdi", env={"PYTHONIOENCODING": "ascii"})
        self.assertIn('file="r\u00e4um.rrdi"', ran.out)
        self.assertEqual(json.loads(self.show("f.rrdi", "MAX", "--json")), {
            "archive": 1, "function": "MAX", "seconds": 20, "sources": ["g", "c"],
            "rows": [{"time": 20, "cells": [2.25, 5.0]}]})
        self.assertEqual(len(json.loads(self.show("f.rrdi", "--json"))["journal"]), 2)

    def test_archives_of_the_function(self) -> None:
        """RRDtool reads an archive of single steps for any function; here the archive has the function that was typed."""
        ran = self.tool("rrdi-show", "f.rrdi", "LAST")
        self.assertEqual(ran, Ran(1, "", "rrdi-show: f.rrdi: no archive has LAST, only AVERAGE, MAX\n"))
        ran = self.tool("rrdi-show", "f.rrdi", "-a", "2")
        self.assertEqual(ran, Ran(1, "", "rrdi-show: f.rrdi: there is no archive 2, only 0 to 1\n"))

    def test_no_rows(self) -> None:
        ran = self.tool("rrdi-show", "f.rrdi", "AVERAGE", "-s", "2020-01-01", "-e", "2020-01-02")
        self.assertEqual(ran, Ran(1, "", "rrdi-show: f.rrdi: archive 0 has no row from 2020-01-01 00:00:00 to 2020-01-02 00:00:00, "
                                  "only from 1970-01-01 00:00:00 to 1970-01-01 00:00:30\n"))

    def test_the_journal(self) -> None:
        """Each kind of change, newest first, with what was before and after it. revert then takes back the first one."""
        self.rrdi("tune", "f.rrdi", "--maximum", "g:50", "-r", "c:d")
        self.rrdi("resize", "f.rrdi", "0", "GROW", "4")
        self.rrdi("resize", "f.rrdi", "0", "SHRINK", "2")
        self.rrdi("tune", "f.rrdi", "RRA:LAST:0.5:1:1")
        self.rrdi("tune", "f.rrdi", "DELRRA:1")
        lines = self.show("--journal", "f.rrdi").splitlines()
        self.assertEqual(lines, [
            "  1  removal   1970-01-01 00:00:30", "       archive 1  5 rows of MAX of 20 s -> none",
            "  2  addition  1970-01-01 00:00:30", "       archive 2  none -> 1 row of LAST of 10 s",
            "  3  resize    1970-01-01 00:00:30", "       rows of AVERAGE of 10 s (archive 0)  7 -> 5",
            "  4  resize    1970-01-01 00:00:30", "       rows of AVERAGE of 10 s (archive 0)  3 -> 7",
            "  5  tune      1970-01-01 00:00:30", "       g max   U -> 50", "       d name  c -> d",
            "  6  update    1970-01-01 00:00:20 -> 1970-01-01 00:00:30",
            "       g                            2.25 -> U", "       c                            150 -> 170",
            "       AVERAGE of 10 s (archive 0)  1 new row",
            "  7  update    1970-01-01 00:00:00 -> 1970-01-01 00:00:20",
            "       g                            U -> 2.25", "       c                            U -> 150",
            "       AVERAGE of 10 s (archive 0)  2 new rows", "       MAX of 20 s (archive 1)      1 new row",
            "7 of at most 16 changes can be reverted, from the first line on"])
        for _ in range(5):
            self.rrdi("revert", "f.rrdi")
        self.assertEqual(self.show("--journal", "f.rrdi").splitlines()[0], "  1" + lines[11][3:])
        self.assertIn("c       COUNTER  100 s      0    U    170\n", self.show("f.rrdi"))
        self.rrdi("revert", "f.rrdi")
        self.assertIn("c       COUNTER  100 s      0    U    150\n", self.show("f.rrdi"))
        first, = json.loads(self.show("--journal", "--json", "f.rrdi"))
        self.assertEqual((first["revert"], first["change"], first["time_before"], first["time_after"]), (1, "update", 0, 20))
        self.assertEqual(first["differences"][1], {"source": "c", "what": "last value", "before": "U", "after": "150"})

    def test_what_is_no_database(self) -> None:
        self.write("f.txt", "text")
        for words in ("", "MAX", "--csv", "--journal"):
            self.assertEqual(self.tool("rrdi-show", "f.txt", *words.split()), Ran(1, "", "rrdi-show: f.txt: file: not ours\n"))
