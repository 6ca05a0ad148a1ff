# SPDX-License-Identifier: MIT OR Apache-2.0
"""Tests of the last value of a gauge that is moved from RRDtool: the last one that came, although several came in its last
step, of which the file has the mean. What is expected was computed by hand."""
from __future__ import annotations

import math
import unittest
from array import array
from typing import List, Optional

import doubles  # noqa: F401
from rrdi.importing.batch import RrdBatch
from rrdi.importing.dump import RrdArchive, RrdFile, RrdSource
from rrdi.importing.last_values import last_value, with_last

NAN = math.nan
MILLION = 10**6


def source(kind: str, last_raw: str, total: float = 0.0, unknown: int = 0, minimum: float = NAN, maximum: float = NAN,
           column: int = 0) -> RrdSource:
    return RrdSource(column, f"s{column}", kind, 99, minimum, maximum, last_raw, total, unknown)


class LastSeconds(unittest.TestCase):
    """A step of ten seconds began at 100, and the rates before are 2."""

    def lay(self, rates: "List[tuple[int, Optional[float]]]", value: float, is_in: bool = True, whole: int = 100) -> "Optional[List[tuple[int, Optional[float]]]]":
        found = with_last([(end, None if rate is None else round(rate * MILLION)) for end, rate in rates], 0, 100 if rates[-1][0] > whole else whole - 10,
                          whole, round(value * MILLION), is_in)
        return None if found is None else [(end, None if rate is None else rate / MILLION) for end, rate in found]

    def test_an_unfinished_step(self) -> None:
        """Six seconds with the mean 5 and the last second 9 have 21 in the five others."""
        self.assertEqual(self.lay([(100, 2.0), (106, 5.0)], 9.0), [(100, 2.0), (105, 4.2), (106, 9.0)])
        self.assertEqual(self.lay([(100, 2.0), (102, None), (106, 5.0)], 9.0), [(100, 2.0), (102, None), (105, 3.666667), (106, 9.0)])
        self.assertEqual(self.lay([(100, 2.0), (104, None), (106, 5.0)], 9.0), [(100, 2.0), (104, None), (105, 1.0), (106, 9.0)])

    def test_what_cannot_be(self) -> None:
        """One known second is the mean, and none is unknown; what is left may be too large for rrdi."""
        self.assertIsNone(self.lay([(100, 2.0), (105, None), (106, 5.0)], 9.0))
        self.assertIsNone(self.lay([(100, 2.0), (106, None)], 9.0))
        self.assertIsNone(self.lay([(100, 2.0), (101, 5.0)], 9.0))
        self.assertIsNone(self.lay([(100, 2.0), (102, 9e17)], -9e17))

    def test_a_finished_step(self) -> None:
        """Ten seconds with the mean 2, of a stretch of one step or of ten, have 11 in the nine seconds before a 9."""
        eleven_ninths = 1.222222
        self.assertEqual(self.lay([(90, 3.0), (100, 2.0)], 9.0), [(90, 3.0), (99, eleven_ninths), (100, 9.0)])
        self.assertEqual(self.lay([(100, 2.0)], 9.0), [(90, 2.0), (99, eleven_ninths), (100, 9.0)])
        self.assertIsNone(self.lay([(90, 3.0), (100, None)], 9.0))

    def test_values_out_of_bounds(self) -> None:
        """Their second is unknown in both: one of those that are unknown in the step, or one of a known step that is finished."""
        self.assertEqual(self.lay([(100, 2.0), (102, None), (106, 5.0)], 99.0, False), [(100, 2.0), (101, None), (105, 5.0), (106, 99.0)])
        self.assertEqual(self.lay([(100, 2.0), (101, None), (106, 5.0)], 99.0, False), [(100, 2.0), (105, 5.0), (106, 99.0)])
        self.assertEqual(self.lay([(100, 2.0), (106, None)], 99.0, False), [(100, 2.0), (105, None), (106, 99.0)])
        self.assertEqual(self.lay([(100, 2.0), (101, None)], 99.0, False), [(100, 2.0), (101, 99.0)])
        self.assertIsNone(self.lay([(100, 2.0), (106, 5.0)], 99.0, False))
        self.assertEqual(self.lay([(90, 3.0), (100, 2.0)], 99.0, False), [(90, 3.0), (99, 2.0), (100, 99.0)])
        self.assertEqual(self.lay([(90, 3.0), (100, None)], 99.0, False), [(90, 3.0), (99, None), (100, 99.0)])

    def test_the_step_has_the_same_mean(self) -> None:
        """To the last digit, whatever the value is."""
        for step in (2, 3, 7, 10, 300):
            for rate in (0, 1, 5, -7, 123_456_789_123_456):
                for value in (rate + 1, rate - 1, 3, -10**12, 10**15 + 7):
                    found = with_last([(1_000 - step, 4), (1_000, rate)], 0, 1_000 - step, 1_000, value, True)
                    assert found is not None and found[-2][1] is not None
                    self.assertEqual(found[-1], (1_000, value))
                    total = found[-2][1] * (step - 1) + value
                    self.assertLess(2 * abs(total - rate * step), step, (step, rate, value))

    def test_what_is_a_last_value(self) -> None:
        for kind, text, wanted in (("GAUGE", "1.5", 1_500_000), ("GAUGE", "-0.0000007", -1), ("GAUGE", "1e3", 10**9), ("GAUGE", "U", None),
                                   ("GAUGE", "UNKN", None), ("GAUGE", "nan", None), ("GAUGE", "1e18", None), ("GAUGE", "-inf", None), ("GAUGE", "", None),
                                   ("ABSOLUTE", "5", None), ("COUNTER", "5", None)):
            self.assertEqual(last_value(source(kind, text)), wanted, text)


class Lines(unittest.TestCase):
    """The last lines of a batch; the steps have ten seconds, and the last whole one ended at 1200."""

    def lines(self, last: int, *sources: RrdSource) -> List[str]:
        count = len(sources)
        rows = RrdArchive(0, "AVERAGE", 1, 0.5, [NAN] * count, [0] * count, array("d", [1.0] * count + [2.0] * count), count)
        self.notes: List[str] = []
        return list(RrdBatch(RrdFile(10, last, list(sources), [rows]), None, self.notes.append).noted_lines())

    def test_a_gauge(self) -> None:
        """The last sample comes after its bounds."""
        lines = self.lines(1206, source("GAUGE", "9", 30.0))
        self.assertEqual(lines[1:], ["update 1190:1 1200:2 1205:4.2", "tune --heartbeat s0:99", "update 1206:9"])
        lines = self.lines(1206, source("GAUGE", "9", 20.0, 2, maximum=8.0))
        self.assertEqual(lines[1:], ["update 1190:1 1200:2 1201:U 1205:5", "tune --heartbeat s0:99 --maximum s0:8", "update 1206:9"])
        self.assertEqual(self.notes, [])

    def test_a_gauge_whose_rate_is_its_last_value(self) -> None:
        self.assertEqual(self.lines(1206, source("GAUGE", "5.0", 30.0))[1:], ["update 1190:1 1200:2 1206:5", "tune --heartbeat s0:99"])
        self.assertEqual(self.lines(1200, source("GAUGE", "2"))[1:], ["update 1190:1 1200:2", "tune --heartbeat s0:99"])

    def test_beside_counters(self) -> None:
        """The last second of a counter is one of its last value anyway; one that has none loses no second for a gauge."""
        gauge, counter = source("GAUGE", "9", 30.0), source("COUNTER", "777", 30.0, column=1)
        self.assertEqual(self.lines(1206, gauge, counter)[-1], "update 1206:9:777")
        self.assertEqual(self.lines(1206, gauge, source("ABSOLUTE", "4", 30.0, column=1))[-1], "update 1206:9:5")
        lines = self.lines(1206, gauge, source("DERIVE", "U", 30.0, column=1))
        self.assertEqual((lines[1], self.notes), ("update 1190:1:1 1200:2:2 1206:5:5", ["source s0: its last value 9 is not kept"]))

    def test_what_is_lost_is_noted(self) -> None:
        for last, one in ((1201, source("GAUGE", "9", 5.0)), (1206, source("GAUGE", "9", 0.0, 6))):
            self.lines(last, one)
            self.assertEqual(self.notes, ["source s0: its last value 9 is not kept"])
