# SPDX-License-Identifier: MIT OR Apache-2.0
"""Tests of rrdi.importing: amounts, dumps, plans, and steps that show the cells of a row. RRDtool is not needed."""
from __future__ import annotations

import io
import math
import random
import unittest
from array import array
from typing import Any, Callable, Dict, List, Optional, Tuple
from unittest import mock

import doubles  # noqa: F401
from rrdi.importing import batch
from rrdi.importing.rounding import Converter, as_text, millionths, raw_value
from rrdi.importing.batch import RrdBatch, merge, share_of
from rrdi.amounts import Millionths
from rrdi.limits import LONGEST_LINE
from rrdi.importing.comparing import DifferingCell, NewArchive, differing_archives, differing_cells, differing_unfinished, reason
from rrdi.importing.dump import RrdArchive, RrdFile, Refusal, RrdSource, read_dump
from rrdi.importing.plan import Span, note_made_up_rows, plan
from rrdi.importing.rates import SourceRates
from rrdi.importing.steps import Rest, Row, Wanted, lay, sum_of_rest

NAN = math.nan


def source(kind: str = "GAUGE", column: int = 0, **others: object) -> RrdSource:
    fields: Dict[str, Any] = {"name": f"s{column}", "kind": kind, "heartbeat": 99, "minimum": NAN, "maximum": NAN,
                    "last_raw": "U", "partial_sum": 0.0, "unknown_seconds": 0}
    return RrdSource(column, **{**fields, **others})


def archive(number: int, function: str, steps: int, cells: list[float], share: float = 0.5, partial: float = NAN,
            unknown: int = 0) -> RrdArchive:
    return RrdArchive(number, function, steps, share, [partial], [unknown], array("d", cells), 1)


def update_words(lines: list[str]) -> list[str]:
    return [word for line in lines if line.startswith("update ") for word in line.split()[1:]]


class Amounts(unittest.TestCase):
    def test_numbers_are_rounded_to_a_millionth(self) -> None:
        for value, amount, text in ((1.5, 1_500_000, "1.5"), (-0.5, -500_000, "-0.5"), (2.0, 2_000_000, "2"),
                                    (0.0000004, 0, "0"), (0.0000006, 1, "0.000001"), (-1e-6, -1, "-0.000001"),
                                    (123456789012.0, 123456789012000000, "123456789012")):
            with self.subTest(value=value):
                self.assertEqual(millionths(value), amount)
                self.assertEqual(as_text(amount), text)
        self.assertEqual(as_text(None), "U")

    def test_losses_are_noted(self) -> None:
        losses = Converter()
        self.assertIsNone(losses.amount(NAN))
        self.assertEqual((losses.too_large, losses.too_small), (False, False))
        self.assertEqual(losses.amount(1e-9), 0)
        self.assertTrue(losses.too_small)
        self.assertIsNone(losses.amount(-1e18))
        self.assertTrue(losses.too_large)
        self.assertIsNone(Converter().amount(math.inf))

    def test_raw_values_in_range(self) -> None:
        for kind, text, taken in (("COUNTER", "18446744073709551615", True), ("COUNTER", "18446744073709551616", False),
                                  ("COUNTER", "-1", False), ("DERIVE", "-9223372036854775807", True),
                                  ("DERIVE", "9223372036854775808", False), ("DERIVE", "1.5", False),
                                  ("COUNTER", "", False)):
            with self.subTest(kind=kind, text=text):
                self.assertEqual(raw_value(kind, text), text if taken else None)


class Dumps(unittest.TestCase):
    TEXT = b"""<?xml version="1.0"?><rrd><version>0003</version><step>10</step><lastupdate>1600000033</lastupdate>
<ds><name> a </name><type> COUNTER </type><minimal_heartbeat>60</minimal_heartbeat>
<min>0.0000000000e+00</min><max>NaN</max>
<last_ds>100</last_ds><value>1.32e+01</value><unknown_sec> 2 </unknown_sec></ds>
<ds><name> b </name><type> COMPUTE </type><cdef> a,2,* </cdef>
<last_ds>U</last_ds><value>NaN</value><unknown_sec> 3 </unknown_sec></ds>
<rra><cf>MAX</cf><pdp_per_row>6</pdp_per_row><params><xff>3.0e-01</xff></params><cdp_prep>
<ds><value>3.5</value><unknown_datapoints>1</unknown_datapoints></ds>
<ds><value>NaN</value><unknown_datapoints>0</unknown_datapoints></ds>
</cdp_prep><database><!-- x / 1 --> <row><v>1.5</v><v>NaN</v></row>
<row><v>-2e3</v><v>4</v></row></database></rra></rrd>"""

    def test_all_is_read(self) -> None:
        old = read_dump(io.BytesIO(self.TEXT))
        self.assertEqual((old.step, old.last, len(old.sources), len(old.archives)), (10, 1600000033, 2, 1))
        first = old.sources[0]
        self.assertEqual((first.name, first.kind, first.heartbeat, first.minimum, first.last_raw, first.partial_sum,
                          first.unknown_seconds), ("a", "COUNTER", 60, 0.0, "100", 13.2, 2))
        self.assertTrue(math.isnan(first.maximum))
        self.assertEqual((old.sources[1].name, old.sources[1].kind), ("b", "COMPUTE"))
        rows = old.archives[0]
        self.assertEqual((rows.function, rows.steps, rows.share, rows.row_count), ("MAX", 6, 0.3, 2))
        self.assertEqual((rows.partial[0], rows.unknown_steps), (3.5, [1, 0]))
        rows.place(old.step, old.last)
        self.assertEqual((rows.seconds, rows.end, rows.begin), (60, 1600000020, 1599999900))
        found = [rows.cell(time, column) for time, column in ((1599999960, 0), (1600000020, 0), (1600000020, 1))]
        self.assertEqual(found, [1.5, -2000.0, 4.0])

    def test_progress(self) -> None:
        """After each thousand rows of all archives together, the number of their cells so far is told."""
        source = "<ds><name>g</name><type>GAUGE</type></ds>"

        def rows(count: int) -> str:
            return f"<rra><cf>MAX</cf><database>{'<row><v>1</v><v>2</v></row>' * count}</database></rra>"
        told: List[int] = []
        text = f"<rrd><step>1</step><lastupdate>9</lastupdate>{source * 2}{rows(999)}{rows(1)}{rows(1_500)}{rows(499)}{rows(2)}</rrd>"
        old = read_dump(io.BytesIO(text.encode()), told.append)
        self.assertEqual((told, [one.row_count for one in old.archives]), ([2_000, 4_000, 6_000], [999, 1, 1_500, 499, 2]))

    def test_what_is_not_told(self) -> None:
        """What a dump leaves out is unknown: no bounds, no last value, a heartbeat and steps of 1."""
        text = b"<rrd><step>5</step><lastupdate>9</lastupdate><ds><name> a </name></ds><rra><cdp_prep><ds/></cdp_prep><database/></rra></rrd>"
        old = read_dump(io.BytesIO(text))
        one, rows = old.sources[0], old.archives[0]
        self.assertEqual((old.step, old.last, one.column, one.name, one.kind, one.heartbeat, one.last_raw, one.unknown_seconds, one.formula),
                         (5, 9, 0, "a", "", 1, "U", 0, ""))
        self.assertTrue(all(map(math.isnan, (one.minimum, one.maximum, one.partial_sum, rows.partial[0]))))
        self.assertEqual((rows.number, rows.function, rows.steps, rows.share, rows.unknown_steps, rows.row_count, rows.columns), (0, "", 1, 0.0, [0], 0, 1))

    def test_a_tag_in_a_text_of_the_file(self) -> None:
        """rrdtool prints the texts of a file as they are. Where a number should be, there may be none."""
        for old, new in ((b"<name> b ", b"<name> <step/> "), (b"<last_ds>U", b"<last_ds></last_ds><step/><last_ds>"), (b"> 2 <", b">x<"), (b"1.5", b"1,5")):
            with self.assertRaises(ValueError):
                read_dump(io.BytesIO(self.TEXT.replace(old, new)))

    def test_a_row_of_another_width_is_refused(self) -> None:
        with self.assertRaisesRegex(Refusal, "a row of archive 0 has 1 cells"):
            read_dump(io.BytesIO(self.TEXT.replace(b"<v>4</v>", b"")))
        with self.assertRaisesRegex(Refusal, "a row of archive 0 has 0 cells"):
            read_dump(io.BytesIO(b"<rrd><step>1</step><rra><database><row></row></database></rra></rrd>"))


class Plans(unittest.TestCase):
    def test_the_best_archive_for_each_time(self) -> None:
        archives = [archive(0, "AVERAGE", 1, [0.0] * 5), archive(1, "AVERAGE", 3, [0.0] * 4),
                    archive(2, "MAX", 3, [0.0] * 6), archive(3, "AVERAGE", 12, [0.0] * 3)]
        for each in archives:
            each.place(10, 1200)
        spans = plan(archives, 1200)
        # Of averages and maximums the averages are better, though they are coarser.
        self.assertEqual([(span.begin, span.end, span.archive.number) for span in spans],
                         [(840, 1080, 3), (1080, 1150, 1), (1150, 1200, 0)])
        self.assertEqual(sorted(spans[1].beside), ["AVERAGE", "MAX"])
        self.assertEqual(spans[1].above, archives[3])

    def test_steps_are_the_best_of_any_function(self) -> None:
        archives = [archive(0, "AVERAGE", 2, [0.0] * 5), archive(1, "MAX", 1, [0.0] * 5)]
        for each in archives:
            each.place(10, 1200)
        self.assertEqual([(span.begin, span.end, span.archive.number) for span in plan(archives, 1200)],
                         [(1100, 1150, 0), (1150, 1200, 1)])

    def test_two_archives_of_one_function(self) -> None:
        """Of two that have rows of the same length, the one that reaches back farthest is beside the span, in any order."""
        for counts in ((4, 9), (9, 4), (4, 9, 6)):
            archives = [archive(0, "AVERAGE", 3, [0.0] * 12),
                        *(archive(number, "MAX", 3, [0.0] * count) for number, count in enumerate(counts, 1))]
            for each in archives:
                each.place(10, 1200)
            farthest = archives[1 + counts.index(9)]
            for span in plan(archives, 1200):
                self.assertEqual(span.beside["MAX"], farthest, counts)

    def test_equal_archives_have_one_span(self) -> None:
        """A second span would cut the coarser rows at its begin, though no rows are better there."""
        for counts in ((4, 9), (9, 4)):
            archives = [archive(number, "AVERAGE", 3, [0.0] * count) for number, count in enumerate(counts)]
            for each in archives:
                each.place(10, 1200)
            self.assertEqual([(span.begin, span.end) for span in plan(archives, 1200)], [(930, 1200)], counts)

    def test_what_an_archive_has(self) -> None:
        """Rows that end after it begins, and the unfinished one; none before 1970."""
        each = archive(0, "AVERAGE", 3, [1.0, 2.0, 3.0])
        each.place(10, 1200)
        self.assertEqual((each.seconds, each.begin, each.end), (30, 1110, 1200))
        self.assertEqual([time for time in range(1090, 1241, 10) if each.has(time)], list(range(1140, 1241, 10)))
        each.place(10, 65)
        self.assertEqual((each.begin, each.end), (0, 60))
        each.place(10, 1229)
        self.assertEqual((each.begin, each.end), (1110, 1200))
        self.assertEqual(archive(0, "MAX", 1, [1.0] * 7).row_count, 7)
        self.assertEqual(RrdArchive(0, "MAX", 1, 0.5, [], [], array("d", [1.0] * 7), 3).row_count, 2)
        self.assertEqual(RrdArchive(0, "MAX", 1, 0.5, [], [], array("d"), 0).row_count, 0)

    def test_how_many_steps_may_be_unknown_or_hidden(self) -> None:
        """A row is known with so many unknown steps, and unknown with one more: as all archives with such rows have it."""
        for steps, shares, dropped, hidden in ((10, [0.3], 3, 6), (10, [0.3, 0.5], 3, 4), (10, [0.0], 0, 9), (3, [0.5], 1, 1),
                                               (2, [0.5], 1, 0), (100, [0.29], 28, 71)):
            archives = [archive(number, "MAX", steps, [0.0] * 3, share) for number, share in enumerate(shares)]
            archives.append(archive(9, "AVERAGE", 7, [0.0] * 3, 0.9))
            span = Span(0, 10, archives[0], archives)
            self.assertEqual((span.most_dropped, span.most_hidden), (dropped, hidden), (steps, shares))

    def test_rows_of_other_functions(self) -> None:
        """Rows of the steps themselves, and those of the same function, are none of these."""
        cases: List[Tuple[List[Tuple[str, int, int]], Dict[int, int]]] = [
            ([("AVERAGE", 1, 20), ("MAX", 6, 3)], {}), ([("AVERAGE", 2, 20), ("MAX", 6, 3)], {1: 1200}),
            ([("AVERAGE", 6, 20), ("MAX", 1, 30)], {}),
            ([("AVERAGE", 12, 10), ("MAX", 12, 10), ("AVERAGE", 3, 10), ("MAX", 3, 10)], {}),
            ([("AVERAGE", 12, 10), ("AVERAGE", 3, 10), ("MAX", 6, 10)], {2: 1200}),
            ([("AVERAGE", 3, 40), ("MAX", 3, 10), ("MAX", 6, 20)], {2: 900})]
        for kinds, until in cases:
            archives = [archive(at, function, steps, [0.0] * rows) for at, (function, steps, rows) in enumerate(kinds)]
            for each in archives:
                each.place(10, 1200)
            notes: List[str] = []
            note_made_up_rows(archives, plan(archives, 1200), notes.append)
            self.assertEqual(notes, [f"archive {at}, {kinds[at][0]} of {10 * kinds[at][1]} s: rows up to {time} come from "
                                     "rows of other functions" for at, time in until.items()], kinds)

    def test_no_time_no_span(self) -> None:
        each = archive(0, "MAX", 1, [NAN])
        each.place(10, 5)
        self.assertEqual(plan([each], 0), [])


class Steps(unittest.TestCase):
    def laid(self, steps: int, total: float, slack: float, *pins: int | None) -> list[tuple[int, int | None]]:
        rates: list[tuple[int, int | None]] = []
        least, greatest, latest = pins
        lay(rates, 0, steps, 1, Wanted(total, slack, least, greatest, latest, least, greatest))
        return rates

    def test_minimum_maximum_and_last(self) -> None:
        for what, steps, total, pins, wanted in (
                ("all of them", 5, 30, (1, 10, 5), [(1, 1), (2, 10), (4, 7), (5, 5)]),
                ("the last is the maximum", 4, 25, (1, 10, 10), [(1, 1), (3, 7), (4, 10)]),
                ("all are equal", 3, 12, (4, 4, 4), [(2, 4), (3, 4)]),
                ("no rest", 2, 11, (1, 10, None), [(1, 1), (2, 10)]),
                ("no pins", 3, 10, (None, None, None), [(3, 3)]),
                ("a rest that a cut digit takes below the minimum", 3, 894_970, (0, 894_976, None),
                 [(1, 0), (2, 894_976), (3, 0)]),
                ("a minimum and a last rate that do not fit", 3, 300, (0, 120, 1), [(1, 120), (3, 90)]),
                ("nothing that fits", 3, 300, (200, 400, 1), [(3, 100)])):
            with self.subTest(what):
                self.assertEqual(self.laid(steps, total, 8, *pins), wanted)

    def test_means_that_a_row_may_have(self) -> None:
        """Between its minimum and its maximum, up to what rounding may have taken."""
        for minimum, maximum, mean, is_right in ((1_000_000, 2_000_000, 1.5, True), (1_000_000, 2_000_000, 0.9999995, True), (1_000_000, 2_000_000, 0.99999, False),
                                                 (1_000_000, 2_000_000, 2.0000005, True), (1_000_000, 2_000_000, 2.00001, False), (None, 2_000_000, -9.0, True), (1_000_000, None, 9.0, True),
                                                 (None, None, 9.0, True), (None, 2_000_000, 9.0, False), (1_000_000, None, -9.0, False)):
            self.assertEqual(Row(True, 1.5, minimum, maximum).may_have(mean, 5), is_right, (minimum, maximum, mean))
        self.assertEqual([Row(True, average, -7_000_000, 2_000_000, latest).size() for average, latest in ((1.0, None), (-8.0, 3_000_000), (1.0, 9_000_000))], [7, 8, 9])
        self.assertEqual((Row(True, math.nan).is_known, Row(True, 0.0).is_known), (False, True))

    def test_the_rest_of_a_cut_row(self) -> None:
        later: list[tuple[int, int | None]] = [(20, 5), (40, None), (50, 9), (90, 1)]
        self.assertEqual(sum_of_rest(later, 0, 60, 10), Rest(4, 20, 1, 9))
        self.assertEqual(sum_of_rest(later, 0, 20, 10), Rest(2, 10, 5, 5))
        self.assertEqual(sum_of_rest([], 0, 20, 10), Rest())


class Batches(unittest.TestCase):
    def lines(self, old: RrdFile, journal: str | None = None) -> tuple[list[str], list[str]]:
        notes: list[str] = []
        return list(RrdBatch(old, journal, notes.append).noted_lines()), notes

    def test_a_counter_of_one_second_steps(self) -> None:
        """The last raw value would need a second of its own, whose rate is unknown: a step of one second has none to give."""
        for step, note in ((1, ["source s0: cannot convert its last value 7; its next rate will be unknown"]), (2, [])):
            old = RrdFile(step, 100, [source("COUNTER", last_raw="7")], [archive(0, "AVERAGE", 1, [1.0, 2.0, 3.0])])
            notes: list[str] = []
            lines = list(RrdBatch(old, None, notes.append).noted_lines())
            self.assertEqual((notes, lines[-1] == "update 100:7"), (note, step == 2), lines)

    def test_steps_and_types(self) -> None:
        old = RrdFile(10, 1003, [source("COUNTER", last_raw="77", minimum=0.0, partial_sum=6.0, unknown_seconds=1)],
                      [archive(0, "AVERAGE", 1, [NAN, 1.25, 1.25, 2.0])])
        lines, notes = self.lines(old, "9")
        self.assertEqual(lines, [
            "create --step 10 --start 970 --journal 9 DS:s0:GAUGE:9999999999:U:U RRA:AVERAGE:0.5:1:4",
            "update 990:1.25 1000:2 1001:U 1002:3",
            "tune --heartbeat s0:99 --minimum s0:0 --data-source-type s0:COUNTER",
            "update 1003:77"])
        self.assertEqual(notes, [])

    def test_the_last_rates_are_given_with_the_last_raw_values(self) -> None:
        """The sample of the last second has the newest rate of a gauge; before it is no second sample of the same time."""
        sources = [source("COUNTER", last_raw="77"), source(column=1)]
        rows = [RrdArchive(0, "AVERAGE", 1, 0.5, [NAN] * 2, [0] * 2, array("d", [1.0, 4.0, 1.0, 5.0, 2.0, 6.0]), 2)]
        self.assertEqual(update_words(self.lines(RrdFile(10, 1000, sources, rows))[0]), ["980:1:4", "990:1:5", "999:2:6", "1000:77:6"])
        sources = [source("COUNTER", last_raw="77", partial_sum=3.0), source(column=1, partial_sum=8.0)]
        self.assertEqual(update_words(self.lines(RrdFile(10, 1001, sources, rows))[0]), ["980:1:4", "990:1:5", "1000:2:6", "1001:77:8"])
        self.assertEqual(update_words(self.lines(RrdFile(10, 1002, [source("COUNTER", last_raw="77"), source(column=1)], rows))[0]),
                         ["980:1:4", "990:1:5", "1000:2:6", "1001:0:0", "1002:77:0"])

    def test_nothing_known(self) -> None:
        lines, _ = self.lines(RrdFile(10, 1000, [source()], [archive(0, "MAX", 1, [NAN, NAN])]))
        self.assertEqual(lines, ["create --step 10 --start 1000 DS:s0:GAUGE:9999999999:U:U RRA:MAX:0.5:1:2",
                                 "tune --heartbeat s0:99"])

    def test_two_finer_archives_begin_inside_one_row(self) -> None:
        steps = [5.0, 10.0] * 36
        archives = [archive(0, "AVERAGE", 1, steps[-7:]),
                    archive(1, "AVERAGE", 3, [sum(steps[at:at + 3]) / 3 for at in range(42, 72, 3)]),
                    archive(2, "AVERAGE", 36, [7.5, 7.5])]
        begin = 36 * 10 * 100
        lines, _ = self.lines(RrdFile(10, begin + 10 * len(steps), [source()], archives))
        found, at = [], begin
        for word in update_words(lines):
            time, rate = word.split(":")
            found += [float(rate)] * ((int(time) - at) // 10)
            at = int(time)
        self.assertEqual(found[-7:], steps[-7:])
        self.assertAlmostEqual(sum(found[-36:]) / 36, 7.5, delta=1e-6)
        self.assertAlmostEqual(sum(found[:36]) / 36, 7.5, delta=1e-6)

    def test_what_is_left_out(self) -> None:
        old = RrdFile(10, 1000, [source(), source("COMPUTE", 1, formula="s0,8,*"), source("GAUGE", 2, name="a-b")],
                      [RrdArchive(0, "AVERAGE", 1, 0.5, [NAN] * 3, [0] * 3, array("d", [1.0, 2.0, 3.0]), 3),
                       RrdArchive(1, "HWPREDICT", 1, 0.0, [], [], array("d", [1.0, 2.0, 3.0]), 3)])
        lines, notes = self.lines(old)
        self.assertNotIn("s1", lines[0])
        self.assertEqual(notes, ["skipped data source s1: type COMPUTE is not supported; its formula is s0,8,*",
                                 "skipped data source a-b: a name in rrdi has 1 to 19 characters of a-z A-Z 0-9 _",
                                 "skipped archive 1, HWPREDICT: this function is not supported"])
        with self.assertRaisesRegex(Refusal, "no data source can be converted"):
            RrdBatch(RrdFile(10, 1000, [source("COMPUTE")], []), None, notes.append)
        with self.assertRaisesRegex(Refusal, "no archive can be converted"):
            RrdBatch(RrdFile(10, 1000, [source()], []), None, print)
        with self.assertRaisesRegex(Refusal, "at most 64"):
            RrdBatch(RrdFile(10, 1000, [source(column=at) for at in range(65)], []), None, print)
        with self.assertRaisesRegex(Refusal, "a step of the file has no seconds"):
            RrdBatch(RrdFile(0, 1000, [source()], [archive(0, "MAX", 1, [1.0])]), None, print)
        with self.assertRaisesRegex(Refusal, "a step of rrdi has at most 1,000,000 seconds"):
            RrdBatch(RrdFile(1_000_001, 1000, [source()], []), None, print)
        with self.assertRaisesRegex(Refusal, "the last time is after 9999999999"):
            RrdBatch(RrdFile(10, 10_000_000_000, [source()], []), None, print)

    def test_numbers_that_no_archive_has(self) -> None:
        """Those of a damaged file: rrdi's xff for one that is no share would be looked for without an end."""
        rows = [1.0, 2.0]
        for share in (NAN, math.inf, -math.inf, -0.1, -1.0, 1.0, 2.0, 1e18, 1e300):
            lines, notes = self.lines(RrdFile(10, 1000, [source()], [archive(0, "MAX", 1, rows), archive(1, "AVERAGE", 6, rows, share)]))
            self.assertEqual(notes, [f"skipped archive 1, AVERAGE: its xff is not from 0 to below 1, but {share}"])
            self.assertEqual(lines[0].split(" ")[5:], ["DS:s0:GAUGE:9999999999:U:U", "RRA:MAX:0.5:1:2"])
        _, notes = self.lines(RrdFile(10, 1000, [source()], [archive(0, "MAX", 1, rows), archive(1, "AVERAGE", 0, rows)]))
        self.assertEqual(notes, ["skipped archive 1, AVERAGE: its rows have no steps"])
        _, notes = self.lines(RrdFile(10, 1000, [source()], [archive(0, "MAX", 1, rows), archive(1, "AVERAGE", 1, [])]))
        self.assertEqual(notes, ["skipped archive 1, AVERAGE: it has no rows"])
        with self.assertRaisesRegex(Refusal, "^the last time is before 1970$"):
            self.lines(RrdFile(10, -1, [source()], [archive(0, "MAX", 1, rows)]))

    def test_tiny_numbers(self) -> None:
        """A mean of 0 is not that of rows with 5 and a number that is nearly 0."""
        old = RrdFile(10, 1020, [source()], [archive(0, "AVERAGE", 2, [NAN, 5.0, 1e-320]), archive(1, "AVERAGE", 6, [0.0])])
        self.assertEqual(update_words(self.lines(old)[0])[-1], "1020:0")

    def test_counters_of_fractions(self) -> None:
        """They become a DERIVE. The direction of a DCOUNTER, whose restarts are unknown, becomes a bound of 0."""
        counters: List[Tuple[str, List[float], Dict[str, Any], str, str]] = [
            ("DDERIVE", [-1.0, 2.5], {}, "", ""), ("DCOUNTER", [0.0, 2.5], {}, " --minimum s0:0", " with the minimum 0"),
            ("DCOUNTER", [0.0, -2.5], {}, " --maximum s0:0", " with the maximum 0"), ("DCOUNTER", [-1.0, 2.5], {}, "", ""),
            ("DCOUNTER", [NAN, NAN], {}, "", ""), ("DCOUNTER", [1.0, 2.5], {"minimum": -4.0}, " --minimum s0:-4", ""),
            ("DCOUNTER", [-1.0, -2.5], {"maximum": 9.0}, " --maximum s0:9", ""),
            ("DCOUNTER", [NAN, 1.0, 2.0], {}, " --minimum s0:0", " with the minimum 0"),
            ("DCOUNTER", [NAN, -1.0, -2.0], {}, " --maximum s0:0", " with the maximum 0"),
            ("DCOUNTER", [0.0, 0.0], {}, " --minimum s0:0", " with the minimum 0"),
            ("DCOUNTER", [1.0, 2.5], {"maximum": 9.0}, " --minimum s0:0 --maximum s0:9", " with the minimum 0"),
            ("DCOUNTER", [-1.0, -2.5], {"minimum": -9.0}, " --minimum s0:-9 --maximum s0:0", " with the maximum 0")]
        for kind, cells, bounds, words, said in counters:
            notes: List[str] = []
            with self.subTest(kind=kind, cells=cells):
                old = RrdFile(10, 1000, [source(kind, 0, last_raw="77", **bounds)], [archive(0, "AVERAGE", 1, cells)])
                batch = RrdBatch(old, None, notes.append)
                self.assertEqual((batch.changed, notes),
                                 (1, [f"source s0: its type {kind} becomes DERIVE{said}, which takes whole numbers only"]))
                self.assertEqual(list(batch.lines())[-2:], [f"tune --heartbeat s0:99{words} --data-source-type s0:DERIVE",
                                                            "update 1000:77"])
        # What other functions show is no rate.
        notes = []
        RrdBatch(RrdFile(10, 1000, [source("DCOUNTER", last_raw="1")], [archive(0, "HWPREDICT", 1, [-5.0]), archive(1, "MAX", 1, [3.0])]),
                 None, notes.append)
        self.assertEqual(notes[0], "source s0: its type DCOUNTER becomes DERIVE with the minimum 0, which takes whole numbers only")
        old = RrdFile(10, 1000, [source(last_raw="1"), source("DDERIVE", 1, last_raw="7.5")],
                      [RrdArchive(0, "AVERAGE", 1, 0.5, [NAN] * 2, [0] * 2, array("d", [1.0, -2.0]), 2)])
        lines, notes = self.lines(old)
        self.assertEqual((lines[-1], notes[1:]), ("tune --heartbeat s1:99 --data-source-type s1:DERIVE", [
            "source s1: cannot convert its last value 7.5; its next rate will be unknown"]))
        self.assertEqual(RrdBatch(RrdFile(10, 1000, [source("DERIVE")], old.archives), None, print).changed, 0)

    def test_too_many_archives_and_cells(self) -> None:
        many = [archive(at, "MAX", 1, [1.0]) for at in range(129)]
        with self.assertRaisesRegex(Refusal, "there are 129 archives; rrdi has at most 128"):
            RrdBatch(RrdFile(10, 1000, [source()], many), None, print)
        sources = [source(column=at) for at in range(9)]
        large = RrdArchive(0, "MAX", 1, 0.5, [NAN] * 9, [0] * 9, array("d", bytes(8 * 9 * 900_000)), 9)
        with self.assertRaisesRegex(Refusal, "there are 8100000 cells; rrdi has at most 8,000,000"):
            RrdBatch(RrdFile(10, 10_000_000, sources, [large]), None, print)
        notes: list[str] = []
        longest = archive(1, "MAX", 1, [1.0] * 1_000_001)
        RrdBatch(RrdFile(10, 1000, [source()], [archive(0, "MAX", 1, [1.0]), longest,
                                             archive(2, "MAX", 1_000_001, [1.0])]), None, notes.append)
        self.assertEqual(notes, ["skipped archive 1, MAX: an archive in rrdi has at most 1,000,000 rows",
                                 "skipped archive 2, MAX: a row in rrdi has at most 1,000,000 steps"])

    def test_what_is_lost_is_noted(self) -> None:
        old = RrdFile(10, 1000, [source("COUNTER", last_raw="-7", heartbeat=10**10, minimum=-1e30)],
                      [archive(0, "AVERAGE", 1, [1e-9, 1e19, 1.0])])
        lines, notes = self.lines(old)
        self.assertEqual(notes, ["source s0: cannot convert its last value -7; its next rate will be unknown",
                                 "source s0: its heartbeat becomes 9999999999, the longest in rrdi",
                                 "numbers that are too large for rrdi became unknown, or no bound",
                                 "numbers below half a millionth became 0"])
        self.assertEqual(lines[-1], "tune --heartbeat s0:9999999999 --data-source-type s0:COUNTER")
        self.assertEqual(update_words(lines), ["980:0", "990:U", "1000:1"])

    def test_as_much_as_rrdi_takes(self) -> None:
        """As many sources, archives and cells as there may be, the longest step and the latest time, and the largest bounds."""
        many = [source(column=at) for at in range(64)]
        rows = [RrdArchive(at, "MAX", 1, 0.5, [NAN] * 64, [0] * 64, array("d", [1.0] * 64), 64) for at in range(128)]
        batch = RrdBatch(RrdFile(1_000_000, 9_999_999_999, many, rows), None, print)
        self.assertEqual((len(batch.sources), len(batch.archives)), (64, 128))
        longest = archive(0, "MAX", 1_000_000, [1.0])
        self.assertEqual(RrdBatch(RrdFile(10, 10_000_000, many[:1], [longest]), None, print).archives, [longest])
        eight = RrdArchive(0, "MAX", 1, 0.5, [NAN] * 8, [0] * 8, array("d", bytes(8 * 8 * 1_000_000)), 8)
        self.assertEqual(RrdBatch(RrdFile(10, 10_000_000, many[:8], [eight]), None, print).archives, [eight])
        bounded = source(minimum=-1.5e19, maximum=float(2**64 - 2**11))
        lines, notes = self.lines(RrdFile(10, 1000, [bounded], [archive(0, "AVERAGE", 1, [1.0])]))
        self.assertEqual((lines[-1], notes), ("tune --heartbeat s0:99 --minimum s0:-15000000000000000000 "
                                              "--maximum s0:18446744073709549568", []))
        bounded = source(minimum=-2.0**64, maximum=2.0**64)
        lines, notes = self.lines(RrdFile(10, 1000, [bounded], [archive(0, "AVERAGE", 1, [1.0])]))
        self.assertEqual((lines[-1], notes), ("tune --heartbeat s0:99", ["numbers that are too large for rrdi became unknown, or no bound"]))

    def test_an_unfinished_step_of_which_one_source_knows_nothing(self) -> None:
        sources = [source(unknown_seconds=5), source(column=1, unknown_seconds=2, partial_sum=6.0), source(column=2, partial_sum=5.0)]
        rows = [RrdArchive(0, "AVERAGE", 1, 0.5, [NAN] * 3, [0] * 3, array("d", [1.0] * 3), 3)]
        lines, _ = self.lines(RrdFile(10, 1005, sources, rows))
        self.assertEqual(update_words(lines), ["1000:1:1:1", "1002:U:U:1", "1005:U:2:1"])

    def test_rows_of_other_functions_are_noted(self) -> None:
        archives = [archive(0, "AVERAGE", 3, [2.0] * 9), archive(1, "MAX", 6, [3.0] * 4)]
        _, notes = self.lines(RrdFile(10, 1200, [source()], archives))
        self.assertEqual(notes, ["archive 1, MAX of 60 s: rows up to 1200 come from rows of other functions"])

    def test_a_share_allows_as_many_unknown_steps(self) -> None:
        # 0.29 of 100 is less than 29 in floating point.
        self.assertEqual(share_of(archive(0, "AVERAGE", 100, [], 0.29)), "0.289999")
        self.assertEqual(share_of(archive(0, "AVERAGE", 100, [], 0.5)), "0.5")
        # 0.57 of a million is less than 570000 in floating point.
        for share, text in ((0.57, "0.57"), (0.0, "0"), (0.1999997, "0.2"), (0.999999, "0.999999"), (0.9999999, "0.999999")):
            self.assertEqual(share_of(archive(0, "AVERAGE", 1, [], share)), text)
        for steps in (1, 2, 3, 7, 100, 288):
            for share in (0.0, 0.1, 0.25, 1 / 3, 0.5, 0.57, 2 / 3, 0.99, 0.999999, 0.9999999):
                found = share_of(archive(0, "AVERAGE", steps, [], share))
                self.assertEqual(round(float(found) * 1_000_000) * steps // 1_000_000, int(share * steps), (steps, share))
        # A third of 3 is 1 there, and 0.333333 of 3 would be 0.
        self.assertEqual(share_of(archive(0, "AVERAGE", 3, [], 1 / 3)), "0.333334")

    def test_no_step_is_an_extreme_that_nobody_measured(self) -> None:
        """Without averages the steps of a row are between what it shows, and with them within the bounds of the source."""
        for archives, found in (([archive(0, "LAST", 12, [90.0]), archive(1, "MIN", 12, [10.0])], {"10", "90"}),
                                ([archive(0, "LAST", 12, [10.0]), archive(1, "MAX", 12, [90.0])], {"10", "90"}),
                                ([archive(0, "AVERAGE", 12, [95.0]), archive(1, "LAST", 12, [0.0])], {"95"}),
                                ([archive(0, "AVERAGE", 12, [5.0]), archive(1, "LAST", 12, [100.0])], {"5"}),
                                ([archive(0, "AVERAGE", 12, [110.0]), archive(1, "LAST", 12, [0.0])], {"0", "120"})):
            with self.subTest(archives=archives):
                lines, _ = self.lines(RrdFile(10, 1200, [source(minimum=0.0, maximum=100.0)], archives))
                self.assertEqual({word.partition(":")[2] for word in update_words(lines)}, found)

    def test_equal_rates_are_one_sample(self) -> None:
        self.assertEqual(list(merge([[(10, 1), (30, 2)], [(10, 5), (20, 6), (30, 6)]])), [(10, (1, 5)), (30, (2, 6))])

    def test_long_lines_are_cut(self) -> None:
        """A line has as many samples as it may have, because each line is a change of its own in the journal."""
        cells = [float(at) for at in range(9_000)]
        lines, _ = self.lines(RrdFile(10, 100_000, [source()], [archive(0, "AVERAGE", 1, cells)]))
        sizes = [len(line) for line in lines if line.startswith("update")]
        self.assertEqual(len(update_words(lines)), 9_000)
        self.assertEqual([65_000 < size <= LONGEST_LINE for size in sizes], [True, False])


class Overlaps(unittest.TestCase):
    """Archives of which no row consists of whole rows of another one: 7 steps below 50, as collectd makes them."""

    SUMMARIES: Dict[str, Callable[[List[float]], float]] = {"AVERAGE": lambda cells: math.fsum(cells) / len(cells), "MIN": min, "MAX": max}

    def folded(self, cells: List[float], function: str, steps: int) -> List[float]:
        """Returns the rows of an archive that allows a tenth of its steps to be unknown. The first cell is that of time 0."""
        found = []
        for at in range(0, len(cells) - steps + 1, steps):
            known = [cell for cell in cells[at:at + steps] if not math.isnan(cell)]
            found.append(self.SUMMARIES[function](known) if steps - len(known) <= steps // 10 else NAN)
        return found

    def file(self, cells: List[float]) -> List[RrdArchive]:
        """Returns archives of 3,500 steps. The single steps reach back for 70 of them, rows of 7 steps for 2,100."""
        archives = [archive(0, "AVERAGE", 1, cells[-70:], 0.1)]
        for steps, count in ((7, 300), (50, 70)):
            for function in self.SUMMARIES:
                rows = self.folded(cells, function, steps)[-count:]
                archives.append(archive(len(archives), function, steps, rows, 0.1))
        for each in archives:
            each.place(10, 35_000)
        return archives

    def moved(self, archives: List[RrdArchive]) -> List[float]:
        """Returns the steps that are sent."""
        spans, found = plan(archives, 35_000), [NAN] * 3_500
        begin = spans[0].begin
        for end, rate in SourceRates(0, 10, 35_000, Converter()).all_rates(spans):
            found[begin // 10:end // 10] = [NAN if rate is None else rate / 1_000_000] * ((end - begin) // 10)
            begin = end
        return found

    def differing(self, cells: List[float], moved: List[float], function: str, steps: int) -> "tuple[int, int, int]":
        """Returns how many rows from step 1,400 on have another value, are unknown now, and are known now."""
        pairs = list(zip(self.folded(cells, function, steps), self.folded(moved, function, steps)))[1_400 // steps:]
        known = [pair for pair in pairs if not any(map(math.isnan, pair))]
        return (sum(abs(one - other) > 3e-6 for one, other in known), sum(math.isnan(other) > math.isnan(one) for one, other in pairs),
                sum(math.isnan(one) > math.isnan(other) for one, other in pairs))

    def test_all_known(self) -> None:
        chance = random.Random(3)
        cells = [round(chance.gauss(50, 9), 3) for _ in range(3_500)]
        moved = self.moved(self.file(cells))
        for function in self.SUMMARIES:
            self.assertEqual(self.differing(cells, moved, function, 7), (0, 0, 0), function)
        self.assertEqual(self.differing(cells, moved, "AVERAGE", 50), (0, 0, 0))
        for function in ("MIN", "MAX"):
            self.assertEqual(self.differing(cells, moved, function, 50), (0, 0, 0), function)

    def test_gaps(self) -> None:
        """Of rows that were known in spite of a gap none gets unknown, nor the other way round, and most get their value."""
        chance = random.Random(4)
        cells = [round(chance.gauss(50, 9), 3) for _ in range(3_500)]
        for at in range(0, 3_400, 170):
            count = chance.choice((1, 2, 5, 60))
            cells[at:at + count] = [NAN] * count
        moved = self.moved(self.file(cells))
        self.assertEqual([self.differing(cells, moved, function, 7) for function in self.SUMMARIES], [(0, 0, 0)] * 3)
        for function in self.SUMMARIES:
            apart, lost, made_up = self.differing(cells, moved, function, 50)
            self.assertEqual((lost, made_up), (0, 0), function)
            self.assertLess(apart, 15, function)


def new_rows(cells: Dict[int, Optional[float]]) -> Dict[int, List[Optional[Millionths]]]:
    return {time: [None if cell is None else Millionths(round(cell * 1_000_000))] for time, cell in cells.items()}


class Lines(unittest.TestCase):
    def test_as_many_samples_as_a_line_may_have(self) -> None:
        """And one at least, however long it is."""
        with mock.patch.object(batch, "BYTES_OF_A_LINE", 10):
            for text in ("aaaaaa\nbbbb ccccc\nd", "aaaa bbbb\ncccc dddd\neeeee", "aaaa bbbbb\nc", "aaaa\nbbbbbb c", "aaaaaaaaaaaaaaaaaaaa\nb", ""):
                self.assertEqual(list(batch.updates(text.split())), [f"update {line}" for line in text.splitlines()])


class DifferingRows(unittest.TestCase):
    """The notes of archives whose new rows are others."""

    def setUp(self) -> None:
        self.fine, self.coarse = archive(0, "AVERAGE", 3, [2.0, 2.0, 4.0, NAN]), archive(1, "MAX", 6, [5.0, 6.0])
        self.odd = archive(2, "AVERAGE", 4, [7.0, 8.0])
        for one in (self.fine, self.coarse, self.odd):
            one.place(10, 1200)
        self.spans = plan([self.fine, self.coarse, self.odd], 1200)

    def test_cells(self) -> None:
        right: Dict[int, Optional[float]] = {1110: 2.0, 1140: 2.000001, 1170: 4.0, 1200: None}
        self.assertEqual(differing_cells(self.fine, [0], new_rows(right)), [])
        for time, cell in ((1110, 2.000002), (1140, None), (1200, 0.0)):
            with self.subTest(time=time):
                found = differing_cells(self.fine, [0], new_rows({**right, time: cell}))
                self.assertEqual([one.time for one in found], [time])
        self.assertEqual([one.time for one in differing_cells(self.fine, [0], {})], [1110, 1140, 1170])
        large = archive(0, "AVERAGE", 1, [1e12])
        large.place(10, 1200)
        for apart, count in ((90.0, 0), (110.0, 1)):
            self.assertEqual(len(differing_cells(large, [0], new_rows({1200: 1e12 + apart}))), count)

    def test_what_was_before_and_after(self) -> None:
        """In each column, in rows of a second too, and of what is unknown in one file only."""
        two = RrdArchive(0, "AVERAGE", 1, 0.5, [NAN] * 2, [0] * 2, array("d", [1.0, 2.0, 3.0, NAN]), 2)
        two.place(1, 1200)
        rows: Dict[int, List[Optional[Millionths]]] = {1199: [Millionths(4_000_000), None], 1200: [Millionths(3_000_000), Millionths(5_000_000)]}
        found = differing_cells(two, [0, 1], rows)
        self.assertEqual([(one.time, one.before, "nan" if math.isnan(one.after) else one.after) for one in found[:2]], [(1199, 1.0, 4.0), (1199, 2.0, "nan")])
        self.assertEqual([(one.time, math.isnan(one.before), one.after) for one in found[2:]], [(1200, True, 5.0)])

    def test_the_column_of_each_source(self) -> None:
        """A source that was left out has a column in the old file only."""
        two = RrdArchive(0, "AVERAGE", 1, 0.5, [NAN] * 2, [0] * 2, array("d", [1.0, 2.0, 3.0, 4.0]), 2)
        two.place(10, 1200)
        rows = new_rows({1190: 2.0, 1200: 4.0})
        self.assertEqual(differing_cells(two, [1], rows), [])
        self.assertEqual(len(differing_cells(two, [0], rows)), 2)

    def test_reasons(self) -> None:
        for one, cell, why in (
                (self.fine, DifferingCell(1110, 2.0, NAN), "the old row may be from before a gap that was longer than the archive"),
                (self.fine, DifferingCell(1140, 1e9, 1e9 + 1), "large numbers that nearly cancel out lose digits"),
                (self.fine, DifferingCell(1140, 2.0, 3.0), "how many steps of the rows beside a gap were unknown is a guess"),
                (self.fine, DifferingCell(1140, NAN, 3.0), "how many steps of the rows beside a gap were unknown is a guess"),
                (self.coarse, DifferingCell(1200, 6.0, 5.0), "the row comes from rows of AVERAGE of 30 s"),
                (self.odd, DifferingCell(1200, 7.0, 5.0), "the row has parts of rows of 30 s")):
            with self.subTest(cell=cell):
                self.assertEqual(reason(one, self.spans, cell), why)
        fine = archive(0, "LAST", 1, [1.0, 2.0])
        fine.place(10, 1200)
        self.assertEqual(reason(fine, plan([fine], 1200), DifferingCell(1200, 1.0, 2.0)), "the row is computed again, by the rules of rrdi")

    def test_the_span_of_a_row(self) -> None:
        """It is the one in which the row begins: here rows of 60 s up to 1140, and then rows of 30 s."""
        wide, narrow, late = archive(0, "AVERAGE", 6, [1.0] * 4), archive(1, "AVERAGE", 3, [1.0] * 2), archive(2, "MAX", 6, [1.0] * 4)
        for one in (wide, narrow, late):
            one.place(10, 1200)
        spans = plan([wide, narrow], 1200)
        self.assertEqual([(span.begin, span.end) for span in spans], [(960, 1140), (1140, 1200)])
        for time, seconds in ((1020, 60), (1140, 60), (1200, 30)):
            self.assertEqual(reason(late, spans, DifferingCell(time, 1.0, 2.0)), f"the row comes from rows of AVERAGE of {seconds} s")
        self.assertEqual(reason(late, spans[1:], DifferingCell(1140, 1.0, 2.0)), "the row is computed again, by the rules of rrdi")
        self.assertEqual(reason(late, spans[:1], DifferingCell(1200, 1.0, 2.0)), "the row is computed again, by the rules of rrdi")

    def test_the_reason_of_an_extreme(self) -> None:
        """An archive of maxima can be made of its own rows, of those of another function, or of shorter ones."""
        own, mean, short = archive(0, "MAX", 6, [5.0, 6.0]), archive(1, "AVERAGE", 6, [5.0, 6.0]), archive(2, "MAX", 3, [5.0] * 4)
        for one in (own, mean, short):
            one.place(10, 1200)
        for source, why in ((own, "how many steps of the rows beside a gap were unknown is a guess"), (mean, "the row comes from rows of AVERAGE of 60 s"),
                            (short, "the row comes from rows of MAX of 30 s")):
            with self.subTest(why=why):
                self.assertEqual(reason(own, plan([source], 1200), DifferingCell(1200, 6.0, 5.0)), why)

    def test_the_reason_of_another_xff(self) -> None:
        """Of two archives with rows of the same time, one is taken; the other one may know a row that is unknown there."""
        strict, loose = (RrdArchive(number, "AVERAGE", 3, share, [NAN], [0], array("d", [1.0, cell]), 1)
                         for number, share, cell in ((4, 0.0, NAN), (5, 0.9, 2.0)))
        for one in (strict, loose):
            one.place(10, 1200)
        spans, cell = plan([strict, loose], 1200), DifferingCell(1200, 2.0, NAN)
        self.assertEqual(reason(loose, spans, cell), "archive 4 has rows of the same time, with another xff")
        self.assertEqual(reason(strict, spans, cell), "how many steps of the rows beside a gap were unknown is a guess")

    def test_a_line_for_each_archive(self) -> None:
        rows = [new_rows({1110: 2.0, 1140: 3.0, 1170: 5.0}), new_rows({1140: 5.0, 1200: 6.0})]

        def lines() -> List[str]:
            return list(differing_archives([self.fine, self.coarse], self.spans, [0], 1200, lambda place: NewArchive(rows[place], [(0, Millionths())])))
        self.assertEqual(lines(), [
            "archive 0, AVERAGE of 30 s: 2 of 4 cells differ, the newest at 1170: how many steps of the rows beside a gap were unknown is a guess"])
        rows[1] = new_rows({1140: 5.0, 1200: 7.0})
        self.assertEqual(lines()[1:], [
            "archive 1, MAX of 60 s: 1 of 2 cells differ, the newest at 1200: the row comes from rows of AVERAGE of 30 s"])


class DifferingUnfinishedRows(unittest.TestCase):
    """Rows of 60 s, of which the last one began at 1200, and three of its six steps have passed. In the old file one is unknown,
    and the others are 2 and 4, or their sum is 6."""

    def notes(self, function: str, old: float, new: "Tuple[int, float]", unknown: int = 1, cells: "Tuple[float, float]" = (5.0, 6.0)) -> List[str]:
        rows = archive(4, function, 6, [5.0, 6.0], partial=old, unknown=unknown)
        rows.place(10, 1235)
        finer = archive(5, "AVERAGE", 3, [1.0] * 9)
        finer.place(10, 1235)
        made = NewArchive(new_rows({1140: cells[0], 1200: cells[1]}), [(new[0], Millionths(round(new[1] * 10**6)))])
        return list(differing_archives([rows], plan([finer], 1230), [0], 1230, lambda place: made))

    def test_equal_ones(self) -> None:
        for function, value in (("AVERAGE", 6.0), ("MIN", 2.0), ("MAX", 4.0), ("LAST", 4.0)):
            self.assertEqual(self.notes(function, value, (2, value)), [])
            self.assertEqual(self.notes(function, value, (2, value + 1e-6)), [])
        for old in (NAN, math.inf, 0.0):  # whatever RRDtool has there if no step is known
            self.assertEqual(self.notes("MAX", old, (0, 0.0), 3), [])
        # A sum of two millionths more is an average that RRDtool prints in the same digits.
        self.assertEqual(self.notes("AVERAGE", 6.0, (2, 6.000002)), [])

    def test_differing_ones(self) -> None:
        why = "archive 4, {} of 60 s: its unfinished row differs: the row comes from rows of AVERAGE of 30 s"
        for function, old, new in (("MAX", 4.0, (2, 5.0)), ("MIN", 2.0, (2, 3.0)), ("LAST", 4.0, (2, 4.1)), ("MAX", 4.0, (3, 4.0)), ("MAX", 4.0, (1, 4.0))):
            self.assertEqual(self.notes(function, old, new), [why.format(function)])
        guess = "how many steps of the rows beside a gap were unknown is a guess"
        for sum_of_steps, known in ((6.000003, 2), (6.0, 3), (9.0, 3)):
            self.assertEqual(self.notes("AVERAGE", 6.0, (known, sum_of_steps)), [f"archive 4, AVERAGE of 60 s: its unfinished row differs: {guess}"])
        self.assertEqual(self.notes("AVERAGE", 2e12, (2, 2e12 + 1e4)), [
            "archive 4, AVERAGE of 60 s: its unfinished row differs: large numbers that nearly cancel out lose digits"])

    def test_one_line_an_archive(self) -> None:
        self.assertEqual(self.notes("MAX", 4.0, (2, 5.0), cells=(5.0, 7.0)), [
            "archive 4, MAX of 60 s: 1 of 2 cells differ, the newest at 1200: the row comes from rows of AVERAGE of 30 s; its unfinished row differs, too"])

    def test_each_source_by_its_column(self) -> None:
        rows = RrdArchive(0, "MAX", 6, 0.5, [1.0, 2.0, 3.0], [1, 1, 2], array("d", [1.0] * 3), 3)
        rows.place(10, 1235)
        for columns, unfinished, count in (([0, 2], [(2, 1.0), (1, 3.0)], 0), ([0, 1], [(2, 1.0), (1, 3.0)], 1), ([1, 0], [(2, 1.0), (2, 1.5)], 2)):
            new = [(known, Millionths(round(value * 10**6))) for known, value in unfinished]
            self.assertEqual(len(differing_unfinished(rows, columns, 1230, new)), count)
