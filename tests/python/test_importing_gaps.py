# SPDX-License-Identifier: MIT OR Apache-2.0
"""Tests of rrdi.importing.rates: steps are laid so that they show the rows of an old file again, in spite of gaps.

The rows are those that RRDtool makes of the steps of one source: a row is known unless more of its steps are unknown
than its share allows, and is then the mean, the minimum, the maximum or the last one of the known steps. `rrdtool dump`
prints eleven digits of it."""
from __future__ import annotations

import math
import random
import unittest
from array import array
from typing import Callable, Dict, Iterable, List, NamedTuple, Tuple
from unittest import mock

import doubles  # noqa: F401
from rrdi.importing.dump import RrdArchive, RrdSource
from rrdi.importing.uneven_rows import Overlapping
from rrdi.importing.plan import Span, plan
from rrdi.importing.rates import Coarser, SourceRates, is_mean, unfinished_step
from rrdi.importing.rates import Parts as PartsOfARow
from rrdi.importing.rounding import Converter
from rrdi.importing.steps import Row, Stretches

NAN = math.nan
Try = Tuple[int, int, int]
LONG = (5, 6, 7, 8, 9, 11, 12, 17, 18, 19, 20, 21, 24, 25, 27, 30, 32)  # steps of gaps
SUMMARIES: Dict[str, Callable[[List[float]], float]] = {
    "AVERAGE": lambda cells: math.fsum(cells) / len(cells), "MIN": min, "MAX": max, "LAST": lambda cells: cells[-1]}


class Kind(NamedTuple):
    """An archive: its function, the steps and the number of its rows, and the share of them that may be unknown."""
    function: str
    steps: int
    rows: int
    share: float = 0.5


def folded(cells: List[float], kind: Kind) -> List[float]:
    """Returns the rows, the oldest first, of steps of which the first one ends one step after 1970 begins."""
    found = []
    for at in range(0, len(cells) - kind.steps + 1, kind.steps):
        known = [cell for cell in cells[at:at + kind.steps] if not math.isnan(cell)]
        is_known = kind.steps - len(known) <= int(kind.share * kind.steps)
        found.append(printed(SUMMARIES[kind.function](known)) if known and is_known else NAN)
    return found


def printed(number: float) -> float:
    return float(f"{number:.10e}")


def unfinished(cells: List[float], kind: Kind) -> Tuple[int, float]:
    """Returns how many steps of the unfinished row are unknown, and what RRDtool keeps of others: a sum for a mean."""
    rest = cells[len(cells) - len(cells) % kind.steps:]
    known = [cell for cell in rest if not math.isnan(cell)]
    summary = math.fsum if kind.function == "AVERAGE" else SUMMARIES[kind.function]
    return len(rest) - len(known), printed(summary(known)) if known else NAN


def file_of(cells: List[float], kinds: List[Kind]) -> List[RrdArchive]:
    """Returns the archives, each with what it knows of its unfinished row."""
    archives = []
    for number, kind in enumerate(kinds):
        unknown, partial = unfinished(cells, kind)
        archives.append(RrdArchive(number, kind.function, kind.steps, kind.share, [partial], [unknown],
                                   array("d", folded(cells, kind)[-kind.rows:]), 1))
        archives[-1].place(1, len(cells))
    return archives


def moved(cells: List[float], kinds: List[Kind]) -> List[float]:
    """Returns the steps that are laid for such a file; what comes before is unknown."""
    spans, found = plan(file_of(cells, kinds), len(cells)), [NAN] * len(cells)
    begin = spans[0].begin
    for end, rate in SourceRates(0, 1, len(cells), Converter()).all_rates(spans):
        found[begin:end] = [NAN if rate is None else rate / 1_000_000] * (end - begin)
        begin = end
    return found


def is_same(one: float, other: float) -> bool:
    return math.isnan(one) and math.isnan(other) or abs(one - other) <= 2e-6 + abs(one) * 3e-9


def differing_rows(cells: List[float], kinds: List[Kind], steps: List[float]) -> Dict[int, int]:
    """Returns how many rows of which archives differ, if some do. Of an unfinished row, only the finest rows tell which
    of its steps are unknown."""
    found, finest = {}, min(kind.steps for kind in kinds)
    for number, kind in enumerate(kinds):
        pairs = list(zip(folded(cells, kind), folded(steps, kind)))[-kind.rows:]
        if kind.steps == finest or not unfinished(cells, kind)[0]:
            pairs += zip(unfinished(cells, kind), unfinished(steps, kind))
        found[number] = sum(not is_same(one, other) for one, other in pairs)
    return {number: count for number, count in found.items() if count}


def with_extremes(*sizes: Tuple[int, int]) -> List[Kind]:
    return [Kind(function, steps, rows) for steps, rows in sizes for function in ("AVERAGE", "MIN", "MAX")]


class Gaps(unittest.TestCase):
    """A gap of each length at each of some places, in the second of three coarser rows of 36 steps."""

    PLACES: Tuple[int, ...] = (*range(36, 43), *range(67, 72))
    STEPS, ROWS = Kind("AVERAGE", 1, 20), Kind("AVERAGE", 6, 18)
    COARSER, COARSEST = Kind("AVERAGE", 36, 3), Kind("AVERAGE", 108, 1)

    def setUp(self) -> None:
        chance = random.Random(5)
        self.cells = [round(chance.gauss(50, 9), 3) for _ in range(108)]

    def differing(self, kinds: List[Kind], counts: Iterable[int],
                  lengths: Tuple[int, ...] = (108, 106)) -> Dict[Try, Dict[int, int]]:
        """Returns the tries of which rows differ: the steps of the file, those of the gap, and its place."""
        found: Dict[Try, Dict[int, int]] = {}
        for length in lengths:
            for count in counts:
                for at in self.PLACES:
                    cells = [NAN if at <= step < at + count else self.cells[step] for step in range(length)]
                    differing = differing_rows(cells, kinds, moved(cells, kinds))
                    if differing:
                        found[length, count, at] = differing
        return found

    def test_averages(self) -> None:
        """The coarser row tells how many steps of a row were unknown, and how many of an unknown row were known."""
        self.assertEqual(self.differing([self.ROWS, self.COARSER], (*range(8), 11, 12, 17)), {})

    def test_the_order_of_archives(self) -> None:
        self.assertEqual(self.differing([self.COARSER, self.ROWS], (2, 5, 9)), {})

    def test_extremes(self) -> None:
        self.assertEqual(self.differing(with_extremes((6, 18), (36, 3)), (*range(7), 8, 11, 12, 17)), {})

    def test_last_rates(self) -> None:
        self.assertEqual(self.differing([*with_extremes((6, 18), (36, 3)), Kind("LAST", 6, 18)], range(4)), {})

    def test_steps_that_begin_inside_a_row(self) -> None:
        """The newest steps are there themselves: what is left of the row is laid before them."""
        for kinds in ([self.STEPS, self.ROWS, self.COARSER], [self.STEPS, *with_extremes((6, 18), (36, 3))],
                      [Kind("MAX", 1, 20), *with_extremes((6, 14), (36, 3))]):
            with self.subTest(kinds=kinds):
                self.assertEqual(self.differing(kinds, (0, 1, 3, 4, 6, 9)), {})

    def test_rows_that_begin_inside_a_coarser_row(self) -> None:
        for rows in (10, 11):
            for kinds in ([Kind("AVERAGE", 6, rows), self.COARSER], with_extremes((6, rows), (36, 3))):
                with self.subTest(kinds=kinds):
                    self.assertEqual(self.differing(kinds, (0, 1, 3, 4, 6, 9)), {})

    def test_coarser_rows_that_get_unknown_sooner(self) -> None:
        self.assertEqual(self.differing([self.ROWS, Kind("AVERAGE", 36, 3, 0.1)], (*range(8), 11, 12, 17)), {})
        # A row with a minimum and a maximum has two known steps at least, whatever it allows.
        kinds = [*(Kind(function, 6, 18, 0.9) for function in ("AVERAGE", "MIN", "MAX")), Kind("AVERAGE", 36, 3, 0.1)]
        self.assertEqual(self.differing(kinds, (0, 2, 4, 5, 6, 8)), {})

    def test_rows_that_allow_many_unknown_steps(self) -> None:
        kinds = [Kind("AVERAGE", 6, 18, 0.9), Kind("AVERAGE", 36, 3, 0.9)]
        self.assertEqual(self.differing(kinds, (*range(8), 11, 12, 17)), {})

    def test_rows_that_allow_no_unknown_step(self) -> None:
        """The coarser row tells how many steps of the unknown ones were known."""
        for functions in (("AVERAGE",), ("AVERAGE", "MIN", "MAX")):
            with self.subTest(functions=functions):
                kinds = [Kind(function, *size) for size in ((6, 18, 0.0), (36, 3, 0.5)) for function in functions]
                self.assertEqual(self.differing(kinds, (0, 1, 3, 5, 6, 8, 12)), {})

    def test_a_gap_in_each_row(self) -> None:
        """None of the rows below a known one is known, or few are."""
        means = [Kind("AVERAGE", 6, 18, 0.0), self.COARSER]
        extremes = [*(Kind(function, 6, 18, 0.0) for function in ("AVERAGE", "MIN", "MAX")), *with_extremes((36, 3))]
        for kinds in (means, [*means, self.COARSEST], extremes):
            for count, first, last in ((1, 36, 72), (2, 0, 108), (3, 36, 54), (3, 0, 108), (4, 36, 72)):
                cells = [NAN if first <= at < last and at % 6 < count else cell for at, cell in enumerate(self.cells)]
                self.assertEqual(differing_rows(cells, kinds, moved(cells, kinds)), {}, (kinds, count, first, last))

    def test_gaps_where_steps_begin(self) -> None:
        self.PLACES = tuple(range(78, 92))
        for kinds in ([self.STEPS, self.ROWS, self.COARSER], [self.STEPS, *with_extremes((6, 18), (36, 3))],
                      [self.STEPS, Kind("AVERAGE", 6, 18, 0.0)]):
            with self.subTest(kinds=kinds):
                self.assertEqual(self.differing(kinds, (1, 3, 4, 5, 9), (106,)), {})

    def test_an_unfinished_row_of_which_only_the_steps_are_known(self) -> None:
        """What is before them stays unknown, so that the row gets as many unknown steps as it has."""
        for known in (1, 2, 3):
            cells = [NAN if 96 <= step < 101 - known else self.cells[step] for step in range(101)]
            found = moved(cells, [Kind("AVERAGE", 1, known), self.ROWS])
            self.assertTrue(all(map(is_same, found[96:], cells[96:])), found[96:])

    def test_steps_inside_an_unfinished_row(self) -> None:
        """Also if only these are known of it."""
        self.PLACES = tuple(range(94, 107))
        for count in (2, 4):
            steps = Kind("AVERAGE", 1, count)
            for kinds in ([steps, self.ROWS, self.COARSER], [steps, *with_extremes((6, 18))]):
                with self.subTest(kinds=kinds):
                    self.assertEqual(self.differing(kinds, (0, 2, 3, 5), (101, 105, 107)), {})

    def test_rows_of_two_steps(self) -> None:
        for kinds in ([Kind("AVERAGE", 2, 54), self.COARSER], [self.STEPS, Kind("AVERAGE", 2, 54), self.COARSER]):
            with self.subTest(kinds=kinds):
                self.assertEqual(self.differing(kinds, (0, 1, 2, 4)), {})

    def test_unfinished_rows(self) -> None:
        self.PLACES = tuple(range(88, 106, 2))
        for kinds in ([self.ROWS, self.COARSER], [Kind("MAX", 6, 18)],
                      [*with_extremes((6, 18), (36, 3)), Kind("LAST", 6, 18)]):
            with self.subTest(kinds=kinds):
                self.assertEqual(self.differing(kinds, (0, 1, 3, 4, 6), (101, 103, 107)), {})

    def test_large_numbers(self) -> None:
        """Of which eleven digits are known."""
        self.cells = [1e8 * cell for cell in self.cells]
        for kinds in ([self.ROWS, self.COARSER], with_extremes((6, 18), (36, 3))):
            with self.subTest(kinds=kinds):
                self.assertEqual(self.differing(kinds, (0, 1, 2, 3, 4, 6), (108,)), {})

    def test_maximums_alone(self) -> None:
        """No average tells of a gap that is in a known row; rows of maximums of 36 steps come from those of 6."""
        self.assertEqual(self.differing([Kind("MAX", 6, 18), Kind("MAX", 36, 3)], range(4)), {})

    def test_extremes_of_longer_rows_alone(self) -> None:
        """A peak goes into the row with the greatest average, and a low into that with the least one."""
        for kinds in ([self.ROWS, Kind("MAX", 36, 3), Kind("MIN", 36, 3)], [self.ROWS, Kind("MAX", 36, 3), Kind("MAX", 108, 1)],
                      [self.ROWS, self.COARSER, Kind("MAX", 108, 1), Kind("MIN", 108, 1)]):
            with self.subTest(kinds=kinds):
                self.assertEqual(self.differing(kinds, (0,), (108,)), {})

    def test_three_lengths_of_rows(self) -> None:
        for kinds in ([self.ROWS, self.COARSER, self.COARSEST], with_extremes((6, 18), (36, 3), (108, 1))):
            with self.subTest(kinds=kinds):
                self.assertEqual(self.differing(kinds, range(5)), {})

    def test_one_gap_below_three_lengths_of_rows(self) -> None:
        """The coarsest row tells how many steps are known of the row in which a gap begins or ends, if it is the only known one
        of its coarser row, or of one with an unknown row that has known steps."""
        munin = [Kind("AVERAGE", *size, 0.99) for size in ((6, 18), (36, 3), (108, 1))]
        for kinds, counts, places in ((munin, (56, 57, 63, 64), range(8, 12)),
                                      ([self.ROWS, self.COARSER, self.COARSEST], (6, 7, 8), range(36, 54))):
            with self.subTest(kinds=kinds):
                self.PLACES = tuple(places)
                self.assertEqual(self.differing(kinds, counts, (108,)), {})

    def test_long_gaps_below_three_lengths_of_rows(self) -> None:
        """How many steps at the ends of a gap were unknown may be a guess: the coarsest row may differ, but no other one."""
        self.PLACES = (*range(36, 46), *range(65, 72))
        tries = len(LONG) * len(self.PLACES)
        for kinds, top, most in (([self.ROWS, self.COARSER, self.COARSEST], 2, 0.4 * tries),
                                 (with_extremes((6, 18), (36, 3), (108, 1)), 6, 0.4 * tries),
                                 ([self.ROWS, Kind("AVERAGE", 36, 3, 0.1), self.COARSEST], 2, 0.2 * tries)):
            with self.subTest(kinds=kinds):
                found = self.differing(kinds, LONG, (108,))
                self.assertEqual({number for one in found.values() for number in one}, {top})
                self.assertLess(len(found), most)


def archive_of(number: int, kind: Kind, rows: List[float], last: int) -> RrdArchive:
    """Returns an archive of averages with these rows, the last of which ends at `last`."""
    archive = RrdArchive(number, kind.function, kind.steps, kind.share, [NAN], [0], array("d", rows), 1)
    archive.place(1, last)
    return archive


class Parts(unittest.TestCase):
    """The parts of which the rates are made."""

    FINE, COARSE = Kind("AVERAGE", 6, 36), Kind("AVERAGE", 36, 6)

    def test_means_as_they_are_printed(self) -> None:
        """A tenth of a millionth is nothing, nor are two of the eleventh digit of the largest number."""
        for wanted, mean, size, is_same_mean in (
                (1.0, 1.0, 1.0, True), (1.0, 1.00000009, 1.0, True), (1.00000009, 1.0, 1.0, True),
                (1.0, 1.0000002, 1.0, False), (2e9, 2e9 + 0.25, 2e9, True), (2e9 + 0.375, 2e9, 2e9, True),
                (2e9, 2e9 + 0.5, 2e9, False), (1.0, 1.25, 2e9, True), (2e9, 2e9 + 0.25, 1.0, False),
                (-1.0, 1.0, 1.0, False)):
            with self.subTest(wanted=wanted, mean=mean, size=size):
                self.assertEqual(is_mean(wanted, mean, size), is_same_mean)

    def known_steps(self, rows: List[float], top: float, mean: float, fine: Iterable[float] = ()) -> int:
        """Returns how many steps of the last row but one of 36 are known, by the last row of 108 steps."""
        archives = [archive_of(0, self.FINE, list(fine) or [1.0] * 36, 216), archive_of(1, self.COARSE, rows, 216),
                    archive_of(2, Kind("AVERAGE", 108, 2), [77.0, top], 216)]
        return SourceRates(0, 1, 216, Converter()).known_steps(Span(0, 216, archives[0], archives), 180, mean, [])

    def test_how_many_steps_are_known(self) -> None:
        """The two other rows have the mean 15; with so many steps of 40 more, the mean of all is another one."""
        before = [500.0, 600.0, 700.0]
        for count, known in ((1, 1), (2, 2), (18, 18), (35, 35), (36, 36), (0, 0), (37, 0), (5.5, 0), (0.4, 0)):
            with self.subTest(count=count):
                mean = (72 * 15 + count * 40) / (72 + count)
                self.assertEqual(self.known_steps([*before, 10.0, 40.0, 20.0], mean, 40.0), known)
                mean = (36 * 20 + count * 40) / (36 + count)
                self.assertEqual(self.known_steps([*before, NAN, 40.0, 20.0], mean, 40.0, [NAN] * 36), known)
        self.assertEqual(self.known_steps([*before, 10.0, 40.0, 20.0], NAN, 40.0), 0)
        self.assertEqual(self.known_steps([*before, 40.0, 40.0, 40.0], 40.0, 40.0), 0)

    def test_the_known_steps_of_other_rows(self) -> None:
        """They are those of the rows of which they consist, of which one may have unknown steps."""
        before, coarse = [500.0, 600.0, 700.0], [1.0] * 18
        for fine, steps in (([10.0] * 6, 36), ([10.0] * 2 + [NAN] * 4, 12), ([NAN] * 6, 0)):
            with self.subTest(fine=fine):
                mean = (36 * 20 + steps * 10 + 5 * 40) / (36 + steps + 5)
                for own in (10.0, NAN) if steps < 18 else (10.0,):
                    if steps or math.isnan(own):
                        rows, below = [*before, own, 40.0, 20.0], [*coarse, *fine, *coarse[:12]]
                        self.assertEqual(self.known_steps(rows, mean, 40.0, below), 5)
        # Five of six rows have the mean 10 and the last one 22, of which three steps are known: 33 steps with the mean 120 / 11.
        own = (30 * 10 + 3 * 22) / 33
        mean = (36 * 20 + 33 * own + 5 * 40) / (36 + 33 + 5)
        below = [*coarse, *[10.0] * 5, 22.0, *coarse[:12]]
        self.assertEqual(self.known_steps([*before, own, 40.0, 20.0], mean, 40.0, below), 5)

    def test_no_row_that_tells(self) -> None:
        """There is no archive above, or its row is not finished."""
        rates = SourceRates(0, 1, 216, Converter())
        fine = archive_of(0, self.FINE, [1.0] * 36, 216)
        coarse = archive_of(1, self.COARSE, [1.0, 2.0] * 3, 216)
        self.assertEqual(rates.known_steps(Span(0, 216, fine, [fine]), 180, 1.0, []), 0)
        self.assertEqual(rates.known_steps(Span(0, 216, fine, [fine, coarse]), 180, 1.0, []), 0)
        top = archive_of(2, Kind("AVERAGE", 144, 1), [1.5], 216)
        self.assertEqual(rates.known_steps(Span(0, 216, fine, [fine, coarse, top]), 180, 1.0, []), 0)

    def span(self, means: List[float], low: float, high: float, highs: Iterable[float] = ()) -> Span:
        """Returns a span of rows of 6 steps, of which 3 may be unknown, with one minimum and one maximum for all, or maximums."""
        kinds = [(Kind(function, 6, len(means)), cells) for function, cells in (
            ("AVERAGE", means), ("MIN", [low] * len(means)), ("MAX", list(highs) or [high] * len(means)))]
        archives = [archive_of(number, kind, cells, 6 * len(means)) for number, (kind, cells) in enumerate(kinds)]
        return Span(0, 6 * len(means), archives[0], archives)

    def test_unknown_steps_that_a_row_can_have(self) -> None:
        """Neither of two consecutive rows gets more than its minimum and its maximum leave room for: three steps of 12 are 0, 16
        and 20, but three of 3 are not."""
        rates = SourceRates(0, 1, 36, Converter())
        for means, found in (([12.0, 12.0, 10.0, 9.0], {12: 2, 18: 3}), ([12.0, 3.0, 12.0, 9.0], {}), ([12.0, 12.0, 3.0, 9.0], {})):
            parts, coarser = PartsOfARow(), Coarser(24)
            for at, mean in enumerate(means, 1):
                parts.add(6 * at, mean, 6)
            # As the two rows in the middle would make it with four and three steps.
            wanted = (6 * means[0] + 4 * means[1] + 3 * means[2] + 6 * means[3]) / 19
            with self.subTest(means=means):
                self.assertEqual(rates.find_dropped(self.span(means, 0.0, 20.0), coarser, parts, wanted), found != {})
                self.assertEqual(coarser.dropped, found)

    def test_the_second_row_that_explains_a_mean(self) -> None:
        """Of two rows of the mean 3, one has a peak of 20 and so needs all its steps; two are unknown of the other one."""
        for highs, found in (([20.0, 5.0, 20.0], {12: 2}), ([5.0, 20.0, 20.0], {6: 2}), ([20.0, 20.0, 20.0], {})):
            parts, coarser = PartsOfARow(), Coarser(18)
            for at, mean in enumerate((3.0, 3.0, 9.0), 1):
                parts.add(6 * at, mean, 6)
            SourceRates(0, 1, 18, Converter()).find_dropped(self.span([3.0, 3.0, 9.0], 0.0, 0.0, highs), coarser, parts,
                                                            (6 * 3 + 4 * 3 + 6 * 9) / 16)
            self.assertEqual(coarser.dropped, found)

    def test_unknown_steps_of_the_only_known_row(self) -> None:
        """Of its six steps one to three may be unknown, if the row above tells so many."""
        for known, dropped in ((0, {}), (1, {}), (2, {}), (3, {6: 3}), (5, {6: 1}), (6, {}), (7, {})):
            rates, coarser, parts = SourceRates(0, 1, 12, Converter()), Coarser(12), PartsOfARow()
            parts.add(6, 12.0, 6)
            with self.subTest(known=known), mock.patch.object(rates, "known_steps", return_value=known):
                rates.find_dropped_alone(self.span([12.0, NAN], 0.0, 20.0), coarser, parts, 12.0, [])
                self.assertEqual(coarser.dropped, dropped)

    def test_an_unknown_row_that_hides_as_many_steps_as_it_can(self) -> None:
        """Two of six, where three may be unknown. Of thirteen known steps the other rows then have eleven: one lacks a step, most
        likely the row at the gap, because the two steps are then nearer to the mean."""
        span, rates, coarser, parts = self.span([12.0, 10.0, NAN], 0.0, 20.0), SourceRates(0, 1, 18, Converter()), Coarser(18), \
            PartsOfARow(unknown=1)
        parts.add(6, 12.0, 6)
        parts.add(12, 10.0, 6)
        found, hidden = rates.with_dropped(span, coarser, parts, 11.5, 13, Row(True, 11.5))
        self.assertEqual((found.count, found.total, hidden, coarser.dropped), (11, 122.0, 2, {12: 1}))

    def test_no_step_and_one_step(self) -> None:
        """A row always lacks none. With a minimum of 0 and a maximum of 20, the mean of five steps is 4 at least."""
        rates, span = SourceRates(0, 1, 18, Converter()), self.span([3.0, 3.9, 4.1], 0.0, 20.0)
        self.assertEqual([[rates.can_drop(span, time, steps) for steps in (0, 1)] for time in (6, 12, 18)],
                         [[True, False], [True, False], [True, True]])

    def test_as_many_steps_as_a_row_can_lack(self) -> None:
        """No more than a row may have dropped, than are too many, and than its numbers allow."""
        for most, excess, allowed, wanted in ((4, 3, 9, {0: 3}), (2, 3, 9, {0: 2, 6: 1}), (4, 6, 3, {0: 3, 6: 3}), (4, 2, 1, {0: 1, 6: 1}),
                                              (4, 1, 0, {0: 0, 6: 0}), (4, 0, 9, {})):
            rates, coarser = mock.Mock(can_drop=lambda span, time, steps: steps <= allowed), Coarser(0)
            SourceRates.drop_until_unknown(rates, mock.Mock(most_dropped=most), coarser, mock.Mock(known=[0, 6]), excess)
            self.assertEqual(coarser.dropped, wanted, (most, excess, allowed))

    def test_where_an_extreme_goes(self) -> None:
        """Into the row with the least average of a longer row, or the greatest, the first and the last row included."""
        for place in range(6):
            for function, own, cell in (("MIN", 5.0, 2.0), ("MAX", 15.0, 18.0)):
                means = [own if at == place else 10.0 for at in range(6)]
                archives = [archive_of(0, Kind("AVERAGE", 6, 6), means, 36), archive_of(1, Kind(function, 36, 1), [cell], 36)]
                rates, rows = SourceRates(0, 1, 36, Converter()), [Row(True, mean) for mean in means]
                for at, row in enumerate(rows, 1):
                    rates.add_extremes(Span(0, 36, archives[0], archives), row, 6 * at)
                found = [row.minimum if function == "MIN" else row.maximum for row in rows]
                self.assertEqual(found, [round(cell * 1_000_000) if at == place else None for at in range(6)])

    def test_longer_rows_that_show_no_extreme(self) -> None:
        """One that is unknown, or not whole in the span; and none shows that of a row that is unknown."""
        known = [10.0, 5.0] + [10.0] * 4
        for begin, end, cell, means, found in ((0, 36, 2.0, known, 2_000_000), (0, 36, NAN, known, None), (0, 36, 2.0, [NAN] * 6, None),
                                               (6, 36, 2.0, known, None), (0, 30, 2.0, known, None)):
            archives = [archive_of(0, Kind("AVERAGE", 6, 6), means, 36), archive_of(1, Kind("MIN", 36, 1), [cell], 36)]
            row = Row(True, means[1])
            SourceRates(0, 1, 36, Converter()).add_extremes(Span(begin, end, archives[0], archives), row, 12)
            self.assertEqual(row.minimum, found, (begin, end, cell, means))

    def test_the_fewest_steps_that_make_a_row_unknown(self) -> None:
        """Of 36 steps 18 may be unknown; of 30 in known rows, 13 are then unknown too."""
        archives = [archive_of(0, Kind("AVERAGE", 6, 6), [10.0] * 5 + [NAN], 36), archive_of(1, Kind("AVERAGE", 36, 1), [NAN], 36)]
        rates, coarser = SourceRates(0, 1, 36, Converter()), Coarser(36)
        rates.compare_coarser(Span(0, 36, archives[0], archives), archives[1], coarser, [])
        self.assertEqual(coarser.dropped, {6: 3, 12: 3, 18: 3, 24: 3, 30: 1})

    def test_one_known_step_of_an_unknown_row(self) -> None:
        """If the row above tells that there is one more, it is in the unknown row."""
        rates, coarser, parts = SourceRates(0, 1, 18, Converter()), Coarser(18), PartsOfARow(unknown=1)
        parts.add(6, 12.0, 6)
        parts.add(12, 10.0, 6)
        above = archive_of(1, Kind("AVERAGE", 18, 1), [11.5], 18)
        with mock.patch.object(rates, "known_steps", return_value=13):
            rates.find_hidden(self.span([12.0, 10.0, NAN], 0.0, 20.0), above, coarser, parts, 11.5, [])
        self.assertEqual((coarser.hidden, coarser.hidden_mean, coarser.dropped), (1, 11.5 * 13 - 132, {}))

    def test_known_steps_below_an_unknown_row(self) -> None:
        """Two of its last six steps have the mean 465, or one is 900, if the minimum and the maximum of the longest row allow it."""
        fine = [1.0] * 23 + [NAN] + [40.0] * 6 + [20.0] * 6
        two, one, none = (2, 465.0), (1, 900.0), (0, 0.0)
        for low, high, found in ((0.0, 500.0, two), (200.0, 500.0, two), (500.0, 1_000.0, one), (0.0, 400.0, none), (500.0, 600.0, none)):
            archives = [archive_of(0, self.FINE, fine, 216), archive_of(1, self.COARSE, [5.0, 6.0, 7.0, NAN, 40.0, 20.0], 216),
                        archive_of(2, Kind("AVERAGE", 108, 2), [77.0, 30.0], 216),
                        archive_of(3, Kind("MIN", 108, 2), [low, low], 216), archive_of(4, Kind("MAX", 108, 2), [high, high], 216)]
            rates, coarser, span = SourceRates(0, 1, 216, Converter()), Coarser(144), Span(0, 216, archives[0], archives)
            with mock.patch.object(rates, "find_dropped", return_value=False):
                self.assertEqual(rates.find_below_unknown(span, archives[1], coarser, -2, []), found != none, (low, high))
            self.assertEqual((coarser.hidden, coarser.hidden_mean), found)

    def below_unknown(self, dropped: int, top: float = 30.0) -> Tuple[bool, Dict[int, int]]:
        """Returns what is found in an unknown row of 36 steps, of which three are unknown at least, if so many unknown steps explain
        the mean of the row above."""
        fine = [1.0] * 24 + [40.0] * 6 + [20.0] * 6
        archives = [archive_of(0, self.FINE, fine, 216), archive_of(1, self.COARSE, [5.0, 6.0, 7.0, NAN, 40.0, 20.0], 216),
                    archive_of(2, Kind("AVERAGE", 108, 2), [77.0, top], 216)]
        rates, coarser, span = SourceRates(0, 1, 216, Converter()), Coarser(144), Span(0, 216, archives[0], archives)

        def find(_span: Span, found: Coarser, _parts: PartsOfARow, mean: float) -> bool:
            self.assertEqual(mean, 30.0)
            found.dropped[114] = dropped
            return True
        with mock.patch.object(rates, "find_dropped", find):
            return rates.find_below_unknown(span, archives[1], coarser, 3, []), coarser.dropped

    def test_as_many_unknown_steps_as_an_unknown_row_has_at_least(self) -> None:
        for dropped, found in ((2, (False, {})), (3, (True, {114: 3})), (4, (True, {114: 4}))):
            self.assertEqual(self.below_unknown(dropped), found)
        # The row above is unknown too, or has the mean of its steps.
        self.assertEqual([self.below_unknown(3, top) for top in (NAN, (36 + 36 * 40 + 36 * 20) / 108)], [(False, {})] * 2)

    def test_a_coarser_row_that_begins_where_the_span_ends(self) -> None:
        """All its steps count, whatever the rates after the span are."""
        archives = [archive_of(0, self.FINE, [1.0] * 30 + [20.0] * 6, 216),
                    archive_of(1, self.COARSE, [1.0] * 5 + [20.0], 216)]
        rates, span = SourceRates(0, 1, 216, Converter()), Span(0, 180, archives[0], archives)
        laters: List[Stretches] = [[(216, 20_000_000)], [(200, None), (216, 20_000_000)]]
        for later in laters:
            found = rates.parts_below(span, archives[1], range(144, 217, 36), 144, later)
            assert found
            self.assertEqual((found.count, found.total), (108, 36 + 36 + 36 * 20))

    def test_a_coarser_row_that_cuts_unknown_rows(self) -> None:
        """Of its eight steps six are in an unknown row: some were known if it allows five unknown ones, and perhaps none if six."""
        for share, found in ((0.74, 5_000_000), (0.75, None)):
            fine = archive_of(0, Kind("AVERAGE", 6, 4), [NAN, 1.0, 1.0, 1.0], 24)
            over = archive_of(1, Kind("AVERAGE", 8, 3, share), [5.0, 1.0, NAN], 24)
            overlapping = Overlapping(SourceRates(0, 1, 24, Converter()), Span(0, 24, fine, [fine, over]), over)
            self.assertEqual([overlapping.hidden(time) for time in (8, 16, 24)], [found, None, None])

    def test_the_unfinished_step(self) -> None:
        """First its unknown seconds, then the mean of the others."""
        tries: List[Tuple[int, int, float, Stretches]] = [
            (1_000, 0, 0.0, []), (1_003, 0, 6.0, [(1_003, 2_000_000)]), (1_003, 3, 0.0, [(1_003, None)]),
            (1_003, 1, 6.0, [(1_001, None), (1_003, 3_000_000)]), (1_003, 2, 6.0, [(1_002, None), (1_003, 6_000_000)])]
        for last, unknown, total, found in tries:
            with self.subTest(last=last, unknown=unknown):
                source = RrdSource(0, "g", "GAUGE", 99, NAN, NAN, "U", total, unknown)
                self.assertEqual(unfinished_step(source, 1_000, last, Converter()), found)
