# SPDX-License-Identifier: MIT OR Apache-2.0
"""Computes the rates of a data source from the rows of its archives."""
from __future__ import annotations

import math
from dataclasses import dataclass, field, replace

from ..amounts import MILLION
from .rounding import Converter
from .dump import RrdArchive, RrdSource
from .plan import Span
from .steps import Row, Stretches, Wanted, lay, sum_of_rest
from .uneven_rows import Overlapping


@dataclass
class Coarser:
    """The unknown steps of some rows, as far as the row of the next coarser averages shows them."""

    end: int
    dropped: dict[int, int] = field(default_factory=dict)  # unknown steps of known rows, by the times of the rows
    hidden: int = 0  # the number of known steps of all unknown rows
    hidden_mean: float = 0.0
    hidden_minimum: int | None = None
    hidden_maximum: int | None = None
    lower: int | None = None  # no hidden step is below
    upper: int | None = None  # no hidden step is above


@dataclass
class Parts:
    """The rows of which a coarser row consists.

    `known` has the means of the known rows by their times, and `unknown` is the number of unknown rows; `count`, `total`
    and `size` are the number, the sum and the largest absolute value of all known steps.
    """

    known: dict[int, float] = field(default_factory=dict)
    unknown: int = 0
    count: int = 0
    total: float = 0.0
    size: float = 0.0

    def add(self, time: int, mean: float, steps: int) -> None:
        self.known[time] = mean
        self.add_rest(steps, steps * mean)

    def add_rest(self, steps: int, total: float) -> None:
        self.count += steps
        self.total += total
        if steps > 0:
            self.size = max(self.size, abs(total / steps))


def is_mean(wanted: float, mean: float, size: float) -> bool:
    """Checks whether a mean of numbers up to this size is the wanted mean, in the digits that RRDtool prints."""
    return abs(wanted - mean) <= 1e-7 + size / 5e9


class SourceRates:
    """Computes the rates of one source from its rows."""

    def __init__(self, column: int, step: int, whole: int, converter: Converter,
                 bounds: tuple[int | None, int | None] = (None, None)):
        self.column, self.step, self.whole, self.converter = column, step, whole, converter
        self.least, self.greatest = bounds
        self.coarser: Coarser | None = None
        self.overlapping: Overlapping | None = None

    def all_rates(self, spans: list[Span]) -> Stretches:
        """Returns the rates of all spans. Starts with the newest span, because a finer span may cut a coarser row."""
        later: Stretches = []
        for span in reversed(spans):
            rates = self.rates_of_steps(span) if span.archive.steps == 1 else self.rates_of_rows(span, later)
            later = rates + later
        return later

    def amount(self, value: float) -> int | None:
        return self.converter.amount(value)

    def rates_of_steps(self, span: Span) -> Stretches:
        archive, column = span.archive, self.column
        return [(time, self.amount(archive.cell(time, column)))
                for time in range(span.begin + self.step, span.end + 1, self.step)]

    def exact(self, archive: RrdArchive | None, time: int) -> float:
        """Returns a cell as rrdtool prints it; for an unfinished row, the mean, minimum, .. of its known steps so far."""
        if archive is None or not archive.has(time):
            return math.nan
        if time <= archive.end:
            value = archive.cell(time, self.column)
        else:
            known = self.known_so_far(archive)
            value = archive.partial[self.column] if known > 0 else math.nan
            if archive.function == "AVERAGE" and known > 0:
                value /= known
        return value if self.amount(value) is not None else math.nan

    def cell(self, archive: RrdArchive | None, time: int) -> int | None:
        return self.amount(self.exact(archive, time))

    def known_so_far(self, archive: RrdArchive) -> int:
        return (self.whole - archive.end) // self.step - archive.unknown_steps[self.column]

    def row(self, beside: dict[str, RrdArchive], time: int) -> Row:
        average = beside.get("AVERAGE")
        return Row(average is not None and average.has(time), self.exact(average, time),
                   self.cell(beside.get("MIN"), time), self.cell(beside.get("MAX"), time),
                   self.cell(beside.get("LAST"), time))

    def rates_of_rows(self, span: Span, later: Stretches) -> Stretches:
        rates: Stretches = []
        self.coarser = None
        self.overlapping = Overlapping(self, span, span.overlapping) if span.overlapping else None
        seconds = span.archive.seconds
        for begin in range(span.begin, span.end, seconds):
            time = begin + seconds
            row = self.row(span.beside, time)
            if not row.has_average:
                shown = next((cell for cell in (row.latest, row.maximum, row.minimum) if cell is not None), None)
                row.average = math.nan if shown is None else shown / MILLION
            else:
                self.add_extremes(span, row, time)
            if time <= span.end:
                self.lay_whole_row(rates, span, row, begin, time, later)
            else:
                self.lay_part(rates, span, row, begin, time, later)
        return rates

    def add_extremes(self, span: Span, row: Row, time: int) -> None:
        """Gives a row without its own minimum or maximum that of a longer row, if its average is the least or the greatest of
        those in the longer row: most likely the step is in this row."""
        for longer in span.longer:
            end = time - 1 - (time - 1) % longer.seconds + longer.seconds
            cell = self.cell(longer, end) if end <= longer.end else None
            if cell is None or not row.is_known or end - longer.seconds < span.begin or end > span.end:
                continue
            seconds, average = span.archive.seconds, span.beside["AVERAGE"]
            others = [self.exact(average, at) for at in range(end - longer.seconds + seconds, end + 1, seconds)]
            known = [other for other in others if not math.isnan(other)]
            if longer.function == "MIN" and row.average == min(known):
                row.minimum = min(cell, round(row.average * MILLION))
            elif longer.function == "MAX" and row.average == max(known):
                row.maximum = max(cell, round(row.average * MILLION))

    def wanted(self, row: Row, steps: int) -> Wanted:
        """Returns the numbers that `steps` steps must have for a row; without averages any sum is right."""
        lower, upper = self.range_of(row)
        return Wanted(row.average * MILLION * steps, row.slack(steps) if row.has_average else math.inf,
                      row.minimum, row.maximum, row.latest, lower, upper)

    def range_of(self, row: Row) -> tuple[int | None, int | None]:
        """Returns the range of a row's steps: by its minimum and maximum; or else by the bounds of the source if the average is
        within them, and without averages by what the row shows, so that no step is an extreme that nobody measured."""
        lower, upper = row.minimum, row.maximum
        if not row.has_average:
            shown = [cell for cell in (row.minimum, row.maximum, row.latest) if cell is not None]
            return min(shown, default=None), max(shown, default=None)
        average = row.average * MILLION
        if lower is None and self.least is not None and average >= self.least:
            lower = self.least
        if upper is None and self.greatest is not None and average <= self.greatest:
            upper = self.greatest
        return lower, upper

    def lay_part(self, rates: Stretches, span: Span, row: Row, begin: int, time: int, later: Stretches) -> None:
        """Lays the first part of a row that continues after the span, because a finer archive begins inside the row or the
        row is unfinished. Subtracts the rates after the span from the row."""
        end = span.end
        rest = sum_of_rest(later, end, min(time, self.whole), self.step)
        steps = (end - begin) // self.step
        if time > span.archive.end:
            steps = min(max(self.known_so_far(span.archive) - rest.known, 0), steps)
        if not row.is_known or steps == 0:
            rates.append((end, None))
            return
        if end < self.whole:
            row.latest = None
        wanted = self.wanted(row, steps)
        if row.has_average and end < self.whole:
            wanted.total = row.average * MILLION * (steps + rest.known) - rest.total
            wanted.slack = row.slack(steps + rest.known)
            if wanted.lower is not None:
                wanted.total = max(wanted.total, steps * wanted.lower)
            if wanted.upper is not None:
                wanted.total = min(wanted.total, steps * wanted.upper)
        if rest.minimum is not None and row.minimum is not None and rest.minimum <= row.minimum:
            wanted.minimum = None
        if rest.maximum is not None and row.maximum is not None and rest.maximum >= row.maximum:
            wanted.maximum = None
        first = end - steps * self.step
        if first > begin:
            rates.append((first, None))
        lay(rates, first, end, self.step, wanted)

    def lay_whole_row(self, rates: Stretches, span: Span, row: Row, begin: int, end: int, later: Stretches) -> None:
        """Lays a row with the unknown steps that the next coarser row shows."""
        coarser = self.coarser_of(span, begin, later) if row.has_average else None
        if coarser is not None and not row.is_known:
            begin = self.lay_hidden(rates, span, coarser, begin)
        elif coarser is not None and coarser.dropped.get(end):
            begin += coarser.dropped[end] * self.step
            rates.append((begin, None))
        over, wanted = self.overlapping if row.has_average else None, self.wanted(row, (end - begin) // self.step)
        if row.is_known and not (over and over.cut(rates, begin, end, wanted)):
            lay(rates, begin, end, self.step, wanted)
        elif not row.is_known and over:
            over.lay_unknown(rates, begin, end)
        elif not row.is_known:
            rates.append((end, None))

    def lay_hidden(self, rates: Stretches, span: Span, coarser: Coarser, begin: int) -> int:
        """Lays known steps of an unknown row, and returns where they end."""
        steps = min(coarser.hidden, span.most_hidden)
        if steps <= 0:
            return begin
        coarser.hidden -= steps
        row = Row(True, coarser.hidden_mean, coarser.hidden_minimum, coarser.hidden_maximum)
        coarser.hidden_minimum = coarser.hidden_maximum = None
        end = begin + steps * self.step
        wanted = self.wanted(row, steps)
        wanted.lower, wanted.upper = coarser.lower, coarser.upper
        lay(rates, begin, end, self.step, wanted)
        return end

    # ---- Unknown steps that only a coarser row shows

    def coarser_of(self, span: Span, begin: int, later: Stretches) -> Coarser | None:
        """Returns the unknown steps that a coarser row shows, if the coarser row begins in the span and is finished."""
        above = span.above
        if above is None:
            return None
        end = begin - begin % above.seconds + above.seconds
        if end - above.seconds < span.begin or end > above.end:
            return None
        if self.coarser is None or self.coarser.end != end:
            self.coarser = Coarser(end)
            if above.has(end):
                self.compare_coarser(span, above, self.coarser, later)
        return self.coarser

    def parts_of(self, span: Span, above: RrdArchive, end: int, later: Stretches) -> Parts:
        """Returns the rows of the span of which a coarser row consists, and the sum of the rates after the span."""
        parts, seconds = Parts(), span.archive.seconds
        average = span.beside.get("AVERAGE")
        for time in range(end - above.seconds + seconds, end + 1, seconds):
            mean = self.exact(average, time)
            if time > span.end:
                # The end of the span cuts this row.
                before, rest = (sum_of_rest(later, span.end, until, self.step) for until in (time, end))
                parts.add_rest(rest.known - before.known, (rest.total - before.total) / MILLION)
                if not math.isnan(mean):
                    parts.add_rest(span.archive.steps, mean * span.archive.steps)
                break
            if math.isnan(mean):
                parts.unknown += 1
            else:
                parts.add(time, mean, span.archive.steps)
            if time == span.end:
                rest = sum_of_rest(later, span.end, end, self.step)
                parts.add_rest(rest.known, rest.total / MILLION)
                break
        return parts

    def compare_coarser(self, span: Span, above: RrdArchive, coarser: Coarser, later: Stretches) -> None:
        """Compares a coarser row with the rows of which it consists.

        If their average differs, some steps of known rows were unknown, or some steps of unknown rows were known.
        """
        parts = self.parts_of(span, above, coarser.end, later)
        mean = self.exact(above, coarser.end)
        if math.isnan(mean):
            excess = parts.count - above.steps + above.allowed_unknown() + 1
            if not self.find_below_unknown(span, above, coarser, excess, later):
                self.drop_until_unknown(span, coarser, parts, excess)
        elif parts.count > 0 and is_mean(mean, parts.total / parts.count, parts.size):
            if parts.unknown and len(parts.known) == 1:
                self.find_dropped_alone(span, coarser, parts, mean, later)
        elif not self.find_dropped(span, coarser, parts, mean):
            self.find_hidden(span, above, coarser, parts, mean, later)

    def can_drop(self, span: Span, time: int, steps: int) -> bool:
        """Checks whether a known row can have this many unknown steps."""
        if steps == 0:
            return True
        left = span.archive.steps - steps
        return left > 0 and self.wanted(self.row(span.beside, time), left).rate_between(left) is not None

    def drop_until_unknown(self, span: Span, coarser: Coarser, parts: Parts, excess: int) -> None:
        """Removes `excess` known steps from the known rows."""
        for time in parts.known:
            if excess <= 0:
                return
            steps = min(span.most_dropped, excess)
            while not self.can_drop(span, time, steps):
                steps -= 1
            coarser.dropped[time] = steps
            excess -= steps

    def find_dropped(self, span: Span, coarser: Coarser, parts: Parts, mean: float) -> bool:
        """Finds a known row, or two consecutive known rows, in which unknown steps explain the mean of the coarser row.

        An outage leaves one such row before it and one after it.
        """
        rows = list(parts.known.items())
        for first in range(span.most_dropped + 1):
            for at in range(1 if first else 0, len(rows)):
                time, own = rows[at]
                before_time, before = rows[at - 1]
                if own == mean:
                    continue
                rest, rest_total = parts.count - first, parts.total - first * before
                apart = (rest_total - mean * rest) / (own - mean)  # tiny numbers may be infinitely many times apart
                second = math.floor(apart + 0.5) if abs(apart) < rest else 0
                if not 1 <= second <= span.most_dropped or second >= rest:
                    continue
                if not is_mean(mean, (rest_total - second * own) / (rest - second), parts.size):
                    continue
                if self.can_drop(span, time, second) and (not first or self.can_drop(span, before_time, first)):
                    if first:
                        coarser.dropped[before_time] = first
                    coarser.dropped[time] = second
                    return True
        return False

    def find_dropped_alone(self, span: Span, coarser: Coarser, parts: Parts, mean: float, later: Stretches) -> None:
        """Finds the unknown steps of a row that is the only known one, and has the mean of the coarser row with any number of
        them: the average above tells the number."""
        (time,) = parts.known
        known = self.known_steps(span, coarser.end, mean, later)
        if known > 0 and 1 <= parts.count - known <= span.most_dropped and self.can_drop(span, time, parts.count - known):
            coarser.dropped[time] = parts.count - known

    def find_hidden(self, span: Span, above: RrdArchive, coarser: Coarser, parts: Parts, mean: float, later: Stretches) -> None:
        """Sets the number of known steps of the unknown rows, their mean, and their minimum and maximum.

        If there is an average above the coarser row, this average gives the number. Otherwise the number is the largest that
        one row can hide, or a larger number if the mean would otherwise be beyond the minimum or the maximum.
        """
        if span.most_hidden == 0:
            return
        row = self.row(span.above_beside, coarser.end)
        least, most = row.minimum, row.maximum
        is_minimum_shown = any(self.cell(span.beside.get("MIN"), time) == least for time in parts.known)
        is_maximum_shown = any(self.cell(span.beside.get("MAX"), time) == most for time in parts.known)
        limit = parts.unknown * span.most_hidden
        known = self.known_steps(span, coarser.end, mean, later)
        likely = known - parts.count
        if known > 0 and not 1 <= likely <= limit:
            parts, likely = self.with_dropped(span, coarser, parts, mean, known, row)
        fewest = max(above.steps - above.allowed_unknown() - parts.count, span.most_hidden)
        for steps in (likely, *range(fewest, limit + 1)):
            if not 1 <= steps <= limit:
                continue
            hidden_mean = (mean * (parts.count + steps) - parts.total) / steps
            if row.may_have(hidden_mean, parts.count + steps):
                coarser.hidden, coarser.hidden_mean, coarser.lower, coarser.upper = steps, hidden_mean, least, most
                coarser.hidden_minimum = None if is_minimum_shown else least
                coarser.hidden_maximum = None if is_maximum_shown else most
                return

    def with_dropped(self, span: Span, coarser: Coarser, parts: Parts, mean: float, known: int,
                     row: Row) -> tuple[Parts, int]:
        """Finds the known row before or after a gap that has unknown steps too, if `known` steps of the coarser row are known.

        Returns the parts without these steps, and how many steps of the unknown rows are known: those with which their mean
        is nearest to the mean of the coarser row.
        """
        seconds, found = span.archive.seconds, []
        for time, own in parts.known.items():
            if all(other in parts.known for other in (time - seconds, time + seconds)):
                continue
            for dropped in range(1, span.most_dropped + 1):
                count, total = parts.count - dropped, parts.total - dropped * own
                steps = known - count
                if 1 <= steps <= parts.unknown * span.most_hidden and self.can_drop(span, time, dropped):
                    hidden_mean = (mean * known - total) / steps
                    if row.may_have(hidden_mean, known):
                        found.append((abs(hidden_mean - mean), time, dropped, steps))
        if not found:
            return parts, 0
        _, time, dropped, steps = min(found)
        coarser.dropped[time] = dropped
        return replace(parts, count=parts.count - dropped, total=parts.total - dropped * parts.known[time]), steps

    def find_below_unknown(self, span: Span, above: RrdArchive, coarser: Coarser, excess: int, later: Stretches) -> bool:
        """Finds unknown steps of known rows, or known steps of unknown rows, in an unknown coarser row.

        There are at least `excess` unknown steps. The row of the next coarser archive gives their number; the method looks
        only at the last unknown row below that row.
        """
        top = span.above_twice
        if top is None:
            return False
        end = coarser.end - 1 - (coarser.end - 1) % top.seconds + top.seconds
        mean = self.exact(top, end) if end <= top.end else math.nan
        if math.isnan(mean) or end - top.seconds < span.begin:
            return False
        times = range(end - top.seconds + above.seconds, end + 1, above.seconds)
        parts = self.parts_below(span, above, times, coarser.end, later)
        if parts is None:
            return False
        if parts.count and is_mean(mean, parts.total / parts.count, parts.size):
            return False
        if self.find_dropped(span, coarser, parts, mean):
            if sum(coarser.dropped.values()) >= excess:
                return True
            coarser.dropped.clear()
        row = self.row(span.companions(top), end)
        for steps in range(min(-excess, span.most_hidden, parts.unknown * span.most_hidden), 0, -1):
            hidden_mean = (mean * (parts.count + steps) - parts.total) / steps
            if row.may_have(hidden_mean, parts.count + steps):
                coarser.hidden, coarser.hidden_mean = steps, hidden_mean
                coarser.lower, coarser.upper = row.minimum, row.maximum
                return True
        return False

    def parts_below(self, span: Span, above: RrdArchive, times: range, last: int, later: Stretches) -> Parts | None:
        """Returns the coarser rows that end at `times`, and the rows of which the coarser row that ends at `last` consists.

        Returns None if an unknown row follows, or if unknown steps of a known row explain the difference.
        """
        parts = Parts()
        for time in times:
            own = self.exact(above, time)
            below = self.parts_of(span, above, time, later) if time - above.seconds < span.end else None
            if math.isnan(own):
                if time > last or below is None:
                    return None
                parts.add_rest(below.count, below.total)
                if time == last:
                    parts.known, parts.unknown = below.known, below.unknown
            elif below is None or below.count == above.steps and is_mean(own, below.total / below.count, below.size):
                parts.add_rest(above.steps, own * above.steps)
            else:
                return None
        return parts

    def known_steps(self, span: Span, end: int, mean: float, later: Stretches) -> int:
        """Returns the number of known steps of the coarser row that ends at `end`, by the row above it.

        Returns 0 if the row above does not show the number. All steps of another row count as known, unless the rows of which
        it consists show how many are.
        """
        above, top = span.above, span.above_twice
        if above is None or top is None:
            return 0
        top_end = end - 1 - (end - 1) % top.seconds + top.seconds
        wanted = self.exact(top, top_end) if top_end <= top.end else math.nan
        if math.isnan(wanted) or wanted == mean:
            return 0
        times = range(top_end - top.seconds + above.seconds, top_end + 1, above.seconds)
        others = [self.known_of(span, above, time, later) for time in times if time != end]
        count = sum((own - wanted) * steps for own, steps in others if steps > 0) / (wanted - mean)
        return round(count) if 0 < count <= above.steps and abs(count - round(count)) < 0.01 else 0

    def known_of(self, span: Span, above: RrdArchive, time: int, later: Stretches) -> tuple[float, int]:
        """Returns the mean of the known steps of a coarser row, and how many these are."""
        mean = self.exact(above, time)
        if above.seconds > time - span.begin or time - above.seconds >= span.end:
            return mean, 0 if math.isnan(mean) else above.steps
        parts, coarser = self.parts_of(span, above, time, later), Coarser(time)
        if math.isnan(mean):
            return (parts.total / parts.count if parts.count else mean), parts.count
        if parts.count and is_mean(mean, parts.total / parts.count, parts.size):
            return mean, parts.count
        if self.find_dropped(span, coarser, parts, mean):
            return mean, parts.count - sum(coarser.dropped.values())
        return mean, above.steps


def unfinished_step(source: RrdSource, whole: int, last: int, converter: Converter) -> Stretches:
    """Returns the rates of the unfinished step: first the unknown seconds, then the mean of the known seconds."""
    if last == whole:
        return []
    known = last - whole - source.unknown_seconds
    rates: Stretches = [(whole + source.unknown_seconds, None)] if 0 < source.unknown_seconds < last - whole else []
    return rates + [(last, converter.amount(source.partial_sum / known) if known > 0 else None)]
