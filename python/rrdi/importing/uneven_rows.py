# SPDX-License-Identifier: MIT OR Apache-2.0
"""Lays the steps of rows where no coarser row consists of whole ones, as of 70 seconds below 500: the next coarser averages
tell how a row is cut in two, and how many steps of unknown rows were known."""
from __future__ import annotations

import math
from dataclasses import replace
from typing import TYPE_CHECKING, NamedTuple, Optional, Tuple

from ..amounts import MILLION
from .dump import RrdArchive
from .steps import Stretches, Wanted, lay

if TYPE_CHECKING:
    from .plan import Span
    from .rates import SourceRates

# Whether the minimum and the maximum of a row come before a cut.
SIDES = ((True, True), (True, False), (False, True), (False, False))


class KnownSteps(NamedTuple):
    """How many steps are known, and their sum in millionths."""

    steps: int
    total: int


def known_since(rates: Stretches, first: int, begin: int, step: int) -> KnownSteps:
    """Adds up the newest rates from `begin` on; the oldest of them begins at `first`."""
    steps = total = 0
    for at in range(len(rates) - 1, -1, -1):
        end, rate = rates[at]
        start = max(rates[at - 1][0] if at else first, begin)
        if rate is not None and end > start:
            steps += (end - start) // step
            total += (end - start) // step * rate
        if start == begin:
            break
    return KnownSteps(steps, total)


class Overlapping:
    """The next coarser averages above a span, of one source."""

    def __init__(self, source: SourceRates, span: Span, over: RrdArchive):
        self.source, self.span, self.over, self.step = source, span, over, source.step
        self.beside = span.companions(over)

    def average(self, time: int) -> float:
        """Returns the average of the finished row that ends at `time`; nan if it is unknown."""
        return self.source.exact(self.over, time) if time <= self.over.end else math.nan

    def cut(self, rates: Stretches, begin: int, end: int, wanted: Wanted) -> bool:
        """Lays a known row that a coarser row's end cuts, so that the coarser row is right too. Returns False if no row ends
        there, or none can be right."""
        seconds = self.over.seconds
        at = (end - 1) // seconds * seconds
        average = self.average(at)
        if at <= begin or at - seconds < self.span.begin or math.isnan(average):
            return False
        before, steps = known_since(rates, self.span.begin, at - seconds, self.step), (at - begin) // self.step
        total = average * MILLION * (before.steps + steps) - before.total
        for low, high in sorted(SIDES, key=lambda sides: self.wrong(wanted, sides, at)):
            first = replace(wanted, total=total, slack=wanted.slack + 2 * self.over.steps, latest=None,
                            minimum=wanted.minimum if low else None, maximum=wanted.maximum if high else None)
            rate = first.rate_between(steps)
            if rate is None:
                continue
            pins = [cell for cell in first.distinct() if cell is not None]
            rest = replace(wanted, total=wanted.total - sum(pins) - rate * (steps - len(pins)),
                           minimum=None if low else wanted.minimum, maximum=None if high else wanted.maximum)
            if rest.rate_between((end - at) // self.step) is not None:
                lay(rates, begin, at, self.step, first)
                lay(rates, at, end, self.step, rest)
                return True
        return False

    def wrong(self, wanted: Wanted, sides: Tuple[bool, bool], at: int) -> int:
        """Returns how many of the minimum and the maximum are beyond those of the coarser rows, on these sides."""
        found = 0
        for name, amount, is_before in (("MIN", wanted.minimum, sides[0]), ("MAX", wanted.maximum, sides[1])):
            cell = self.source.cell(self.beside.get(name), at if is_before else at + self.over.seconds)
            if cell is not None and amount is not None:
                found += amount < cell - 1 if name == "MIN" else amount > cell + 1
        return found

    def lay_unknown(self, rates: Stretches, begin: int, end: int) -> None:
        """Lays an unknown row: as many known steps as it can have, where a coarser row would be unknown without them."""
        at = end - self.span.most_hidden * self.step
        if at > begin:
            rates.append((at, None))
        while at < end:
            time = at - at % self.over.seconds + self.over.seconds
            rates.append((min(time, end), self.hidden(time)))
            at = min(time, end)

    def hidden(self, time: int) -> Optional[int]:
        """Returns the rate of the known steps of unknown rows, if the coarser row that ends at `time` needs some."""
        if math.isnan(self.average(time)):
            return None
        begin, seconds, unknown = time - self.over.seconds, self.span.archive.seconds, 0
        for row in range(begin - begin % seconds, time, seconds):
            if math.isnan(self.source.exact(self.span.beside.get("AVERAGE"), row + seconds)):
                unknown += (min(row + seconds, time) - max(row, begin)) // self.step
        return self.source.cell(self.over, time) if unknown > self.over.allowed_unknown() else None
