# SPDX-License-Identifier: MIT OR Apache-2.0
"""Lays steps so that they show the cells of a row."""
from __future__ import annotations

import math
from dataclasses import dataclass, replace
from typing import List, Optional, Tuple

from ..amounts import MILLION

# Rates of one data source: the end of each stretch of time, and the rate up to this end in millionths; None is unknown.
Stretches = List[Tuple[int, Optional[int]]]


@dataclass
class Row:
    """The cells of one source in the rows that end at one time: in millionths, and the average unrounded."""

    has_average: bool = False
    average: float = math.nan
    minimum: int | None = None
    maximum: int | None = None
    latest: int | None = None

    @property
    def is_known(self) -> bool:
        return not math.isnan(self.average)

    def size(self) -> float:
        """Returns the largest number in the row, in units."""
        cells = [abs(cell) / MILLION for cell in (self.minimum, self.maximum, self.latest) if cell is not None]
        return max([abs(self.average), *cells])

    def may_have(self, mean: float, steps: int) -> bool:
        """Checks whether some of the row's known steps may have this mean, by the minimum and the maximum."""
        slack = 1e-6 + self.size() * steps * 1e-10
        return ((self.minimum is None or mean >= self.minimum / MILLION - slack)
                and (self.maximum is None or mean <= self.maximum / MILLION + slack))

    def slack(self, steps: int) -> float:
        """Returns by how much the sum of `steps` steps may differ from the row's sum, in millionths.

        RRDtool prints eleven digits of each number, and the conversion rounds each number to a millionth.
        """
        return steps * (2 + self.size() * MILLION * 1e-9)


@dataclass
class Rest:
    """The sum, minimum and maximum of the rates after a span, within a row that the span's end cuts."""

    known: int = 0
    total: int = 0
    minimum: int | None = None
    maximum: int | None = None


def sum_of_rest(later: Stretches, begin: int, end: int, step: int) -> Rest:
    """Adds up the rates from `begin`, where `later` begins, to `end`."""
    rest = Rest()
    for until, rate in later:
        until = min(until, end)
        steps = (until - begin) // step
        if rate is not None and steps > 0:
            rest.known += steps
            rest.total += steps * rate
            rest.minimum = rate if rest.minimum is None else min(rest.minimum, rate)
            rest.maximum = rate if rest.maximum is None else max(rest.maximum, rate)
        begin = until
        if begin >= end:
            break
    return rest


@dataclass
class Wanted:
    """The numbers that some steps must have: their sum in millionths, and each other number that is not None."""

    total: float
    slack: float
    minimum: int | None
    maximum: int | None
    latest: int | None
    lower: int | None  # no step is below
    upper: int | None  # no step is above

    def drop(self, *names: str) -> Wanted:
        return replace(self, **{name: None for name in names})

    def distinct(self) -> tuple[int | None, int | None, int | None]:
        """Returns the minimum, maximum and last rate, without equal ones."""
        minimum, maximum = self.minimum, self.maximum
        if maximum in (self.latest, minimum):
            maximum = None
        if minimum == self.latest:
            minimum = None
        return minimum, maximum, self.latest

    def rate_between(self, steps: int) -> int | None:
        """Returns the rate of the other steps, if some of `steps` steps have these numbers; None if they do not fit the sum."""
        shown = [cell for cell in self.distinct() if cell is not None]
        left, rest = steps - len(shown), self.total - sum(shown)
        if left < 0:
            return None
        if left == 0:
            return 0 if abs(rest) <= self.slack else None
        rate = round(rest / left)
        if self.lower is not None:
            rate = max(rate, self.lower)
        if self.upper is not None:
            rate = min(rate, self.upper)
        return rate if abs(left * rate - rest) <= self.slack else None


# If the numbers do not fit together, as many of them are kept as fit, and always the sum.
LEFT_OUT = ((), ("latest",), ("minimum", "latest"), ("maximum", "latest"))


def lay(rates: Stretches, begin: int, end: int, step: int, wanted: Wanted) -> None:
    """Lays the steps from `begin` to `end` so that they have the wanted numbers.

    The first step is the minimum, the second step the maximum, the final step the last rate, and the steps between have
    one rate that makes the sum right.
    """
    steps = (end - begin) // step
    for names in LEFT_OUT:
        trial = wanted.drop(*names)
        rate = trial.rate_between(steps)
        if rate is not None:
            minimum, maximum, latest = trial.distinct()
            break
    else:
        minimum = maximum = latest = None
        rate = round(wanted.total / steps)
    for cell in (minimum, maximum):
        if cell is not None:
            begin += step
            rates.append((begin, cell))
    until = end if latest is None else end - step
    if until > begin:
        rates.append((until, rate))
    if latest is not None:
        rates.append((end, latest))
