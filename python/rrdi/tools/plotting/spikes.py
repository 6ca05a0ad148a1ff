# SPDX-License-Identifier: MIT OR Apache-2.0
"""The range of an axis: all values, or all but the spikes, within the limits that were asked."""
from __future__ import annotations

from typing import List, NamedTuple, Tuple

from .asked import Bounds
from .columns import Column, Curve, Columns, known

RARE, RARE_IN_BAND = 50, 4  # one row of so many may be a spike, by its line or by its band
ROUNDING = 2e-9  # of an axis: its ends are at round values in floating point
FAR = 2  # a spike is beyond the other values by more than so many times their range

FLAT = 20  # a source whose values are below one of so many parts of another one's is flat beside it

Range = Tuple[float, float]


def all_but(cells: Column, part: int) -> Column:
    """Returns the cells in their order, without one of `part` at each end."""
    cells = sorted(known(cells))
    left_out = len(cells) // part
    return cells[left_out:len(cells) - left_out]


def usual_size(curve: Curve) -> float:
    """Returns the greatest absolute value of a source that is usual; 0 if none is known."""
    return max((abs(cell) for cell in all_but(curve.values, RARE)), default=0.0)


def alike(series: List[Curve]) -> List[List[Curve]]:
    """Returns the sources that can have one axis together, because none is flat beside another one. A source that is 0 or
    unknown goes with the one before it, or else with the first one that is neither."""
    sizes = [usual_size(one) for one in series]
    last = next(filter(None, sizes), 0.0)
    for number, size in enumerate(sizes):
        last = sizes[number] = size or last
    groups: List[List[int]] = []
    for number in sorted(range(len(series)), key=lambda number: -sizes[number]):
        if not groups or sizes[number] * FLAT < sizes[groups[-1][0]]:
            groups.append([])
        groups[-1].append(number)
    return [[series[number] for number in group] for group in sorted(sorted(group) for group in groups)]


def range_without_spikes(curve: Curve, has_band: bool, has_zero: bool) -> Range:
    """Returns the least and the greatest value of a source that are no spikes.

    Nearly all rows tell what is usual: 49 of 50 by their lines, and three of four by their bands. A spike is farther away
    from this range than twice its size. If all usual values are equal, there are no spikes.
    """
    usual = [*all_but(curve.values, RARE), *([0.0] if has_zero else [])]
    lows, highs = (curve.lows, curve.highs) if has_band else (curve.values, curve.values)
    if has_band:
        usual += [*all_but(lows, RARE_IN_BAND), *all_but(highs, RARE_IN_BAND)]
    low, high = min(usual), max(usual)
    room = FAR * (high - low)
    if room == 0:
        return min(known(lows)), max(known(highs))
    return (min([low, *(cell for cell in known(lows) if cell >= low - room)]),
            max([high, *(cell for cell in known(highs) if cell <= high + room)]))


def range_of(series: List[Curve], has_band: bool, has_zero: bool, bounds: Bounds) -> Range:
    """Returns the range of an axis, which has 0 unless a limit says otherwise."""
    ranges = [range_without_spikes(one, has_band, has_zero) if bounds.cuts_spikes
              else (min(known(one.lows if has_band else one.values)), max(known(one.highs if has_band else one.values)))
              for one in series if known(one.values)]
    low, high = min(low for low, _ in ranges), max(high for _, high in ranges)
    if has_zero:
        low = low if bounds.least is not None else min(low, 0.0)
        high = high if bounds.greatest is not None else max(high, 0.0)
    return within(low, high, bounds)


def within(low: float, high: float, bounds: Bounds) -> Range:
    """Returns a range that reaches to the limits, and no farther if they are rigid."""
    if bounds.least is not None:
        low = bounds.least if bounds.is_rigid else min(low, bounds.least)
    if bounds.greatest is not None:
        high = bounds.greatest if bounds.is_rigid else max(high, bounds.greatest)
    if low < high:
        return low, high
    # All values are beyond a rigid limit, or equal.
    size = abs(low) / 10 or 1.0
    return (high - size, high) if bounds.greatest is not None and bounds.is_rigid else (low, low + size)


def cut(column: Column, low: float, high: float) -> Column:
    """Returns cells of which none is beyond the ends of an axis; unknown ones stay unknown."""
    return [low if cell < low else high if cell > high else cell for cell in column]


def cut_curve(curve: Curve, low: float, high: float) -> Curve:
    return curve._replace(values=cut(curve.values, low, high), bottoms=cut(curve.bottoms, low, high),
                          lows=cut(curve.lows, low, high), highs=cut(curve.highs, low, high))


class CutMark(NamedTuple):
    """A place where a source goes beyond the axis: rows that follow each other have one."""

    number: int  # of the source
    time: float
    is_above: bool


def runs(times: List[int], seconds: int) -> List[Tuple[int, int]]:
    """Returns the first and the last time of each run of rows that follow each other."""
    found: List[Tuple[int, int]] = []
    for time in times:
        if found and found[-1][1] == time - seconds:
            found[-1] = (found[-1][0], time)
        else:
            found.append((time, time))
    return found


def cut_marks(rows: Columns, series: List[Curve], has_band: bool, low: float, high: float) -> List[CutMark]:
    """Returns the places where the sources go beyond the ends of an axis. Where its ends are round values, a value may be
    beyond them by less than anyone sees."""
    marks: List[CutMark] = []
    room = (high - low) * ROUNDING
    for number, one in enumerate(series):
        lows, highs = (one.lows, one.highs) if has_band else (one.values, one.values)
        above = [time for time, cell in zip(rows.times, highs) if cell > high + room]
        below = [time for time, cell in zip(rows.times, lows) if cell < low - room]
        for is_above, times in ((True, above), (False, below)):
            marks += [CutMark(number, (first + last - rows.seconds) / 2, is_above) for first, last in runs(times, rows.seconds)]
    return marks
