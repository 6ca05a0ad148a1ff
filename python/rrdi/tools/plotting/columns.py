# SPDX-License-Identifier: MIT OR Apache-2.0
"""The rows of a picture, as columns of numbers, and what the legend says of them."""
from __future__ import annotations

import math
from typing import Callable, Dict, Iterator, List, NamedTuple, Optional, Tuple

from ..command_line import Failure
from ..spans import DAY

NOTHING = "nothing to draw: no known value, or fewer than two rows"
Column = List[float]


class NothingToDraw(Failure):
    """A picture would have no known value, or fewer than two rows."""

    def __init__(self) -> None:
        super().__init__(NOTHING)


class Columns(NamedTuple):
    """Rows that follow each other without gaps: the names of the sources, the seconds of a row, the times at which rows end,
    and a column for each source; nan is unknown."""

    names: List[str]
    seconds: int
    times: List[int]
    columns: List[Column]

    @property
    def begin(self) -> int:
        return self.times[0] - self.seconds

    @property
    def end(self) -> int:
        return self.times[-1]


def columns_of(names: List[str], printed: Dict[int, List[str]]) -> Columns:
    """Returns the rows that `rrdi fetch` printed.

    # Errors
    `NothingToDraw` if there are fewer than two rows, or no cell is known.
    """
    times = list(printed)
    columns = [[float(cells[at]) for cells in printed.values()] for at in range(len(names))]
    if len(times) < 2 or all(math.isnan(cell) for column in columns for cell in column):
        raise NothingToDraw
    return Columns(names, times[1] - times[0], times, columns)


def since_known(rows: Columns) -> Columns:
    """Returns the rows from the first one on that has a known cell, but at least the last two."""
    first = min(next(at for at, cell in enumerate([*column, 0.0]) if not math.isnan(cell)) for column in rows.columns)
    first = min(first, len(rows.times) - 2)
    return rows._replace(times=rows.times[first:], columns=[column[first:] for column in rows.columns])


SUMMARIES: Dict[str, Callable[[Column], float]] = {
    "AVERAGE": lambda cells: math.fsum(cells) / len(cells), "MIN": min, "MAX": max, "LAST": lambda cells: cells[-1]}


def group_size(rows: Columns, most: int) -> int:
    """Returns how many rows become one, so that at most so many are left. If a number up to four times the least one does it, a
    row covers a part of a day, or days."""
    least = -(-len(rows.times) // most)
    return next((size for size in range(least, 4 * least + 1)
                 if DAY % (rows.seconds * size) == 0 or rows.seconds * size % DAY == 0), least)


def grouped(rows: Columns, size: int, function: str) -> Columns:
    """Returns rows that cover so many of these: the known cells of each, summarized by a function. The new rows end at
    multiples of their seconds."""
    seconds = rows.seconds * size
    places: Dict[int, List[int]] = {}
    for at, time in enumerate(rows.times):
        places.setdefault(-(-time // seconds) * seconds, []).append(at)

    def summary(column: Column, group: List[int]) -> float:
        cells = known([column[at] for at in group])
        return SUMMARIES[function](cells) if cells else math.nan
    return rows._replace(seconds=seconds, times=list(places),
                         columns=[[summary(column, group) for group in places.values()] for column in rows.columns])


def chosen(rows: Columns, names: List[str]) -> Columns:
    """Returns the rows with the named sources, in that order.

    # Errors
    `Failure` if there is no such source; `NothingToDraw` if none of their cells is known.
    """
    for name in names:
        if name not in rows.names:
            raise Failure(f"there is no source {name}, only {', '.join(rows.names)}")
    columns = [rows.columns[rows.names.index(name)] for name in names]
    if all(math.isnan(cell) for column in columns for cell in column):
        raise NothingToDraw
    return rows._replace(names=names, columns=columns)


class Curve(NamedTuple):
    """What is drawn of a source: for each row its value, the bottom of its area, and the least and greatest value."""

    name: str
    values: Column  # as drawn: in a stack with those below
    bottoms: Column
    lows: Column
    highs: Column
    last: float
    least: float
    mean: float
    greatest: float


def known(column: Column) -> Column:
    return [cell for cell in column if not math.isnan(cell)]


def filled(band: Column, values: Column) -> Column:
    """Returns an end of a band, with the values where it is unknown."""
    return [value if math.isnan(end) else end for end, value in zip(band, values)]


def series_of(rows: Columns, low: Optional[Columns], high: Optional[Columns], is_stack: bool) -> List[Curve]:
    """Returns what is drawn. `low` and `high` are rows of the same times with minimums and maximums. In a stack, a source
    whose value is unknown adds nothing."""
    found, below = [], [0.0] * len(rows.times)
    for at, (name, column) in enumerate(zip(rows.names, rows.columns)):
        lows = filled(low.columns[at], column) if low else column
        highs = filled(high.columns[at], column) if high else column
        cells = known(column) or [math.nan]
        values = [cell + under for cell, under in zip(column, below)] if is_stack else column
        found.append(Curve(name, values, list(below), lows, highs, cells[-1], min(known(lows) or cells),
                            math.fsum(cells) / len(cells), max(known(highs) or cells)))
        if is_stack:
            below = [under if math.isnan(cell) else cell + under for cell, under in zip(column, below)]
    return found


def segments(rows: Columns, series: Curve) -> Iterator[List[Tuple[int, float, float, float, float]]]:
    """Yields the stretches of known rows, each as its points: a row begins and ends with one. A point has its time, the
    bottom of the area, the value, and the least and greatest value."""
    stretch: List[Tuple[int, float, float, float, float]] = []
    for time, bottom, value, low, high in zip(rows.times, series.bottoms, series.values, series.lows, series.highs):
        if math.isnan(value):
            if stretch:
                yield stretch
            stretch = []
            continue
        rest = (bottom, value, low, high)
        stretch += [(time - rows.seconds, *rest), (time, *rest)]
    if stretch:
        yield stretch


def limits(all_series: List[Curve], has_band: bool) -> Tuple[float, float]:
    """Returns the least and the greatest value that is drawn."""
    low = [cell for one in all_series for cell in known(one.lows if has_band else one.values)]
    high = [cell for one in all_series for cell in known(one.highs if has_band else one.values)]
    return min(low), max(high)
