# SPDX-License-Identifier: MIT OR Apache-2.0
"""The table below a plot: each source with its last, least, mean and greatest value, as far as the picture has room."""
from __future__ import annotations

from typing import Iterator, List, NamedTuple, Sequence, Tuple

from .columns import Curve
from .look import EDGE, LETTER, ROW_HEIGHT
from .numbers import number_text

HEADS = ("last", "min", "mean", "max")
# Which columns of numbers stay where there is room for fewer.
KEPT: Tuple[Tuple[int, ...], ...] = ((), (0,), (0, 3), (0, 1, 3), (0, 1, 2, 3))
SWATCH, AFTER_SWATCH = 10, 8  # points: the square before a name, and the room after it
LEAST_COLUMN, BETWEEN, APART = 56, 20, 40  # points: a column of numbers, the room between two, and between two tables
LINES = 8  # a longer legend has two tables or more, side by side, if the picture is wide enough


class Place(NamedTuple):
    """The place of a source: how far from the left its table begins, and its line, counted from 1 below the head."""

    left: int
    line: int


class Legend(NamedTuple):
    """The texts of the legend, and the points that they take."""

    names: List[str]
    heads: List[str]
    numbers: List[List[str]]  # for each source those below the heads
    name_width: int
    column: int
    tables: int

    @property
    def lines(self) -> int:
        """The lines of each table without its head."""
        return -(-len(self.names) // self.tables)

    @property
    def table_width(self) -> int:
        return self.name_width + len(self.heads) * self.column

    @property
    def height(self) -> int:
        return (1 + self.lines) * ROW_HEIGHT

    def places(self) -> Iterator[Place]:
        """Yields the place of each source."""
        for at in range(len(self.names)):
            table, line = divmod(at, self.lines)
            yield Place(EDGE + table * (self.table_width + APART), line + 1)


def longest(texts: Sequence[str]) -> int:
    return max(map(len, texts))


def legend_of(width: int, series: List[Curve], unit: str) -> Legend:
    """Returns the legend of sources for a picture of this width."""
    names, room = [one.name for one in series], width - 2 * EDGE
    all_numbers = [[number_text(value, unit) for value in (one.last, one.least, one.mean, one.greatest)] for one in series]
    name_width = SWATCH + AFTER_SWATCH + int(LETTER * longest(names))
    column = max(LEAST_COLUMN, int(LETTER * longest([text for texts in all_numbers for text in texts])) + BETWEEN)
    kept = KEPT[min(max((room - name_width) // column, 0), len(HEADS))]
    table = name_width + len(kept) * column
    tables = max(min(-(-len(names) // LINES), (room + APART) // (table + APART)), 1)
    numbers = [[texts[at] for at in kept] for texts in all_numbers]
    return Legend(names, [HEADS[at] for at in kept], numbers, name_width, column, tables)
