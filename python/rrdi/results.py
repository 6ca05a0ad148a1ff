# SPDX-License-Identifier: MIT OR Apache-2.0
"""Converts the output of commands to Python values."""
from __future__ import annotations

import datetime
import math
from decimal import Decimal
from typing import (TYPE_CHECKING, Callable, Dict, Generic, Iterator, List, NamedTuple, Optional, Tuple, Type, TypeVar,
                    Union)

from .printed import PrintedRows, printed_rows, settings_of

if TYPE_CHECKING:
    from .described import Info

Value = TypeVar("Value", float, Decimal)
Row = Tuple[Optional[Value], ...]
AnyNumber = Union[float, Decimal]
UNKNOWN = frozenset({"nan", "U"})

if TYPE_CHECKING:
    class NamedRow(NamedTuple, Generic[Value]):
        """A row with its time, at which it ends, and its values by the names of the sources."""

        time: int
        values: Dict[str, Optional[Value]]

    class LastUpdate(NamedTuple, Generic[Value]):
        """The time of the last sample, and the last raw value of each source."""

        date: datetime.datetime
        values: Dict[str, Optional[Value]]
else:  # a named tuple that is generic needs Python 3.11
    class NamedRow(NamedTuple):
        """A row with its time, at which it ends, and its values by the names of the sources."""

        time: int
        values: dict

    class LastUpdate(NamedTuple):
        """The time of the last sample, and the last raw value of each source."""

        date: datetime.datetime
        values: dict


class Table(Tuple[Tuple[int, int, int], Tuple[str, ...], List[Tuple[Optional[Value], ...]]], Generic[Value]):
    """Rows of one archive: a tuple `((start, end, step), names, rows)`, as Python's module `rrdtool` has it.

    Times are in seconds since 1970. Each row is a tuple with a value for each of the names; an unknown one is None.
    """

    __slots__ = ()

    if TYPE_CHECKING:
        def __init__(self, span: Tuple[int, int, int], names: Tuple[str, ...], rows: List[Row[Value]]): ...
    else:
        def __new__(cls, span, names, rows):
            return super().__new__(cls, (span, names, rows))

    def __getnewargs__(self) -> Tuple[Tuple[int, int, int], Tuple[str, ...], List[Row[Value]]]:
        return self[0], self[1], self[2]

    def __repr__(self) -> str:
        return f"Table(start={self.start}, end={self.end}, step={self.step}, names={self.names}, rows={self.rows})"

    @property
    def start(self) -> int:
        """The time at which the first row begins."""
        return self[0][0]

    @property
    def end(self) -> int:
        """The time at which the last row ends."""
        return self[0][1]

    @property
    def step(self) -> int:
        """The seconds of a row."""
        return self[0][2]

    @property
    def names(self) -> Tuple[str, ...]:
        """The names of the sources."""
        return self[1]

    @property
    def rows(self) -> List[Row[Value]]:
        """The values of each row, the oldest first."""
        return self[2]

    @property
    def times(self) -> range:
        """The times at which the rows end."""
        return range(self.start + self.step, self.end + 1, self.step)

    def records(self) -> Iterator[NamedRow[Value]]:
        """Yields each row with its time, and its values by name."""
        names = self.names
        for time, row in zip(self.times, self.rows):
            yield NamedRow(time, dict(zip(names, row)))

    def columns(self) -> Dict[str, List[float]]:
        """Returns the values of each source as floats, with nan for unknown ones, as numpy and pandas take them."""
        return {name: [math.nan if row[at] is None else float(row[at]) for row in self.rows]  # type: ignore[arg-type]
                for at, name in enumerate(self.names)}


_CONVERSIONS: Dict[type, Callable[[str], AnyNumber]] = {float: float, Decimal: Decimal}


def conversion(values: Type[Value]) -> Callable[[str], Value]:
    """Returns the function that converts a printed number to a value.

    # Errors
    `TypeError` if `values` is neither float nor Decimal.
    """
    found = _CONVERSIONS.get(values)
    if found is None:
        raise TypeError(f"values must be float or Decimal, not {values!r}")
    return found  # type: ignore[return-value]


def table(rows: PrintedRows, step: int, values: Type[Value]) -> Table[Value]:
    """Returns the span and the step of rows, the names, and the cells; an unknown cell is None."""
    convert = conversion(values)
    cells = [tuple([None if word in UNKNOWN else convert(word) for word in words]) for words in rows.words]
    return Table((rows.times[0] - step, rows.times[-1], step), rows.names, cells)


def last_update(text: str, values: Type[Value], tz: Optional[datetime.tzinfo] = None) -> LastUpdate[Value]:
    """Returns the time of the last sample, and the last raw value of each source.

    The time is in the zone `tz`. For None it is a local time without a zone.
    """
    convert, rows = conversion(values), printed_rows(text)
    last = {name: None if word in UNKNOWN else convert(word) for name, word in zip(rows.names, rows.words[0])}
    return LastUpdate(datetime.datetime.fromtimestamp(rows.times[0], tz), last)


def info_of(text: str, filename: str, values: Type[Value]) -> Info[Value]:
    """Returns the settings from the output of `info`. `values` is the type of the bounds, the last values and xff."""
    from .described import described  # here, since few programs ask for the settings
    return described(settings_of(text), filename, conversion(values))
