# SPDX-License-Identifier: MIT OR Apache-2.0
"""Fetches rows together with the step between them. `fetch` shows this step only if it prints two rows or more."""
from __future__ import annotations

from typing import Callable, List, NamedTuple, Optional, Tuple, Type, Union

from .errors import OperationalError
from .extension import the_extension
from .limits import FUNCTIONS
from .printed import PrintedRows, printed_rows
from .results import Table, Value, table
from .times import Span, Time, span_word, time_word
from .words import Words

DAY = 86_400
# If the settings of a database change between two queries, the queries are repeated.
TRIES = 10


class Asked(NamedTuple):
    """What a call asks for: a function, and the options that it has."""

    function: Words
    resolution: Union[Span, str, None]
    start: Union[Time, str, None]
    end: Union[Time, str, None]

    def numbers(self, now: int) -> Optional[Tuple[int, int, int, int]]:
        """Returns the place of the function in `FUNCTIONS`, the resolution, the start and the end, as the command takes
        them. Returns None if one of them is a text, or no whole number from 0 on below 2^63."""
        resolution, end = span_word(self.resolution), time_word(self.end)
        found = [1 if resolution is None else resolution, time_word(self.start), now if end is None else end]
        if found[1] is None and isinstance(found[2], int):
            found[1] = max(found[2] - DAY, 0)
        whole = [number for number in found if isinstance(number, int) and 0 <= number < 2**63]
        if self.function not in FUNCTIONS or len(whole) < len(found):
            return None
        return FUNCTIONS.index(str(self.function)), whole[0], whole[1], whole[2]


def take_option(words: List[str], letter: str, name: str) -> Tuple[Optional[str], List[str]]:
    """Returns the value of an option, or None without the option, and the other words."""
    for at, word in enumerate(words):
        if word == "--":
            break
        if word in (letter, name) and at + 1 < len(words):
            return words[at + 1], words[:at] + words[at + 2:]
        if word.startswith(f"{name}="):
            return word[len(name) + 1:], words[:at] + words[at + 1:]
        if word.startswith(letter) and len(word) > len(letter):
            value = word[len(letter):]
            return value[1:] if value.startswith("=") else value, words[:at] + words[at + 1:]
    return None, words


def with_next_row(asked: List[str], row: int, now: int) -> List[str]:
    """Returns the words that fetch from the same archive and the same start, up to the row after `row`."""
    end, words = take_option(asked, "-e", "--end")
    start, words = take_option(words, "-s", "--start")
    if start is None:
        start = str(max((now if end is None else int(end)) - DAY, 0))
    return [f"--start={start}", f"--end={row}", *words]


def fetched(run: Callable[[List[str]], str], asked: List[str], now: int, values: Type[Value]) -> Table[Value]:
    """Runs `fetch` with the words `asked`, and returns the rows with their span and their step."""
    text = run(["fetch", *asked])
    found = in_floats(text) if values is float else None
    if found is not None:
        return found  # type: ignore[return-value]
    rows, step = with_step(run, asked, now, text)
    return table(rows, step, values)


def in_floats(printed: str) -> Optional[Table[float]]:
    """Returns two rows or more of what `fetch` has printed, by the extension. Returns None without it."""
    extension = the_extension()
    found = None if extension is None else extension.table(printed)
    if found is None:
        return None
    names, first, step, rows = found
    return Table((first - step, first + step * (len(rows) - 1), step), names, rows)


def with_step(run: Callable[[List[str]], str], asked: List[str], now: int, printed: str) -> Tuple[PrintedRows, int]:
    """Returns the rows that `fetch` has printed, and the seconds from one row to the next. Runs it again if need be."""
    for tried in range(TRIES):
        rows = printed_rows(run(["fetch", *asked]) if tried else printed)
        if len(rows.times) > 1:
            return rows, rows.times[1] - rows.times[0]
        longer = printed_rows(run(["fetch", *with_next_row(asked, rows.times[0], now)]))
        if longer.times[0] == rows.times[0] and len(longer.times) == 2:
            return PrintedRows(longer.names, longer.times[:1], longer.words[:1]), longer.times[1] - longer.times[0]
    raise OperationalError("the archives changed while they were read")
