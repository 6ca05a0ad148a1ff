# SPDX-License-Identifier: MIT OR Apache-2.0
"""Reads rows as `rrdtool fetch` chooses them."""

# Without `annotations` of __future__: a named tuple whose types are texts makes a tool start a tenth slower.
import math
from typing import Dict, List, NamedTuple, Optional

from ..limits import FUNCTIONS
from ..printed import Settings, printed_rows
from . import program
from .command_line import Failure

NO_ARCHIVE = "the RRD does not contain an RRA matching the chosen CF"


class Rows(NamedTuple):
    """Rows of one archive. The first row ends at `start` + `step`, the last one at `end`; None is an unknown cell."""

    start: int
    end: int
    step: int
    names: List[str]
    cells: List[List[Optional[float]]]


def choose(settings: Settings, function: str, start: int, resolution: int) -> int:
    """Returns the number of the archive that RRDtool reads.

    RRDtool reads an archive with one step per row for any function. Of the archives that reach back to `start`, RRDtool
    reads the archive with the nearest resolution; if no archive does, the archive that reaches back farthest; of equals,
    the archive with the lowest number.

    # Errors
    `Failure` if no archive has the function.
    """
    full: Optional[int] = None
    part: Optional[int] = None
    for number, archive in enumerate(settings.archives):
        if archive.function != function and not (archive.steps == 1 and function in FUNCTIONS):
            continue
        apart = abs(resolution - settings.resolution(number))
        if settings.start(number) <= start:
            if full is None or apart < abs(resolution - settings.resolution(full)):
                full = number
        elif part is None or (settings.start(number), apart) < (
                settings.start(part), abs(resolution - settings.resolution(part))):
            part = number
    if full is None and part is None:
        raise Failure(NO_ARCHIVE)
    return full if full is not None else part or 0


def rows_of(file: str, settings: Settings, number: int, start: int, end: int) -> Rows:
    """Returns rows of one archive.

    The rows are those from the first row that ends after `start` to the first row that ends after `end`. Both times are
    seconds since 1970. Rows that the archive does not have are unknown.
    """
    step = settings.resolution(number)
    start -= start % step
    end += step - end % step
    names = [source.name for source in settings.sources]
    unknown: List[Optional[float]] = [None] * len(names)
    oldest, newest = max(settings.start(number), 0), settings.end(number)
    first, last = max(start, oldest), min(end, newest)
    found: Dict[int, List[str]] = {}
    if first < last:
        printed = printed_rows(program.ask(["fetch", file, settings.archives[number].function, "--resolution", str(step),
                                            "--start", str(first), "--end", str(last - 1)]))
        found = dict(zip(printed.times, printed.words))
    cells = [[as_float(cell) for cell in found[time]] if time in found else list(unknown)
             for time in range(start + step, end + 1, step)]
    return Rows(start, end, step, names, cells)


def as_float(text: str) -> Optional[float]:
    value = float(text)
    return None if math.isnan(value) else value


def fetch(file: str, function: str, start: int, end: int, resolution: int) -> Rows:
    """Returns the rows that `rrdtool fetch` prints.

    # Errors
    - `program.CommandFailed` if the file is not a database.
    - `Failure` if no archive has the function, or if `start` is after `end`.
    """
    if start > end:
        raise Failure(f"start ({start}) should be less than end ({end})")
    settings = program.settings(file)
    return rows_of(file, settings, choose(settings, function, start, resolution), start, end)
