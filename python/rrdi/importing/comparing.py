# SPDX-License-Identifier: MIT OR Apache-2.0
"""Compares a new database with the file of RRDtool from which it was made, and says for each archive that differs why."""
from __future__ import annotations

import math
from typing import Callable, Dict, Iterator, List, NamedTuple, Optional, Sequence, Tuple

from ..amounts import MILLION, Millionths
from .dump import RrdArchive
from .plan import Span

# RRDtool prints eleven digits, and rrdi rounds to a millionth.
MOST_APART, SHARE_APART = 0.0000010001, 1e-10
FEW_DIGITS = 1e-7  # of the largest number nearby: what is apart by less has lost digits

NewRows = Dict[int, List[Optional[Millionths]]]


class NewArchive(NamedTuple):
    """What an archive has in the new file: its rows, and of its unfinished row for each source the number of known steps,
    and their sum, minimum, maximum or last one."""

    rows: NewRows
    unfinished: Sequence[Tuple[int, Millionths]]


class DifferingCell(NamedTuple):
    """A cell that is not the same in both files; unknown is nan."""

    time: int
    before: float
    after: float

    @property
    def apart(self) -> float:
        """How far the numbers are apart, or nan if one is unknown."""
        return abs(self.after - self.before)


def agree(before: float, after: float) -> bool:
    """Checks whether two cells are the same, as far as RRDtool prints and rrdi stores them."""
    if math.isnan(before) and math.isnan(after):
        return True
    return abs(after - before) <= MOST_APART + abs(after) * SHARE_APART


def differing_cells(archive: RrdArchive, columns: Sequence[int], rows: NewRows) -> List[DifferingCell]:
    """Returns the cells that differ, the newest last. `columns` has the places of the sources in the old file."""
    found = []
    for time in range(archive.begin + archive.seconds, archive.end + 1, archive.seconds):
        cells = rows.get(time) or [None] * len(columns)
        for column, cell in zip(columns, cells):
            before, after = archive.cell(time, column), math.nan if cell is None else cell / MILLION
            if not agree(before, after):
                found.append(DifferingCell(time, before, after))
    return found


def differing_unfinished(archive: RrdArchive, columns: Sequence[int], whole: int,
                         unfinished: Sequence[Tuple[int, Millionths]]) -> List[DifferingCell]:
    """Returns the cells of the unfinished row that differ, up to `whole`, the end of the last whole step: by how many steps
    are known, which is not shown, or by the average, minimum, maximum or last of these."""
    found, time, step = [], archive.end + archive.seconds, archive.seconds // archive.steps
    is_average = archive.function == "AVERAGE"
    for column, (known, amount) in zip(columns, unfinished):
        known_before = (whole - archive.end) // step - archive.unknown_steps[column]
        if known_before != known:
            found.append(DifferingCell(time, math.nan, math.nan))
        elif known:
            parts = known if is_average else 1
            before, after = archive.partial[column] / parts, amount / MILLION / parts
            if not agree(before, after):
                found.append(DifferingCell(time, before, after))
    return found


def reason(archive: RrdArchive, spans: Sequence[Span], cell: DifferingCell) -> str:
    """Returns why a row may not be the same: by what it was made of."""
    span = next((span for span in spans if span.begin <= cell.time - archive.seconds < span.end), None)
    source, own = (span.archive, span.beside.get(archive.function)) if span else (None, None)
    if cell.time == archive.begin + archive.seconds and math.isnan(cell.after):
        return "the old row may be from before a gap that was longer than the archive"
    if cell.apart <= FEW_DIGITS * max(abs(cell.before), abs(cell.after)):
        return "large numbers that nearly cancel out lose digits"
    if source is None or source.steps == 1:
        return "the row is computed again, by the rules of rrdi"
    if archive.seconds % source.seconds:
        return f"the row has parts of rows of {source.seconds} s"
    if archive.function != "AVERAGE" and (source.seconds != archive.seconds or source.function != archive.function):
        return f"the row comes from rows of {source.function} of {source.seconds} s"
    if own is not None and own.steps == archive.steps and own.share != archive.share:
        return f"archive {own.number} has rows of the same time, with another xff"
    return "how many steps of the rows beside a gap were unknown is a guess"


def differing_archives(archives: Sequence[RrdArchive], spans: Sequence[Span], columns: Sequence[int], whole: int,
                       new_of: Callable[[int], NewArchive]) -> Iterator[str]:
    """Yields a line for each archive that differs. `new_of` returns an archive of the new file, by its place."""
    for place, archive in enumerate(archives):
        new = new_of(place)
        found = differing_cells(archive, columns, new.rows)
        unfinished = differing_unfinished(archive, columns, whole, new.unfinished)
        name = f"archive {archive.number}, {archive.function} of {archive.seconds} s"
        if found:
            newest, count = found[-1], len(columns) * archive.row_count
            also = "; its unfinished row differs, too" if unfinished else ""
            yield (f"{name}: {len(found)} of {count} cells differ, the newest at {newest.time}: "
                   f"{reason(archive, spans, newest)}{also}")
        elif unfinished:
            yield f"{name}: its unfinished row differs: {reason(archive, spans, unfinished[-1])}"
