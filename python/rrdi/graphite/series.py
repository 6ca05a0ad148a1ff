# SPDX-License-Identifier: MIT OR Apache-2.0
"""Rows of a file as the series that Graphite shows: what whisper would give for the same points."""
from __future__ import annotations

from typing import List, NamedTuple, Optional

from ..amounts import MILLION
from ..reader.selected import Cells, OpenFile, StoredArchive
from .layout import archives_of, method_of


class Series(NamedTuple):
    """Values at start, start + step and so on, before end. `raw_step` is the seconds of the finest slots."""

    start: int
    end: int
    step: int
    values: List[Optional[float]]
    method: str
    raw_step: int


def read_series(file: OpenFile, start: int, end: int, now: int) -> Optional[Series]:
    """Reads the values from `start` to `end`, in seconds since 1970, of the archive that whisper would choose: the
    finest one that reaches from `now` back to the start. None if no archive has that time."""
    outline = file.outline()
    method = method_of(outline)
    archives = archives_of(outline, method)
    longest = max(archive.retention for archive in archives)
    if start > now or start > end or end < now - longest:
        return None
    start, end = max(start, now - longest), min(end, now)
    archive = next(archive for archive in archives if archive.retention >= now - start)
    seconds = archive.seconds
    first, after = start - start % seconds + seconds, end - end % seconds + seconds
    if first == after:
        after += seconds
    rows = file.rows(archive, first + seconds, after)
    values = [value_of(method, rows.get(at + seconds), archive.steps) for at in range(first, after, seconds)]
    unfinished = outline.last - outline.last % seconds
    if first <= unfinished < after:
        values[(unfinished - first) // seconds] = unfinished_value(method, archive)
    return Series(first, after, seconds, values, method, outline.step)


def value_of(method: str, cells: Optional[Cells], steps: int) -> Optional[float]:
    """The value of a row. A sum is the average of the source with zeros, times the steps of the row."""
    if cells is None or cells[0] is None:
        return None
    if method not in ("sum", "avg_zero"):
        return cells[0] / MILLION
    zeros = cells[1]
    return None if zeros is None else zeros * (steps if method == "sum" else 1) / MILLION


def unfinished_value(method: str, archive: StoredArchive) -> Optional[float]:
    """The value of the row that is being filled, which whisper shows too if enough of its slots are known."""
    (known, amount), steps = archive.partial[0], archive.steps
    if (steps - known) * MILLION > archive.xff * steps:  # without a known step, too: the share is below 1
        return None
    if method == "avg_zero":
        return archive.partial[1][1] / steps / MILLION
    if method == "average":
        return amount / known / MILLION
    return amount / MILLION
