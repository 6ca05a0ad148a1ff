# SPDX-License-Identifier: MIT OR Apache-2.0
"""The unfinished steps and rows of a database, which `rrdtool info` prints and `rrdi info` does not."""
from __future__ import annotations

from typing import List, NamedTuple, Optional

from ..amounts import MILLION
from ..reader.selected import OpenFile
from .reading import reporting


class PartialStep(NamedTuple):
    """The unfinished step of a source: the sum over its known seconds, and how many seconds are unknown."""

    value: Optional[float]
    unknown_seconds: int


class PartialRow(NamedTuple):
    """The unfinished row of an archive for one source."""

    value: Optional[float]
    unknown_steps: int


class Unfinished(NamedTuple):
    header_size: int  # the bytes before the first cell
    steps: List[PartialStep]
    rows: List[List[PartialRow]]


def read_unfinished(file: str) -> Unfinished:
    """Returns what is unfinished in the database in a file.

    # Errors
    `Failure` if the file cannot be opened, locked or read, or is not a database.
    """
    with reporting(file), OpenFile(file) as stored:
        outline = stored.outline()
    step, last = outline.step, outline.last
    steps = [PartialStep(total / MILLION if known or last % step == 0 else None, last % step - known)
             for known, total in outline.steps]
    rows = []
    for archive in outline.archives:
        passed = last // step % archive.steps
        rows.append([PartialRow(value / MILLION if known else None, passed - known) for known, value in archive.partial])
    return Unfinished(outline.archives[0].at, steps, rows)
