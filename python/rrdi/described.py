# SPDX-License-Identifier: MIT OR Apache-2.0
"""The settings of a database, as `rrdi.info` returns them."""
from __future__ import annotations

from dataclasses import dataclass
from typing import Callable, Dict, Generic, Optional, Tuple

from .printed import Archive, Settings, Source
from .results import UNKNOWN, Value


@dataclass(frozen=True)
class SourceInfo(Generic[Value]):
    """The settings of a data source. `heartbeat` is in seconds; None is no bound, or an unknown raw value."""

    name: str
    type: str
    heartbeat: int
    min: Optional[Value]
    max: Optional[Value]
    last_raw: Optional[Value]  # as it was sent, before it became a rate


@dataclass(frozen=True)
class ArchiveInfo(Generic[Value]):
    """The settings of an archive: its function, the steps of a row and the number of rows, and the share of steps that may
    be unknown. `resolution` is in seconds for each row."""

    function: str
    xff: Value
    steps: int
    rows: int
    resolution: int


@dataclass(frozen=True)
class Info(Generic[Value]):
    """The settings of a database. `step` is in seconds, `last_update` in seconds since 1970; `journal` is the number of
    changes that the journal keeps, `undoable` the number that it has now."""

    filename: str
    step: int
    last_update: int
    journal: int
    undoable: int
    sources: Dict[str, SourceInfo[Value]]  # in their order
    archives: Tuple[ArchiveInfo[Value], ...]


def described(settings: Settings, filename: str, convert: Callable[[str], Value]) -> Info[Value]:
    """Returns settings with numbers in place of words."""
    def value(word: str) -> Optional[Value]:
        return None if word in UNKNOWN else convert(word)

    def source(found: Source) -> SourceInfo[Value]:
        return SourceInfo(found.name, found.type, found.heartbeat, value(found.minimum), value(found.maximum),
                          value(found.last_raw))

    def archive(found: Archive) -> ArchiveInfo[Value]:
        return ArchiveInfo(found.function, convert(found.xff), found.steps, found.rows, settings.step * found.steps)

    return Info(filename, settings.step, settings.last, settings.journal, settings.undoable,
                {one.name: source(one) for one in settings.sources}, tuple(map(archive, settings.archives)))
