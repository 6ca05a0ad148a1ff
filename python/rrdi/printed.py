# SPDX-License-Identifier: MIT OR Apache-2.0
"""Parses what `info`, `fetch` and `lastupdate` print."""

# Without `annotations` of __future__: a named tuple whose types are texts makes a tool start a tenth slower.
from typing import Dict, List, NamedTuple, Tuple


class Source(NamedTuple):
    """The settings of a data source; a bound or a raw value may be U."""

    name: str
    type: str
    heartbeat: int
    minimum: str
    maximum: str
    last_raw: str


class Archive(NamedTuple):
    """The settings of an archive."""

    function: str
    xff: str
    steps: int
    rows: int


class Settings(NamedTuple):
    """The settings of a database, in the order of `info`."""

    step: int
    last: int
    journal: int
    undoable: int
    sources: List[Source]
    archives: List[Archive]

    def resolution(self, archive: int) -> int:
        """Returns the seconds per row of an archive."""
        return self.step * self.archives[archive].steps

    def end(self, archive: int) -> int:
        """Returns the time of an archive's newest row."""
        return self.last - self.last % self.resolution(archive)

    def start(self, archive: int) -> int:
        """Returns the time at which an archive's oldest row begins, in seconds since 1970. The time may be negative."""
        return self.end(archive) - self.resolution(archive) * self.archives[archive].rows


def settings_of(text: str) -> Settings:
    """Returns the settings from the output of `info`.

    # Errors
    `ValueError` if it is no such output.
    """
    values: Dict[str, str] = {}
    for line in text.splitlines():
        key, _, value = line.partition(" = ")
        values[key] = value
    sources: List[Source] = []
    archives: List[Archive] = []
    try:
        while f"ds[{len(sources)}].name" in values:
            name, kind, heartbeat, *others = (values[f"ds[{len(sources)}].{setting}"] for setting in (
                "name", "type", "minimal_heartbeat", "min", "max", "last_raw"))
            sources.append(Source(name, kind, int(heartbeat), *others))
        while f"rra[{len(archives)}].cf" in values:
            function, xff, *counts = (values[f"rra[{len(archives)}].{setting}"] for setting in ("cf", "xff", "steps", "rows"))
            archives.append(Archive(function, xff, *map(int, counts)))
        step, last, journal, undoable = (int(values[name]) for name in ("step", "last_update", "journal", "undoable"))
    except KeyError as missing:
        raise ValueError(f"no {missing}") from None
    if not sources or not archives:
        raise ValueError("no source or archive")
    return Settings(step, last, journal, undoable, sources, archives)


class PrintedRows(NamedTuple):
    """The output of `fetch` or `lastupdate`: the names of the sources, and the time and the words of each row."""

    names: Tuple[str, ...]
    times: List[int]
    words: List[List[str]]


def printed_rows(text: str) -> PrintedRows:
    """Returns the rows from the output of `fetch`, or the one of `lastupdate`."""
    head, *lines = text.splitlines() or [""]
    times: List[int] = []
    words: List[List[str]] = []
    for line in lines:
        time, _, cells = line.partition(":")
        times.append(int(time))
        words.append(cells.split())
    return PrintedRows(tuple(head.split()[1:]), times, words)
