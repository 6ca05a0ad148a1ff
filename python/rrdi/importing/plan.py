# SPDX-License-Identifier: MIT OR Apache-2.0
"""Chooses the archives of a file from which the rates are computed, for each stretch of time."""
from __future__ import annotations

from collections.abc import Callable

from .dump import RrdArchive


def rank(archive: RrdArchive) -> tuple[int, int]:
    """Orders archives by their information: the steps themselves first, then averages, then the other functions."""
    return (0 if archive.steps == 1 else 1 if archive.function == "AVERAGE" else 2, archive.steps)


class Span:
    """A stretch of time whose rates are computed from the rows of one archive.

    `beside` has the archives with rows of the same length, by their function: for each function the archive that reaches
    back farthest. `above` is the next coarser archive of averages whose rows consist of whole rows of this archive,
    `above_beside` has the archives with rows as long as those of `above`, and `above_twice` is the next coarser archive.
    If there is none, `overlapping` is the next coarser archive of averages. `longer` has the archives of minimums and of
    maximums with the shortest rows that consist of whole rows of this archive, if no such archive is beside it.
    """

    def __init__(self, begin: int, end: int, archive: RrdArchive, archives: list[RrdArchive]):
        self.begin, self.end, self.archive, self.archives = begin, end, archive, archives
        self.beside = self.companions(archive)
        self.above = self.coarser(archive)
        self.above_twice = self.coarser(self.above) if self.above else None
        self.overlapping = None if self.above else min((other for other in archives if other.function == "AVERAGE" and
                                                        other.seconds > archive.seconds), key=lambda other: other.seconds,
                                                       default=None)
        self.above_beside = self.companions(self.above) if self.above else {}
        self.longer = [] if "AVERAGE" not in self.beside else [
            min(found, key=lambda other: other.seconds) for found in (
                [other for other in archives if other.function == function and other.seconds % archive.seconds == 0]
                for function in ("MIN", "MAX") if function not in self.beside) if found]
        # How many steps of a known row may be unknown, and how many of an unknown row may be known, in all archives
        # with rows of this length.
        allowed = [other.allowed_unknown() for other in archives if other.steps == archive.steps]
        self.most_dropped = min(allowed)
        self.most_hidden = min(archive.steps - most - 1 for most in allowed)

    def coarser(self, archive: RrdArchive) -> RrdArchive | None:
        """Returns the next coarser archive of averages whose rows consist of whole rows of this archive."""
        found = [other for other in self.archives if other.function == "AVERAGE" and other.seconds > archive.seconds
                 and other.seconds % archive.seconds == 0]
        return min(found, key=lambda other: other.seconds) if found else None

    def companions(self, archive: RrdArchive) -> dict[str, RrdArchive]:
        found: dict[str, RrdArchive] = {}
        for other in self.archives:
            if other.steps == archive.steps:
                before = found.get(other.function)
                if before is None or other.begin < before.begin:
                    found[other.function] = other
        return found


def plan(archives: list[RrdArchive], whole: int) -> list[Span]:
    """Cuts the time up to `whole`, the end of the last whole step, into spans, each with its best archive."""
    begin, spans = min([whole, *(archive.begin for archive in archives)]), []
    while begin < whole:
        best = min((archive for archive in archives if archive.begin <= begin), key=rank)
        better = [archive.begin for archive in archives if archive.begin > begin and rank(archive) < rank(best)]
        end = min([whole, *better])
        spans.append(Span(begin, end, best, archives))
        begin = end
    return spans


def note_made_up_rows(archives: list[RrdArchive], spans: list[Span], note: Callable[[str], None]) -> None:
    """Reports the time up to which the rows of an archive are computed from rows of other functions."""
    for archive in archives:
        until = 0
        for span in spans:
            if span.archive.steps == 1:
                continue
            own = span.beside.get(archive.function)
            end = min(span.end, own.begin) if own else span.end
            if end > archive.begin and end > span.begin:
                until = end
        if spans and until > spans[0].begin:
            note(f"archive {archive.number}, {archive.function} of {archive.seconds} s: rows up to {until} come from "
                 "rows of other functions")
