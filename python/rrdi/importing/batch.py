# SPDX-License-Identifier: MIT OR Apache-2.0
"""Writes the batch that creates a database from a file of RRDtool."""
from __future__ import annotations

import math
import re
from dataclasses import replace
from typing import Callable, Iterable, Iterator, Optional, Tuple

from ..amounts import MILLION
from ..limits import (FUNCTIONS, LATEST, LONGEST_STEP, MOST_ARCHIVES, MOST_CELLS, MOST_ROWS, MOST_SOURCES, MOST_STEPS,
                      NAME_OF_SOURCE, OF_A_NAME, TYPES)
from .comparing import NewArchive, differing_archives
from .dump import RrdArchive, RrdFile, Refusal, RrdSource
from .last_values import is_within, last_value, with_last
from .rounding import BOUND_LIMIT, Converter, as_text, raw_value
from .plan import note_made_up_rows, plan
from .rates import SourceRates, unfinished_step
from .steps import Stretches

BYTES_OF_A_LINE = 65_000  # of samples: the fewer lines, the less a journal has to keep of the rows that they replace
OF_FRACTIONS = ("DCOUNTER", "DDERIVE")  # types of counters that take fractions


def of_whole_numbers(old: RrdFile, source: RrdSource, note: Callable[[str], None]) -> RrdSource:
    """Returns a DCOUNTER or DDERIVE as the DERIVE that takes its whole numbers.

    A DCOUNTER counts up or down, and what goes the other way is a restart. A bound of 0 does the same: up if no rate that
    the file knows is below 0, down if none is above.
    """
    minimum, maximum = source.minimum, source.maximum
    if source.kind == "DCOUNTER":
        rates = [rate for archive in old.archives for rate in archive.cells[source.column::archive.columns]
                 if archive.function in FUNCTIONS and not math.isnan(rate)]
        if math.isnan(minimum) and rates and min(rates) >= 0:
            minimum = 0.0
        elif math.isnan(maximum) and rates and max(rates) <= 0:
            maximum = 0.0
    bound = next((f" with the {name} 0" for name, before, after in (
        ("minimum", source.minimum, minimum), ("maximum", source.maximum, maximum)) if math.isnan(before) and after == 0), "")
    note(f"source {source.name}: its type {source.kind} becomes DERIVE{bound}, which takes whole numbers only")
    return replace(source, kind="DERIVE", minimum=minimum, maximum=maximum)


def choose_sources(old: RrdFile, note: Callable[[str], None]) -> list[RrdSource]:
    """Returns the data sources that rrdi can have.

    # Errors
    `Refusal` if no source is left, or more sources than rrdi can have.
    """
    chosen = []
    for source in old.sources:
        if source.kind in OF_FRACTIONS:
            source = of_whole_numbers(old, source, note)
        if source.kind not in TYPES:
            formula = f"; its formula is {source.formula}" if source.formula else ""
            note(f"skipped data source {source.name}: type {source.kind} is not supported{formula}")
        elif not re.fullmatch(NAME_OF_SOURCE, source.name):
            note(f"skipped data source {source.name}: a name in rrdi has {OF_A_NAME}")
        else:
            chosen.append(source)
    if not chosen:
        raise Refusal("no data source can be converted")
    if len(chosen) > MOST_SOURCES:
        raise Refusal(f"there are {len(chosen)} sources; rrdi has at most {MOST_SOURCES}")
    return chosen


def choose_archives(old: RrdFile, sources: int, note: Callable[[str], None]) -> list[RrdArchive]:
    """Returns the archives that rrdi can have, each with the time that its rows cover.

    # Errors
    `Refusal` if no archive is left, or more archives or cells than rrdi can have.
    """
    chosen = []
    for archive in old.archives:
        if archive.function not in FUNCTIONS:
            why = "this function is not supported"
        elif archive.steps > MOST_STEPS:
            why = "a row in rrdi has at most 1,000,000 steps"
        elif archive.row_count > MOST_ROWS:
            why = "an archive in rrdi has at most 1,000,000 rows"
        elif archive.steps < 1:
            why = "its rows have no steps"
        elif archive.row_count < 1:
            why = "it has no rows"
        elif not 0 <= archive.share < 1:  # nan is neither
            why = f"its xff is not from 0 to below 1, but {archive.share}"
        else:
            archive.place(old.step, old.last)
            chosen.append(archive)
            continue
        note(f"skipped archive {archive.number}, {archive.function}: {why}")
    if not chosen:
        raise Refusal("no archive can be converted")
    if len(chosen) > MOST_ARCHIVES:
        raise Refusal(f"there are {len(chosen)} archives; rrdi has at most {MOST_ARCHIVES}")
    cells = sources * sum(archive.row_count for archive in chosen)
    if cells > MOST_CELLS:
        raise Refusal(f"there are {cells} cells; rrdi has at most 8,000,000")
    return chosen


# ---- The batch

Rates = Tuple[Optional[int], ...]


def merge(columns: list[Stretches]) -> Iterator[tuple[int, Rates]]:
    """Joins the rates of all sources, whose stretches end at the same times. Joins equal rates to one stretch."""
    at, pending = [0] * len(columns), None
    while at[0] < len(columns[0]):
        end = min(column[number][0] for column, number in zip(columns, at))
        rates = tuple(column[number][1] for column, number in zip(columns, at))
        for number, column in enumerate(columns):
            at[number] += column[at[number]][0] == end
        if pending is not None and rates != pending[1]:
            yield pending
        pending = end, rates
    if pending is not None:
        yield pending


def share_of(archive: RrdArchive) -> str:
    """Returns the xff with which rrdi allows as many unknown steps in a row as RRDtool does."""
    wanted = archive.allowed_unknown()
    parts = int(archive.share * MILLION + 0.5)
    while parts * archive.steps // MILLION > wanted:
        parts -= 1
    while parts * archive.steps // MILLION < wanted:
        parts += 1
    return as_text(parts)


def updates(samples: Iterable[str]) -> Iterator[str]:
    """Yields lines with these samples. A line has as many of them as it may have."""
    words: list[str] = []
    size = 0
    for sample in samples:
        if words and size + len(sample) > BYTES_OF_A_LINE:
            yield " ".join(["update", *words])
            words, size = [], 0
        words.append(sample)
        size += len(sample) + 1
    if words:
        yield " ".join(["update", *words])


class RrdBatch:
    """Writes the lines of the batch that creates the database. Reports to `note` whatever cannot be converted.

    # Errors
    `Refusal` if rrdi cannot have such a database.
    """

    def __init__(self, old: RrdFile, journal: str | None, note: Callable[[str], None]):
        if old.step < 1:
            raise Refusal("a step of the file has no seconds")
        if old.step > LONGEST_STEP:
            raise Refusal("a step of rrdi has at most 1,000,000 seconds")
        if old.last < 0:
            raise Refusal("the last time is before 1970")
        if old.last > LATEST:
            raise Refusal(f"the last time is after {LATEST}")
        self.old, self.journal, self.note, self.converter = old, journal, note, Converter()
        self.sources = choose_sources(old, note)
        self.archives = choose_archives(old, len(self.sources), note)
        self.raw = [self.raw_of(source) for source in self.sources]
        self.last_given = old.last - any(raw is not None for raw in self.raw)

    @property
    def changed(self) -> int:
        """How many sources get another type."""
        return sum(source.kind != self.old.sources[source.column].kind for source in self.sources)

    @property
    def whole(self) -> int:
        """The end of the last whole step."""
        return self.old.last - self.old.last % self.old.step

    def note_differences(self, new_of: Callable[[int], NewArchive]) -> None:
        """Notes the archives of the new database that differ from the old ones."""
        columns = [source.column for source in self.sources]
        for text in differing_archives(self.archives, self.spans, columns, self.whole, new_of):
            self.note(text)

    def raw_of(self, source: RrdSource) -> str | None:
        """Returns the line with the last raw value of a counter.

        The line is one more sample after the types are set. The rate of this sample is unknown, so the sample covers only
        the last second.
        """
        if source.kind not in ("COUNTER", "DERIVE") or source.last_raw.startswith("U"):
            return None
        raw = raw_value(source.kind, source.last_raw) if self.old.step > 1 else None
        if raw is None:
            self.note(f"source {source.name}: cannot convert its last value {source.last_raw}; its next rate will be "
                      "unknown")
        return raw

    def bounds(self, source: RrdSource) -> tuple[int | None, int | None]:
        return (self.converter.amount(source.minimum, BOUND_LIMIT), self.converter.amount(source.maximum, BOUND_LIMIT))

    def rates(self) -> Iterator[tuple[int, Rates]]:
        old, whole = self.old, self.whole
        self.spans = spans = plan(self.archives, whole)
        note_made_up_rows(self.archives, spans, self.note)
        columns = [SourceRates(source.column, old.step, whole, self.converter, self.bounds(source)).all_rates(spans)
                   + unfinished_step(source, whole, old.last, self.converter) for source in self.sources]
        self.start = spans[0].begin if spans else whole
        return merge([self.with_last_value(*each) for each in zip(self.sources, columns)])

    def with_last_value(self, source: RrdSource, rates: Stretches) -> Stretches:
        """Returns the rates of a source so that the last second of a gauge has its last value, if that can be."""
        value, whole = last_value(source), self.whole
        if value is None or not rates or rates[-1][1] == value:
            return rates
        begin = whole - self.old.step if whole == self.old.last else whole
        found = with_last(rates, self.start, begin, whole, value, is_within(value, self.bounds(source)))
        if found is None or any(raw is None for one, raw in zip(self.sources, self.raw) if one.kind in ("COUNTER", "DERIVE")):
            self.note(f"source {source.name}: its last value {source.last_raw} is not kept")
            return rates
        self.last_given = self.old.last - 1
        return found

    def lines(self) -> Iterator[str]:
        stretches = list(self.rates())
        unknown = (None,) * len(self.sources)
        # Unknown rates at the beginning are before the start.
        if stretches and stretches[0][1] == unknown:
            self.start = stretches.pop(0)[0]
        rates = stretches[-1][1] if stretches else unknown
        if not stretches:
            self.start = self.last_given
        yield self.create()
        yield from updates(self.samples(stretches))
        yield from map(self.tune, self.sources)
        if self.last_given < self.old.last:
            words = (raw or "U" if source.kind in ("COUNTER", "DERIVE") else as_text(rate)
                     for source, raw, rate in zip(self.sources, self.raw, rates))
            yield f"update {self.old.last}:{':'.join(words)}"

    def noted_lines(self) -> Iterator[str]:
        """Yields the lines, and then reports which numbers could not be converted."""
        yield from self.lines()
        if self.converter.too_large:
            self.note("numbers that are too large for rrdi became unknown, or no bound")
        if self.converter.too_small:
            self.note("numbers below half a millionth became 0")

    def create(self) -> str:
        """Returns the first line. All sources begin as gauges without bounds and with the longest heartbeat."""
        words = [f"create --step {self.old.step} --start {self.start}"]
        if self.journal is not None:
            words.append(f"--journal {self.journal}")
        words += [f"DS:{source.name}:GAUGE:{LATEST}:U:U" for source in self.sources]
        words += [f"RRA:{archive.function}:{share_of(archive)}:{archive.steps}:{archive.row_count}"
                  for archive in self.archives]
        return " ".join(words)

    def samples(self, stretches: list[tuple[int, Rates]]) -> Iterator[str]:
        before = self.start
        for number, (time, rates) in enumerate(stretches):
            if number == len(stretches) - 1:
                time = self.last_given
            if time > before:
                before = time
                yield ":".join([str(time), *map(as_text, rates)])

    def tune(self, source: RrdSource) -> str:
        heartbeat = min(source.heartbeat, LATEST)
        if heartbeat < source.heartbeat:
            self.note(f"source {source.name}: its heartbeat becomes {LATEST}, the longest in rrdi")
        words = [f"tune --heartbeat {source.name}:{heartbeat}"]
        for option, amount in zip(("--minimum", "--maximum"), self.bounds(source)):
            if amount is not None:
                words.append(f"{option} {source.name}:{as_text(amount)}")
        if source.kind != "GAUGE":
            words.append(f"--data-source-type {source.name}:{source.kind}")
        return " ".join(words)
