# SPDX-License-Identifier: MIT OR Apache-2.0
"""Writes the batch that makes a database out of a file of whisper, with the layout that Graphite's storage over rrdi has.

Each time takes its value from the finest archive that has the time; a coarse point counts for all its other steps. rrdi
computes the rows of all archives again from these.
"""
from __future__ import annotations

import math
import struct
from typing import BinaryIO, Callable, Dict, Iterator, List, NamedTuple, Optional, Tuple

from ..amounts import LARGEST, MILLION, Millionths, gauge_text
from ..graphite.layout import METHODS, WITH_ZEROS, check_retentions, template, unknown_share
from ..limits import LATEST, MOST_ARCHIVES
from .batch import updates
from .dump import Refusal
from .rounding import millionths
from .steps import Rest, Stretches, sum_of_rest

# The numbers of whisper's aggregation methods.
NUMBERS = {1: "average", 2: "sum", 3: "last", 4: "max", 5: "min", 6: "avg_zero", 7: "absmax", 8: "absmin"}
HEAD, ARCHIVE, POINT = struct.Struct("!2LfL"), struct.Struct("!3L"), struct.Struct("!Ld")
JOURNAL = 16


class WhisperArchive(NamedTuple):
    """An archive of whisper: the seconds of a point, the number of points, and the values by the times of their slots."""

    seconds: int
    rows: int
    values: Dict[int, float]

    @property
    def begin(self) -> int:
        """The oldest time that the archive covers."""
        return self.end - self.rows * self.seconds

    @property
    def end(self) -> int:
        return max(self.values) + self.seconds


class WhisperFile(NamedTuple):
    method: str
    xff: float
    archives: List[WhisperArchive]  # the finest first


def read_points(file: BinaryIO, offset: int, seconds: int, rows: int) -> Dict[int, float]:
    """The points of an archive that belong to its newest round."""
    file.seek(offset)
    data = file.read(rows * POINT.size)
    if len(data) < rows * POINT.size:
        raise Refusal("the file is shorter than its header says")
    found = {when: value for when, value in POINT.iter_unpack(data) if when > 0}
    newest = max(found, default=0)
    return {when: value for when, value in found.items() if when > newest - rows * seconds and when % seconds == 0}


def read_whisper(path: str) -> WhisperFile:
    """Reads a file of whisper.

    # Errors
    - `Refusal` if it is none, or rrdi has not its aggregation method.
    - `OSError` if the file can't be read.
    """
    with open(path, "rb") as file:
        return read_open(file)


def read_open(file: BinaryIO) -> WhisperFile:
    """Reads an open file of whisper: its header, and the archives that the header names."""
    data = file.read(HEAD.size + MOST_ARCHIVES * ARCHIVE.size)
    try:
        number, _, xff, count = HEAD.unpack_from(data)
        if number not in NUMBERS or not 1 <= count <= MOST_ARCHIVES or not 0 <= xff <= 1:
            raise Refusal("this is no file of whisper")
        infos = [ARCHIVE.unpack_from(data, HEAD.size + index * ARCHIVE.size) for index in range(count)]
    except struct.error:
        raise Refusal("this is no file of whisper") from None
    method = NUMBERS[number]
    if method not in METHODS:
        raise Refusal(f"the aggregation method {method} is not supported")
    try:
        check_retentions([(seconds, rows) for _, seconds, rows in infos])
    except ValueError as error:
        raise Refusal(str(error)) from None
    archives = [WhisperArchive(seconds, rows, read_points(file, offset, seconds, rows)) for offset, seconds, rows in infos]
    return WhisperFile(method, xff, sorted(archives, key=lambda archive: archive.seconds))


# ---- The batch

Stretch = Tuple[int, Optional[str]]  # its end, and the value of each step up to there; None is unknown


class ArchiveTime(NamedTuple):
    """A time that an archive gives."""

    archive: WhisperArchive
    begin: int
    end: int


def spans(archives: List[WhisperArchive]) -> List[ArchiveTime]:
    """The archives that have points, the finest last, each with the time that it gives: all that it has, but of a coarser
    archive what a finer one has not. So a finer archive may begin within a point of the coarser one. Between two archives
    may be a time of which none has points: long after a point with a wrong time, for example."""
    found: List[ArchiveTime] = []
    for archive in (archive for archive in archives if archive.values):
        begin, end = max(archive.begin, 0), min([archive.end, *(span.begin for span in found)])
        if begin < end:
            found.insert(0, ArchiveTime(archive, begin, end))
    return found


def stretches(old: WhisperFile, note: Callable[[str], None]) -> List[Stretch]:
    """The values of all times from the first known one on; equal neighbours come as one stretch."""
    found = PointValues(old, note).all()
    return [(end, None if amount is None else str(Millionths(amount))) for end, amount in found]


class PointValues:
    """Lays the values of the archives one after the other, in millionths for each step. Begins with the newest ones,
    because a finer archive may begin within a point of a coarser one."""

    def __init__(self, old: WhisperFile, note: Callable[[str], None]):
        self.old, self.note, self.step, self.too_large = old, note, old.archives[0].seconds, 0
        self.share = unknown_share(old.xff)

    def all(self) -> Stretches:
        later: Stretches = []
        finer: Optional[ArchiveTime] = None
        for span in reversed(spans(self.old.archives)):
            own = [(slot + span.archive.seconds, self.amount(span.archive, slot))
                   for slot in range(span.begin, span.end, span.archive.seconds)]
            if finer is not None and own[-1][0] > finer.begin:
                later = self.cut(own, later, span, finer)
            elif finer is not None and own[-1][0] < finer.begin:
                own.append((finer.begin, None))
            later, finer = joined(own + later), span
        if self.too_large:
            self.note(f"{self.too_large} values that are too large for rrdi became unknown")
        return later

    def amount(self, archive: WhisperArchive, slot: int) -> Optional[int]:
        """The value of each step of a slot."""
        value = archive.values.get(slot, math.nan)
        if math.isnan(value):
            return None
        value = value * self.step / archive.seconds if self.old.method == "sum" else value
        if gauge_text(value) is None:
            self.too_large += 1
            return None
        return millionths(value)

    def cut(self, own: Stretches, later: Stretches, span: ArchiveTime, finer: ArchiveTime) -> Stretches:
        """Ends the newest point of a coarser archive where a finer one begins, so that both have what they had. If that
        cannot be, the coarser point counts for all its time. Returns what follows."""
        (end, amount), steps = own[-1], span.archive.seconds // self.step
        before = steps - (end - finer.begin) // self.step
        rest = sum_of_rest(later, finer.begin, end, self.step)
        first = None if amount is None else self.beginning(amount, steps, before, rest)
        if first is not None or amount is None:
            own[-1] = finer.begin, first
            return later
        lost = sum(not math.isnan(value) for slot, value in finer.archive.values.items() if finer.begin <= slot < end)
        if lost:
            self.note(f"{lost} of the oldest points of {finer.archive.seconds} s gave way to one of {span.archive.seconds} s")
        return [stretch for stretch in later if stretch[0] > end]

    def beginning(self, amount: int, steps: int, before: int, rest: Rest) -> Optional[int]:
        """The value of the first `before` steps of a point, if the point has this value and then come finer ones. None if
        fewer of its steps would be known than the file asks for, or rrdi has no such value."""
        if (steps - before - rest.known) * MILLION > self.share * steps:
            return None
        if self.old.method not in (*WITH_ZEROS, "average"):
            return amount
        counted = steps if self.old.method in WITH_ZEROS else before + rest.known
        found = round((amount * counted - rest.total) / before)
        return found if abs(found) < LARGEST * MILLION else None


def joined(found: Stretches) -> Stretches:
    """Makes one stretch of equal neighbours."""
    kept: Stretches = []
    for end, amount in found:
        if kept and kept[-1][1] == amount:
            kept[-1] = end, amount
        else:
            kept.append((end, amount))
    return kept


def first_time(old: WhisperFile) -> int:
    """The time of the first known slot."""
    return min(slot for archive, begin, end in spans(old.archives) for slot in archive.values if begin <= slot < end)


def samples(old: WhisperFile, first: int, start: int, note: Callable[[str], None]) -> Iterator[str]:
    """The words of updates from the time `start`; what is known begins at `first`."""
    has_zeros = old.method in WITH_ZEROS
    if start < first:
        yield f"{first}:U:0" if has_zeros else f"{first}:U"
    for end, text in stretches(old, note):
        if end > first:
            shown = "U" if text is None else text
            yield f"{end}:{shown}:{'0' if text is None else text}" if has_zeros else f"{end}:{shown}"


def whisper_batch(old: WhisperFile, journal: Optional[str], note: Callable[[str], None]) -> Iterator[str]:
    """Yields the lines of the batch that makes the database; what can't be converted goes to `note`.

    # Errors
    `Refusal` if the file has no point.
    """
    if not any(archive.values for archive in old.archives):
        raise Refusal("the file has no point")
    made = template([(archive.seconds, archive.rows) for archive in old.archives], old.xff, old.method,
                    int(journal or JOURNAL))
    first = first_time(old)
    start = made.start(first + made.step)
    # A sample may be for many steps, so the heartbeat is set when all samples are in.
    heartbeat = f"DS:{old.method}:GAUGE:{made.step}:"
    yield made.create(start).replace(heartbeat, f"DS:{old.method}:GAUGE:{LATEST}:")
    yield from updates(samples(old, first, start, note))
    yield f"tune --heartbeat {old.method}:{made.step}"
