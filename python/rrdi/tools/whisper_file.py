# SPDX-License-Identifier: MIT OR Apache-2.0
"""Makes a file of whisper of a database, with what Graphite shows of it, and reads it back."""
from __future__ import annotations

import math
from typing import Dict, Iterator, List, NamedTuple, Optional

from ..amounts import MILLION
from ..graphite.layout import WITH_ZEROS, ZERO, archives_of, check_retentions, method_of, unknown_share
from ..graphite.series import unfinished_value, value_of
from ..importing.comparing import MOST_APART, SHARE_APART
from ..importing.dump import Refusal
from ..importing.whisper import ARCHIVE, HEAD, NUMBERS, POINT, WhisperArchive, WhisperFile, read_whisper
from ..reader.selected import OpenFile, Outline, StoredArchive
from .command_line import Failure

LATEST = 2**32 - 1  # the last time that a point of whisper can have


class WhisperCopy(NamedTuple):
    """What a file of whisper is to have, and what was left out."""

    file: WhisperFile
    notes: List[str]


def known_share(share: int) -> float:
    """Returns the share of known steps that whisper asks for, of the unknown ones in millionths: the one with the fewest
    digits of those that the layout of Graphite's files turns into this share."""
    shares = [(MILLION - share - 1) / MILLION, (MILLION - share) / MILLION]
    return min((one for one in shares if unknown_share(one) == share), key=lambda one: len(str(one)), default=shares[1])


def check_sources(outline: Outline) -> None:
    """Checks that there is one metric.

    # Errors
    `Failure` if there are more.
    """
    first, *others = outline.sources
    if others and not (first in WITH_ZEROS and others == [ZERO]):
        raise Failure(f"a file of whisper has one metric, and there are the sources {', '.join(outline.sources)}")


def points_of(file: OpenFile, archive: StoredArchive, method: str) -> Dict[int, float]:
    """Returns the values of an archive by the times at which their slots begin; the row that is being filled has one too."""
    found = {}
    for end, cells in file.rows(archive, 1, file.front.last).items():
        value = value_of(method, cells, archive.steps)
        if value is not None and 0 < end - archive.seconds <= LATEST:
            found[end - archive.seconds] = value
    begin = file.front.last - file.front.last % archive.seconds
    unfinished = unfinished_value(method, archive) if archive.steps > 1 and begin < file.front.last else None
    if unfinished is not None:
        found.pop(begin - archive.seconds * archive.rows, None)  # the new point takes the slot of the oldest one
        found[begin] = unfinished
    return found


def copy_of(file: OpenFile) -> WhisperCopy:
    """Returns what a file of whisper is to have.

    # Errors
    `Failure` if a file of whisper can't have this database.
    """
    outline = file.outline()
    check_sources(outline)
    method = method_of(outline)
    archives, notes = archives_of(outline, method), []
    try:
        check_retentions([(archive.seconds, archive.rows) for archive in archives])
    except ValueError as error:
        raise Failure(f"a file of whisper can't have these archives: {error}") from None
    notes += [f"left out archive {number}, {archive.function} of {archive.seconds} s"
              for number, archive in enumerate(outline.archives) if archive not in archives]
    if len({archive.xff for archive in archives}) > 1:
        notes.append(f"all archives get the xff of the one of {archives[0].seconds} s")
    copied = [WhisperArchive(archive.seconds, archive.rows, points_of(file, archive, method)) for archive in archives]
    return WhisperCopy(WhisperFile(method, known_share(archives[0].xff), copied), notes)


def differing_points(old: WhisperFile, file: OpenFile) -> Iterator[str]:
    """Yields a line for each archive of which a known point is another one in the database that was made of it, or none."""
    for before, archive in zip(old.archives, archives_of(file.outline(), old.method)):
        after = points_of(file, archive, old.method)
        known = {when: value for when, value in before.values.items() if not math.isnan(value)}
        found = [when for when, value in known.items() if not agree(value, after.get(when), old.method, archive.steps)]
        if found:
            lost = sum(when not in after for when in found)
            of_them = f", {lost} of them lost" if lost else ""
            yield f"{len(found)} of {len(known)} points of {before.seconds} s differ{of_them}, the newest at {max(found)}"


def agree(before: float, after: Optional[float], method: str, steps: int) -> bool:
    """Checks whether a point of so many steps is what it was: each step, and the row, is rounded to a millionth."""
    rounded = steps + 1 if method == "sum" else 2
    return after is not None and abs(after - before) <= rounded * MOST_APART + abs(after) * SHARE_APART


# ---- Bytes

def bytes_of(file: WhisperFile) -> bytes:
    """Returns the bytes of a file of whisper."""
    number = next(number for number, method in NUMBERS.items() if method == file.method)
    longest = max(archive.seconds * archive.rows for archive in file.archives)
    head, at = [HEAD.pack(number, longest, file.xff, len(file.archives))], HEAD.size + ARCHIVE.size * len(file.archives)
    for archive in file.archives:
        head.append(ARCHIVE.pack(at, archive.seconds, archive.rows))
        at += POINT.size * archive.rows
    return b"".join([*head, *map(slots_of, file.archives)])


def slots_of(archive: WhisperArchive) -> bytes:
    """Returns the slots of an archive. The first one has the oldest point, since whisper counts the slots from it."""
    slots, first = [bytes(POINT.size)] * archive.rows, min(archive.values, default=0)
    for when, value in archive.values.items():
        slots[(when - first) // archive.seconds % archive.rows] = POINT.pack(when, value)
    return b"".join(slots)


def write_equal(copy: WhisperCopy, new: str) -> None:
    """Writes a file of whisper, and reads it back.

    # Errors
    - `Failure` if what is read back is something else.
    - `OSError` if the file can't be written or read.
    """
    with open(new, "wb") as file:
        file.write(bytes_of(copy.file))
    try:
        found = read_whisper(new)
    except Refusal as refusal:
        raise Failure(f"the new file cannot be read back: {refusal}") from None
    if found.archives != copy.file.archives or found.method != copy.file.method:
        raise Failure("the new file is not equal to the database")
