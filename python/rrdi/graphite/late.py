# SPDX-License-Identifier: MIT OR Apache-2.0
"""Late points: which changes to revert, and what to give again.

rrdi takes a sample only after the last one. So the newest updates are reverted, as far as the journal reaches, and their
slots are given again with the late ones among them.
"""
from __future__ import annotations

from typing import Dict, Iterable, List, NamedTuple

from ..reader.selected import OpenFile, StoredArchive
from .slots import Slots


class Plan(NamedTuple):
    """How to put in late slots: how many changes to revert, the last time after these, and all slots after it."""

    reverts: int
    last: int
    slots: Slots
    put_in: int  # how many of the late slots are among `slots`
    lost: int  # how many are too late


def reverts_for(times_before: Iterable[int], last: int, oldest: int, wanted: int) -> List[int]:
    """The last times after one revert, two reverts and so on, as far as needed to have a slot that ends at `wanted`.

    `oldest` is the time before which a revert would lose rows: those that are left out of the archive of single steps.
    """
    found: List[int] = []
    for before in times_before:
        if last < wanted or before < oldest:
            break
        found.append(before)
        last = before
    return found


def plan(file: OpenFile, slots: Slots) -> Plan:
    """Plans how slots are put into a file, of which some end at the file's last time or before."""
    front = file.front
    late = [end for end in slots if end <= front.last]
    single = [archive for archive in file.outline().archives if archive.steps == 1]
    if not late or not single:
        return cut(slots, front.last, [], {})
    # A revert that does not reach the earliest late slot may still reach the others.
    archive = max(single, key=lambda archive: archive.rows)
    times = reverts_for(file.times_before(), front.last, oldest_time(archive, front.last), min(late))
    # What another program gave within a step can't be given again from the rows.
    is_whole = not any(time % front.step for time in [front.last, *times])
    if not times or times[-1] >= max(late) or not is_whole:
        return cut(slots, front.last, [], {})
    kept = {end: str(cells[0]) for end, cells in file.rows(archive, times[-1], front.last).items()
            if cells[0] is not None}
    return cut(slots, front.last, times, kept)


def oldest_time(archive: StoredArchive, last: int) -> int:
    """The time from which on all steps up to `last` are rows of an archive of single steps."""
    return (last // archive.seconds - archive.rows) * archive.seconds


def cut(slots: Slots, last: int, times: List[int], kept: Slots) -> Plan:
    """The plan for a list of last times after reverts, with the slots that were there."""
    reached = times[-1] if times else last
    merged: Dict[int, str] = {end: text for end, text in kept.items() if end > reached}
    merged.update({end: text for end, text in slots.items() if end > reached})
    lost = sum(1 for end in slots if end <= reached)
    put_in = sum(1 for end in slots if reached < end <= last)
    return Plan(len(times), reached, merged, put_in, lost)
