# SPDX-License-Identifier: MIT OR Apache-2.0
"""Makes updates of points: the slot of each point, and the lines of a batch."""
from __future__ import annotations

import math
from operator import itemgetter
from typing import Dict, Iterable, List, Mapping, NamedTuple, Tuple

from ..amounts import gauge_text
from ..limits import LATEST, LONGEST_LINE

Point = Tuple[float, float]  # a time in seconds since 1970, and a value
Slots = Dict[int, str]  # by the end of each slot, the value of its last point


class Line(NamedTuple):
    """A line of a batch, and the slots that it gives."""

    text: str
    slots: Tuple[int, ...]


def sort_points(points: Iterable[Point], step: int, latest: float) -> Tuple[Slots, Dict[str, int]]:
    """Sorts points into slots; the last one of a slot counts. Returns how many were left out, too, by the reason.

    `latest` is the latest time that is taken.
    """
    taken: List[Tuple[float, str]] = []
    left_out: Dict[str, int] = {}
    latest = min(latest, LATEST - step)
    for when, value in points:
        text = gauge_text(value)
        if text is not None and 0 <= when <= latest:
            taken.append((when, text))
            continue
        reason = "value" if text is None else "time" if not (math.isfinite(when) and when >= 0) else "future"
        left_out[reason] = left_out.get(reason, 0) + 1
    taken.sort(key=itemgetter(0))
    return {int(when) // step * step + step: text for when, text in taken}, left_out


def sample(end: int, text: str, before: int, step: int, has_zeros: bool) -> str:
    """The words of an update for one slot. An unknown sample comes first if slots since `before` are missing, so that
    these are unknown and this one is known."""
    known = f"{end}:{text}:{text}" if has_zeros else f"{end}:{text}"
    if end - step <= before:
        return known
    return f"{end - step}:U{':0' if has_zeros else ''} {known}"


def lines_of(slots: Mapping[int, str], last: int, step: int, has_zeros: bool, depth: int) -> List[Line]:
    """The updates for slots after `last`: one for each of the newest `depth` slots, which can be reverted one by one,
    and few for the older ones."""
    ends, before, samples = sorted(slots), last, []
    for end in ends:
        samples.append(sample(end, slots[end], before, step, has_zeros))
        before = end
    cut = max(len(ends) - depth, 0)
    lines = []
    for chosen in bundles(samples[:cut]):
        words = samples[chosen.start:chosen.stop]
        lines.append(Line("update " + " ".join(words), tuple(ends[chosen.start:chosen.stop])))
    return lines + [Line("update " + samples[at], (ends[at],)) for at in range(cut, len(ends))]


def bundles(samples: List[str]) -> Iterable[range]:
    """Cuts a list of samples into ranges that fit into a line."""
    begin, size = 0, len("update")
    for at, words in enumerate(samples):
        if size + 1 + len(words) > LONGEST_LINE:
            yield range(begin, at)
            begin, size = at, len("update")
        size += 1 + len(words)
    if begin < len(samples):
        yield range(begin, len(samples))
