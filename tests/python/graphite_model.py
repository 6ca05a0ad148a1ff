# SPDX-License-Identifier: MIT OR Apache-2.0
"""A plain model of the files that Graphite's database writes: all points of a metric in a dictionary, and how far reverts
reach. It knows nothing of files; what it shows is what whisper shows for the same points."""
from __future__ import annotations

import struct
from collections import Counter
from typing import Dict, List, NamedTuple, Optional, Sequence, Tuple

Shown = Tuple[int, int, int, List[Optional[float]]]


class Change(NamedTuple):
    """An entry of the journal: the last time before it, and whether another program made it by another command."""

    before: int
    is_update: bool = True


class Metric:
    """One metric: its settings, the value of each slot by the slot's end, and the journal."""

    def __init__(self, retentions: Sequence[Tuple[int, int]], xff: float, method: str, depth: int):
        self.retentions = sorted(retentions)
        self.step = self.retentions[0][0]
        self.share, = struct.unpack("!f", struct.pack("!f", xff))
        self.method, self.depth = method, depth
        self.counts: Counter[str] = Counter()
        self.forget()

    def forget(self) -> None:
        """The file is gone, with all that it had."""
        self.values: Dict[int, float] = {}
        self.journal: List[Change] = []
        self.last: Optional[int] = None

    # ---- Points

    def slots(self, points: Sequence[Tuple[float, float]], latest: float) -> Dict[int, float]:
        """The points by the ends of their slots: the latest point of a slot counts, of two of one time the second one."""
        found: Dict[int, Tuple[float, float]] = {}
        for when, value in points:
            end = int(when) // self.step * self.step + self.step
            if when > latest:
                self.counts["future"] += 1
            elif end not in found or found[end][0] <= when:
                found[end] = when, value
        return {end: value for end, (_, value) in found.items()}

    def write(self, points: Sequence[Tuple[float, float]], latest: float) -> None:
        slots = self.slots(points, latest)
        if not slots:
            return
        if self.last is None:
            first = min(slots) - self.step
            self.last = first - first % self.retentions[-1][0] if self.method in ("sum", "avg_zero") else first
        self.take(slots)

    def take(self, slots: Dict[int, float]) -> None:
        """Takes slots as one batch: late ones by reverts, as far as these reach and something is gained."""
        assert self.last is not None
        late = [end for end in slots if end <= self.last]
        count, reached = self.reach(min(late)) if late else (0, self.last)
        if late and max(late) <= reached:
            count, reached = 0, self.last
        again = {end: value for end, value in self.values.items() if end > reached}
        self.counts["rewritten"] += sum(end > reached for end in late)
        self.counts["late"] += sum(end <= reached for end in late)
        del self.journal[len(self.journal) - count:]
        self.last = reached
        merged = {**again, **{end: value for end, value in slots.items() if end > reached}}
        self.values.update(merged)
        ends = sorted(merged)
        # The newest slots are one change each, so that each can be reverted alone. Those before them leave no change
        # that is kept.
        for end in ends:
            self.changed(end)

    def reach(self, wanted: int) -> Tuple[int, int]:
        """How many changes are reverted for a slot that ends at `wanted`, and the last time after that. None is reverted
        that would lose a row of the finest archive, or that is no update."""
        assert self.last is not None
        count, reached = 0, self.last
        oldest = self.last - self.last % self.step - self.step * self.retentions[0][1]
        for change in reversed(self.journal):
            if reached < wanted or not change.is_update or change.before < oldest:
                break
            count, reached = count + 1, change.before
        return count, reached

    def changed(self, last: int, is_update: bool = True) -> None:
        assert self.last is not None
        self.journal = [*self.journal, Change(self.last, is_update)][-self.depth:]
        self.last = last

    # ---- Another program

    def other_update(self, end: int, value: float) -> None:
        """Another program gives the next slot its value."""
        self.values[end] = value
        self.changed(end)

    def other_tune(self) -> None:
        assert self.last is not None
        self.changed(self.last, False)

    # ---- Values

    def shown(self, start: int, end: int, now: int) -> Optional[Shown]:
        """What whisper's fetch gives: of the finest archive that reaches back to the start."""
        longest = max(seconds * rows for seconds, rows in self.retentions)
        if self.last is None or start > now or start > end or end < now - longest:
            return None
        start, end = max(start, now - longest), min(end, now)
        seconds, rows = next(one for one in self.retentions if one[0] * one[1] >= now - start)
        first, after = (start // seconds + 1) * seconds, (end // seconds + 1) * seconds
        after += seconds * (first == after)
        return first, after, seconds, [self.row(at + seconds, seconds, rows) for at in range(first, after, seconds)]

    def row(self, end: int, seconds: int, rows: int) -> Optional[float]:
        """The value of the row that ends at `end`, also of the one that is being filled."""
        assert self.last is not None
        newest = self.last // seconds * seconds
        is_filled = seconds > self.step and newest < end and end - seconds < self.last
        if not newest - seconds * rows < end <= newest and not is_filled:
            return None
        known = [self.values[at] for at in range(end - seconds + self.step, end + self.step, self.step) if at in self.values]
        if not known or len(known) / (seconds // self.step) < self.share:
            return None
        if self.method in ("sum", "average", "avg_zero"):
            return sum(known) / {"sum": 1, "average": len(known), "avg_zero": seconds // self.step}[self.method]
        return {"max": max(known), "min": min(known), "last": known[-1]}[self.method]
