# SPDX-License-Identifier: MIT OR Apache-2.0
"""Counts points that were lost or put in later, and logs them."""
from __future__ import annotations

import threading
import time
from collections import Counter
from typing import Callable, Dict, Mapping

from ..escaping import escaped

# What each count is of. All but the first count points that were lost.
KINDS: Dict[str, str] = {
    "rewritten": "came late, and were put in by revert",
    "late": "too late for the journal",
    "value": "no number, or of a size of 10^18 or more",
    "future": "too far in the future",
    "time": "before 1970, or no time",
    "name": "the metric's name has no file",
    "refused": "refused by the database",
    "failed": "the file could not be written for too long"}
LINES = 100  # of the log, in an interval


class Losses:
    """Counts by their kind since the last `take`. Several threads may count."""

    def __init__(self, log: Callable[[str], object], seconds: float = 60, clock: Callable[[], float] = time.monotonic):
        self._log, self._seconds, self._clock = log, seconds, clock
        self._guard = threading.Lock()
        self._counts: Counter[str] = Counter()
        self._lines, self._since = 0, clock()

    def add(self, metric: str, counts: Mapping[str, int], reason: str = "") -> None:
        """Adds counts of a metric, and logs those of lost points."""
        with self._guard:
            self._counts.update(counts)
        lost = [f"{count} {kind}" for kind, count in counts.items() if kind != "rewritten" and count]
        if lost:
            self.say(f"rrdi: {metric[:300]}: points lost: {', '.join(lost)}{f' ({reason})' if reason else ''}")

    def say(self, text: str) -> None:
        """Logs a line, of a limited number in an interval."""
        with self._guard:
            if self._clock() - self._since >= self._seconds:
                left_out, self._lines, self._since = max(self._lines - LINES, 0), 0, self._clock()
            else:
                left_out = 0
            self._lines += 1
            is_shown = self._lines <= LINES
        if left_out:
            self._log(f"rrdi: {left_out} more lines were left out")
        if is_shown:
            self._log(escaped(text))

    def take(self) -> Dict[str, int]:
        """Returns the counts of all kinds, and begins again with 0."""
        with self._guard:
            counts, self._counts = self._counts, Counter()
        return {kind: counts[kind] for kind in KINDS}
