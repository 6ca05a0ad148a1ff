# SPDX-License-Identifier: MIT OR Apache-2.0
"""Takes points into the files of metrics, and loses none for the sake of another one."""
from __future__ import annotations

import os
import time
from collections import Counter
from functools import partial
from typing import Callable, Dict, Iterable, List, Mapping, NamedTuple, Optional, Tuple

from ..commands import Batch, batch, batch_on_new
from ..environment import is_synced
from ..kept_file import KeptFile
from ..locks import identity_at, identity_of
from ..making import is_there, make
from ..open_files import OpenBounds, OpenFiles
from ..reader.selected import Front, OpenFile
from ..unwritten import MOST_OF_A_FILE, MOST_OF_ALL, newest, why
from ..words import encoded_path
from .late import plan
from .layout import Template
from .losses import Losses
from .names import path_of
from .slots import Line, Point, Slots, lines_of, sort_points

MOST_KNOWN = 100_000  # files whose first numbers are remembered
PAUSE, SHARE = 10.0, 20  # between two tries of points that wait: so many seconds, and so many times what the last try took
LONGEST_END = 30.0  # seconds for the last tries


class StoreOptions(NamedTuple):
    folder: str
    journal: int = 16
    most_future: int = 600  # seconds
    is_hashed: bool = True  # how files of tagged metrics are named
    open: OpenBounds = OpenBounds()  # of files that stay open


class Known(NamedTuple):
    """The first numbers of a file as the last batch left them, and which file it is."""

    front: Front
    identity: Tuple[int, int]  # the device and the inode


class WaitingPoints(NamedTuple):
    """Points of a metric whose file could not be written."""

    metric: str
    points: List[Point]


class Tried(NamedTuple):
    """What is left after a try: slots of refused lines, what to count, and the first reason of a refusal."""

    slots: Slots
    counts: Mapping[str, int]
    reason: str = ""


class Store:
    """The files of all metrics below a folder. One thread writes."""

    def __init__(self, options: StoreOptions, losses: Losses, clock: Callable[[], float] = time.time):
        self.options, self.losses, self._clock, self._files = options, losses, clock, OpenFiles(options.open)
        self._new: Dict[str, Template] = {}  # the files that are to be made with their first points
        self._known: Dict[str, Known] = {}
        self._waiting: Dict[str, WaitingPoints] = {}  # by the path, the one that was tried longest ago first
        self._count = 0  # of all points that wait
        self._next_try = 0.0

    @property
    def waiting(self) -> int:
        """How many points wait for a file that could not be written."""
        return self._count

    def path(self, metric: str) -> Optional[str]:
        return path_of(self.options.folder, metric, self.options.is_hashed)

    def has(self, metric: str) -> bool:
        """Whether points can be written without `create`. Those of a name without a file are counted by `write`, and
        those of a file at which the system can't look wait there: carbon may drop the points of a new metric."""
        path = self.path(metric)
        try:
            return path is None or path in self._new or is_there(path)
        except (OSError, MemoryError):
            return True

    def create(self, metric: str, template: Template) -> None:
        """Sets how the metric's file is made, which the next `write` does: the file begins with its first slot."""
        path = self.path(metric)
        if path is not None:
            self._new[path] = template

    def write(self, metric: str, points: Iterable[Point]) -> None:
        """Takes points of a metric, in any order; the last one of a slot counts. Counts and logs what is lost."""
        path, given = self.path(metric), list(points)
        if path is None:
            self.losses.add(metric, {"name": len(given)})
        else:
            self._try(metric, path, given)
        self._try_waiting()

    def close(self) -> None:
        """Closes the files that stayed open. Another write may follow."""
        self._files.close_all()

    def end(self) -> None:
        """Tries the points that wait for the last time, counts and logs those that are lost, and closes all files."""
        end = time.monotonic() + LONGEST_END
        for path, (metric, points) in list(self._waiting.items()):
            if time.monotonic() < end:
                self._try(metric, path, [])
        for path, (metric, points) in self._waiting.items():
            self.losses.add(metric, {"failed": len(points)}, "its file could not be written up to the end")
        self._waiting, self._count = {}, 0
        self.close()

    def _try(self, metric: str, path: str, points: List[Point]) -> None:
        given = self._taken(path) + points
        new = self._new.pop(path, None)
        try:
            self._write(metric, path, given, new)
        except Exception as fault:  # the points must survive any exception
            if new is not None:
                self._new[path] = new
            self._wait(metric, path, given, why(path, fault))

    # ---- Points that wait

    def _try_waiting(self) -> None:
        """Tries the points of one file that wait, from time to time: its metric may get no other point for long."""
        now = time.monotonic()
        if self._waiting and now >= self._next_try:
            path = next(iter(self._waiting))
            self._try(self._waiting[path].metric, path, [])
            took = time.monotonic() - now
            self._next_try = now + took + max(PAUSE, SHARE * took)

    def _taken(self, path: str) -> List[Point]:
        found = self._waiting.pop(path, None)
        if found is None:
            return []
        self._count -= len(found.points)
        return found.points

    def _wait(self, metric: str, path: str, points: List[Point], reason: str) -> None:
        """Keeps points for the next write of their metric; if there are too many, the oldest are lost."""
        kept, lost = newest(points, min(MOST_OF_A_FILE, MOST_OF_ALL - self._count))
        self.losses.add(metric, {"failed": lost}, reason)
        if kept:
            if not self._waiting:
                self._next_try = time.monotonic() + PAUSE
            self._waiting[path] = WaitingPoints(metric, kept)
            self._count += len(kept)
            self.losses.say(f"rrdi: {metric[:300]}: {reason}; {len(kept)} points wait for the next ones")

    # ---- Writing

    def _write(self, metric: str, path: str, points: List[Point], new: Optional[Template]) -> None:
        """Gives points to a file. What is refused, since another program changed the file meanwhile, is tried again."""
        known = None if new else self._known_of(path)
        step = known.front.step if known else new.step if new else 1
        slots, left_out = sort_points(points, step, self._clock() + self.options.most_future)
        counts: List[Mapping[str, int]] = [left_out]
        reason = ""
        if slots:
            tried = (self._begin(path, slots, new) if new else None) or put(path, slots, known, self._files)
            self._remember(path, known, slots, tried)
            counts.append(tried.counts)
            if tried.slots:
                tried = put(path, tried.slots, None, self._files)
                counts += [tried.counts, {"refused": len(tried.slots)}]
            reason = tried.reason
        if any(counts):  # last, since points that have to wait come here again
            self.losses.add(metric, summed(counts), reason)

    def _known_of(self, path: str) -> Known:
        """Returns the first numbers of a file. They are read once, and then follow from what was written."""
        known = self._known.pop(path, None)
        return known if known and known.identity == identity_of(os.stat(path)) else read_known(path)

    def _remember(self, path: str, known: Optional[Known], slots: Slots, tried: Tried) -> None:
        if known and min(slots) > known.front.last and not tried.slots and not tried.reason:
            if len(self._known) >= MOST_KNOWN:
                self._known.clear()
            self._known[path] = Known(known.front._replace(last=max(slots)), known.identity)

    def _begin(self, path: str, slots: Slots, new: Template) -> Optional[Tried]:
        """Makes a file with its first slots. None if there is a file."""
        start = new.start(min(slots))
        lines = [Line(new.create(start), ())]
        lines += lines_of(slots, start, new.step, new.has_zeros, self.options.journal)

        def fill(fresh: str) -> Tried:
            tried = give(fresh, 0, lines, slots, {}, run=partial(batch_on_new, fresh))
            return tried if os.stat(fresh).st_size else Tried({}, {"refused": len(slots)}, tried.reason)
        return make(path, fill, makes_folder=True, syncs=is_synced(None))


def summed(counts: Iterable[Mapping[str, int]]) -> Mapping[str, int]:
    found: Counter[str] = Counter()
    for more in counts:
        found.update(more)
    return found


def read_known(path: str) -> Known:
    with OpenFile(path) as file:
        return Known(file.front, identity_of(os.fstat(file.file)))


def put(path: str, slots: Slots, known: Optional[Known], files: OpenFiles) -> Tried:
    """Gives slots to a file that is there; late ones by reverts. If another program has taken back samples meanwhile, all
    slots are left, because the interval before the first one was another than it seemed."""
    front = (known or read_known(path)).front
    if min(slots) > front.last:
        lines = lines_of(slots, front.last, front.step, front.sources > 1, front.depth)
        return give(path, 0, lines, slots, {}, front.last, partial(files.batch, path))
    files.close(encoded_path(path))
    return put_late(path, slots)


def put_late(path: str, slots: Slots) -> Tried:
    """Gives slots of which some are late. The file stays locked from the look at it to its change, since the reverts would
    also take back what another program gives meanwhile. (Where no file can stay open, nothing prevents that.)"""
    kept = KeptFile(path)
    try:
        kept.run(["last"])  # opens and locks the file
        with OpenFile(path, kept.has(identity_at(encoded_path(path)))) as file:
            front, chosen = file.front, plan(file, slots)
        counts = {"rewritten": chosen.put_in, "late": chosen.lost}
        lines = lines_of(chosen.slots, chosen.last, front.step, front.sources > 1, front.depth)
        return give(path, chosen.reverts, lines, chosen.slots, counts, run=kept.batch)
    finally:
        kept.close()


def give(path: str, reverts: int, lines: List[Line], slots: Slots, counts: Mapping[str, int], last: int = 0,
         run: Optional[Callable[[List[str]], Batch]] = None) -> Tried:
    """Runs a batch, by `run` if the file is open. The slots of its refused lines are left, and all of them if the file's time
    is before `last`."""
    if not lines:
        return Tried({}, counts)
    before = ["last"] if last else ["revert"] * reverts
    given = before + [line.text for line in lines]
    ran = run(given) if run is not None else batch(path, given)
    refused: List[Tuple[int, str]] = [(one.number - 1 - len(before), one.reason) for one in ran.refused]
    if last and refused and refused[0][0] < 0:  # another program has taken the file away
        return Tried(slots, counts, refused[0][1])
    if last and int(ran.output.partition("\n")[0] or last) < last:
        return Tried(slots, counts, "another program has changed the file")
    left = {end: slots[end] for number, _ in refused if number >= 0 for end in lines[number].slots}
    return Tried(left, counts, refused[0][1] if refused else "")
