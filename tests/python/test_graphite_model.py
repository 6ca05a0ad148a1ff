# SPDX-License-Identifier: MIT OR Apache-2.0
"""Tests of Graphite's database against a plain model: random points, with other programs and failing files in between.

RRDI_ROUNDS sets how many random metrics are tried (10)."""
from __future__ import annotations

import fcntl
import hashlib
import os
import random
from collections import Counter
from pathlib import Path
from typing import List, Optional, Tuple
from unittest import mock

from cases import DataCase, use_any_library
from graphite_model import Metric
from rrdi import commands, environment
from rrdi.graphite.layout import METHODS, template
from rrdi.graphite.losses import Losses
from rrdi.graphite.series import read_series
from rrdi.graphite.store import StoreOptions, Store
from rrdi.reader.selected import OpenFile

ROUNDS = int(os.environ.get("RRDI_ROUNDS", "10"))
NOW = 1_700_006_400  # a multiple of the seconds of each archive below
MOST_FUTURE = 600
# Archives with few rows, so that late points come to the oldest ones; with one archive, two and three.
RETENTIONS = [[(10, 12), (60, 10)], [(1, 20), (5, 8), (20, 6)], [(10, 8)], [(60, 12), (600, 6), (3_600, 5)], [(2, 500), (10, 400)]]
NAMES = ["load", "a.b.c", "disk.used;dc=1;host=a", "ü.x-y_z"]


def path_of(folder: Path, name: str, is_hashed: bool) -> Path:
    """The file of a metric, as Graphite's documentation describes it."""
    if ";" not in name:
        return folder / (name.replace(".", "/") + ".rrdi")
    digest = hashlib.sha256(name.encode()).hexdigest()
    return folder / "_tagged" / digest[:3] / digest[3:6] / ((digest if is_hashed else name.replace(".", "_DOT_")) + ".rrdi")


class Round:
    """A metric in a file, and the same one in the model."""

    def __init__(self, case: "AgainstTheModel", seed: int):
        self.case, self.chance = case, random.Random(seed)
        self.retentions, self.method = RETENTIONS[seed % len(RETENTIONS)], list(METHODS)[seed % len(METHODS)]
        self.xff = (0.0, 0.1, 0.5, 0.75, 1.0)[(seed + seed // len(RETENTIONS)) % 5]
        self.depth, self.is_hashed = self.chance.choice((1, 4, 16, 40)), self.chance.random() < 0.5
        self.name, self.now, self.before = f"{seed}.{self.chance.choice(NAMES)}", NOW, 0
        self.folder, self.losses = case.folder, Losses(lambda line: None)
        self.store = Store(StoreOptions(str(self.folder), self.depth, MOST_FUTURE, self.is_hashed), self.losses, lambda: self.now)
        self.model = Metric(self.retentions, self.xff, self.method, self.depth)
        self.path, self.step = path_of(self.folder, self.name, self.is_hashed), self.retentions[0][0]
        self.waiting: List[Tuple[float, float]] = []
        self.what = f"seed {seed}: {self.name} {self.retentions} {self.xff} {self.method} journal {self.depth}"

    # ---- Points

    def moment(self) -> float:
        """The time of a point: mostly the present one, or late, within the finest archive and at its oldest edge."""
        back = self.chance.choice((0, 0, 0, 0, 1, 2, 5, self.retentions[0][1] - 1, self.retentions[0][1], self.retentions[0][1] + 1))
        if self.chance.random() < 0.05:
            back = self.chance.choice((-5, -MOST_FUTURE // self.step - 2, 100))
        return float(self.now - self.now % self.step - back * self.step + self.chance.randrange(self.step))

    def points(self) -> List[Tuple[float, float]]:
        made = [(self.moment(), float(self.chance.randrange(-1_000, 1_000)) / 4) for _ in range(self.chance.choice((1, 1, 2, 5)))]
        return made + [(made[0][0], 7.0)] * (self.chance.random() < 0.1)

    def write(self, points: List[Tuple[float, float]], is_failing: bool = False) -> None:
        if not self.store.has(self.name):
            self.store.create(self.name, template(self.retentions, self.xff, self.method, self.depth))
        self.store.write(self.name, points)
        self.waiting += points
        if not is_failing:
            self.model.write(self.waiting, self.now + MOST_FUTURE)
            self.waiting = []
        self.case.assertEqual(self.store.waiting, len(self.waiting), self.what)

    # ---- What happens

    def happen(self) -> None:
        self.now += self.chance.choice((0, 1, 1, 1, 2, 3, 30 if self.chance.random() < 0.1 else 1)) * self.step
        deed = self.chance.choices((self.write_points, self.other_program, self.race, self.lock, self.damage, self.write_many),
                                   (20, 3, 3, 2, 0.5, 0.5))[0]
        deed()
        self.case.seen[deed.__name__] += 1
        self.check()

    def write_points(self) -> None:
        self.write(self.points())

    def write_many(self) -> None:
        """After a long pause more points than one line can have."""
        self.now += 4_000 * self.step
        newest = self.now - self.now % self.step
        self.write([(float(newest - at * self.step), float(at % 1_000) + 0.25) for at in range(4_000)])

    def next_end(self) -> Optional[int]:
        """The end of the slot after the file's last one, if it is not too far ahead."""
        last = self.model.last
        return None if last is None or last % self.step or last > self.now else last + self.step

    def words(self, end: int) -> str:
        return f"update {end}:5" + (":5" if self.method in ("sum", "avg_zero") else "")

    def other_program(self) -> None:
        """Another program changes the file between two writes."""
        end = self.next_end()
        if end is None or self.waiting:
            return
        self.store.close()  # it would wait until the time of the file is over
        if self.chance.random() < 0.3:
            commands.batch(self.path, [f"tune --heartbeat {self.method}:{self.step}"])
            self.model.other_tune()
            return
        self.case.assertEqual(commands.batch(self.path, [self.words(end)]).refused, ())
        self.model.other_update(end, 5.0)

    def race(self) -> None:
        """Another program changes the file when a write has looked at it, and is first."""
        end = self.next_end()
        if end is None or self.waiting:
            return self.write_points()
        def later(path: str, lines: List[str]) -> object:
            patched.stop()
            self.store.close()
            commands.batch(path, [self.words(end or 0)])
            return commands.batch(path, lines)
        slots = [(float(end - self.step), 8.0), (float(end), 9.0)]
        patched = mock.patch.object(self.store._files, "batch", later)
        patched.start()
        self.store.write(self.name, slots)
        # The first of the two slots was refused, and came again as a late one.
        self.model.other_update(end, 5.0)
        self.model.take({end + self.step: 9.0})
        self.model.take({end: 8.0})

    def lock(self) -> None:
        """Another program holds the lock of the file."""
        if not self.path.exists():
            return
        self.store.close()
        with open(self.path, "r+b") as held, mock.patch.object(environment, "WAIT", 0):
            fcntl.flock(held, fcntl.LOCK_EX)
            self.write(self.points(), is_failing=True)
            fcntl.flock(held, fcntl.LOCK_UN)
        self.write(self.points())

    def damage(self) -> None:
        """The file is cut, so it is set aside, and a new one begins with the points that waited."""
        if not self.path.exists():
            return
        self.store.close()
        os.truncate(self.path, 40)
        self.write(self.points(), is_failing=True)
        self.case.assertFalse(self.path.exists(), self.what)
        aside, = self.path.parent.glob("*.damaged-*")
        aside.unlink()
        self.model.forget()
        self.write(self.points())

    # ---- What is there

    def check(self) -> None:
        """All archives show what the model shows, and the same is counted as lost."""
        self.case.assertEqual(self.path.exists(), self.model.last is not None, self.what)
        if not self.path.exists():
            return
        longest = max(seconds * rows for seconds, rows in self.retentions)
        spans = [(self.now - seconds * rows + more, self.now) for seconds, rows in self.retentions for more in (-1, 0, 1, self.step)]
        spans += [(self.now - self.chance.randrange(longest), self.now - self.chance.randrange(longest)), (self.now, self.now),
                  (self.now - self.step, self.now + 10 * self.step), (self.now + 1, self.now + 2), (0, self.now - longest - 1)]
        for start, end in spans:
            with OpenFile(str(self.path)) as file:
                found = read_series(file, start, end, self.now)
            self.compare(found and (*found[:3], found.values), self.model.shown(start, end, self.now), (start, end))
        counted = {kind: count for kind, count in self.losses.take().items() if count}
        self.case.assertEqual(counted, {kind: count for kind, count in self.model.counts.items() if count}, self.what)
        self.case.seen.update(counted)
        self.model.counts.clear()

    def compare(self, found: object, wanted: object, span: Tuple[int, int]) -> None:
        what = f"{self.what}: {span[0] - self.now} to {span[1] - self.now}"
        if found is None or wanted is None:
            self.case.assertEqual(found, wanted, what)
            return
        assert isinstance(found, tuple) and isinstance(wanted, tuple)
        self.case.assertEqual(found[:3], wanted[:3], what)
        self.case.assertEqual([value is None for value in found[3]], [value is None for value in wanted[3]], what)
        for one, other in zip(found[3], wanted[3]):
            if one is not None:
                self.case.assertAlmostEqual(one, other, delta=1e-3, msg=what)
                self.case.seen["values"] += 1


class AgainstTheModel(DataCase):
    def test_random_points(self) -> None:
        """The rounds have fixed seeds, so a failure is the same in each run."""
        use_any_library(self)
        self.seen: Counter[str] = Counter()
        for seed in range(ROUNDS):
            made = Round(self, seed)
            for _ in range(25):
                made.happen()
        for kind, least in (("values", 1_000), ("rewritten", 10), ("late", 10), ("future", 1), ("write_points", 50),
                            ("other_program", 5), ("race", 5), ("lock", 5), ("damage", 1), ("write_many", 1)):
            self.assertGreaterEqual(self.seen[kind], least, f"{kind} of {self.seen}")
