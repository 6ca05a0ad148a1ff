# SPDX-License-Identifier: MIT OR Apache-2.0
"""Power failures during a change, and during the command that recovers a file: the files that they may leave, by the
model of `power.py`, and whether the next command finds the right database in each file."""
from __future__ import annotations

import random
from hashlib import blake2b
from typing import Iterable, NamedTuple, Sequence

from support import between
from support.between import Change
from support.changes import REPAIR, SYNCS, Place, Task, is_refused
from support.check import Check
from support.power import WHOLE, Disk, Left
from support.program import KILLED, Answer, put

CUTS, SECOND = "files after a power cut", "files after a second power cut"
AFTER_KILL, AFTER_SYNC = "files after a kill and a power cut", "files after a failed sync and a power cut"
# The number of failing calls of the same kind that follow a failed sync, if each later sync fails too.
FOR_GOOD = 16


class Found(NamedTuple):
    """What the next command finds in a file that a power failure left."""
    answer: Answer
    held: bytes | None


class Wanted(NamedTuple):
    """The databases that may be found, and whether none may be found."""
    found: Sequence[bytes | None]
    may_be_refused: bool = False

    def has(self, found: Found) -> bool:
        if found.answer.status == 0:
            return found.held in self.found
        return self.may_be_refused and is_refused(found.answer)


class Effort(NamedTuple):
    """How much of a task is tried: the number of torn writes between two syncs, of second power cuts, and of the
    moments of a kill and the failing syncs after which the power fails (all if None); and how many bytes at the start
    of the file a disk stores together."""
    torn: int
    seconds: int
    kills: int | None
    syncs: int | None
    whole: int = WHOLE


SHORT, LONG = Effort(4, 1, 10, 5), Effort(24, 4, None, None)


def told(now: bytes | None, old: bytes | None, new: bytes | None) -> str:
    if now is None:
        return "no file"
    same = [name for name, wanted in (("old", old), ("new", new)) if now == wanted]
    return f"{same[0] if same else 'another file'} of {len(now)} bytes, {now[:16]!r}"


class Cuts:
    """Tries the power failures of one task."""

    def __init__(self, place: Place, task: Task, check: Check, effort: Effort) -> None:
        self.place, self.task, self.check, self.effort = place, task, check, effort
        self.record, self.chance = place.folder / "record", random.Random(task.name)
        self.known: dict[bytes, Found] = {}
        self.old = place.old(task)
        plain = place.run(task, self.old)
        self.new, self.answer = plain.held, plain.answer

    def disk(self, held: bytes | None) -> Disk:
        return Disk.of(held or b"", self.effort.whole)

    # ---- runs

    def run(self, task: Task, begun: bytes | None, **settings: object) -> tuple[Answer, list[Change]]:
        """Runs a command with syncs. Returns its answer, and its changes of the file."""
        self.record.unlink(missing_ok=True)
        ran = self.place.run(task, begun, RECORD=self.record, RRDI_SYNC=1, **settings)
        return ran.answer, list(between.changes_of(self.record))

    def find(self, left: bytes) -> Found:
        """Returns what the next command finds in a file."""
        key = blake2b(left, digest_size=16).digest()
        if key not in self.known:
            put(self.place.file, left)
            answer, now = self.place.after_next()
            same = [wanted for wanted in (self.old, self.new) if now == wanted]
            self.known[key] = Found(answer, same[0] if same else now)
        return self.known[key]

    # ---- judgements

    def want(self, name: str, files: Iterable[Left], wanted: Wanted, what: str) -> None:
        """Checks what the next command finds in each of these files."""
        seen: set[bytes] = set()
        for left in files:
            if left.held in seen:
                continue
            seen.add(left.held)
            found = self.find(left.held)
            self.check.count(name)
            self.check(wanted.has(found), f"{self.task.name}, {what}, {left.what}: {found.answer}, "
                            f"{told(found.held, self.old, self.new)}")

    def either(self) -> Wanted:
        """Returns what may be found before a change has ended: the old database or the new one. If there was no old
        database, perhaps none."""
        if self.task.over_database:
            return Wanted((self.old, self.new))
        return Wanted((self.new,), may_be_refused=True)

    def follow(self, name: str, disk: Disk, changes: list[Change], ends: Wanted, what: str, first: int = 0) -> None:
        """Tries the files that a power failure may leave while a command makes these changes, from a change on, and
        after its end."""
        syncs = 0
        for number, change in enumerate(changes):
            if number >= first and change.name in ("fsync", "unsynced"):
                self.want(name, disk.files(self.chance, self.effort.torn), self.either(),
                          f"{what}, after {syncs} syncs")
            disk.apply(change)
            syncs += change.name == "fsync"
        self.want(name, disk.files(self.chance, self.effort.torn), ends, f"{what}, at the end")

    # ---- a change, and the command that recovers what it left

    def try_plain(self) -> list[Change]:
        answer, changes = self.run(self.task, self.old)
        self.check(answer == self.answer, f"{self.task.name}: with syncs {answer}, not {self.answer}")
        self.follow(CUTS, self.disk(self.old), changes, Wanted((self.new,)), "a power cut")
        if self.old is None:
            self.try_without_name()
        return changes

    def try_without_name(self) -> None:
        """Checks the answer if the directory did not store the name of a new file."""
        put(self.place.file, None)
        answer, now = self.place.after_next()
        self.check.count(CUTS)
        self.check(is_refused(answer) and now is None,
                   f"{self.task.name}, a power cut, the name is not stored: {answer}")

    def try_seconds(self, changes: list[Change]) -> None:
        """Cuts the power while a command recovers a file that a power cut left."""
        if not self.task.over_database:
            return
        marked = [left for left in self.files_between(changes) if (found := self.find(left)).answer.status == 0
                  and found.held != left]
        for left in self.chance.sample(marked, min(self.effort.seconds, len(marked))):
            _, changes = self.run(REPAIR, left)
            self.want_one(SECOND, self.disk(left), changes, self.find(left).held, "a power cut in the next command")

    def files_between(self, changes: list[Change]) -> list[bytes]:
        """Returns files that a power failure may leave between these changes, in a fixed order."""
        disk = self.disk(self.old)
        found: dict[bytes, None] = {}
        for change in changes:
            if change.name == "fsync":
                found.update((left.held, None) for left in disk.files(self.chance, 0))
            disk.apply(change)
        return list(found)

    def want_one(self, name: str, disk: Disk, changes: list[Change], wanted: bytes | None, what: str) -> None:
        """Checks that one database is found whenever the power fails."""
        for change in [*changes, None]:
            if change is None or change.name in ("fsync", "unsynced"):
                self.want(name, disk.files(self.chance, self.effort.torn), Wanted((wanted,)), what)
            if change is not None:
                disk.apply(change)

    # ---- a kill, after which the cache has more than the disk

    def try_after_kills(self, part: int, parts: int) -> None:
        """Kills the change, and cuts the power while the next command recovers what the cache has."""
        _, changes = self.run(self.task, self.old)
        moments = [number for number, change in enumerate(changes, 1) if change.name != "fsync"]
        for number in self.few(moments, self.effort.kills)[part::parts]:
            disk = self.disk(self.old)
            for change in changes[:number]:
                disk.apply(change)
            self.recover(AFTER_KILL, disk, f"killed after {number} changes", is_sure=True)

    def few(self, numbers: list[int], most: int | None) -> list[int]:
        """Returns some of these numbers: above all the last ones, where a change becomes valid."""
        if most is None or len(numbers) <= most:
            return numbers
        last = numbers[-most * 2 // 3:]
        return sorted([*self.chance.sample(numbers[:-len(last)], most - len(last)), *last])

    def recover(self, name: str, disk: Disk, what: str, is_sure: bool) -> None:
        """Cuts the power while the next command recovers the file that the cache has. If all syncs worked, the database
        that the command found stays after the command's end."""
        answer, changes = self.run(REPAIR, disk.cache)
        found = self.find(disk.cache)
        is_right = answer.status == 0 and found.held in (self.old, self.new)
        self.check(is_right, f"{self.task.name}, {what}: {answer}, {told(found.held, self.old, self.new)}")
        if changes:
            ends = Wanted((found.held,)) if is_sure else self.either()
            self.follow(name, disk, changes, ends, f"{what}, then a power cut in the next command")

    # ---- a sync that fails, after which the cache has more than the disk will ever get

    def try_after_syncs(self, part: int, parts: int) -> None:
        calls = self.place.run(self.task, self.old, RRDI_SYNC=1).calls
        syncs = [number for number, call in enumerate(calls, 1) if call.kind in SYNCS]
        for number in self.few(syncs, self.effort.syncs)[part::parts]:
            self.fail_sync(number, len(calls))

    def fail_sync(self, number: int, count: int) -> None:
        what = f"call {number} of {count}, a sync, fails"
        self.fail(what, CALL=number)
        self.fail(f"{what}, and each later one", CALL=number, MOVES=[-1] * FOR_GOOD)
        self.fail(f"{what}, then killed", CALL=number, KILL=number + 1)

    def fail(self, what: str, **settings: object) -> None:
        """Runs the change with a failing sync, and cuts the power from then on, also during the next command."""
        answer, changes = self.run(self.task, self.old, **settings)
        names = [change.name for change in changes]
        if "unsynced" not in names:
            return
        disk, is_killed = self.disk(self.old), answer.status == KILLED
        ends = Wanted((self.new,)) if answer.status == 0 else self.either()
        self.follow(AFTER_SYNC, disk, changes, ends, what, names.index("unsynced") + 1)
        if self.task.over_database and (is_killed or self.find(disk.cache).held != disk.cache):
            self.recover(AFTER_SYNC, disk, what, is_sure=False)
