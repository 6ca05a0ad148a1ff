# SPDX-License-Identifier: MIT OR Apache-2.0
"""A kill before each call of a change, and before each call of the next command: the command after those finds the old
database or the new one (docs/file-format.md). So it is after power failures with RRDI_SYNC=1 (support/cuts.py).

Changes of every kind: create with no file, on a database and on other bytes; updates that lengthen the file or keep
its length, of one page and of many; tune; resize up and down; revert; batches. The next command is `last`, and others
too. If there was no file, or the file was not a database, a killed create may leave bytes that the next command
refuses."""
from __future__ import annotations

from pathlib import Path

import pytest

from support import between as calls_between
from support.changes import FILE, REPAIR, Place, Task, changes, create, is_refused, locks_of
from support.check import Check
from support.cuts import AFTER_KILL, AFTER_SYNC, CUTS, LONG, SECOND, SHORT, Cuts, told
from support.program import KILLED, Answer, Program, held, put

KILLS, NEXT_KILLS = "kills", "kills and failing calls of the next command"
LEAST = {KILLS: 600, NEXT_KILLS: 9_300, CUTS: 2_270, SECOND: 320, AFTER_KILL: 850, AFTER_SYNC: 3_300}
LEAST_LONG = {NEXT_KILLS: 11_000, CUTS: 3_400, SECOND: 1_800, AFTER_KILL: 5_500, AFTER_SYNC: 40_000}
# The commands of which one follows a kill, beside the one that repairs the file.
NEXT = [("update", FILE, "1000000:7"), ("create", FILE, *create(3).split()[1:]), ("tune", FILE, "-a", "g:1000"),
        ("batch", FILE), ("revert", FILE)]
# The number of parts in which the kills of a task are tried: each part has one call in this number of calls.
FEW = 3
# The kinds of power failures, and the number of parts in which those of a task are tried.
POWER = {CUTS: 1, AFTER_KILL: 2, AFTER_SYNC: 2}
# The tasks whose power failures after a kill or after a failed sync a short run tries, and how those begin of which it
# tries none at all.
SHORT_TASKS = frozenset({"update that lengthens 1000 rows", "update of 4 rows, the journal full", "resize far down",
                         "revert of 1000 rows",
                         "create of 4 rows over a database of 4000", "update of many pages, the journal full"})
WITHOUT_CUTS = ("batch over 4000", "tune of 4000", "create of 4000")
TASKS = {task.name: task for task in changes()}


class Kills:
    """Tries the kills of one task."""

    def __init__(self, place: Place, task: Task, check: Check, is_long: bool) -> None:
        self.place, self.task, self.check, self.is_long = place, task, check, is_long
        self.old = place.old(task)
        plain = place.run(task, self.old)
        self.new, self.calls = plain.held, plain.calls
        answer, now = place.after_next()
        faults = task.faults(plain.answer, self.old, self.new)
        check(not faults, f"{task.name}: {'; '.join(faults)}")
        check(answer.status == 0 and now == self.new and self.new is not None, f"{task.name}: {plain.answer}, {answer}")

    def is_right(self, answer: Answer, now: bytes | None) -> bool:
        """Checks that the next command finds the old database or the new one; without an old database it may find
        none."""
        if answer.status == 0:
            return now == self.new or self.task.over_database and now == self.old
        return not self.task.over_database and is_refused(answer)

    def kill(self, number: int) -> None:
        ran, call = self.place.run(self.task, self.old, KILL=number), self.calls[number - 1]
        what = f"{self.task.name}, killed before call {number}, {call.kind} {' '.join(call.words)}"
        if number == len(self.calls) and ran.answer.status == 0 and ran.held == self.new:
            # The recorded run had one more call, such as a second try of a lock.
            self.check.count("runs of a call less")
            return
        self.check(ran.answer.status == KILLED, f"{what}: {ran.answer}")
        self.check.count(KILLS)
        read = self.place.plain(("last", FILE))
        # A command that reads changes nothing; but what opens a file and closes it repairs the file.
        is_kept = self.place.stays_open or held(self.place.file) == ran.held
        self.check(is_kept, f"{what}: a command that reads changes the file")
        answer, now = self.place.after_next()
        self.check(read == answer or not self.task.over_database, f"{what}: {read} is read, and {answer} after the repair")
        is_right = self.check(self.is_right(answer, now), f"{what}: {answer}, {told(now, self.old, self.new)}")
        self.check.count("files as after the change" if now == self.new else "files as before the change"
                         if now == self.old
                         else "new files without a database")
        if not is_right or not self.task.over_database:
            return
        for words in NEXT if self.is_long else [NEXT[number % len(NEXT)]]:
            self.try_next(words, ran.held, now, what)
        if ran.held != now:
            self.kill_next(ran.held, now, what, self.is_long or number % 2 == 1)

    def try_next(self, words: tuple[str, ...], left: bytes | None, now: bytes | None, what: str) -> None:
        """Checks that another next command does the same on the file that was left as on the database that the file
        represents."""
        results = []
        for begun in (left, now):
            put(self.place.file, begun)
            answer, _ = self.place.after_next(words, "last\n" if words[0] == "batch" else "")
            results.append((answer, self.place.after_next()[1]))
        self.check.count("other next commands")
        self.check(results[0] == results[1], f"{what}, then {words}: {results[0][0]}, not {results[1][0]}")

    def kill_next(self, left: bytes | None, now: bytes | None, what: str, has_create: bool) -> None:
        """Kills before each call of the command that recovers the file, and perhaps of a `create`."""
        for words, lines, settings in ((REPAIR.words, REPAIR.lines, ("KILL", "CALL")),
                                       (NEXT[1], "", ("KILL",)))[:1 + has_create]:
            put(self.place.file, left)
            self.place.log.unlink(missing_ok=True)
            self.place.plain(words, lines, LOG=self.place.log)
            made, calls = held(self.place.file), calls_between.calls_of(calls_between.events_of(self.place.log))
            unlocked = locks_of(calls, FILE, True)
            self.check(not unlocked, f"{what}, then `{words[0]}`: {'; '.join(unlocked[:3])}")
            for number in range(1, len(calls) + 1):
                for setting in settings:
                    put(self.place.file, left)
                    self.place.plain(words, lines, **{setting: number})
                    answer, found = self.place.after_next()
                    self.check.count(NEXT_KILLS)
                    self.check(answer.status == 0 and found in (now, made),
                               f"{what}, then {setting} {number} of `{words[0]}`: "
                               f"{answer}, {told(found, self.old, self.new)}")


def try_kills(place: Place, task: Task, part: int, check: Check, is_long: bool) -> None:
    kills = Kills(place, task, check, is_long)
    for number in range(1 + part, len(kills.calls) + 1, FEW):
        kills.kill(number)


def try_power(cuts: Cuts, kind: str, part: int) -> None:
    """Tries one kind of power failures of a task: during the change, after a kill, or after a sync that failed."""
    if kind == CUTS:
        cuts.try_seconds(cuts.try_plain())
    elif kind == AFTER_KILL:
        cuts.try_after_kills(part, POWER[kind])
    else:
        cuts.try_after_syncs(part, POWER[kind])


def has_power(kind: str, task: Task, is_long: bool) -> bool:
    """Checks whether these power failures of a task are tried."""
    if kind == AFTER_KILL and not task.over_database:
        return False
    return is_long or (not task.name.startswith(WITHOUT_CUTS) if kind == CUTS else task.name in SHORT_TASKS)


def pytest_generate_tests(metafunc: pytest.Metafunc) -> None:
    if "kind" in metafunc.fixturenames:
        is_long = metafunc.config.getoption("long")
        metafunc.parametrize("kind, name, part", [(kind, name, part) for kind, parts in POWER.items() for name,
                                                  task in TASKS.items()
                                                  if has_power(kind, task, is_long) for part in range(parts)])


@pytest.mark.parametrize("part", range(FEW))
@pytest.mark.parametrize("name", TASKS)
def test_kills(name: str, part: int, program: Program, between: str, folder: Path, check: Check, is_long: bool) -> None:
    place = Place(program, between, folder)
    try_kills(place, TASKS[name], part, check, is_long)
    check.count("runs", place.count)


def test_power(kind: str, name: str, part: int, program: Program, between: str, folder: Path, check: Check,
               is_long: bool) -> None:
    place = Place(program, between, folder)
    try_power(Cuts(place, TASKS[name], check, LONG if is_long else SHORT), kind, part)
    check.count("runs", place.count)
