# SPDX-License-Identifier: MIT OR Apache-2.0
"""Each system call of a command fails in turn, and the next command finds the right database (docs/commands.md).

For each call that opens, locks, queries, truncates, syncs, reads or writes:

- The call fails, alone, and with each later call that changes a file. A failed sync of a change must be reported,
  unless it comes when a file is closed that stayed open.
- A signal interrupts the call once, and 1,000 times in succession. 1,001 times may be a fault.
- The call moves only some of its bytes. The next call of the same kind on that file moves another number, or fails. The
  one write of a small file may be a fault then; every other call is made again.
- The disk is full: from this call on, no byte after some of the bytes of a written file can be written.
- The call moves only some of its bytes, 1,001 later ones are interrupted, and then a kill ends the program.
- Another program holds the lock, once, and ten times in succession; with RRDI_WAIT=0 always.
- A signal interrupts the lock, once, and ten times in succession: the run then still locks the file.
- The file system has no locks: the run goes on. A lock that fails for any other reason ends the run.
- The process is forked while it holds the lock: the child that lives on must not keep the lock.

All this also on files whose last change was interrupted. If FILE cannot be opened, read or written, one more line
gives the reason. After a fault the next command must find the old database before the commit, and the new one from
then on, as after a kill. If all later writes failed too, it may find either.
The log of the calls must show that the program reads and writes only under the lock that the call needs."""
from __future__ import annotations

import errno
import os
import signal
from functools import cached_property
from pathlib import Path
from typing import Any

import pytest

from support import between as calls_between
from support.changes import (FILE, LOCK_UN, SYNCS, Place, Ran, Task, changes, is_refused, locks_of,
                             over_interrupted,
                             readings)
from support.check import Check
from support.program import KILLED, WITH_REASON, Answer, Program, error, parted, put

FAILED = "calls that failed"
# The least numbers of tries, in the short mode and with --long.
LEAST = {FAILED: 1_010, "runs": 10_100, "short calls": 1_800, "interrupted calls": 640, "writes cut for good": 440}
LEAST_LONG = {FAILED: 5_200, "runs": 47_500}
# The faults that may be reported if a call of this kind fails.
FAULTS = {
    "open": {"cannot open", "cannot write"}, "fcntl": {"cannot open", "cannot write"},
    "statx": {"cannot open", "cannot write", "file: read failed"},
    "fstat": {"cannot open", "cannot write", "file: read failed"},
    "flock": {"cannot open", "cannot write"}, "read": {"file: read failed", "cannot open", "cannot write"},
    "pread": {"file: read failed", "cannot open", "cannot write"},
}
STANDARD_ERROR = 2
STREAMS = {0: "read failed", 1: "write failed"}
# A task is tried in parts, which run side by side.
PIECES = 3
# The answers of a system that has no locks, and those by which only this lock fails.
NO_LOCKS, LOCK_FAILS = (errno.ENOSYS, errno.EOPNOTSUPP, errno.EINVAL), (errno.ENOLCK, errno.EIO, errno.EBADF)
# The first bytes of a file, which a kill leaves whole, and the most bytes of a mark; the small program's have 64.
FIRST, MARK = 16, 64
# How often a call is interrupted before the program gives up, and the numbers of calls after that before which a kill
# comes.
GIVES_UP, KILLS_AFTER = 1_001, (1, 2, 4, 7)
# The changes of a short run have names that begin so: one change of each kind, on a file of one page and on a file of
# many pages, and the readings.
SHORT = ("create of 4 rows over", "create of 4000 rows over nothing", "create of 4000 rows over a database of 4000",
         "create of 1000 rows over a database of 4000", "update of many pages", "update that lengthens 4",
         "update of 4 rows",
         "update that lengthens 1000", "tune of 4 rows", "resize far", "revert of 1000", "batch over 4",
         "batch over 1000", "batch over nothing",
         "last of", "fetch of 4 rows", "info of 4000", "last over a change without its last two calls, 1000",
         "last over a change without its last three calls, 1000", "update over a change without its last call, 4",
         "update over a change without its last three calls, 1000",
         "update over a change without its last four calls, 1000", "last over a change of two calls, 1000",
         "a refused update over a change without its last three calls, 4",
         "create over a change without its last two calls, 1000")
TASKS = {task.name: task for task in changes() + readings() + over_interrupted()}


def is_reason(reason: str, why: int | None) -> bool:
    """Checks whether a run gives a reason, and that of this error number if there is one."""
    if why is None:
        return reason != ""
    return reason.lower() in (os.strerror(why).lower(), f"{os.strerror(why)} (os error {why})".lower())


def writes_mark(call: calls_between.Event) -> bool:
    return call.kind == "pwrite" and call.at == 0 and call.size <= MARK


def writes_page(call: calls_between.Event) -> bool:
    """Checks whether one write is the whole change."""
    return call.kind == "pwrite" and call.at == 0 and call.size > MARK


class Faults:
    """Tries the faults of one task."""

    def __init__(self, place: Place, task: Task, check: Check, **always: object) -> None:
        self.place, self.task, self.check, self.always = place, task, check, always
        self.old = place.old(task)
        self.plain = place.run(task, self.old, **always)
        _, self.new = place.after_next()
        self.fronts = self.files_of_fronts() if task.is_batch else set()

    def try_plain(self) -> None:
        faults = [*self.task.faults(self.plain.answer, self.old, self.new),
                  *locks_of(self.plain.calls, FILE, not self.task.reads)]
        self.check(not faults, f"{self.task.name}: {'; '.join(faults[:3])}")
        wanted = self.place.begun(self.task, self.old) if self.task.reads else self.new
        self.check(self.plain.held == wanted, f"{self.task.name}: it leaves another file than the next command finds")
        self.try_forks()

    def files_of_fronts(self) -> set[bytes | None]:
        """Returns the file after each prefix of a batch: if a stream fails, the batch ran up to some line."""
        found = {self.old}
        for lines in self.task.fronts():
            put(self.place.file, self.old)
            self.place.plain(self.task.words, lines)
            found.add(self.place.after_next()[1])
        return found

    @cached_property
    def commit(self) -> int:
        """Returns the number of the first call before which a kill leaves the new database."""
        first, behind = 1, len(self.plain.calls) + 1
        while first < behind and self.old != self.new:
            middle = (first + behind) // 2
            self.place.run(self.task, self.old, **self.always, KILL=middle)
            first, behind = (first, middle) if self.place.after_next()[1] == self.new else (middle + 1, behind)
        return behind

    # ---- the results that are right

    def run(self, what: str, faults: set[str], may_be_either: bool = False, may_be_refused: bool = False,
            must_be_whole: bool = False, why: int | None = None, **settings: object) -> Ran:
        """Runs the task with a fault, and checks the answer and the database that the next command finds. `why` is the
        error number of the call, if it must be the reason."""
        if why is not None:
            settings["WHY"] = why
        ran = self.place.run(self.task, self.old, **self.always, **settings)
        answer, now = self.place.after_next()
        what = f"{self.task.name}, {what}: {ran.answer}, then {answer}, a file of {len(now or b'')} bytes"
        is_kept = not self.task.reads or ran.held == self.place.begun(self.task, self.old)
        self.check(is_kept, f"{what}: a command that reads changes the file")
        if ran.answer == self.plain.answer:
            is_right = now == self.new or may_be_either and now == self.old or may_be_refused and is_refused(answer)
            self.check(is_right, f"{what}, not as without a fault")
            self.check.count("faults that were not reported")
            return ran
        told, reason = parted(ran.answer.err)
        is_told = told in map(error, faults) and (told not in WITH_REASON or is_reason(reason, why))
        is_front = self.plain.answer.out.startswith(ran.answer.out)
        self.check(ran.answer.status == 1 and is_told and is_front and not must_be_whole,
                   f"{what}, not {sorted(faults)}")
        self.check(self.is_left(now, answer, may_be_either, may_be_refused, faults), f"{what}, {self.same(now)}")
        return ran

    def is_left(self, now: bytes | None, answer: Answer, may_be_either: bool, may_be_refused: bool,
                faults: set[str]) -> bool:
        if faults & set(STREAMS.values()):
            return now in self.fronts or now == self.old or now == self.new and self.task.is_batch
        if may_be_either and now in (self.old, self.new) or now == (self.new if self.is_committed else self.old):
            return True
        return is_refused(answer) and (not self.task.over_database or may_be_refused)

    def same(self, now: bytes | None) -> str:
        if now in (self.old, self.new):
            return "the old file" if now == self.old else "the new file"
        return f"another file: {(now or b'')[:16]!r}"

    # ---- the faults of a call

    def try_call(self, number: int) -> None:
        call = self.plain.calls[number - 1]
        what = f"call {number}, {call.kind} {' '.join(call.words)},"
        is_stream = call.kind in ("read", "write") and call.file in STREAMS
        faults = {STREAMS[call.file]} if is_stream else FAULTS.get(call.kind, {"cannot write"})
        changes_file = call.kind in calls_between.CHANGING
        self.is_committed = self.commit <= number
        if call.kind == "write" and call.file == STANDARD_ERROR:
            self.try_error_stream(number, what)
            return
        if call.kind == "flock" and call.size & LOCK_UN:
            self.run(f"{what} fails", set(), must_be_whole=True, CALL=number)
        elif call.kind == "flock" and self.place.stays_open and self.has_lock(number):
            self.try_turn(number, what)
        elif call.kind == "flock":
            self.try_lock(number, what)
            self.try_without_locks(number, what)
        else:
            self.try_failure(number, call, what, faults)
        if changes_file:
            self.run(f"{what} and each later change fail", faults, may_be_either=True, FROM=number)
            self.check.count("calls that failed for good")
        if call.kind in calls_between.MOVING and call.size > 0 and not (call.kind == "read" and call.file == 0
                                                                        and call.got == 0):
            self.try_short(number, call, what, faults)
            self.try_interrupts(number, what, faults)
        if call.kind == "pwrite":
            self.try_cuts(number, call, what)

    def try_failure(self, number: int, call: calls_between.Event, what: str, faults: set[str]) -> None:
        for why in (errno.EIO, errno.ENOSPC) if call.kind in calls_between.CHANGING else (errno.EIO,):
            ran = self.run(f"{what} fails", faults, why=why, CALL=number)
            self.check.count(FAILED)
            is_over = self.is_committed and self.place.stays_open
            if call.kind in SYNCS and not is_over and self.old != self.new:
                self.check(ran.answer != self.plain.answer, f"{self.task.name}, {what} fails: not reported")

    def try_error_stream(self, number: int, what: str) -> None:
        """Lets the report of a refusal fail, which nothing can report: the status, the output and FILE must be as without
        a fault, and so must the report after a short write."""
        plain = self.place.run(self.task, self.old, True, **self.always).answer
        # The second line is written although the first one could not be.
        first, _, second = plain.err.partition("\n")
        fronts = {plain.err[:end] for end in range(len(plain.err))} | {first[:end] + second for end in range(len(first))}
        settings: list[dict[str, Any]] = [{}, {"MOVES": [1]}, {"MOVES": [1, -1]}, {"INTERRUPTS": 1_001}]
        for more in settings:
            ran = self.place.run(self.task, self.old, True, **self.always, CALL=number, **more)
            _, now = self.place.after_next()
            is_whole = ran.answer.err == plain.err
            is_front = more != {"MOVES": [1]} and ran.answer.err in fronts
            is_right = ran.answer[:2] == plain[:2] and (is_whole or is_front)
            self.check(is_right and now == self.new,
                       f"{self.task.name}, {what} fails {more}: {ran.answer}, {self.same(now)}")
            self.check.count(FAILED)

    def try_lock(self, number: int, what: str) -> None:
        """Checks that a run waits for another program's lock for as long as the manual says, and goes on without
        locks."""
        lock = {"cannot open", "cannot write"}
        for times in (1, 10):
            self.run(f"{what} is held by another {times} times", lock, must_be_whole=True, CALL=number,
                     WHY=errno.EAGAIN,
                     MOVES=[-1] * times)
            self.check.count(FAILED)
        ran = self.run(f"{what} is held by another for good", lock, CALL=number, WHY=errno.EAGAIN, MOVES=[-1] * 16,
                       RRDI_WAIT=0)
        self.check(ran.answer != self.plain.answer,
                   f"{self.task.name}, {what} is held by another for good: {ran.answer}")
        for times in (1, 10):
            ran = self.run(f"{what} is interrupted {times} times", lock, must_be_whole=True, CALL=number,
                           WHY=errno.EINTR,
                           MOVES=[-1] * times)
            unlocked = locks_of(ran.calls, FILE, not self.task.reads)
            self.check(not unlocked, f"{self.task.name}, {what} is interrupted: {'; '.join(unlocked[:3])}")
            self.check.count(FAILED)
        self.check.count(FAILED)

    def has_lock(self, number: int) -> bool:
        """Checks whether the run has a lock before a call, and only turns it into another one then."""
        return any(call.kind == "flock" and not call.size & LOCK_UN for call in self.plain.calls[:number - 1])

    def try_turn(self, number: int, what: str) -> None:
        """Checks that an open file whose lock cannot be turned at once is let go, and opened again or not at all."""
        lock = {"cannot open", "cannot write"}
        for why in (errno.EAGAIN, errno.EINTR):
            self.run(f"{what} is not turned, error {why}", lock, CALL=number, WHY=why, MOVES=[-1])
            self.check.count(FAILED)
        for why in LOCK_FAILS:
            self.run(f"{what} is not turned, error {why}", lock, why=why, CALL=number)
            self.check.count(FAILED)

    def try_without_locks(self, number: int, what: str) -> None:
        """Checks that a run goes on only if the system has no locks."""
        for why in NO_LOCKS:
            self.run(f"{what} finds no locks, error {why}", set(), must_be_whole=True, CALL=number, WHY=why)
        for why in LOCK_FAILS:
            ran = self.run(f"{what} fails with error {why}", {"cannot open", "cannot write"}, why=why, CALL=number)
            self.check(ran.answer != self.plain.answer,
                       f"{self.task.name}, {what} fails with error {why}: {ran.answer}")
            self.check.count(FAILED)
        self.check.count(FAILED, len(NO_LOCKS))

    def try_forks(self) -> None:
        """Forks the process after each lock that it takes: the next command must find no lock."""
        for number, call in enumerate(self.plain.calls, 1):
            if call.kind == "flock" and call.got == 0 and not call.size & LOCK_UN:
                ran = self.place.run(self.task, self.old, **self.always, FORK=number + 1)
                answer, _ = self.place.after_next(("tune", FILE, "-i", "g:7"), RRDI_WAIT=0)
                children = [event.file for event in ran.events if event.kind == "fork"]
                for child in children:
                    os.kill(child, signal.SIGKILL)
                is_free = not answer.err.startswith(error("cannot open"))
                what = f"{self.task.name}, a child that was forked lives on, {number}: {ran.answer}, then {answer}"
                self.check(len(children) == 1 and ran.answer == self.plain.answer and is_free, what)
                self.check.count("children that live on", len(children))

    def try_short(self, number: int, call: calls_between.Event, what: str, faults: set[str]) -> None:
        half, most = max(call.size // 2, 1), max(call.size - 1, 1)
        for count in sorted({1, half, most}):
            self.run(f"{what} moves {count} bytes", faults, must_be_whole=not writes_page(call), CALL=number,
                     MOVES=[count])
            self.check.count("short calls")
        # If a write of a mark fails after one part of the bytes was written, which no system does, the only requirement
        # is that no mixture is read.
        is_mark = writes_mark(call)
        if self.writes_front(call):
            return
        for moves in ([half, 1], [1, half], [most, half], [half, -1], [half, 1, -1], [1, half, -1]):
            self.run(f"{what} moves {moves} bytes, one call after the other", faults, may_be_either=is_mark,
                     may_be_refused=is_mark, CALL=number, MOVES=moves)
            self.check.count("short calls")
        if call.kind == "pwrite" and call.at >= FIRST:
            self.try_short_and_killed(number, call, what)

    def try_short_and_killed(self, number: int, call: calls_between.Event, what: str) -> None:
        """Lets the program write a part of the bytes, interrupts it until it gives up, and kills it somewhat later."""
        given_up: dict[str, Any] = {"CALL": number, "MOVES": [max(call.size // 2, 1)], "INTERRUPTS": GIVES_UP}
        what = f"{what} moves half, is interrupted {GIVES_UP} times"
        self.run(what, {"cannot write"}, **given_up)
        for later in KILLS_AFTER:
            ran = self.place.run(self.task, self.old, **self.always, KILL=number + GIVES_UP + later, **given_up)
            answer, now = self.place.after_next()
            is_right = answer.status == 0 and now in (self.old,
                                                      self.new) or not self.task.over_database and is_refused(answer)
            self.check(is_right,
                       f"{self.task.name}, {what}, {later} calls later killed: {ran.answer}, then {answer}, "
                       f"{self.same(now)}")
            self.check.count("kills after interrupted calls", ran.answer.status == KILLED)

    def try_interrupts(self, number: int, what: str, faults: set[str]) -> None:
        for times in (1, 1_000, 1_001):
            self.run(f"{what} is interrupted {times} times", faults, must_be_whole=times < 1_001, CALL=number,
                     INTERRUPTS=times)
            self.check.count("interrupted calls")

    def writes_front(self, call: calls_between.Event) -> bool:
        """Checks whether a write puts the first bytes of the new database in place of the mark that commits it. The
        definitions say that such a write has all of the bytes or none: a part of them could be another database."""
        return self.is_committed and writes_mark(call) and call.size == FIRST

    def try_cuts(self, number: int, call: calls_between.Event, what: str) -> None:
        """Tries a full disk: bytes that the file had can be written, but no bytes after some offset. The file has those
        of a mark before they are written."""
        if writes_mark(call):
            return
        lengths = range(1, call.size) if call.size <= 16 else sorted({1, 2, 3, call.size // 3, call.size // 2,
                                                                      call.size - 1})
        for length in lengths:
            is_behind = call.at + length >= len(self.place.begun(self.task, self.old) or b"")
            self.run(f"{what} ends for good after {length} bytes", {"cannot write"}, may_be_either=not is_behind,
                     may_be_refused=not is_behind, CALL=number, CUT=length)
            self.check.count("writes cut for good")


def try_piece(place: Place, task: Task, piece: int, check: Check, has_syncs: bool) -> None:
    """Tries a part of the calls of a task, without syncs and perhaps with them."""
    settings: list[dict[str, Any]] = [{}, {"RRDI_SYNC": 1}]
    for always in settings[:1 + has_syncs]:
        faults = Faults(place, task, check, **always)
        if piece == 0:
            faults.try_plain()
        for number in range(1 + piece, len(faults.plain.calls) + 1, PIECES):
            faults.try_call(number)
    check.count("runs", place.count)


def pytest_generate_tests(metafunc: pytest.Metafunc) -> None:
    is_long = metafunc.config.getoption("long")
    metafunc.parametrize("name", [name for name in TASKS if is_long or name.startswith(SHORT)])
    metafunc.parametrize("piece", range(PIECES))


def test_each_call(name: str, piece: int, program: Program, between: str, folder: Path, check: Check,
                   is_long: bool) -> None:
    task = TASKS[name]
    has_syncs = not task.reads and (is_long or name.endswith("lengthens 1000 rows"))
    try_piece(Place(program, between, folder), task, piece, check, has_syncs)
