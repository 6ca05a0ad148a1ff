# SPDX-License-Identifier: MIT OR Apache-2.0
"""The order of the calls on a file, by a log of between.c: the lock first, then what is known of the file, then its
bytes.

`changes.locks_of` finds a call without its lock. This module finds what a lock alone does not prevent: a length from
before the lock, a file that has lost its name, a lock that is given up and taken again in between."""
from __future__ import annotations

from dataclasses import dataclass
from typing import Iterable, Iterator

from support.between import Event
from support.changes import LOCK_EX, LOCK_SH, LOCK_UN

READS, WRITES = frozenset({"read", "pread"}), frozenset({"pwrite", "write", "ftruncate", "fsync", "fdatasync"})
# The number by which the log names a call on a path.
PATH = -100


@dataclass
class Opened:
    """What a run has done to an open file: its lock, and whether it has asked for the file's length, and which file
    has the name, under this lock."""
    lock: int = 0
    is_measured: bool = False
    is_named: bool = False

    def take(self, lock: int) -> None:
        """Notes a lock. What is known of the file stays known while the lock is only turned into another one."""
        is_kept = self.lock != 0 and lock != 0
        self.lock, self.is_measured, self.is_named = lock, is_kept and self.is_measured, is_kept and self.is_named

    def lacks(self, kind: str) -> str:
        """Returns what a call on the bytes lacks."""
        if not self.lock:
            return "no lock"
        if kind in WRITES and self.lock != LOCK_EX:
            return "a shared lock"
        return "an old length" if not self.is_measured else "an old name" if not self.is_named else ""


def faults_of(calls: Iterable[Event], file: str) -> list[str]:
    """Returns the calls on the bytes of a file before its lock, its length or its name was known, or after the lock
    was given up. A copy of a descriptor is the same open file."""
    faults: list[str] = []
    handles: dict[int, Opened] = {}
    for number, call in enumerate(calls, 1):
        opened = handles.get(call.file)
        if call.kind == "open" and call.words[4:] == [file] and call.got >= 0:
            handles[call.got] = Opened()
        elif call.kind == "statx" and call.file == PATH and call.got == 0:
            for it in handles.values():
                it.is_named = it.is_named or it.lock != 0
        elif opened and call.kind == "fcntl" and call.got > 2:
            handles[call.got] = opened
        elif opened and call.kind == "flock":  # one that fails takes the lock away that the file had
            opened.take(call.size & (LOCK_SH | LOCK_EX) if call.got == 0 and not call.size & LOCK_UN else 0)
        elif opened and call.kind in ("statx", "fstat"):
            opened.is_measured = opened.lock != 0
        elif opened and call.kind in READS | WRITES and opened.lacks(call.kind):
            faults.append(f"call {number}, {call.kind}, is made under {opened.lacks(call.kind)}")
    return faults


def parts_of(events: Iterable[Event]) -> Iterator[list[Event]]:
    """Yields the calls of each call of the library, as opened.c marks them."""
    part: list[Event] = []
    for event in events:
        if event.kind == "pause":
            yield part
            part = []
        elif event.is_call:
            part.append(event)


def faults_of_open(events: Iterable[Event], file: str) -> list[str]:
    """Returns what is wrong with the calls of the library while a file stays open; the first part opens the file, and the
    last one closes it. None opens the file again, or gives up its lock; and each leaves a shared lock, so that others can
    read the file."""
    parts = list(parts_of(events))
    faults = [f"call {number} of the open file: {call.kind} {' '.join(call.words)}" for number,
              part in enumerate(parts[1:-1], 1) for call in part
              if call.kind == "flock" and (call.got != 0 or call.size & LOCK_UN)
              or call.kind == "open" and call.words[4:] == [file]]
    for number, part in enumerate(parts[:-1]):
        locks = [call.size & (LOCK_SH | LOCK_EX) for call in part if call.kind == "flock"]
        if locks and locks[-1] != LOCK_SH:
            faults.append(f"call {number} of the open file leaves its lock to nobody else")
    return faults
