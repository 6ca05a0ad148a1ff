# SPDX-License-Identifier: MIT OR Apache-2.0
"""Files that a recorder keeps open from one batch to the next, for a moment.

To open, read and decode a file is most of a batch's work. But as long as a file is open, nobody else can change it. So a
file stays open only if it came back soon, and not for long: then others, who wait for seconds, get their turn.
"""
from __future__ import annotations

import atexit
import os
import resource
import threading
import time
from collections import OrderedDict
from contextlib import suppress
from typing import Callable, List, NamedTuple, Optional, Tuple
from weakref import WeakSet

from .commands import Batch, Lines, batch_of, lines_of, text_of_lines, wait_to_change
from .environment import is_synced, milliseconds
from .errors import CANNOT_OPEN, EXPLAINED, LOCKED, OK
from .library import the_library
from .locks import Identity, identity_at
from .protocol import CLOSED, Answer, OpenedFile
from .words import FilePath, encoded_path, present

HARMLESS = EXPLAINED | {OK}  # faults after which a file may stay open
MEGABYTE = 1 << 20
MEMORY_OF_A_FILE, MEMORY_OF_A_BYTE = 49_152, 2  # that an open file takes: so much, and so much for each of its bytes
MOST_FILES = 1_000_000
PART, LONGEST_PAUSE = 8, 5.0  # a look for old files comes after so small a part of their time, and after so many seconds


class OpenBounds(NamedTuple):
    """How many files stay open (0: none), for how many seconds from the opening on, and with how many MB of memory. Half of
    the open files that the system allows a process are left to others."""

    files: int = 256
    seconds: float = 2
    memory: int = 64


class SeenFile:
    """A file that a batch has changed at the time `when`, and perhaps the open file, until a time."""

    def __init__(self, when: float):
        self.when, self.until, self.memory = when, 0.0, 0
        self.opened: Optional[OpenedFile] = None
        self.identity: Optional[Identity] = None


class Lent:
    """What a batch may use in a block: the open file; otherwise the path. `busy` is the answer if another program has held the
    lock for so long that the batch need not wait once more. A file stays open only if the batch sets `is_sound`."""

    known: SeenFile
    opened: Optional[OpenedFile]

    def __init__(self, files: OpenFiles, path: bytes):
        self._files, self._path = files, path
        self.busy: Optional[Answer] = None
        self.is_sound = False

    def __enter__(self) -> Lent:
        self.known, self.busy = self._files.take(self._path)
        self.opened = self.known.opened
        return self

    def __exit__(self, *_: object) -> None:
        self._files.give_back(self._path, self.known, self.is_sound)


class OpenFiles:
    """Open files by their paths. Several threads may call, but only one at a time for one path.

    A file is opened if it is among the last `files` that had a batch, and had one in the last `seconds`. So of more files
    that take turns none is opened in vain. It is closed after a fault, if its path names another file or none by now, if it
    is the one that was not used for longest and there are too many, and when its time is over: then the next batch goes by
    the path, and in between others can change the file.
    """

    def __init__(self, bounds: OpenBounds = OpenBounds(), clock: Callable[[], float] = time.monotonic):
        self.bounds, self._clock = bounds._replace(files=min(bounds.files, most_files())), clock
        self._known: OrderedDict[bytes, SeenFile] = OrderedDict()  # those in use are not there
        self._opened: WeakSet[SeenFile] = WeakSet()  # those that have an open file, in use or not
        self._timer: Optional[threading.Thread] = None
        self._guard = threading.Lock()
        _all.add(self)

    def batch(self, path: FilePath, lines: Lines) -> Batch:
        """Runs lines as `rrdi.batch` does."""
        given, name = lines_of(lines), encoded_path(path)
        text, now = text_of_lines(given), present(None)
        with self.lend(name) as lent:
            answer = lent.busy or (CLOSED if lent.opened is None else lent.opened.batch(text, now))
            lent.is_sound = answer.fault in HARMLESS
        if answer[:2] == CLOSED[:2]:  # also if a fork has closed it before the batch
            wait = wait_to_change(name, milliseconds(None))
            answer = the_library().batch_file(name, text, now, wait, is_synced(None))
        return batch_of(given, answer, path)

    def lend(self, path: bytes) -> Lent:
        """Lends an open file to one batch, or tells it to go by the path."""
        return Lent(self, path)

    def close(self, path: bytes) -> None:
        """Closes a file, by whatever name it was opened, for a change of another kind. Its next batch goes by the path."""
        identity = identity_at(path)
        self._close_each(lambda other, known: other == path or known.identity == identity)

    def close_all(self) -> None:
        self._close_each(lambda path, known: True)

    def open_paths(self) -> List[bytes]:
        """Returns the paths of files that are open and not in use."""
        with self._guard:
            return [path for path, known in self._known.items() if known.opened is not None]

    # ---- One batch

    def take(self, path: bytes) -> Tuple[SeenFile, Optional[Answer]]:
        """Returns the file for `Lent`, perhaps open, and an answer if another program holds its lock for too long."""
        if self.bounds.files == 0:
            return SeenFile(0), None
        now = self._clock()
        with self._guard:
            known = self._known.pop(path, None)
        if known is None or known.opened is not None:
            if known is not None and now < known.until and known.opened is not None and known.opened.is_current():
                known.when = now
                return known, None
            self._let_go(known)
            return SeenFile(now), None
        is_soon, known.when = now - known.when < self.bounds.seconds, now
        return known, self._open(path, known) if is_soon else None

    def _open(self, path: bytes, known: SeenFile) -> Optional[Answer]:
        """Opens a file if there is room. Returns an answer if another program holds its lock for too long."""
        identity = identity_at(path)
        known.memory = MEMORY_OF_A_FILE + MEMORY_OF_A_BYTE * length_at(path)
        if identity is None or self._memory() + known.memory > self.bounds.memory * MEGABYTE:
            return None
        self._close_each(lambda other, one: one.identity == identity)  # the same file, by another name
        answer, opened = the_library().open(path, milliseconds(None), is_synced(None))
        if opened is None:
            known.when -= self.bounds.seconds  # the next batch does not try it again
            return answer if answer.fault == CANNOT_OPEN and answer.system_error in LOCKED else None
        if identity_at(path) != identity:  # another file has taken the name meanwhile
            opened.close()
            return None
        opened.device, opened.inode = known.identity = identity
        known.opened, known.until = opened, known.when + self.bounds.seconds
        with self._guard:
            self._opened.add(known)
        return None

    def _memory(self) -> int:
        """Returns how many bytes the open files take."""
        with self._guard:
            return sum(known.memory for known in self._opened)

    def give_back(self, path: bytes, known: SeenFile, is_sound: bool) -> None:
        """Takes the file of `Lent` back."""
        if self.bounds.files == 0:
            return
        if known.opened is not None and not (is_sound and self._may_stay(known, known.opened)):
            self._let_go(known)
        with self._guard:
            others = [self._known.pop(path, None)]  # another thread, against the rule
            self._known[path] = known
            while len(self._known) > self.bounds.files:
                others.append(self._known.popitem(last=False)[1])
        for other in others:
            self._let_go(other)

    def _may_stay(self, known: SeenFile, opened: OpenedFile) -> bool:
        return self._clock() < known.until and self._has_timer() and opened.is_current()

    # ---- Closing

    def _let_go(self, known: Optional[SeenFile]) -> None:
        if known is None or known.opened is None:
            return
        opened, known.opened, known.identity = known.opened, None, None
        with self._guard:
            self._opened.discard(known)
        opened.close()

    def _close_each(self, is_meant: Callable[[bytes, SeenFile], bool]) -> None:
        """Closes files that are open and not in use."""
        with self._guard:
            meant = [path for path, known in self._known.items() if known.opened is not None and is_meant(path, known)]
            found = [self._known.pop(path) for path in meant]
        for known in found:
            self._let_go(known)

    def _has_timer(self) -> bool:
        """Begins the thread that closes files when their time is over. Returns whether it runs."""
        with self._guard:
            if self._timer is not None and self._timer.is_alive():
                return True
            timer = threading.Thread(target=self._close_old, daemon=True)
            try:
                timer.start()
            except (RuntimeError, MemoryError):  # the system has no room for a thread
                return False
            self._timer = timer
            return True

    def _close_old(self) -> None:
        while True:
            time.sleep(min(self.bounds.seconds / PART, LONGEST_PAUSE))
            with suppress(MemoryError):  # then at the next look
                now = self._clock()
                self._close_each(lambda path, known: now >= known.until)
            with self._guard:
                if not self._opened:
                    self._timer = None
                    return

    def after_fork_in_child(self) -> None:
        """Forgets the files: the child has no right to them, nor a thread that would close them."""
        self._guard, self._timer = threading.Lock(), None
        self._known, self._opened = OrderedDict(), WeakSet()


def most_files() -> int:
    allowed = resource.getrlimit(resource.RLIMIT_NOFILE)[0]
    return MOST_FILES if allowed == resource.RLIM_INFINITY else allowed // 2


def length_at(path: bytes) -> int:
    try:
        return os.stat(path).st_size
    except OSError:
        return 0


_all: WeakSet[OpenFiles] = WeakSet()


def _close_all() -> None:
    for files in list(_all):
        files.close_all()


def _after_fork_in_child() -> None:
    for files in list(_all):
        files.after_fork_in_child()


atexit.register(_close_all)
os.register_at_fork(after_in_child=_after_fork_in_child)
