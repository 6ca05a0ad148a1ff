# SPDX-License-Identifier: MIT OR Apache-2.0
"""Locks on open files, as rrdi takes them (`flock`).

A lock belongs to the open file, not to the process: a child that was forked while the file was open has the lock too,
as long as the child lives. So whoever took a lock gives it up by `unlock` before it closes the file, and a child gives
up the files that its parent had locked.

A file that is open is an object from the beginning (`open_file`), so an exception at any moment closes it at last.
"""
from __future__ import annotations

import errno
import fcntl
import io
import os
import stat
import time
from contextlib import contextmanager
from functools import lru_cache, partial
from operator import methodcaller
from typing import Any, Callable, Iterable, Iterator, List, Optional, Protocol, Tuple, TypeVar, Union
from weakref import WeakValueDictionary

SHARED, EXCLUSIVE = fcntl.LOCK_SH, fcntl.LOCK_EX
FIRST_PAUSE, LONGEST_PAUSE = 0.001, 0.005  # seconds
OPENINGS = 100  # if another program replaces the file each time, while this one waits for the lock
INTERRUPTIONS = 1_000  # of a call, in a row
MOST_NUMBERS = 1_024  # of open files that are looked at where the system does not list them
# What the system answers if the file system has no locks, as rrdi takes it. Any other error is one: after ENOLCK, for
# example, another program may hold the lock.
NO_LOCKS = frozenset({errno.ENOSYS, errno.EOPNOTSUPP, errno.ENOTSUP, errno.EINVAL})


Identity = Tuple[int, int]  # the device and the inode
Kept = TypeVar("Kept")


def identity_of(found: os.stat_result) -> Identity:
    """Returns which file it is: its device and its inode."""
    return found.st_dev, found.st_ino


def state_of(found: os.stat_result) -> Tuple[int, ...]:
    """Returns which file it is, and what changes with its contents."""
    return (*identity_of(found), found.st_size, found.st_mtime_ns)


# ---- Opening

def open_file(path: str, flags: int, mode: int = 0o666) -> io.FileIO:
    """Opens a file by the system's call. Both steps are one call of Python, so that no exception of a signal's handler
    comes between the number of the open file and the object that closes it."""
    return next(map(io.FileIO, map(os.open, (path,), (flags | os.O_CLOEXEC,), (mode,))))


def open_regular(path: str, seconds: float = 0) -> io.FileIO:
    """Opens a regular file for reading. Never waits for the other end of a pipe, even of one that just took the name.

    # Errors
    - `OSError` if the file cannot be opened, or is no regular file.
    - `BlockingIOError` if another machine has leased the file for longer than `seconds`.
    """
    check_regular(os.stat(path))
    patience = Patience(seconds)
    while True:
        try:
            file = open_file(path, os.O_RDONLY | os.O_NONBLOCK)
            break
        except BlockingIOError:
            if not patience.waits():
                raise
    try:
        check_regular(os.fstat(file.fileno()))
        os.set_blocking(file.fileno(), True)
    except BaseException:
        file.close()
        raise
    return file


def check_regular(found: os.stat_result) -> None:
    """Raises an `OSError` for anything but a regular file."""
    if stat.S_ISDIR(found.st_mode):
        raise IsADirectoryError(errno.EISDIR, os.strerror(errno.EISDIR))
    if not stat.S_ISREG(found.st_mode):
        raise OSError(errno.EINVAL, "cannot open: not a regular file")


class Patience:
    """Waits for another program, in growing pauses, until a time is over."""

    def __init__(self, seconds: float):
        self.until, self.pause = time.monotonic() + seconds, FIRST_PAUSE

    def waits(self) -> bool:
        """Returns whether another try is due, after a pause."""
        if time.monotonic() >= self.until:
            return False
        time.sleep(self.pause)
        self.pause = min(2 * self.pause, LONGEST_PAUSE)
        return True


# ---- Locking

# The files that are locked, or about to be.
_locked: WeakValueDictionary[int, io.FileIO] = WeakValueDictionary()


@lru_cache(maxsize=None)
def _system() -> Tuple[Callable[[int, int], int], Callable[[], int]]:
    """Returns the system's function, and the one that tells its error."""
    import ctypes  # here, since not every tool locks a file
    return ctypes.CDLL(None, use_errno=True).flock, ctypes.get_errno


def flock(file: io.FileIO, operation: int) -> int:
    """Calls the system once, and returns its error, or 0. Python's own function repeats a call that is interrupted, for
    ever. The error is read in the same step: a handler of a signal may lock a file too."""
    function, error_of_call = _system()
    steps = partial(function, file.fileno(), operation), error_of_call
    failed: int
    error: int
    failed, error = map(methodcaller("__call__"), steps)
    return error if failed else 0


def lock(file: io.FileIO, kind: int, seconds: float) -> None:
    """Takes a lock on an open file. Takes none if the file system has no locks.

    # Errors
    - `BlockingIOError` if another program holds the lock for longer than `seconds`.
    - `OSError` if the system refuses the lock for another reason.
    """
    if file.closefd:  # a child needs the others, such as its standard input
        _locked[id(file)] = file
    patience, interrupted = Patience(seconds), 0
    while True:
        error = flock(file, kind | fcntl.LOCK_NB)
        if not error or error in NO_LOCKS:
            return
        interrupted = interrupted + 1 if error == errno.EINTR else 0
        if error not in (errno.EWOULDBLOCK, errno.EINTR) or interrupted > INTERRUPTIONS:
            raise OSError(error, os.strerror(error))
        if not patience.waits():
            raise BlockingIOError(errno.EWOULDBLOCK, "cannot open: another program holds its lock")


def unlock(file: io.FileIO) -> None:
    """Gives up the lock on an open file, also for the children that have the file open."""
    for _ in range(INTERRUPTIONS):
        if flock(file, fcntl.LOCK_UN) != errno.EINTR:  # after any other error, there was no lock
            break


def open_locked(path: str, kind: int, seconds: float) -> io.FileIO:
    """Opens a regular file for reading, and locks it; `close` gives both up. While this program waits for the lock,
    another one may replace the file: then the new one is opened.

    # Errors
    Those of `open_regular` and `lock`.
    """
    for _ in range(OPENINGS):
        file = open_regular(path, seconds)
        try:
            lock(file, kind, seconds)
            if os.path.samestat(os.fstat(file.fileno()), os.stat(path)):
                return file
        except FileNotFoundError:  # the next opening says so, or finds the new file
            pass
        except BaseException:
            close(file)
            raise
        close(file)
    raise OSError(errno.EBUSY, "cannot open: another program keeps replacing the file")


def close(file: io.FileIO) -> None:
    """Gives up the lock of an open file, and closes it."""
    try:
        unlock(file)
    finally:
        file.close()


@contextmanager
def locked(file: io.FileIO, kind: int, seconds: float) -> Iterator[None]:
    """Holds a lock on an open file. The errors are those of `lock`."""
    try:
        lock(file, kind, seconds)
        yield
    finally:
        unlock(file)


# ---- Files that this program keeps open

class Keeper(Protocol):
    """Keeps a file open, with its lock."""

    def has(self, identity: Optional[Identity]) -> bool: ...


# By the file that each has opened last: a change by path looks for one of perhaps a thousand.
keepers: WeakValueDictionary[Identity, Keeper] = WeakValueDictionary()


def is_open_here(path: bytes) -> bool:
    """Checks whether this program keeps a file open: then a change of the file by its path would wait for this program."""
    if not keepers:
        return False
    identity = identity_at(path)
    keeper = None if identity is None else keepers.get(identity)
    return keeper is not None and keeper.has(identity)


# ---- Children

def give_up(paths: Iterable[bytes]) -> None:
    """Gives up in a child all that it has open of some files: a call that ran in the parent has them open, and only the
    library knows by which numbers."""
    wanted = {identity_at(path) for path in paths} - {None}
    if wanted:
        _blind(number for number in _open_numbers() if identity_at(number) in wanted)


def identity_at(file: Union[int, bytes]) -> Optional[Identity]:
    """Returns which file has a name, or is open by a number; None if none is, or the system does not say."""
    try:
        return identity_of(os.stat(file))
    except OSError:
        return None


def _open_numbers() -> List[int]:
    try:
        return [int(name) for name in os.listdir("/proc/self/fd")]
    except OSError:  # without /proc
        return list(range(MOST_NUMBERS))


def _blind(numbers: Iterable[int]) -> None:
    """Puts what cannot be read in the place of open files. Their numbers stay taken, so no other file gets one."""
    unreadable = os.open("/", os.O_PATH | os.O_CLOEXEC)
    for number in list(numbers):
        os.dup2(unreadable, number, inheritable=False)
    os.close(unreadable)


def still_there(known: WeakValueDictionary[Any, Kept]) -> List[Kept]:
    """Returns what a dictionary has that is in use still. Other threads may change the dictionary meanwhile."""
    return [one for one in (reference() for reference in known.valuerefs()) if one is not None]


def _after_fork_in_child() -> None:
    _blind(file.fileno() for file in still_there(_locked) if not file.closed)
    _locked.clear()


os.register_at_fork(after_in_child=_after_fork_in_child)
