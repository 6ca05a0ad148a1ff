# SPDX-License-Identifier: MIT OR Apache-2.0
"""What a program that records does with a damaged file."""
from __future__ import annotations

import os
import time
from contextlib import contextmanager
from io import FileIO
from typing import Callable, Iterator

from .commands import last
from .errors import TRUNCATED, VERSION, Damaged, Error
from .locks import EXCLUSIVE, locked, open_file, state_of
from .making import is_there
from .words import FilePath

# An empty file may be one that another program has just made, and has not locked and filled yet.
LONGEST_CREATION = 10.0  # seconds


def is_being_made(path: FilePath) -> bool:
    """Checks whether a file that was found empty may be one that another program is making. Such a file is not damaged."""
    try:
        found = os.stat(path)
    except FileNotFoundError:
        return True
    return found.st_size > 0 or abs(time.time() - found.st_mtime) < LONGEST_CREATION


def is_still_damaged(path: FilePath) -> bool:
    """Asks the library again whether a file is damaged.

    # Errors
    Another `Error` if the library cannot say.
    """
    try:
        last(path)
    except Damaged as fault:
        return fault.fault != VERSION
    return False


@contextmanager
def held(path: str, is_damaged: Callable[[str], bool]) -> Iterator[bool]:
    """Holds the lock of a damaged file, so that it can be renamed or replaced. Gives False if the file is not damaged any
    longer, or if another program changed or replaced it meanwhile.

    # Errors
    - `BlockingIOError` if another program uses the file.
    - `OSError` if the file can't be opened.
    """
    before = os.stat(path)
    if not is_damaged(path):
        yield False
        return
    with open_for_lock(path) as file, locked(file, EXCLUSIVE, 0):
        yield state_of(before) == state_of(os.fstat(file.fileno())) == state_of(os.stat(path))


def open_for_lock(path: str) -> FileIO:
    """Opens a file for writing, which some network file systems ask for, or only for reading. Never waits for the other
    end of a pipe that has taken the name."""
    try:
        return open_file(path, os.O_RDWR | os.O_NONBLOCK)
    except PermissionError:
        return open_file(path, os.O_RDONLY | os.O_NONBLOCK)


def set_aside(path: str, fault: Damaged) -> str:
    """Renames a damaged file, so that a new one can be made, and returns what to report. A file of a later version of
    rrdi stays, and so does one that another program is making or changing."""
    if fault.fault == VERSION:
        return fault.reason
    aside = f"{path}.damaged-{int(time.time())}-{os.getpid()}"
    try:
        if fault.fault == TRUNCATED and not fault.at and is_being_made(path):
            return f"{fault.reason}; another program may be making the file"
        with held(path, is_still_damaged) as is_held:
            if not is_held or is_there(aside, follows=False):
                return f"{fault.reason}; the file has changed meanwhile"
            os.rename(path, aside)
    except (OSError, Error) as error:
        why = "" if isinstance(error, Error) else error.strerror
        return f"{fault.reason}, and the file cannot be renamed: {why or error}"
    return f"{fault.reason}; the file is now {aside}"
