# SPDX-License-Identifier: MIT OR Apache-2.0
"""Reads files that other programs may change at the same time."""
from __future__ import annotations

import os
import stat
from contextlib import contextmanager
from io import FileIO
from typing import Iterator

from ..errors import Damaged
from ..locks import SHARED, close, locked, open_locked
from ..environment import milliseconds
from .pieces import Parts, Reader
from .stored import Stored


def settled(data: bytes) -> bytes:
    """Returns the bytes that a file with these bytes stands for: others, if a change of a database was broken off."""
    stored = Stored.of_bytes(data)
    if not stored.is_marked:
        return data
    reader = Reader(stored)
    try:
        reader.database()
    except Damaged:
        return data
    return stored[0:reader.at]


def read(data: bytes) -> Parts:
    """Returns the database that these bytes represent, by names, with amounts in whole millionths.

    # Errors
    `Damaged` if the bytes represent no database.
    """
    return Reader(Stored.of_bytes(data)).database()


def patience() -> float:
    """Returns the seconds for which a reader waits for the lock of a file: those of RRDI_WAIT, or 5."""
    return milliseconds(None) / 1_000


def read_bytes(path: str) -> bytes:
    """Reads a file under a shared lock; - is standard input.

    # Errors
    `OSError` if the file cannot be opened, locked or read.
    """
    if path != "-" and is_regular(path):
        file = open_locked(path, SHARED, patience())
        try:
            return file.readall()
        finally:
            close(file)
    with FileIO(0 if path == "-" else path, closefd=path != "-") as stream, locked(stream, SHARED, patience()):
        return stream.readall()


def is_regular(path: str) -> bool:
    """Checks whether it is a regular file that has a name; others, such as a pipe, are read to their end.

    # Errors
    `OSError` if the system does not say: also if there is no file.
    """
    return stat.S_ISREG(os.stat(path).st_mode)


@contextmanager
def opened(path: str) -> Iterator[Stored]:
    """Opens a file under a shared lock, and gives it up at the end of the block.

    # Errors
    `OSError` if the file cannot be opened, locked or read.
    """
    file = open_locked(path, SHARED, patience())
    try:
        yield Stored.of_file(file.fileno())
    finally:
        close(file)


def read_file(path: str) -> Parts:
    """Returns the database in a file, by names, with amounts in whole millionths; - is standard input.

    # Errors
    - `OSError` if the file cannot be opened, locked or read.
    - `Damaged` if the file is not a database.
    """
    if path == "-" or not is_regular(path):
        return read(read_bytes(path))
    with opened(path) as stored:
        return Reader(stored).database()
