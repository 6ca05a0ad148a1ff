# SPDX-License-Identifier: MIT OR Apache-2.0
"""RRDtool's `resize`: the file stays as it is, and resize.rrd in this directory is the resized database."""
from __future__ import annotations

import os
import time
from typing import Callable, List

RESIZED = "resize.rrd"


def resize_copy(file: str, resize: Callable[[str], object]) -> None:
    """Calls `resize` on a copy of a file, and gives the copy the name resize.rrd.

    The file is read under a shared lock, so that no other program changes the file meanwhile. If it cannot be resized, there
    is no resize.rrd, so a script that goes on moves no older copy to the place of the file. But a file that has this name
    itself stays, and so does an older copy if there is no file of the given name, whose place it could take.

    # Errors
    `OSError` with a file name if the file cannot be read or locked, or the copy cannot be written.
    """
    from ..reader.files import read_bytes  # only this command reads a file itself
    copy, stays = f"{RESIZED}.{os.getpid()}-{time.monotonic_ns()}", True
    try:
        try:
            stays = has_its_name(file)
            data = read_bytes(file)
        except OSError as error:
            raise OSError(error.errno, error.strerror, file) from None
        write(copy, data)
        resize(copy)
        os.replace(copy, RESIZED)
    except BaseException:
        remove([copy] if stays else [copy, RESIZED])
        raise


def has_its_name(file: str) -> bool:
    """Checks whether a file is the one that has the name resize.rrd in this directory, and not only a link leads to it.

    # Errors
    `OSError` if there is no such file, or the system can't look at it.
    """
    found = os.stat(file)
    try:
        return os.path.samestat(found, os.lstat(RESIZED))
    except FileNotFoundError:
        return False


def write(copy: str, data: bytes) -> None:
    try:
        with open(copy, "xb") as opened:
            opened.write(data)
    except OSError as error:  # it names no file if the disk is full
        raise OSError(error.errno, error.strerror, RESIZED) from None


def remove(files: List[str]) -> None:
    for file in files:
        try:
            os.unlink(file)
        except FileNotFoundError:
            pass
