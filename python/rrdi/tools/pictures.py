# SPDX-License-Identifier: MIT OR Apache-2.0
"""Puts pictures in their places when they are whole, so that a full disk leaves the picture from before."""
from __future__ import annotations

import errno
import os
import resource
import stat
import tempfile
from contextlib import contextmanager
from typing import Iterator, List, Optional

from ..kinds import is_of_rrdi, owner_of
from ..making import MOST_LINKS, NewFile
from .command_line import Failure

# What the system answers if this user may not make a file beside another one or replace it, or a file is mounted there.
NOT_REPLACED = frozenset({errno.EACCES, errno.EPERM, errno.EBUSY})


def check_place(path: str) -> None:
    """Checks that a name, which may be given by a slip, is not that of a database.

    # Errors
    `FileExistsError` if it is.
    """
    if is_of_rrdi(path) or owner_of(path):
        raise FileExistsError(errno.EEXIST, "this is a database and no picture; it stays as it is", path)


def put_picture(path: str, data: bytes) -> None:
    """Writes a picture. It gets its name when it is complete, with the owner and the mode of the file that had the name. What
    is no file, such as a FIFO, is written in place, and so is a file that this user may only write. A database stays.

    # Errors
    `OSError` with the name if the picture can't be written.
    """
    check_place(path)
    try:
        if has_place(path) and replaced(path, data):
            return
        with open(path, "wb") as file:
            file.write(data)
    except OSError as error:
        raise OSError(error.errno, error.strerror, path) from None


def has_place(path: str) -> bool:
    """Checks whether a name is that of a file, or of none. That of an open file, as /dev/stdout, is neither."""
    try:
        if not stat.S_ISREG(os.stat(path).st_mode):
            return False
    except (FileNotFoundError, NotADirectoryError):
        pass
    for _ in range(MOST_LINKS):
        if os.path.realpath(os.path.dirname(path)).startswith("/proc/"):
            return False
        try:
            path = os.path.join(os.path.dirname(path), os.readlink(path))
        except OSError:
            break
    return True


def replaced(path: str, data: bytes) -> bool:
    """Puts a picture in the place of a file, or of none. Returns False if this user may not replace that file."""
    try:
        before: Optional[os.stat_result] = os.stat(path)
    except (FileNotFoundError, NotADirectoryError):
        before = None
    if before is not None and not os.access(path, os.W_OK):
        return False
    with NewFile(path) as made:
        try:
            with open(made.unfinished, "wb") as file:
                file.write(data)
            if before is not None:
                made.take_owner(before, path)
            made.replace()
        except OSError as error:
            if before is None or error.errno not in NOT_REPLACED:
                raise
            return False
    return True


class Canvas:
    """The words of a graph. `has_size` is to be set if RRDtool says how large the picture is: then there is one."""

    def __init__(self, words: List[str]):
        self.words, self.has_size = words, False


@contextmanager
def drawn(words: List[str]) -> Iterator[Canvas]:
    """Gives the words of a graph with the name of a file in memory in place of the picture's, which is their first one, and
    then puts what was drawn there in its place: RRDtool itself does not notice that a disk is full. Where options come first,
    the picture is the first word that belongs to none of them, and RRDtool writes it itself: no word may name a database then.

    # Errors
    `OSError` if the picture can't be written; `Failure` if it was not drawn to its end.
    """
    path = words[0] if words else ""
    if not path or path.startswith("-") or not has_place(path):
        for word in words if path[:1] == "-" != path else [path]:
            check_place(word)
        yield Canvas(words)
        return
    with open(os.memfd_create("picture"), "r+b") as memory, name_of(memory.fileno(), words) as name:
        if is_lazy(words):
            take_before(memory.fileno(), path)
        begin, canvas = os.fstat(memory.fileno()), Canvas([name, *words[1:]])
        try:
            yield canvas
        except Failure as failure:
            raise Failure(str(failure).replace(name, path)) from None
        end = os.fstat(memory.fileno())
        # Some pictures come by a file for the moment; a limit on the size of files is one for those in memory, too.
        if canvas.has_size and end.st_size in (0, resource.getrlimit(resource.RLIMIT_FSIZE)[0]):
            raise Failure(f"RRDtool did not draw {path} to its end; is there space in {tempfile.gettempdir()}?")
        if end.st_size > 0 and (end.st_mtime_ns, end.st_size) != (begin.st_mtime_ns, begin.st_size):
            put_picture(path, memory.read())


@contextmanager
def name_of(memory: int, words: List[str]) -> Iterator[str]:
    """Gives the name of a file in memory; its last part is that of the picture if a text of --imginfo may have that."""
    name = f"/proc/self/fd/{memory}"
    if not any(word.startswith(("-f", "--imginfo")) for word in words):
        yield name
        return
    with tempfile.TemporaryDirectory(prefix="rrdi-graph") as folder:
        link = os.path.join(folder, os.path.basename(words[0]))
        os.symlink(name, link)
        yield link


def is_lazy(words: List[str]) -> bool:
    """Checks whether RRDtool may leave a picture as it is, by its time and its size."""
    return any(word == "--lazy" or word[:1] == "-" != word[1:2] and "z" in word for word in words)


def take_before(memory: int, path: str) -> None:
    """Gives a file in memory the content and the time of a picture, if there is one."""
    try:
        with open(path, "rb") as file:
            found = os.fstat(file.fileno())
            os.pwrite(memory, file.read(), 0)
            os.utime(memory, ns=(found.st_atime_ns, found.st_mtime_ns if found.st_size else 0))
    except OSError:  # then it is drawn, as a picture that is too old is
        os.ftruncate(memory, 0)
        os.utime(memory, (0, 0))
