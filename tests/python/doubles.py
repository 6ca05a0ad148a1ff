# SPDX-License-Identifier: MIT OR Apache-2.0
"""Puts the package and `support` on the path, finds the C library and the program, and replaces the library by the
program."""
from __future__ import annotations

import errno
import fcntl
import os
import shutil
import sys
import tempfile
from pathlib import Path
from typing import Optional, Tuple

TOP = Path(__file__).resolve().parent.parent.parent
sys.path.insert(0, str(TOP / "python"))
sys.path.append(str(TOP / "tests"))
sys.dont_write_bytecode = True

from rrdi import errors  # noqa: E402
from rrdi.by_program import ByProgram  # noqa: E402
from rrdi.library import library_path  # noqa: E402
from rrdi.protocol import Answer, ByWords, OpenedFile  # noqa: E402


def find_program() -> Optional[str]:
    """Finds the program: the one that the variable RRDI names, otherwise the built one, or rrdi on the PATH."""
    named, built = os.environ.get("RRDI"), str(TOP / "crates/rrdi/out/rrdi")
    for path in (named,) if named else (built, shutil.which("rrdi")):
        if path and os.access(path, os.X_OK):
            return os.path.abspath(path)
    return None


PROGRAM = find_program()
def has_library() -> bool:
    return library_path() is not None


class NothingStaysOpen(ByWords):
    """A library on a file system without locks, where no file can stay open."""

    def open(self, path: bytes, wait: int, syncs: bool) -> Tuple[Answer, Optional[OpenedFile]]:
        return Answer(errors.CANNOT_OPEN, errno.EINVAL, 0, b"cannot open"), None


class Program(ByProgram, NothingStaysOpen):
    """The library's functions by runs of the program, with the reasons of the system. No file stays open."""

    def __init__(self) -> None:
        super().__init__(PROGRAM or "")

    def run_file(self, path: bytes, words: bytes, now: int, wait: int, syncs: bool) -> Answer:
        return with_system_error(super().run_file(path, words, now, wait, syncs), path)

    def batch_file(self, path: bytes, lines: bytes, now: int, wait: int, syncs: bool) -> Answer:
        return with_system_error(super().batch_file(path, lines, now, wait, syncs), path)

    def run(self, data: Optional[bytes], words: bytes, now: int) -> Answer:
        return self._in_memory(data, lambda path: self.run_file(path, words, now, 0, False), words[:6] != b"create")

    def batch(self, data: Optional[bytes], lines: bytes, now: int) -> Answer:
        return self._in_memory(data, lambda path: self.batch_file(path, lines, now, 0, False), False)

    def _in_memory(self, data: Optional[bytes], act: "object", needs_file: bool) -> Answer:
        if data is None and needs_file:
            return Answer(errors.CANNOT_OPEN, 0, 0, b"cannot open")
        with tempfile.TemporaryDirectory() as folder:
            file = Path(folder, "f.rrdi")
            if data is not None:
                file.write_bytes(data)
            answer: Answer = act(os.fsencode(file))  # type: ignore[operator]
            after = file.read_bytes() if file.exists() else None
            return answer._replace(data=None if after == data else after)


def with_system_error(answer: Answer, path: bytes) -> Answer:
    is_of_system = answer.fault in (errors.CANNOT_OPEN, errors.CANNOT_WRITE)
    return answer._replace(system_error=system_error_at(path)) if is_of_system else answer


def system_error_at(path: bytes) -> int:
    """Returns the reason why the system does not open a file, or EAGAIN if another program holds the file's lock."""
    try:
        with open(path, "rb") as file:
            fcntl.flock(file, fcntl.LOCK_EX | fcntl.LOCK_NB)
    except OSError as error:
        return error.errno or 0
    return errno.EACCES
