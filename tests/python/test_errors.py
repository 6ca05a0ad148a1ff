# SPDX-License-Identifier: MIT OR Apache-2.0
"""The exceptions of the package, and their bases among those of Python. No program and no library is needed."""
from __future__ import annotations

import errno
import os
import pickle
import unittest
from typing import List, Tuple

import doubles as doubles

import rrdi
from rrdi import errors
from rrdi.commands import failed
from rrdi.errors import error_of
from rrdi.library import Answer


class Errors(unittest.TestCase):
    def test_bases(self) -> None:
        """Where an exception of Python fits, a program may catch that one."""
        cases: List[Tuple[int, int, type, type]] = [
            (errors.CANNOT_OPEN, errno.ENOENT, rrdi.NoDatabase, FileNotFoundError),
            (errors.CANNOT_OPEN, errno.EAGAIN, rrdi.Busy, TimeoutError),
            (errors.CANNOT_WRITE, errno.EAGAIN, rrdi.Busy, TimeoutError),
            (errors.CANNOT_OPEN, errno.EACCES, rrdi.MayNotOpen, PermissionError),
            (errors.CANNOT_OPEN, errno.EIO, rrdi.CannotOpen, OSError),
            (errors.CANNOT_WRITE, errno.EPERM, rrdi.MayNotWrite, PermissionError),
            (errors.CANNOT_WRITE, errno.ENOSPC, rrdi.CannotWrite, OSError),
            (errors.READ_FAILED, 0, rrdi.CannotRead, OSError),
            (errors.NO_MEMORY, 0, rrdi.OutOfMemory, MemoryError),
            (errors.USAGE, 0, rrdi.Usage, ValueError), (errors.BAD_WORD, 0, rrdi.Unreadable, ValueError),
            (errors.NO_DATABASE, 0, rrdi.NoDatabase, FileNotFoundError)]
        for fault, number, kind, base in cases:
            error = error_of(fault, "reason", "f.rrdi", 0, number)
            self.assertIs(type(error), kind)
            self.assertTrue(isinstance(error, rrdi.Error) and isinstance(error, base), kind)
            self.same(error, pickle.loads(pickle.dumps(error)))
        self.assertTrue(issubclass(rrdi.MayNotOpen, rrdi.CannotOpen) and issubclass(rrdi.MayNotWrite, rrdi.CannotWrite))
        for refused in (error_of(errors.REFUSED, "reason"), error_of(errors.TRUNCATED, "reason")):
            self.assertFalse(isinstance(refused, (OSError, ValueError)))

    def same(self, error: rrdi.Error, again: rrdi.Error) -> None:
        self.assertIs(type(again), type(error))
        self.assertEqual((str(again), again.fault, again.system_error, again.path),
                         (str(error), error.fault, error.system_error, error.path))

    def test_names_that_command_a_terminal(self) -> None:
        """The text of an exception is one line, whatever a file is called; `path` is as the caller gave it."""
        name = "a\n\x1b[2J\u202e\udcff.rrdi"
        error = error_of(errors.REFUSED, "reason", name)
        self.assertEqual((str(error), error.path), ("a\\n\\u{1b}[2J\\u{202e}\\xff.rrdi: reason", name))

    def test_more_than_the_system_said(self) -> None:
        """Where the system's number says less than the program does, the program's text follows."""
        cases = [(errors.CANNOT_OPEN, errno.EINVAL, "not a regular file", "Invalid argument; not a regular file"),
                 (errors.CANNOT_WRITE, errno.ENOSPC, "no space left, or a limit on the size of files",
                  "No space left on device; no space left, or a limit on the size of files"),
                 (errors.CANNOT_OPEN, errno.ENOENT, "no such file or directory", "No such file or directory"),
                 (errors.CANNOT_OPEN, errno.ELOOP, f"{os.strerror(errno.ELOOP)} (os error 40)", os.strerror(errno.ELOOP))]
        for fault, number, told, shown in cases:
            reason = errors.reason_of(fault, b"")
            answer = Answer(fault, number, 0, reason.encode(), explanation=f"a\\nb: {told}".encode())
            error = failed(answer, "a\nb")
            self.assertEqual((str(error), error.detail), (f"a\\nb: {reason}: {shown}", told if told in shown else ""))

    def test_what_the_system_said(self) -> None:
        """An exception of the system has the attributes of an `OSError`, and the text of the package."""
        for fault, number in ((errors.CANNOT_OPEN, errno.ENOENT), (errors.CANNOT_WRITE, errno.ENOSPC),
                              (errors.CANNOT_OPEN, errno.EACCES), (errors.CANNOT_WRITE, errno.EEXIST)):
            error = error_of(fault, "reason", "f.rrdi", 0, number)
            assert isinstance(error, OSError)
            self.assertEqual((error.errno, error.strerror, error.filename), (number, os.strerror(number), "f.rrdi"))
            self.assertEqual(str(error), f"f.rrdi: reason: {os.strerror(number)}")
            error.path = "other"
            self.assertEqual(error.filename, "other")


if __name__ == "__main__":
    unittest.main()
