# SPDX-License-Identifier: MIT OR Apache-2.0
"""The exceptions for failed commands, by the library's numbers.

`OperationalError` and `ProgrammingError` have the same names in Python's module `rrdtool`. `OperationalError` means that
the arguments are right, but the file, its contents or the system prevents the command. `ProgrammingError` is a mistake in
the arguments. Where an exception of Python fits, it is a base too: `FileNotFoundError`, `TimeoutError`, `ValueError` ..
"""
from __future__ import annotations

import errno
import os
import re
from typing import Dict, List, Optional, Tuple, Type

from .escaping import escaped

# The library's numbers. docs/rrdi.3 has the table.
OK, NO_ROOM, NO_MEMORY = 0, 1, 2
USAGE, BAD_WORD, NO_DATABASE, REFUSED, CANNOT_OPEN, CANNOT_WRITE = 10, 11, 12, 13, 14, 15
NOT_OURS, VERSION, TRUNCATED, BAD_BLOCK, BAD_ENTRY, TRAILING, READ_FAILED = 20, 21, 22, 23, 24, 25, 26
EXPLAINED = frozenset({USAGE, BAD_WORD, REFUSED})  # faults of which an answer says what was wrong
# What the system says if another program holds a lock, and if a user may not do something.
LOCKED = frozenset({errno.EAGAIN, errno.EWOULDBLOCK})
NOT_PERMITTED = frozenset({errno.EACCES, errno.EPERM})
_OF_A_LINE = re.compile(r"line (\d+): (.*)", re.ASCII)
ERROR = "ERROR: "  # begins the line of a fault, and of a refused line of a batch; the reason follows
NO_FILE = "no database"  # the reason of a refused line if there is no file


class Error(Exception):
    """A command that failed.

    `reason` is the program's text after `ERROR: `, `path` the file (None in memory), `fault` the library's number,
    `at` the byte, or the number of the journal entry, at which a file is damaged, and `system_error` the number
    (`errno`) of the system's reason if the file cannot be opened or written. `detail` says more, such as which value of
    which sample is wrong; it may be empty. `stored` is the number of samples that `update_many` had stored before.
    """

    stored = 0

    def __init__(self, reason: str, path: Optional[str] = None, fault: int = 0, at: Optional[int] = None,
                 system_error: int = 0, detail: str = ""):
        super().__init__(reason)
        self.reason, self.path, self.fault, self.at, self.system_error = reason, path, fault, at, system_error
        self.detail = detail

    def __str__(self) -> str:
        if self.system_error in LOCKED:
            why = f": {self.detail or of_system(self.system_error)}"
        else:
            why = f": {os.strerror(self.system_error)}" if self.system_error else ""
            if self.detail:
                why += f"{'; ' if why else ': '}{self.detail}"
        return f"{escaped(self.path)}: {self.reason}{why}" if self.path is not None else self.reason + why


class OperationalError(Error):
    """The file, its contents, a lack of memory or the system prevents a command."""


class ProgrammingError(Error, ValueError):
    """The arguments are not a command, or an argument cannot be read."""


class SystemFault(OperationalError, OSError):
    """The system prevents a command. `errno`, `strerror` and `filename` are those of an `OSError`."""

    @property
    def errno(self) -> Optional[int]:  # type: ignore[override]
        return self.system_error or None

    @property
    def strerror(self) -> Optional[str]:  # type: ignore[override]
        return os.strerror(self.system_error) if self.system_error else None

    @property
    def filename(self) -> Optional[str]:
        return self.path


class NoLibrary(SystemFault):
    """The C library is not found, or cannot be loaded."""


class Usage(ProgrammingError):
    """The arguments are not a command: an unknown option, or an argument too many or too few."""


class Unreadable(ProgrammingError):
    """An argument cannot be read; the reason names the argument."""


class Refused(OperationalError):
    """The database refuses a command, and is unchanged. docs/errors.md has the reasons."""


class BadSample(Refused, ValueError):
    """No database can take a time or a value of a sample, such as inf. Raised before anything is sent."""

    def __init__(self, reason: str, path: Optional[str] = None, detail: str = ""):
        super().__init__(reason, path, REFUSED, detail=detail)


class NoDatabase(SystemFault, FileNotFoundError):
    """There is no file, or, in memory, no database."""


class Busy(SystemFault, TimeoutError):
    """Another program held the file's lock for longer than `busy_timeout`."""


class CannotOpen(SystemFault):
    """The system does not open the file."""


class MayNotOpen(CannotOpen, PermissionError):
    """The system does not let this user open the file."""


class CannotRead(SystemFault):
    """A read of the file failed."""


class CannotWrite(SystemFault):
    """The file cannot be written. Usually it holds the old database; docs/errors.md says what else it may have."""


class MayNotWrite(CannotWrite, PermissionError):
    """The system does not let this user write the file, or make one in its folder."""


class Exists(CannotWrite, FileExistsError):
    """There is a file already, which `create` replaces only if it is told to."""

    def __init__(self, path: str, detail: str = "overwrite=True replaces it, exist_ok=True keeps it"):
        super().__init__("cannot write", path, CANNOT_WRITE, None, errno.EEXIST, detail)

    def __reduce__(self) -> Tuple[object, ...]:
        return type(self), (self.path, self.detail)


class Different(Exists):
    """There is a database already, and it has another definition than `create` with `exist_ok=True` wants."""


class Damaged(OperationalError):
    """The file is not a complete database. `at` is the position of the first fault, unless the file is of another kind."""


class OutOfMemory(OperationalError, MemoryError):
    """Memory ran out; nothing was changed."""


_KINDS: Dict[int, Type[Error]] = {
    NO_MEMORY: OutOfMemory, USAGE: Usage, BAD_WORD: Unreadable, NO_DATABASE: NoDatabase, REFUSED: Refused,
    CANNOT_OPEN: CannotOpen, CANNOT_WRITE: CannotWrite, READ_FAILED: CannotRead,
    **dict.fromkeys(range(NOT_OURS, READ_FAILED), Damaged)}


# The library's numbers for the reasons that always have the same text, and for those that end with a number.
_FAULTS: Dict[str, int] = {
    "usage": USAGE, NO_FILE: NO_DATABASE, "out of memory": NO_MEMORY, "cannot open": CANNOT_OPEN,
    "cannot write": CANNOT_WRITE, "file: not ours": NOT_OURS, "file: version": VERSION, "file: read failed": READ_FAILED}
_WITH_NUMBER: Dict[str, int] = {
    "file: truncated at ": TRUNCATED, "file: bad block at ": BAD_BLOCK, "file: bad entry ": BAD_ENTRY,
    "file: trailing at ": TRAILING}
# The reasons of the faults that a batch may end with after its lines have printed something.
_REASONS: Dict[int, str] = {_FAULTS[reason]: reason for reason in ("out of memory", "cannot open", "cannot write")}


def reason_of(fault: int, output: bytes) -> str:
    """Returns the reason of a fault: `output`, unless the output is the text that the lines of a batch printed."""
    return _REASONS.get(fault) or output.decode(errors="replace").rstrip("\n")


def of_system(number: int) -> str:
    """Returns what the system says of an error, by its number."""
    return "another program holds its lock" if number in LOCKED else os.strerror(number)


def reasons_in(output: str) -> List[str]:
    """Returns the reasons of the refused lines from the output of a batch."""
    return [line[len(ERROR):] for line in output.split("\n") if line.startswith(ERROR)]


def fault_of(reason: str) -> Tuple[int, int]:
    """Returns the library's number for a reason that the program printed, and the number at which a file is damaged."""
    for begin, fault in _WITH_NUMBER.items():
        if reason.startswith(begin):
            return fault, int(reason[len(begin):])
    return BAD_WORD if reason.startswith("unreadable ") else _FAULTS.get(reason, REFUSED), 0


def error_of(fault: int, reason: str, path: Optional[str] = None, at: int = 0, system_error: int = 0) -> Error:
    """Returns the exception for one of the library's faults."""
    kind = _KINDS.get(fault, OperationalError)
    if fault in (CANNOT_OPEN, CANNOT_WRITE) and system_error in LOCKED:
        kind = Busy
    elif fault == CANNOT_OPEN and system_error == errno.ENOENT:
        kind = NoDatabase
    elif fault in (CANNOT_OPEN, CANNOT_WRITE) and system_error in NOT_PERMITTED:
        kind = MayNotOpen if fault == CANNOT_OPEN else MayNotWrite
    return kind(reason, path, fault, at if TRUNCATED <= fault <= TRAILING else None, system_error)


def error_of_line(reason: str, path: Optional[str] = None, detail: str = "") -> Error:
    """Returns the exception for the reason of a refused line of a batch, which has no number."""
    error = error_of(fault_of(reason)[0], reason, path)
    error.detail = detail
    return error


def details_in(explanation: bytes) -> Dict[int, str]:
    """Returns what was wrong with the refused lines of a batch, by their numbers."""
    found = (_OF_A_LINE.fullmatch(line) for line in explanation.decode(errors="replace").split("\n"))
    return {int(line[1]): line[2] for line in found if line is not None}
