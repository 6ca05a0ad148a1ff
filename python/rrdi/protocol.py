# SPDX-License-Identifier: MIT OR Apache-2.0
"""What runs the commands of rrdi: the C library, or the program in its place."""

# Without `annotations` of __future__: a named tuple whose types are texts makes a tool start a tenth slower.
import errno
from typing import Callable, List, NamedTuple, Optional, Protocol, Tuple

from .errors import CANNOT_OPEN, OK


class Answer(NamedTuple):
    """The library's answer to a call."""

    fault: int
    system_error: int
    at: int
    output: bytes
    refused: Tuple[int, ...] = ()  # the numbers of a batch's refused lines, the first line is 1
    data: Optional[bytes] = None  # in memory: the new database, if there is one
    explanation: bytes = b""  # what was wrong, or of a batch a line for each refused line, such as `line 2: ..`


# A call that changed a file, or found nothing to change.
DONE = Answer(OK, 0, 0, b"")
# A call on a file that is not open.
CLOSED = Answer(CANNOT_OPEN, errno.EBADF, 0, b"cannot open")


UpdateFile = Callable[[bytes, Tuple[object, ...], int, int, bool], Optional[Answer]]
# Rows of a fetch in numbers: the time at which the first row begins, the seconds of a row, and the values.
Rows = Tuple[int, int, List[Tuple[Optional[float], ...]]]


class OnFiles(Protocol):
    """Runs one command, or lines of commands, on the file at a path.

    `words` are the command's name and arguments, without FILE, with a zero byte between two words. `lines` have the form
    that `rrdi batch` reads. `now` is in seconds since 1970, and `wait`, for the file's lock, in milliseconds. `syncs`
    flushes each change to the disk.
    """

    def run_file(self, path: bytes, words: bytes, now: int, wait: int, syncs: bool) -> Answer: ...

    def batch_file(self, path: bytes, lines: bytes, now: int, wait: int, syncs: bool) -> Answer: ...


class OpenedFile(Protocol):
    """A file that stays open and locked, with its database in memory. One call at a time may use it. Once it is closed, by
    `close` or before a fork, a call ends with `CLOSED`."""

    device: int  # whoever opened the file notes which one it is
    inode: int

    @property
    def is_open(self) -> bool: ...

    def is_current(self) -> bool:
        """Checks whether the file is open, and is the one at its path."""

    def run(self, words: bytes, now: int) -> Answer: ...

    def batch(self, lines: bytes, now: int) -> Answer: ...

    def update(self, samples: Tuple[object, ...], now: Optional[int]) -> Optional[Answer]:
        """Adds samples, as `Library.update_file`. Returns None too if the file is not the one that was noted."""

    def update_many(self, samples: Tuple[object, ...], first: int, now: Optional[int]) -> Optional[Tuple[Answer, int]]:
        """Adds the samples from the one of index `first` on, each as a change of its own, up to the first that is refused.
        Returns the last answer, and how many were stored; None if they have to be added one by one."""

    def fetch(self, function: int, resolution: int, start: int, end: int) -> Optional[Rows]:
        """Returns rows in numbers. `function` is the place of the function in `FUNCTIONS` of limits.py.

        Returns None, as `update`, if a command has to do it, which says what is wrong.
        """

    def close(self) -> None: ...


class Library(OnFiles, Protocol):
    """Does the same on a database in memory too, given as the bytes of its file, and on a file that stays open."""

    @property
    def update_file(self) -> Optional[UpdateFile]:
        """Adds samples of numbers or texts to the file at a path, in a fast way, if there is one: called with path, samples,
        now, wait and syncs. Returns None if a command has to do it by words: the samples are of other types, or have a
        value that no database takes."""

    def run(self, data: Optional[bytes], words: bytes, now: int) -> Answer: ...

    def batch(self, data: Optional[bytes], lines: bytes, now: int) -> Answer: ...

    def open(self, path: bytes, wait: int, syncs: bool) -> Tuple[Answer, Optional[OpenedFile]]:
        """Opens, locks and reads a file, in which there has to be a database. Returns no file with a fault."""


class ByWords:
    """What has no fast way to add samples."""

    update_file: Optional[UpdateFile] = None
