# SPDX-License-Identifier: MIT OR Apache-2.0
"""Calls the C library by ctypes, where there is no extension of Python's (extension.py).

A call lends the library buffers that nothing else uses until the answer is read: other threads may call meanwhile, and
so may handlers of signals and what the collector runs. During a call the interpreter's lock is free. docs/embedding.md
has the library's own rules.
"""

from __future__ import annotations

import ctypes
from collections import deque
from typing import Callable, Deque, Optional, Tuple

from .calls import Call, calls
from .errors import NO_ROOM
from .locks import identity_at
from .protocol import DONE, Answer, ByWords, OpenedFile, Rows

FIRST_ROOM = 65_536  # bytes of output
MOST_FREE = 16  # rooms that wait for the next call
EXPLANATION_ROOM = 8_192  # bytes


class _Answer(ctypes.Structure):
    """`struct rrdi_answer` of rrdi.h."""

    _fields_ = [("fault", ctypes.c_uint32), ("system_error", ctypes.c_uint32), ("is_changed", ctypes.c_bool),
                ("is_cut", ctypes.c_bool), ("refused", ctypes.c_uint64), ("file_length", ctypes.c_uint64),
                ("output_length", ctypes.c_uint64), ("output_needed", ctypes.c_uint64), ("at", ctypes.c_uint64),
                ("explanation_length", ctypes.c_uint64), ("explanation", ctypes.c_uint8 * EXPLANATION_ROOM),
                ("reserved", ctypes.c_uint64 * 31)]

    fault: int
    system_error: int
    is_changed: bool
    is_cut: bool
    refused: int
    file_length: int
    output_length: int
    output_needed: int
    at: int
    explanation_length: int


class _File(ctypes.Structure):
    """`struct rrdi_file` of rrdi.h."""

    _fields_ = [("is_open", ctypes.c_bool), ("process", ctypes.c_uint32), ("reserved", ctypes.c_void_p)]

    is_open: bool


class _OwnFile(_File):
    """The struct of an open file. It closes the file at last, if an exception cuts `_OpenedByC.__del__` short."""

    def __init__(self, close: Callable[[int], None]):
        super().__init__()
        self.close, self.at = close, ctypes.addressof(self)

    def __del__(self) -> None:
        if self.is_open:
            self.close(self.at)


class _Room:
    """Bytes that a call lends to the library. They grow when a call needs more."""

    def __init__(self, length: int):
        self.grow(length)

    def grow(self, length: int) -> None:
        if length > getattr(self, "length", 0):
            self.buffer = ctypes.create_string_buffer(length)
            self.at, self.length = ctypes.addressof(self.buffer), length

    def shrink(self) -> None:
        """Frees the memory that a call with a large result took."""
        if self.length > 16 * FIRST_ROOM:
            self.length = 0
            self.grow(FIRST_ROOM)


class _Rooms(Call):
    """What a call lends to the library, and nothing else uses until the answer is read."""

    def __init__(self) -> None:
        super().__init__()
        self.answer = _Answer()
        self.answer_at = ctypes.addressof(self.answer)
        self.explanation_at = self.answer_at + _Answer.explanation.offset
        self.output, self.file, self.refused = _Room(FIRST_ROOM), _Room(1), _Room(8)


_BYTES, _LENGTH, _ADDRESS = ctypes.c_char_p, ctypes.c_size_t, ctypes.c_void_p
_IN_MEMORY = [ctypes.c_bool, _BYTES, _LENGTH, _BYTES, _LENGTH, ctypes.c_uint64, _ADDRESS, _LENGTH, _ADDRESS, _LENGTH]
_AT_PATH = [_BYTES, _LENGTH, _BYTES, _LENGTH, ctypes.c_uint64, ctypes.c_uint64, ctypes.c_bool, _ADDRESS, _LENGTH]
_OPENING = [_BYTES, _LENGTH, ctypes.c_uint64, ctypes.c_bool, _ADDRESS, _ADDRESS, _LENGTH]
_ON_OPEN = [_ADDRESS, _BYTES, _LENGTH, ctypes.c_uint64, _ADDRESS, _LENGTH]
_REFUSED = [_ADDRESS, _LENGTH]


class CLibrary(ByWords):
    """librrdi by ctypes.

    # Errors
    `AttributeError` if the library lacks a function.
    """

    def __init__(self, loaded: ctypes.CDLL):
        self._run, self._batch = loaded.rrdi_run, loaded.rrdi_batch
        self._run_file, self._batch_file = loaded.rrdi_run_file, loaded.rrdi_batch_file
        self._run.argtypes = [*_IN_MEMORY, _ADDRESS]
        self._batch.argtypes = [*_IN_MEMORY, *_REFUSED, _ADDRESS]
        self._run_file.argtypes = [*_AT_PATH, _ADDRESS]
        self._batch_file.argtypes = [*_AT_PATH, *_REFUSED, _ADDRESS]
        self._open, self.close_file = loaded.rrdi_open, loaded.rrdi_close
        self.run_open, self.batch_open = loaded.rrdi_run_open, loaded.rrdi_batch_open
        self._open.argtypes, self.close_file.argtypes = [*_OPENING, _ADDRESS], [_ADDRESS]
        self.run_open.argtypes = [*_ON_OPEN, _ADDRESS]
        self.batch_open.argtypes = [*_ON_OPEN, *_REFUSED, _ADDRESS]
        for function in (self._run, self._batch, self._run_file, self._batch_file, self._open, self.run_open,
                         self.batch_open, self.close_file):
            function.restype = None
        # A call takes rooms, and gives them back when its answer is read. After an exception it does not.
        self._free: Deque[_Rooms] = deque(maxlen=MOST_FREE)

    def take_rooms(self) -> _Rooms:
        try:
            return self._free.pop()
        except IndexError:
            return _Rooms()

    def run_file(self, path: bytes, words: bytes, now: int, wait: int, syncs: bool) -> Answer:
        rooms = self.take_rooms()
        answer, output = rooms.answer, rooms.output
        while True:
            rooms.run(self._run_file, path, None, path, len(path), words, len(words), now, wait, syncs, output.at,
                      output.length, rooms.answer_at)
            if answer.fault != NO_ROOM:
                return self.finished(rooms)
            output.grow(answer.output_needed)

    def batch_file(self, path: bytes, lines: bytes, now: int, wait: int, syncs: bool) -> Answer:
        rooms = self.take_rooms()
        answer, output, refused = rooms.answer, rooms.output, rooms.refused
        refused.grow(8 * (lines.count(b"\n") + 1))
        while True:
            rooms.run(self._batch_file, path, None, path, len(path), lines, len(lines), now, wait, syncs, output.at,
                      output.length, refused.at, refused.length // 8, rooms.answer_at)
            if answer.fault != NO_ROOM:
                return self.finished(rooms, refused)
            output.grow(answer.output_needed)

    def run(self, data: Optional[bytes], words: bytes, now: int) -> Answer:
        rooms, given = self.take_rooms(), data or b""
        output, file = rooms.output, rooms.file
        file.grow(len(given) + FIRST_ROOM)
        while True:
            self._run(data is not None, given, len(given), words, len(words), now, file.at, file.length, output.at,
                      output.length, rooms.answer_at)
            if not _needs_room(rooms):
                return self.finished(rooms, None, file)

    def batch(self, data: Optional[bytes], lines: bytes, now: int) -> Answer:
        rooms, given = self.take_rooms(), data or b""
        output, file, refused = rooms.output, rooms.file, rooms.refused
        file.grow(len(given) + FIRST_ROOM)
        refused.grow(8 * (lines.count(b"\n") + 1))
        while True:
            self._batch(data is not None, given, len(given), lines, len(lines), now, file.at, file.length, output.at,
                        output.length, refused.at, refused.length // 8, rooms.answer_at)
            if not _needs_room(rooms):
                return self.finished(rooms, refused, file)

    def open(self, path: bytes, wait: int, syncs: bool) -> Tuple[Answer, Optional[OpenedFile]]:
        rooms, opened = self.take_rooms(), _OpenedByC(self, path)
        output = rooms.output
        rooms.run(self._open, path, opened, path, len(path), wait, syncs, opened.at, output.at, output.length,
                  rooms.answer_at)
        return self.finished(rooms), opened if opened.is_open else None

    def give_back(self, rooms: _Rooms) -> None:
        self._free.append(rooms)

    def finished(self, rooms: _Rooms, refused: Optional[_Room] = None, file: Optional[_Room] = None) -> Answer:
        """Returns what a call has left in its rooms, and gives them back."""
        answer = rooms.answer
        length = answer.output_length
        if not (length or answer.fault or refused or file):
            self.give_back(rooms)
            return DONE
        output = ctypes.string_at(rooms.output.at, length) if length else b""
        data: Optional[bytes] = None
        numbers: Tuple[int, ...] = ()
        if refused is not None and answer.refused:
            numbers = tuple((ctypes.c_uint64 * answer.refused).from_address(refused.at))
        if file is not None and answer.is_changed:
            data = ctypes.string_at(file.at, answer.file_length)
        why = ctypes.string_at(rooms.explanation_at, answer.explanation_length) if answer.explanation_length else b""
        found = Answer(answer.fault, answer.system_error, answer.at, output, numbers, data, why)
        if length > FIRST_ROOM or file is not None or refused is not None:
            for room in (rooms.output, rooms.file, rooms.refused):
                room.shrink()
        self.give_back(rooms)
        return found


class FileByWords:
    """An open file with no fast ways."""

    path: bytes
    is_open: bool
    device = inode = 0

    def is_current(self) -> bool:
        return self.is_open and identity_at(self.path) == (self.device, self.inode)

    def update(self, samples: Tuple[object, ...], now: Optional[int]) -> Optional[Answer]:
        return None

    def update_many(self, samples: Tuple[object, ...], first: int, now: Optional[int]) -> Optional[Tuple[Answer, int]]:
        return None

    def fetch(self, function: int, resolution: int, start: int, end: int) -> Optional[Rows]:
        return None


class _OpenedByC(FileByWords):
    """A file that the C library keeps open. A file that nobody uses any longer is closed."""

    def __init__(self, library: CLibrary, path: bytes):
        self._library, self.path, self.file = library, path, _OwnFile(library.close_file)
        self.at = self.file.at
        calls.open[id(self)] = self

    @property
    def is_open(self) -> bool:  # type: ignore[override]
        return self.file.is_open

    def run(self, words: bytes, now: int) -> Answer:
        rooms = self._library.take_rooms()
        answer, output = rooms.answer, rooms.output
        while True:
            rooms.run(self._library.run_open, self.path, self, self.at, words, len(words), now, output.at,
                      output.length, rooms.answer_at)
            if answer.fault != NO_ROOM:
                return self._library.finished(rooms)
            output.grow(answer.output_needed)

    def batch(self, lines: bytes, now: int) -> Answer:
        rooms = self._library.take_rooms()
        answer, output, refused = rooms.answer, rooms.output, rooms.refused
        refused.grow(8 * (lines.count(b"\n") + 1))
        while True:
            rooms.run(self._library.batch_open, self.path, self, self.at, lines, len(lines), now, output.at,
                      output.length, refused.at, refused.length // 8, rooms.answer_at)
            if answer.fault != NO_ROOM:
                return self._library.finished(rooms, refused)
            output.grow(answer.output_needed)

    def close(self) -> None:
        rooms = self._library.take_rooms()
        rooms.run(self._library.close_file, self.path, self, self.at)
        self._library.give_back(rooms)

    def forget(self) -> None:
        """Leaves the file to the parent. Called in a forked child."""
        # The memory of the database stays with the child: to free it, the library would release the parent's lock.
        ctypes.memset(self.at, 0, ctypes.sizeof(_File))

    def __del__(self) -> None:
        if hasattr(self, "at"):  # otherwise an exception has cut `__init__` short, and no file is open
            self.close()


def _needs_room(rooms: _Rooms) -> bool:
    """Enlarges the buffers that were too small for the last call in memory. The caller can then repeat the call."""
    answer = rooms.answer
    if answer.fault != NO_ROOM:
        return False
    rooms.file.grow(answer.file_length)
    rooms.output.grow(answer.output_needed)
    return True


def loaded_by_ctypes(path: str) -> CLibrary:
    """Loads the library at a path.

    # Errors
    `OSError` if it cannot be loaded, `AttributeError` if it lacks a function.
    """
    return CLibrary(ctypes.CDLL(path))
