# SPDX-License-Identifier: MIT OR Apache-2.0
"""The C library's functions on files, in Python: they really lock the files, and answer what a test wants."""
from __future__ import annotations

import ctypes
import errno
import fcntl
import os
from types import SimpleNamespace
from typing import Any, Callable, Dict, List, Optional, Tuple

from building import chosen, stub_of
from rrdi import by_ctypes
from rrdi.by_ctypes import CLibrary
from rrdi.calls import calls
from rrdi.errors import CANNOT_OPEN
from rrdi.protocol import CLOSED, DONE, Answer, Library

POINTER, LENGTH, NUMBER = ctypes.c_void_p, ctypes.c_size_t, ctypes.c_uint64
IN_MEMORY = [ctypes.c_bool, POINTER, LENGTH, POINTER, LENGTH, NUMBER, POINTER, LENGTH, POINTER, LENGTH]
AT_PATH = [POINTER, LENGTH, POINTER, LENGTH, NUMBER, NUMBER, ctypes.c_bool, POINTER, LENGTH]
REFUSED = [POINTER, LENGTH]
OPENING = [POINTER, LENGTH, NUMBER, ctypes.c_bool, POINTER, POINTER, LENGTH, POINTER]
ON_OPEN = [POINTER, POINTER, LENGTH, NUMBER, POINTER, LENGTH]

BUSY = Answer(CANNOT_OPEN, errno.EAGAIN, 0, b"cannot open")
# By name: the words of a call, after which come those of refused lines and the answer.
PROTOTYPES: Dict[str, List[Any]] = {
    "rrdi_run": [*IN_MEMORY, POINTER], "rrdi_batch": [*IN_MEMORY, *REFUSED, POINTER],
    "rrdi_run_file": [*AT_PATH, POINTER], "rrdi_batch_file": [*AT_PATH, *REFUSED, POINTER],
    "rrdi_open": OPENING, "rrdi_close": [POINTER], "rrdi_run_open": [*ON_OPEN, POINTER],
    "rrdi_batch_open": [*ON_OPEN, *REFUSED, POINTER],
    "rrdi_update_open": [POINTER, NUMBER, POINTER, LENGTH, POINTER, LENGTH, POINTER],
    "rrdi_update_many": [POINTER, POINTER, POINTER, LENGTH, LENGTH, POINTER, POINTER, LENGTH, POINTER],
    "rrdi_fetch_open": [POINTER, ctypes.c_uint32, NUMBER, NUMBER, NUMBER, POINTER, POINTER, LENGTH, POINTER, LENGTH, POINTER]}
_kept: List[Any] = []  # functions that a library of the extension may call


def c_library(functions: Dict[str, Callable[..., None]]) -> Library:
    """Returns the package's library with functions of Python in the place of those in C."""
    made = {name: ctypes.CFUNCTYPE(None, *PROTOTYPES[name])(function) for name, function in functions.items()}
    if chosen.extension is None:
        return CLibrary(SimpleNamespace(**made))  # type: ignore[arg-type]
    _kept.append(made)
    return chosen.extension.load(stub_of(made), Answer, DONE, calls.wait)


def put(answer_at: int, answer: Answer, output_at: int) -> None:
    """Stores an answer as the library does. There is room for its output."""
    found = by_ctypes._Answer.from_address(answer_at)
    found.fault, found.system_error, found.at, found.is_cut = answer.fault, answer.system_error, answer.at, False
    found.output_length = len(answer.output)
    found.refused, found.is_changed = len(answer.refused), False
    ctypes.memmove(output_at, answer.output, len(answer.output))
    found.explanation_length = len(answer.explanation)
    ctypes.memmove(answer_at + by_ctypes._Answer.explanation.offset, answer.explanation, len(answer.explanation))


class Locking:
    """A library that keeps what is called, and gives the next answer, or that all is well. `at_call` runs during a call,
    and `at_open` before a file is opened, with its path; it may return a fault. `renamed` has files to open instead"""

    def __init__(self) -> None:
        self.said: List[str] = []
        self.numbers: List[int] = []  # of the files that were opened
        self.asked: List[Tuple[int, bool]] = []  # the milliseconds of each call at a path, and whether it flushes
        self.answers: List[Answer] = []
        self.at_open: Callable[[bytes], Optional[Answer]] = lambda path: None
        self.at_call: Callable[[], None] = lambda: None
        self.renamed: Dict[bytes, bytes] = {}
        self.is_echo = False  # an answer has the words of the call
        self.library = c_library({
            "rrdi_run": self._in_memory, "rrdi_batch": self._in_memory, "rrdi_run_file": self._at_path,
            "rrdi_batch_file": self._at_path, "rrdi_open": self._open, "rrdi_close": self._close,
            "rrdi_run_open": self._on_open, "rrdi_batch_open": self._on_open})

    def _in_memory(self, *words: int) -> None:
        self.said.append("memory")

    def _at_path(self, *words: int) -> None:
        self.asked.append((words[5], bool(words[6])))
        put(words[-1], self._answered("path", ctypes.string_at(words[2], words[3]), words), words[7])

    def _on_open(self, *words: int) -> None:
        file = by_ctypes._File.from_address(words[0])
        if not file.is_open:
            self.said.append("closed")
            put(words[-1], CLOSED, words[4])
        else:
            put(words[-1], self._answered("open", ctypes.string_at(words[1], words[2]), words), words[4])

    def _answered(self, where: str, given: bytes, words: "tuple[int, ...]") -> Answer:
        self.said.append(f"{where} {given.decode()}")
        self.at_call()
        answer = self.answers.pop(0) if self.answers else DONE._replace(output=given if self.is_echo else b"")
        if answer.refused:
            numbers = (ctypes.c_uint64 * len(answer.refused)).from_address(words[-3])
            numbers[:] = list(answer.refused)
        return answer

    def _open(self, path: int, length: int, wait: int, syncs: bool, file_at: int, output: int, room: int,
              answer_at: int) -> None:
        self.said.append(f"open {wait} {syncs}")
        name, file = ctypes.string_at(path, length), by_ctypes._File.from_address(file_at)
        fault = self.at_open(name)
        if fault is None:
            fault = self._locked(self.renamed.get(name, name), file)
        put(answer_at, fault or DONE, output)

    def _locked(self, name: bytes, file: by_ctypes._File) -> Optional[Answer]:
        number = os.open(name, os.O_RDWR | os.O_CLOEXEC)
        try:
            fcntl.flock(number, fcntl.LOCK_EX | fcntl.LOCK_NB)
        except BlockingIOError:
            os.close(number)
            return BUSY
        file.is_open, file.reserved = True, number
        self.numbers.append(number)
        return None

    def _close(self, file_at: int) -> None:
        file = by_ctypes._File.from_address(file_at)
        if file.is_open:
            self.said.append("close")
            fcntl.flock(file.reserved, fcntl.LOCK_UN)
            os.close(file.reserved)
        file.is_open, file.reserved = False, None
