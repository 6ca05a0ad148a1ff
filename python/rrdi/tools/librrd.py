# SPDX-License-Identifier: MIT OR Apache-2.0
"""RRDtool's library in this process: its grapher, and its callback for rows.

Python's module rrdtool has the callback too, but refuses rows that begin before the requested start. Rows do so for each
resolution of which the start is not a multiple. So this module calls the library directly, by ctypes.
"""
from __future__ import annotations

import ctypes
from typing import Any, Callable, List, NamedTuple, Optional, Tuple

from ..limits import FUNCTIONS
from ..words import as_bytes, as_text
from .command_line import Failure
from .rows import Rows

NAMES = ("librrd.so.8", "librrd.so.4", "librrd.so")
NOT_INSTALLED = "RRDtool's library librrd is not installed (Debian: apt install librrd8)"

# RRDtool calls the callback for a file with this prefix.
PREFIX = "cb//"
# Gets the file with its prefix, the function, start, end and step; returns the rows.
Question = Callable[[str, str, int, int, int], Rows]

Pointer = ctypes.POINTER
CALLBACK = ctypes.CFUNCTYPE(
    ctypes.c_int, ctypes.c_char_p, ctypes.c_int, Pointer(ctypes.c_long), Pointer(ctypes.c_long),
    Pointer(ctypes.c_ulong), Pointer(ctypes.c_ulong), Pointer(ctypes.c_void_p), Pointer(ctypes.c_void_p))


class _Blob(ctypes.Structure):
    _fields_ = [("size", ctypes.c_ulong), ("data", ctypes.c_void_p)]


class _Value(ctypes.Union):
    _fields_ = [("count", ctypes.c_ulong), ("value", ctypes.c_double), ("text", ctypes.c_char_p),
                ("number", ctypes.c_int), ("blob", _Blob)]


class _Info(ctypes.Structure):
    """`rrd_info_t` of rrd.h."""


_Info._fields_ = [("key", ctypes.c_char_p), ("type", ctypes.c_int), ("value", _Value), ("next", Pointer(_Info))]


class GraphInfo(NamedTuple):
    """A line of RRDtool's information about a picture. The value is a number, a text or bytes."""

    key: str
    value: "float | int | str | bytes"


class Exported(NamedTuple):
    """The result of xport: the first row ends at `start` + `step`."""

    start: int
    end: int
    step: int
    names: List[str]
    rows: List[Tuple[float, ...]]


def text(data: Optional[bytes]) -> str:
    return as_text(data or b"")


class Librrd:
    """The library. All calls are made by one thread.

    # Errors
    `Failure` if the library is not installed.
    """

    def __init__(self) -> None:
        self.library = self.load()
        self.question: Optional[Question] = None
        self.copies: List[Any] = []
        self.failure: Optional[BaseException] = None
        functions: List[Tuple[str, Any, List[Any]]] = [
            ("rrd_graph_v", Pointer(_Info), [ctypes.c_int, Pointer(ctypes.c_char_p)]),
            ("rrd_info_free", None, [Pointer(_Info)]), ("rrd_get_error", ctypes.c_char_p, []),
            ("rrd_clear_error", None, []), ("rrd_freemem", None, [ctypes.c_void_p]),
            ("rrd_set_error", None, [ctypes.c_char_p, ctypes.c_char_p]),
            ("rrd_fetch_cb_register", ctypes.c_int, [CALLBACK]),
            ("rrd_xport", ctypes.c_int, [ctypes.c_int, Pointer(ctypes.c_char_p), Pointer(ctypes.c_int),
                                         Pointer(ctypes.c_long), Pointer(ctypes.c_long), Pointer(ctypes.c_ulong),
                                         Pointer(ctypes.c_ulong), Pointer(ctypes.c_void_p), Pointer(ctypes.c_void_p)])]
        try:
            for name, result, arguments in functions:
                function = getattr(self.library, name)
                function.restype, function.argtypes = result, arguments
        except AttributeError as error:
            raise Failure(f"RRDtool's library is too old: {error}") from None
        # Memory that RRDtool frees has to come from the C library.
        self.c = ctypes.CDLL(None)
        self.c.malloc.restype, self.c.malloc.argtypes = ctypes.c_void_p, [ctypes.c_size_t]
        self.callback = CALLBACK(self.answer)  # kept as long as the library may call it
        self.library.rrd_fetch_cb_register(self.callback)

    @staticmethod
    def load() -> ctypes.CDLL:
        for name in NAMES:
            try:
                return ctypes.CDLL(name)
            except OSError:
                continue
        raise Failure(NOT_INSTALLED)

    # ---- The callback

    def allocate(self, data: bytes) -> int:
        """Copies bytes to memory that RRDtool frees."""
        at: Optional[int] = self.c.malloc(max(len(data), 1))
        if at is None:
            raise MemoryError
        ctypes.memmove(at, data, len(data))
        return at

    def answer(self, file: bytes, function: int, start: Any, end: Any, step: Any, count: Any, names: Any,
               data: Any) -> int:
        """Returns the rows that RRDtool requests. An exception becomes RRDtool's error, and is kept for the caller."""
        try:
            assert self.question is not None
            # RRDtool numbers these functions as rrdi orders them, and then its others.
            if not 0 <= function < len(FUNCTIONS):
                raise Failure("rrdi has no such function")
            rows = self.question(text(file), FUNCTIONS[function], start[0], end[0], step[0])
            cells = [float("nan") if cell is None else cell for row in rows.cells for cell in row]
            addresses = [self.allocate(name.encode() + b"\0") for name in rows.names]
            names[0] = self.allocate(bytes((ctypes.c_void_p * len(addresses))(*addresses)))
            data[0] = self.allocate(bytes((ctypes.c_double * len(cells))(*cells)))
            start[0], end[0], step[0], count[0] = rows.start, rows.end, rows.step, len(rows.names)
            return 0
        except BaseException as error:  # no exception may go through the library
            self.failure = error
            self.library.rrd_set_error(b"%s", as_bytes(str(error)))
            return -1

    # ---- Calls

    def begin(self, name: str, words: List[str], question: Question) -> Any:
        """Prepares a call; returns its arguments, which RRDtool may put in another order and write to."""
        self.question, self.failure = question, None
        self.library.rrd_clear_error()
        given = [name.encode(), *map(as_bytes, words)]
        self.copies = [ctypes.create_string_buffer(word) for word in given]
        return (ctypes.c_char_p * (len(given) + 1))(*(ctypes.addressof(copy) for copy in self.copies), None)

    def refuse(self) -> None:
        """Raises the error of a call."""
        if self.failure is not None and not isinstance(self.failure, Failure):
            raise self.failure
        raise Failure(text(self.library.rrd_get_error()).replace(PREFIX, "") or "RRDtool drew nothing")

    def graph(self, words: List[str], question: Question) -> List[GraphInfo]:
        """Draws a picture and returns RRDtool's information about it.

        # Errors
        `Failure` with RRDtool's message if nothing was drawn.
        """
        arguments = self.begin("graph", words, question)
        first = self.library.rrd_graph_v(len(words) + 1, arguments)
        if not first:
            self.refuse()
        try:
            # If the picture cannot be written, only the error shows it.
            if self.library.rrd_get_error():
                self.refuse()
            found, at = [], first
            while at:
                found.append(GraphInfo(text(at.contents.key), value_of(at.contents)))
                at = at.contents.next
            return found
        finally:
            self.library.rrd_info_free(first)

    def xport(self, words: List[str], question: Question) -> Exported:
        """Returns the rows of XPORTs.

        # Errors
        `Failure` with RRDtool's message if there are no rows.
        """
        arguments = self.begin("xport", words, question)
        size, start, end = ctypes.c_int(), ctypes.c_long(), ctypes.c_long()
        step, count, legend, data = ctypes.c_ulong(), ctypes.c_ulong(), ctypes.c_void_p(), ctypes.c_void_p()
        status = self.library.rrd_xport(len(words) + 1, arguments, ctypes.byref(size), ctypes.byref(start),
                                        ctypes.byref(end), ctypes.byref(step), ctypes.byref(count),
                                        ctypes.byref(legend), ctypes.byref(data))
        if status != 0:
            self.refuse()
        columns = count.value
        addresses = (ctypes.c_void_p * columns).from_address(legend.value or 0)
        names = [text(ctypes.string_at(address or 0)) for address in addresses]
        length = (end.value - start.value) // step.value
        cells = (ctypes.c_double * (length * columns)).from_address(data.value or 0)
        rows = [tuple(cells[at:at + columns]) for at in range(0, length * columns, columns)]
        for address in (*addresses, legend, data):
            self.library.rrd_freemem(address)
        return Exported(start.value, end.value, step.value, names, rows)


def value_of(info: Any) -> "float | int | str | bytes":
    value = info.value
    if info.type == 0:
        return float(value.value)
    if info.type == 1:
        return int(value.count)
    if info.type == 2:
        return text(value.text)
    if info.type == 3:
        return int(value.number)
    return ctypes.string_at(value.blob.data, value.blob.size)
