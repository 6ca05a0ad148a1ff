# SPDX-License-Identifier: MIT OR Apache-2.0
"""Tests of `rrdi.library`: the buffers that a call lends and their growth, with functions of Python instead of those in C;
and the search for the library."""
from __future__ import annotations

import ctypes
import os
import unittest
from typing import Any, Callable, List, Tuple
from unittest import mock

from cases import new_folder, use_library
from doubles import has_library
from locking import c_library

import rrdi
from rrdi import by_ctypes, library, places
from rrdi.by_ctypes import FIRST_ROOM
from rrdi.errors import CANNOT_WRITE
from rrdi.library import load_library
from rrdi.protocol import OpenedFile

class Called:
    """Functions that record their calls, and answer with this output, file and refused lines, if there is room."""

    def __init__(self, output: bytes = b"", file: bytes = b"", refused: Tuple[int, ...] = (), fault: int = 0):
        self.output, self.file, self.refused, self.fault = output, file, refused, fault
        self.given: List[Any] = []
        functions = {name: self.function(name, name in ("rrdi_run", "rrdi_batch"))
                     for name in ("rrdi_run", "rrdi_batch", "rrdi_run_file", "rrdi_batch_file")}
        on_open = {name: self.on_open(name) for name in ("rrdi_run_open", "rrdi_batch_open")}
        self.library: Any = c_library({**functions, **on_open, "rrdi_open": self.open, "rrdi_close": self.close})

    def function(self, name: str, is_in_memory: bool) -> Callable[..., None]:
        def called(*words: Any) -> None:
            answer = by_ctypes._Answer.from_address(words[-1])
            if is_in_memory:
                has_file, data, data_length, text, length, now, file_at, file_room, output_at, room = words[:10]
                self.given.append((name, ctypes.string_at(data, data_length) if has_file else None,
                                   ctypes.string_at(text, length), now))
            else:
                path, path_length, text, length, now, wait, syncs, output_at, room = words[:9]
                file_at, file_room = 0, 0
                self.given.append((name, ctypes.string_at(path, path_length), ctypes.string_at(text, length), now, wait,
                                   syncs))
            self.answer(answer, name, file_at, file_room, output_at, room, words)
        return called

    def open(self, path: int, length: int, wait: int, syncs: bool, file: int, output: int, room: int,
             answer_at: int) -> None:
        self.given.append(("rrdi_open", ctypes.string_at(path, length), wait, syncs))
        answer, opened = by_ctypes._Answer.from_address(answer_at), by_ctypes._File.from_address(file)
        answer.fault, answer.system_error, answer.output_length = self.fault, 11, len(self.output)
        opened.is_open, opened.reserved = not self.fault, 4711
        ctypes.memmove(output, self.output, len(self.output))

    def close(self, file: int) -> None:
        opened = by_ctypes._File.from_address(file)
        self.given.append(("rrdi_close", opened.is_open, opened.reserved))
        opened.is_open = False

    def on_open(self, name: str) -> Callable[..., None]:
        def called(*words: Any) -> None:
            file, text, length, now, output_at, room = words[:6]
            self.given.append((name, by_ctypes._File.from_address(file).reserved, ctypes.string_at(text, length), now))
            self.answer(by_ctypes._Answer.from_address(words[-1]), name, 0, 0, output_at, room, words)
        return called

    def answer(self, answer: Any, name: str, file_at: int, file_room: int, output_at: int, room: int,
               words: Any) -> None:
        answer.fault, answer.system_error, answer.at, answer.is_changed = self.fault, 11, 7, False
        answer.output_needed, answer.file_length, answer.refused = len(self.output), len(self.file), len(self.refused)
        answer.is_cut = len(self.output) > room
        answer.output_length = 0 if answer.is_cut else len(self.output)
        if name in ("rrdi_run", "rrdi_batch") and self.file:
            if len(self.file) > file_room:
                answer.fault = 1
                return
            answer.is_changed = not answer.is_cut
            ctypes.memmove(file_at, self.file, len(self.file))
        if answer.is_cut:
            answer.fault = self.fault or 1
            return
        ctypes.memmove(output_at, self.output, len(self.output))
        if "batch" in name:
            lines = (ctypes.c_uint64 * min(len(self.refused), words[-2])).from_address(words[-3])
            lines[:] = self.refused[:len(lines)]


class Rooms(unittest.TestCase):
    def test_words_of_a_call(self) -> None:
        called = Called(b"text")
        self.assertEqual(called.library.run_file(b"f", b"first\0--rraindex=1", 2**40, 5_000, True).output, b"text")
        called.library.batch_file(b"", b"", 0, 0, False)
        called.library.run(None, b"last", 1)
        called.library.run(b"", b"last", 1)
        called.library.batch(b"a\0b", b"last\nlast", 2**64 - 1)
        self.assertEqual(called.given, [("rrdi_run_file", b"f", b"first\0--rraindex=1", 2**40, 5_000, True),
                                        ("rrdi_batch_file", b"", b"", 0, 0, False), ("rrdi_run", None, b"last", 1),
                                        ("rrdi_run", b"", b"last", 1),
                                        ("rrdi_batch", b"a\0b", b"last\nlast", 2**64 - 1)])

    def test_answers(self) -> None:
        answer = Called(b"bad value", fault=13).library.run_file(b"f", b"last", 0, 0, False)
        self.assertEqual((answer.fault, answer.system_error, answer.at, answer.output), (13, 11, 7, b"bad value"))
        answer = Called(refused=(1, 3)).library.batch_file(b"f", b"1\n2\n3", 0, 0, False)
        self.assertEqual((answer.fault, answer.refused, answer.data), (0, (1, 3), None))
        answer = Called(file=b"new", refused=(2,)).library.batch(b"old", b"1\n2", 0)
        self.assertEqual((answer.refused, answer.data), ((2,), b"new"))
        self.assertIsNone(Called().library.run(b"old", b"last", 0).data)

    def test_a_batch_that_may_have_changed_the_file(self) -> None:
        """It is not run again, although there was no room for its output."""
        def put_cut(answer: Any, *others: Any) -> None:
            answer.fault, answer.is_cut = CANNOT_WRITE, len(called.given) < 2
            answer.output_length, answer.output_needed = 0, FIRST_ROOM + 1 if answer.is_cut else 0
        called: Any = Called()
        called.answer = put_cut
        answer = called.library.batch_file(b"f", b"last", 0, 0, False)
        self.assertEqual((answer.fault, answer.output, len(called.given)), (CANNOT_WRITE, b"", 1))

    def test_rooms_that_grow(self) -> None:
        long, data = b"o" * (FIRST_ROOM + 1), b"f" * (3 * FIRST_ROOM)
        calls: List[Any] = [lambda of: of.run_file(b"f", b"info", 0, 0, False),
                            lambda of: of.batch_file(b"f", b"info", 0, 0, False),
                            lambda of: of.run(b"f", b"info", 0), lambda of: of.batch(b"f", b"info", 0)]
        for call in calls:
            called = Called(long)
            self.assertEqual((call(called.library).output, len(called.given)), (long, 2))
            self.assertEqual(call(called.library).fault, 0)
            self.assertEqual(len(called.given), 3)  # the room has stayed
        called = Called(long, data)
        answer = called.library.run(None, b"create", 0)
        self.assertEqual((answer.data, answer.output, len(called.given)), (data, long, 2))
        many = tuple(range(1, 20_001))
        self.assertEqual(Called(refused=many).library.batch_file(b"f", b"\n" * 19_999, 0, 0, False).refused, many)

    def test_room_for_refused_lines(self) -> None:
        """For as many numbers as there are lines."""
        acts: List[Any] = [lambda of, lines: of.batch_file(b"f", lines, 0, 0, False), lambda of, lines: of.batch(None, lines, 0), lambda of, lines: of.open(b"f", 0, False)[1].batch(lines, 0)]
        for act in acts:
            for count in (1, 2, 7, 8, 100):
                called: Any = Called()
                with mock.patch.object(called, "answer", wraps=called.answer) as told:
                    act(called.library, b"\n" * (count - 1))
                self.assertEqual([call[0][-1][-2] for call in told.call_args_list], [count])

    def test_rooms_that_shrink(self) -> None:
        long = 17 * FIRST_ROOM
        cases: List[Tuple[Called, Any, Tuple[int, int, int]]] = [
            (Called(b"o" * long), lambda of: of.run_file(b"f", b"fetch", 0, 0, False), (FIRST_ROOM, 1, 8)), (Called(b"o" * long), lambda of: of.batch_file(b"f", b"fetch", 0, 0, False), (FIRST_ROOM, 1, 8)),
            (Called(b"o", b"f" * long), lambda of: of.run(None, b"create", 0), (FIRST_ROOM, FIRST_ROOM, 8)), (Called(b"o", b"", (1,)), lambda of: of.batch_file(b"f", b"\n" * long, 0, 0, False), (FIRST_ROOM, 1, FIRST_ROOM)),
            (Called(b"o", b"f" * long), lambda of: of.batch(b"f", b"\n" * long, 0), (FIRST_ROOM, FIRST_ROOM, FIRST_ROOM))]
        for called, act, lengths in cases:
            act(called.library)
            rooms = called.library.take_rooms()
            self.assertEqual((rooms.output.length, rooms.file.length, rooms.refused.length), lengths)

    def test_rooms_that_are_taken(self) -> None:
        """Each call has rooms of its own, and gives them back."""
        called = Called(b"text")
        one, other = called.library.take_rooms(), called.library.take_rooms()
        self.assertEqual(len({one.answer_at, one.output.at, other.answer_at, other.output.at}), 4)
        called.library.give_back(one)
        called.library.run_file(b"f", b"last", 0, 0, False)
        self.assertIs(called.library.take_rooms(), one)
        self.assertIsNot(called.library.take_rooms(), one)
        called = Called()  # a call with no output
        rooms = called.library.take_rooms()
        called.library.give_back(rooms)
        called.library.run_file(b"f", b"tune", 0, 0, False)
        self.assertIs(called.library.take_rooms(), rooms)


class Opened(unittest.TestCase):
    def opened(self, called: Called) -> OpenedFile:
        answer, opened = called.library.open(b"f", 5_000, True)
        self.assertEqual((answer.fault, called.given.pop()), (0, ("rrdi_open", b"f", 5_000, True)))
        assert opened is not None
        found: OpenedFile = opened
        return found

    def test_words_of_a_call(self) -> None:
        called = Called()
        opened = self.opened(called)
        self.assertEqual(opened.run(b"update\0" b"10:1", 2**40), library.DONE)
        called.output, called.refused = b"ERROR: bad value\n", (2,)
        answer = opened.batch(b"last\nupdate x", 7)
        self.assertEqual((answer.output, answer.refused), (b"ERROR: bad value\n", (2,)))
        opened.close()
        del opened  # which closes once more
        self.assertEqual(called.given, [("rrdi_run_open", 4711, b"update\0" b"10:1", 2**40),
                                        ("rrdi_batch_open", 4711, b"last\nupdate x", 7),
                                        ("rrdi_close", True, 4711), ("rrdi_close", False, 4711)])

    def test_an_exception_while_it_is_made(self) -> None:
        called = Called()
        with mock.patch.object(by_ctypes, "_OwnFile", side_effect=MemoryError), mock.patch("sys.unraisablehook") as told:
            self.assertRaises(MemoryError, called.library.open, b"f", 5_000, True)
        told.assert_not_called()

    def test_rooms_that_grow(self) -> None:
        long = b"o" * (FIRST_ROOM + 1)
        calls: List[Any] = [lambda of: of.run(b"info", 0), lambda of: of.batch(b"info", 0)]
        for call in calls:
            called = Called()
            opened = self.opened(called)
            called.output = long
            self.assertEqual((call(opened).output, len(called.given)), (long, 2))

    def test_a_fault(self) -> None:
        called = Called(b"cannot open", fault=14)
        answer, opened = called.library.open(b"f", 0, False)
        self.assertEqual((answer.fault, answer.system_error, answer.output, opened), (14, 11, b"cannot open", None))

    def test_refused_lines(self) -> None:
        for count in (1, 2, 3, 40):
            refused = tuple(range(1, count + 1))
            self.assertEqual(self.opened(Called(refused=refused)).batch(b"\n".join([b"x"] * count), 0).refused, refused)

    def test_what_nobody_uses_is_closed(self) -> None:
        called = Called()
        opened = self.opened(called)
        del opened
        self.assertEqual(called.given, [("rrdi_close", True, 4711)])

    def test_what_a_child_forgets_stays_open(self) -> None:
        called = Called()
        opened = self.opened(called)
        opened.forget()  # type: ignore[attr-defined]
        del opened
        self.assertEqual(called.given, [("rrdi_close", False, None)])


class Places(unittest.TestCase):
    def test_the_structures(self) -> None:
        self.assertEqual((ctypes.sizeof(by_ctypes._Answer), ctypes.alignment(by_ctypes._Answer)), (8504, 8))
        self.assertEqual((ctypes.sizeof(by_ctypes._File), ctypes.alignment(by_ctypes._File)), (16, 8))

    def test_places(self) -> None:
        folder = new_folder(self)
        with mock.patch.dict(os.environ):
            os.environ.pop("RRDI_LIBRARY", None)
            for place, found in (("repository/python/rrdi", "repository/out"), ("site/rrdi", "site/rrdi"),
                                 ("usr/share/rrdi/python/rrdi", "usr/lib")):
                (folder / place).mkdir(parents=True)
                (folder / found).mkdir(exist_ok=True, parents=True)
                for name in ("librrdi.so", "librrdi.so.0"):  # which is taken before the other one
                    (folder / found / name).touch()
                    with mock.patch.object(places, "__file__", str(folder / place / "places.py")):
                        self.assertEqual(rrdi.library_path(), str(folder.resolve() / found / name))
                with mock.patch.object(places, "__file__", str(folder / place / "places.py")):
                    os.environ["RRDI_LIBRARY"] = "/x/librrdi.so"
                    self.assertEqual(rrdi.library_path(), "/x/librrdi.so")
                    os.environ.pop("RRDI_LIBRARY")

    def test_loading(self) -> None:
        use_library(self, None)
        for path in ("/nowhere/librrdi.so.0", "libc.so.6"):
            with self.assertRaisesRegex(rrdi.NoLibrary, f"the C library cannot be used: .*{path}") as raised:
                load_library(path)
            self.assertIsInstance(raised.exception, OSError)
        with self.assertRaisesRegex(rrdi.NoLibrary, r"the C library cannot be used: .*/no\\nwhere"):  # in one line
            load_library("/no\nwhere")
        if has_library():
            self.assertIs(load_library(), library.the_library())
            with mock.patch.object(library, "the_extension", return_value=None):
                self.assertIsInstance(load_library(), by_ctypes.CLibrary)
