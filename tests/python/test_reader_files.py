# SPDX-License-Identifier: MIT OR Apache-2.0
"""Tests of how rrdi.reader opens files: what it reads of which kind of file, and that it gives up locks and files at once, also
if somebody keeps the error or the object. No program is needed."""
from __future__ import annotations

import errno
import fcntl
import os
import subprocess
import sys
import threading
import unittest
from typing import Any, Callable, Dict, List, Optional, Tuple
from unittest import mock

import graphite_doubles as graphite
from cases import new_folder
from doubles import TOP
from rrdi import locks
from rrdi.errors import Damaged
from rrdi.reader import files
from rrdi.reader.selected import OpenFile

DATA = graphite.file_bytes(130, archives=[(1, 6, {130: [2.5]}), (6, 4, {})])


def kept_error(call: Callable[..., object], *words: object) -> BaseException:
    """Calls something that fails. Returns the error, with all that its traceback keeps."""
    try:
        call(*words)
    except (Damaged, OSError) as error:
        return error
    raise AssertionError("it did not fail")


class Files(unittest.TestCase):
    def test_standard_input_under_a_lock(self) -> None:
        """It is read under a shared lock, as a file is."""
        path = new_folder(self) / "f.rrdi"
        path.write_bytes(graphite.file_bytes(1_700_000_000))
        with open(path, "rb") as given, open(path, "rb") as other:
            for operation, is_read in ((fcntl.LOCK_SH, True), (fcntl.LOCK_EX, False)):
                fcntl.flock(other, operation)
                ran = subprocess.run([sys.executable, "-m", "rrdi.reader", "json", "-"], stdin=given, capture_output=True, text=True,
                                     env={**os.environ, "PYTHONPATH": str(TOP / "python"), "RRDI_WAIT": "0"})
                self.assertEqual((ran.returncode == 0, "another program holds its lock" in ran.stderr), (is_read, not is_read), ran)
                os.lseek(given.fileno(), 0, os.SEEK_SET)

    def setUp(self) -> None:
        self.path = new_folder(self) / "m.rrdi"
        self.path.write_bytes(DATA)

    def assert_free(self) -> None:
        """Nobody holds a lock of the file, and this process has it not open."""
        with open(self.path, "rb") as own:
            fcntl.flock(own, fcntl.LOCK_EX | fcntl.LOCK_NB)
            mine = [os.readlink(f"/proc/self/fd/{number}") for number in os.listdir("/proc/self/fd")
                    if os.path.islink(f"/proc/self/fd/{number}") and int(number) != own.fileno()]
        self.assertNotIn(str(self.path), mine)

    def test_closed(self) -> None:
        file = OpenFile(str(self.path))
        with open(self.path, "rb") as other, self.assertRaises(BlockingIOError):
            fcntl.flock(other, fcntl.LOCK_EX | fcntl.LOCK_NB)
        file.close()
        self.assert_free()
        with OpenFile(str(self.path)) as file:
            self.assertEqual(file.front.last, 130)
        self.assert_free()

    def test_closed_after_an_error(self) -> None:
        for data in (b"", b"RRDX" + DATA[4:], DATA[:20]):
            self.path.write_bytes(data)
            calls: List[Callable[..., object]] = [OpenFile, files.read_file]
            for call in calls:
                error = kept_error(call, str(self.path))
                self.assertIsInstance(error, Damaged)
                self.assert_free()

    def test_bytes_of_a_regular_file(self) -> None:
        opened: List[Any] = []
        own = locks.open_locked

        def noted(*words: Any) -> Any:
            opened.append(own(*words))
            return opened[-1]
        with mock.patch.object(files, "open_locked", noted):
            self.assertEqual(files.read_bytes(str(self.path)), DATA)
            self.assertEqual(files.read_file(str(self.path))["last_time"], 130)
        self.assertEqual([file.closed for file in opened], [True, True])
        self.assert_free()

    def test_bytes_of_a_pipe(self) -> None:
        """One with a name is read to its end, and closed; standard input stays open."""
        pipe = self.path.with_name("pipe")
        os.mkfifo(pipe)
        calls: List[Tuple[Callable[[str], object], object]] = [(files.read_bytes, DATA), (lambda path: files.read_file(path)["last_time"], 130)]
        for call, wanted in calls:
            writer = threading.Thread(target=pipe.write_bytes, args=(DATA,))
            writer.start()
            self.assertEqual(call(str(pipe)), wanted)
            writer.join()
        kept = os.dup(0)
        self.addCleanup(os.close, kept)
        self.addCleanup(os.dup2, kept, 0)
        for call, wanted in calls:
            with open(self.path, "rb") as given:
                os.dup2(given.fileno(), 0)
            self.assertEqual(call("-"), wanted)
            self.assertEqual(os.fstat(0).st_size, len(DATA))

    def test_what_is_no_file(self) -> None:
        for path, number in ((self.path.with_name("none"), errno.ENOENT), (self.path.parent, errno.EISDIR)):
            calls: List[Callable[..., object]] = [OpenFile, files.read_file, files.read_bytes]
            for call in calls:
                error = kept_error(call, str(path))
                self.assertEqual(getattr(error, "errno", None), number, (path, call))

    def test_a_held_file(self) -> None:
        """Whoever holds the lock already reads without another one."""
        with open(self.path, "rb") as own, mock.patch("rrdi.environment.WAIT", 0):
            fcntl.flock(own, fcntl.LOCK_EX)
            self.assertIsInstance(kept_error(OpenFile, str(self.path)), BlockingIOError)
            with OpenFile(str(self.path), is_held=True) as file:
                self.assertEqual(file.front.last, 130)

    def test_settings(self) -> None:
        """Each archive has its own number of rows."""
        with OpenFile(str(self.path)) as file:
            found = file.settings()
        self.assertEqual([(archive["steps"], archive["row_count"]) for archive in found["archives"]], [(1, 6), (6, 4)])

    def times(self, data: bytes) -> Optional[List[int]]:
        """Returns the times of the journal; None if the file is too short for what it says."""
        self.path.write_bytes(data)
        with OpenFile(str(self.path)) as file:
            try:
                return list(file.times_before())
            except Damaged as error:
                self.assertEqual((str(error), error.at), (f"file: truncated at {len(data)}", len(data)))
                return None

    def test_a_journal_that_is_cut(self) -> None:
        """At each length: no time is told of an entry that is not whole, and none at all without all cells."""
        entries = [graphite.update_entry(before, 2) for before in (120, 110)]
        archives: List[Any] = [(1, 6, {}), (6, 4, {})]
        for count in (0, 1, 2):
            data = graphite.file_bytes(130, archives=archives, entries=b"".join(entries[:count]), count=count)
            wanted = [120, 110][:count]
            self.assertEqual(self.times(data), wanted)
            for size in range(len(data) - sum(map(len, entries[:count])) - 20, len(data)):
                self.assertIsNone(self.times(data[:size]), (count, size))
        # The entry of a tune ends the times.
        data = graphite.file_bytes(130, archives=archives, entries=entries[0] + b"\2" + entries[1], count=3)
        self.assertEqual(self.times(data), [120])

    def outline(self) -> object:
        with OpenFile(str(self.path)) as file:
            return file.outline()

    def test_a_header_that_is_cut(self) -> None:
        for size in range(len(DATA) - 160):
            self.path.write_bytes(DATA[:size])
            error = kept_error(self.outline)
            self.assertIsInstance(error, Damaged)
            self.assertEqual((str(error), getattr(error, "at", None)), (f"file: truncated at {size}", size))

    def test_rows(self) -> None:
        """All spans of times over an archive of which each row is another slot: in order, and round the end of the slots."""
        for rows, last in ((1, 130), (3, 130), (4, 139), (6, 133), (7, 70)):
            times = [time for time in range(10, last + 1, 10) if time > (last // 10 - rows) * 10]
            cells: Dict[int, List[Optional[float]]] = {time: [time / 10] for time in times}
            self.path.write_bytes(graphite.file_bytes(last, archives=[(1, rows, cells)]))
            with OpenFile(str(self.path)) as file:
                archive = file.outline().archives[0]
                for first in range(45, 161):
                    for end in (first - 1, first, first + 1, first + 9, first + 10, first + 35, 200):
                        found = {time: row[0] for time, row in file.rows(archive, first, end).items()}
                        wanted = {time: time * 100_000 for time in times if first <= time <= end}
                        self.assertEqual(found, wanted, (rows, first, end))


if __name__ == "__main__":
    unittest.main()
