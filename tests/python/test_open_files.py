# SPDX-License-Identifier: MIT OR Apache-2.0
"""Tests of `rrdi.open_files`: which files stay open after a batch, and until when; with a library that really locks them, and
with the C library."""
from __future__ import annotations

import errno
import fcntl
import os
import resource
import signal
import subprocess
import sys
import threading
import time
import unittest
from contextlib import contextmanager
from pathlib import Path
from typing import Callable, Iterator, List, Optional, Set, Tuple
from unittest import mock

from building import ByExtension
from cases import HANG, DataCase, needs_library, run_in_threads, sleeping_child, use_library
from doubles import TOP
from locking import BUSY, Locking
from test_kept import is_locked

import rrdi
from rrdi import open_files
from rrdi.errors import CANNOT_OPEN, CANNOT_WRITE, NO_MEMORY, READ_FAILED
from rrdi.open_files import MEGABYTE, MEMORY_OF_A_BYTE, MEMORY_OF_A_FILE, OpenBounds, OpenFiles
from rrdi.protocol import DONE, Answer

OPEN, PATH = "open update 10:1", "path update 10:1"
ALWAYS = 10**6  # seconds that do not end in a test


class OpenCase(DataCase):
    def setUp(self) -> None:
        super().setUp()
        self.now = 0.0
        self.library = Locking()
        use_library(self, self.library.library)
        self.path = self.made("f.rrdi")
        self.open = self.new(OpenBounds(3, 2))

    def made(self, name: str) -> Path:
        path = self.folder / name
        path.write_bytes(b"a database")
        return path

    def new(self, bounds: OpenBounds) -> OpenFiles:
        files = OpenFiles(bounds, lambda: self.now)
        self.addCleanup(files.close_all)
        return files

    def run_on(self, *paths: Path, files: "OpenFiles | None" = None) -> List[str]:
        """Runs a batch on each file. Returns what the library was called to do."""
        for path in paths:
            (files or self.open).batch(path, ["update 10:1"])
        said, self.library.said = self.library.said, []
        return [line.split(" ")[0] if line.startswith("open 5000") else line for line in said]

    def opened(self) -> Set[str]:
        return {os.path.basename(os.fsdecode(path)) for path in self.open.open_paths()}

    def until(self, is_true: Callable[[], bool]) -> None:
        end = time.monotonic() + HANG
        while not is_true():
            self.assertLess(time.monotonic(), end)
            time.sleep(0.01)


class Stays(OpenCase):
    def test_a_file_that_comes_back_soon(self) -> None:
        self.assertEqual(self.run_on(self.path), [PATH])
        self.assertFalse(is_locked(self.path))
        self.now = 1.9
        self.assertEqual(self.run_on(self.path, self.path), ["open", OPEN, OPEN])
        self.assertTrue(is_locked(self.path))
        self.open.close_all()
        self.assertEqual((self.library.said, is_locked(self.path)), (["close"], False))

    def test_a_file_that_comes_back_late(self) -> None:
        for self.now in (0, 2, 4.5):
            self.assertEqual(self.run_on(self.path), [PATH])
        self.assertFalse(is_locked(self.path))

    def test_the_answers(self) -> None:
        self.library.answers = [DONE, DONE._replace(output=b"20\nERROR: bad value\n", refused=(2,))]
        self.assertEqual(self.open.batch(self.path, "last").output, "")
        self.assertEqual(self.open.batch(self.path, ["last", "update 1:x"]), rrdi.Batch(
            "20\nERROR: bad value\n", (rrdi.RefusedLine(2, "update 1:x", "bad value"),)))
        self.assertTrue(is_locked(self.path))

    def test_no_file(self) -> None:
        files = self.new(OpenBounds(0, ALWAYS))
        self.assertEqual(self.run_on(*[self.path] * 3, files=files), [PATH] * 3)

    def test_the_wait_and_the_flush_of_the_environment(self) -> None:
        files = self.new(OpenBounds(0, ALWAYS))
        for asked in ((0, False), (7_000, True)):
            with mock.patch.multiple("rrdi.environment", WAIT=asked[0], SYNC=asked[1]):
                self.run_on(self.path, files=files)
            self.assertEqual(self.library.asked[-1], asked)

    def test_its_time_is_over(self) -> None:
        """Counted from the opening, however often the file is used; then one batch goes by the path."""
        self.run_on(self.path, self.path)
        for self.now in (0.5, 1, 1.5):
            self.assertEqual(self.run_on(self.path), [OPEN])
        self.now = 2
        with mock.patch.object(self.open, "_close_old"):
            self.assertIn(self.run_on(self.path), (["close", PATH], [PATH]))
        self.assertFalse(is_locked(self.path))
        self.assertEqual(self.run_on(self.path), ["open", OPEN])

    def test_how_often_old_files_are_looked_for(self) -> None:
        """A file stays open for an eighth of its time too long at most, and for five seconds at most."""
        for seconds, pause in ((2, 0.25), (8, 1), (40, 5), (41, 5), (10**9, 5)):
            with mock.patch.object(time, "sleep") as sleep:
                self.new(OpenBounds(1, seconds))._close_old()
            self.assertEqual(sleep.mock_calls, [mock.call(pause)])

    def test_its_time_is_over_and_nothing_comes(self) -> None:
        for _ in range(2):  # the thread begins again
            self.run_on(self.path, self.path)
            self.assertTrue(is_locked(self.path))
            self.now += 2
            self.until(lambda: not is_locked(self.path))
            self.until(lambda: self.open._timer is None)

    def test_its_time_is_over_during_a_batch(self) -> None:
        self.run_on(self.path)

        def pass_time() -> None:
            self.now = 5
        self.library.at_call = pass_time
        self.assertEqual(self.run_on(self.path), ["open", OPEN, "close"])

    def test_no_room_for_the_thread(self) -> None:
        for error in (RuntimeError, MemoryError):
            with mock.patch("threading.Thread.start", side_effect=error):
                self.assertEqual(self.run_on(self.path, self.path)[-3:], ["open", OPEN, "close"])


class StaysByExtension(ByExtension, Stays):
    pass


class HowMany(OpenCase):
    def test_more_files_than_the_bound(self) -> None:
        """The one that was not used for longest is closed."""
        paths = [self.made(name) for name in "abcd"]
        for path in paths:
            self.run_on(path, path)
        self.assertEqual(self.opened(), set("bcd"))
        self.run_on(paths[1], paths[0], paths[0])
        self.assertEqual((self.opened(), is_locked(paths[2])), (set("abd"), False))

    def test_more_files_that_take_turns(self) -> None:
        """None is opened, to be closed before its next batch."""
        paths = [self.made(name) for name in "abcd"]
        self.assertEqual(self.run_on(*paths * 5), [PATH] * 20)
        self.assertEqual(self.run_on(*paths[:3] * 2), [PATH] * 3 + ["open", OPEN] * 3)

    def test_as_many_as_the_system_allows(self) -> None:
        for allowed, most in ((100, 50), (1, 0), (resource.RLIM_INFINITY, 256)):
            with mock.patch("resource.getrlimit", return_value=(allowed, allowed)):
                self.assertEqual(self.new(OpenBounds()).bounds, (most, 2, 64))

    def test_memory(self) -> None:
        files = self.new(OpenBounds(9, 2, 1))
        most = (MEGABYTE // 2 - MEMORY_OF_A_FILE) // MEMORY_OF_A_BYTE
        paths = [self.made(name) for name in "abc"]
        for path in paths:
            path.write_bytes(b"a" * most)
        self.run_on(*paths * 2, files=files)
        self.assertEqual({os.path.basename(path) for path in files.open_paths()}, {b"a", b"b"})
        self.now = 2
        self.until(lambda: not files.open_paths())
        self.assertEqual(self.run_on(paths[2], paths[2], files=files)[-2:], ["open", OPEN])
        files.close_all()
        paths[2].write_bytes(b"a" * MEGABYTE)
        said = self.run_on(paths[2], paths[2], files=files)
        self.assertEqual([one for one in said if one != "close"], [PATH] * 2)  # another thread may still close files

    def test_threads(self) -> None:
        paths = [self.made(str(number)) for number in range(8)]
        files = self.new(OpenBounds(4, ALWAYS))

        def wait(path: bytes) -> None:
            """The library waits if another thread closes the file just now."""
            self.until(lambda: not is_locked(Path(os.fsdecode(path))))
        self.library.at_open = wait
        run_in_threads(8, lambda number: [files.batch(paths[number], ["update"]) for _ in range(50)])
        said = [line for line in self.library.said if line.endswith("update")]
        self.assertEqual((len(said), len(files.open_paths()) <= 4), (400, True))
        files.close_all()
        self.assertEqual([path for path in paths if is_locked(path)], [])


class HowManyByExtension(ByExtension, HowMany):
    pass


class Closes(OpenCase):
    def setUp(self) -> None:
        super().setUp()
        self.run_on(self.path, self.path)
        self.assertTrue(is_locked(self.path))

    def test_faults(self) -> None:
        for fault in (CANNOT_WRITE, NO_MEMORY, READ_FAILED, 22):
            self.run_on(self.path, self.path)
            self.library.answers = [Answer(fault, 0, 0, b"a fault")]
            with self.assertRaises(rrdi.Error):
                self.open.batch(self.path, ["update 10:1"])
            self.assertEqual((self.library.said, is_locked(self.path)), ([OPEN, "close"], False))
            self.library.said.clear()

    def test_a_reader_that_stays(self) -> None:
        """The library has waited for the lock already, by the path."""
        self.library.answers = [BUSY]
        with self.assertRaises(rrdi.Busy):
            self.open.batch(self.path, ["update 10:1"])
        self.assertEqual((self.library.said, is_locked(self.path)), ([OPEN, "close"], False))

    def test_an_exception(self) -> None:
        with self.assertRaises(KeyboardInterrupt), self.open.lend(os.fsencode(self.path)) as lent:
            self.assertIsNotNone(lent.opened)
            raise KeyboardInterrupt
        self.assertFalse(is_locked(self.path))

    def test_another_file_of_the_name(self) -> None:
        self.made("new").rename(self.path)
        self.assertEqual(self.run_on(self.path), ["close", PATH])
        self.assertEqual(self.run_on(self.path), ["open", OPEN])

    def test_another_file_of_the_name_during_a_batch(self) -> None:
        def replace() -> None:
            self.made("new").rename(self.path)
        self.library.at_call = replace
        self.assertEqual(self.run_on(self.path), [OPEN, "close"])

    def test_a_removed_file(self) -> None:
        self.path.unlink()
        self.library.answers = [Answer(0, 0, 0, b"ERROR: no database\n", (1,))]
        self.assertEqual(self.open.batch(self.path, ["update 10:1"]).refused[0].reason, "no database")
        self.assertEqual(self.run_on(), ["close", PATH])
        self.assertEqual(self.run_on(self.path), [PATH])  # nothing is opened where nothing is

    def test_another_name_of_the_file(self) -> None:
        other = self.folder / "other"
        os.link(self.path, other)
        self.assertEqual(self.run_on(other), [PATH])
        self.assertEqual(self.run_on(other), ["close", "open", OPEN])

    def test_a_change_of_another_kind(self) -> None:
        self.open.close(os.fsencode(self.path))
        self.assertFalse(is_locked(self.path))
        self.assertEqual(self.run_on(self.path, self.path), ["close", PATH, "open", OPEN])
        os.link(self.path, self.folder / "other")
        self.open.close(os.fsencode(self.folder / "other"))
        self.assertFalse(is_locked(self.path))

    def test_forks(self) -> None:
        """The child has no lock, and both go on."""
        sleeping_child(self)
        self.assertFalse(is_locked(self.path))
        self.assertEqual(self.run_on(self.path), ["close", PATH])
        self.run_on(self.path)
        child = os.fork()
        if child == 0:
            signal.alarm(HANG)
            self.library.said.clear()
            is_right = self.open.open_paths() == [] and self.run_on(self.path, self.path) == [PATH, "open", OPEN]
            os._exit(0 if is_right and self.open._timer is not None else 1)
        self.assertEqual(os.waitpid(child, 0)[1], 0)

    def test_a_fork_forgets_the_files_of_each(self) -> None:
        others = [self.new(OpenBounds(3, ALWAYS)) for _ in range(3)]
        for number, files in enumerate(others):
            path = self.made(f"{number}.rrdi")
            self.run_on(path, path, files=files)
        self.assertEqual([len(files.open_paths()) for files in others], [1, 1, 1])
        child = os.fork()
        if child == 0:
            os._exit(sum(len(files.open_paths()) for files in others))
        self.assertEqual(os.waitpid(child, 0)[1], 0)

    def test_a_fork_during_a_batch(self) -> None:
        """The batch finds the file closed, and goes by the path."""
        with mock.patch.object(self.open, "take", forking(self, self.open)):
            self.assertEqual(self.run_on(self.path), ["close", "closed", PATH])

    def test_the_end_of_the_process(self) -> None:
        open_files._close_all()
        self.assertFalse(is_locked(self.path))


class ClosesByExtension(ByExtension, Closes):
    pass


class Openings(OpenCase):
    def test_a_file_that_is_locked(self) -> None:
        """Who has waited for the lock does not wait again."""
        self.run_on(self.path)
        with held(self.path, fcntl.LOCK_EX), self.assertRaises(rrdi.Busy):
            self.open.batch(self.path, ["update 10:1"])
        self.assertEqual(self.run_on(), ["open"])
        self.assertEqual(self.run_on(self.path, self.path), [PATH, "open", OPEN])

    def test_a_file_that_cannot_stay_open(self) -> None:
        for fault in (Answer(CANNOT_OPEN, errno.EINVAL, 0, b""), Answer(CANNOT_OPEN, errno.EACCES, 0, b""),
                      Answer(22, 0, 9, b"")):
            self.library.at_open = lambda path, fault=fault: fault  # type: ignore[misc]
            self.now += 10
            self.assertEqual(self.run_on(*[self.path] * 4), [PATH, "open", PATH, PATH, "open", PATH])

    def test_another_file_at_the_opening(self) -> None:
        def replace(path: bytes) -> None:
            os.rename(path, self.folder / "old")
            self.made("f.rrdi")
            self.library.renamed[path] = os.fsencode(self.folder / "old")
        self.run_on(self.path)
        self.library.at_open = replace
        self.assertEqual(self.run_on(self.path), ["open", "close", PATH])
        self.assertFalse(is_locked(self.folder / "old"))


class OpeningsByExtension(ByExtension, Openings):
    pass


def forking(case: unittest.TestCase, files: OpenFiles) -> Callable[[bytes], Tuple[open_files.SeenFile, Optional[Answer]]]:
    """Forks after the file was lent."""
    take = files.take

    def taken(path: bytes) -> Tuple[open_files.SeenFile, Optional[Answer]]:
        found = take(path)
        sleeping_child(case)
        return found
    return taken


@contextmanager
def held(path: Path, kind: int) -> Iterator[None]:
    """Holds a lock of a file, as another program does."""
    with open(path, "rb") as file:
        fcntl.flock(file, kind)
        yield


@needs_library
class WithTheLibrary(DataCase):
    """Beside others that read and change the file, which lock it as every program does."""

    def setUp(self) -> None:
        super().setUp()
        use_library(self, None)
        self.path, self.at = self.folder / "f.rrdi", 0
        rrdi.create(self.path, "DS:v:GAUGE:100:U:U", "RRA:AVERAGE:0.5:1:1000", step=10, start=0)

    def new(self, seconds: float) -> OpenFiles:
        files = OpenFiles(OpenBounds(seconds=seconds))
        self.addCleanup(files.close_all)
        return files

    def update(self, files: OpenFiles, count: int = 1) -> None:
        for _ in range(count):
            self.at += 10
            self.assertEqual(files.batch(self.path, [f"update {self.at}:1"]).refused, ())

    def test_readers(self) -> None:
        files = self.new(ALWAYS)
        for _ in range(20):  # more than one log has
            self.update(files)
            self.assertEqual(rrdi.last(self.path), self.at)
        self.assertEqual(files.open_paths(), [os.fsencode(self.path)])

    def test_a_reader_that_goes(self) -> None:
        """A change waits for it, and the file stays open."""
        files = self.new(ALWAYS)
        self.update(files, 3)
        is_held = threading.Event()

        def read() -> None:
            with held(self.path, fcntl.LOCK_SH):
                is_held.set()
                time.sleep(0.3)
        reader = threading.Thread(target=read)
        reader.start()
        is_held.wait(HANG)
        self.update(files)
        reader.join()
        self.assertEqual((rrdi.last(self.path), files.open_paths()), (self.at, [os.fsencode(self.path)]))

    def test_a_reader_that_stays(self) -> None:
        """The change fails after the usual time, the file is closed, and nothing is lost or stored twice."""
        with mock.patch.object(open_files, "milliseconds", lambda seconds: 50):
            files = self.new(ALWAYS)
            self.update(files, 3)
            with held(self.path, fcntl.LOCK_SH):
                with self.assertRaises(rrdi.Busy):
                    files.batch(self.path, [f"update {self.at + 10}:1"])
                self.assertEqual((files.open_paths(), rrdi.last(self.path)), ([], self.at))
            self.update(files, 3)
            self.assertEqual(files.open_paths(), [os.fsencode(self.path)])

    def test_the_end_of_a_process(self) -> None:
        """It does not wait until the time of an open file is over."""
        script = ("import sys\nfrom rrdi.open_files import OpenBounds, OpenFiles\n"
                  f"files = OpenFiles(OpenBounds(seconds={ALWAYS}))\n"
                  "for at in (10, 20, 30):\n    files.batch(sys.argv[1], [f'update {at}:1'])\n"
                  "print(len(files.open_paths()))\n")
        ran = subprocess.run([sys.executable, "-B", "-c", script, str(self.path)], stdout=subprocess.PIPE, stderr=subprocess.PIPE,
                             universal_newlines=True, timeout=HANG, env={**os.environ, "PYTHONPATH": str(TOP / "python")})
        self.assertEqual((ran.returncode, ran.stdout, ran.stderr, rrdi.last(self.path)), (0, "1\n", "", 30))

    def test_a_second_writer(self) -> None:
        """It waits until the time of the file is over, however busy the file is, and both changes are there."""
        files, ended = self.new(0.3), threading.Event()
        self.update(files, 3)
        self.assertEqual(files.open_paths(), [os.fsencode(self.path)])
        with self.assertRaises(rrdi.Busy):
            rrdi.tune(self.path, "--heartbeat", "v:50", busy_timeout=0)

        def tune() -> None:
            rrdi.tune(self.path, "--heartbeat", "v:50", busy_timeout=HANG)
            ended.set()
        thread = threading.Thread(target=tune)
        thread.start()
        end = time.monotonic() + HANG
        while not ended.is_set() and time.monotonic() < end:
            self.update(files)
            time.sleep(0.02)
        thread.join()
        self.update(files, 3)
        self.assertEqual((rrdi.info(self.path).sources["v"].heartbeat, rrdi.last(self.path)), (50, self.at))
