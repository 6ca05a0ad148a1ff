# SPDX-License-Identifier: MIT OR Apache-2.0
"""The parts that many tests share: folders, threads, the library that a test calls, and tests that run twice."""
from __future__ import annotations

import os
import resource
import shutil
import signal
import tempfile
import threading
import time
import traceback
import unittest
from contextlib import contextmanager
from pathlib import Path
from typing import Any, Callable, Iterator, List, Optional
from unittest import mock

from doubles import PROGRAM, Program, has_library
from rrdi import library
from rrdi.library import Library

NO_PROGRAM = "rrdi not found: build it, or name it by the variable RRDI"
NO_LIBRARY = "librrdi.so.0 not found: type make library"
needs_program = unittest.skipUnless(PROGRAM, NO_PROGRAM)
needs_library = unittest.skipUnless(has_library(), NO_LIBRARY)
MOST_SECONDS, MOST_MEMORY = 20, 10**9  # of computing, and bytes
HANG = 60  # seconds: what takes longer, also on a busy machine, does not end


def new_folder(case: unittest.TestCase) -> Path:
    """Creates a folder, which is removed at the end of the test."""
    folder = Path(tempfile.mkdtemp(prefix="rrdi-tests"))
    case.addCleanup(shutil.rmtree, folder, ignore_errors=True)
    return folder


def use_zone(case: unittest.TestCase, zone: str) -> None:
    """Has local times be those of a time zone until the end of the test."""
    patch = mock.patch.dict(os.environ, {"TZ": zone})
    patch.start()
    time.tzset()
    case.addCleanup(time.tzset)
    case.addCleanup(patch.stop)


def sleeping_child(case: unittest.TestCase) -> int:
    """Forks a child, which has all open files of this process until the end of the test."""
    child = os.fork()
    if child == 0:
        while True:
            time.sleep(1)

    def end() -> None:
        os.kill(child, signal.SIGKILL)
        os.waitpid(child, 0)
    case.addCleanup(end)
    return child


def child_status(child: int) -> Optional[int]:
    """Returns the status of a child that has ended, and None while it runs."""
    ended, status = os.waitpid(child, os.WNOHANG)
    return status if ended else None


def assert_ends(case: unittest.TestCase, work: Callable[[], object]) -> None:
    """Checks that some work ends, in a child. The system ends the child if it computes for long or takes much memory: the
    work is so large that it ends at once, or never."""
    child = os.fork()
    if child == 0:
        try:
            resource.setrlimit(resource.RLIMIT_CPU, (MOST_SECONDS, MOST_SECONDS))
            resource.setrlimit(resource.RLIMIT_AS, (MOST_MEMORY, MOST_MEMORY))
            work()
            os._exit(0)
        except BaseException:
            traceback.print_exc()
        finally:
            os._exit(1)
    _, status = os.waitpid(child, 0)
    case.assertEqual(status, 0, "the work did not end, or took too much memory")


class ReadBytes:
    """How many bytes were read of open files from positions on."""

    count = 0


@contextmanager
def counted_reads() -> Iterator[ReadBytes]:
    """Counts what is read by `os.pread`, by whatever function."""
    pread, found = os.pread, ReadBytes()

    def read_at(file: int, count: int, at: int) -> bytes:
        data = pread(file, count, at)
        found.count += len(data)
        return data
    with mock.patch("os.pread", read_at):
        yield found


def run_in_threads(count: int, work: Callable[[int], object]) -> None:
    """Runs `work` in `count` threads, each with its number, and waits until all have ended."""
    threads = [threading.Thread(target=work, args=(number,)) for number in range(count)]
    for thread in threads:
        thread.start()
    for thread in threads:
        thread.join()


def use_library(case: unittest.TestCase, chosen: Optional[Library]) -> None:
    """Passes the commands of a test to `chosen`; `None` is the C library itself."""
    library.use_library(chosen)
    case.addCleanup(library.use_library, None)


def use_any_library(case: unittest.TestCase) -> Library:
    """Passes the commands of a test to the C library, or to the program in its place. Skips the test without both."""
    if not has_library() and not PROGRAM:
        case.skipTest("neither librrdi.so.0 nor rrdi found")
    chosen = library.load_library() if has_library() else Program()
    use_library(case, chosen)
    return chosen


@needs_program
class WithProgram:
    """Runs the tests of a class by the program in place of the C library."""

    def library(self) -> Any:
        return Program()


@needs_library
class WithLibrary:
    """Runs the tests of a class by the C library."""

    def library(self) -> Any:
        return None


class DataCase(unittest.TestCase):
    """Tests with a folder for databases, which is in a folder of the test's own."""

    def setUp(self) -> None:
        self.folder = new_folder(self) / "data"
        self.folder.mkdir()

    def files(self) -> List[str]:
        """Returns the files in both folders."""
        outer = self.folder.parent
        return sorted(str(path.relative_to(outer)) for path in outer.rglob("*") if path.is_file())
