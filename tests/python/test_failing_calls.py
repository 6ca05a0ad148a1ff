# SPDX-License-Identifier: MIT OR Apache-2.0
"""Tests of the writers for Graphite and collectd, and of rrdi-feed, while calls of the system fail: each sample is stored,
waits for the next write, or is counted or named as lost. A library that only keeps the lines is in the place of the C
library."""
from __future__ import annotations

import contextlib
import errno
import io
import os
from pathlib import Path
from typing import Any, Callable, Counter, Dict, Iterator, List, Optional, Set
from unittest import mock

import graphite_doubles as graphite
from cases import DataCase, use_library
from test_collectd import values
from rrdi import collectd
from rrdi.errors import CANNOT_OPEN, CANNOT_WRITE, NO_MEMORY, READ_FAILED, TRUNCATED
from rrdi.feeding.feeder import FeedOptions
from rrdi.feeding.metrics import MetricFeeder
from rrdi.feeding.rules import Names, read_rules
from rrdi.feeding.writers import BatchWriter
from rrdi.graphite.layout import template
from rrdi.graphite.losses import Losses
from rrdi.graphite.store import Store, StoreOptions
from rrdi.library import Answer
from rrdi.protocol import DONE

NOW = 1_700_000_000
CALLS = ("stat", "lstat", "readlink", "mkdir", "link", "unlink", "open", "fstat", "rename")
ERRORS: List[BaseException] = [*(OSError(number, os.strerror(number)) for number in (
    errno.EIO, errno.EACCES, errno.ESTALE, errno.ENOMEM, errno.EINTR, errno.ENOSPC, errno.EPERM)), MemoryError()]
# Of the library; a read that failed, and an empty file that it found.
FAULTS = [Answer(CANNOT_OPEN, errno.EIO, 0, b"cannot open"), Answer(CANNOT_WRITE, errno.ENOSPC, 0, b"cannot write"),
          Answer(NO_MEMORY, 0, 0, b"out of memory"), Answer(READ_FAILED, 0, 0, b"file: read failed"),
          Answer(TRUNCATED, 0, 0, b"file: truncated at 0"), Answer(TRUNCATED, 0, 9, b"file: truncated at 9")]


class Kept(graphite.KeepingLibrary):
    """Keeps the times of the samples that each file has, and each database that was made in memory. Answers the next batch by
    the next answer, and then changes nothing."""

    def __init__(self, *answers: Answer) -> None:
        super().__init__(*answers)
        self.times: Counter[int] = Counter()
        self.made: Dict[bytes, Set[int]] = {}  # by the bytes

    def batch_file(self, path: bytes, lines: bytes, now: int, wait: int, syncs: bool) -> Answer:
        if self.answers:
            return self.answers.pop(0)
        times = times_of(lines)
        with contextlib.suppress(FileNotFoundError), open(path, "rb") as file:
            self.times.update(self.made.get(file.read(), ()))
        with open(path, "wb") as file:
            file.write(graphite.file_bytes(max(times, default=NOW)))
        self.times.update(times)
        return DONE

    def batch(self, data: Optional[bytes], lines: bytes, now: int) -> Answer:
        if self.answers:
            return self.answers.pop(0)
        times = times_of(lines)
        made = graphite.file_bytes(max(times, default=NOW), partial=((0, float(len(self.made))),))
        self.made[made] = times
        return DONE._replace(data=made)

    def run_file(self, path: bytes, words: bytes, now: int, wait: int, syncs: bool) -> Answer:
        if self.answers:
            return self.answers.pop(0)
        with open(path, "wb") as file:
            file.write(graphite.file_bytes(NOW))
        return DONE


def times_of(lines: bytes) -> Set[int]:
    """The times of the known samples in the lines of a batch."""
    words = [word for line in lines.decode().split("\n") for word in line.split()[1:] if line.startswith("update ")]
    return {int(word.split(":")[0]) for word in words if not word.endswith(":U")}


@contextlib.contextmanager
def failing(name: str, error: BaseException, after: int) -> Iterator[List[int]]:
    """One call of a function of `os` fails, after some others of it. Gives how many there were."""
    function, count = getattr(os, name), [0]

    def call(*words: Any, **named: Any) -> Any:
        count[0] += 1
        if count[0] == after + 1:
            raise type(error)(*error.args)
        return function(*words, **named)
    with mock.patch.object(os, name, call):
        yield count


class EachCall(DataCase):
    """What is tried on a new folder while one call fails, and then again while none does."""

    def tried(self, look: Callable[[Kept, Path, Callable[[], Any]], None]) -> None:
        """Calls `look` with each call that fails once, and with each fault of the library."""
        count = 0
        for name in CALLS:
            for error in ERRORS:
                for after in range(50):
                    library = Kept()
                    use_library(self, library)
                    folder = self.folder / str(count)
                    folder.mkdir()
                    count += 1
                    calls: List[List[int]] = []

                    @contextlib.contextmanager
                    def fault() -> Iterator[None]:
                        with failing(name, error, after) as called:
                            calls.append(called)
                            yield
                    with self.subTest(call=name, error=error, after=after):
                        look(library, folder, fault)
                    if calls[0][0] <= after:  # no more calls, so none has failed
                        break
        for number, answer in enumerate(FAULTS):
            library = Kept(answer)
            use_library(self, library)
            folder = self.folder / f"library-{number}"
            folder.mkdir()
            with self.subTest(answer=answer):
                look(library, folder, contextlib.nullcontext)

    def named(self, library: Kept, folder: Path) -> Set[int]:
        """The times of all samples in the files with a name."""
        return set(library.times).union(*(library.made.get(path.read_bytes(), ()) for path in folder.rglob("*.rrdi")))

    def test_graphite(self) -> None:
        def look(library: Kept, folder: Path, fault: Callable[[], Any]) -> None:
            losses = Losses(lambda text: None)
            store = Store(StoreOptions(str(folder)), losses, lambda: NOW + 100)

            def write(metric: str, when: int) -> None:
                if not store.has(metric):
                    store.create(metric, template([(10, 100)], 0.5, "average", 16))
                store.write(metric, [(when, 1.0)])
            write("a.old", NOW)
            with fault():
                write("a.old", NOW + 10)
                write("a.new", NOW + 20)
            lost = losses.take()
            for metric, when in (("a.old", NOW + 30), ("a.new", NOW + 40)):
                write(metric, when)
            wanted = {NOW + 10 * number for number in range(1, 6)}
            self.assertEqual((store.waiting, sum(lost.values())), (0, 0))
            self.assertEqual(wanted - set(self.named(library, folder)), set())
            self.assertFalse(any(name.stat().st_size == 0 for name in folder.rglob("*.rrdi")), "an empty file is left")
        self.tried(look)

    def test_collectd(self) -> None:
        def look(library: Kept, folder: Path, fault: Callable[[], Any]) -> None:
            double = graphite.Collectd()
            writer = collectd.Plugin(double, lambda: 0.0)
            writer.options.datadir = str(folder)
            for at, host in ((0, "old"), (10, "new")):
                with fault() if host == "new" else contextlib.nullcontext():
                    writer.write(values(NOW + at, 1, type="derive", host=host))
                    writer.write(values(NOW + at + 1, 1, type="derive", host="old"))
                    writer.flush(0)
            writer.flush(0)
            writer.end()
            self.assertEqual((writer.counts["taken"], writer.counts["lost"]), (4, 0), double.lines)
            self.assertEqual({NOW, NOW + 1, NOW + 10, NOW + 11} - self.named(library, folder), set())
        self.tried(look)

    def test_feed(self) -> None:
        def look(library: Kept, folder: Path, fault: Callable[[], Any]) -> None:
            rules = read_rules("** **.rrdi --step 10 DS:v:GAUGE:60:U:U RRA:AVERAGE:0.5:1:9")
            feeder = MetricFeeder(FeedOptions(jobs=1), BatchWriter(library), Names(os.fsencode(folder), rules))
            (folder / "old.rrdi").write_bytes(graphite.file_bytes(NOW))
            with contextlib.redirect_stderr(io.StringIO()) as said:
                feeder.take_data(b"".join(b"%b 1 %d\n" % (name, NOW + 10 * at) for at, name in enumerate([b"old", b"new"] * 2)))
                with fault():
                    feeder.finish()
            lost = {int(word.split(":")[0]) for line in said.getvalue().splitlines() if ": may be lost: " in line
                    for word in line.split("may be lost: ")[1].split()[1:]}
            self.assertEqual({NOW + 10 * at for at in range(4)} - lost, set(library.times) - lost, said.getvalue())
            self.assertTrue(all(count == 1 for count in library.times.values()))
        self.tried(look)
