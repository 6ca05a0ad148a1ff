# SPDX-License-Identifier: MIT OR Apache-2.0
"""Samples that the feeder passes to files that stay open: the files are the same as by one batch."""
from __future__ import annotations

import errno
import os
import random
import unittest
from pathlib import Path
from typing import Any, List, Optional, Tuple

from cases import needs_library, new_folder, use_library

import rrdi
from rrdi.errors import CANNOT_OPEN, CANNOT_WRITE, OK
from rrdi.feeding.opened import OpenWriter
from rrdi.feeding.writers import BatchWriter, Outcome
from rrdi.library import the_library
from rrdi.open_files import OpenBounds, OpenFiles
from rrdi.protocol import Answer

SAMPLES = [b"%d:1" % (10 * number) for number in range(1, 51)]
DONE = Answer(OK, 0, 0, b"")


class FakeFile:
    """An open file, with an answer for each batch."""

    def __init__(self, answers: List[Answer]):
        self.answers, self.is_closed = answers, False

    def batch(self, lines: bytes, now: int) -> Answer:
        return self.answers.pop(0)

    def is_current(self) -> bool:
        return not self.is_closed

    def close(self) -> None:
        self.is_closed = True


class FakeLibrary:
    """Opens this file, or gives this answer. A batch at a path is answered by DONE."""

    def __init__(self, file: Optional[FakeFile], answer: Answer = DONE):
        self.file, self.answer, self.batches = file, answer, 0

    def open(self, path: bytes, wait: int, syncs: bool) -> Tuple[Answer, Optional[FakeFile]]:
        return self.answer, self.file

    def batch_file(self, path: bytes, lines: bytes, now: int, wait: int, syncs: bool) -> Answer:
        self.batches += 1
        return DONE


class Open(unittest.TestCase):
    """The file stays open from its second batch on."""

    def write(self, samples: List[bytes], *answers: Answer) -> Tuple[Outcome, FakeFile, int]:
        """Writes samples in three batches, of which the first two have one sample."""
        file = FakeFile([DONE, *answers])
        library: Any = FakeLibrary(file)
        use_library(self, library)
        writer = OpenWriter(library, OpenFiles(OpenBounds(seconds=1_000)))
        self.addCleanup(writer.files.close_all)
        for sample in (b"1:1", b"2:1"):
            self.assertEqual(writer.write(b".", [sample]), Outcome())
        self.assertFalse(file.is_closed)
        return writer.write(b".", samples), file, library.batches

    def test_few_and_many(self) -> None:
        for samples in SAMPLES[:1], SAMPLES:
            outcome, file, batches = self.write(samples, DONE)
            self.assertEqual((outcome, file.answers, file.is_closed, batches), (Outcome(), [], False, 1))

    def test_without_bounds_no_file_stays_open(self) -> None:
        library: Any = FakeLibrary(FakeFile([]))
        use_library(self, library)
        writer = OpenWriter(library)
        self.addCleanup(writer.files.close_all)
        for number in range(1, 4):
            self.assertEqual((writer.write(b".", SAMPLES[:1]), library.batches), (Outcome(), number))

    def test_refusals(self) -> None:
        outcome, file, _ = self.write(SAMPLES[:2], Answer(OK, 0, 0, b"ERROR: bad value\n", (2,)))
        self.assertEqual((outcome.refused, file.is_closed), (((SAMPLES[1], "bad value"),), False))

    def test_faults(self) -> None:
        full, busy = Answer(CANNOT_WRITE, errno.ENOSPC, 0, b"cannot write"), Answer(CANNOT_OPEN, errno.EAGAIN, 0, b"cannot open")
        for answer, wanted in ((full, Outcome(lost="cannot write: no space left on device")),
                               (busy, Outcome(again="cannot open: another program holds its lock"))):
            outcome, file, _ = self.write(SAMPLES[:2], answer)
            self.assertEqual((outcome, file.is_closed), (wanted, True))

    def test_a_file_that_is_locked(self) -> None:
        library: Any = FakeLibrary(None, Answer(CANNOT_OPEN, errno.EAGAIN, 0, b"cannot open"))
        use_library(self, library)
        writer = OpenWriter(library, OpenFiles(OpenBounds(seconds=1_000)))
        self.assertEqual([writer.write(b".", SAMPLES[:2]).again for _ in range(2)], ["", "cannot open: another program holds its lock"])
        self.assertEqual(library.batches, 1)


@needs_library
class SameFiles(unittest.TestCase):
    """The files and the outcomes are those of one batch, in several batches, of which the later ones find the file open."""

    def writers(self) -> Tuple[BatchWriter, BatchWriter]:
        use_library(self, None)
        return BatchWriter(the_library()), OpenWriter(the_library(), OpenFiles(OpenBounds(seconds=1_000)))

    def test_random_samples(self: Any) -> None:
        writers = self.writers()
        folder, random_ = new_folder(self), random.Random(59)
        for number in range(60):
            depth, count, bad = random_.choice((1, 3, 16, 60)), random_.randrange(50, 300), random_.choice((0, 0, 0.01, 0.3))
            files = [os.fsencode(folder / f"{number}.{way}") for way in ("one", "open")]
            before = [f"update {time}:1:1" for time in range(1, random_.choice((1, 30)))]
            for file in files:
                rrdi.create(file, "DS:g:GAUGE:100:U:U", "DS:c:COUNTER:100:U:U", "RRA:AVERAGE:0.5:1:20", "RRA:MAX:0.5:3:200",
                            step=10, start=0, journal=depth)
                rrdi.batch(file, before)
            samples = self.samples(random_, count, bad)
            outcomes = [self.write(writer, file, samples) for file, writer in zip(files, writers)]
            one, kept = (Path(os.fsdecode(file)).read_bytes() for file in files)
            self.assertEqual(outcomes[0], outcomes[1])
            self.assertEqual(one, kept, f"{number}: {count} samples, a journal of {depth}")

    def samples(self, random_: random.Random, count: int, bad: float) -> List[bytes]:
        time, first_bad = 40, random_.choice((0, count - 30))
        found: List[bytes] = []
        for _ in range(count):
            time += random_.choice((1, 10, 10, 10, 35, 200))
            is_bad = random_.random() < bad and len(found) >= first_bad
            found.append(random_.choice((b"x", b"5:1:1", b"%d:1" % time)) if is_bad else
                         b"%d:%d.5:%s" % (time, random_.randrange(99), random_.choice((b"7", b"U", b"%d" % time))))
        return found

    def write(self, writer: BatchWriter, file: bytes, samples: List[bytes]) -> Outcome:
        refused: List[Tuple[bytes, str]] = []
        for begin, end in ((0, 5), (5, 9), (9, 70), (70, 72), (72, len(samples))):
            outcome = writer.write(file, samples[begin:end]) if samples[begin:end] else Outcome()
            refused += outcome.refused
            self.assertEqual(outcome._replace(refused=()), Outcome())
        if isinstance(writer, OpenWriter):
            self.assertEqual(writer.files.open_paths(), [file])
            writer.files.close_all()
        return Outcome(refused=tuple(refused))
