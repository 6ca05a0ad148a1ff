# SPDX-License-Identifier: MIT OR Apache-2.0
"""Tests of librrd/record.c: RRDtool's functions for programs in C that record, over librrdi."""
from __future__ import annotations

import ctypes
import fcntl
import os
import random
import threading
import unittest
from typing import List, Optional, Tuple

from cases import HANG, needs_program, run_in_threads
from doubles import TOP
from tool_case import ToolCase

from rrdi.compat.syntax import read_number

PATH = os.environ.get("RRDI_RECORD") or str(TOP / "out/librrdi-record.so")
NO_RECORDER = "there is no out/librrdi-record.so: type make record"


class Recorder:
    """The functions as a program in C calls them."""

    def __init__(self, path: str = PATH) -> None:
        self.library = ctypes.CDLL(path)
        self.library.rrd_get_error.restype = ctypes.c_char_p
        self.library.rrd_create_r.argtypes = [ctypes.c_char_p, ctypes.c_ulong, ctypes.c_long, ctypes.c_int,
                                              ctypes.POINTER(ctypes.c_char_p)]
        self.library.rrd_update_r.argtypes = [ctypes.c_char_p, ctypes.c_char_p, ctypes.c_int,
                                              ctypes.POINTER(ctypes.c_char_p)]

    @staticmethod
    def words(given: Tuple[str, ...]) -> "ctypes.Array[ctypes.c_char_p]":
        return (ctypes.c_char_p * (len(given) + 1))(*(word.encode() for word in given), None)

    def error(self) -> str:
        return (self.library.rrd_get_error() or b"").decode()

    def create(self, path: str, step: int, start: int, *definitions: str) -> str:
        """The error; empty if there is none."""
        status = self.library.rrd_create_r(path.encode(), step, start, len(definitions), self.words(definitions))
        assert (status == 0) == (self.error() == "") and status in (0, -1)
        return self.error()

    def update(self, path: str, names: Optional[str], *samples: str) -> str:
        status = self.library.rrd_update_r(path.encode(), None if names is None else names.encode(), len(samples),
                                           self.words(samples))
        assert (status == 0) == (self.error() == "") and status in (0, -1)
        return self.error()


@needs_program
@unittest.skipUnless(os.path.exists(PATH), NO_RECORDER)
class Record(ToolCase):
    def setUp(self) -> None:
        super().setUp()
        self.recorder = Recorder()
        self.file = str(self.folder / "f.rrd")

    def make(self, *sources: str) -> None:
        self.assertEqual(self.recorder.create(self.file, 10, 1_000_000_000, *(sources or ("DS:g:GAUGE:20:0.000000:U",)),
                                              "RRA:AVERAGE:0.1000000000:1:100"), "")

    def test_create(self) -> None:
        self.make("DS:g:GAUGE:20:-1e3:1.5e1", "DS:c:COUNTER:20:0.000000:U", "DS:d:DERIVE:20:nan:4294967295.000000")
        info = self.rrdi("info", "f.rrd")
        for line in ("step = 10", "last_update = 1000000000", "ds[0].min = -1000.000000", "ds[0].max = 15.000000",
                     "ds[1].type = COUNTER", "ds[2].min = U", "ds[2].max = 4294967295.000000", "rra[0].xff = 0.100000",
                     "rra[0].rows = 100"):
            self.assertIn(line + "\n", info)
        self.assertEqual(self.recorder.create(self.file, 0, 5, "DS:g:GAUGE:20:0:U", "RRA:MAX:0.5:1:4"),
                         f"{self.file}: bad step")
        self.assertEqual(self.recorder.create(self.file, 10, 5, "DS:g:COMPUTE:a", "RRA:MAX:0.5:1:4"),
                         f"{self.file}: unreadable definition 1")
        self.assertEqual(self.recorder.create("/nowhere/f.rrd", 10, 5, "DS:g:GAUGE:9:0:U", "RRA:MAX:0.5:1:4"),
                         "writing '/nowhere/f.rrd': No such file or directory")
        self.assertEqual(self.rrdi("info", "f.rrd"), info)
        self.assertEqual(self.recorder.create(self.file, 10, -1, "DS:g:GAUGE:20:0:U", "RRA:MAX:0.5:1:4"), "")
        self.assertGreater(int(self.rrdi("last", "f.rrd")), 1_700_000_000)
        self.assertEqual(self.recorder.create(self.file, 10, 0, "DS:g:GAUGE:20:0:U", "RRA:MAX:0.5:1:4"), "")
        self.assertEqual(self.rrdi("last", "f.rrd"), "0\n")

    def test_numbers_are_rounded_as_elsewhere(self) -> None:
        """The results for random numbers of all kinds are the same as those of rrdi.compat, which the tools use."""
        chance = random.Random(3)
        texts = ["0", "-0", "00", ".5", "5.", "-.5", "1e3", "+7", "0.0000005", "-0.0000005", "0.00000049999", "-0.00000050001",
                 "0.9999995", "99.9999999", "-99.9999999", "1e-9", "1E+2", "-1.5e-6", "123456789012.3456785", "9e-7", "5e-7",
                 "-5e-7", "0.5e-6", "49e-8", "1e17", "9999999.9999995", "0e5", "0.0", "-0.0", "100.10", "1200"]
        for _ in range(3_000):
            digits = "".join(chance.choice("0123456789") for _ in range(chance.randrange(1, 12)))
            at = chance.randrange(len(digits) + 1)
            point = chance.random() < 0.7
            text = chance.choice(["", "-", "+"]) + (digits[:at] + "." + digits[at:] if point else digits)
            texts.append(text + (f"e{chance.randrange(-14, 4)}" if chance.random() < 0.6 else ""))
        self.make("DS:g:GAUGE:20:U:U")
        self.rrdi("create", "wanted.rrd", "--step", "10", "--start", "1000000000", "DS:g:GAUGE:20:U:U", "RRA:AVERAGE:0.1:1:100")
        for start in range(0, len(texts), 90):
            part = texts[start:start + 90]
            times = [1_000_000_010 + 10 * (start + at) for at in range(len(part))]
            self.assertEqual(self.recorder.update(self.file, None, *(f"{time}:{text}" for time, text in zip(times, part))), "")
            self.rrdi("update", "wanted.rrd", *(f"{time}:{read_number(text)}" for time, text in zip(times, part)))
            words = ["AVERAGE", "-s", str(times[0] - 10), "-e", str(times[-1] - 1)]
            found, wanted = (self.rrdi("fetch", file, *words).splitlines() for file in ("f.rrd", "wanted.rrd"))
            for text, cell, other in zip(part, found[1:], wanted[1:]):
                self.assertEqual(cell, other, text)
            self.assertEqual(len(found), len(part) + 1)

    def test_whole_numbers_stay(self) -> None:
        self.make("DS:c:COUNTER:20:U:U", "DS:d:DERIVE:20:U:U")
        self.assertEqual(self.recorder.update(self.file, None, "1000000010.9:18446744073709551615:-9223372036854775808"), "")
        self.assertEqual(self.rrdi("lastupdate", "f.rrd"), "time: c d\n1000000010: 18446744073709551615 -9223372036854775808\n")
        self.assertEqual(self.recorder.update(self.file, "d:c", "1000000020:1e2:-NaN"), "")
        self.assertEqual(self.rrdi("lastupdate", "f.rrd"), "time: c d\n1000000020: U 100\n")

    def test_refused_samples(self) -> None:
        self.make()
        update = self.recorder.update
        self.assertEqual(update(self.file, None, "1000000010:1", "1000000010:2", "1000000020:3"),
                         f"{self.file}: sample 2 of 3: not later than 1000000010")
        self.assertEqual(self.rrdi("last", "f.rrd"), "1000000020\n")  # the others are stored
        for sample, reason in (("1000000030", "unreadable sample 1"), ("1000000030:x", "unreadable sample 1"),
                               ("1000000030:1:2", "wrong number of values"), ("", "no sample"),
                               ("1000000030:1e", "unreadable sample 1"), ("1000000030:1.2.3", "unreadable sample 1"),
                               ("1000000030:-", "unreadable sample 1"), ("1000000030:", "unreadable sample 1")):
            with self.subTest(sample=sample):
                self.assertEqual(update(self.file, None, sample), f"{self.file}: sample 1 of 1: {reason}")
        self.assertEqual(update(self.file, "none", "1000000030:1"), f"{self.file}: sample 1 of 1: no such data source")
        self.assertEqual(update(self.file, None), "")
        self.assertEqual(update("/nowhere", None, "N:1"), "opening '/nowhere': No such file or directory")
        self.write("cut.rrd", self.read("f.rrd")[:60])
        self.assertEqual(update(str(self.folder / "cut.rrd"), None, "N:1"), f"{self.folder}/cut.rrd: file: truncated at 60")
        self.assertEqual(update(self.file, None, "N:1"), "")

    def test_errors_of_long_paths(self) -> None:
        """An error has up to 1,023 bytes: the beginning of a longer one."""
        for length in (900, 985, 986, 987, 988, 3_000, 100_000):
            path = "/" + "x" * length
            self.assertEqual(self.recorder.update(path, None, "N:1"), f"opening '{path}': File name too long"[:1_023])

    def test_many_samples_in_one_call(self) -> None:
        self.make()
        samples = [f"{1_000_000_000 + at}:{at}" for at in range(1, 3_000)]
        self.assertEqual(self.recorder.update(self.file, None, *samples), "")
        self.assertEqual(self.rrdi("last", "f.rrd"), "1000002999\n")
        self.assertEqual(self.recorder.update(self.file, None, *samples),
                         f"{self.file}: sample 1 of 2999: not later than 1000002999")

    def test_memory(self) -> None:
        """An update keeps none of its memory: neither that of its lines, nor that of its messages."""
        self.make()
        samples = ["1000000000:" + "1" * 200] * 4
        sizes = []
        for _ in range(3):
            for _ in range(2_000):
                self.recorder.update(self.file, None, *samples)
            with open("/proc/self/statm", encoding="ascii") as file:
                sizes.append(int(file.read().split()[5]) * os.sysconf("SC_PAGE_SIZE"))
        self.assertLess(sizes[2] - sizes[0], 2_000_000)  # the lines of so many updates are twice as much

    def test_it_waits_for_a_lock(self) -> None:
        self.make()
        with open(self.file, "ab") as held:
            fcntl.flock(held, fcntl.LOCK_EX)
            timer = threading.Timer(0.5, lambda: fcntl.flock(held, fcntl.LOCK_UN))
            timer.start()
            self.assertEqual(self.recorder.update(self.file, None, "1000000010:1"), "")
            timer.join()

    def test_threads(self) -> None:
        errors: List[str] = []

        def run(number: int) -> None:
            file = str(self.folder / f"{number}.rrd")
            errors.append(self.recorder.create(file, 10, 1_000_000_000, "DS:g:GAUGE:20:0:U", "RRA:MAX:0.5:1:9"))
            for at in range(1, 30):
                errors.append(self.recorder.update(file, "g", f"{1_000_000_000 + at}:{number}"))
            # The error of one thread is no other thread's.
            if number == 0:
                errors.append(self.recorder.update(file, "g", "5:1").replace(file, "f"))

        run_in_threads(8, run)
        self.assertEqual(sorted(errors), [""] * 240 + ["f: sample 1 of 1: not later than 1000000029"])

    def test_an_error_is_that_of_its_thread(self) -> None:
        """Two threads in turns: a call of one neither shows nor clears the error of the other one."""
        self.make()
        has_failed, may_look, errors = threading.Event(), threading.Event(), []  # type: threading.Event, threading.Event, List[str]

        def fail() -> None:
            errors.append(self.recorder.update(self.file, None, "5:1"))
            has_failed.set()
            may_look.wait(HANG)
            errors.append(self.recorder.error())

        other = threading.Thread(target=fail)
        other.start()
        has_failed.wait(HANG)
        self.assertEqual(self.recorder.error(), "")
        self.assertEqual(self.recorder.update(self.file, None, "1000000010:1"), "")
        may_look.set()
        other.join()
        self.assertIn("not later than", errors[0])
        self.assertEqual(errors[0], errors[1])
