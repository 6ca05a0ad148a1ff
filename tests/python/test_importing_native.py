# SPDX-License-Identifier: MIT OR Apache-2.0
"""Tests of files of RRDtool that are read without it: bytes that are made here, and files that rrdtool makes, which are read
as its dump has them."""
from __future__ import annotations

import io
import math
import os
import random
import struct
import subprocess
import unittest
from typing import Any, List
from unittest import mock

from cases import DataCase
from rrdi.importing import native
from rrdi.importing.dump import Refusal, RrdFile, read_dump
from rrdi.importing.native import read_native, read_old
from tool_case import NO_RRDTOOL, RRDTOOL

START = 1_700_000_000
COOKIE = struct.pack("<d", 8.642135e130)


def number(value: "int | float") -> bytes:
    return struct.pack("<d" if isinstance(value, float) else "<Q", value)


def words(*texts: str, size: int = 20) -> bytes:
    return b"".join(text.encode().ljust(size, b"\0") for text in texts)


def rrd_bytes(version: str = "0003", cookie: bytes = COOKIE, kind: str = "COUNTER", name: str = "a", function: str = "MAX",
              steps: int = 6, rows: int = 3, newest: int = 0, last: int = START + 33, end: bytes = b"") -> bytes:
    """Returns a file with two sources and an archive, whose first row in the file is the newest one."""
    head = b"RRD\0" + words(version, size=12) + cookie + number(2) + number(1) + number(10) + bytes(80)
    sources = [words(one, of) + number(60) + number(low) + number(math.nan) + bytes(56)
               for one, of, low in ((name, kind, 0.0), ("b", "GAUGE", -1.5))]
    archive = words(function, size=24) + number(rows) + number(steps) + number(0.3) + bytes(72)
    steps_begun = [words(raw, size=32) + number(unknown) + number(total) + bytes(64)
                   for raw, unknown, total in (("100", 2, 13.2), ("", 3, math.nan))]
    rows_begun = [number(value) + number(unknown) + bytes(64) for value, unknown in ((3.5, 1), (math.nan, 0))]
    cells = [5.0, 6.0, 1.5, math.nan, -2e3, 1 / 3]
    return b"".join([head, *sources, archive, struct.pack("<2q", last, 5), *steps_begun, *rows_begun, number(newest),
                     *map(number, cells), end])


class Bytes(unittest.TestCase):
    def test_all_is_read(self) -> None:
        old = read_native(rrd_bytes())
        assert old is not None
        self.assertEqual((old.step, old.last, len(old.archives)), (10, START + 33, 1))
        first, second = old.sources
        self.assertEqual((first.column, first.name, first.kind, first.heartbeat, first.minimum, first.last_raw, first.partial_sum,
                          first.unknown_seconds), (0, "a", "COUNTER", 60, 0.0, "100", 13.2, 2))
        self.assertEqual((second.column, second.name, second.kind, second.minimum, second.last_raw, second.unknown_seconds),
                         (1, "b", "GAUGE", -1.5, "U", 3))
        self.assertTrue(math.isnan(first.maximum) and math.isnan(second.partial_sum))
        archive = old.archives[0]
        self.assertEqual((archive.number, archive.function, archive.steps, archive.share, archive.row_count, archive.columns),
                         (0, "MAX", 6, 0.3, 3, 2))
        self.assertEqual((archive.partial[0], archive.unknown_steps), (3.5, [1, 0]))
        self.assertEqual(str(archive.cells.tolist()), "[1.5, nan, -2000.0, 0.33333333333, 5.0, 6.0]")

    def test_the_place_of_the_newest_row(self) -> None:
        found = [read_native(rrd_bytes(newest=newest)) for newest in (1, 2)]
        self.assertEqual([str(old.archives[0].cells.tolist()) for old in found if old],
                         ["[-2000.0, 0.33333333333, 5.0, 6.0, 1.5, nan]", "[5.0, 6.0, 1.5, nan, -2000.0, 0.33333333333]"])

    def test_what_rrdtool_has_to_tell(self) -> None:
        """Another layout, types and functions that are not known here, and numbers that can't be."""
        others: "List[dict[str, Any]]" = [
            {"version": "0001"}, {"version": "0006"}, {"cookie": COOKIE[::-1]}, {"kind": "COMPUTE"}, {"function": "HWPREDICT"},
            {"function": "max"}, {"steps": 0}, {"rows": 2}, {"rows": 4}, {"rows": 2**63}, {"newest": 3}, {"newest": 2**63},
            {"last": -1}, {"end": b"\0"}, {"name": "ü"}, {"name": "a" * 20}, {"name": " a"}]
        for other in others:
            self.assertIsNone(read_native(rrd_bytes(**other)), other)
        for kind in ("GAUGE", "DERIVE", "ABSOLUTE", "DCOUNTER", "DDERIVE"):
            self.assertIsNotNone(read_native(rrd_bytes(kind=kind, version="0005")), kind)

    def test_a_file_without_an_update(self) -> None:
        for last in (0, 1):
            old = read_native(rrd_bytes(last=last))
            self.assertEqual(old and old.last, last)

    def test_cut_files(self) -> None:
        data = rrd_bytes()
        self.assertEqual([length for length in range(len(data)) if read_native(data[:length]) is not None], [])

    def test_counts_beyond_the_file(self) -> None:
        """No memory is taken for what the file can't have."""
        data = rrd_bytes()
        for at in (24, 32):
            for count in (3, 2**40, 2**64 - 1):
                self.assertIsNone(read_native(data[:at] + number(count) + data[at + 8:]), (at, count))


class Files(DataCase):
    def setUp(self) -> None:
        super().setUp()
        self.path = str(self.folder / "old.rrd")
        self.asked: List[str] = []
        os.environ.pop("RRDCACHED_ADDRESS", None)

    def rrdtool(self) -> str:
        self.asked.append("rrdtool")
        raise Refusal("rrdtool was asked")

    def test_without_rrdtool(self) -> None:
        (self.folder / "old.rrd").write_bytes(rrd_bytes())
        self.assertEqual(read_old(self.path, self.rrdtool).last, START + 33)
        self.assertEqual(self.asked, [])

    def test_rrdtool_is_asked(self) -> None:
        """It has the reason why a file can't be read; and its daemon may hold samples that the file lacks."""
        pipe, other = self.folder / "pipe", self.folder / "other.rrd"
        os.mkfifo(pipe)
        other.write_bytes(rrd_bytes(kind="COMPUTE"))
        (self.folder / "old.rrd").write_bytes(rrd_bytes())
        for path, address in ((str(pipe), ""), (str(other), ""), (str(self.folder), ""), ("/nowhere", ""), (self.path, "unix:/x")):
            with mock.patch.dict(os.environ, {"RRDCACHED_ADDRESS": address} if address else {}):
                with self.assertRaisesRegex(Refusal, "rrdtool was asked", msg=path):
                    read_old(path, self.rrdtool)
        self.assertEqual(len(self.asked), 5)

    def test_a_file_that_changes_meanwhile(self) -> None:
        def reading(data: bytes) -> "RrdFile | None":
            (self.folder / "old.rrd").write_bytes(rrd_bytes(last=START + 43))
            return read_native(data)
        (self.folder / "old.rrd").write_bytes(rrd_bytes())
        with mock.patch.object(native, "read_native", reading):
            with self.assertRaisesRegex(Refusal, "^the file changed while it was read$"):
                read_old(self.path, self.rrdtool)


def is_near(one: float, other: float) -> bool:
    """Checks whether two numbers are the same in eleven digits. RRDtool does not round a half as C does."""
    return math.isnan(one) and math.isnan(other) or one == other or abs(one - other) <= 1.01e-10 * abs(other)


@unittest.skipUnless(RRDTOOL, NO_RRDTOOL)
class BesideRRDtool(DataCase):
    ARCHIVES = (["RRA:AVERAGE:0.5:1:40"], ["RRA:AVERAGE:0.5:1:20", "RRA:MIN:0.25:6:9", "RRA:MAX:0:6:9", "RRA:LAST:0.9:7:8"],
                ["RRA:MAX:0.5:5:50"])

    def run_rrdtool(self, *given: str) -> bytes:
        ran = subprocess.run([str(RRDTOOL), *given], capture_output=True, check=True, cwd=self.folder)
        return ran.stdout

    def same_numbers(self, found: RrdFile, wanted: RrdFile) -> int:
        """Checks that both are the same file, and returns how many numbers it has."""
        facts = [[one.step, one.last, *[(each.column, each.name, each.kind, each.heartbeat, each.last_raw, each.unknown_seconds,
                                         each.formula) for each in one.sources],
                  *[(each.number, each.function, each.steps, each.unknown_steps, each.columns, len(each.cells))
                    for each in one.archives]] for one in (found, wanted)]
        self.assertEqual(*facts)
        numbers = [[*[value for each in one.sources for value in (each.minimum, each.maximum, each.partial_sum)],
                    *[value for each in one.archives for value in (each.share, *each.partial, *each.cells)]]
                   for one in (found, wanted)]
        self.assertEqual([pair for pair in zip(*numbers) if not is_near(*pair)], [])
        return len(numbers[0])

    def test_each_type(self) -> None:
        """Files of each type with random samples and gaps, from none to more than the archives have."""
        chance, count = random.Random(5), 0
        for kind in ("GAUGE", "COUNTER", "DERIVE", "ABSOLUTE", "DCOUNTER", "DDERIVE"):
            for step, samples, archives in ((1, 0, 0), (10, 1, 1), (60, 25, 2), (300, 90, 1), (300, 40, 0)):
                name, given, raw, at = f"{kind}{step}-{samples}.rrd", [], 0.0, START
                for _ in range(samples):
                    at += step + chance.randrange(step) + step * 7 * (chance.random() < 0.05)
                    raw += chance.randrange(10**chance.randrange(1, 9)) + chance.random() * (kind in ("DCOUNTER", "DDERIVE"))
                    shown = f"{chance.gauss(0, 1) * 10**chance.randrange(-9, 20)!r}" if kind == "GAUGE" else f"{raw:.10g}"
                    given.append(f"{at}:{'U' if chance.random() < 0.05 else shown}")
                low, high = chance.choice((("U", "U"), ("0", "U"), ("-1e300", "1e300")))
                self.run_rrdtool("create", name, "--step", str(step), "--start", str(START),
                                 f"DS:of_nineteen_letters:{kind}:{4 * step}:{low}:{high}", *self.ARCHIVES[archives])
                if given:
                    self.run_rrdtool("update", name, *given)
                found = read_native((self.folder / name).read_bytes())
                assert found is not None
                count += self.same_numbers(found, read_dump(io.BytesIO(self.run_rrdtool("dump", name))))
        self.assertGreater(count, 1_500)

    def test_what_rrdtool_has_to_tell(self) -> None:
        for other in (["DS:b:COMPUTE:a,2,*", "RRA:LAST:0.5:1:9"], ["RRA:HWPREDICT:9:0.1:0.1:5"]):
            self.run_rrdtool("create", "old.rrd", "DS:a:GAUGE:60:U:U", *other)
            self.assertIsNone(read_native((self.folder / "old.rrd").read_bytes()), other)


if __name__ == "__main__":
    unittest.main()
