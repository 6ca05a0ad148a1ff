# SPDX-License-Identifier: MIT OR Apache-2.0
"""Tests of what Graphite's database is made of: names, templates, slots, late points, counts. No program is needed."""
from __future__ import annotations

import math
import os
import unittest
from typing import Dict, List

import graphite_doubles as graphite
from cases import new_folder
from rrdi.errors import Damaged
from rrdi.graphite.late import plan
from rrdi.graphite.layout import method_of, template, unknown_share
from rrdi.graphite.losses import KINDS, Losses
from rrdi.graphite.names import metric_of, path_of
from rrdi.graphite.slots import lines_of, sort_points
from rrdi.limits import LATEST
from rrdi.reader.selected import OpenFile

WRONG_NAMES = ["", ".", "..", "a..b", ".a", "a.", "../../up", "a/b", "/etc/passwd", "a.b/../../c", "a\0b", "x" * 300,
               "a." + "x" * 251, "é" * 128, "\ud800", ".".join(["abc"] * 1_500), "_tagged.abc.def.x", "a;b=\ud800"]


class Names(unittest.TestCase):
    def test_paths(self) -> None:
        for metric, path in (("a", "/d/a.rrdi"), ("a.b-c_d%.e", "/d/a/b-c_d%/e.rrdi"), ("ü.n", "/d/ü/n.rrdi"),
                             ("x" * 250, f"/d/{'x' * 250}.rrdi"), ("a b", "/d/a b.rrdi")):
            self.assertEqual(path_of("/d", metric), path)
            self.assertEqual(metric_of(path[3:]), metric)

    def test_no_path(self) -> None:
        for metric in WRONG_NAMES:
            with self.subTest(metric=metric[:20]):
                self.assertIsNone(path_of("/d", metric))

    def test_tags(self) -> None:
        metric = "disk.used;host=a.b;dc=1"
        hashed, plain = path_of("/d", metric, True), path_of("/d", metric, False)
        self.assertRegex(str(hashed), r"^/d/_tagged/[0-9a-f]{3}/[0-9a-f]{3}/[0-9a-f]{64}\.rrdi$")
        self.assertTrue(str(plain).endswith("/disk_DOT_used;host=a_DOT_b;dc=1.rrdi"))
        self.assertIsNotNone(path_of("/d", "disk;path=/../../etc", True))
        self.assertIsNone(path_of("/d", "disk;path=/../../etc", False))

    @unittest.skipUnless(graphite.HAS_CARBON, "carbon is not installed for this Python")
    def test_names_as_carbon_has_them(self) -> None:
        from carbon.util import TaggedSeries
        for metric in ("a.b.c", "disk.used;host=a.b;dc=1", "é.ü;x=y"):
            for is_hashed in (True, False):
                self.assertEqual(path_of("/d", metric, is_hashed),
                                 f"/d/{TaggedSeries.encode(metric, os.sep, hash_only=is_hashed)}.rrdi")


class Templates(unittest.TestCase):
    def test_words(self) -> None:
        made = template([(60, 1440), (10, 2160)], 0.5, "max", 16)
        self.assertEqual(made.create(100), "create --start 100 --step 10 --journal 16 DS:max:GAUGE:10:U:U "
                                           "RRA:MAX:0.500000:1:2160 RRA:MAX:0.500000:6:1440")
        self.assertEqual((made.step, made.start(130)), (10, 120))
        made = template([(10, 60), (60, 60)], None, "sum", 4)
        self.assertIn("DS:sum:GAUGE:10:U:U DS:zero:GAUGE:9999999999:U:U RRA:AVERAGE:0.500000:1:60", made.words)
        # A sum needs zeros from the beginning of its coarse row on.
        self.assertEqual(made.start(150), 120)
        self.assertIn("DS:average:", template([(1, 60)], None, None, 16).words)
        # A share of 0 is no missing one.
        for xff, share in ((0, "0.999999"), (0.0, "0.999999"), (None, "0.500000"), (1.0, "0.000000")):
            self.assertIn(f"RRA:MAX:{share}:1:60", template([(10, 60)], xff, "max", 16).words)

    def test_shares(self) -> None:
        """Rows are known for the same numbers of known slots as in whisper, which keeps the share in four bytes."""
        import struct
        for xff in (0.0, 0.1, 0.2, 0.3, 0.5, 0.6, 0.7, 0.9, 1 / 3, 1.0):
            kept, = struct.unpack("!f", struct.pack("!f", xff))
            for steps in (1, 2, 3, 6, 10, 60, 144):
                for known in range(1, steps + 1):
                    of_whisper = float(known) / float(steps) >= kept
                    of_rrdi = (steps - known) * 1_000_000 <= unknown_share(xff) * steps
                    self.assertEqual(of_rrdi, of_whisper, (xff, known, steps))


class Slots(unittest.TestCase):
    def test_left_out(self) -> None:
        nan, inf = math.nan, math.inf
        points = [(100, nan), (100, inf), (100, -inf), (100, 1e18), (100, -1e18), (-1, 1), (nan, 1), (inf, 1), (-inf, 1),
                  (1e300, 1), (1_001, 1), (1000.5, 1), (5, 7), (0, 1e17)]
        slots, left_out = sort_points(points, 10, 1_000)
        self.assertEqual(slots, {10: "7.000000"})
        self.assertEqual(dict(left_out), {"value": 5, "time": 4, "future": 3})

    def test_the_latest_time(self) -> None:
        """No slot ends after the latest time of a database, whatever the clock says."""
        slots, left_out = sort_points([(LATEST - 10, 1), (LATEST - 9, 2), (LATEST, 3)], 10, 1e12)
        self.assertEqual((slots, left_out), ({LATEST - 9: "1.000000"}, {"future": 2}))

    def test_lines(self) -> None:
        texts = [line.text for line in lines_of({20: "1", 30: "2", 60: "3"}, 10, 10, False, 16)]
        self.assertEqual(texts, ["update 20:1", "update 30:2", "update 50:U 60:3"])
        texts = [line.text for line in lines_of({20: "1", 40: "2"}, 10, 10, True, 16)]
        self.assertEqual(texts, ["update 20:1:1", "update 30:U:0 40:2:2"])

    def test_old_slots_share_a_line(self) -> None:
        lines = lines_of({10 * n: "1" for n in range(1, 10_001)}, 0, 10, False, 16)
        self.assertEqual([line.slots for line in lines[-16:]], [(10 * n,) for n in range(9_985, 10_001)])
        self.assertTrue(all(len(line.text) <= 65_536 for line in lines))
        self.assertLess(len(lines), 20)
        self.assertEqual([end for line in lines for end in line.slots], [10 * n for n in range(1, 10_001)])
        self.assertEqual(sum(len(line.text.split()) - 1 for line in lines), 10_000)


class Parts(unittest.TestCase):
    """Files that are read in parts, and late points."""

    def setUp(self) -> None:
        self.path = new_folder(self) / "m.rrdi"

    def open(self, data: bytes) -> OpenFile:
        self.path.write_bytes(data)
        file = OpenFile(str(self.path))
        self.addCleanup(file.close)
        return file

    def test_outline(self) -> None:
        for version in (1, 2):
            file = self.open(graphite.file_bytes(130, ("sum", "zero"), [(1, 6, {}), (6, 4, {})], [(1, 5.0)],
                                                 version=version))
            outline = file.outline()
            self.assertEqual((outline.step, outline.last, outline.sources), (10, 130, ("sum", "zero")))
            self.assertEqual([(one.function, one.steps, one.rows, one.seconds, one.retention, one.xff)
                              for one in outline.archives],
                             [("AVERAGE", 1, 6, 10, 60, 500_000), ("AVERAGE", 6, 4, 60, 240, 500_000)])
            self.assertEqual(outline.archives[1].partial, ((1, 5_000_000), (1, 5_000_000)))
            self.assertEqual(outline.cells_end, self.path.stat().st_size)
            self.assertEqual(method_of(outline), "sum")

    def test_rows(self) -> None:
        cells = {time: [time / 10] for time in range(80, 140, 10)}
        file = self.open(graphite.file_bytes(133, archives=[(1, 6, cells)]))
        archive = file.outline().archives[0]
        for first, last in ((0, 1_000), (75, 133), (90, 110), (130, 130), (140, 200), (0, 70), (110, 100)):
            found = {time: row[0] for time, row in file.rows(archive, first, last).items()}
            self.assertEqual(found, {time: time * 100_000 for time in cells if first <= time <= last})

    def test_rows_before_1970(self) -> None:
        file = self.open(graphite.file_bytes(10, archives=[(1, 6, {10: [1.0]})]))
        self.assertEqual(file.rows(file.outline().archives[0], -1_000, 10),
                         {time: [1_000_000 if time == 10 else None] for time in range(-40, 20, 10)})

    def test_journal(self) -> None:
        entries = b"".join(graphite.update_entry(before, 2) for before in (120, 110, 90))
        archives = [(1, 6, {}), (6, 4, {})]  # type: ignore[var-annotated]
        file = self.open(graphite.file_bytes(130, archives=archives, entries=entries, count=3))
        self.assertEqual(list(file.times_before()), [120, 110, 90])
        file = self.open(graphite.file_bytes(130, archives=archives, entries=entries + b"\2", count=4))
        self.assertEqual(list(file.times_before()), [120, 110, 90])
        file = self.open(graphite.file_bytes(130, archives=archives, entries=entries[:-20], count=4))
        with self.assertRaises(Damaged):
            list(file.times_before())

    def test_damage(self) -> None:
        whole = graphite.file_bytes(130)
        for data in (b"", b"RRDI", b"\0\0\0\0" + whole[4:], whole[:5] + b"\x09" + whole[6:], whole[:29], whole[:60]):
            self.path.write_bytes(data)
            with self.assertRaises(Damaged):
                OpenFile(str(self.path)).outline()
        file = self.open(whole[:-1])
        with self.assertRaises(Damaged):
            file.rows(file.outline().archives[0], 0, 200)
        with self.assertRaises(FileNotFoundError):
            OpenFile(str(self.path) + "x")
        many = whole[:22] + b"\xff\xff\xff\xff" + whole[26:]  # 65,535 sources and archives
        with self.assertRaises(Damaged):
            self.open(many).outline()

    def test_a_broken_off_change(self) -> None:
        file = self.open(b"RRDC" + graphite.file_bytes(130, archives=[(1, 6, {130: [2.5]})])[4:])
        self.assertEqual(file.rows(file.outline().archives[0], 130, 130), {130: [2_500_000]})

    def planned(self, slots: Dict[int, str]) -> object:
        entries = b"".join(graphite.update_entry(before, 1) for before in (120, 110, 90))
        cells = {time: [time / 10] for time in (90, 100, 110, 120, 130)}
        file = self.open(graphite.file_bytes(130, archives=[(1, 6, cells)], entries=entries, count=3))
        return plan(file, slots)

    def test_plans(self) -> None:
        self.assertEqual(self.planned({140: "1"}), (0, 130, {140: "1"}, 0, 0))
        self.assertEqual(self.planned({120: "7", 140: "1"}),
                         (2, 110, {120: "7", 130: "13.000000", 140: "1"}, 1, 0))
        # 80 is too late, 100 is not.
        self.assertEqual(self.planned({80: "7", 100: "8"}),
                         (3, 90, {100: "8", 110: "11.000000", 120: "12.000000", 130: "13.000000"}, 1, 1))
        # Nothing is reverted if nothing would be gained.
        self.assertEqual(self.planned({90: "7", 80: "8", 140: "1"}), (0, 130, {140: "1"}, 0, 2))


class Counting(unittest.TestCase):
    def test_counts(self) -> None:
        lines: List[str] = []
        losses = Losses(lines.append, 60, lambda: 0)
        losses.add("a", {"late": 2, "rewritten": 3})
        losses.add("a", {"rewritten": 1})
        losses.add("b\nc", {"late": 1, "value": 4}, "why")
        losses.add("d", {"late": 0})
        self.assertEqual(lines, ["rrdi: a: points lost: 2 late", "rrdi: b\\nc: points lost: 1 late, 4 value (why)"])
        self.assertEqual(losses.take(), {**dict.fromkeys(KINDS, 0), "late": 3, "rewritten": 4, "value": 4})
        self.assertEqual(set(losses.take().values()), {0})

    def test_lines_are_limited(self) -> None:
        lines: List[str] = []
        now = [0.0]
        losses = Losses(lines.append, 60, lambda: now[0])
        for number in range(1_000):
            losses.add(f"m{number}", {"late": 1})
        for seconds, new in ((59.9, []), (60, ["rrdi: 901 more lines were left out", "rrdi: m: points lost: 1 late"]), (61, ["rrdi: m: points lost: 1 late"])):
            before, now[0] = len(lines), seconds
            losses.add("m", {"late": 1})
            self.assertEqual(lines[before:], new)
        self.assertEqual(losses.take()["late"], 1_003)
