# SPDX-License-Identifier: MIT OR Apache-2.0
"""Tests of rrdi-export --whisper: files that whisper itself reads, beside those that it has made of the same points."""
from __future__ import annotations

import random
import unittest
from pathlib import Path
from typing import Any, Dict, List, Optional, Tuple

import graphite_doubles as graphite
from cases import needs_program
from tool_case import Ran, ToolCase

from rrdi.graphite.layout import METHODS, WITH_ZEROS, template, unknown_share
from rrdi.reader.selected import Outline
from rrdi.tools.command_line import Failure
from rrdi.tools.whisper_file import check_sources, known_share

HAS_WHISPER = graphite.is_installed("whisper")
NOW = 1_700_000_400  # a multiple of 600
RETENTIONS = [(10, 60), (60, 120)]
Points = List[Tuple[int, float]]


class Shares(unittest.TestCase):
    def test_shares(self) -> None:
        """An xFilesFactor comes back as it was typed."""
        for text in ("0", "0.1", "0.25", "0.3", "0.5", "0.7", "0.99", "1"):
            self.assertEqual(known_share(unknown_share(float(text))), float(text))


class Sources(unittest.TestCase):
    def test_one_metric(self) -> None:
        """The only other source that may be left out is that of the zeros, of a sum or of an average with zeros."""
        for names in (("temp",), ("sum",), ("sum", "zero"), ("avg_zero", "zero")):
            check_sources(Outline(10, NOW, names, (), (), 0))
        for names in (("a", "b"), ("sum", "b"), ("max", "zero"), ("zero", "sum"), ("sum", "zero", "b")):
            with self.assertRaisesRegex(Failure, f"^a file of whisper has one metric, and there are the sources {', '.join(names)}$"):
                check_sources(Outline(10, NOW, names, (), (), 0))


@needs_program
@unittest.skipUnless(HAS_WHISPER, "whisper is not installed for this Python")
class BesideWhisper(ToolCase):
    """The same points in a file of whisper and in a database with the layout of Graphite's storage."""

    def setUp(self) -> None:
        super().setUp()
        import whisper
        self.whisper: Any = whisper

    def path(self, name: str) -> str:
        return str(self.folder / name)

    def make(self, method: str, xff: float, points: Points) -> None:
        for name in ("old.wsp", "new.wsp", "m.rrdi"):
            Path(self.path(name)).unlink(missing_ok=True)
        self.whisper.create(self.path("old.wsp"), RETENTIONS, xff, method)
        for point in points:
            self.whisper.update(self.path("old.wsp"), point[1], point[0], now=point[0])
        made = template(RETENTIONS, xff, method, 16)
        self.rrdi("create", "m.rrdi", "--start", str(made.start(points[0][0] + 10)), *made.words.split())
        self.rrdi("update", "m.rrdi", *self.samples(points, method in WITH_ZEROS))

    def samples(self, points: Points, has_zeros: bool) -> List[str]:
        """Returns a sample for the end of each slot; the slots without a point are unknown."""
        known, found, slot = dict(points), [], points[0][0]
        while slot <= points[-1][0]:
            value = known.get(slot)
            text = "U" if value is None else f"{value:.6f}"
            found.append(f"{slot + 10}:{text}" + (f":{text if value is not None else 0}" if has_zeros else ""))
            slot += 10
        return found

    def shown(self, name: str, now: int) -> List[Dict[int, Optional[float]]]:
        """Returns what whisper reads of each archive."""
        found = []
        for seconds, rows in RETENTIONS:
            (start, end, step), values = self.whisper.fetch(self.path(name), now - seconds * rows + 1, now, now=now,
                                                            archiveToSelect=f"{seconds}s")
            found.append(dict(zip(range(start, end, step), values)))
        return found

    def same(self, what: object, now: int) -> int:
        """Checks that whisper reads the same of both files, and returns how many values are known."""
        known = 0
        for ours, theirs in zip(self.shown("new.wsp", now), self.shown("old.wsp", now)):
            self.assertEqual(list(ours), list(theirs), what)
            for when, value in theirs.items():
                mine = ours[when]
                self.assertEqual(mine is None, value is None, (what, when - NOW))
                if mine is not None and value is not None:
                    self.assertAlmostEqual(mine, value, delta=6e-5, msg=str((what, when - NOW)))
                    known += 1
        return known

    def test_each_method(self) -> None:
        """Points with gaps, up to more than both archives have, which end within a coarse row; both files then take the same
        points again."""
        for method in METHODS:
            for xff, count in ((0.5, 100), (0.0, 32), (1.0, 130), (0.5, 760)):
                chance = random.Random(f"{method} {count}")
                points = [(NOW + 10 * slot, round(chance.uniform(-9, 9), 3)) for slot in range(count)
                          if slot in (0, count - 1) or chance.random() < 0.8]
                self.make(method, xff, points)
                self.assertEqual(self.tool("rrdi-export", "--whisper", "m.rrdi", "new.wsp"), Ran(0, "", ""))
                ours, theirs = (self.whisper.info(self.path(name)) for name in ("new.wsp", "old.wsp"))
                self.assertEqual(ours, theirs)
                self.assertGreater(self.same((method, count), points[-1][0]), 20)
                for later in (10, 40, 900, 910, 5_000):
                    when = points[-1][0] + later
                    for name in ("new.wsp", "old.wsp"):
                        self.whisper.update(self.path(name), float(later), when, now=when)
                    self.same((method, count, later), when)

    def test_many(self) -> None:
        (self.folder / "tree/web").mkdir(parents=True)
        self.make("sum", 0.5, [(NOW + 10 * slot, 1.5) for slot in range(30)])
        (self.folder / "m.rrdi").replace(self.folder / "tree/web/hits.rrdi")
        self.rrdi("create", "tree/two.rrdi", "--step", "10", "--start", str(NOW), "DS:a:GAUGE:20:U:U", "DS:b:GAUGE:20:U:U",
                  "RRA:AVERAGE:0.5:1:60")
        ran = self.tool("rrdi-export", "--whisper", "--into", "new", "tree")
        self.assertEqual(ran, Ran(
            1, "tree/web/hits.rrdi: new/web/hits.wsp (1 data source, 2 archives)\n2 files: 1 converted; 1 not converted\n",
            "rrdi-export: tree/two.rrdi: not converted: a file of whisper has one metric, and there are the sources a, b\n"))
        again = "tree/web/hits.rrdi: new/web/hits.wsp is there already (1 data source, 2 archives)\n1 file: 0 converted; 1 there already\n"
        words = ["--whisper", "--into", "new", "tree/web/hits.rrdi"]
        (self.folder / "new/hits.wsp").write_bytes(self.read("new/web/hits.wsp"))
        self.assertEqual(self.tool("rrdi-export", *words), Ran(0, again.replace("new/web", "new"), ""))
        (self.folder / "new/hits.wsp").write_bytes(self.read("new/web/hits.wsp")[:-1] + b"x")
        self.assertEqual(self.tool("rrdi-export", *words), Ran(1, "1 file: 0 converted; 1 not converted\n", "rrdi-export: "
                         "tree/web/hits.rrdi: not converted: new/hits.wsp already exists, and is not equal\n"))
        ran = self.tool("rrdi-import", "--into", "back", "new/web")
        self.assertEqual((ran.status, ran.out.splitlines()[-1]), (0, "1 file: 1 converted"))
        ran = self.tool("rrdi-import", "--into", "back", "new/web")
        self.assertEqual((ran.status, ran.out.splitlines()[-1]), (0, "1 file: 0 converted; 1 there already"))
        (self.folder / "new/web/hits.wsp").rename(self.folder / "new.wsp")
        self.assertGreater(self.same("many", NOW + 290), 30)

    def test_other_databases(self) -> None:
        """One source is enough; archives of other functions are left out, and those that whisper refuses are refused."""
        self.rrdi("create", "f.rrdi", "--step", "10", "--start", str(NOW), "DS:temp:GAUGE:20:U:U", "RRA:AVERAGE:0.5:1:60",
                  "RRA:MAX:0.5:6:10", "RRA:AVERAGE:0.25:6:120")
        self.rrdi("update", "f.rrdi", *(f"{NOW + 10 * slot}:{slot}.5" for slot in range(1, 14)))
        notes = ("rrdi-export: f.rrdi: left out archive 1, MAX of 60 s\n"
                 "rrdi-export: f.rrdi: all archives get the xff of the one of 10 s\n")
        self.assertEqual(self.tool("rrdi-export", "--whisper", "f.rrdi", "new.wsp"), Ran(0, "", notes))
        self.assertEqual(self.tool("rrdi-export", "--whisper", "f.rrdi", "new.wsp"),
                         Ran(1, "", notes + "rrdi-export: new.wsp already exists\n"))
        for counts in ("1 converted", "0 converted; 1 there already"):
            self.assertEqual(self.tool("rrdi-export", "--whisper", "--into", "new", "f.rrdi").out.splitlines()[-1],
                             f"1 file: {counts}, 1 of them with notes")
        fine, coarse = self.shown("new.wsp", NOW + 130)
        self.assertEqual([fine[NOW], fine[NOW + 120], fine[NOW + 130]], [1.5, 13.5, None])
        self.assertEqual([coarse[NOW], coarse[NOW + 60]], [4, 10])
        self.rrdi("create", "g.rrdi", "--step", "10", "--start", str(NOW), "DS:temp:GAUGE:20:U:U", "RRA:AVERAGE:0.5:1:60",
                  "RRA:AVERAGE:0.5:6:10")
        self.assertEqual(self.tool("rrdi-export", "--whisper", "g.rrdi", "g.wsp").err, "rrdi-export: g.rrdi: a file of whisper "
                         "can't have these archives: 60:10 must reach farther back than 10:60\n")

    def test_a_full_disk(self) -> None:
        self.make("last", 0.5, [(NOW, 1.0), (NOW + 10, 2.0)])
        ran = self.tool("rrdi-export", "--whisper", "m.rrdi", "new.wsp", size=1_000)
        self.assertEqual((ran.status, ran.err), (1, "rrdi-export: File too large\n"))
        self.assertEqual([path.name for path in self.folder.glob("*.wsp")] + list(self.folder.glob(".rrdi*")), ["old.wsp"])


if __name__ == "__main__":
    unittest.main()
