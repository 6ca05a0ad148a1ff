# SPDX-License-Identifier: MIT OR Apache-2.0
"""Tests of graphite-web's finder and reader. No program is needed: the files are written here."""
from __future__ import annotations

import os
import types
import unittest
from pathlib import Path
from typing import Any, Dict, List, Optional, Sequence, Tuple
from unittest import mock

import graphite_doubles as graphite
from cases import DataCase
from rrdi.graphite import finding, web
from rrdi.graphite.names import path_of
from rrdi.graphite.series import Series, read_series
from rrdi.reader.selected import OpenFile

NOW = 1_700_000_400  # a multiple of 600
METRICS = ["app.host1.cpu", "app.host1.mem", "app.host2.cpu", "app.host2.disk.sda", "app.total", "other", "app2.x"]


class FolderCase(DataCase):
    def put(self, metric: str, data: bytes) -> str:
        path = path_of(str(self.folder), metric)
        assert path is not None
        os.makedirs(os.path.dirname(path), exist_ok=True)
        Path(path).write_bytes(data)
        return path


class Finding(FolderCase):
    def setUp(self) -> None:
        super().setUp()
        for metric in METRICS:
            self.put(metric, graphite.file_bytes(NOW))
        (self.folder / ".hidden.rrdi").write_bytes(b"")
        (self.folder / "app/notes.txt").write_bytes(b"")
        (self.folder / "other.rrdi.damaged-1-2").write_bytes(b"")
        (self.folder.parent / "outside.rrdi").write_bytes(b"")

    def nodes(self, pattern: str) -> Tuple[List[str], List[str]]:
        """The metrics and the folders that a pattern matches."""
        from graphite.finders.utils import FindQuery
        finder = web.RrdiFinder([str(self.folder)])
        nodes = list(finder.find_nodes(FindQuery(pattern, None, None)))
        paths = [node.path for node in nodes]
        self.assertEqual(len(set((node.path, node.is_leaf) for node in nodes)), len(paths), pattern)
        return (sorted(node.path for node in nodes if node.is_leaf), sorted(node.path for node in nodes if not node.is_leaf))

    def test_the_folder(self) -> None:
        """It is RRDI_DIR of the settings, or where whisper has its files."""
        settings = types.SimpleNamespace(WHISPER_DIR="/whisper")
        with mock.patch.object(web, "settings", settings):
            self.assertEqual(web.RrdiFinder().folders, ["/whisper"])
            settings.RRDI_DIR = "/own"
            self.assertEqual(web.RrdiFinder().folders, ["/own"])

    def test_several_folders(self) -> None:
        """A metric is read in the folder that has it."""
        from graphite.finders.utils import FindQuery
        second = self.folder.parent / "second"
        (second / "disk").mkdir(parents=True)
        (second / "disk/used.rrdi").write_bytes(graphite.file_bytes(NOW))
        finder = web.RrdiFinder([str(self.folder), str(second)])
        paths = {node.path: node.reader.path for node in finder.find_nodes(FindQuery("*.{used,total}", None, None))}
        self.assertEqual(paths, {"app.total": f"{self.folder}/app/total.rrdi", "disk.used": f"{second}/disk/used.rrdi"})

    def test_patterns(self) -> None:
        for pattern, metrics, folders in (
                ("other", ["other"], []), ("app", [], ["app"]), ("*", ["other"], ["app", "app2"]),
                ("app.*", ["app.total"], ["app.host1", "app.host2"]),
                ("app.host1.cpu", ["app.host1.cpu"], []), ("app.host?.cpu", ["app.host1.cpu", "app.host2.cpu"], []),
                ("app.host[12].{cpu,mem}", ["app.host1.cpu", "app.host1.mem", "app.host2.cpu"], []),
                ("app.{host1,host2}.c*", ["app.host1.cpu", "app.host2.cpu"], []),
                ("app.host{1,2}.{c,m}{pu,em}", ["app.host1.cpu", "app.host1.mem", "app.host2.cpu"], []),
                ("a*.x", ["app2.x"], []), ("none.*", [], []), ("none", [], []), ("app.total.*", [], [])):
            with self.subTest(pattern=pattern):
                self.assertEqual(self.nodes(pattern), (metrics, folders))

    def test_any_depth(self) -> None:
        self.assertEqual(self.nodes("**")[0], sorted(METRICS))
        self.assertEqual(self.nodes("app.**")[0], sorted(metric for metric in METRICS if metric.startswith("app.")))
        self.assertEqual(self.nodes("**.cpu")[0], ["app.host1.cpu", "app.host2.cpu"])
        self.assertEqual(self.nodes("app.**.sda")[0], ["app.host2.disk.sda"])
        self.assertEqual(self.nodes("**.**.cpu")[0], ["app.host1.cpu", "app.host2.cpu"])

    def test_no_pattern_leaves_the_folder(self) -> None:
        outside = str(self.folder.parent / "outside")
        for pattern in ("", ".", "..", "...", "../outside", "/", outside, "app./etc/passwd", "app/../../outside", "{/,..}",
                        "{" + outside + "}", "app.\0", "app.*/../*", ".hidden", "..*", "*/outside", "x" * 300, "{a,{b,c",
                        "[", "app.[!", "{}", "\\"):
            with self.subTest(pattern=pattern):
                metrics, folders = self.nodes(pattern)
                self.assertEqual([path for path in metrics if path not in METRICS], [])
                self.assertEqual(set(folders) - {"app", "app2", "app.host1", "app.host2", "app.host2.disk"}, set())

    def test_tags(self) -> None:
        metric = "disk.used;dc=1;host=a"
        self.put(metric, graphite.file_bytes(NOW))
        self.assertEqual(self.nodes(metric), ([metric], []))
        self.assertEqual(self.nodes("disk.used;dc=2"), ([], []))
        plain = path_of(str(self.folder), "a;b=c", False)
        assert plain is not None
        os.makedirs(os.path.dirname(plain))
        Path(plain).write_bytes(graphite.file_bytes(NOW))
        self.assertEqual(self.nodes("a;b=c"), (["a;b=c"], []))
        self.assertEqual(self.nodes("disk;path=/../../../outside"), ([], []))

    @unittest.skipUnless(graphite.HAS_WEB, "graphite-web is not installed for this Python")
    def test_patterns_as_graphite_web_finds_them(self) -> None:
        from graphite.finders.standard import StandardFinder
        from graphite.finders.utils import FindQuery
        for path in list(self.folder.rglob("*.rrdi")):
            path.with_suffix(".wsp").write_bytes(b"")
        standard = StandardFinder([str(self.folder)])
        for pattern in ("*", "app.*", "app.host?.cpu", "app.{host1,host2}.c*", "app.host[12].*", "**.cpu", "app.**", "a*.x"):
            found = {(node.path, node.is_leaf) for node in standard.find_nodes(FindQuery(pattern, None, None))}
            metrics, folders = self.nodes(pattern)
            self.assertEqual({*((path, True) for path in metrics), *((path, False) for path in folders)},
                             {node for node in found if not node[0].startswith(".")}, pattern)

    def test_a_pattern_that_is_too_much(self) -> None:
        """Nothing is found then, also not what came before."""
        self.assertNotEqual(self.nodes("**.cpu"), ([], []))

        def find(*words: Any) -> Any:
            yield from finding.find(*words)
            raise finding.TooMuch("too many links")
        with mock.patch.object(web, "find", find):
            self.assertEqual(self.nodes("**.cpu"), ([], []))

    def test_an_unreadable_folder(self) -> None:
        self.assertEqual(finding.entries(str(self.folder / "none")), ([], []))


class Reading(FolderCase):
    """Rows as values. The row at t is the slot t - seconds."""

    def series(self, data: bytes, start: int, end: int, now: int = NOW) -> Optional[Series]:
        with OpenFile(self.put("m", data)) as file:
            return read_series(file, start, end, now)

    def known(self, found: Optional[Series]) -> Dict[int, float]:
        assert found is not None
        self.assertEqual(len(found.values), (found.end - found.start) // found.step)
        return {found.start + number * found.step: value for number, value in enumerate(found.values) if value is not None}

    def file(self, last: int = NOW, name: Sequence[str] = ("average",), partial: Tuple[int, float] = (0, 0.0),
             function: int = 0) -> bytes:
        fine = {time: [float(time - NOW)] * len(name) for time in range(NOW - 50, last + 1, 10)}
        coarse = {time: [float(time - NOW), 2.0][:len(name)] for time in range(NOW - 540, last + 1, 60)}
        return graphite.file_bytes(last, name, [(1, 6, fine), (6, 10, coarse)], [partial], function)

    def test_finest_archive(self) -> None:
        found = self.series(self.file(), NOW - 45, NOW)
        self.assertEqual((found and found[:3], found and found.method, found and found.raw_step),
                         ((NOW - 40, NOW + 10, 10), "average", 10))
        # The slot at s is the row at s + 10; the slot at NOW has no row yet.
        self.assertEqual(self.known(found), {NOW - 40: -30.0, NOW - 30: -20.0, NOW - 20: -10.0, NOW - 10: 0.0})

    def test_coarser_archive(self) -> None:
        found = self.series(self.file(), NOW - 200, NOW - 60)
        self.assertEqual(found and found[:3], (NOW - 180, NOW, 60))
        self.assertEqual(self.known(found), {NOW - 180: -120.0, NOW - 120: -60.0, NOW - 60: 0.0})

    def test_spans(self) -> None:
        for start, end, expected in ((NOW + 1, NOW + 100, None), (NOW - 10, NOW - 20, None),
                                     (NOW - 10_000, NOW - 5_000, None), (NOW - 10_000, NOW - 601, None),
                                     (NOW - 10_000, NOW - 600, (NOW - 540, NOW - 480, 60)), (NOW - 10_000, NOW, (NOW - 540, NOW + 60, 60)),
                                     (NOW - 10, NOW + 10_000, (NOW, NOW + 10, 10)), (NOW - 5, NOW - 5, (NOW, NOW + 10, 10))):
            found = self.series(self.file(), start, end)
            self.assertEqual(found[:3] if found else None, expected, (start - NOW, end - NOW))

    def test_the_row_that_is_filled(self) -> None:
        """Three of six steps are known, with the sum 12."""
        last = NOW + 30
        for name, function, value in (("average", 0, 4.0), ("max", 2, 12.0), ("min", 1, 12.0), ("last", 3, 12.0)):
            data = self.file(last, (name,), (3, 12.0), function)
            self.assertEqual(self.known(self.series(data, NOW - 100, last, last))[NOW], value, name)
        for name, value in (("sum", 12.0), ("avg_zero", 2.0)):
            data = self.file(last, (name, "zero"), (3, 12.0))
            self.assertEqual(self.known(self.series(data, NOW - 100, last, last))[NOW], value, name)
        # Too few are known: whisper shows nothing either.
        data = self.file(last, ("average",), (2, 12.0))
        self.assertNotIn(NOW, self.known(self.series(data, NOW - 100, last, last)))
        # The row is not in the span.
        self.assertNotIn(NOW, self.known(self.series(self.file(last), NOW - 100, NOW - 60, last)))

    def test_sums(self) -> None:
        """A sum is the average with zeros, times the steps of the row; unknown where the first source is."""
        fine: Dict[int, Sequence[Optional[float]]] = {NOW: [5.0, 5.0], NOW - 10: [None, 0.0]}
        coarse: Dict[int, Sequence[Optional[float]]] = {NOW: [3.0, 2.0], NOW - 60: [None, 0.0]}
        for name, of_fine, of_coarse in (("sum", 5.0, 12.0), ("avg_zero", 5.0, 2.0)):
            data = graphite.file_bytes(NOW, (name, "zero"), [(1, 6, fine), (6, 10, coarse)])
            self.assertEqual(self.known(self.series(data, NOW - 45, NOW)), {NOW - 10: of_fine})
            self.assertEqual(self.known(self.series(data, NOW - 200, NOW)), {NOW - 60: of_coarse})


class Readers(FolderCase):
    """The class that graphite-web calls."""

    def reader(self, data: Optional[bytes]) -> Any:
        path = self.put("m", data if data is not None else b"")
        if data is None:
            os.unlink(path)
        return web.RrdiReader(path, "m")

    def test_fetch(self) -> None:
        now = NOW
        data = graphite.file_bytes(now, archives=[(1, 6, {now: [1.5]})])
        with mock.patch.object(web, "merge_with_carbonlink", return_value=[2.5]) as merge:
            found = self.reader(data).fetch(now - 15, now - 5, now)
        self.assertEqual(found, ((now - 10, now, 10), [2.5]))
        merge.assert_called_once_with("m", now - 10, 10, [1.5], "average", 10)

    def test_unreadable_files(self) -> None:
        """They give a line in the log and no values."""
        now, whole = NOW, graphite.file_bytes(NOW)
        # Of six rows at least five are read, so one of the two that are cut off.
        cut = whole[:-17]
        for data in (None, b"", b"\0" * 200, whole[:100], cut, whole[:5] + b"\x09" + whole[6:]):
            reader, lines = self.reader(data), []  # type: ignore[var-annotated]
            with mock.patch.object(vars(web)["log"], "info", lines.append):
                self.assertIsNone(reader.fetch(now - 55, now, now))
                self.assertEqual(len(lines), 1)
                self.assertIn(reader.path, lines[0])
                if data != cut:
                    self.assertEqual(len(list(reader.get_intervals())), 0)

    def test_a_file_that_is_locked(self) -> None:
        import fcntl
        reader, lines = self.reader(graphite.file_bytes(130)), []  # type: ignore[var-annotated]
        with open(reader.path) as file, mock.patch("rrdi.environment.WAIT", 0), \
                mock.patch.object(vars(web)["log"], "info", lines.append):
            fcntl.flock(file, fcntl.LOCK_EX)
            self.assertIsNone(reader.fetch(100, 130, 130))
        self.assertIn("another program holds its lock", lines[0])
