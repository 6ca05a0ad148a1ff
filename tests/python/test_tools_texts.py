# SPDX-License-Identifier: MIT OR Apache-2.0
"""Tests of what tools choose, read and print, without the program: archives as RRDtool chooses them, columns, changes of a journal,
RRDtool's texts, the files of a tree, and what a machine says of itself."""
from __future__ import annotations

import contextlib
import io
import json
import os
import struct
import unittest
from collections import Counter
from typing import Any, Dict, List, Optional, Tuple
from unittest import mock

from cases import new_folder, use_zone
from rrdi.amounts import Millionths
from rrdi.printed import Archive, Settings, Source
from rrdi.reader.selected import Outline, StoredArchive
from rrdi.tools import many_files, program, rows, show
from rrdi.tools.changes import Changes, as_parts, raw_text, texts
from rrdi.tools.children import Child, ChildAnswer
from rrdi.tools.command_line import Failure
from rrdi.tools.graphing import as_json, as_xml
from rrdi.tools.librrd import Exported
from rrdi.tools.machine import load, memory, network
from rrdi.tools.rows import NO_ARCHIVE, Rows, choose, rows_of
from rrdi.tools.rrdtool.texts import fetch_text, last_update_text

NAN = float("nan")
LAST = 1_700_000_040  # a multiple of 60, and of 120


def settings(*archives: Tuple[str, int, int], last: int = LAST, step: int = 10) -> Settings:
    sources = [Source("a", "GAUGE", 60, "U", "U", "2.500000"), Source("b", "COUNTER", 60, "0.000000", "U", "7")]
    return Settings(step, last, 16, 0, sources, [Archive(function, "0.500000", steps, count) for function, steps, count in archives])


class InUtc(unittest.TestCase):
    def setUp(self) -> None:
        use_zone(self, "UTC")


class Choices(unittest.TestCase):
    def test_archives(self) -> None:
        """As `rrdtool fetch` chooses: of those that reach back to the start the nearest resolution, else the one that reaches back
        farthest; of equals the first; and rows of one step for any function."""
        fine, middle, coarse = ("AVERAGE", 1, 6), ("AVERAGE", 6, 6), ("AVERAGE", 12, 60)
        for archives, start, resolution, number in (
                ((fine, middle, coarse), LAST - 60, 1, 0), ((fine, middle, coarse), LAST - 61, 1, 1), ((fine, middle, coarse), LAST - 360, 1, 1), ((fine, middle, coarse), LAST - 361, 1, 2),
                ((fine, middle, coarse), LAST - 60, 35, 0), ((fine, middle, coarse), LAST - 60, 36, 1), ((fine, middle, coarse), LAST - 60, 90, 1), ((fine, middle, coarse), LAST - 60, 91, 2),
                ((fine, middle, coarse), LAST - 7_200, 1, 2), ((fine, middle, coarse), LAST - 9_999, 1, 2), ((coarse, middle, fine), LAST - 60, 1, 2), ((middle, middle), LAST, 1, 0),
                ((fine, middle), LAST - 9_999, 1, 1), ((middle, fine), LAST - 9_999, 1, 0), ((("AVERAGE", 6, 1), ("AVERAGE", 1, 6)), LAST - 99, 1, 1), ((("AVERAGE", 6, 1), ("AVERAGE", 1, 6)), LAST - 99, 60, 0),
                ((("MAX", 6, 9), middle), LAST - 9, 1, 1), ((("MAX", 1, 9), middle), LAST - 9, 1, 0), ((("MAX", 1, 9), middle), LAST - 9, 60, 1)):
            self.assertEqual(choose(settings(*archives), "AVERAGE", start, resolution), number, (archives, start - LAST, resolution))
        # The last time is in the middle of a row of all but the finest: they end at 1000, 990 and 960.
        for start, resolution, number in ((900, 1, 0), (900, 44, 1), (900, 45, 1), (900, 46, 2), (800, 1, 0), (799, 1, 1), (390, 1, 1), (389, 1, 2), (10, 1, 2)):
            self.assertEqual(choose(settings(("AVERAGE", 1, 20), ("AVERAGE", 3, 20), ("AVERAGE", 6, 16), last=1_000), "AVERAGE", start, resolution), number, (start, resolution))
        for archives, function in ((((("MAX", 6, 9)),), "AVERAGE"), ((("MAX", 1, 9),), "HWPREDICT"), ((), "MAX")):
            with self.assertRaisesRegex(Failure, f"^{NO_ARCHIVE}$"):
                choose(settings(*archives), function, LAST, 1)

    def test_rows(self) -> None:
        """From the row after the start to the one that ends after the end; those that the archive lacks are unknown."""
        asked: List[List[str]] = []

        def ask(words: List[str]) -> str:
            asked.append(words)
            begin, end = (int(words[words.index(option) + 1]) for option in ("--start", "--end"))
            return "time: a b\n" + "".join(f"{at}: {at - LAST} nan\n" for at in range(begin - begin % 60 + 60, end - end % 60 + 61, 60))
        with mock.patch.object(program, "ask", ask):
            for start, end, first, last, words in (
                    (LAST - 120, LAST, LAST - 120, LAST + 60, (LAST - 120, LAST - 1)), (LAST - 121, LAST - 1, LAST - 180, LAST, (LAST - 180, LAST - 1)), (LAST - 61, LAST - 61, LAST - 120, LAST - 60, (LAST - 120, LAST - 61)),
                    (LAST - 999, LAST - 300, LAST - 1_020, LAST - 240, (LAST - 360, LAST - 241)), (LAST - 999, LAST - 400, LAST - 1_020, LAST - 360, None), (LAST, LAST + 70, LAST, LAST + 120, None), (LAST - 60, LAST + 70, LAST - 60, LAST + 120, (LAST - 60, LAST - 1))):
                asked.clear()
                found = rows_of("f", settings(("MAX", 6, 6)), 0, start, end)
                self.assertEqual((found.start, found.end, found.step, found.names), (first, last, 60, ["a", "b"]), (start - LAST, end - LAST))
                self.assertEqual(asked, [["fetch", "f", "MAX", "--resolution", "60", "--start", str(words[0]), "--end", str(words[1])]] if words else [])
                known = range(words[0] + 60, words[1] + 2, 60) if words else range(0)
                self.assertEqual(found.cells, [[float(at - LAST) if at in known else None, None] for at in range(first + 60, last + 1, 60)])

        with mock.patch.object(program, "ask", return_value="time: a b\n960: 1 2\n990: nan nan\n") as asking:  # the newest row ends at 990
            found = rows_of("f", settings(("MAX", 3, 3), last=1_000), 0, 845, 1_030)
        self.assertEqual((found.start, found.end, found.cells, asking.call_args[0][0][-3:]), (840, 1_050, [[None] * 2, [None] * 2, [None] * 2, [1.0, 2.0], [None] * 2, [None] * 2, [None] * 2], ["900", "--end", "989"]))

    def test_rows_of_one_second(self) -> None:
        with mock.patch.object(program, "ask", return_value="".join(["time: a b\n", *(f"{LAST - at}: {at} {at}\n" for at in (2, 1, 0))])) as asking:
            found = rows_of("f", settings(("MAX", 1, 9), step=1), 0, LAST - 3, LAST - 1)
        self.assertEqual((found.start, found.end, found.cells, asking.call_args[0][0][-3:]), (LAST - 3, LAST, [[2.0] * 2, [1.0] * 2, [0.0] * 2], [str(LAST - 3), "--end", str(LAST - 1)]))

    def test_no_rows_before_1970(self) -> None:
        with mock.patch.object(program, "ask", return_value="time: a b\n60: 1 2\n") as ask:
            found = rows_of("f", settings(("MAX", 6, 6), last=60), 0, 0, 59)
        self.assertEqual((found.cells, ask.call_args[0][0][-3:]), ([[1.0, 2.0]], ["0", "--end", "59"]))
        with self.assertRaisesRegex(Failure, r"^start \(6\) should be less than end \(5\)$"):
            rows.fetch("f", "MAX", 6, 5, 1)
        with mock.patch.object(program, "ask", return_value="time: a b\n60: 1 2\n120: 3 4\n"), mock.patch.object(program, "settings", return_value=settings(("MAX", 6, 6), last=120)) as asked:
            self.assertEqual(rows.fetch("f", "MAX", 5, 5, 60), Rows(0, 60, 60, ["a", "b"], [[1.0, 2.0]]))
            self.assertEqual(rows.fetch("f", "MAX", 5, 60, 60), Rows(0, 120, 60, ["a", "b"], [[1.0, 2.0], [3.0, 4.0]]))
        self.assertEqual(asked.mock_calls, [mock.call("f")] * 2)


class Shown(InUtc):
    def test_cells(self) -> None:
        """As many decimals as the numbers of a column need, and no point without one."""
        cases: List[Tuple[List[Optional[int]], List[str]]] = [([1_000_000, None, 2_500_000], ["1.0", "-", "2.5"]), ([1_000_000, 20_000_000], ["1", "20"]), ([None, None], ["-", "-"]), ([], []), ([1], ["0.000001"]), ([100_000_000], ["100"]), ([100_000_000, 1], ["100.000000", "0.000001"]),
                             ([0, 10], ["0.00000", "0.00001"]), ([-1_500_000, 1_000_000], ["-1.5", "1.0"]), ([120_000_000, 1_100_000], ["120.0", "1.1"])]
        for cells, shown in cases:
            self.assertEqual(show.shown_cells([None if cell is None else Millionths(cell) for cell in cells]), shown, cells)

    def test_columns(self) -> None:
        self.assertEqual(list(show.columns([["a", "b"]])), ["a  b"])
        self.assertEqual(list(show.columns([["a", "long", "x"], ["long", "b", ""], ["", "c", "yy"]])), ["a     long  x", "long  b", "      c     yy"])

    def table(self, **more: Any) -> show.ShownRows:
        found: Dict[int, Any] = {LAST - 60: [Millionths(1_500_000), None], LAST: [Millionths(20_000_000), Millionths(-7)]}
        return show.ShownRows(2, "MAX", 6, 10, ["a", "longer_name"], found)._replace(**more)

    def test_a_table(self) -> None:
        self.assertEqual(list(show.table_texts(self.table())), [
            "MAX of 1 min (archive 2); a row ends at its time, UTC", "time                    a  longer_name", "2023-11-14 22:13:00   1.5            -", "2023-11-14 22:14:00  20.0    -0.000007"])
        self.assertEqual(show.table_json(self.table()), f'{{"archive": 2, "function": "MAX", "seconds": 60, "sources": ["a", "longer_name"], "rows": '
                         f'[{{"time": {LAST - 60}, "cells": [1.500000, null]}}, {{"time": {LAST}, "cells": [20.000000, -0.000007]}}]}}')
        found = self.table().as_database()
        self.assertEqual([(archive["function"], archive["steps"], len(archive["rows"])) for archive in found["archives"]], [("", 1, 0), ("", 1, 0), ("MAX", 6, 2)])
        self.assertEqual((found["step"], [source["name"] for source in found["sources"]], found["archives"][2]["rows"][0]["time"]), (10, ["a", "longer_name"], LAST - 60))

    def test_archives(self) -> None:
        stored = [StoredArchive(function, steps, 0, 6, 10 * steps, 0, ()) for function, steps in (("AVERAGE", 1), ("MAX", 6), ("AVERAGE", 6), ("MAX", 12))]
        outline = Outline(10, LAST, ("a",), (), tuple(stored), 0)
        for words, begin, number in (("f", LAST - 60, 0), ("f", LAST - 61, 2), ("f MAX", LAST - 60, 1), ("f MAX -r 95", LAST - 60, 3), ("f MAX", LAST - 361, 3), ("f -a 3", LAST, 3), ("f -a 0", LAST, 0), ("f MAX -a 2", LAST, 2)):
            self.assertEqual(show.archive_number(outline, show.read_options(words.split()), begin), number, words)
        for words, text in (("f -a 4", "f: there is no archive 4, only 0 to 3"), ("f MIN", "f: no archive has MIN, only AVERAGE, MAX")):
            with self.assertRaises(Failure) as failed:
                show.archive_number(outline, show.read_options(words.split()), LAST)
            self.assertEqual(str(failed.exception), text)
        fine = [StoredArchive("MAX", steps, 0, 600, steps, 0, ()) for steps in (3, 1)]  # without a resolution the finest one
        self.assertEqual(show.archive_number(Outline(1, LAST, ("a",), (), tuple(fine), 0), show.read_options(["f"]), LAST - 9), 1)
        row = {"steps": 6, "function": "MAX", "row_count": 3}
        self.assertEqual(show.archive_row(1, row, 10, LAST + 59), ["1", "MAX", "1 min", "3", "2023-11-14 22:11:00", "2023-11-14 22:14:00"])
        self.assertEqual(show.archive_row(0, row, 10, 70), ["0", "MAX", "1 min", "3", "1970-01-01 00:00:00", "1970-01-01 00:01:00"])


class Journals(InUtc):
    """What each change was, the newest first: from the settings now, back."""

    def changes(self, *journal: Dict[str, Any]) -> List[Any]:
        source = {"name": "a", "type": "GAUGE", "heartbeat": 60, "min": None, "max": Millionths(5_000_000), "last_raw": Millionths(2_500_000)}
        other = {**source, "name": "b", "type": "COUNTER", "last_raw": 7}
        archives = [{"function": "MAX", "steps": 6, "rows": [1, 2, 3]}, {"function": "LAST", "steps": 1, "rows": [1]}]
        return list(Changes({"journal": list(journal), "step": 10, "last_time": LAST, "sources": [source, other], "archives": archives}).changes())

    def test_updates(self) -> None:
        newest, older = ({"change": "update", "last_time": last, "sources": [{"last_raw": one}, {"last_raw": two}], "archives": [{"rows": finished}, {"rows": [5]}]}
                         for last, one, two, finished in ((LAST - 10, None, 6, []), (LAST - 40, Millionths(1_000_000), None, [1, 2])))
        found = self.changes(newest, older)
        self.assertEqual([change[:4] for change in found], [(1, "update", LAST - 10, LAST), (2, "update", LAST - 40, LAST - 10)])
        self.assertEqual([tuple(one) for one in found[0].differences], [("a", "last value", "U", "2.5"), ("b", "last value", "6", "7"), (None, "LAST of 10 s (archive 1)", "", "1 new row")])
        self.assertEqual([tuple(one) for one in found[1].differences], [("a", "last value", "1", "U"), ("b", "last value", "U", "6"), (None, "MAX of 1 min (archive 0)", "", "2 new rows"), (None, "LAST of 10 s (archive 1)", "", "1 new row")])
        self.assertEqual(list(texts(found[1])), ["  2  update    2023-11-14 22:13:20 -> 2023-11-14 22:13:50", "       a                         1 -> U", "       b                         U -> 6",
                                                "       MAX of 1 min (archive 0)  2 new rows", "       LAST of 10 s (archive 1)  1 new row"])
        self.assertEqual(as_parts(found[0])["differences"][0], {"source": "a", "what": "last value", "before": "U", "after": "2.5"})
        self.assertEqual({name: value for name, value in as_parts(found[0]).items() if name != "differences"}, {"revert": 1, "change": "update", "time_before": LAST - 10, "time_after": LAST})

    def test_settings(self) -> None:
        """Of a tune the settings that it changed; a later change is seen against those before it."""
        before = {"number": 0, "name": "old", "type": "GAUGE", "heartbeat": 30, "min": None, "max": None, "last_raw": None}
        found = self.changes({"change": "tune", "sources": [before]}, {"change": "tune", "sources": [{**before, "heartbeat": 31, "min": Millionths(-500_000)}]})
        self.assertEqual([tuple(one) for one in found[0].differences], [("a", "name", "old", "a"), ("a", "heartbeat", "30", "60"), ("a", "max", "U", "5")])
        self.assertEqual([tuple(one) for one in found[1].differences], [("old", "heartbeat", "31", "30"), ("old", "min", "-0.5", "U")])
        both = self.changes({"change": "tune", "sources": [before, {**before, "number": 1, "name": "b", "type": "DERIVE"}]}, {"change": "tune", "sources": [{**before, "number": 1, "name": "c", "type": "DERIVE"}]})
        self.assertEqual([tuple(one) for one in both[0].differences[3:]], [("b", "type", "DERIVE", "COUNTER"), ("b", "heartbeat", "30", "60"), ("b", "max", "U", "5")])
        self.assertEqual([tuple(one) for one in both[1].differences], [("b", "name", "c", "b")])
        self.assertEqual(list(texts(found[1])), ["  2  tune      2023-11-14 22:14:00", "       old heartbeat  31 -> 30", "       old min        -0.5 -> U"])

    def test_archives(self) -> None:
        found = self.changes({"change": "resize", "archive": 0, "rows": [1, 2]}, {"change": "addition"}, {"change": "removal", "archive": 0, "function": "MIN", "steps": 12, "rows": [1]},
                             {"change": "resize", "archive": 1, "rows": [1] * 9})
        self.assertEqual([tuple(one) for change in found for one in change.differences], [
            (None, "rows of MAX of 1 min (archive 0)", "2", "3"), (None, "archive 1", "none", "1 row of LAST of 10 s"), (None, "archive 0", "1 row of MIN of 2 min", "none"), (None, "rows of MAX of 1 min (archive 1)", "9", "2")])
        self.assertEqual([change[:4] for change in found], [(at, kind, LAST, LAST) for at, kind in enumerate(("resize", "addition", "removal", "resize"), 1)])
        self.assertEqual(list(texts(found[1])), ["  2  addition  2023-11-14 22:14:00", "       archive 1  none -> 1 row of LAST of 10 s"])
        for value, text in ((None, "U"), (Millionths(1_500_000), "1.5"), (7, "7"), ("GAUGE", "GAUGE"), (Millionths(0), "0")):
            self.assertEqual(raw_text(value), text)


class OfRrdtool(unittest.TestCase):
    """Texts as RRDtool 1.7.2 prints them."""

    def test_rows(self) -> None:
        found = Rows(1_000_000_000, 1_000_000_020, 10, ["a", "longer_name"], [[1.5, None], [None, -2e-300]])
        self.assertEqual(fetch_text(found), "                              a         longer_name\n\n1000000010: 1.5000000000e+00 -nan\n1000000020: -nan -2.0000000000e-300\n")
        self.assertEqual(fetch_text(Rows(0, 10, 10, ["a"], [[0.0]])), "                              a\n\n        10: 0.0000000000e+00\n")

    def test_the_last_update(self) -> None:
        self.assertEqual(last_update_text(settings()), f" a b\n\n{LAST}: 2.5 7\n")
        self.assertEqual(last_update_text(settings(last=5)), " a b\n\n         5: 2.5 7\n")

    def test_exports(self) -> None:
        found = Exported(1_000, 1_020, 10, ["a", 'b"c'], [(1.5, NAN), (2.0, -3.0)])
        for has_times, is_numbered in ((False, False), (True, False), (False, True), (True, True)):
            tags = ("v0", "v1") if is_numbered else ("v", "v")
            lines = as_xml(found, has_times, is_numbered).split("\n")
            self.assertEqual(lines[:15], ['<?xml version="1.0" encoding="ISO-8859-1"?>', "", "<xport>", "  <meta>", "    <start>1010</start>", "    <end>1020</end>", "    <step>10</step>", "    <rows>2</rows>",
                                          "    <columns>2</columns>", "    <legend>", "      <entry>a</entry>", '      <entry>b"c</entry>', "    </legend>", "  </meta>", "  <data>"])
            self.assertEqual(lines[15:], [*(f"    <row>{f'<t>{at}</t>' if has_times else ''}<{tags[0]}>{one}</{tags[0]}><{tags[1]}>{other}</{tags[1]}></row>" for at, one, other in (
                (1_010, "1.5000000000e+00", "NaN"), (1_020, "2.0000000000e+00", "-3.0000000000e+00"))), "  </data>", "</xport>", ""])
            text = as_json(found, has_times)
            self.assertEqual(json.loads(text)["meta"]["legend"], ["a", 'b"c'])
            first = ['"1010",', '"1020",'] if has_times else ["", ""]
            self.assertTrue(text.endswith(f'  "data": [\n    [ {first[0]}1.5000000000e+00, null ],\n    [ {first[1]}2.0000000000e+00, -3.0000000000e+00 ]\n  ]\n}}\n'), text)
            self.assertIn('    "start": 1010,\n    "end": 1020,\n    "step": 10,\n    "legend": [\n      "a",\n      "b\\"c"\n          ]', text)


class Trees(unittest.TestCase):
    def setUp(self) -> None:
        self.tree = new_folder(self)
        for name in ("b.rrd", "a.rrd", "c.txt", "d/e.rrd", "d/f.rrdi", "z/g.rrd"):
            (self.tree / name).parent.mkdir(exist_ok=True)
            (self.tree / name).write_text(name)

    def test_files(self) -> None:
        """In the order of their names, those of a folder before those of the folders in it; without links."""
        os.symlink("a.rrd", self.tree / "link.rrd")
        os.symlink("c.txt", self.tree / "link.txt")
        os.symlink("d", self.tree / "folder")
        (self.tree / "odd.rrd").mkdir()
        os.mkfifo(self.tree / "pipe.rrd")
        found = list(many_files.found_below(str(self.tree), (".rrd",)))
        self.assertEqual([one.name for one in found], ["a.rrd", "b.rrd", "d/e.rrd", "z/g.rrd"])
        self.assertEqual([one.path for one in found], [str(self.tree / one.name) for one in found])
        self.assertEqual([one.name for one in many_files.found_below(str(self.tree), (".rrd", ".rrdi"))], ["a.rrd", "b.rrd", "d/e.rrd", "d/f.rrdi", "z/g.rrd"])
        self.assertEqual((many_files.links_below(str(self.tree), (".rrd",)), many_files.links_below(str(self.tree), (".wsp",)), many_files.links_below(str(self.tree / "d"), (".rrd",))), (2, 1, 0))
        self.assertRaises(OSError, lambda: list(many_files.found_below(str(self.tree / "none"), (".rrd",))))

    def test_arguments(self) -> None:
        words = [str(self.tree / "d"), str(self.tree / "c.txt"), str(self.tree / "none.rrd")]
        self.assertEqual([(one.path, one.name) for one in many_files.files_of(words, (".rrd",))], [(f"{words[0]}/e.rrd", "e.rrd"), (words[1], "c.txt"), (words[2], "none.rrd")])
        for links, text in ((0, ""), (1, ", except links, which are passed over")):
            with self.assertRaises(Failure) as failed:
                many_files.files_of([str(self.tree / "z")], (".wsp", ".x"))
            self.assertEqual(str(failed.exception), f"{self.tree}/z: no file below it has a name that ends in .wsp or .x{text}")
            os.symlink("g.rrd", self.tree / "z/link.wsp") if not links else None

    def test_new_names(self) -> None:
        """A name is for the first file that gets it; the same file by another path may have it too."""
        files = [many_files.OldFile(str(self.tree / name), name) for name in ("a.rrd", "b.rrd", "d/../a.rrd")]
        names = many_files.NewNames(files, lambda file: "one" if file.name != "b.rrd" else "two")
        self.assertEqual([names.new(file) for file in files], ["one", "two", "one"])
        names = many_files.NewNames(files, lambda file: "one")
        self.assertEqual(names.new(files[0]), "one")
        with self.assertRaisesRegex(Failure, "^one is made of .*/a.rrd$"):
            names.new(files[1])

    def test_what_a_kill_has_left(self) -> None:
        """In each folder of a new file all files of that kind, once."""
        names = [f"{folder}/x.rrd" for folder in ("z", "d", "z")]
        for files, into in (([many_files.OldFile(str(self.tree / name), "x.rrd") for name in names], None), ([many_files.OldFile("x.rrd", name) for name in names], str(self.tree))):
            for folder in ("d", "z"):
                for number in range(2):
                    left = self.tree / folder / f".rrdi-{number:016x}.new"
                    left.touch()
                    os.utime(left, (0, 0))
            with contextlib.redirect_stdout(io.StringIO()) as said:
                many_files.tidy(files, into)
            self.assertEqual(sorted(said.getvalue().splitlines()), [f"{self.tree}/{folder}/.rrdi-{number:016x}.new: removed, a run that was killed had left it" for folder in ("d", "z") for number in range(2)])
            self.assertEqual(sorted(os.listdir(self.tree / "d")), ["e.rrd", "f.rrdi"])

    def test_the_bar_of_all(self) -> None:
        """By the bytes of the files: those that are done, and of one that is read no more than it has."""
        files = [many_files.OldFile(str(self.tree / name), name) for name in ("a.rrd", "d/e.rrd")]
        with mock.patch.object(many_files, "Progress") as made:
            bar = many_files.Bar(files)
            for done, size in ((0, 5), (3, 5), (9, 5)):
                bar.reading(done, size)
            bar.end_file(5)
            bar.reading(2, 7)
        self.assertEqual(made.mock_calls, [mock.call("converting", has_bar=True), *(mock.call().show(done, 12) for done in (0, 3, 5)), mock.call().end(), mock.call().show(7, 12)])

    def test_summaries(self) -> None:
        made = many_files.Conversions.__new__(many_files.Conversions)
        made.other = "rrdi"
        cases: List[Tuple[Dict[str, int], int, int, str, int]] = [
                ({"whole": 1}, 0, 0, "1 file: 1 converted", 0), ({"whole": 2, "incomplete": 1}, 0, 0, "3 files: 3 converted, 1 of them without all data sources", 1), ({}, 0, 0, "0 files: 0 converted", 0),
                ({"there": 1, "partly there": 2}, 0, 1, "3 files: 0 converted; 3 there already, 2 of them without all data sources; 1 link passed over", 1), ({"there": 1}, 0, 0, "1 file: 0 converted; 1 there already", 0),
                ({"whole": 4, "noted": 14}, 0, 0, "18 files: 18 converted, 14 of them with notes", 0), ({"noted there": 1}, 0, 0, "1 file: 0 converted; 1 there already, 1 of them with notes", 0),
                ({"noted": 1, "incomplete": 2, "noted there": 2, "partly there": 1}, 0, 0, "6 files: 3 converted, 2 of them without all data sources, 1 other with notes; 3 there already, 1 of them without all data sources, 2 others with notes", 1),
                ({"passed over": 2}, 3, 2, "5 files: 0 converted; 2 already of rrdi; 3 not converted; 2 links passed over", 1), ({"passed over": 1}, 0, 0, "1 file: 0 converted; 1 already of rrdi", 0)]
        for counts, refused, links, text, status in cases:
            made.counts, made.refused = Counter(counts), refused
            self.assertEqual((made.summary(links), made.status), (text, status), counts)
        self.assertEqual((many_files.has(1, 2), many_files.has(2, 1), many_files.counted(0, "file")), (" (1 data source, 2 archives)", " (2 data sources, 1 archive)", "0 files"))


class Answers(unittest.TestCase):
    def test_pieces(self) -> None:
        """An answer comes in pieces of any length, and what follows it stays."""
        data = b"".join(struct.pack("Q", len(text)) + text for text in (b"+done", b"-", b"-why\xff", b"+"))
        for size in (1, 2, 3, 7, 8, 9, 13, 100):
            child, found = Child(0, 0, 0), []
            for at in range(0, len(data), size):
                child.data += data[at:at + size]
                while True:
                    answer = child.answer()
                    if answer is None:
                        break
                    found.append(answer)
            self.assertEqual((found, bytes(child.data)), ([ChildAnswer(True, "done"), ChildAnswer(False, ""), ChildAnswer(False, "why\udcff"), ChildAnswer(True, "")], b""), size)


class Machines(unittest.TestCase):
    MEMINFO = "MemTotal:  100 kB\nMemFree:  20 kB\nBuffers:  3 kB\nCached:  5 kB\nSwapTotal:  50 kB\nSwapFree:  40 kB\nSReclaimable:  7 kB\nHugePages:  9\n"

    def with_proc(self, name: str, text: str) -> None:
        folder = new_folder(self)
        (folder / "net").mkdir()
        (folder / name).write_text(text)
        patch = mock.patch.dict(os.environ, {"RRDI_PROC": str(folder), "LOADAVG": ""})
        patch.start()
        self.addCleanup(patch.stop)
        self.path = str(folder / name)

    def test_loads(self) -> None:
        self.with_proc("loadavg", "0.50 1.25 10 1/99 7\nmore\n")
        self.assertEqual([tuple(one) for one in load()], [("load1", "GAUGE", "0.50"), ("load5", "GAUGE", "1.25"), ("load15", "GAUGE", "10")])
        for text in ("", "1 2\n", "1 2 x 4\n", "1 2 3.\n", "\n1 2 3\n", "-1 2 3\n"):
            self.with_proc("loadavg", text)
            with self.assertRaisesRegex(Failure, f"^{self.path} has no three load averages$"):
                load()

    def test_memory(self) -> None:
        self.with_proc("meminfo", self.MEMINFO)
        kib = 1_024
        self.assertEqual([tuple(one) for one in memory()], [("mem_used", "GAUGE", str(65 * kib)), ("mem_cached", "GAUGE", str(15 * kib)), ("mem_free", "GAUGE", str(20 * kib)), ("swap_used", "GAUGE", str(10 * kib))])
        self.with_proc("meminfo", self.MEMINFO.replace("SReclaimable:  7 kB\n", "").replace("MemFree:  20", "MemFree:  99").replace("SwapFree:  40", "SwapFree:  60"))
        self.assertEqual([one.value for one in memory()], ["0", str(8 * kib), str(99 * kib), "0"])
        for name in ("MemTotal", "MemFree", "Buffers", "Cached", "SwapTotal", "SwapFree"):
            self.with_proc("meminfo", self.MEMINFO.replace(f"{name}:", f"x{name}:"))
            with self.assertRaisesRegex(Failure, f"^{self.path} has no {name}$"):
                memory()

    def test_networks(self) -> None:
        """The first number of an interface is what it received, and the ninth what it sent."""
        self.with_proc("net/dev", "Inter-|   Receive\n face |bytes\n    lo: 1 2 3 4 5 6 7 8 9 10\n eth0:11 12 13 14 15 16 17 18 19\nbr:0: 21 22 23 24 25 26 27 28 29\n short: 1 2 3 4 5 6 7 8\n")
        for name, received, sent in (("lo", "1", "9"), ("eth0", "11", "19"), ("br:0", "21", "29")):
            self.assertEqual([tuple(one) for one in network(name)], [("net_in", "DERIVE", received), ("net_out", "DERIVE", sent)])
        for name in ("short", "none", "br"):
            with self.assertRaisesRegex(Failure, f"^{self.path} has no interface {name}, only br:0, eth0, lo, short$"):
                network(name)


if __name__ == "__main__":
    unittest.main()
