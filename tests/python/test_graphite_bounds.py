# SPDX-License-Identifier: MIT OR Apache-2.0
"""Tests of Graphite's parts at, before and after each of their boundaries. No program is needed."""
from __future__ import annotations

import os
import unittest
from pathlib import Path
from typing import Any, Dict, List, Optional, Tuple
from unittest import mock

import graphite_doubles as graphite
from cases import new_folder
from rrdi.amounts import Millionths
from rrdi.graphite import finding, slots
from rrdi.graphite.late import plan, reverts_for
from rrdi.graphite.layout import archives_of, check_retentions, method_of, template, unknown_share
from rrdi.graphite.names import is_usable, metric_of, path_of
from rrdi.graphite.series import read_series, unfinished_value, value_of
from rrdi.graphite.slots import bundles, lines_of, sample, sort_points
from rrdi.reader.selected import OpenFile, Outline, StoredArchive

NOW = 1_700_000_400  # a multiple of 600


class Retentions(unittest.TestCase):
    def test_at_each_limit(self) -> None:
        """Whisper's rules, and the limits of docs/commands.md: steps up to 1,000,000 seconds, rows of up to 1,000,000 steps,
        archives of up to 1,000,000 rows, 8,000,000 cells of two sources."""
        for right in ([(1, 1)], [(1_000_000, 1)], [(10, 6), (60, 2)], [(10, 6), (20, 4)], [(1, 2), (2, 2)], [(60, 10), (10, 6)],
                      [(1, 1_000_000), (1_000_000, 2)], [(2**number, 1_000_000) for number in range(4)]):
            check_retentions(right)
        cases: List[Tuple[List[Tuple[int, int]], str]] = [
            ([], "there must be a retention"), ([(10, 60), (10, 120)], "10 seconds must be a larger multiple of 10 seconds"),
            ([(10, 60), (15, 60)], "15 seconds must be a larger multiple of 10 seconds"), ([(10, 6), (60, 1)], "60:1 must reach farther back than 10:6"),
            ([(10, 7), (60, 1)], "60:1 must reach farther back than 10:7"), ([(10, 5), (60, 2)], "10:5 has too few points for a point of 60 seconds"),
            ([(10, 6), (20, 3)], "20:3 must reach farther back than 10:6"), ([(10, 6), (60, 5), (360, 5)], "60:5 has too few points for a point of 360 seconds"),
            ([(1_000_001, 1)], "the shortest retention must have 1 to 1000000 seconds, not 1000001"), ([(-1, 1)], "the shortest retention must have 1 to"),
            ([(0, 1)], "the shortest retention must have 1 to 1000000 seconds, not 0"), ([(0, 6), (60, 6)], "the shortest retention must have 1 to"),
            ([(1, 0)], "a retention must have 1 to 1000000 points, each of at most 1000000 of the shortest"), ([(1, 1_000_001)], "a retention must have 1 to"),
            ([(2, 1_000_000), (2_000_002, 2)], "2:1000000 has too few points for a point of 2000002 seconds"),
            ([(1, 1_000), (1_000, 1_001), (1_001_000, 2)], "a retention must have 1 to"),
            ([(1, 2), *((2**number, 1_000_000) for number in range(1, 5))], "there may be 4000000 points at most")]
        for wrong, why in cases:
            with self.assertRaisesRegex(ValueError, f"^{why}"):
                check_retentions(wrong)

    def test_shares(self) -> None:
        """The share that may be unknown is what the known one leaves, from none to all but a millionth."""
        for xff, share in ((0.0, 999_999), (0.25, 750_000), (0.5, 500_000), (0.75, 250_000), (1.0, 0), (1.5, 0), (-0.5, 999_999)):
            self.assertEqual(unknown_share(xff), share)

    def test_templates(self) -> None:
        for method, first, start in (("max", 60, 50), ("max", 50, 40), ("sum", 60, 0), ("sum", 70, 60), ("sum", 61, 0), ("avg_zero", 119, 60)):
            made = template([(60, 10), (10, 6)], 0.5, method, 7)
            self.assertEqual((made.step, made.coarsest, made.start(first)), (10, 60, start), (method, first))
        for method, words in (("sum", "DS:sum:GAUGE:10:U:U DS:zero:GAUGE:9999999999:U:U RRA:AVERAGE"), ("last", "DS:last:GAUGE:10:U:U RRA:LAST"),
                              ("min", "DS:min:GAUGE:10:U:U RRA:MIN"), ("", "DS:average:GAUGE:10:U:U RRA:AVERAGE")):
            self.assertEqual(template([(10, 6)], 0.75, method, 7).create(40), f"create --start 40 --step 10 --journal 7 {words}:0.250000:1:6")


class Names(unittest.TestCase):
    def test_lengths(self) -> None:
        """Linux has 255 bytes for a name, of which the suffix takes five, and 4,095 for a path."""
        for part, is_right in (("x" * 250, True), ("x" * 251, False), ("é" * 125, True), ("é" * 125 + "x", False)):
            self.assertEqual((is_usable(part), path_of("/d", part) is not None), (is_right, is_right))
        # 20 names of 200 bytes with their slashes, and the rest in the last one.
        for more, is_right in ((67, True), (68, False)):
            metric = ".".join(["x" * 200] * 20 + ["y" * more])
            path = path_of("/d", metric)
            self.assertEqual(path is not None, is_right, more)
            if path:
                self.assertEqual(len(path), 4_095)

    def test_tagged_names_are_hashed(self) -> None:
        """As carbon does, unless its setting says otherwise."""
        self.assertEqual(path_of("/d", "a;b=c"), path_of("/d", "a;b=c", True))
        self.assertNotEqual(path_of("/d", "a;b=c"), path_of("/d", "a;b=c", False))

    def test_metrics(self) -> None:
        for relative, metric in (("a/b.rrdi", "a.b"), ("a/b", "a.b"), ("a.rrdi/b", "a.rrdi.b"), ("rrdi", "rrdi")):
            self.assertEqual(metric_of(relative), metric)


class Slots(unittest.TestCase):
    def test_times(self) -> None:
        """From 0 to the latest time: a slot begins at its first second."""
        for when, end in ((0, 10), (0.5, 10), (9.99, 10), (10, 20), (1_000, 1_010)):
            self.assertEqual(sort_points([(when, 7)], 10, 1_000), ({end: "7.000000"}, {}))
        for when, reason in ((-0.001, "time"), (1_000.001, "future"), (float("inf"), "time"), (float("nan"), "time")):
            self.assertEqual(sort_points([(when, 7)], 10, 1_000), ({}, {reason: 1}))
        # The last point of a slot counts, and of two at one time the one that came last.
        self.assertEqual(sort_points([(12, 2), (11, 9), (12, 3), (19, float("nan"))], 10, 1_000), ({20: "3.000000"}, {"value": 1}))

    def test_samples(self) -> None:
        for before, words in ((20, "30:5"), (19, "20:U 30:5"), (21, "30:5"), (0, "20:U 30:5")):
            self.assertEqual(sample(30, "5", before, 10, False), words)
        self.assertEqual(sample(30, "5", 19, 10, True), "20:U:0 30:5:5")

    def test_lines(self) -> None:
        """The newest slots, as many as the journal is deep, have a line each; older ones share lines."""
        given = {30: "3", 20: "2", 40: "4"}
        for depth, texts in ((4, ["20:2", "30:3", "40:4"]), (3, ["20:2", "30:3", "40:4"]), (2, ["20:2", "30:3", "40:4"]), (1, ["20:2 30:3", "40:4"]),
                             (0, ["20:2 30:3 40:4"])):
            lines = lines_of(given, 10, 10, False, depth)
            self.assertEqual([line.text for line in lines], [f"update {text}" for text in texts], depth)
            self.assertEqual([line.slots for line in lines], [tuple(int(word.split(":")[0]) for word in text.split()) for text in texts])
        self.assertEqual(lines_of({}, 10, 10, False, 1), [])

    def test_bundles(self) -> None:
        """A line has as many words as fit, its own word and the spaces included."""
        with mock.patch.object(slots, "LONGEST_LINE", 20):  # as "update aaaaaa bbbbbb"
            cases: List[Tuple[List[str], List[Tuple[int, int]]]] = [(["a" * 6, "b" * 6], [(0, 2)]), (["a" * 6, "b" * 7], [(0, 1), (1, 2)]), (["a" * 13], [(0, 1)]), ([], []),
                                (["a" * 13, "b" * 6, "c" * 6, "d"], [(0, 1), (1, 3), (3, 4)]), (["a" * 6, "b" * 7, "c" * 6, "d" * 6], [(0, 1), (1, 2), (2, 4)])]
            for words, cuts in cases:
                self.assertEqual([(one.start, one.stop) for one in bundles(words)], cuts, words)


class Files(unittest.TestCase):
    def setUp(self) -> None:
        self.folder = new_folder(self)

    def open(self, data: bytes) -> OpenFile:
        path = self.folder / "m.rrdi"
        path.write_bytes(data)
        file = OpenFile(str(path))
        self.addCleanup(file.close)
        return file

    def test_methods(self) -> None:
        """A file that Graphite did not make has the function of its first archive; the longest of equal archives is read."""
        for names, function, method in ((("max",), 3, "max"), (("sum", "zero"), 3, "sum"), (("sum",), 3, "last"), (("avg_zero",), 3, "last"), (("temp",), 3, "last"), (("temp",), 2, "max")):
            self.assertEqual(method_of(self.open(graphite.file_bytes(130, names, function=function)).outline()), method)
        for kept, wanted in ((((1, 4), (1, 9), (6, 4)), [(1, 9), (1, 4), (6, 4)]), (((6, 2), (1, 9), (1, 4)), [(1, 9), (1, 4), (6, 2)])):
            outline = self.open(graphite.file_bytes(130, archives=[(steps, count, {}) for steps, count in kept])).outline()
            self.assertEqual([(one.steps, one.rows) for one in archives_of(outline, "average")], wanted)
            self.assertEqual([(one.steps, one.rows) for one in archives_of(outline, "max")], wanted)

    def test_archives_of_other_functions(self) -> None:
        """Those of the method's function are read, and if there are none, all."""
        kept = [StoredArchive(function, steps, 500_000, 9, 10 * steps, 0, ()) for function, steps in (("MAX", 6), ("AVERAGE", 1), ("MAX", 1), ("AVERAGE", 60))]
        outline = Outline(10, 0, ("g",), ((0, Millionths(0)),), tuple(kept), 0)
        for method, wanted in (("max", [2, 0]), ("average", [1, 3]), ("sum", [1, 3]), ("last", [1, 2, 0, 3])):
            self.assertEqual(archives_of(outline, method), [kept[at] for at in wanted], method)

    def test_which_archive(self) -> None:
        """The finest one that reaches back to the start."""
        data = graphite.file_bytes(NOW, archives=[(1, 6, {}), (6, 10, {})])
        for start, end, wanted in ((NOW - 59, NOW, (NOW - 50, NOW + 10, 10)), (NOW - 60, NOW, (NOW - 50, NOW + 10, 10)), (NOW - 61, NOW, (NOW - 60, NOW + 60, 60)),
                                   (NOW - 599, NOW - 540, (NOW - 540, NOW - 480, 60)), (NOW - 600, NOW - 600, (NOW - 540, NOW - 480, 60)), (NOW, NOW, (NOW + 10, NOW + 20, 10)),
                                   (NOW - 11, NOW - 10, (NOW - 10, NOW, 10)), (NOW - 20, NOW - 11, (NOW - 10, NOW, 10)), (NOW - 20, NOW - 10, (NOW - 10, NOW, 10))):
            found = read_series(self.open(data), start, end, NOW)
            self.assertEqual(found[:3] if found else None, wanted, (start - NOW, end - NOW))
        for start, end in ((NOW + 1, NOW + 2), (NOW - 5, NOW - 6), (NOW - 700, NOW - 601)):
            self.assertIsNone(read_series(self.open(data), start, end, NOW))

    def test_the_row_that_is_filled(self) -> None:
        """It is shown from its first known half on, if it is in the span. Each of its known steps is 4."""
        for passed, known in ((0, 0), (1, 0), (29, 2), (30, 3), (59, 5)):
            last, value = NOW + passed, 4.0 if known >= 3 else None
            file = self.open(graphite.file_bytes(last, archives=[(6, 10, {NOW: [5.0]})], partial=[(known, 4.0 * known)]))
            for start, end, values in ((NOW - 120, last, [5.0, value]), (NOW - 180, NOW - 121, [None]), (NOW - 120, NOW - 61, [5.0]), (NOW - 120, NOW - 60, [5.0]), (NOW - 60, last, [value])):
                found = read_series(file, start, end, last)
                assert found is not None
                self.assertEqual(found.values, values, (passed, start - NOW, end - NOW))

    def test_how_much_is_known_of_a_row(self) -> None:
        """It is shown as soon as no more steps are unknown than may be; of zeros all steps count."""
        for xff, steps, known, is_shown in ((500_000, 6, 3, True), (500_000, 6, 2, False), (500_000, 2, 1, True), (500_000, 2, 0, False), (499_999, 2, 1, False),
                                            (0, 2, 1, False), (0, 1, 0, False), (999_999, 6, 1, True), (999_999, 6, 0, False), (833_333, 6, 1, False), (833_334, 6, 1, True)):
            archive = StoredArchive("AVERAGE", steps, xff, 9, 10 * steps, 0, ((known, Millionths(8_000_000 * known)), (steps, Millionths(3_000_000 * steps))))
            for method, value in (("average", 8.0), ("sum", 8.0 * known), ("max", 8.0 * known), ("avg_zero", 3.0)):
                self.assertEqual(unfinished_value(method, archive), value if is_shown else None, (xff, steps, known, method))

    def test_values(self) -> None:
        for method, cells, value in (("average", [3_000_000], 3.0), ("max", [3_000_000, 1], 3.0), ("sum", [3_000_000, 2_000_000], 12.0), ("avg_zero", [3_000_000, 2_000_000], 2.0),
                                     ("sum", [3_000_000, None], None), ("avg_zero", [None, 2_000_000], None), ("average", [None], None)):
            row: Any = cells
            self.assertEqual(value_of(method, row, 6), value, (method, cells))
        self.assertIsNone(value_of("sum", None, 6))

    def test_reverts(self) -> None:
        """They end where the slot fits, and where a row would be lost."""
        for wanted, oldest, times in ((50, 90, [120, 110, 90]), (50, 91, [120, 110]), (50, 110, [120, 110]), (50, 111, [120]), (50, 121, []),
                                      (130, 120, [120]), (131, 0, []), (121, 0, [120]), (120, 0, [120, 110])):
            self.assertEqual(reverts_for([120, 110, 90], 130, oldest, wanted), times, (wanted, oldest))

    def planned(self, given: Dict[int, str], last: int, befores: Tuple[int, ...], archives: "Tuple[Tuple[int, int], ...]" = ((1, 6),)) -> Any:
        cells: Dict[int, List[Optional[float]]] = {time: [time / 10] for time in range(10, last + 1, 10)}
        kept = [(steps, rows, {time: row for time, row in cells.items() if steps == 1 and time > (last // 10 - rows) * 10}) for steps, rows in archives]
        entries = b"".join(graphite.update_entry(before, len(archives)) for before in befores)
        return plan(self.open(graphite.file_bytes(last, archives=kept, entries=entries, count=len(befores))), given)

    def test_plans(self) -> None:
        # What was given within a step can't be given again, nor what only coarser rows have.
        self.assertEqual(self.planned({120: "7"}, 130, (120, 110)), (2, 110, {120: "7", 130: "13.000000"}, 1, 0))
        self.assertEqual(self.planned({120: "7"}, 130, (125, 110)), (0, 130, {}, 0, 1))
        self.assertEqual(self.planned({120: "7"}, 133, (120, 110)), (0, 133, {}, 0, 1))
        self.assertEqual(self.planned({120: "7"}, 130, (120, 110), ((6, 4),)), (0, 130, {}, 0, 1))
        # The longest archive of single steps tells how far back they are there.
        for archives in (((1, 2), (1, 6)), ((1, 6), (1, 2))):
            self.assertEqual(self.planned({110: "7"}, 130, (120, 110, 100), archives), (3, 100, {110: "7", 120: "12.000000", 130: "13.000000"}, 1, 0))
        self.assertEqual(self.planned({110: "7"}, 130, (120, 110, 100), ((1, 2),)), (0, 130, {}, 0, 1))
        self.assertEqual(self.planned({110: "7"}, 130, (120, 110, 100), ((1, 3),)), (3, 100, {110: "7", 120: "12.000000", 130: "13.000000"}, 1, 0))
        # A slot at the last time is late; one after it is not.
        self.assertEqual(self.planned({130: "7", 140: "8"}, 130, (120,)), (1, 120, {130: "7", 140: "8"}, 1, 0))
        self.assertEqual(self.planned({130: "7"}, 130, ()), (0, 130, {}, 0, 1))


class Patterns(unittest.TestCase):
    def refused(self, pattern: str) -> str:
        try:
            finding.parts_of(pattern)
        except finding.TooMuch as error:
            return str(error)
        return ""

    def test_what_braces_stand_for(self) -> None:
        for text, words in (("a", {"a"}), ("{a,b}c", {"ac", "bc"}), ("x{a,b}y{c,}", {"xayc", "xby", "xay", "xbyc"}), ("{a{b,c},d}", {"ab", "ac", "d"}), ("{a", {"a{", "{a"} - {"a{"}), ("{}", {""})):
            self.assertEqual(set(finding.expanded(text, finding.Limits())), words, text)

    def test_at_each_limit(self) -> None:
        """Braces stand for so many letters, names with signs and **; a part without braces is no more than itself."""
        # Two words of two letters and a third one for each, and the three signs in the braces.
        for most, why in ((9, ""), (8, "the braces stand for too many names")):
            with mock.patch.object(finding, "MOST_LETTERS", most):
                self.assertEqual(self.refused("x{a,b}y"), why)
        for pattern, why in (("{a*,b*,c}", ""), ("{a*,b*,c?}", "the braces stand for too many patterns"), ("{a*,b}.{c*,d}", ""),
                             ("{a*,b}.{c*,d[e]}", "the braces stand for too many patterns"), ("a*.b*.c*.d*", ""), ("{a*}.{b*}.{c*}", "")):
            with mock.patch.object(finding, "MOST_PATTERNS", 2):
                self.assertEqual(self.refused(pattern), why, pattern)
        for pattern, why in (("**.a.**", ""), ("**.**.a.**.**", ""), ("**.a.**.b.**", "too many **")):
            with mock.patch.object(finding, "MOST_DEPTHS", 2):
                self.assertEqual(self.refused(pattern), why, pattern)
        self.assertEqual((finding.MOST_LETTERS, finding.MOST_PATTERNS, finding.MOST_DEPTHS), (1_000_000, 1_000, 10))

    def test_names_with_and_without_signs(self) -> None:
        """Both are found in one part; a file, a folder, and both of one name. Links are followed, but not up."""
        top = new_folder(self)
        for name in ("a.rrdi", "b.rrdi", "ab/c.rrdi", "b/c.rrdi", "b/d/e.rrdi", "bc.txt"):
            path = Path(top, name)
            path.parent.mkdir(exist_ok=True, parents=True)
            path.touch()
        os.symlink("..", top / "b/up")
        os.symlink("b", top / "link")
        cases: List[Tuple[str, List[str], List[str]]] = [
                ("{a,b*}", ["a", "b"], ["b"]), ("{b,a*}", ["a", "b"], ["ab", "b"]), ("b.*", ["b/c"], ["b/d", "b/up"]), ("*.c", ["ab/c", "b/c", "link/c"], []),
                ("b.**.e", ["b/d/e"], []), ("**.e", ["b/d/e", "link/d/e"], []), ("b.up.a", [], []), ("link.d.e", ["link/d/e"], []), ("bc", [], [])]
        for pattern, files, folders in cases:
            for many in (0, 1, 100):  # names from which on the folder is asked for all that it has
                with mock.patch.object(finding, "MANY_NAMES", many):
                    found = list(finding.find(str(top), pattern))
                self.assertEqual(([one.relative for one in found if one.is_file], [one.relative for one in found if not one.is_file]),
                                 ([f"{name}.rrdi" for name in files], folders), pattern)

    def test_each_once(self) -> None:
        """Whatever ways lead there; and no link leads to a folder above itself."""
        top = new_folder(self)
        for name in ("d/d/d/e.rrdi", "d/e.rrdi", "f/e.rrdi"):
            Path(top, name).parent.mkdir(exist_ok=True, parents=True)
            Path(top, name).touch()
        os.symlink("..", top / "d/d/up")
        os.symlink("d", top / "d/d/down")
        os.symlink("../../..", top / "d/d/d/top")
        cases: List[Tuple[str, List[str]]] = [("**.d.**.e", ["d/d/d/e", "d/d/down/e", "d/e"]), ("**.e", ["d/d/d/e", "d/d/down/e", "d/e", "f/e"]), ("d.d.up.e", []),
                                ("d.**.d.e", ["d/d/d/e"]), ("*.e", ["d/e", "f/e"]), ("{f,d}.e", ["d/e", "f/e"])]
        for pattern, wanted in cases:
            found = [one.relative for one in finding.find(str(top), pattern)]
            self.assertEqual((sorted(found), len(set(found))), ([f"{name}.rrdi" for name in wanted], len(found)), pattern)
        self.assertTrue(finding.Walk(str(top), []).leads_up("none"))  # it is gone by now
        for most, pattern, is_right in ((1, "d.d.{down,up}.e", False), (2, "d.d.{down,up}.e", True), (0, "d.d.d.e", True), (0, "d.d.up.e", False)):
            with mock.patch.object(finding, "MOST_LINKS", most):
                try:
                    self.assertEqual((len(list(finding.find(str(top), pattern))), is_right), (1, True), (most, pattern))
                except finding.TooMuch as error:
                    self.assertEqual((str(error), is_right), ("too many links", False))


if __name__ == "__main__":
    unittest.main()
