# SPDX-License-Identifier: MIT OR Apache-2.0
"""Tests of rrdi-plot and rrdi-record. A script replaces gnuplot."""
from __future__ import annotations

import contextlib
import errno
import fcntl
import io
import math
import os
import resource
import shutil
import subprocess
import sys
import time
import unittest
from pathlib import Path
from typing import Any, Callable, Dict, List, Optional, Tuple
from unittest import mock

from cases import HANG, child_status, needs_program, new_folder, sleeping_child
from doubles import PROGRAM, TOP
from tool_case import Ran, ToolCase

from rrdi.tools import machine, program, record
from rrdi.tools.command_line import Failure, error_text
from rrdi.tools.plotting import labels, numbers


def in_zone(zone: str, begin: int, end: int) -> List[labels.Label]:
    """The labels of a span in a time zone."""
    with mock.patch.dict(os.environ, {"TZ": zone}):
        time.tzset()
        found = labels.labels(begin, end, 900)
    time.tzset()
    return found


class Labels(unittest.TestCase):
    START = 1_700_000_400  # 14 November 2023, 22:20 UTC

    def test_seconds(self) -> None:
        self.assertEqual(in_zone("UTC", self.START, self.START + 40)[:3], [
            ("22:20:00\\n14 Nov", self.START), ("22:20:10", self.START + 10), ("22:20:20", self.START + 20)])

    def test_minutes_in_zones_of_quarters(self) -> None:
        self.assertEqual(in_zone("XXX-5:30", self.START, self.START + 600)[0], ("03:50\\n15 Nov", self.START))
        found = in_zone("XXX-5:45", self.START - 2_000, self.START + 2_700)
        self.assertEqual(found, [("03:40\\n15 Nov", self.START - 1_500), ("04:00", self.START - 300),
                                 ("04:20", self.START + 900), ("04:40", self.START + 2_100)])

    def test_a_new_day_is_named(self) -> None:
        found = [text for text, _ in in_zone("UTC", self.START, self.START + 12 * 3_600)]
        self.assertEqual(found, ["00:00\\n15 Nov", "02:00", "04:00", "06:00", "08:00", "10:00"])

    def test_days_over_a_change_of_clocks(self) -> None:
        # On 26 March 2023 clocks in Berlin went forward.
        start = 1_679_612_400
        found = in_zone("Europe/Berlin", start, start + 5 * 86_400)
        self.assertEqual([text for text, _ in found], [f"{day} Mar\\n2023" for day in range(24, 30)])
        self.assertEqual([later[1] - sooner[1] for sooner, later in zip(found, found[1:])],
                         [86_400, 86_400, 82_800, 86_400, 86_400])

    def test_weeks_and_months(self) -> None:
        found = in_zone("UTC", self.START, self.START + 40 * 86_400)
        self.assertTrue(3 <= len(found) <= 7, found)
        self.assertEqual({later[1] - sooner[1] for sooner, later in zip(found, found[1:])}, {7 * 86_400})
        found = in_zone("UTC", self.START, self.START + 400 * 86_400)
        self.assertEqual([text for text, _ in found][:2], ["Jan\\n2024", "Mar\\n2024"])
        found = in_zone("UTC", 0, 60 * 366 * 86_400)
        self.assertTrue(3 <= len(found) <= 8, found)
        self.assertTrue(all(text.startswith("Jan") for text, _ in found), found)

    def test_round_distances(self) -> None:
        """Spans up to half a year have three to eight labels, at distances that divide a day, or are days."""
        seconds, new_year = 10, 1_704_067_200
        while seconds < 180 * 86_400:
            times = [at for _, at in in_zone("UTC", new_year, new_year + seconds)]
            distance = times[1] - times[0]
            with self.subTest(seconds=seconds):
                self.assertTrue(86_400 % distance == 0 or distance % 86_400 == 0, distance)
                if distance <= 14 * 86_400:  # months are not equally long
                    self.assertEqual(times, [new_year + at * distance for at in range(seconds // distance + 1)])
                self.assertTrue(3 <= len(times) <= 8, times)
            seconds += max(seconds // 7, 1)

    def test_both_ends(self) -> None:
        """A round time at an end of the plot has a label: of an hour, of a week, and of a year."""
        new_year, texts = 1_704_067_200, [f"{month}\\n2024" for month in ("Jan", "Mar", "May", "Jul", "Sep", "Nov")]
        self.assertEqual([text for text, _ in in_zone("UTC", new_year, new_year + 366 * 86_400)], [*texts, "Jan\\n2025"])
        for seconds in (3_600, 7 * 86_400):
            found = [at for _, at in in_zone("UTC", new_year, new_year + seconds)]
            self.assertEqual((found[0], found[-1]), (new_year, new_year + seconds))


class Numbers(unittest.TestCase):
    """Numbers with SI prefixes, and axes. What is expected was written by hand."""

    def test_prefixes(self) -> None:
        for value, text in ((0, "0"), (2.98, "2.98"), (124.4, "124"), (999.4, "999"), (999.6, "1.00 k"), (12_345, "12.3 k"),
                            (-1_500, "-1.50 k"), (3.04e6, "3.04 M"), (7e9, "7.00 G"), (1.5e18, "1.50 E"), (999.6e15, "1.00 E"), (1.5e21, "1500 E"), (0.25, "0.250"),
                            (0.0123, "0.0123"), (0.0042, "4.20 m"), (0.000007, "7.00 \u00b5"), (math.nan, "-")):
            with self.subTest(value=value):
                self.assertEqual(numbers.number_text(value), text)
        self.assertEqual((numbers.number_text(1_500, "B/s"), numbers.number_text(20, "%"), numbers.number_text(math.nan, "B")),
                         ("1.50 kB/s", "20.0 %", "-"))
        self.assertEqual((numbers.number_text(1_234, "%"), numbers.number_text(0.005, "%")), ("1234 %", "0.00500 %"))

    def test_axes(self) -> None:
        """All marks of an axis have one prefix, and the axis has both ends."""
        for low, high, values, texts in (
                (0, 29.06, [0, 5, 10, 15, 20, 25, 30], "0 5 10 15 20 25 30"), (0, 1_500, [0, 250, 500, 750, 1_000, 1_250, 1_500],
                                                                               "0 0.25_k 0.50_k 0.75_k 1.00_k 1.25_k 1.50_k"),
                (-3, 4, [-4, -2, 0, 2, 4], "-4 -2 0 2 4"), (7, 7, [7, 7.2, 7.4, 7.6, 7.8], "7.0 7.2 7.4 7.6 7.8"),
                (0, 5e6, [0, 1e6, 2e6, 3e6, 4e6, 5e6], "0 1_M 2_M 3_M 4_M 5_M"), (0, 0, [0, .2, .4, .6, .8, 1],
                                                                                 "0 0.2 0.4 0.6 0.8 1.0")):
            with self.subTest(low=low, high=high):
                found = numbers.axis(low, high)
                self.assertEqual([round(value, 9) for value in found.values], values)
                self.assertEqual(" ".join(text.replace(" ", "_") for text in found.texts), texts)
        self.assertEqual(numbers.axis(0, 900, "%").texts, ["0", "200 %", "400 %", "600 %", "800 %", "1000 %"])

    def test_axes_that_end_at_marks(self) -> None:
        """Three steps of 0.1 are not quite 0.3 for a computer; the marks at both ends stay."""
        found = numbers.axis(-0.3, 0.3).ending_at(-0.3, 0.3)
        self.assertEqual((found.texts, found.low, found.high), (["-0.3", "-0.2", "-0.1", "0", "0.1", "0.2", "0.3"], -0.3, 0.3))


PLOT_USAGE = "FILE PICTURE.png|PICTURE.svg [FUNCTION] [options]\n       rrdi-plot --html DIR OUT [FUNCTION] [options]"


@needs_program
class Plot(ToolCase):
    START = 1_700_000_400

    def setUp(self) -> None:
        super().setUp()
        self.stub("gnuplot", f'cp "$(dirname "$1")/points" "$1" {self.folder} || exit 3\n'
                             'case ${FAIL-} in 1) echo "no font" >&2; exit 1 ;; 2) exit 0 ;; esac\n'
                             'if grep -q pngcairo "$1"; then printf "picture IEND\\256B\\140\\202"; else echo "</svg>"; fi '
                             '>"$(dirname "$1")/picture"')
        self.create("f.rrdi", "DS:g:GAUGE:10:U:U", "DS:h:GAUGE:10:U:U", "RRA:AVERAGE:0.5:1:90", start=self.START)
        self.rrdi("update", "f.rrdi", *[f"{self.START + 10 * at}:{'U' if at == 2 else at}:{-at}" for at in range(1, 61)])

    def draw(self, begin: int, end: int, picture: str = "p.png", env: Optional[Dict[str, str]] = None,
             size: Optional[int] = None) -> Ran:
        return self.tool("rrdi-plot", "f.rrdi", picture, "AVERAGE", "--start", str(self.START + begin), "--end",
                         str(self.START + end), env=env, size=size)

    def test_usage(self) -> None:
        self.check_usage("rrdi-plot", PLOT_USAGE,
                         [[], ["a", "b.gif", "AVERAGE"]])
        self.assertEqual(self.tool("rrdi-plot", "f.rrdi", "b.png", "-s", "never"), Ran(2, "", "rrdi-plot: cannot parse time: never\n"))

    def test_a_picture(self) -> None:
        self.assertEqual(self.draw(0, 39, env={"RRDI_PLOT_SETUP": "set title 'x'"}), Ran(0, "", ""))
        self.assertEqual(self.read("p.png"), b"picture IEND\xaeB`\x82")
        points = [line.split() for line in self.read("points").decode().splitlines() if line and not line.startswith("#")]
        wanted = [(10 * at + end, value) for value, ats in ((1, (0,)), (3, (2,)), (4, (3,)), (-1, (0,)), (-2, (1,)), (-3, (2,)),
                                                            (-4, (3,))) for at in ats for end in (0, 10)]
        self.assertEqual([(int(point[0]) - self.START, float(point[2])) for point in points], wanted)
        commands = self.read("commands").decode()
        for line in ("set terminal pngcairo size 900,", "set title 'x'\n", f"set xrange ['{self.START}':'{self.START + 40}']\n",
                     "index 0 using 1:3 with lines", "index 1 using 1:3 with lines", "set yrange [-4.0:4.0]\n",
                     f'set xtics ("22:20:00\\n14 Nov" {self.START}, "22:20:10" {self.START + 10}, '):
            self.assertIn(line, commands)
        self.assertNotIn("'f'", commands)  # the title of its own
        self.assertEqual(self.draw(0, 39, "p.svg", env={"RRDI_PLOT_SETUP": "set old 1"}), Ran(0, "", ""))
        commands = self.read("commands").decode()
        self.assertIn("set terminal svg size 900,", commands)
        self.assertIn("set old 1\n", commands)

    def commands(self, *words: str) -> str:
        ran = self.tool("rrdi-plot", "f.rrdi", "p.png", *words)
        self.assertEqual(ran, Ran(0, "", ""))
        return self.read("commands").decode()

    def test_the_whole_picture(self) -> None:
        """The title and the legend, the last day before the last update, the colors, and an axis that begins at 0."""
        commands = self.commands()
        for line in ("set label 'f' at screen", "'AVERAGE of 10 s, 2023-11-14 22:20 to 2023-11-14 22:30 UTC'",
                     "set label 'g' at", "set label '60.0' at", "set label '-60.0' at", "set label '-30.5' at"):
            self.assertIn(line, commands)
        commands = self.commands("AVERAGE", "--source", "g", "-s", "2023-11-14 22:20:00", "-e", "start+1min")
        self.assertIn("set yrange [0.0:6.0]\n", commands)
        self.assertIn(f"set xrange ['{self.START}':'{self.START + 60}']\n", commands)
        self.assertNotIn("index 1", commands)
        self.assertIn("set yrange [1.0:6.0]\n", self.commands("--source=g", "--start", str(self.START), "--end", str(self.START + 59),
                                                          "--fit"))

    def test_a_young_file(self) -> None:
        """Without a start, the rows are as fine as the known ones allow."""
        self.create("f.rrdi", "DS:g:GAUGE:10:U:U", "RRA:AVERAGE:0.5:1:90", "RRA:AVERAGE:0.5:9:1000", start=self.START)
        self.rrdi("update", "f.rrdi", *[f"{self.START + 10 * at}:{at % 3}" for at in range(1, 61)])
        self.assertIn("AVERAGE of 10 s, 2023-11-14 22:20 to", self.commands())
        self.assertIn("AVERAGE of 90 s, 2023-11-13 22:30 to", self.commands("-s", "end-1d"))

    def test_styles(self) -> None:
        self.assertNotIn("filledcurves", self.commands())
        self.assertEqual(self.commands("--area").count("using 1:2:3 with filledcurves"), 2)
        self.assertIn("#181b1f", self.commands("--dark"))
        self.assertNotIn("object rectangle", self.commands("--no-legend"))
        self.assertIn("set terminal pngcairo size 700,300 ", self.commands("--size", "700x300"))
        narrow = self.commands("--size", "300")
        for line in ("set label 'AVERAGE of 10 s' at", "set label '2023-11-14 22:20 to 2023-11-14 22:30 UTC' at"):
            self.assertIn(line, narrow)
        self.assertNotIn("object rectangle", self.commands("--size", "300x200"))
        self.assertIn("set label 'A title that goes on and on\u2026' at", self.commands(
            "--size", "300", "--title", "A title that goes on and on and on"))
        commands = self.commands("--title", "it's 5 %", "--unit", "%")
        self.assertIn("set label 'it''s 5 %' at", commands)
        self.assertIn("'-40 %%' -40.0", commands)

    def test_limits_of_the_axis(self) -> None:
        """An axis may be longer than the values, or cut them; marks say where they are cut, and a line how far they go."""
        self.assertIn("set yrange [-100.0:200.0]\n", self.commands("--min", "-100", "--max", "200"))
        self.assertIn("set yrange [-60.0:60.0]\n", self.commands("--min", "-10", "--max", "10"))
        commands = self.commands("--min=-5", "--max", "33", "--rigid", "--width", "700", "--height", "400")
        for line in ("set yrange [-5.0:33.0]\n", "set label 'cut values go down to -60.0 and up to 60.0' at", "size 700,400 ",
                     "graph 1 point pointtype 9 ", "graph 0 point pointtype 11 "):
            self.assertIn(line, commands)
        values = [float(line.split()[2]) for line in self.read("points").decode().splitlines() if line and not line.startswith("#")]
        self.assertEqual((min(values), max(values)), (-5, 33))
        self.rrdi("update", "f.rrdi", f"{self.START + 610}:9000:0")
        self.assertIn("set yrange [-2000:10000]\n", self.commands().replace(".0", ""))
        commands = self.commands("--cut-spikes")
        self.assertIn("cut values go up to 9.00 k", commands)
        self.assertIn("set yrange [-60:60]\n", commands.replace(".0", ""))

    def test_a_band(self) -> None:
        """Rows of AVERAGE over several steps have a band if there are MIN and MAX of the same length."""
        self.create("f.rrdi", "DS:g:GAUGE:10:U:U", "RRA:AVERAGE:0.5:3:90", "RRA:MIN:0.5:3:90", "RRA:MAX:0.5:3:90", start=self.START)
        self.rrdi("update", "f.rrdi", *[f"{self.START + 10 * at}:{at % 3}" for at in range(1, 61)])
        self.assertIn("using 1:4:5 with filledcurves", self.commands("AVERAGE"))
        point = [line for line in self.read("points").decode().splitlines() if line.startswith(str(self.START))][0]
        self.assertEqual([float(part) for part in point.split()[1:]], [0, 1, 0, 2])
        for words in (["AVERAGE", "--no-band"], ["MAX"], ["AVERAGE", "--stack"]):
            self.assertNotIn("using 1:4:5", self.commands(*words))
        self.create("f.rrdi", "DS:g:GAUGE:10:U:U", "RRA:AVERAGE:0.5:3:90", "RRA:MAX:0.5:3:90", start=self.START)
        self.rrdi("update", "f.rrdi", *[f"{self.START + 10 * at}:{at % 3}" for at in range(1, 61)])
        self.assertIn("using 1:4:5 with filledcurves", self.commands("AVERAGE"))
        point = [line for line in self.read("points").decode().splitlines() if line.startswith(str(self.START))][0]
        self.assertEqual([float(part) for part in point.split()[1:]], [0, 1, 1, 2])
        self.create("f.rrdi", "DS:g:GAUGE:10:U:U", "RRA:AVERAGE:0.5:3:90", "RRA:MIN:0.5:6:90", "RRA:MAX:0.5:6:90", start=self.START)
        self.rrdi("update", "f.rrdi", *[f"{self.START + 10 * at}:{at % 3}" for at in range(1, 61)])
        self.assertNotIn("using 1:4:5", self.commands("AVERAGE"))
        # The least and greatest value of a single step is its average.
        self.create("f.rrdi", "DS:g:GAUGE:10:U:U", "RRA:AVERAGE:0.5:1:90", "RRA:MIN:0.5:1:90", "RRA:MAX:0.5:1:90", start=self.START)
        self.rrdi("update", "f.rrdi", *[f"{self.START + 10 * at}:{at % 3}" for at in range(1, 61)])
        self.assertNotIn("using 1:4:5", self.commands("AVERAGE"))

    def test_more_rows_than_points(self) -> None:
        """Rows of ten seconds that are narrower than half a point become rows of a minute, with a band; not with --resolution."""
        self.create("f.rrdi", "DS:g:GAUGE:10:U:U", "RRA:AVERAGE:0.5:1:1000", start=self.START)
        self.rrdi("update", "f.rrdi", *[f"{self.START + 10 * at}:{at % 6}" for at in range(1, 601)])
        commands = self.commands("--size", "200")
        self.assertIn("'AVERAGE of 1 min' at", commands)
        self.assertIn("using 1:4:5 with filledcurves", commands)
        points = [line.split()[1:] for line in self.read("points").decode().splitlines() if line[:1].isdigit()]
        self.assertEqual(([float(part) for part in points[2]], len(points)), ([0, 2.5, 0, 5], 200))
        self.assertNotIn("using 1:4:5", self.commands("--size", "200", "--no-band"))
        self.assertIn("'AVERAGE of 10 s' at", self.commands("--size", "200", "-r", "10"))
        self.assertIn("AVERAGE of 10 s,", self.commands())

    def test_nothing_to_draw(self) -> None:
        self.rrdi("update", "f.rrdi", f"{self.START + 700}:U:U")
        for begin, end in ((610, 639), (0, 9)):
            self.assertEqual(self.draw(begin, end),
                             Ran(1, "", "rrdi-plot: nothing to draw: no known value, or fewer than two rows\n"))
        self.assertFalse((self.folder / "p.png").exists())

    def test_failing_programs(self) -> None:
        self.assertEqual(self.draw(0, 39, env={"FAIL": "1"}),
                         Ran(1, "", "no font\nrrdi-plot: gnuplot did not draw f.rrdi\n"))
        self.assertEqual(self.draw(0, 39, env={"FAIL": "2"}), Ran(1, "", "rrdi-plot: gnuplot did not draw f.rrdi\n"))
        self.assertEqual(self.tool("rrdi-plot", "none", "p.png", "MAX"), Ran(1, "", "rrdi-plot: none: cannot open: No such file or directory\n"))
        self.assertIn("is not before the end", self.draw(5, 1).err)
        self.assertEqual(self.draw(0, 39, "/nowhere/p.png").err, "rrdi-plot: /nowhere/p.png: No such file or directory\n")
        self.assertEqual(self.draw(0, 39, env={"RRDI": "/nowhere"}).err,
                         "rrdi-plot: cannot run /nowhere: No such file or directory\n")
        (self.bin / "gnuplot").unlink()
        if not shutil.which("gnuplot", path=os.environ["PATH"]):
            self.assertIn("gnuplot is not installed", self.draw(0, 39).err)
        self.assertEqual(self.draw(0, 39, env=self.only_path()),
                         Ran(1, "", "rrdi-plot: gnuplot is not installed (Debian: apt install gnuplot-nox)\n"))
        self.assertFalse((self.folder / "p.png").exists())

    def test_a_full_disk(self) -> None:
        ran = self.draw(0, 39, size=10)
        self.assertEqual((ran.status, ran.out, ran.err.count("\n")), (1, "", 1))
        self.assertIn("File too large", ran.err)
        self.assertFalse((self.folder / "p.png").exists())
        (self.folder / "full.png").symlink_to("/dev/full")
        self.assertEqual(self.draw(0, 39, "full.png"), Ran(1, "", "rrdi-plot: full.png: No space left on device\n"))


class Disks(unittest.TestCase):
    def test_reserved_blocks(self) -> None:
        """Blocks that only root may use are neither used nor free."""
        system = mock.Mock(f_frsize=4_096, f_blocks=1_000, f_bfree=400, f_bavail=350)
        with mock.patch("os.statvfs", return_value=system):
            self.assertEqual([(number.name, number.value) for number in machine.disk("/")],
                             [("disk_used", str(600 * 4_096)), ("disk_free", str(350 * 4_096))])


class Copies(ToolCase):
    """Which file a damaged one is restored from, and when the next copy is made. The answers of rrdi are given."""

    def setUp(self) -> None:
        super().setUp()
        self.file, self.answers = self.write("f", b"RRDI\0\2"), {}  # type: str, Dict[str, int | str]
        patch = mock.patch.object(program, "last", self.last)
        patch.start()
        self.addCleanup(patch.stop)

    def last(self, path: str) -> int:
        answer = self.answers.get(path.replace(self.file, ""), "cannot open")
        if isinstance(answer, str):
            raise program.CommandFailed(answer)
        return answer

    def refusal(self, act: Callable[[str], object]) -> str:
        with self.assertRaises(Failure) as failed:
            act(self.file)
        return str(failed.exception).replace(self.file, "f")

    def test_conditions(self) -> None:
        """A damaged database begins as one does, as far as there is something left of it; anything else stays as it is."""
        for answer, found in ((0, (0, "")), (5, (5, "")), ("file: truncated at 6", (0, "truncated at 6")), ("file: bad block at 7", (0, "bad block at 7")), ("file: bad entry 1", (0, "bad entry 1")), ("file: trailing at 9", (0, "trailing at 9"))):
            self.answers[""] = answer  # type: ignore[assignment]
            self.assertEqual(record.look(self.file), found)
        for reason in ("file: not ours", "file: version", "file: read failed", "out of memory", "cannot write"):
            self.answers[""] = reason
            self.assertEqual(self.refusal(record.look), f"f: {reason}")
        self.answers[""] = "file: truncated at 0"
        for data, age, refusal in ((b"", 0, "f: file: truncated at 0; another program may be making the file"), (b"", 3_600, ""), (b"RRD", 3_600, "f: file: truncated at 0; another program may be making the file"), (b"x", 3_600, "f: file: truncated at 0"),
                                   (b"RRDX", 3_600, "f: file: truncated at 0")):
            self.write("f", data)
            os.utime(self.file, (time.time() - age,) * 2)
            if refusal:
                self.assertEqual(self.refusal(record.look), refusal, data)
            else:
                self.assertEqual(record.look(self.file), (0, "truncated at 0"))

    def test_the_newest_readable_copy(self) -> None:
        """One that cannot be read now ends the search only if no other one can. A time of 0 is one."""
        cases: List[Tuple[List["int | str"], str]] = [
            ([5, 7, 9], ".1"), ([0, 7, 9], ".1"), (["file: truncated at 5", 0, 9], ".2"), (["file: not ours", "file: version", 1], ".3"), (["file: bad block at 5", "file: bad entry 1", "file: trailing at 5"], ""), (["file: read failed", 3, 9], ".2"),
            (["file: read failed", "file: version", 9], ".3"), (["file: truncated at 5", "file: read failed", "file: version"], "f.2: file: read failed"), (["out of memory", "file: read failed", "file: version"], "f.2: file: read failed"),
            (["file: version", "file: version", "cannot open"], "f.3: cannot open: it may not"), ([], "")]
        for answers, found in cases:
            for number in (1, 2, 3):
                (self.folder / f"f.{number}").unlink(missing_ok=True)
            for number, answer in enumerate(answers, 1):
                self.write(f"f.{number}", b"")
                self.answers[f".{number}"] = answer
            with mock.patch.object(program, "why_not_opened", return_value="it may not"):
                if found.startswith("f"):
                    self.assertEqual(self.refusal(record.newest_copy), found)
                else:
                    self.assertEqual(record.newest_copy(self.file), f"{self.file}{found}" if found else "", answers)

    def test_when_a_copy_is_made(self) -> None:
        """An hour after the newest one, or at once without one, or if that is of a time to come; the older ones move on, and the third goes."""
        for first, last, is_made in ((10_000, 13_599, False), (10_000, 13_600, True), (0, 3_599, False), (0, 3_600, True), ("file: truncated at 5", 3_599, False), ("file: truncated at 5", 3_600, True), (20_000, 13_600, True)):
            for there in ((1, 2, 3), (1, 2), (1,), (1, 3)):
                for number in (1, 2, 3):
                    (self.folder / f"f.{number}").unlink(missing_ok=True)
                for number in there:
                    self.write(f"f.{number}", f"{number}")
                self.answers[".1"] = first  # type: ignore[assignment]
                record.keep_copies(self.file, last)
                found = {number: (self.folder / f"f.{number}").read_bytes() for number in (1, 2, 3) if (self.folder / f"f.{number}").exists()}
                moved = {1: b"RRDI\0\2", 2: b"1", **({3: b"2"} if 2 in there else {3: b"3"} if 3 in there else {})}
                self.assertEqual(found, moved if is_made else {number: b"%d" % number for number in there}, (first, last, there))
        self.answers[".1"] = "file: read failed"
        self.assertRaises(program.CommandFailed, record.keep_copies, self.file, 10**9)

    def test_a_kill_while_copies_move(self) -> None:
        """The next run moves no copy that need not move, so the set of copies is the same as without the kill."""
        for left in ((2, 3), (1, 3)):
            for number in (1, 2, 3):
                (self.folder / f"f.{number}").unlink(missing_ok=True)
            for number in left:
                self.write(f"f.{number}", f"{number}")
            self.answers[".1"] = 5 if 1 in left else "cannot open"
            record.keep_copies(self.file, 10**9)
            self.assertEqual([self.read(f"f.{number}") for number in (1, 2, 3)],
                             [b"RRDI\0\2", b"1" if 1 in left else b"2", b"3"], left)

    def test_nobody_else_reads_a_copy(self) -> None:
        """Not even before it has the mode of the file."""
        self.addCleanup(os.umask, os.umask(0o022))
        for mode in (0o600, 0o640, 0o644):
            os.chmod(self.file, mode)
            seen = []
            with mock.patch.object(shutil, "copyfileobj", side_effect=lambda source, copied: seen.append(os.fstat(copied.fileno()).st_mode & 0o777)):
                record.copy(self.file, f"{self.file}.refused")
            self.assertEqual((seen, os.stat(f"{self.file}.refused").st_mode & 0o777), ([0o600], mode))
            record.copy(self.file, f"{self.file}.refused")
            self.assertEqual(os.stat(f"{self.file}.refused").st_mode & 0o777, mode)

    def test_what_replaces_a_damaged_file(self) -> None:
        """It has the owner and the mode of the damaged one, which goes to no file to which a link leads."""
        self.addCleanup(os.umask, os.umask(0o022))
        elsewhere = self.write("elsewhere", b"of others")
        self.answers[""] = "file: truncated at 6"
        owner = (12, 34) if os.getuid() == 0 else (os.getuid(), os.getgid())
        for copies in ((".1",), ()):
            for number in copies:
                self.answers[number], _ = 5, self.write(f"f{number}", b"copy")
            self.write("f", b"RRDI\0\2")
            os.chown(self.file, *owner)
            os.chmod(self.file, 0o600)
            with contextlib.suppress(FileNotFoundError):
                os.unlink(f"{self.file}.refused")
            os.symlink(elsewhere, f"{self.file}.refused")
            with contextlib.redirect_stderr(io.StringIO()):
                record.restore(self.file, "truncated at 6", lambda new: Path(new).write_bytes(b"empty"))
            found = os.stat(self.file)
            self.assertEqual((found.st_mode & 0o777, found.st_uid, found.st_gid), (0o600, *owner))
            self.assertEqual((self.read("f"), self.read("f.refused"), self.read("elsewhere")),
                             (b"copy" if copies else b"empty", b"RRDI\0\2", b"of others"))
            self.answers[".1"] = "file: not ours"
        with mock.patch("os.fchown", side_effect=PermissionError(errno.EPERM, "no")), contextlib.redirect_stderr(io.StringIO()):
            self.write("f", b"RRDI\0\2")
            os.chown(self.file, -1, 13 if os.getuid() == 0 else -1)
            record.restore(self.file, "truncated at 6", lambda new: Path(new).write_bytes(b"again"))
        self.assertEqual(self.read("f"), b"again")


@needs_program
class Record(ToolCase):
    def setUp(self) -> None:
        super().setUp()
        self.env["LOADAVG"] = self.write("loadavg", "1.25 2.50 3.75 1/100 5\n")
        self.now = int(time.time())

    def record(self, file: str, **others: str) -> Ran:
        return self.tool("rrdi-record", file, env=others)

    def make(self, file: str, start: int) -> None:
        self.create(file, *[f"DS:load{minutes}:GAUGE:150:0:U" for minutes in (1, 5, 15)], "RRA:AVERAGE:0.5:1:1440",
                    start=start, step=60)

    def test_usage(self) -> None:
        self.check_usage("rrdi-record", "[--load] [--memory] [--disk DIRECTORY] [--network INTERFACE] [--journal N] FILE",
                         [[], ["a", "b"]])

    def test_the_loads_in_their_order(self) -> None:
        self.make("a.rrdi", self.now - 120)
        self.assertEqual(self.record("a.rrdi"), Ran(0, "", ""))
        head, values = self.rrdi("lastupdate", "a.rrdi").splitlines()
        self.assertEqual((head, values.partition(" ")[2]), ("time: load1 load5 load15", "1.250000 2.500000 3.750000"))
        self.assertEqual(self.rrdi("last", "a.rrdi.1"), f"{self.now - 120}\n")

    def test_a_new_file(self) -> None:
        self.assertEqual(self.record("new.rrdi"), Ran(0, "", ""))
        info = self.rrdi("info", "new.rrdi")
        for line in ("step = 60", "journal = 60", "rra[1].steps = 10", "rra[3].cf = MAX", "rra[2].rows = 3000"):
            self.assertIn(line, info)

    def test_a_journal(self) -> None:
        self.assertEqual(self.tool("rrdi-record", "--journal", "1440", "new.rrdi"), Ran(0, "", ""))
        self.assertIn("\njournal = 1440\n", self.rrdi("info", "new.rrdi"))
        for depth, why in (("0", "1 to 100000, not 0"), ("100001", "1 to 100000, not 100001"), ("x", "a whole number, not 'x'")):
            ran = self.tool("rrdi-record", "--journal", depth, "other.rrdi")
            self.assertEqual(ran, Ran(2, "", f"rrdi-record: --journal must be {why}\n"))

    def test_other_numbers(self) -> None:
        """The machine's memory, a file system and an interface, in one file; what is expected was added up by hand."""
        self.write("meminfo", "MemTotal:     1000 kB\nMemFree:       100 kB\nMemAvailable:  500 kB\nBuffers:        20 kB\n"
                              "Cached:        300 kB\nSReclaimable:   80 kB\nSwapTotal:     200 kB\nSwapFree:      150 kB\n")
        (self.folder / "net").mkdir()
        self.write("net/dev", "Inter-|   Receive |  Transmit\n face |bytes packets|bytes\n"
                              "    lo: 7 1 0 0 0 0 0 0 7 1 0 0 0 0 0 0\n  eth0:5000 1 0 0 0 0 0 0 600\n")
        words = ("--network", "eth0", "--memory", "--disk", ".", "m.rrdi")
        self.env["RRDI_PROC"] = str(self.folder)
        self.assertEqual(self.tool("rrdi-record", *words), Ran(0, "", ""))
        head, values = self.rrdi("lastupdate", "m.rrdi").splitlines()
        self.assertEqual(head, "time: mem_used mem_cached mem_free swap_used disk_used disk_free net_in net_out")
        numbers = values.split()[1:]
        self.assertEqual(numbers[:4], ["512000.000000", "409600.000000", "102400.000000", "51200.000000"])
        self.assertEqual(numbers[6:], ["5000", "600"])
        found = os.statvfs(self.folder)
        self.assertAlmostEqual((float(numbers[4]) + float(numbers[5])) / found.f_frsize,
                               found.f_blocks - found.f_bfree + found.f_bavail, delta=100_000)
        self.assertIn("ds[6].type = DERIVE\nds[6].minimal_heartbeat = 150\nds[6].min = 0", self.rrdi("info", "m.rrdi"))

    def test_fewer_numbers(self) -> None:
        """What a run does not record is unknown, and what the file has not is refused."""
        self.make("a.rrdi", self.now - 120)
        self.write("meminfo", "MemTotal: 9 kB\n")
        ran = self.tool("rrdi-record", "--load", "--memory", "a.rrdi", env={"RRDI_PROC": str(self.folder)})
        self.assertEqual(ran, Ran(1, "", f"rrdi-record: {self.folder}/meminfo has no Buffers\n"))
        ran = self.tool("rrdi-record", "--disk", ".", "a.rrdi")
        self.assertEqual(ran, Ran(1, "", "rrdi-record: a.rrdi lacks one of disk_used, disk_free; record it in another file\n"))
        (self.folder / "net").mkdir()
        self.write("net/dev", " face |bytes\n    lo: 7 1 0 0 0 0 0 0 7 1\n")
        ran = self.tool("rrdi-record", "--network", "eth9", "n.rrdi", env={"RRDI_PROC": str(self.folder)})
        self.assertEqual(ran, Ran(1, "", f"rrdi-record: {self.folder}/net/dev has no interface eth9, only lo\n"))
        self.assertFalse((self.folder / "n.rrdi").exists())

    def test_it_flushes_to_the_disk(self) -> None:
        """Each command has the setting, also `create`."""
        self.make("a.rrdi", self.now - 120)
        shown = self.stub("shown", f'echo "${{RRDI_SYNC-}} $1 $2" >>{self.folder}/seen\nexec {PROGRAM} "$@"')
        self.assertEqual(self.record("a.rrdi", RRDI=shown), Ran(0, "", ""))
        self.assertEqual(self.read("seen"), b"1 last a.rrdi\n1 last a.rrdi.1\n1 update a.rrdi\n")
        self.assertEqual(self.record("new.rrdi", RRDI=shown), Ran(0, "", ""))
        self.assertRegex(self.read("seen"), rb"1 create /proc/self/fd/[0-9]+\n")
        self.assertEqual({line[:2] for line in self.read("seen").splitlines()}, {b"1 "})

    def test_copies(self) -> None:
        for name, start in (("b.rrdi", self.now - 100), ("b.rrdi.1", self.now - 3_700), ("b.rrdi.2", self.now - 8_000)):
            self.make(name, start)
        (self.folder / "b.rrdi").chmod(0o600)
        self.assertEqual(self.record("b.rrdi"), Ran(0, "", ""))
        self.assertEqual([self.rrdi("last", f"b.rrdi.{at}") for at in (1, 2, 3)],
                         [f"{self.now - 100}\n", f"{self.now - 3_700}\n", f"{self.now - 8_000}\n"])
        self.assertEqual((self.folder / "b.rrdi.1").stat().st_mode & 0o777, 0o600)
        self.make("c.rrdi", self.now - 100)
        self.make("c.rrdi.1", self.now - 3_600)
        self.assertEqual(self.record("c.rrdi"), Ran(0, "", ""))
        self.assertEqual(self.rrdi("last", "c.rrdi.1"), f"{self.now - 3_600}\n")

    def test_damaged_files(self) -> None:
        for name, start in (("b.rrdi", self.now - 100), ("b.rrdi.1", self.now - 200), ("b.rrdi.2", self.now - 300)):
            self.make(name, start)
        for at in (1, 2):
            cut = self.read("b.rrdi")[:50]
            self.write("b.rrdi", cut)
            self.assertEqual(self.record("b.rrdi"), Ran(
                0, "", f"rrdi-record: b.rrdi is damaged (truncated at 50); restored from b.rrdi.{at}\n"))
            self.assertEqual(self.read("b.rrdi.refused"), cut)
            self.write(f"b.rrdi.{at}", "no database")
        for path in self.folder.glob("b.rrdi.[123]"):
            path.write_bytes(b"no database")
        self.write("b.rrdi", b"RRDI")
        self.assertEqual(self.record("b.rrdi"), Ran(
            0, "", "rrdi-record: b.rrdi is damaged (truncated at 4) and no copy is readable; started an empty database\n"))
        self.assertEqual([path.name for path in self.folder.iterdir() if ".new" in path.name], [])

    def test_files_of_others(self) -> None:
        """What was never a database of this rrdi stays: a mistyped name must not cost a file."""
        self.make("b.rrdi", self.now - 100)
        self.make("b.rrdi.1", self.now - 100)
        newer = self.read("b.rrdi")
        for text, reason in ((b"no database", "not ours"), (b"RRD\0" + newer[4:], "not ours"), (b"hi", "truncated at 2"),
                             (newer[:5] + b"\x09" + newer[6:], "version"), (bytes(100), "not ours")):
            self.write("b.rrdi", text)
            ran = self.record("b.rrdi")
            self.assertEqual((ran.status, ran.err.splitlines()[0]), (1, f"rrdi-record: b.rrdi: file: {reason}"))
            self.assertEqual(self.read("b.rrdi"), text)
        self.assertFalse((self.folder / "b.rrdi.refused").exists())

    def test_an_empty_file(self) -> None:
        """A file that has just been made may be one that another program is about to lock and fill."""
        self.make("b.rrdi.1", self.now - 100)
        path = self.write("b.rrdi", "")
        self.assertEqual(self.record("b.rrdi"), Ran(
            1, "", "rrdi-record: b.rrdi: file: truncated at 0; another program may be making the file\n"))
        self.assertEqual(self.read("b.rrdi"), b"")
        os.utime(path, (self.now - 60, self.now - 60))
        self.assertEqual(self.record("b.rrdi"), Ran(
            0, "", "rrdi-record: b.rrdi is damaged (truncated at 0); restored from b.rrdi.1\n"))

    def test_a_damaged_file_in_use(self) -> None:
        self.make("b.rrdi", self.now - 100)
        path = self.write("b.rrdi", self.read("b.rrdi")[:50])
        with open(path, "rb") as other:
            fcntl.flock(other, fcntl.LOCK_SH)
            ran = self.record("b.rrdi")
        self.assertEqual((ran.status, self.read("b.rrdi")[:4], len(self.read("b.rrdi"))), (1, b"RRDI", 50))

    def test_what_is_not_recorded(self) -> None:
        self.make("a.rrdi", self.now + 500)
        ran = self.record("a.rrdi")
        self.assertEqual((ran.status, ran.out), (1, ""))
        self.assertRegex(ran.err, f"^rrdi-record: a.rrdi: not later than {self.now + 500}\nrrdi-record: {self.now + 500} is [45]\\d\\d seconds "
                                  "ahead of the clock; if a sample has this wrong time, rrdi revert takes it back\n$")
        for text in ("", "1 2", "x y z"):
            self.assertEqual(self.record("n.rrdi", LOADAVG=self.write("l", text)),
                             Ran(1, "", f"rrdi-record: {self.folder}/l has no three load averages\n"))
        self.assertEqual(self.record("n.rrdi", LOADAVG="/nowhere").err,
                         "rrdi-record: /nowhere: No such file or directory\n")
        self.assertEqual(self.record("none/f.rrdi").err, "rrdi-record: none/f.rrdi.lock: No such file or directory\n")
        self.assertEqual(self.record("m.rrdi", RRDI="/nowhere").err,
                         "rrdi-record: cannot run /nowhere: No such file or directory\n")
        with open(self.folder / "a.rrdi", "ab") as file:
            fcntl.flock(file, fcntl.LOCK_EX)
            self.assertEqual(self.record("a.rrdi"), Ran(1, "", "rrdi-record: a.rrdi: cannot open: another program holds its lock\n"))
        self.assertFalse((self.folder / "a.rrdi.refused").exists())

    def test_a_full_disk(self) -> None:
        """The first run, and a later one."""
        why = f"cannot write: {os.strerror(errno.ENOSPC)}"
        ran = self.tool("rrdi-record", "new.rrdi", size=5_000)
        self.assertEqual(ran, Ran(1, "", f"rrdi-record: new.rrdi: {why}\n"))
        self.assertFalse((self.folder / "new.rrdi").exists())
        self.make("a.rrdi", self.now - 120)
        full = self.stub("full", 'if [ $1 = update ]; then printf "ERROR: cannot write\\nrrdi: a.rrdi: no space left on device\\n" >&2\n'
                                 f'exit 1; fi; exec {PROGRAM} "$@"')
        self.assertEqual(self.record("a.rrdi", RRDI=full), Ran(1, "", f"rrdi-record: a.rrdi: {why}\n"))

    def test_it_waits_for_another_run(self) -> None:
        self.make("a.rrdi", self.now - 120)
        with open(self.folder / "a.rrdi.lock", "w", encoding="ascii") as held:
            fcntl.flock(held, fcntl.LOCK_EX)
            run = subprocess.Popen([sys.executable, str(TOP / "tools/rrdi-record"), "a.rrdi"], cwd=self.folder, env=self.env)
            time.sleep(1)
            self.assertIsNone(run.poll())
            self.assertEqual(self.rrdi("last", "a.rrdi"), f"{self.now - 120}\n")
        self.assertEqual(run.wait(HANG), 0)

    def test_it_waits_not_for_ever(self) -> None:
        path = self.write("a.lock", "")
        with open(path, encoding="ascii") as held, mock.patch.object(record, "PATIENCE", 0.3):
            fcntl.flock(held, fcntl.LOCK_EX)
            with self.assertRaisesRegex(Failure, f"^timed out after 0 seconds waiting for {path}$"):
                with record.alone(path):
                    self.fail("the lock of another program")

    def test_a_child_has_no_lock(self) -> None:
        """A child that was forked while rrdi-record ran does not keep the next run out."""
        path = self.write("a.lock", "")
        with record.alone(path):
            child = sleeping_child(self)
        with mock.patch.object(record, "PATIENCE", 0.1), record.alone(path):
            self.assertIsNone(child_status(child))


class Meanwhile(unittest.TestCase):
    def test_a_file_that_has_changed(self) -> None:
        """It was damaged, and is not when it is locked: nothing is copied."""
        held = mock.Mock(return_value=contextlib.nullcontext(False))
        with mock.patch.object(record, "held", held), mock.patch.object(record, "copy") as copied, \
                self.assertRaisesRegex(Failure, "^f has changed meanwhile$"):
            record.restore("f", "file: truncated", mock.Mock())
        self.assertEqual(copied.call_count, 0)


class CannotLook(unittest.TestCase):
    """Copies at which rrdi-record cannot look for now: none is lost, and the sample is recorded."""

    def setUp(self) -> None:
        self.file = str(new_folder(self) / "f.rrdi")
        for number in (1, 2, 3):
            Path(f"{self.file}.{number}").write_text(str(number))
        # What asking for the last time of a copy gives.
        self.last: Dict[int, object] = {}
        asked = mock.patch.object(program, "last", self.last_of)
        asked.start()
        self.addCleanup(asked.stop)

    def last_of(self, path: str) -> int:
        found = self.last[int(path[-1])]
        if isinstance(found, Exception):
            raise found
        assert isinstance(found, int)
        return found

    def copies(self) -> str:
        return "".join(Path(f"{self.file}.{number}").read_text() for number in (1, 2, 3))

    LOCKED = program.CommandFailed("cannot open", errno.EAGAIN)
    UNREADABLE = program.CommandFailed("file: read failed")
    DAMAGED = program.CommandFailed("file: truncated at 50")

    def test_the_newest_copy(self) -> None:
        for last, wanted in (({1: self.DAMAGED, 2: 5, 3: 4}, 2), ({1: self.LOCKED, 2: self.DAMAGED, 3: 4}, 3)):
            self.last = last
            self.assertEqual(record.newest_copy(self.file), f"{self.file}.{wanted}")
        self.last = {1: self.DAMAGED, 2: self.DAMAGED, 3: self.DAMAGED}
        self.assertEqual(record.newest_copy(self.file), "")
        # No empty database begins while a copy may have rows.
        for failed in (self.LOCKED, self.UNREADABLE):
            self.last = {1: self.DAMAGED, 2: failed, 3: self.DAMAGED}
            with self.assertRaisesRegex(program.CommandFailed, f"^{self.file}.2: {failed}"):
                record.newest_copy(self.file)
        for number in (1, 2, 3):
            os.unlink(f"{self.file}.{number}")
        self.last = dict.fromkeys((1, 2, 3), program.CommandFailed("cannot open", errno.ENOENT))
        self.assertEqual(record.newest_copy(self.file), "")
        with mock.patch("os.stat", side_effect=OSError(errno.EIO, "Input/output error")), self.assertRaises(OSError):
            record.newest_copy(self.file)

    def test_copies_stay(self) -> None:
        Path(self.file).write_text("new")
        self.last = {1: self.LOCKED}
        with self.assertRaises(program.CommandFailed):
            record.keep_copies(self.file, 10**9)
        self.last = {1: 0}
        stat = os.stat

        def failing(path: str, **more: Any) -> os.stat_result:
            if str(path).endswith(".1"):
                raise OSError(errno.EIO, "Input/output error")
            return stat(path, **more)
        with mock.patch("os.stat", failing), self.assertRaises(OSError):
            record.keep_copies(self.file, 10**9)
        with mock.patch("shutil.copyfileobj", side_effect=OSError(errno.ENOSPC, "No space left on device")), self.assertRaises(OSError):
            record.keep_copies(self.file, 10**9)
        self.assertEqual(self.copies(), "123")
        record.keep_copies(self.file, 10**9)
        self.assertEqual(self.copies(), "new12")

    def test_a_copy_that_is_a_link(self) -> None:
        """A link to a copy elsewhere becomes the next older one, and what it leads to stays."""
        elsewhere = Path(self.file).parent / "elsewhere"
        os.rename(f"{self.file}.1", elsewhere)
        os.symlink(elsewhere, f"{self.file}.1")
        Path(self.file).write_text("new")
        self.last = {1: 0}
        record.keep_copies(self.file, 10**9)
        self.assertEqual((self.copies(), elsewhere.read_text(), os.readlink(f"{self.file}.2")), ("new12", "1", str(elsewhere)))

    def test_which_file_cannot_be_made(self) -> None:
        """An error names the copy that cannot be made, not the file that is copied, unless that cannot be read."""
        Path(self.file).write_bytes(bytes(10_000))
        self.last = {1: 0}
        limits = resource.getrlimit(resource.RLIMIT_FSIZE)
        resource.setrlimit(resource.RLIMIT_FSIZE, (1_000, limits[1]))
        try:
            with self.assertRaises(OSError) as raised:
                record.keep_copies(self.file, 10**9)
            self.assertEqual(error_text(raised.exception), f"{self.file}.1: File too large")
            with self.assertRaises(OSError) as raised:
                record.copy(self.file, f"{self.file}.refused")
            self.assertEqual(error_text(raised.exception), f"{self.file}.refused: File too large")
        finally:
            resource.setrlimit(resource.RLIMIT_FSIZE, limits)
        self.assertEqual((self.copies(), Path(self.file).read_bytes()), ("123", bytes(10_000)))
        os.unlink(f"{self.file}.3")
        os.mkdir(f"{self.file}.3")
        with self.assertRaises(OSError) as raised:
            record.keep_copies(self.file, 10**9)
        self.assertEqual(error_text(raised.exception), f"{self.file}.2 as {self.file}.3: Is a directory")
        os.unlink(self.file)
        with self.assertRaises(OSError) as raised:
            record.keep_copies(self.file, 10**9)
        self.assertEqual(error_text(raised.exception), f"{self.file}: No such file or directory")
        self.assertEqual(sorted(path.name for path in Path(self.file).parent.iterdir()), ["f.rrdi.1", "f.rrdi.2", "f.rrdi.3"])

    def test_the_sample_is_recorded(self) -> None:
        for failed, text in ((OSError(errno.ENOSPC, "No space left on device", "f.1"), "f.1: No space left on device"),
                             (program.CommandFailed("f.1: cannot open"), "f.1: cannot open")):
            with mock.patch.multiple(record, make_ready=lambda file, fill: 7, update=mock.DEFAULT,
                                     keep_copies=mock.Mock(side_effect=failed)) as mocks, \
                    mock.patch.dict(os.environ), mock.patch.object(sys, "argv", ["/bin/rrdi-record"]), \
                    contextlib.redirect_stderr(io.StringIO()) as said:
                self.assertEqual(record.record(["--disk", "/", self.file]), 0)
            self.assertEqual((mocks["update"].call_count, said.getvalue()), (
                1, f"rrdi-record: no copy was made: {text}; {self.file} is as it was\n"))
