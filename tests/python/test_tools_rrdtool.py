# SPDX-License-Identifier: MIT OR Apache-2.0
"""Tests of rrdi-rrdtool: its output compared with rrdtool's, its errors, and its pipe mode."""
from __future__ import annotations

import contextlib
import errno
import io
import os
import re
import sys
import unittest
from typing import Any, List, Tuple
from unittest import mock

from cases import needs_program
from doubles import TOP
from tool_case import NO_RRDTOOL, RRDTOOL, Ran, ToolCase

from rrdi.tools import rrdtool
from rrdi.tools.rows import Rows
from rrdi.tools.rrdtool_output import Printed
from rrdi.tools.command_line import Failure
from rrdi.printed import Archive, Settings, Source
from rrdi.tools.rrdtool.running import Commands, needed
from rrdi.tools.rrdtool.pipe import split
from rrdi.tools.rrdtool.texts import VERSION

TOOL = "rrdi-rrdtool"
DEFINITIONS = ["--step", "10", "--start", "1000000000", "DS:g:GAUGE:60:-5:U", "DS:count_of_packets:COUNTER:60:U:100",
               "RRA:AVERAGE:0.5:1:5", "RRA:MAX:0.5:3:4"]
HELP_OF_PIPE = ("usage: rrdi-rrdtool COMMAND ARGUMENT..\n"
                "commands: create, update, updatev, tune, resize, fetch, first, last, lastupdate, info, graph, graphv, xport\n"
                "in pipe mode also: quit, ls, cd, mkdir, pwd\n")


def settings(*archives: Archive, last: int = 1_000, step: int = 10) -> Settings:
    return Settings(step, last, 16, 0, [Source("g", "GAUGE", 60, "U", "5.500000", "U")], list(archives))


class Words(unittest.TestCase):
    def test_splitting_as_rrdtool(self) -> None:
        for line, words in (("last x.rrd\n", ["last", "x.rrd"]), ("  last   x.rrd \r\n", ["last", "x.rrd"]),
                            ('last "a b"\n', ["last", "a b"]), ("last 'a \"b'\n", ["last", 'a "b']),
                            ('last x.r"rd"\n', ["last", "x.rrd"]), ('last ""\n', ["last", ""]), ("", []), (" \t\r\n", []),
                            ("last\tx.rrd\n", ["last\tx.rrd"]), ("last x\\ y\n", ["last", "x\\", "y"]),
                            ("a '' b\n", ["a", "", "b"]), (" \t last x \r\t\n", ["last", "x"]), ('"a"\'b\'c', ["abc"])):
            with self.subTest(line=line):
                self.assertEqual(split(line), words)
        for line in ('last "x', "last 'x", "it's"):
            with self.subTest(line=line), self.assertRaises(Failure):
                split(line)

    def test_what_tune_changes(self) -> None:
        now = settings(Archive("MAX", "0.5", 1, 4))
        for option, value, wanted in (("--data-source-type", "g:GAUGE", False), ("--data-source-type", "g:COUNTER", True),
                                      ("--heartbeat", "g:60", False), ("--heartbeat", "g:61", True),
                                      ("--maximum", "g:5.5", False), ("--maximum", "g:5.50", False), ("--maximum", "g:U", True),
                                      ("--maximum", "g:0.5500000", True),
                                      ("--minimum", "g:U", False), ("--minimum", "g:0", True), ("--maximum", "g:x", True),
                                      ("--maximum", f"g:{'9' * 5_000}", True), ("--maximum", "g:\u0665.5", True),
                                      ("--data-source-rename", "g:h", True), ("--maximum", "none:5.5", True)):
            with self.subTest(option=option, value=value):
                self.assertEqual(needed(now, option, value), wanted)


class NewRows(unittest.TestCase):
    def test_each_row(self) -> None:
        """Those that end after the time before and up to the time after, of each archive: as many as it has, and none before 1970."""
        def rows_of(file: str, now: Settings, number: int, start: int, end: int) -> Rows:
            asked.append((file, number, start, end))
            seconds = now.resolution(number)
            last = end - end % seconds + seconds
            return Rows(start, last, seconds, ["g", "h"], [[float(at), None] for at in range(start + seconds, last + 1, seconds)])
        cases: List[Tuple[int, int, int, List[Tuple[int, int, int, Tuple[int, ...]]]]] = [
                (1, 998, 1_000, [(0, 998, 999, (999, 1_000)), (1, 996, 998, (999,))]), (1, 999, 1_000, [(0, 999, 999, (1_000,))]), (1, 5, 1_000, [(0, 995, 999, (996, 997, 998, 999, 1_000)), (1, 990, 998, (993, 996, 999))]),
                (10, 989, 1_000, [(0, 980, 999, (990, 1_000)), (1, 960, 989, (990,))]), (10, 990, 999, []), (10, 0, 30, [(0, 0, 29, (10, 20, 30)), (1, 0, 29, (30,))])]
        for step, before, after, wanted in cases:
            asked: List[Any] = []
            now = settings(Archive("AVERAGE", "0.5", 1, 5), Archive("MAX", "0.5", 3, 3), last=after, step=step)
            with mock.patch("rrdi.tools.rrdtool.running.rows_of", rows_of):
                found = Commands.new_cells("f", now, before, after)
            self.assertEqual(asked, [("f", number, start, end) for number, start, end, _ in wanted], (step, before, after))
            self.assertEqual(found, [(at, *(("AVERAGE", 1) if number == 0 else ("MAX", 3)), name, float(at) if name == "g" else None) for number, _, _, times in wanted for at in times for name in ("g", "h")])


class Ends(unittest.TestCase):
    def test_how_a_command_ends(self) -> None:
        """A refusal, and an output that nobody reads or that is full, are 1; of the latter the rest is given up."""
        full = OSError(errno.ENOSPC, "No space left on device")
        for error, said, given_up in ((None, "", False), (Failure("a\tb"), "ERROR: a\\tb\n", False), (BrokenPipeError(), "", True), (full, "ERROR: No space left on device\n", True)):
            with mock.patch.object(rrdtool, "run_command", return_value=["a"] if not isinstance(error, Failure) else None, side_effect=error if isinstance(error, Failure) else None), mock.patch.object(rrdtool, "give_up_output") as gives_up, \
                    mock.patch("sys.stdout", mock.Mock(flush=mock.Mock(side_effect=None if isinstance(error, Failure) else error))) as out, contextlib.redirect_stderr(io.StringIO()) as err:
                self.assertEqual(rrdtool.run_words(["last", "f"]), 0 if error is None else 1)
            self.assertEqual((err.getvalue(), gives_up.called, out.buffer.write.mock_calls), (said, given_up, [] if isinstance(error, Failure) else [mock.call(b"a\n")]))


class Characters(unittest.TestCase):
    def test_for_a_shell(self) -> None:
        """What --show prints commands no terminal, and a shell reads the words of the command from it."""
        for word, wanted in (("a.rrd", "a.rrd"), ("it's \u00e9", "'it'\"'\"'s \u00e9'"), ("a\x1b[1m'", r"$'a\033\1331m\047'"), ("\udcff\nfe", r"$'\377\012fe'")):
            self.assertEqual(rrdtool.for_shell(word), wanted)

    def test_zero_bytes(self) -> None:
        """No argument has one, whatever the command does with it."""
        from rrdi.tools.rrdtool.pipe import Pipe
        for line in (b"cd a\0b", b"mkdir a\0b", b"info a\0b", b"in\0fo a", b"graph a\0.png x"):
            output = io.BytesIO()
            Pipe(lambda name, words: [], "", output).answer_all(io.BytesIO(line + b"\n"))
            self.assertEqual(output.getvalue(), b"ERROR: an argument has a zero byte\n")


class Spans(unittest.TestCase):
    """The span of a fetch, which `fetch` gets as RRDtool would have it."""

    def asked(self, *words: str) -> List[int]:
        with mock.patch("rrdi.tools.rrdtool.running.fetch") as asked:
            Commands(lambda: 1_700_000_000.5).fetched(["f", "AVERAGE", *words])
        return list(asked.call_args[0][2:])

    def test_aligned_starts(self) -> None:
        """The start moves down to a multiple of the resolution, and the end by as many seconds."""
        for start in range(1_000_000_000, 1_000_000_062, 7):
            for end in (start, start + 1, start + 59, start + 3_605):
                for resolution in (1, 7, 60, 300):
                    words = ["-s", str(start), "-e", str(end), "-r", str(resolution)]
                    moved = start % resolution
                    self.assertEqual(self.asked(*words), [start, end, resolution], words)
                    for option in ("-a", "--align-start"):
                        self.assertEqual(self.asked(*words, option), [start - moved, end - moved, resolution], words)

    def test_without_words(self) -> None:
        self.assertEqual(self.asked(), [1_700_000_000 - 86_400, 1_700_000_000, 1])
        self.assertEqual(self.asked("-r", "5m", "-a", "-s", "end-1h"), [1_699_996_200, 1_699_999_800, 300])


class FullDisks(ToolCase):
    """What cannot be written is named, and so is the reason of the system. A script is the program."""

    def setUp(self) -> None:
        super().setUp()
        self.env.pop("RRDI_LIBRARY", None)
        self.env["RRDI"] = self.stub("full", 'case $1 in last) echo 5; exit ;; esac\necho "ERROR: cannot write" >&2\n'
                                             'echo "rrdi: $2: no space left on device" >&2\nexit 1')
        self.write("x.rrd", "old")

    def test_each_command(self) -> None:
        why = "cannot write: No space left on device"
        for words, said in ((["create", "new.rrd", *DEFINITIONS], f"creating 'new.rrd': {why}"),
                            (["update", "x.rrd", "10:1"], f"x.rrd: {why}"), (["resize", "x.rrd", "0", "GROW", "5"], f"resize.rrd: {why}"),
                            (["tune", "x.rrd", "DELRRA:1"], f"x.rrd: {why}"),
                            (["--rrdi", "create", "new.rrd", *DEFINITIONS], f"new.rrd: {why}")):
            self.assertEqual(self.tool(TOOL, *words), Ran(1, "", f"ERROR: {said}\n"), words)
        ran = self.tool(TOOL, "-", given=f"create new.rrd {' '.join(DEFINITIONS)}\n")
        self.assertEqual(ran, Ran(0, f"ERROR: creating 'new.rrd': {why}\n", ""))

    def test_a_copy(self) -> None:
        self.write("x.rrd", bytes(2_000))
        self.assertEqual(self.tool(TOOL, "resize", "x.rrd", "0", "GROW", "5", size=1_000),
                         Ran(1, "", "ERROR: opening 'resize.rrd': File too large\n"))
        self.assertEqual(sorted(path.name for path in self.folder.iterdir()), ["bin", "x.rrd"])


@needs_program
class RRDtoolOutput(ToolCase):
    def make(self) -> None:
        self.assertEqual(self.tool(TOOL, "create", "x.rrdi", *DEFINITIONS), Ran(0, "", ""))
        self.assertEqual(self.tool(TOOL, "update", "x.rrdi", "1000000010:1.5e0:100", "1000000025:-0.25:175"), Ran(0, "", ""))

    def test_usage(self) -> None:
        self.check_usage(TOOL, "[--exact | --rrdi | --show] COMMAND ARGUMENT.. | [--exact] [--lengths] - [DIRECTORY]",
                         [[], ["-", "a", "b"]])
        for words in (["-v"], ["--version"]):
            self.assertEqual(self.tool(TOOL, *words), Ran(0, VERSION + "\n", ""))
        self.assertRegex(VERSION, r"^RRDtool 1\.7\.2 ")
        self.assertEqual(self.tool(TOOL, "help").out, HELP_OF_PIPE)

    def test_texts(self) -> None:
        self.make()
        self.assertEqual(self.tool(TOOL, "fetch", "-s", "1000000000", "x.rrdi", "AVERAGE", "-e", "1000000029").out,
                         "                              g    count_of_packets\n\n"
                         "1000000010: 1.5000000000e+00 -nan\n1000000020: -2.5000000000e-01 5.0000000000e+00\n"
                         "1000000030: -nan -nan\n")
        self.assertIn("1000000010: 1.5000000000000000e+00 -nan", self.tool(
            TOOL, "--exact", "fetch", "-s", "1000000000", "x.rrdi", "AVERAGE", "-e", "1000000029").out)
        self.assertEqual(self.tool(TOOL, "lastupdate", "x.rrdi").out, " g count_of_packets\n\n1000000025: -0.25 175\n")
        self.assertEqual(self.tool(TOOL, "last", "x.rrdi").out, "1000000025\n")
        self.assertEqual(self.tool(TOOL, "first", "x.rrdi").out, "999999980\n")
        self.assertEqual(self.tool(TOOL, "first", "--rraindex", "1", "x.rrdi").out, "999999930\n")
        info = self.tool(TOOL, "info", "x.rrdi", "--noflush").out
        for line in ('filename = "x.rrdi"', 'rrd_version = "0003"', "ds[g].index = 0", 'ds[g].last_ds = "-0.25"',
                     "ds[g].min = -5.0000000000e+00", "ds[g].max = NaN", "ds[g].unknown_sec = 0",
                     "ds[g].value = -1.2500000000e+00",
                     "rra[1].pdp_per_row = 3", "rra[0].cur_row = 2", "rra[1].xff = 5.0000000000e-01",
                     "rra[1].cdp_prep[0].unknown_datapoints = 0", "header_size = 330"):
            self.assertIn(line + "\n", info)
        odd = "a\f\x1c\u0085\u2028b.rrdi"  # which end lines elsewhere
        os.link(self.folder / "x.rrdi", self.folder / odd)
        self.assertEqual(self.tool(TOOL, "info", odd).out, info.replace("x.rrdi", odd))
        self.assertEqual(self.tool(TOOL, "updatev", "x.rrdi", "1000000047:3.75:285", "1000000061:2.5:U").out,
                         "return_value = 0\n"
                         "[1000000030]RRA[AVERAGE][1]DS[g] = 1.7500000000e+00\n"
                         "[1000000030]RRA[AVERAGE][1]DS[count_of_packets] = 5.0000000000e+00\n"
                         "[1000000040]RRA[AVERAGE][1]DS[g] = 3.7500000000e+00\n"
                         "[1000000040]RRA[AVERAGE][1]DS[count_of_packets] = 5.0000000000e+00\n"
                         "[1000000050]RRA[AVERAGE][1]DS[g] = 3.3750000000e+00\n"
                         "[1000000050]RRA[AVERAGE][1]DS[count_of_packets] = 5.0000000000e+00\n"
                         "[1000000060]RRA[AVERAGE][1]DS[g] = 2.5000000000e+00\n"
                         "[1000000060]RRA[AVERAGE][1]DS[count_of_packets] = NaN\n"
                         "[1000000050]RRA[MAX][3]DS[g] = 3.7500000000e+00\n"
                         "[1000000050]RRA[MAX][3]DS[count_of_packets] = 5.0000000000e+00\n")

    def test_rows_that_an_update_finishes_and_overwrites(self) -> None:
        """Those that are no longer in the file are left out. The archive of 10 seconds has five rows."""
        self.make()
        samples = [f"{1_000_000_000 + at}:1:U" for at in range(35, 96, 10)]
        lines = self.tool(TOOL, "updatev", "x.rrdi", *samples).out.splitlines()
        found = [line for line in lines if "[AVERAGE]" in line and "DS[g]" in line]
        self.assertEqual(found, [f"[{1_000_000_000 + at}]RRA[AVERAGE][1]DS[g] = 1.0000000000e+00" for at in range(50, 91, 10)])

    def test_modes(self) -> None:
        self.make()
        self.assertEqual(self.tool(TOOL, "--rrdi", "fetch", "x.rrdi", "MAX", "-s", "1000000000", "-e", "1000000010").out,
                         "time: g count_of_packets\n1000000020: 1.500000 nan\n")
        before = self.read("x.rrdi")
        self.assertEqual(self.tool(TOOL, "--show", "update", "x.rrdi", "1000000030:1e3:5"),
                         Ran(0, "rrdi update x.rrdi 1000000030:1000:5\n", ""))
        self.assertEqual(self.read("x.rrdi"), before)
        for mode in ("--show", "--rrdi"):
            self.assertEqual(self.tool(TOOL, mode, "resize", "x.rrdi", "0", "GROW", "5"), Ran(
                1, "", "ERROR: resize writes resize.rrd; use it without --rrdi and --show, or rrdi resize\n"))
        self.assertEqual(self.read("x.rrdi"), before)
        self.assertEqual(self.tool(TOOL, "--rrdi", "info", "none.rrdi").err,
                         "ERROR: none.rrdi: cannot open: No such file or directory\n")
        self.assertEqual(self.tool(TOOL, "--rrdi", "update", "x.rrdi", "1000000000:1:2").err, "ERROR: not later than 1000000025\n")
        self.assertEqual(self.tool(TOOL, "--show", "fetch", "x.rrdi", "MAX", "-s", "32:00"),
                         Ran(1, "", "ERROR: cannot parse time: 32:00\n"))

    def test_changes(self) -> None:
        self.make()
        self.assertEqual(self.tool(TOOL, "tune", "x.rrdi", "-a", "g:7", "-a", "count_of_packets:100", "-d", "g:GAUGE"),
                         Ran(0, "", ""))
        info = self.rrdi("info", "x.rrdi")
        self.assertIn("ds[0].max = 7.000000", info)
        self.assertIn("undoable = 2", info)  # what was set already is no change
        before = self.read("x.rrdi")
        self.assertEqual(self.tool(TOOL, "resize", "x.rrdi", "0", "GROW", "5"), Ran(0, "", ""))
        self.assertIn("rra[0].rows = 10", self.rrdi("info", "resize.rrd"))
        self.assertEqual(self.read("x.rrdi"), before)
        self.assertEqual(self.tool(TOOL, "resize", "x.rrdi", "0", "SHRINK", "9").err, "ERROR: x.rrdi: shrinks too far: archive 0 has 5 rows, of which one has to be left\n")
        self.assertFalse((self.folder / "resize.rrd").exists())
        self.assertEqual(self.tool(TOOL, "tune", "x.rrdi", "DELRRA:1"), Ran(0, "", ""))
        self.assertNotIn("rra[1]", self.rrdi("info", "x.rrdi"))
        self.assertEqual(self.tool(TOOL, "update", "x.rrdi", "-s", "1000000020:1:2", "1000000030:1:210"), Ran(0, "", ""))
        self.assertEqual(self.tool(TOOL, "updatev", "x.rrdi", "-s", "1000000020:1:2"), Ran(0, "return_value = 0\n", ""))
        self.assertEqual(self.rrdi("last", "x.rrdi"), "1000000030\n")

    def test_errors(self) -> None:
        self.make()
        self.write("old.rrd", b"RRD\x000003")
        late = "illegal attempt to update using time {} when last update time is {} (minimum one second step)"
        for line, wanted in (
                ("last none.rrd", "opening 'none.rrd': No such file or directory"),
                ("info none.rrd", "opening 'none.rrd': No such file or directory"),
                ("fetch none.rrd MAX", "opening 'none.rrd': No such file or directory"),
                ("update none.rrd N:1", "opening 'none.rrd': No such file or directory"),
                ("update -s none.rrd N:1", "opening 'none.rrd': No such file or directory"),
                ("tune none.rrd -h g:5", "opening 'none.rrd': No such file or directory"),
                ("resize none.rrd 0 GROW 1", "opening 'none.rrd': No such file or directory"),
                ("last old.rrd", "'old.rrd' is a file of RRDtool; move it with rrdi-import"),
                ("update x.rrdi 5:1:1", "x.rrdi: " + late.format(5, 1000000025)),
                ("update x.rrdi 1000000030:1:1 1000000030:1:1", "x.rrdi: " + late.format(1000000030, 1000000030)),
                ("update x.rrdi 1000000030:1", "x.rrdi: wrong number of values: sample 1 has 1 value, 2 are wanted: g, count_of_packets"),
                ("update x.rrdi 1000000030:1,5:1",
                 "x.rrdi: unreadable sample 1: its value 1 is '1,5'; write '1.5', with a point"),
                ("update x.rrdi", "x.rrdi: no sample: a sample is missing, such as N:21.5"),
                ("tune x.rrdi -h none:5", "x.rrdi: no such data source: there is no data source none; the file has g, count_of_packets"),
                ("fetch x.rrdi FOO", "unknown consolidation function 'FOO'"),
                ("fetch x.rrdi", "Usage: rrdtool fetch <file> <CF> [options]"),
                ("fetch x.rrdi MIN -r 30 -s 400000020 -e 400000010", "start (400000020) should be less than end (400000010)"),
                ("fetch x.rrdi MAX -s 32:00", "cannot parse time: 32:00"),
                *((f"{name} x.rrdi y", f"Usage: rrdtool {name} <file>") for name in ("last", "lastupdate", "info")),
                ("lastupdate --daemon a x.rrdi", "lastupdate --daemon is not supported"),
                ("first x.rrdi --rraindex 9", "x.rrdi: no such archive: the file has 2 archives, 0 to 1"),
                ("dump x.rrdi", "dump is not supported: rrdi-export prints the XML"),
                ("restore x.xml x.rrd", "restore is not supported: use rrdtool restore and rrdi-import"),
                ("list .", "list is not supported: use ls"),
                ("flushcached x.rrdi", "flushcached is not supported: rrdi has no daemon"),
                ("frobnicate x", "unknown function 'frobnicate'"),
                ("update --daemon a x.rrdi N:1", "update --daemon is not supported"),
                ("create y.rrdi DS:g:COMPUTE:a RRA:MAX:0.5:1:4", "rrdi has no type COMPUTE: DS:g:COMPUTE:a"),
                ("create y.rrdi DS:g:GAUGE:9:U:U",
                 "creating 'y.rrdi': no archive: an archive is missing, such as RRA:AVERAGE:0.5:1:1440"),
                ("create y.rrdi DS:g=a:GAUGE:9:U:U RRA:MAX:0.5:1:4",
                 "a source cannot be filled from another file: DS:g=a:GAUGE:9:U:U"),
                ("times 5", "Usage: times <start> <end>"),
                ("create x.rrdi -O DS:g:GAUGE:9:U:U RRA:MAX:0.5:1:4", "x.rrdi already exists")):
            with self.subTest(line=line):
                ran = self.tool(TOOL, *line.split())
                self.assertEqual(ran, Ran(1, "", f"ERROR: {wanted}\n"))
        self.assertEqual(self.tool(TOOL, "last", "x.rrdi", env={"RRDI": "/nowhere"}).err,
                         "ERROR: cannot run /nowhere: No such file or directory\n")
        self.assertEqual(self.tool(TOOL, "last", "x.rrdi", stdout="/dev/full"),
                         Ran(1, "", "ERROR: No space left on device\n"))
        self.assertEqual(self.tool(TOOL, "info", "x.rrdi", env={"RRDI": self.stub("odd", "echo no")}).err,
                         "ERROR: cannot read the output of " + str(self.bin / "odd") + " info\n")


@needs_program
class PipeMode(ToolCase):
    def pipe(self, lines: str, *words: str) -> Ran:
        ran = self.tool(TOOL, "-", *words, given=lines)
        return Ran(ran.status, re.sub(r"^OK u:\d+\.\d\d s:\d+\.\d\d r:\d+\.\d\d$", "OK", ran.out, flags=re.MULTILINE), ran.err)

    def test_lines(self) -> None:
        (self.folder / "sub").mkdir()
        ran = self.pipe(f"create x.rrd {' '.join(DEFINITIONS)}\nupdate x.rrd 1000000010:1:2\nlast 'x.rrd'\nlast none\n\n"
                        "pwd\ncd sub\npwd\ncd\ncd none\nmkdir a\nmkdir a\nmkdir\nls x\nls\ncd ..\nls\npwd x\n  last x.rrd \r\n"
                        'last "x.rrd\nquit now\nupdate x.rrd 5:1:1\nlastupdate x.rrd\nquit\nlast x.rrd\n')
        wanted = ["OK", "OK", "1000000010", "OK", "ERROR: opening 'none': No such file or directory",
                  *HELP_OF_PIPE.splitlines(), "OK", str(self.folder), "OK", "OK", str(self.folder / "sub"), "OK",
                  "ERROR: invalid parameter count for cd", "ERROR: chdir none No such file or directory", "OK",
                  "ERROR: mkdir a: File exists", "ERROR: invalid parameter count for mkdir",
                  "ERROR: invalid parameter count for ls", "d .", "d ..", "d a", "OK", "OK",
                  "d .", "d ..", "d bin", "d sub", "- x.rrd", "OK", "ERROR: invalid parameter count for pwd",
                  "1000000010", "OK",
                  "ERROR: creating arguments", "ERROR: invalid parameter count for quit",
                  "ERROR: x.rrd: illegal attempt to update using time 5 when last update time is 1000000010 "
                  "(minimum one second step)", " g count_of_packets", "", "1000000010: 1 2", "OK"]
        self.assertEqual((ran.status, ran.out.splitlines(), ran.err), (0, wanted, ""))

    def test_each_answer_comes_before_the_next_line(self) -> None:
        import subprocess
        import threading
        with subprocess.Popen([sys.executable, str(TOP / "tools" / TOOL), "-"], cwd=self.folder, env=self.env,
                              stdin=subprocess.PIPE, stdout=subprocess.PIPE) as running:
            assert running.stdin and running.stdout
            patience = threading.Timer(30, running.kill)
            self.addCleanup(patience.cancel)
            patience.start()
            for _ in range(3):
                running.stdin.write(b"pwd\n")
                running.stdin.flush()
                self.assertEqual(running.stdout.readline().decode(), f"{self.folder}\n")
                self.assertRegex(running.stdout.readline().decode(), r"^OK u:\d+\.\d\d s:\d+\.\d\d r:\d+\.\d\d\n$")
            running.stdin.write(b"pwd")  # a last line without its end
            running.stdin.close()
            self.assertEqual(running.stdout.readline().decode(), f"{self.folder}\n")

    def test_a_fault_of_its_own_is_answered(self) -> None:
        import io
        from rrdi.tools.rrdtool.pipe import Pipe
        output = io.BytesIO()

        good: Printed = ["fine"]

        def run(name: str, _words: "list[str]") -> Printed:
            return {"good": good}[name]

        Pipe(run, "", output).answer_all(io.BytesIO(b"bad\ngood\n"))
        self.assertRegex(output.getvalue(), rb"^ERROR: internal error: KeyError\('bad'\)\nfine\nOK u:.*\n$")

        def fail(name: str, _words: "list[str]") -> Printed:
            raise OSError(28, "No space left on device")
        output = io.BytesIO()
        Pipe(fail, "", output).answer_all(io.BytesIO(b"graph o.png\n"))
        self.assertEqual(output.getvalue(), b"ERROR: No space left on device\n")

    def test_a_directory(self) -> None:
        (self.folder / "sub").mkdir()
        self.assertEqual(self.pipe("pwd\n", "sub").out, f"{self.folder}/sub\nOK\n")
        self.assertEqual(self.pipe("pwd\n", "none"), Ran(2, "", "ERROR: chdir none No such file or directory\n"))

    def test_a_closed_output(self) -> None:
        ran = self.run_command(["sh", "-c", f"yes pwd | head -5000 | {sys.executable} {TOP}/tools/{TOOL} - | head -1"])
        self.assertEqual(ran, Ran(0, f"{self.folder}\n", ""))

    def test_bytes_that_are_no_text(self) -> None:
        ran = self.run_command(["sh", "-c", rf"printf 'last \377\n' | {sys.executable} {TOP}/tools/{TOOL} - | od -c"])
        self.assertIn("377", ran.out)


@needs_program
@unittest.skipUnless(RRDTOOL, NO_RRDTOOL)
class BesideRRDtool(ToolCase):
    """The same lines by rrdtool and by rrdi-rrdtool. All rates have few binary digits, so that both know them exactly."""

    LINES = f"""create x.rrd {' '.join(DEFINITIONS)}
lastupdate x.rrd
update x.rrd 1000000010:1.5:100 1000000025:7:175
fetch x.rrd AVERAGE -s 1000000000 -e 1000000040
fetch x.rrd AVERAGE -s 1000000000 -e 1000000039
fetch x.rrd MIN -s 1000000015 -e 1000000026
fetch x.rrd MAX -r 30 -s 999999000 -e 1000000045
fetch x.rrd MAX -r 60 -a -s 1000000000 -e 1000000045
fetch x.rrd MIN -r 30 -s end-1min -e 1000000026
lastupdate x.rrd
info x.rrd
first x.rrd
first x.rrd --rraindex 1
last x.rrd
updatev x.rrd 1000000031:3.25:205
updatev x.rrd 1000000040:3.75:250
updatev x.rrd 1000000050:-6:U
updatev x.rrd 1000000051:2:300
tune x.rrd -a g:1e3 -i g:-1e1 -a count_of_packets:U -h g:120
info x.rrd
update x.rrd --template count_of_packets:g 1000000061:400:1
update x.rrd 5:1:1
last none.rrd
fetch x.rrd FOO
last
cd
cd /none
pwd x
last 'x.rrd
last "x.rrd"
  last x.r'rd'  \r
fetch x.rrd AVERAGE -s 1000000030 -e 1000000070
fetch x.rrd LAST -s 1000000030 -e 1000000070
lastupdate x.rrd
resize x.rrd 0 GROW 4
info resize.rrd
quit
"""

    def answers(self, words: List[str], folder: str) -> List[str]:
        (self.folder / folder).mkdir()
        ran = self.run_command(["sh", "-c", 'cd "$0" && exec "$@"', folder, *words, "-"], given=self.LINES)
        self.assertEqual(ran.err, "")
        lines = []
        for line in ran.out.splitlines():
            # The layout of the file is each program's own; so is what an unfinished row holds that has no step yet.
            if re.match(r"header_size|rra\[\d+\]\.cur_row|-1$", line):
                continue
            line = re.sub(r"(cdp_prep\[\d+\]\.value = )-?inf", r"\1NaN", line)
            lines.append(re.sub(r"^(OK) u:.*", r"\1", line))
        return lines

    def test_the_same_lines(self) -> None:
        assert RRDTOOL
        old = self.answers([RRDTOOL], "old")
        new = self.answers([sys.executable, str(TOP / "tools" / TOOL)], "new")
        # A line of one word is answered by each program's usage.
        start, end = (next(at for at, line in enumerate(old) if line.startswith(text)) for text in ("RRDtool", "For more"))
        old[start:end + 3] = ["ERROR: Usage: rrdtool last <file>"]
        self.assertEqual(new, old)
        self.assertGreater(len(new), 150)
