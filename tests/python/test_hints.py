# SPDX-License-Identifier: MIT OR Apache-2.0
"""Tests of the further lines on standard error: which option was meant, what was wrong with a sample, and which tool reads a
file of another kind."""
from __future__ import annotations

import errno
import unittest
from typing import List, Optional, Tuple
from unittest import mock

from cases import needs_program
from tool_case import Ran, ToolCase

from rrdi.tools import program
from rrdi.tools.command_line import Failure
from rrdi.tools.conversion import make
from rrdi.tools.hints import file_hint, nearest, option_hint


class Options(unittest.TestCase):
    HELP = "  --start TIME, -s    begins\n  --end=TIME   ends (as --start)\n  -f --no-legend"

    def test_options(self) -> None:
        """The first word that is no option, and the one that is meant: with as many dashes."""
        for words, hint in (("", ""), ("a b", ""), ("--start -s --end=5 -f --no-legend", ""), ("--stat", "there is no option --stat; did you mean --start?"),
                            ("a --ends=5", "there is no option --ends; did you mean --end?"), ("--xyzzy", "there is no option --xyzzy"), ("-q", "there is no option -q"),
                            ("--stat --ends", "there is no option --stat; did you mean --start?"), ("--no-legends x", "there is no option --no-legends; did you mean --no-legend?"),
                            ("-start", "there is no option -start"), ("-legend", "there is no option -legend"), ("-5 - --", ""), ("---x", "")):
            self.assertEqual(option_hint(words.split(), self.HELP), hint, words)

    def test_nearest(self) -> None:
        cases: List[Tuple[str, List[str], Optional[str]]] = [("abcd", ["abcx", "axxx"], "abcx"), ("abcd", ["xxxx"], None), ("abcd", [], None), ("abcde", ["abcxx", "xxxxx"], "abcxx"), ("abcde", ["abxxx"], None)]
        for word, words, found in cases:
            self.assertEqual(nearest(word, words), found)


class Tools(ToolCase):
    def test_an_option(self) -> None:
        ran = self.tool("rrdi-show", "f", "--jsn")
        self.assertEqual((ran.status, ran.out, ran.err.splitlines()[-1]), (2, "", "rrdi-show: there is no option --jsn; did you mean --json?"))

    def test_what_cannot_be_converted(self) -> None:
        self.write("new.rrdi", b"RRDI")
        for name, why in ((".", "is a directory; --into and --in-place convert the files below it"),
                          ("new.rrdi", "is a file of rrdi already")):
            self.assertEqual(self.tool("rrdi-import", name, "x.rrdi"), Ran(1, "", f"rrdi-import: {name} {why}\n"))

    @needs_program
    def test_why_a_file_is_not_opened(self) -> None:
        """A tool names the file, and the system's reason."""
        self.stub("gnuplot", "exit 3")
        self.assertEqual(self.tool("rrdi-plot", ".", "x.png", "AVERAGE").err, "rrdi-plot: .: cannot open: Is a directory\n")
        self.assertEqual(self.tool("rrdi-plot", "none", "x.png", "AVERAGE").err,
                         "rrdi-plot: none: cannot open: No such file or directory\n")
        with mock.patch.object(program, "batch_on_new", side_effect=program.CommandFailed("cannot open", errno.EIO)), \
                self.assertRaisesRegex(Failure, "/x.rrdi: cannot open: Input/output error"):
            make(str(self.folder / "x.rrdi"), [], lambda new: None)
        failed = program.CommandFailed("cannot open", errno.EAGAIN)
        self.assertEqual(failed.of_file("f"), "f: cannot open: another program holds its lock")

    @needs_program
    def test_files_of_other_programs(self) -> None:
        self.stub("gnuplot", "exit 3")  # rrdi-plot first looks whether there is one
        self.write("old.rrd", b"RRD\x000003")
        self.write("old.wsp", b"\0\0\0\1" + bytes(100))
        self.write("other", b"text")
        for tool, words in (("rrdi-show", ""), ("rrdi-plot", "p.png"), ("rrdi-export", ""), ("rrdi-record", "")):
            for file, kind in (("old.rrd", "RRDtool"), ("old.wsp", "whisper")):
                with self.subTest(tool=tool, file=file):
                    ran = self.tool(tool, file, *words.split())
                    self.assertEqual(ran, Ran(1, "", f"{tool}: {file}: file: not ours\n"
                                              f"{tool}: {file} is a file of {kind}; rrdi-import converts it\n"))
        self.assertEqual(self.tool("rrdi-show", "other"), Ran(1, "", "rrdi-show: other: file: not ours\n"))
        self.assertEqual(file_hint([str(self.folder / "none.rrd")]), "")

    @needs_program
    def test_a_feeder(self) -> None:
        """A refused sample has a further line, and a database is asked for its sources only once."""
        self.create("f.rrdi", "DS:a:GAUGE:60:U:U", "DS:b:GAUGE:60:U:U", "RRA:AVERAGE:0.5:1:9")
        ran = self.tool("rrdi-feed", given="f.rrdi 10:1,5:2 20:1\nf.rrdi 30:1:2\n")
        self.assertEqual((ran.status, ran.err.splitlines()), (1, [
            "rrdi-feed: f.rrdi 10:1,5:2: unreadable sample 1", "rrdi-feed: its value 1 is '1,5'; write '1.5', with a point",
            "rrdi-feed: f.rrdi 20:1: wrong number of values", "rrdi-feed: sample 1 has 1 value, 2 are wanted: a, b"]))
        self.assertEqual(self.rrdi("last", "f.rrdi"), "30\n")
