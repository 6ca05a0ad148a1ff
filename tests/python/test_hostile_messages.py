# SPDX-License-Identifier: MIT OR Apache-2.0
"""Tests of messages that repeat words of others: names of files and of tools, reasons, and what other programs print. Each stays
in its line, and has nothing in it that commands a terminal or hides."""
from __future__ import annotations

import contextlib
import io
import os
import sys
import unittest
from pathlib import Path
from typing import List
from unittest import mock

from cases import needs_program, new_folder
from doubles import PROGRAM, TOP
from tool_case import Ran, ToolCase

from rrdi.by_program import NoAnswer
from rrdi.escaping import HIDDEN, escaped
from rrdi.feeding.feeder import Feeder, FeedOptions
from rrdi.feeding.writers import BatchWriter, Outcome, Reason
from rrdi.tools import compare, feed, fix, rrdtool_program
from rrdi.tools.command_line import Failure, Progress, called_name
from rrdi.tools.plotting import gnuplot

# Names as a file may have them: with lines that look like others, what commands a terminal, what is no UTF-8, and what hides.
NAMES = ("a\nERROR: b", "\x1b[31mred\x07\r", "\udcff\udc80", "\u202eevil\x9b")
USUAL = "\nrra[0].cf = \"MAX\"\nrra[1].cf = \"MAX\"\nds[evil].type = \"GAUGE\"\n"


class Parts(unittest.TestCase):
    """Where the messages are made."""

    def feeder_says(self, writer: mock.Mock, line: bytes = b"f 10:1\n") -> str:
        with contextlib.redirect_stderr(io.StringIO()) as said:
            feeder = Feeder(FeedOptions(patience=0), writer)
            feeder.take_data(line)
            feeder.finish()
        return said.getvalue()

    def test_reasons_of_the_feeder(self) -> None:
        """Reasons may have names in them: of the program that does not start, of a file, or of an exception."""
        for name in NAMES:
            for writer in (mock.Mock(write=mock.Mock(return_value=Outcome(lost=f"why {name}"))), mock.Mock(write=mock.Mock(return_value=Outcome(again=name))),
                           mock.Mock(write=mock.Mock(return_value=Outcome(refused=((b"10:1", Reason(name, name)),)))),
                           mock.Mock(write=mock.Mock(side_effect=ValueError(name))),
                           BatchWriter(mock.Mock(batch_file=mock.Mock(side_effect=NoAnswer(name, name, 3))))):
                said = self.feeder_says(writer)  # type: ignore[arg-type]
                self.assertTrue(said.endswith("\n") and all(line.startswith("rrdi-feed: ") and escaped(line) == line
                                                            for line in said[:-1].split("\n")), ascii(said))
                self.assertIn(escaped(name), said)

    def test_bytes(self) -> None:
        """Two files whose names are no UTF-8 have different names in a message."""
        writer = mock.Mock(write=mock.Mock(return_value=Outcome(lost="why")))
        for name, shown in ((b"\xff", "\\xff"), (b"\xfe", "\\xfe"), ("\u00fc".encode(), "\u00fc")):
            self.assertIn(f"rrdi-feed: {shown}: why;", self.feeder_says(writer, name + b" 10:1\n"))

    def test_the_name_of_a_tool(self) -> None:
        """It may be that of a link."""
        for name in NAMES:
            with mock.patch.object(sys, "argv", [f"/bin/{name}"]):
                self.assertEqual(called_name(feed.TOOL), escaped(name))

    def test_progress(self) -> None:
        for name in NAMES:
            with contextlib.redirect_stderr(io.StringIO()) as said, mock.patch.object(said, "isatty", lambda: True):
                progress = Progress(f"reading {name}", iter(range(99)).__next__)
                progress.show(5)
                progress.show(6)
            self.assertIn(f"\rreading {escaped(name)}: ", said.getvalue())
            self.assertNotIn(name, said.getvalue())

    def test_what_gnuplot_says(self) -> None:
        folder = new_folder(self)
        (folder / "gnuplot").write_text("#!/bin/sh\nprintf 'line 1: \\033[31m\\nline \\377 2\\n' >&2\nexit 1\n")
        (folder / "gnuplot").chmod(0o755)
        with mock.patch.dict(os.environ, {"PATH": f"{folder}:{os.environ['PATH']}"}), contextlib.redirect_stderr(io.StringIO()) as said, \
                mock.patch.object(gnuplot, "points", lambda picture: []), mock.patch.object(gnuplot, "commands", lambda *_: ""), \
                self.assertRaises(Failure):
            gnuplot.draw("f", str(folder / "p.png"), mock.Mock())
        self.assertEqual(said.getvalue(), "line 1: \\u{1b}[31m\nline \ufffd 2\n")

    def test_folders_for_gnuplot(self) -> None:
        """A quote in the name of the folder for files of the moment ends no text of a command."""
        picture = mock.Mock(series=[mock.Mock()], style="lines", has_band=False)
        picture.series[0].name = "g"
        self.assertTrue(list(gnuplot.plots(picture, "/tmp/it's"))[0].startswith("'/tmp/it''s/points' index 0 "))
        self.assertNotIn("\n", "".join(gnuplot.plots(picture, "/tmp/x\n!touch y\n")))

    def test_what_rrdi_fix_has_done(self) -> None:
        for name in NAMES:
            found = mock.Mock(changes=[1], sample=mock.Mock(word="10:1", time=10))
            with mock.patch.multiple(fix, held=mock.MagicMock(), history_of=mock.Mock(return_value=mock.Mock(names=["g"])), given_samples=mock.Mock(),
                                     found_sample=lambda *_: found, chosen_time=mock.Mock(), send=lambda *_: True), \
                    mock.patch.dict(os.environ, {"TZ": "UTC"}), contextlib.redirect_stdout(io.StringIO()) as said:
                self.assertEqual(fix.fix([name, "10"]), 0)
            self.assertEqual(escaped(said.getvalue()[:-1]), said.getvalue()[:-1])
            self.assertTrue(said.getvalue().startswith(f"{escaped(name)}: 10:1 ("))

    def test_the_name_in_what_rrdtool_prints(self) -> None:
        """`rrdtool info` prints the name of the file as it is, and a name may have lines like those that follow."""
        for name in (*NAMES, USUAL):
            shown = f'filename = "{os.fsencode(name).decode(errors="replace")}"\n'
            self.assertEqual(compare.without_name(f'{shown}step = 10\n', name), "step = 10\n")
        self.assertEqual(compare.without_name("step = 10\n", "f"), "step = 10\n")

    def test_names_of_sources_in_what_rrdtool_prints(self) -> None:
        """They may have lines in them, which change neither the settings nor the archives. If rrdtool does not tell the rows of an
        archive, the tool says so."""
        text = ('step = 10\nlast_update = 33\nds[{}].index = 0\nds[{}].type = "GAUGE"\n'
                'rra[0].cf = "MAX"\nrra[0].rows = 3\nrra[0].pdp_per_row = 1\n')
        for name in ("a", "a\nstep = 1\nb", "a\nstep = x\nb", "a\nlast_update = 0\n", 'a\nrra[0].cf = "X"\n'):
            self.assertEqual(list(compare.spans(text.format(name, name))), [("MAX", 10, 0, 29)], name)
        for wrong in (text.format(*2 * ('\nrra[1].cf = "MAX"\n',)), text.replace("= 10", "= 0"), text.replace("= 10", "= x"), text.replace("step", "x")):
            with mock.patch.object(rrdtool_program, "ask", return_value=wrong), self.assertRaises(Failure) as failed:
                compare.compare(["old", "new"])
            self.assertEqual(str(failed.exception), "rrdtool does not tell which rows old has")
        printed = [text, "    a\nx: 1\n\n10: 1\n"]
        with mock.patch.object(rrdtool_program, "ask", side_effect=printed), self.assertRaises(Failure) as failed:
            compare.compare(["old", "new"])
        self.assertEqual(str(failed.exception), "cannot read what rrdtool fetches of MAX from old")


@needs_program
class Tools(ToolCase):
    """The tools, with such names of files."""

    def clean(self, ran: Ran, begins: str) -> None:
        self.assertEqual(HIDDEN.search(ran.out.replace("\n", "") + ran.err.replace("\n", "")), None, ran)
        self.assertTrue(all(line.startswith((f"{begins}: ", "usage: ", "       ")) for line in ran.err.split("\n")[:-1]), ran)

    def runs(self, name: str) -> List[List[str]]:
        there, none, other = f"./{name}.rrdi", f"./{name}.none", f"./{name}.txt"
        return [*(["rrdi-plot", file, f"./{name}.png"] for file in (there, none, other)), ["rrdi-plot", there, f"./{name}/p.png"],
                ["rrdi-plot", there, "p.png", "--source", name], ["rrdi-plot", there, "p.png", "-s", name], ["rrdi-plot", "--html", name, "out"],
                ["rrdi-plot", "--html", ".", other], ["rrdi-compare", other, there], ["rrdi-compare", none, there],
                *(["rrdi-record", file] for file in (f"./{name}/f", other)), ["rrdi-record", "--disk", name, "f"], ["rrdi-record", "--network", name, "f"],
                ["rrdi-record", "--journal", name, "f"], ["rrdi-record", f"./{name}.cut"]]

    def test_each_message(self) -> None:
        assert PROGRAM
        for name in NAMES:
            self.create("f.rrdi", "DS:g:GAUGE:60:U:U", "RRA:AVERAGE:0.5:1:10")
            self.rrdi("update", "f.rrdi", "10:1", "20:2", "30:3")
            data = self.read("f.rrdi")
            for end, content in (("rrdi", data), ("cut", data[:60]), ("txt", b"no database")):
                Path(os.fsencode(self.folder).decode("utf-8", "surrogateescape"), f"{name}.{end}").write_bytes(content)
            for words in self.runs(name):
                self.clean(self.tool(*words), words[0])
            for line in (f"./{name}.rrdi 40:x", f"./{name}.rrdi 5:1", f"./{name}.none 40:1", f"./{name}.txt 40:1", f"./f.rrdi 40:{name}", name):
                given = os.fsencode(line.replace("\n", "\v").replace("\r", "\v")).decode("utf-8", "surrogateescape")
                ran = self.feed(given.encode("utf-8", "surrogateescape"))
                self.clean(ran, "rrdi-feed")

    def feed(self, given: bytes) -> Ran:
        path = self.folder / "given"
        path.write_bytes(given + b"\n")
        return self.run_command(["sh", "-c", f"exec {sys.executable} {TOP}/tools/rrdi-feed --patience 0 <given"])

    def test_a_name_like_lines_of_rrdtool(self) -> None:
        """A name adds no archive and no source to the comparison."""
        name = f"x{USUAL}.rrd"
        self.stub("rrdtool", 'case $1 in info) printf \'filename = "%s"\\nstep = 10\\nlast_update = 30\\nds[g].type = "GAUGE"\\n'
                             'rra[0].cf = "AVERAGE"\\nrra[0].rows = 3\\nrra[0].pdp_per_row = 1\\n\' "$2" ;;\n'
                             "fetch) printf '  g\\n\\n10: 1\\n20: 2\\n30: 3\\n' ;; esac")
        self.create("f.rrdi", "DS:g:GAUGE:60:U:U", "RRA:AVERAGE:0.5:1:3")
        self.rrdi("update", "f.rrdi", "10:1", "20:2", "30:3")
        self.assertEqual(self.tool("rrdi-compare", name, "f.rrdi"), Ran(0, "AVERAGE 10 s: 3 cells, 3 agree\n", ""))
