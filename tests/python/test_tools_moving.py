# SPDX-License-Identifier: MIT OR Apache-2.0
"""Tests of rrdi-import, rrdi-export and rrdi-compare. Scripts replace RRDtool, except in tests that say otherwise."""
from __future__ import annotations

import contextlib
import fcntl
import io
import os
import pty
import random
import sys
import unittest
from array import array
from typing import Any, Callable, Dict, List, Tuple
from unittest import mock

from cases import needs_program
from doubles import PROGRAM, TOP
from tool_case import NO_RRDTOOL, RRDTOOL, Ran, ToolCase

from rrdi.amounts import Millionths
from rrdi.importing.dump import Refusal, RrdArchive, RrdFile, RrdSource
from rrdi.printed import Settings, Source
from rrdi.tools import compare, importer, restoring
from rrdi.tools.command_line import Failure, Progress
from rrdi.tools.program import CommandFailed
from rrdi.tools.restoring import are_close, difference
from rrdi.tools.rrdtool_xml import as_xml

NAN = float("nan")

DUMP = """<rrd><version>0003</version><step>10</step><lastupdate>1600000030</lastupdate>
<ds><name> g </name><type> GAUGE </type><minimal_heartbeat>60</minimal_heartbeat><min>-5</min><max>NaN</max>
<last_ds>3.5</last_ds><value>0</value><unknown_sec> 0 </unknown_sec></ds>
<ds><name> double </name><type> COMPUTE </type><cdef> g,2,* </cdef>
<last_ds>U</last_ds><value>NaN</value><unknown_sec> 0 </unknown_sec></ds>
<rra><cf>AVERAGE</cf><pdp_per_row>1</pdp_per_row><params><xff>5e-1</xff></params><cdp_prep>
<ds><value>NaN</value><unknown_datapoints>0</unknown_datapoints></ds>
<ds><value>NaN</value><unknown_datapoints>0</unknown_datapoints></ds>
</cdp_prep><database><row><v>1</v><v>2</v></row><row><v>NaN</v><v>NaN</v></row><row><v>3.5</v><v>7</v></row></database></rra>
</rrd>
"""
BATCH = """create --step 10 --start 1600000000 DS:g:GAUGE:9999999999:U:U RRA:AVERAGE:0.5:1:3
update 1600000010:1 1600000020:U 1600000030:3.5
tune --heartbeat g:60 --minimum g:-5
"""
NOTE = "rrdi-import: old.rrd: skipped data source double: type COMPUTE is not supported; its formula is g,2,*\n"


class Import(ToolCase):
    def setUp(self) -> None:
        super().setUp()
        self.write("dump", DUMP)
        self.write("last", "1600000030\n")
        self.stub("rrdtool", f'case $1 in dump) cat {self.folder}/dump ;; last) cat {self.folder}/last ;; esac')

    def test_usage(self) -> None:
        self.check_usage("rrdi-import", "[--journal DEPTH] OLD.rrd|OLD.wsp [NEW.rrdi]\n"
                         "       rrdi-import [--journal DEPTH] [--jobs N] --into DIRECTORY|--in-place OLD|TREE..",
                         [[], ["a", ""]])

    def test_no_file(self) -> None:
        """Nobody waits for whoever may write into a FIFO."""
        for name in ("f.rrd", "f.wsp"):
            os.mkfifo(self.folder / name)
            self.assertEqual(self.tool("rrdi-import", name), Ran(1, "", f"rrdi-import: {name}: cannot open: not a regular file\n"))
            ran = self.tool("rrdi-import", "--into", "new", name)
            self.assertEqual((ran.status, ran.err), (1, f"rrdi-import: {name}: not converted: cannot open: not a regular file\n"))

    @needs_program
    def test_rows_that_differ(self) -> None:
        """The new file is compared with the old one: a maximum of 99 is in none of the rows of which the row consists."""
        begin, end = DUMP.replace("COMPUTE", "GAUGE").replace("1600000030", "1600000050").split("</rra>")
        parts = begin[begin.index("<params>"):begin.index("<database>")]
        for cell, note in ((99, "rrdi-import: old.rrd: archive 1, MAX of 30 s: 1 of 2 cells differ, the newest at 1600000050: "
                                "the row is computed again, by the rules of rrdi\n"), (3.5, "")):
            self.write("last", "1600000050\n")
            self.write("dump", f"{begin}</rra><rra><cf>MAX</cf><pdp_per_row>3</pdp_per_row>{parts}<database>"
                               f"<row><v>{cell}</v><v>7</v></row></database></rra>{end}")
            self.assertEqual(self.tool("rrdi-import", "old.rrd", f"{cell}.rrdi"), Ran(0, "", note))

    def test_the_batch(self) -> None:
        """A source is left out, so the status is 1, and no loop takes the new file for the old one."""
        self.assertEqual(self.tool("rrdi-import", "old.rrd"), Ran(1, BATCH, NOTE))
        self.write("dump", DUMP.replace("COMPUTE", "GAUGE"))
        self.assertEqual(self.tool("rrdi-import", "old.rrd").status, 0)
        self.write("dump", DUMP)
        ran = self.tool("rrdi-import", "--journal", "7", "old.rrd")
        self.assertEqual(ran.out, BATCH.replace(" DS:", " --journal 7 DS:"))

    @needs_program
    def test_a_new_file(self) -> None:
        self.assertEqual(self.tool("rrdi-import", "--journal", "9", "old.rrd", "new.rrdi"), Ran(1, "", NOTE))
        self.assertEqual(self.rrdi("fetch", "new.rrdi", "AVERAGE", "-s", "1600000000", "-e", "1600000029"),
                         "time: g\n1600000010: 1.000000\n1600000020: nan\n1600000030: 3.500000\n")
        self.assertIn("journal = 9\n", self.rrdi("info", "new.rrdi"))
        before = self.read("new.rrdi")
        self.assertEqual(self.tool("rrdi-import", "old.rrd", "new.rrdi"),
                         Ran(1, "", "rrdi-import: new.rrdi already exists\n"))
        self.assertEqual(self.read("new.rrdi"), before)

    @needs_program
    def test_a_file_that_appears_meanwhile(self) -> None:
        """A file that another program makes while the old one is converted stays as it is."""
        slow = self.stub("slow", f'echo other >{self.folder}/new.rrdi; exec {PROGRAM} "$@"')
        ran = self.tool("rrdi-import", "old.rrd", "new.rrdi", env={"RRDI": slow})
        self.assertEqual((ran.status, ran.err), (1, NOTE + "rrdi-import: new.rrdi already exists\n"))
        self.assertEqual(self.read("new.rrdi"), b"other\n")
        self.assertEqual([path.name for path in self.folder.iterdir() if ".new" in path.name], [])

    def test_a_refusing_program(self) -> None:
        made = "[ $1 = create ] && echo made >$2 && exit; cat >/dev/null; "
        for text, reason in ((made + "echo 'ERROR: too large'; exit 1", "too large"),
                             (made + "echo 'ERROR: cannot write' >&2; exit 1", "cannot write"),
                             ("echo 'ERROR: bad step' >&2; echo made >$2; exit 1", "bad step"),
                             (made + "kill -9 $$", "ended with status -9"), ("echo made >$2; kill -9 $$", "ended with status -9")):
            ran = self.tool("rrdi-import", "old.rrd", "new.rrdi", env={"RRDI": self.stub("refuses", text)})
            self.assertEqual(ran.status, 1)
            self.assertTrue(ran.err.endswith(f"{reason}\n"), ran.err)
            self.assertEqual([path.name for path in self.folder.glob("*.rrdi*")], [])
        ran = self.tool("rrdi-import", "old.rrd", "new.rrdi", env={"RRDI": "/nowhere"})
        self.assertEqual(ran.err, NOTE + "rrdi-import: cannot run /nowhere: No such file or directory\n")

    def test_what_is_refused(self) -> None:
        self.assertEqual(self.tool("rrdi-import", "old.rrd", env={"PATH": "/nowhere"}),
                         Ran(1, "", "rrdi-import: rrdtool is not installed (Debian: apt install rrdtool)\n"))
        self.write("last", "1600000040\n")
        self.assertEqual(self.tool("rrdi-import", "old.rrd"),
                         Ran(1, "", "rrdi-import: old.rrd: the file changed while it was read\n"))
        for size in (0, 100, len(DUMP) // 2, len(DUMP) - 8):
            self.write("dump", DUMP[:size])
            self.assertEqual(self.tool("rrdi-import", "old.rrd", "new.rrdi"),
                             Ran(1, "", "rrdi-import: old.rrd: rrdtool did not read the file to its end\n"))
        self.assertFalse((self.folder / "new.rrdi").exists())
        self.stub("rrdtool", "echo \"ERROR: opening '$2': No such file or directory\" >&2; exit 1")
        self.assertEqual(self.tool("rrdi-import", "old.rrd"),
                         Ran(1, "", "rrdi-import: ERROR: opening 'old.rrd': No such file or directory\n"))
        self.write("dump", DUMP.replace("GAUGE", "COMPUTE"))
        self.stub("rrdtool", f"cat {self.folder}/dump")
        self.assertEqual(self.tool("rrdi-import", "old.rrd").status, 1)

    def test_a_full_disk(self) -> None:
        self.assertEqual(self.tool("rrdi-import", "old.rrd", stdout="/dev/full"),
                         Ran(1, "", NOTE + "rrdi-import: No space left on device\n"))

    @needs_program
    def test_a_full_disk_leaves_no_file(self) -> None:
        self.assertEqual(self.tool("rrdi-import", "old.rrd", "new.rrdi", size=50),
                         Ran(1, "", NOTE + "rrdi-import: new.rrdi: cannot write: No space left on device\n"))
        self.assertEqual([path.name for path in self.folder.glob("new.rrdi*")], [])
        self.assertEqual(self.tool("rrdi-import", "old.rrd", "/nowhere/new.rrdi").err,
                         NOTE + "rrdi-import: /nowhere/new.rrdi: No such file or directory\n")

    def test_a_link_is_no_rrdtool(self) -> None:
        (self.bin / "rrdtool").unlink()
        env = self.only_path()
        (self.bin / "rrdtool").symlink_to(self.folder / "words")
        for text in ("#!/bin/sh\nrrdtool-words\n", '"""Starts rrdi-rrdtool."""\n', "from rrdi.tools.rrdtool import main"):
            self.write("words", text)
            (self.folder / "words").chmod(0o755)
            self.assertIn("rrdtool is not installed", self.tool("rrdi-import", "old.rrd", env=env).err)


class LongMoves(ToolCase):
    """Moves of over a second, whose progress a terminal shows; a file or a pipe gets none of it."""

    def is_shown(self, tool: str, *words: str, shown: str) -> None:
        words = (sys.executable, str(TOP / "tools" / tool), *words)
        status, seen = self.on_terminal(list(words))
        self.assertEqual(status, 0, seen)
        self.assertRegex(seen, f"^(\r{shown}\x1b\\[K)+\r\x1b\\[K$")
        for name in ("new.rrd", "new.rrdi"):
            (self.folder / name).unlink(missing_ok=True)
        ran = self.run_command(list(words))
        self.assertEqual((ran.status, ran.err), (0, ""))

    def test_import(self) -> None:
        row = "<row><v>{}</v><v>1</v></row>"
        begin, end = DUMP.replace("COMPUTE", "GAUGE").split("<row><v>1</v>")
        self.write("begin", begin + "".join(row.format(at) for at in range(2_500)))
        self.write("end", "".join(row.format(at) for at in range(2_500)) + end[end.index("</database>"):])
        self.write("old.rrd", bytes(8 * 2 * 5_000))
        self.stub("rrdtool", f"case $1 in last) echo 1600000030 ;; "
                             f"dump) cat {self.folder}/begin; sleep 1.3; cat {self.folder}/end ;; esac")
        self.is_shown("rrdi-import", "old.rrd", shown="reading old.rrd: (20|40|60|80|100) %")
        shares: List[int] = []
        with mock.patch.object(Progress, "show", lambda progress, done, size=None: shares.append(100 * done // size)), \
                mock.patch.dict(os.environ, {"PATH": self.env["PATH"]}), contextlib.redirect_stdout(io.StringIO()):
            importer.import_one(str(self.folder / "old.rrd"), None, None)
        self.assertEqual((shares, shares[-1] > shares[0] > 0), (sorted(shares), True))

    @needs_program
    def test_export(self) -> None:
        self.create("f.rrdi", "DS:g:GAUGE:100:-5:U", "RRA:AVERAGE:0.5:1:20000")
        self.stub("rrdtool", "case $1 in restore) sleep 1.3; cat ;; dump) cat $2 ;; last) echo 0 ;; esac")
        self.is_shown("rrdi-export", "f.rrdi", "new.rrd", shown="lines of XML: [0-9,]+")
        slow = f"{sys.executable} {TOP}/tools/rrdi-export f.rrdi | (head -c 1 >/dev/null; sleep 1.3; cat >/dev/null)"
        status, seen = self.on_terminal(["sh", "-c", slow])
        self.assertEqual(status, 0)
        self.assertRegex(seen, "^(\rlines of XML: [0-9,]+\x1b\\[K)+\r\x1b\\[K$")


class Shown(unittest.TestCase):
    """How progress is shown on a terminal."""

    def shown(self, is_terminal: bool, times: List[float]) -> str:
        """Returns the output if `show` is called at some times, in seconds since the start."""
        output = io.StringIO()
        with mock.patch.object(sys, "stderr", output), mock.patch.object(output, "isatty", lambda: is_terminal):
            now = [0.0]
            progress = Progress("moving", lambda: now[0])
            for at, time in enumerate(times):
                now[0] = time
                progress.show(10 * at, 80 if at % 2 else None)
            progress.end()
        return output.getvalue()

    def test_progress(self) -> None:
        self.assertEqual(self.shown(False, [0.5, 2, 4]), "")
        self.assertEqual(self.shown(True, [0.1, 0.5, 0.9]), "")
        self.assertEqual(self.shown(True, [2, 2.1]), "\rmoving: 0\x1b[K\r\x1b[K")
        self.assertEqual(self.shown(True, [0.5, 2, 4]), "\rmoving: 12 %\x1b[K\rmoving: 20\x1b[K\r\x1b[K")

    def test_a_bar(self) -> None:
        """It is as long as the share that is done, and no more than all is done."""
        for done, bar, share in ((0, "", 0), (50, "#" * 15, 50), (99, "#" * 29, 99), (100, "#" * 30, 100), (150, "#" * 30, 100)):
            output = io.StringIO()
            with mock.patch.object(sys, "stderr", output), mock.patch.object(output, "isatty", lambda: True), \
                    mock.patch.object(Progress, "FIRST", 0.0):
                Progress("drawing", lambda: 0.0, has_bar=True).show(done, 100)
            self.assertEqual(output.getvalue(), f"\rdrawing: [{bar.ljust(30)}] {share} %\x1b[K")

    def test_a_terminal(self) -> None:
        """A long move on a terminal: the text on standard error, which is then cleared."""
        terminal, other = pty.openpty()
        with mock.patch.object(Progress, "FIRST", 0.0), mock.patch.object(Progress, "NEXT", 0.0), \
                open(other, "w", encoding="utf-8") as shown, mock.patch.object(sys, "stderr", shown):
            progress = Progress("lines")
            progress.show(1_234_567)
            progress.end()
        seen = b""
        try:
            while data := os.read(terminal, 1_000):  # the text may come in parts
                seen += data
        except OSError:  # the other end is closed
            pass
        os.close(terminal)
        self.assertEqual(seen.decode(), "\rlines: 1,234,567\x1b[K\r\x1b[K")


@needs_program
class Export(ToolCase):
    def setUp(self) -> None:
        super().setUp()
        self.create("f.rrdi", "DS:g:GAUGE:100:-5:U", "DS:c:COUNTER:100:0:U", "RRA:AVERAGE:0.5:1:2", "RRA:MAX:0.5:3:1")
        self.rrdi("update", "f.rrdi", "4:U:100", "14:2:120", "27:U:146")

    def test_the_xml(self) -> None:
        ran = self.tool("rrdi-export", "f.rrdi")
        self.assertEqual((ran.status, ran.err), (0, ""))
        for text in ("<step>10</step><lastupdate>27</lastupdate>", "<last_ds>146</last_ds><value>14.000000</value>",
                     "<min>-5.000000</min><max>NaN</max>", "<unknown_sec>7</unknown_sec>",
                     "<row><v>NaN</v><v>2.000000</v></row>", "<unknown_datapoints>1</unknown_datapoints>"):
            self.assertIn(text, ran.out)

    def test_restore_gets_the_xml(self) -> None:
        wanted = self.tool("rrdi-export", "f.rrdi").out
        self.stub("rrdtool", 'case $1 in restore) cat ;; dump) cat $2 ;; last) echo 27 ;; esac')
        self.assertEqual(self.tool("rrdi-export", "f.rrdi", "new.rrd"), Ran(0, "", ""))
        self.assertEqual(self.read("new.rrd").decode(), wanted)
        self.assertEqual(self.tool("rrdi-export", "f.rrdi", "new.rrd"), Ran(1, "", "rrdi-export: new.rrd already exists\n"))
        self.stub("rrdtool", "head -c 100 >/dev/null; echo 'ERROR: cannot write' >&2; exit 1")
        self.assertEqual(self.tool("rrdi-export", "f.rrdi", "b.rrd"), Ran(1, "", "rrdi-export: ERROR: cannot write\n"))
        self.stub("rrdtool", "exit 3")
        self.assertEqual(self.tool("rrdi-export", "f.rrdi", "b.rrd").err,
                         "rrdi-export: rrdtool restore ended with status 3\n")

    def test_what_is_refused(self) -> None:
        self.assertEqual(self.tool("rrdi-export", "none.rrdi"),
                         Ran(1, "", "rrdi-export: none.rrdi: No such file or directory\n"))
        self.write("cut", self.read("f.rrdi")[:100])
        self.assertEqual(self.tool("rrdi-export", "cut"), Ran(1, "", "rrdi-export: cut: file: truncated at 100\n"))
        with open(self.folder / "f.rrdi", "ab") as file:
            fcntl.flock(file, fcntl.LOCK_EX)
            self.assertEqual(self.tool("rrdi-export", "f.rrdi"), Ran(
                1, "", "rrdi-export: f.rrdi: cannot open: another program holds its lock\n"))
        self.assertEqual(self.tool("rrdi-export", "f.rrdi", stdout="/dev/full"),
                         Ran(1, "", "rrdi-export: No space left on device\n"))
        self.assertEqual(self.run_command(["sh", "-c", f"{self.python()} f.rrdi | head -c 1"]).out, "<")

    def python(self) -> str:
        return f"{TOP}/tools/rrdi-export"


class Lines(unittest.TestCase):
    def test_when_the_line_of_progress_goes(self) -> None:
        """Before each line is passed on, the first of which comes when the old file is read; and at the end, however that is."""
        progress = mock.Mock()
        lines = importer.ended(iter("ab"), progress)
        for count, line in enumerate("ab", 1):
            self.assertEqual((next(lines), progress.end.call_count), (line, count))
        self.assertEqual((list(lines), progress.end.call_count), ([], 3))
        with self.assertRaises(ZeroDivisionError):
            list(importer.ended((1 // 0 for _ in "a"), progress))  # type: ignore[misc]
        self.assertEqual(progress.end.call_count, 4)
        with mock.patch.object(importer, "Progress") as made:
            self.assertEqual(list(importer.counted(iter("abc"))), ["a", "b", "c"])
        self.assertEqual(made.mock_calls, [mock.call("converting"), *(mock.call().show(count) for count in (1, 2, 3)), mock.call().end()])


class ReadBack(unittest.TestCase):
    """What rrdtool has restored is compared with the database, part by part."""

    def both(self) -> Tuple[Any, RrdFile]:
        """A database five seconds after its last step, and six steps after its last row of nine; and the same as a file of RRDtool."""
        sources = [{"name": "g", "type": "GAUGE", "heartbeat": 60, "last_raw": Millionths(2_500_000), "known_seconds": 5, "min": Millionths(-1_500_000), "max": None, "sum": Millionths(12_500_000)},
                   {"name": "c", "type": "COUNTER", "heartbeat": 70, "last_raw": 7, "known_seconds": 2, "min": None, "max": Millionths(10**15), "sum": Millionths(0)}]
        archives = [{"function": "AVERAGE", "steps": 9, "xff": Millionths(500_000), "preparations": [{"value": Millionths(3_000_000), "known_steps": 4}, {"value": Millionths(0), "known_steps": 0}],
                     "rows": [{"cells": [Millionths(1_000_000), None]}, {"cells": [None, Millionths(-2_000_000)]}]}]
        step, last = 10, 9 * 10 * 11_111_111 + 65
        found = RrdFile(step, last, [RrdSource(0, "g", "GAUGE", 60, -1.5, NAN, "2.500000", 12.5, 0), RrdSource(1, "c", "COUNTER", 70, NAN, 1e9, "7", 0.0, 3)],
                        [RrdArchive(0, "AVERAGE", 9, 0.5, [3.0, NAN], [2, 6], array("d", [1.0, NAN, NAN, -2.0]), 2)])
        return {"step": step, "last_time": last, "sources": sources, "archives": archives}, found

    def test_each_part(self) -> None:
        database, found = self.both()
        self.assertEqual(difference(database, found), "")
        changes: List[Tuple[str, Callable[[RrdFile], Any], Dict[str, Any]]] = [
            ("the step or the last time", lambda file: file, {"step": 11, "last": 5}), ("the number of data sources or archives", lambda file: file, {"sources": found.sources[:1], "archives": []}),
            *((f"the data source {name}", lambda file, at=at: file.sources[at], {"name": "x", "kind": "DERIVE", "heartbeat": 9, "minimum": 5.0, "maximum": 5.0, "last_raw": "5", "partial_sum": 5.0, "unknown_seconds": 1}) for at, name in enumerate("gc")),
            ("archive 0", lambda file: file.archives[0], {"function": "MAX", "steps": 8, "share": 0.25, "columns": 1, "partial": [3.0, 5.0], "unknown_steps": [2, 5], "cells": array("d", [1.0, NAN, 5.0, -2.0])})]
        for text, part, values in changes:
            for name, value in values.items():
                found = self.both()[1]
                setattr(part(found), name, value)
                self.assertEqual(difference(database, found), text, name)
        for cells in ([NAN, NAN, NAN, -2.0], [1.0, NAN, NAN, 2.0], [1.0, NAN, NAN, NAN], [1.0, NAN, 0.0, -2.0]):
            found = self.both()[1]
            found.archives[0].cells = array("d", cells)
            self.assertEqual(difference(database, found), "archive 0")

    def test_digits(self) -> None:
        """rrdtool prints eleven digits: a number may differ by a unit of the tenth behind the first."""
        for wanted, read, is_close in ((10**6, 1 + 0.9e-10, True), (10**6, 1 - 0.9e-10, True), (10**6, 1 + 1.1e-10, False), (-10**6, -1 - 0.9e-10, True), (-10**6, -1 - 1.1e-10, False), (0, 0.0, True), (0, 1e-300, False), (10**18, 1e12 + 99, True),
                                       (10**18, 1e12 + 101, False), (None, NAN, True), (None, 0.0, False), (0, NAN, False)):
            self.assertEqual(are_close([(wanted, read)]), is_close, (wanted, read))
            self.assertEqual(are_close([(0, 0.0), (wanted, read)]), is_close)

    def test_the_xml(self) -> None:
        self.assertEqual(list(as_xml(self.both()[0])), [
            '<?xml version="1.0" encoding="utf-8"?>', f"<rrd><version>0003</version><step>10</step><lastupdate>{9 * 10 * 11_111_111 + 65}</lastupdate>",
            "<ds><name>g</name><type>GAUGE</type>", "<minimal_heartbeat>60</minimal_heartbeat>", "<min>-1.500000</min><max>NaN</max>", "<last_ds>2.500000</last_ds><value>12.500000</value>", "<unknown_sec>0</unknown_sec></ds>",
            "<ds><name>c</name><type>COUNTER</type>", "<minimal_heartbeat>70</minimal_heartbeat>", "<min>NaN</min><max>1000000000.000000</max>", "<last_ds>7</last_ds><value>0.000000</value>", "<unknown_sec>3</unknown_sec></ds>",
            "<rra><cf>AVERAGE</cf><pdp_per_row>9</pdp_per_row>", "<params><xff>0.500000</xff></params><cdp_prep>",
            "<ds><primary_value>NaN</primary_value><secondary_value>NaN</secondary_value>", "<value>3.000000</value>", "<unknown_datapoints>2</unknown_datapoints></ds>",
            "<ds><primary_value>-2.000000</primary_value><secondary_value>NaN</secondary_value>", "<value>NaN</value>", "<unknown_datapoints>6</unknown_datapoints></ds>",
            "</cdp_prep><database>", "<row><v>1.000000</v><v>NaN</v></row>", "<row><v>NaN</v><v>-2.000000</v></row>", "</database></rra>", "</rrd>"])

    def test_what_goes_wrong(self) -> None:
        database, found = self.both()
        for read, text in ((found, ""), (RrdFile(9, 5, [], []), "what rrdtool restored is not equal: the step or the last time"), (Refusal("odd"), "what rrdtool restored cannot be read back: odd")):
            lines: List[int] = []
            with mock.patch.object(restoring, "restore") as made, mock.patch.object(restoring, "read_old", side_effect=[read]) as back:
                if text:
                    with self.assertRaisesRegex(Failure, f"^{text}$"):
                        restoring.restore_equal(database, "new", lines.append)
                else:
                    restoring.restore_equal(database, "new", lines.append)
            self.assertEqual((list(made.call_args[0][0]), made.call_args[0][1:], back.call_args[0][0]), (list(as_xml(database)), ("new", lines.append), "new"))


class Comparing(unittest.TestCase):
    """The parts of rrdi-compare, without a program."""

    def test_counts(self) -> None:
        """Cells agree if they are a millionth and a unit of the eleventh digit apart, or both are unknown."""
        cases: List[Tuple[List[Tuple[int, float, float]], str, bool]] = [
            ([], "0 cells, 0 agree", False), ([(10, 1, 1), (20, NAN, NAN)], "2 cells, 2 agree", True), ([(10, 1, 1.000001), (20, 1e12, 1e12 + 100), (30, -1e12, -1e12 - 100)], "3 cells, 3 agree", True),
            ([(10, 1, 1.0000021)], "1 cells, 0 agree, 1 apart by up to 0.000002, the newest at 10", False), ([(10, 1e12, 1e12 + 101)], "1 cells, 0 agree, 1 apart by up to 101.000000, the newest at 10", False),
            ([(10, -5, -7)], "1 cells, 0 agree, 1 apart by up to 2.000000, the newest at 10", False), ([(10, 0, NAN)], "1 cells, 0 agree, 1 only in the old file, the newest at 10", False), ([(0, NAN, 0)], "1 cells, 0 agree, 1 only in the new, the newest at 0", False),
            ([(30, NAN, 5), (20, 5, NAN), (40, 1, 1), (10, 1, 2), (5, 1, 9), (7, 1, 3)], "6 cells, 1 agree, 1 only in the old file, 1 only in the new, 3 apart by up to 8.000000, the newest at 30", False)]
        for cells, text, is_equal in cases:
            counts = compare.Counts()
            for cell in cells:
                counts.add(*cell)
            self.assertEqual((counts.text(), counts.is_equal()), (text, is_equal))

    def test_archives(self) -> None:
        """Of the functions that rrdi has, from the oldest row to the last whole one, and not before 1970."""
        def info(*archives: Tuple[str, int, int]) -> str:
            return "step = 10\nlast_update = 1005\n" + "".join(f'rra[{at}].cf = "{function}"\nrra[{at}].rows = {rows}\nrra[{at}].pdp_per_row = {steps}\n' for at, (function, rows, steps) in enumerate(archives))
        self.assertEqual(list(compare.spans(info(("AVERAGE", 5, 1), ("HWPREDICT", 5, 1), ("MAX", 7, 3), ("LAST", 999, 6), ("MIN", 33, 3)))),
                         [("AVERAGE", 10, 950, 999), ("MAX", 30, 780, 989), ("LAST", 60, 0, 959), ("MIN", 30, 0, 989)])
        self.assertEqual((list(compare.spans("")), list(compare.spans(info()))), ([], []))
        first = compare.ArchiveSpan("MAX", 30, 600, 989)
        for other, is_like in ((first, True), (first._replace(begin=601), True), (first._replace(begin=599), False), (first._replace(function="MIN"), False), (first._replace(seconds=60), False), (first._replace(end=5), True)):
            self.assertEqual(compare.is_like(first, other), is_like, other)

    def test_cells(self) -> None:
        found = compare.old_cells("            a    b\n\n10: 1.5000000000e+00 nan\n\n20: -nan -2.0000000000e+00\nno time\n")
        self.assertEqual(repr(found), "{10: {'a': 1.5, 'b': nan}, 20: {'a': nan, 'b': -2.0}}")
        self.assertEqual((compare.old_cells(""), compare.old_cells(" a\n")), ({}, {}))
        for begin, start in ((400_000_005, "400000005"), (315_360_002, "315360002"), (315_360_000, "315360001"), (0, "315360001")):
            with mock.patch("rrdi.tools.rrdtool_program.ask", return_value=" a b\n\n10: 1 2\n20: 3 4\n") as old, mock.patch("rrdi.tools.program.ask", return_value="time: a c\n20: 3 5\n30: 1 nan\n") as new:
                counts = compare.compare_archive("o", "n", compare.ArchiveSpan("MAX", 10, begin, 400_000_029))
            self.assertEqual(counts.text(), "4 cells, 2 agree, 2 only in the new, the newest at 30")
            self.assertEqual([asked.call_args[0][0] for asked in (old, new)], [["fetch", name, "MAX", "-r", "10", "-s", start, "-e", "400000029"] for name in ("o", "n")])

    def test_both_files(self) -> None:
        info = 'step = 10\nlast_update = 1005\nds[a].type = "GAUGE"\nds[b-c].type = "COMPUTE"\nds[d].type = "DERIVE"\n' + "".join(f'rra[{at}].cf = "MAX"\nrra[{at}].rows = {rows}\nrra[{at}].pdp_per_row = 1\n' for at, rows in enumerate((5, 5, 6)))
        counts = [compare.Counts(), compare.Counts()]
        for one in counts:
            one.add(10, 1, 1)
        counts[1].add(20, 1, NAN)
        for order, status in ((counts, 1), (counts[::-1], 1), (counts[:1] * 2, 1)):
            with mock.patch("rrdi.tools.rrdtool_program.ask", return_value=info), mock.patch.object(compare, "compare_archive", side_effect=order) as each, mock.patch.object(compare, "missing_sources", return_value=["b-c (COMPUTE)", "d\t (X)"]), \
                    contextlib.redirect_stdout(io.StringIO()) as said:
                self.assertEqual(compare.compare(["o", "n"]), status)
            self.assertEqual(said.getvalue(), f"MAX 10 s: {order[0].text()}\nMAX 10 s: not compared, since fetch reads an archive before it\nMAX 10 s: {order[1].text()}\nonly in the old file: b-c (COMPUTE), d\\t (X)\n")
            self.assertEqual([call[0] for call in each.call_args_list], [("o", "n", compare.ArchiveSpan("MAX", 10, begin, 999)) for begin in (950, 940)])
        with mock.patch("rrdi.tools.rrdtool_program.ask", return_value=info.replace("rra[1].cf", "x")), mock.patch.object(compare, "compare_archive", return_value=counts[0]), mock.patch.object(compare, "missing_sources", return_value=[]), \
                contextlib.redirect_stdout(io.StringIO()) as said:
            self.assertEqual((compare.compare(["o", "n"]), said.getvalue()), (0, "MAX 10 s: 1 cells, 1 agree\n"))
        there = Settings(10, 0, 0, 0, [Source("a", "GAUGE", 1, "U", "U", "U")], [])
        with mock.patch("rrdi.tools.program.settings", return_value=there):
            self.assertEqual(compare.missing_sources(info, "n"), ["b-c (COMPUTE)", "d (DERIVE)"])
        with mock.patch("rrdi.tools.program.settings", side_effect=CommandFailed("file: version")), self.assertRaisesRegex(CommandFailed, "^n: file: version$"):
            compare.missing_sources(info, "n")


@needs_program
class Compare(ToolCase):
    """Of an archive of steps 1, nan and 2, and one of the maximum of three; rrdtool prints other numbers in turn."""

    ONE, TWO = "1.0000000000e+00", "2.0000000000e+00"

    def setUp(self) -> None:
        super().setUp()
        self.create("f.rrdi", "DS:g:GAUGE:10:U:U", "RRA:AVERAGE:0.5:1:3", "RRA:MAX:0.5:3:1")
        self.rrdi("update", "f.rrdi", "10:1", "20:U", "30:2")
        self.info = "step = 10\nlast_update = 30\n" + "".join(
            f'rra[{at}].cf = "{function}"\nrra[{at}].rows = {rows}\nrra[{at}].pdp_per_row = {length}\n'
            for at, (function, rows, length) in enumerate((("AVERAGE", 3, 1), ("MAX", 1, 3))))
        self.write("info", self.info)
        self.stub("rrdtool", f'if [ $1 = info ]; then cat {self.folder}/info; else cat {self.folder}/$3; fi')

    def compare(self, steps: str, greatest: str) -> Ran:
        cells = [f"{time}: {cell}" for time, cell in zip((10, 20, 30), steps.split())]
        self.write("AVERAGE", "\n".join(["          g", "", *cells, ""]))
        self.write("MAX", f"          g\n\n30: {greatest}\n")
        return self.tool("rrdi-compare", "old.rrd", "f.rrdi")

    def test_usage(self) -> None:
        self.check_usage("rrdi-compare", "OLD.rrd NEW.rrdi", [[]])

    def test_equal_files(self) -> None:
        self.assertEqual(self.compare(f"{self.ONE} -nan {self.TWO}", self.TWO),
                         Ran(0, "AVERAGE 10 s: 3 cells, 3 agree\nMAX 30 s: 1 cells, 1 agree\n", ""))

    def test_differences(self) -> None:
        one, two = self.ONE, self.TWO
        for steps, greatest, said in (
                (f"{one} {one} {two}", two, "2 agree, 1 only in the old file, the newest at 20"),
                (f"nan -nan {two}", two, "2 agree, 1 only in the new, the newest at 10"),
                (f"1.0000011000e+00 nan {two}", two, "2 agree, 1 apart by up to 0.000001"),
                (f"{one} nan 2.0010000000e+00", two, "2 agree, 1 apart by up to 0.001000, the newest at 30"),
                (f"{two} nan {two}", two, "MAX 30 s: 1 cells, 1 agree"),
                (f"{one} nan {two}", "3.0000000000e+00", "MAX 30 s: 1 cells, 0 agree")):
            with self.subTest(said=said):
                ran = self.compare(steps, greatest)
                self.assertEqual((ran.status, ran.err), (1, ""))
                self.assertIn(said, ran.out)

    def test_archives_of_one_kind(self) -> None:
        """A fetch reads the first of them, unless a later one has more rows."""
        info = self.info.replace("rra[0].rows = 3", "rra[0].rows = 2")
        for rows, last in ((3, "AVERAGE 10 s: 3 cells, 3 agree"),
                           (2, "AVERAGE 10 s: not compared, since fetch reads an archive before it")):
            self.create("f.rrdi", "DS:g:GAUGE:10:U:U", "RRA:AVERAGE:0.5:1:2", "RRA:MAX:0.5:3:1", f"RRA:AVERAGE:0.9:1:{rows}")
            self.rrdi("update", "f.rrdi", "10:1", "20:U", "30:2")
            self.write("info", f'{info}rra[2].cf = "AVERAGE"\nrra[2].rows = {rows}\nrra[2].pdp_per_row = 1\n')
            ran = self.compare(f"{self.ONE} -nan {self.TWO}", self.TWO)
            self.assertEqual((ran.status, ran.out.splitlines()[2:], ran.err), (int(rows == 2), [last], ""))

    def test_missing_sources(self) -> None:
        """Those that only the old file has are named; the status is that of the cells."""
        self.write("info", self.info + "".join(f'ds[{name}].type = "{kind}"\n' for name, kind in (
            ("g", "GAUGE"), ("all", "COMPUTE"), ("a-b", "GAUGE"))))
        ran = self.compare(f"{self.ONE} -nan {self.TWO}", self.TWO)
        self.assertEqual((ran.status, ran.out.splitlines()[-1]), (0, "only in the old file: all (COMPUTE), a-b (GAUGE)"))

    def test_no_archive(self) -> None:
        for info in (self.info.replace("AVERAGE", "HWPREDICT").replace("MAX", "FAILURES"), ""):
            self.write("info", info)
            self.assertEqual(self.compare(self.ONE, self.TWO),
                             Ran(1, "", "rrdi-compare: old.rrd has no archive that rrdi can have\n"))

    def test_failing_programs(self) -> None:
        good = f"{self.ONE} nan {self.TWO}"
        self.compare(good, self.TWO)
        self.assertEqual(self.tool("rrdi-compare", "old.rrd", "none.rrdi"),
                         Ran(1, "", "rrdi-compare: rrdi does not fetch AVERAGE from none.rrdi: cannot open: No such file or "
                                    "directory\n"))
        self.stub("rrdtool", f'[ $1 = info ] && cat {self.folder}/info && exit; echo "ERROR: no" >&2; exit 1')
        self.assertEqual(self.compare(good, self.TWO),
                         Ran(1, "", "rrdi-compare: rrdtool does not fetch AVERAGE from old.rrd: ERROR: no\n"))
        self.stub("rrdtool", "exit 1")
        self.assertEqual(self.compare(good, self.TWO),
                         Ran(1, "", "rrdi-compare: rrdtool does not read old.rrd: rrdtool ended with status 1\n"))
        (self.bin / "rrdtool").unlink()
        self.assertEqual(self.tool("rrdi-compare", "old.rrd", "f.rrdi", env={"PATH": "/nowhere"}),
                         Ran(1, "", "rrdi-compare: rrdtool is not installed (Debian: apt install rrdtool)\n"))


@needs_program
@unittest.skipUnless(RRDTOOL, NO_RRDTOOL)
class ThereAndBack(ToolCase):
    """The programs themselves move random files of RRDtool to rrdi, and back to RRDtool."""

    def test_random_files(self) -> None:
        assert RRDTOOL
        for seed in range(4):
            chance = random.Random(seed)
            step = chance.choice([10, 60, 300])
            start = 1_600_000_000 - 1_600_000_000 % (12 * step)
            sources = ["DS:g:GAUGE:%d:U:U" % (3 * step), "DS:c:COUNTER:%d:0:U" % (3 * step)]
            archives = [f"RRA:{name}:0.5:{length}:{rows}" for length, rows in ((1, 200), (4, 40))
                        for name in ("AVERAGE", "MIN", "MAX")]
            self.run_command([RRDTOOL, "create", f"{seed}.rrd", "--step", str(step), "--start", str(start), *sources,
                              *archives])
            count, samples = 0, []
            for at in range(1, 150):
                count += chance.randrange(1000) * step
                samples.append(f"{start + at * step}:{'U' if chance.random() < 0.1 else chance.uniform(-9, 99):.4}:{count}"
                               if chance.random() < 0.1 else f"{start + at * step}:{chance.uniform(-9, 99):.4}:{count}")
            self.run_command([RRDTOOL, "update", f"{seed}.rrd", *samples])
            moved = self.tool("rrdi-import", f"{seed}.rrd", f"{seed}.rrdi")
            self.assertEqual(moved, Ran(0, "", ""))
            compared = self.tool("rrdi-compare", f"{seed}.rrd", f"{seed}.rrdi")
            self.assertEqual((compared.status, len(compared.out.splitlines()), compared.err), (0, 6, ""), compared.out)
            self.assertEqual(self.tool("rrdi-export", f"{seed}.rrdi", f"{seed}.back"), Ran(0, "", ""))
            self.assertEqual(self.tool("rrdi-compare", f"{seed}.back", f"{seed}.rrdi").status, 0)
