# SPDX-License-Identifier: MIT OR Apache-2.0
"""Tests of scripts of examples/, and of the tools that move files, as processes: what they lose or falsify if they are
wrong."""
from __future__ import annotations

import fcntl
import json
import os
import shutil
import subprocess
import time
from typing import Callable, Dict, List, Tuple
from unittest import mock

from cases import HANG, needs_program
from support import marks
from process_case import ProcessCase, locked, path_of, script
from rrdi.tools import rrdtool_program
from tool_case import Ran

XML = """<?xml version="1.0" encoding="utf-8"?>
<rrd><version>0003</version><step>10</step><lastupdate>27</lastupdate>
<ds><name>g</name><type>GAUGE</type>
<minimal_heartbeat>100</minimal_heartbeat>
<min>-5.000000</min><max>NaN</max>
<last_ds>U</last_ds><value>0.000000</value>
<unknown_sec>7</unknown_sec></ds>
<ds><name>c</name><type>COUNTER</type>
<minimal_heartbeat>100</minimal_heartbeat>
<min>0.000000</min><max>NaN</max>
<last_ds>146</last_ds><value>14.000000</value>
<unknown_sec>0</unknown_sec></ds>
<rra><cf>AVERAGE</cf><pdp_per_row>1</pdp_per_row>
<params><xff>0.500000</xff></params><cdp_prep>
<ds><primary_value>NaN</primary_value><secondary_value>NaN</secondary_value>
<value>NaN</value>
<unknown_datapoints>0</unknown_datapoints></ds>
<ds><primary_value>2.000000</primary_value><secondary_value>NaN</secondary_value>
<value>NaN</value>
<unknown_datapoints>0</unknown_datapoints></ds>
</cdp_prep><database>
<row><v>2.000000</v><v>2.000000</v></row>
<row><v>NaN</v><v>2.000000</v></row>
</database></rra>
<rra><cf>MAX</cf><pdp_per_row>3</pdp_per_row>
<params><xff>0.500000</xff></params><cdp_prep>
<ds><primary_value>NaN</primary_value><secondary_value>NaN</secondary_value>
<value>2.000000</value>
<unknown_datapoints>1</unknown_datapoints></ds>
<ds><primary_value>NaN</primary_value><secondary_value>NaN</secondary_value>
<value>2.000000</value>
<unknown_datapoints>0</unknown_datapoints></ds>
</cdp_prep><database>
<row><v>NaN</v><v>NaN</v></row>
</database></rra>
</rrd>
"""


def as_dump(step: int, last: int, steps: List[float], archives: List[Tuple[str, int, int]]) -> Tuple[str, List[Tuple[str, int, List[float]]]]:
    """Returns what rrdtool dump prints of a file with these steps up to its last time, and the rows."""
    lines = [f"<rrd><version>0003</version><step>{step}</step><lastupdate>{last}</lastupdate>"
             "<ds><name> g </name><type> GAUGE </type><minimal_heartbeat>99</minimal_heartbeat><min>NaN</min>"
             "<max>9.0000000000e+09</max><last_ds>1</last_ds><value>0</value><unknown_sec> 0 </unknown_sec></ds>"]
    ways: Dict[str, Callable[[List[float]], float]] = {
        "AVERAGE": lambda part: sum(part) / len(part), "MIN": min, "MAX": max}
    rows = []
    for function, length, count in archives:
        passed = last // step % length
        so_far = steps[len(steps) - passed:]
        partial = (sum(so_far) if function == "AVERAGE" else ways[function](so_far)) if so_far else float("nan")
        lines.append(f"<rra><cf>{function}</cf><pdp_per_row>{length}</pdp_per_row><params><xff>5e-01</xff></params>"
                     f"<cdp_prep><ds><value>{partial:.10e}</value><unknown_datapoints>0</unknown_datapoints></ds>"
                     "</cdp_prep><database>")
        cells = []
        for number in range(count):
            end = len(steps) - passed - (count - 1 - number) * length
            part = steps[max(end - length, 0):max(end, 0)]
            cells.append(f"{ways[function](part):.10e}" if len(part) == length else "NaN")
        lines += [f"<row><v>{cell}</v></row>" for cell in cells] + ["</database></rra>"]
        rows.append((function, step * length, [float(cell) for cell in cells]))
    return "\n".join([*lines, "</rrd>\n"]), rows


def marked(old: bytes, new: bytes) -> Dict[str, bytes]:
    """Returns files of an interrupted change that stand for the old bytes, and files that stand for them as new ones."""
    return {"only marked": marks.cut(old), "an uncommitted log": marks.uncommitted(old, new), "begun": marks.with_base(old),
            "a torn log": marks.logged(old, new)[:-1], "a log": marks.logged(new, old), "in place": marks.placed(new, old),
            "not cut": marks.uncut(new, old)}


@needs_program
class Safely(ProcessCase):
    def test_a_command(self) -> None:
        safely, file = script("rrdi-safely"), self.folder / "f.rrdi"
        words = ("--step", "10", "--start", "0", "DS:g:GAUGE:100:U:U", "RRA:AVERAGE:0.5:1:4")
        self.same("create", self.ran(safely, "create", "f.rrdi", *words).status, 0)
        file.chmod(0o666)
        self.same("update", self.ran(safely, "update", "f.rrdi", "10:1"), Ran(0, "", ""))
        self.same("last", self.asked("last", "f.rrdi"), "10\n")
        self.same("permissions", file.stat().st_mode & 0o777, 0o666)
        before = self.read("f.rrdi")
        self.same("a refused update", self.ran(safely, "update", "f.rrdi", "10:2"),
                   Ran(1, "", "ERROR: not later than 10\n"
                       "rrdi: 10 is not later than the last update, 10; the next sample may be at 11 or later\n"))
        self.same("the file after it", self.read("f.rrdi"), before)
        self.same("a batch with a refused line", self.ran(safely, "batch", "f.rrdi", given="update 5:1\nupdate 20:2\n"),
                   Ran(1, "ERROR: not later than 10\n",
                       "rrdi: line 1: 5 is not later than the last update, 10; the next sample may be at 11 or later\n"))
        (self.folder / "link.rrdi").symlink_to("f.rrdi")
        self.same("by a link", self.ran(safely, "update", "link.rrdi", "30:3").status, 0)
        self.same("a link stays one", (self.folder / "link.rrdi").is_symlink(), True)
        self.same("what it leads to", self.asked("last", "f.rrdi"), "30\n")
        shown = self.stub("shown", 'echo "$RRDI_SYNC:$#:$1:$3"; exit 3')
        self.same("what it runs", self.ran(safely, "update", "f.rrdi", "50:5 6", env={"RRDI": shown}),
                   Ran(3, "1:3:update:50:5 6\n", ""))
        self.same("usage", self.ran(safely, "update").status, 2)


@needs_program
class Moves(ProcessCase):
    def test_the_way_there(self) -> None:
        """Returns a batch of two sources: one is unknown from second 14 on, and the other is a counter that grows by two a
        second."""
        to = path_of("rrdi-export")
        self.made("f.rrdi", "DS:g:GAUGE:100:-5:U", "DS:c:COUNTER:100:0:U", "RRA:AVERAGE:0.5:1:2", "RRA:MAX:0.5:3:1")
        self.asked("update", "f.rrdi", "4:U:100", "14:2:120", "27:U:146")
        self.same("the XML", self.ran(to, "f.rrdi"), Ran(0, XML, ""))
        with open(self.folder / "f.rrdi", "rb") as file:
            piped = self.start(to, "-", stdin=file, stdout=subprocess.PIPE).communicate()[0]
            self.same("the XML of standard input", piped, XML.encode())
        with locked(self.folder / "f.rrdi"):
            self.same("beside a writer", self.ran(to, "f.rrdi"),
                       Ran(1, "", "rrdi-export: f.rrdi: cannot open: another program holds its lock\n"))
        (self.folder / "cut").write_bytes(self.read("f.rrdi")[:100])
        self.same("a damaged file", self.ran(to, "cut"), Ran(1, "", "rrdi-export: cut: file: truncated at 100\n"))
        self.same("usage", self.ran(to).status, 2)

    def test_the_way_back(self) -> None:
        convert, begin = path_of("rrdi-import"), 1_699_999_920
        self.stub("rrdtool", f'case $1 in dump) cat {self.folder}/dump ;; last) cat {self.folder}/last ;; esac')
        burst = [(0.0, 894976.0)[at % 3 == 1] for at in range(60)]
        nested = [(5.0, 10.0)[at % 2] for at in range(794)]
        three = [(function, length, rows) for length, rows in ((1, 6), (3, 20)) for function in ("AVERAGE", "MIN", "MAX")]
        cut = [("AVERAGE", 1, 7), ("AVERAGE", 3, 10), ("AVERAGE", 36, 22)]
        for name, steps, archives in (("a burst", burst, three), ("nested archives", nested, cut),
                                      ("a ramp", [at * 1.5 for at in range(100)], three + [("MAX", 12, 9)])):
            last = begin + 10 * len(steps)
            text, rows = as_dump(10, last, steps, archives)
            (self.folder / "dump").write_text(text)
            (self.folder / "last").write_text(f"{last}\n")
            ran = self.ran(convert, "--journal", "7", "old.rrd")
            self.same(f"{name}: the status", (ran.status, ran.err), (0, ""))
            self.has(f"{name}: the journal", ran.out, " --journal 7 ")
            self.same(f"{name}: the batch", self.asked("batch", "new.rrdi", given=ran.out), "")
            database = json.loads(self.ran(script("rrdi.py"), "json", "new.rrdi").out)
            for archive, (function, seconds, cells) in zip(database["archives"], rows):
                for row, wanted in zip(archive["rows"], cells):
                    found = row["cells"][0]
                    is_near = found is None if wanted != wanted else (
                        found is not None and abs(found - wanted) < 1.1e-6 + wanted / 1e10)
                    self.same(f"{name}: {function} of {seconds} s at {row['time']}: {found}, not {wanted}", is_near, True)
        (self.folder / "last").write_text(f"{last + 10}\n")
        self.same("a change while the file is read", self.ran(convert, "old.rrd"),
                   Ran(1, "", "rrdi-import: old.rrd: the file changed while it was read\n"))
        (self.folder / "dump").write_text(text[:len(text) // 2])
        self.same("half a dump", self.ran(convert, "old.rrd"),
                   Ran(1, "", "rrdi-import: old.rrd: rrdtool did not read the file to its end\n"))
        self.stub("rrdtool", "echo 'ERROR: no such file' >&2; exit 1")
        self.same("an error", self.ran(convert, "old.rrd"), Ran(1, "", "rrdi-import: old.rrd: ERROR: no such file\n"))
        (self.bin / "rrdtool").unlink()
        (self.bin / "rrdtool").symlink_to(script("rrdtool-words"))
        with mock.patch.dict(os.environ, {"PATH": str(self.bin)}):
            self.same("a link to rrdtool-words", rrdtool_program.find(), None)
        (self.bin / "rrdtool").unlink()
        self.same("usage", self.ran(convert, "--journal", "x", "old.rrd").status, 2)


@needs_program
class ReaderScript(ProcessCase):
    def test_files(self) -> None:
        reader = script("rrdi.py")
        self.made("f.rrdi", "DS:g:GAUGE:100:-2.5:U", "DS:c:COUNTER:100:0:U", "RRA:AVERAGE:0.5:1:3")
        self.asked("update", "f.rrdi", "10:-1.5:100", "20:2.25:150")
        found = self.ran(reader, "json", "f.rrdi")
        self.has("amounts have a point", found.out, '"min": -2.500000, ')
        rows = json.loads(found.out)["archives"][0]["rows"]
        self.same("rows", rows, [{"time": 0, "cells": [None, None]}, {"time": 10, "cells": [-1.5, None]},
                                  {"time": 20, "cells": [2.25, 5.0]}])
        self.same("csv", self.ran(reader, "csv", "f.rrdi").out,
                   "archive,function,seconds,time,g,c\n0,AVERAGE,10,10,-1.500000,\n0,AVERAGE,10,20,2.250000,5.000000\n")
        self.has("openmetrics", self.ran(reader, "openmetrics", "f.rrdi").out,
                  'rrdi_row{source="c",file="f.rrdi",archive="0",function="AVERAGE",seconds="10"} 5.000000 20\n')
        shutil.copyfile(self.folder / "f.rrdi", self.folder / 'a"b\\c')
        self.has("a name with quotes", self.ran(reader, "openmetrics", 'a"b\\c').out, 'file="a\\"b\\\\c"')
        self.made("long.rrdi", "DS:g:GAUGE:100:U:U", "RRA:AVERAGE:0.5:1:20000")
        self.asked("update", "long.rrdi", "10:1", "100:2", "180000:1")
        piped = self.start("sh", "-c", f"trap '' PIPE; {{ {reader} json long.rrdi; echo $? >status; }} | head -c 1",
                            stdout=subprocess.PIPE, stderr=subprocess.PIPE)
        self.same("a broken pipe", piped.communicate(timeout=HANG), (b"{", b""))
        self.same("its status", (self.folder / "status").read_text(), "1\n")
        with locked(self.folder / "f.rrdi"):
            self.same("beside a writer", self.ran(reader, "check", "f.rrdi"),
                       Ran(1, "", "rrdi.py: f.rrdi: cannot open: another program holds its lock\n"))
            waiting = self.start(reader, "check", "f.rrdi", env={"RRDI_WAIT": str(HANG)})
            time.sleep(0.4)
            self.same("waiting", waiting.poll(), None)
        self.same("after a writer", waiting.wait(HANG), 0)
        with locked(self.folder / "f.rrdi", fcntl.LOCK_SH):
            self.same("beside a reader", self.ran(reader, "check", "f.rrdi"), Ran(0, "", ""))
        old = self.read("long.rrdi")
        wanted = self.ran(reader, "csv", "long.rrdi").out
        for what, data in marked(old, old[:100] + bytes(len(old) - 100)).items():
            (self.folder / "marked").write_bytes(data)
            self.same(f"a broken change, {what}", self.ran(reader, "csv", "marked"), Ran(0, wanted, ""))
        wrong = bytearray(marks.logged(old, old))
        wrong[len(old) + marks.HEAD - 1] ^= 1
        for data in (marks.LOG + marks.number(4_096) + old[16:], wrong, marks.cut(old[:-1])):
            (self.folder / "marked").write_bytes(data)
            self.same("a mark without a database", self.ran(reader, "check", "marked"),
                       Ran(1, "", "rrdi.py: marked: file: not ours\n"))
        (self.folder / "cut").write_bytes(old[:100])
        self.same("a damaged file", self.ran(reader, "check", "cut"),
                   Ran(1, "", "rrdi.py: cut: file: truncated at 100\n"))
        self.same("usage", self.ran(reader, "csv").status, 2)
