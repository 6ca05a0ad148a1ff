# SPDX-License-Identifier: MIT OR Apache-2.0
"""Tests of the pages that rrdi-plot writes of a folder."""
from __future__ import annotations

import os
import re
import time
import unittest
from html.parser import HTMLParser
from pathlib import Path
from typing import Dict, List, Optional, Tuple
from urllib.parse import unquote_to_bytes

from cases import needs_program
from tool_case import Ran, ToolCase

START, DAY = 1_700_006_400, 86_400
END = START + 2 * DAY
USAGE = "FILE PICTURE.png|PICTURE.svg [FUNCTION] [options]\n       rrdi-plot --html DIR OUT [FUNCTION] [options]"


class Parts(HTMLParser):
    """The elements of a page with their attributes, and its texts."""

    def __init__(self, text: str):
        super().__init__()
        self.elements: List[Tuple[str, Dict[str, Optional[str]]]] = []
        self.texts: List[str] = []
        self.feed(text)

    def handle_starttag(self, tag: str, attrs: List[Tuple[str, Optional[str]]]) -> None:
        self.elements.append((tag, dict(attrs)))

    def handle_data(self, data: str) -> None:
        self.texts.append(data)

    def links(self) -> List[str]:
        return [given["href"] or "" for tag, given in self.elements if tag == "a"]

    def classes(self, begin: str) -> List[str]:
        return [given["class"] or "" for _, given in self.elements if (given.get("class") or "").startswith(begin)]


@needs_program
class Pages(ToolCase):
    def setUp(self) -> None:
        super().setUp()
        (self.folder / "tree/sub").mkdir(parents=True)
        self.database("tree/load.rrdi")
        self.env["PATH"] = str(self.bin)  # without gnuplot
        os.symlink("/usr/bin/python3", self.bin / "python3")

    def database(self, name: str, spike: int = 3) -> None:
        """A file with two days of rows of ten minutes; one hour is missing, and one value is far from the others."""
        self.create(name, "DS:in:GAUGE:700:U:U", "DS:out:GAUGE:700:U:U", "RRA:AVERAGE:0.5:1:300", "RRA:AVERAGE:0.5:6:800",
                    "RRA:MIN:0.5:6:800", "RRA:MAX:0.5:6:800", start=START, step=600)
        samples = [f"{START + 600 * at}:{spike if at == 250 else 1 + at % 3}:{-1 - at % 2}" for at in range(1, 289)
                   if not 200 <= at < 206]
        self.rrdi("update", name, *samples)

    def draw(self, *words: str, env: Optional[Dict[str, str]] = None) -> Ran:
        return self.tool("rrdi-plot", "--html", "tree", "out", *words, env=env)

    def page(self, name: str) -> str:
        return (self.folder / "out" / name).read_text(encoding="utf-8")

    def test_usage(self) -> None:
        self.check_usage("rrdi-plot", USAGE, [["--html", "tree"]])

    def test_pages(self) -> None:
        """A page for each file, and one for all, without gnuplot; nothing else is left in the folder."""
        self.database("tree/sub/net.rrdi")
        self.assertEqual(self.draw(), Ran(0, "2 files drawn\n", ""))
        found = sorted(str(path.relative_to(self.folder / "out")) for path in (self.folder / "out").rglob("*") if path.is_file())
        self.assertEqual(found, ["index.html", "load.rrdi.html", "sub/net.rrdi.html"])
        index, page = Parts(self.page("index.html")), Parts(self.page("sub/net.rrdi.html"))
        self.assertEqual((index.links(), page.links()), (["load.rrdi.html", "sub/net.rrdi.html"], ["../index.html"]))
        self.assertEqual(len(index.classes("line c")), 4)
        self.assertEqual([text for text in page.texts if text in ("Day", "Week", "Month", "Year")], ["Day", "Week", "Month", "Year"])
        self.assertEqual((len(page.classes("line c0")), len(page.classes("line c1")), len(page.classes("band c0"))), (4, 4, 3))
        for text in ("AVERAGE of 10 min, 2023-11-16 00:00 to 2023-11-17 00:00 UTC",
                     "AVERAGE of 1 h, 2023-11-10 00:00 to 2023-11-17 00:00 UTC", "No sample since 2023-11-17 00:00:00 UTC"):
            self.assertTrue(any(text in found for found in page.texts), text)
        cells = [text for text in page.texts if re.fullmatch(r"-?[0-9.]+", text)]
        for number in ("1.00", "3.00", "-2.00", "-1.00"):
            self.assertIn(number, cells)

    def test_a_gap(self) -> None:
        """The line of a day with an hour without samples has two parts."""
        self.assertEqual(self.draw().status, 0)
        day = self.page("load.rrdi.html").split("<h2>Week</h2>")[0]
        lines = re.findall('class="line c0" d="([^"]*)"', day)
        self.assertEqual([line.count("M") for line in lines], [2])

    def test_names(self) -> None:
        """Whatever a file is called, its name is text, and its link leads to its page."""
        name = "sub/<i>\"' onload=x&amp;#?%41<script>alert(1).rrdi"
        for other in (name, "javascript:alert(1).rrdi", "index.rrdi", "\u00fc.rrdi"):
            os.link(self.folder / "tree/load.rrdi", self.folder / "tree" / other)
        (self.folder / "tree/<b>.rrdi").write_text("nothing")
        ran = self.draw("--title", "<u>all</u>")
        self.assertEqual((ran.status, ran.out), (1, "5 files drawn; 1 not drawn\n"))
        self.assertEqual(ran.err, "rrdi-plot: tree/<b>.rrdi: not drawn: file: not ours\n")
        index, page = Parts(self.page("index.html")), Parts(self.page(name + ".html"))
        for parts in (index, page):
            self.assertFalse({tag for tag, _ in parts.elements} & {"script", "i", "b", "u"})
            self.assertFalse([key for _, given in parts.elements for key in given if key.startswith("on")])
        self.assertIn(name, page.texts)
        self.assertIn("<b>.rrdi: file: not ours", index.texts)
        self.assertEqual(len(index.links()), 5)
        for link in index.links():
            self.assertNotIn(":", link)
            self.assertTrue(os.path.isfile(os.fsencode(self.folder / "out") + b"/" + unquote_to_bytes(link)), link)

    def test_names_of_sources(self) -> None:
        """A name of a source that rrdi would not take is text too."""
        answer = "step = 600\\nlast_update = 1700000000\\njournal = 1\\nundoable = 0\\n" + "".join(
            f"ds[0].{key} = {value}\\n" for key, value in (("name", "<b>"), ("type", "GAUGE"), ("minimal_heartbeat", 1), ("min", "U"),
                                                           ("max", "U"), ("last_raw", "U")))
        answer += "rra[0].cf = AVERAGE\\nrra[0].xff = 0\\nrra[0].steps = 1\\nrra[0].rows = 9\\n"
        rows = "time <b>\\n1699999200: 1.000000\\n1699999800: 2.000000\\n"
        stub = self.stub("other", f"case $1 in info) printf '{answer}' ;; *) printf '{rows}' ;; esac")
        env = {"RRDI": stub, "PATH": f"{self.bin}:{os.environ['PATH']}"}
        self.env.pop("RRDI_LIBRARY", None)
        self.assertEqual(self.draw(env=env), Ran(0, "1 file drawn\n", ""))
        for name in ("index.html", "load.rrdi.html"):
            parts = Parts(self.page(name))
            self.assertIn("<b>", parts.texts)
            self.assertNotIn("b", {tag for tag, _ in parts.elements})

    def test_files_that_cannot_be_drawn(self) -> None:
        """They get a line and do not stop the others; files of RRDtool are passed over, and databases with their names are not."""
        self.database("tree/sub/a.rrd")
        self.write("tree/cut.rrdi", self.read("tree/load.rrdi")[:100])
        self.write("tree/old.rrd", b"RRD\0" + b"0003" + bytes(100))
        (self.folder / "out/load.rrdi.html").mkdir(parents=True)
        ran = self.draw("--jobs", "1")
        self.assertEqual((ran.status, ran.out), (1, "1 file drawn; 2 not drawn; 1 of RRDtool passed over\n"))
        self.assertRegex(ran.err, "(?s)rrdi-plot: tree/cut.rrdi: not drawn: .*rrdi-plot: tree/load.rrdi: not drawn: .*directory")
        self.assertEqual(Parts(self.page("index.html")).links(), ["sub/a.rrd.html"])
        self.assertEqual([path.name for path in (self.folder / "out").rglob(".rrdi-*")], [])
        os.mkdir(self.folder / "empty")
        self.assertEqual(self.tool("rrdi-plot", "--html", "empty", "out"), Ran(1, "", "rrdi-plot: empty: there is no database below it\n"))
        self.assertEqual(self.tool("rrdi-plot", "--html", "no", "out").err, "rrdi-plot: no: No such file or directory\n")

    def test_the_same_pages_again(self) -> None:
        """With the same files, end and zone, the pages are the same, however many are drawn at a time."""
        for number in range(5):
            self.database(f"tree/sub/{number}.rrdi", spike=number)
        pages = []
        for jobs in ("1", "4", "3"):
            self.assertEqual(self.draw("-e", str(END), "--jobs", jobs).status, 0)
            pages.append({path: path.read_bytes() for path in sorted((self.folder / "out").rglob("*.html"))})
        self.assertEqual(len(pages[0]), 7)
        self.assertEqual(pages[0], pages[1])
        self.assertEqual(pages[0], pages[2])

    def test_spikes(self) -> None:
        """A spike does not flatten the others, its place is marked, and its size is told."""
        self.database("tree/load.rrdi", spike=5_000)
        self.assertEqual(self.draw().status, 0)
        for text in (self.page("load.rrdi.html"), self.page("index.html")):
            self.assertIn("cut values go up to 5.00 k", text)
            self.assertIn('class="cut c0"', text)
            # (The year has three rows, too few to tell which of them is unusual.)
            self.assertNotIn(">5 k<", text.partition("<h2>Year")[0])
        self.assertEqual(self.draw("--keep-spikes").status, 0)
        self.assertNotIn("cut values", self.page("load.rrdi.html"))
        self.assertIn(">5 k<", self.page("load.rrdi.html"))

    def test_sources_of_other_sizes(self) -> None:
        """A load is not flat beside bytes: each has an axis of its own, and its numbers below."""
        self.create("tree/all.rrdi", "DS:load:GAUGE:700:U:U", "DS:bytes:GAUGE:700:U:U", "RRA:AVERAGE:0.5:1:300", start=START,
                    step=600)
        self.rrdi("update", "tree/all.rrdi", *(f"{START + 600 * at}:{1 + at % 3}:{8_000_000 + at}" for at in range(1, 289)))
        self.assertEqual(self.draw("-e", str(END)).status, 0)
        text = self.page("all.rrdi.html").partition("<h2>Week")[0]
        self.assertEqual(re.findall('aria-label="(.*?)"', text), ["all.rrdi, day: load", "all.rrdi, day: bytes"])
        for one in (">2.0<", ">8 M<"):
            self.assertIn(one, text)
        self.assertEqual(re.findall("</span>(.*?)</td>", text), ["load", "bytes"])
        self.assertEqual(re.findall('aria-label="(.*?)"', self.page("load.rrdi.html"))[0], "load.rrdi, day")
        self.assertEqual(self.page("index.html").count("all.rrdi, day: "), 2)

    def test_values_that_are_unknown(self) -> None:
        """A source without a value in all the time, and a band without one, keep nothing from being drawn."""
        self.create("tree/none.rrdi", "DS:none:GAUGE:700:U:U", "DS:some:GAUGE:700:U:U", "RRA:AVERAGE:0.5:1:300", start=START,
                    step=600)
        self.rrdi("update", "tree/none.rrdi", *(f"{START + 600 * at}:U:5" for at in range(1, 289)))
        self.create("tree/band.rrdi", "DS:half:GAUGE:600:U:U", "RRA:AVERAGE:0.9:2:300", "RRA:MIN:0.1:2:300", start=START,
                    step=600)
        self.rrdi("update", "tree/band.rrdi", *(f"{START + 600 * at}:{'U' if at % 2 else 5}" for at in range(1, 289)))
        self.assertEqual(self.draw("-e", str(END)).status, 0)
        for name in ("none", "band"):
            self.assertIn(">5.00<", self.page(f"{name}.rrdi.html"))

    def test_options(self) -> None:
        self.assertEqual(self.draw("MAX", "--source", "out", "--unit", "<B>", "--max", "80", "--area", "--width", "700",
                                   "--title", "All").status, 0)
        text = self.page("load.rrdi.html")
        self.assertIn('viewBox="0 0 700 304"', text)
        self.assertIn(">80 &lt;B&gt;<", text)
        self.assertIn('class="area c0"', text)
        self.assertNotIn("c1\" d", text)
        self.assertIn("<h1>All</h1>", self.page("index.html"))
        self.assertEqual(self.draw("LAST"), Ran(1, "0 files drawn; 1 not drawn\n", "rrdi-plot: tree/load.rrdi: not drawn: "
                                                "no archive for this function: the archives have AVERAGE, MIN, MAX\n"))

    def test_the_age(self) -> None:
        """A file without a sample for a day says so; a file of today does not."""
        now = int(time.time())
        self.create("tree/new.rrdi", "DS:g:GAUGE:700:U:U", "RRA:AVERAGE:0.5:1:300", start=now - 1_300, step=600)
        self.rrdi("update", "tree/new.rrdi", f"{now - 600}:1", f"{now}:2")
        self.assertEqual(self.draw().status, 0)
        self.assertIn("<p>Last sample 20", self.page("new.rrdi.html"))
        self.assertIn('<p class="old">No sample since 2023-11-17 00:00:00 UTC</p>', self.page("load.rrdi.html"))

    def test_nothing_is_known(self) -> None:
        """A file without a known value gets a page, which says so."""
        self.create("tree/new.rrdi", "DS:g:GAUGE:700:U:U", "RRA:AVERAGE:0.5:1:300", start=START, step=600)
        self.assertEqual(self.draw().status, 0)
        self.assertEqual(self.page("new.rrdi.html").count("No value is known in this time"), 4)
        self.assertIn("No value is known in this day.", self.page("index.html"))

    def test_files_of_others(self) -> None:
        """A page takes the place of a page only."""
        self.database("tree/sub/a.rrdi")
        (self.folder / "out/sub").mkdir(parents=True)
        self.write("out/sub/a.rrdi.html", b"mine")
        ran = self.draw("--jobs", "1")
        self.assertEqual((ran.status, ran.out), (1, "1 file drawn; 1 not drawn\n"))
        stays = "a.rrdi.html: rrdi-plot has not made this file, which stays as it is\n"
        self.assertEqual(ran.err, f"rrdi-plot: tree/sub/a.rrdi: not drawn: out/sub/{stays}")
        self.write("out/index.html", b"<!DOCTYPE html>\n<html lang=\"en\"><head><title>Home</title>" + bytes(200))
        before = self.read("out/load.rrdi.html"), self.read("out/index.html")
        self.assertEqual(self.draw(), Ran(1, "", f"rrdi-plot: out/{stays.replace('a.rrdi', 'index')}"))
        self.assertEqual((self.read("out/load.rrdi.html"), self.read("out/index.html")), before)
        self.assertEqual(self.read("out/sub/a.rrdi.html"), b"mine")

    def test_what_a_kill_has_left(self) -> None:
        left = self.folder / "out/.rrdi-0123456789abcdef.new"
        left.parent.mkdir()
        left.write_text("half a page")
        os.utime(left, (START, START))
        self.assertEqual(self.draw().status, 0)
        self.assertFalse(left.exists())

    def test_rows_of_a_second(self) -> None:
        """A year has 31 million of them. Only those that the file can have are read."""
        self.create("tree/load.rrdi", "DS:g:GAUGE:700:U:U", "RRA:AVERAGE:0.5:1:400", start=START, step=1)
        self.rrdi("update", "tree/load.rrdi", f"{START + 300}:1", f"{START + 500}:2")
        self.assertEqual(self.draw("-e", str(START + 500)).status, 0)
        self.assertEqual(len(Parts(self.page("load.rrdi.html")).classes("line c0")), 4)

    def test_a_full_disk(self) -> None:
        """The old page stays if the new one cannot be written."""
        self.assertEqual(self.draw().status, 0)
        before = self.page("load.rrdi.html")
        self.database("tree/load.rrdi", spike=9)
        ran = self.tool("rrdi-plot", "--html", "tree", "out", size=500)
        self.assertEqual((ran.status, ran.err.splitlines()[-1]), (1, "rrdi-plot: out/index.html: File too large"))
        self.assertEqual(self.page("load.rrdi.html"), before)
        self.assertEqual([path.name for path in Path(self.folder / "out").rglob(".rrdi-*")], [])


if __name__ == "__main__":
    unittest.main()
