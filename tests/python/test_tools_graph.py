# SPDX-License-Identifier: MIT OR Apache-2.0
"""Tests of rrdi-graph and of rrdi-rrdtool's graph, graphv and xport: pictures of an .rrd and of the same data in rrdi."""
from __future__ import annotations

import ctypes
import random
import struct
import sys
import unittest
import zlib
from typing import Any, List, Tuple
from unittest import mock

from cases import needs_program
from doubles import PROGRAM, TOP
from tool_case import NO_RRDTOOL, RRDTOOL, Ran, ToolCase

from rrdi.tools import graphing, librrd
from rrdi.tools.command_line import Failure
from rrdi.tools.rows import Rows
from rrdi.tools.spans import time_text


def has_library() -> bool:
    try:
        librrd.Librrd.load()
    except Failure:
        return False
    return True


def pixels(picture: bytes) -> bytes:
    """The pixels of a PNG, as they are compressed there, and its header."""
    assert picture[:8] == b"\x89PNG\r\n\x1a\n", picture[:20]
    at, kept = 8, b""
    data = b""
    while at < len(picture):
        length, kind = struct.unpack_from(">I4s", picture, at)
        if kind == b"IHDR":
            kept = picture[at + 8:at + 8 + length]
        if kind == b"IDAT":
            data += picture[at + 8:at + 8 + length]
        at += length + 12
    return kept + zlib.decompress(data)


class Words(ToolCase):
    def test_which_files_go_to_the_callback(self) -> None:
        new = self.write("a b:c\\d.rrdi", b"RRDI..")
        broken = self.write("broken.rrdi", b"RRDLog\0\0")
        old = self.write("old.rrd", b"RRD\x000003")
        escaped = new.replace("\\", "\\\\").replace(":", "\\:")
        for word, wanted in ((f"DEF:x={escaped}:g:AVERAGE", f"DEF:x=cb//{escaped}:g:AVERAGE"),
                             (f"DEF:x={broken}:g:MAX:step=60:reduce=MIN", f"DEF:x=cb//{broken}:g:MAX:step=60:reduce=MIN"),
                             (f"DEF:x={old}:g:AVERAGE", f"DEF:x={old}:g:AVERAGE"), ("DEF:x=none:g:MAX", "DEF:x=none:g:MAX"),
                             (f"COMMENT:{broken}:g:MAX", f"COMMENT:{broken}:g:MAX"), ("DEF:x", "DEF:x"),
                             (f"CDEF:x={broken}:g:MAX", f"CDEF:x={broken}:g:MAX"), (broken, broken)):
            with self.subTest(word=word):
                self.assertEqual(graphing.rewrite(word), wanted)

    def test_usage(self) -> None:
        self.check_usage("rrdi-graph", "PICTURE ARGUMENTS OF RRDTOOL GRAPH..", [[], ["a.png"], ["--start", "5"], ["", "a"]])


@needs_program
@unittest.skipUnless(RRDTOOL and has_library(), NO_RRDTOOL)
class Pictures(ToolCase):
    """All cells have few binary digits, so that RRDtool and rrdi know the same numbers."""

    START = 1_600_000_200

    def setUp(self) -> None:
        super().setUp()
        chance = random.Random(5)
        definitions = ["--step", "10", "--start", str(self.START), "DS:g:GAUGE:30:U:U", "DS:h:GAUGE:30:U:U",
                       "RRA:AVERAGE:0.5:1:400", "RRA:AVERAGE:0.5:4:300", "RRA:MAX:0.5:4:300", "RRA:MIN:0.5:16:100"]
        samples = []
        for at in range(1, 701):
            value = "U" if 100 < at < 120 else str(chance.randrange(4000) / 16)
            samples.append(f"{self.START + 10 * at}:{value}:{chance.randrange(-99, 99)}")
        assert RRDTOOL
        self.run_command([RRDTOOL, "create", "f.rrd", *definitions])
        self.rrdi("create", "f.rrdi", *definitions)
        for at in range(0, len(samples), 300):
            self.run_command([RRDTOOL, "update", "f.rrd", *samples[at:at + 300]])
            self.rrdi("update", "f.rrdi", *samples[at:at + 300])
        self.end = self.START + 7_000

    def by_both(self, command: str, picture: str, words: List[str]) -> Tuple[bytes, bytes]:
        """What both programs print, and their pictures; FILE in the words is the file."""
        assert RRDTOOL
        printed = []
        for program, file in (([RRDTOOL], "f.rrd"), ([sys.executable, str(TOP / "tools/rrdi-rrdtool")], "f.rrdi")):
            given = [picture] if picture else []
            ran = self.run_command([*program, command, *given, *(word.replace("FILE", file) for word in words)],
                                   stdout=str(self.folder / "printed"))
            self.assertEqual((ran.status, ran.err), (0, ""), words)
            printed.append(self.read("printed"))
            if picture not in ("", "-", "dummy"):
                printed[-1] += self.read(picture)
        return printed[0], printed[1]

    def test_pictures_are_alike(self) -> None:
        area, line = "AREA:a#88aa0080:values", "LINE2:b#ff0000:more"
        cases: List[Tuple[List[str], List[str]]] = [
            ([], ["DEF:a=FILE:g:AVERAGE", area]),
            (["--width", "200"], ["DEF:a=FILE:g:MAX", "DEF:b=FILE:h:MIN", area, line, "GPRINT:a:MAX:%8.3lf%s"]),
            (["-w", "777", "-h", "50"],
             ["DEF:a=FILE:g:AVERAGE:step=80", "DEF:b=FILE:g:AVERAGE:step=40:reduce=MAX", area, line]),
            ([], [f"DEF:a=FILE:g:AVERAGE:start={self.START + 1_003}:end={self.START + 4_001}", area]),
            ([], ["DEF:a=FILE:g:LAST", "DEF:b=FILE:h:AVERAGE:step=160:reduce=MIN", "CDEF:c=a,b,+,2,/", "LINE1:c#0000ff", area]),
            (["--imgformat", "SVG"], ["DEF:a=FILE:h:AVERAGE", "VDEF:m=a,95,PERCENT", "HRULE:m#ff0000", area, "PRINT:m:%le"])]
        for options, words in cases:
            for start, end in ((self.START + 3_333, self.end), (self.START - 500, self.end + 333),
                               (self.end - 401, self.end - 57)):
                with self.subTest(words=words, start=start):
                    old, new = self.by_both("graph", "-", ["--start", str(start), "--end", str(end), *options, *words])
                    self.assertGreater(len(old), 1_000)
                    self.assertEqual(old[:8], new[:8])
                    self.assertTrue(old == new or pixels(old) == pixels(new))

    def test_what_is_printed(self) -> None:
        words = ["-s", str(self.START), "-e", str(self.end), "DEF:a=FILE:g:AVERAGE", "LINE1:a#ff0000:name", "PRINT:a:MAX:%lf",
                 "PRINT:a:MIN:%5.1lf%s", "GPRINT:a:LAST:%lf"]
        for command in ("graph", "graphv"):
            for picture in ("-", "p.png"):
                with self.subTest(command=command, picture=picture):
                    old, new = self.by_both(command, picture, words)
                    self.assertEqual(old, new)
        old, new = self.by_both("graph", "dummy", words[:5] + words[6:8])
        self.assertEqual((old, old[:3]), (new, b"0x0"))
        ways: List[List[str]] = [[], ["--json"], ["-t"], ["--showtime", "--enumds"], ["--json", "-t"], ["--step", "160"]]
        for options in ways:
            with self.subTest(options=options):
                old, new = self.by_both("xport", "", [
                    *options, "-s", str(self.START + 13), "-e", str(self.end), "DEF:a=FILE:g:MAX", "DEF:b=FILE:h:AVERAGE",
                    "XPORT:a:first", "CDEF:c=b,2,*", "XPORT:c"])
                self.assertEqual(old, new)

    def test_files_of_both_programs_in_one_picture(self) -> None:
        words = ["-s", str(self.START), "-e", str(self.end), "DEF:a=f.rrd:g:AVERAGE", "DEF:b={}:h:MAX", "LINE1:a#ff0000",
                 "AREA:b#00ff00"]
        found = []
        for file in ("f.rrd", "f.rrdi"):
            ran = self.tool("rrdi-graph", f"{file}.png", *(word.format(file) for word in words))
            self.assertEqual((ran.status, ran.err, ran.out.count("x")), (0, "", 1))
            found.append(pixels(self.read(f"{file}.png")))
        self.assertEqual(found[0], found[1])

    def test_times_as_the_tools_print_them(self) -> None:
        begin, until = self.START + 1_000, self.START + 4_000
        pictures = []
        for start, end in ((str(begin), str(until)), (f"@{begin}", f"@{until}"), (time_text(begin), time_text(until))):
            for words in (["-s", start, "-e", end], [f"--start={start}", f"--end={end}"]):
                ran = self.tool("rrdi-graph", "p.png", *words, "DEF:a=f.rrdi:g:AVERAGE", "LINE1:a#ff0000")
                self.assertEqual((ran.status, ran.err), (0, ""), words)
                pictures.append(self.read("p.png"))
        self.assertEqual(pictures[1:], pictures[:-1])

    def test_a_name_with_a_colon(self) -> None:
        (self.folder / "f.rrdi").rename(self.folder / "a:b c.rrdi")
        ran = self.tool("rrdi-graph", "p.png", "-s", str(self.START), "-e", str(self.end), "DEF:a=a\\:b c.rrdi:g:AVERAGE",
                        "LINE1:a#ff0000", "PRINT:a:MAX:%lf")
        self.assertEqual((ran.status, ran.err), (0, ""))

    def test_pipe_mode_draws(self) -> None:
        line = f"graph p.png -s {self.START} -e {self.end} DEF:a='f.rrdi':g:AVERAGE 'LINE1:a#ff0000:a b' PRINT:a:MAX:%lf\n"
        ran = self.tool("rrdi-rrdtool", "-", given=line * 3)
        lines = ran.out.splitlines()
        self.assertEqual(len(lines), 9)
        self.assertEqual(lines[0:2], lines[3:5])
        self.assertRegex(lines[0], r"^\d+x\d+$")
        ran = self.tool("rrdi-rrdtool", "-", given=line.replace("p.png", "-"))
        self.assertIn("PNG", ran.out)
        self.assertTrue(ran.out.splitlines()[-1].split("IEND")[-1].strip("`B\ufffd\n").startswith("OK u:"), ran.out[-99:])

    def test_errors(self) -> None:
        self.write("cut.rrdi", self.read("f.rrdi")[:100])
        span = ["-s", str(self.START), "-e", str(self.end)]
        for definition, wanted in (("DEF:a=none:g:MAX", "opening 'none': No such file or directory"),
                                   ("DEF:a=cut.rrdi:g:MAX", "cut.rrdi: file: truncated at 100"),
                                   ("DEF:a=f.rrdi:no:MAX", "No DS called 'no' in 'f.rrdi'"),
                                   ("DEF:a=f.rrdi:g:HWPREDICT", "rrdi has no such function"),
                                   ("DEF:a=f.rrdi:g:FOO", "bad CF: FOO")):
            with self.subTest(definition=definition):
                ran = self.tool("rrdi-graph", "p.png", *span, definition, "LINE1:a#ff0000")
                self.assertEqual((ran.status, ran.out), (1, ""))
                self.assertIn(wanted, ran.err)
                self.assertTrue(ran.err.startswith("rrdi-graph: ") and ran.err.count("\n") == 1, ran.err)
        words = ["-s", str(self.START), "-e", str(self.end), "DEF:a=f.rrdi:g:AVERAGE", "LINE1:a#ff0000"]
        self.assertEqual(self.tool("rrdi-graph", "p.png", *words, env={"RRDI": "/nowhere"}).err,
                         "rrdi-graph: f.rrdi: cannot run /nowhere: No such file or directory\n")
        odd = self.stub("odd", "echo x")
        self.assertIn("cannot read the output of", self.tool("rrdi-graph", "p.png", *words, env={"RRDI": odd}).err)
        self.assertFalse((self.folder / "p.png").exists())
        self.assertEqual(self.tool("rrdi-graph", "-", *words, stdout="/dev/full"),
                         Ran(1, "", "rrdi-graph: No space left on device\n"))
        self.assertEqual(self.tool("rrdi-graph", "/dev/full", *words),
                         Ran(1, "", "rrdi-graph: Could not save png to '/dev/full'\n"))
        self.assertEqual(self.tool("rrdi-graph", "none/p.png", *words),
                         Ran(1, "", "rrdi-graph: none/p.png: No such file or directory\n"))

    def test_a_full_disk(self) -> None:
        """The picture from before stays, of every format: RRDtool itself cuts some and says nothing."""
        words = ["-s", str(self.START), "-e", str(self.end), "DEF:a=f.rrdi:g:AVERAGE", "LINE1:a#ff0000"]
        for kind in ("PNG", "SVG", "PDF", "EPS"):
            self.write("p", "before")
            ran = self.tool("rrdi-graph", "p", "-a", kind, *words, size=1_000)
            self.assertEqual((ran.status, ran.out, self.read("p")), (1, "", b"before"), kind)
            self.assertRegex(ran.err, "rrdi-graph: (RRDtool did not draw p to its end; is there space in .*|Could not save png to 'p')\n")
            self.assertEqual(self.tool("rrdi-graph", "p", "-a", kind, *words).status, 0)
            self.assertGreater(len(self.read("p")), 1_000)

    def test_faults_of_the_callback_go_through(self) -> None:
        def wrong(*_words: object) -> Rows:
            raise ValueError("wrong")

        words = ["-", "-s", "1000000000", "-e", "1000000100", "DEF:a=cb//x:g:MAX", "LINE1:a#ff0000"]
        with self.assertRaisesRegex(ValueError, "wrong"):
            librrd.Librrd().graph(words, wrong)

    def test_many_pictures_by_one_process(self) -> None:
        grapher = graphing.Grapher()
        # The library frees the memory that it requests: the process does not grow.
        import os
        os.environ["RRDI"] = PROGRAM or ""
        words = ["-s", str(self.START), "-e", str(self.end), f"DEF:a={self.folder}/f.rrdi:g:AVERAGE", "LINE1:a#ff0000"]
        first = grapher.graph(["-", *words])
        sizes = []
        for _ in range(30):
            self.assertEqual(grapher.graph(["-", *words]), first)
            with open("/proc/self/statm", encoding="ascii") as file:
                sizes.append(int(file.read().split()[1]) * ctypes.sizeof(ctypes.c_char) * 4096)
        self.assertLess(sizes[-1] - sizes[5], 2_000_000)


class Values(unittest.TestCase):
    def test_kinds(self) -> None:
        """Of each type of rrd_info_t: a number, a count, a text, a whole number below 0 too, and bytes."""
        blob = ctypes.create_string_buffer(b"\x89P\0G")
        for kind, field, value, found in ((0, "value", 1.5, 1.5), (1, "count", 2**40, 2**40), (2, "text", b"a\xff", "a\udcff"), (2, "text", None, ""), (3, "number", -7, -7), (4, "blob", librrd._Blob(4, ctypes.addressof(blob)), b"\x89P\0G")):
            info = librrd._Info(type=kind)
            setattr(info.value, field, value)
            self.assertEqual((type(librrd.value_of(info)), librrd.value_of(info)), (type(found), found))


class NoLibrary(unittest.TestCase):
    def test_it_says_what_to_install(self) -> None:
        from unittest import mock
        with mock.patch.object(librrd, "NAMES", ("libnone.so.0",)), self.assertRaisesRegex(Failure, "apt install librrd8"):
            graphing.Grapher()

    def test_an_old_library(self) -> None:
        """The C library lacks RRDtool's functions."""
        from unittest import mock
        with mock.patch.object(librrd, "NAMES", ("libc.so.6",)), \
                self.assertRaisesRegex(Failure, "RRDtool's library is too old: .*rrd_graph_v"):
            graphing.Grapher()


class Memory(unittest.TestCase):
    """What RRDtool has allocated for an answer is given back."""

    def test_of_rows(self) -> None:
        texts = [ctypes.create_string_buffer(name) for name in (b"a", b"b")]
        addresses = (ctypes.c_void_p * 2)(*map(ctypes.addressof, texts))
        cells = (ctypes.c_double * 4)(1, 2, 3, 4)

        def xport(*words: Any) -> int:
            for word, value in zip(words[3:], (0, 20, 10, 2, ctypes.addressof(addresses), ctypes.addressof(cells))):
                word._obj.value = value
            return 0
        opened = librrd.Librrd.__new__(librrd.Librrd)
        opened.library = mock.Mock(rrd_xport=xport)
        found = opened.xport([], mock.Mock())
        self.assertEqual((found.names, found.rows), (["a", "b"], [(1, 2), (3, 4)]))
        freed = [call.args[0] if isinstance(call.args[0], int) else call.args[0].value
                 for call in opened.library.rrd_freemem.call_args_list]
        self.assertEqual(freed, [*addresses, ctypes.addressof(addresses), ctypes.addressof(cells)])
