# SPDX-License-Identifier: MIT OR Apache-2.0
"""Tests of `rrdi.reader`, of its command line, and of examples/rrdi.py, which starts it. No program and no library is
needed: the bytes of the file are written here, as docs/file-format.md describes them."""
from __future__ import annotations

import json
import os
import re
import struct
import subprocess
import sys
import unittest
from decimal import Decimal
from typing import List, Tuple

from cases import new_folder
from doubles import TOP

import rrdi
from rrdi import reader
from rrdi.amounts import Millionths
from rrdi.reader.printing import as_csv, as_json, as_openmetrics
from rrdi.reader.values import as_decimal, as_float


def amount(value: int) -> bytes:
    return value.to_bytes(16, "big", signed=True)


UNKNOWN = amount(-2**127)


def file_bytes() -> bytes:
    """A database of version 2: one source, one archive of two rows, no change in its journal."""
    header = b"RRDI" + struct.pack(">H", 2) + struct.pack(">IQIHHI", 10, 20, 16, 1, 1, 0)
    source = bytes([1]) + b"g".ljust(19, b"\0") + struct.pack(">BQ", 0, 99) + UNKNOWN
    source += amount(5_000_000) + amount(2_500_000)
    archive = struct.pack(">BIII", 3, 1, 500_000, 2) + struct.pack(">I", 0) + amount(0)
    # The rows of a file lie by their numbers: row 2 ends at 20.
    return header + source + struct.pack(">I", 0) + amount(0) + archive + amount(2_500_000) + UNKNOWN


class Reading(unittest.TestCase):
    def test_parts(self) -> None:
        found = reader.read(file_bytes())
        self.assertEqual((found["version"], found["step"], found["last_time"], found["journal"]), (2, 10, 20, []))
        source, = found["sources"]
        self.assertEqual((source["name"], source["type"], source["heartbeat"], source["min"], str(source["max"])),
                         ("g", "GAUGE", 99, None, "5.000000"))
        archive, = found["archives"]
        self.assertEqual(archive["rows"], [{"time": 10, "cells": [None]}, {"time": 20, "cells": [2_500_000]}])

    def test_values(self) -> None:
        """Amounts are exact decimals, or floats at request, and never whole numbers of millionths."""
        data = file_bytes()
        for given, kind, text in ((rrdi.read(data), Decimal, "2.500000"), (rrdi.read(data, values=float), float, "2.5")):
            cell = given["archives"][0]["rows"][1]["cells"][0]
            self.assertEqual((type(cell), str(cell), f"{cell:.2f}", float(cell)), (kind, text, "2.50", 2.5))
            source, archive = given["sources"][0], given["archives"][0]
            for amount in (source["max"], source["last_raw"], source["sum"], archive["xff"],
                           archive["preparations"][0]["value"]):
                self.assertIs(type(amount), kind)
            self.assertEqual((source["max"], source["last_raw"], archive["xff"], source["min"]), (5, 2.5, 0.5, None))
        for wrong in (int, str, None):
            with self.assertRaisesRegex(TypeError, "values must be float or Decimal, not "):
                rrdi.read(data, values=wrong)  # type: ignore[arg-type]
        for number in (0, -1, 1, 10**6, -(2**64 - 1) * 10**6 * 10**6 - 1):
            self.assertEqual(str(as_decimal(number)), str(Millionths(number)))
            self.assertEqual(as_float(number), float(str(Millionths(number))))

    def test_faults(self) -> None:
        data = file_bytes()
        for wrong, text, fault, at in ((b"RRDX" + data[4:], "file: not ours", 20, None),
                                       (data[:5] + b"\7" + data[6:], "file: version", 21, None),
                                       (data[:-1], f"file: truncated at {len(data) - 1}", 22, len(data) - 1),
                                       (data + b"x", f"file: trailing at {len(data)}", 25, len(data)),
                                       (data[:6] + bytes(4) + data[10:], "file: bad block at 6", 23, 6)):
            with self.assertRaises(rrdi.Damaged) as raised:
                rrdi.read(wrong)
            self.assertEqual((str(raised.exception), raised.exception.fault, raised.exception.at), (text, fault, at))
            self.assertIs(rrdi.Fault, rrdi.Damaged)

    def test_names_of_sources(self) -> None:
        data = file_bytes()
        at = data.index(b"\1g\0")
        for field, is_right in ((b"\x13" + 19 * b"z", True), (b"\x14" + 19 * b"z", False), (b"\xff" + 19 * b"z", False),
                                (bytes(20), False), (b"\1-".ljust(20, b"\0"), False), (b"\1g".ljust(20, b"h"), False)):
            changed = data[:at] + field + data[at + 20:]
            if is_right:
                self.assertEqual(reader.read(changed)["sources"][0]["name"], 19 * "z")
            else:
                with self.assertRaisesRegex(rrdi.Damaged, f"bad block at {at}"):
                    reader.read(changed)

    def test_the_deepest_journal(self) -> None:
        """Each version has its greatest depth, as docs/file-format.md says."""
        data = file_bytes()
        for depth, is_right in ((100_000, True), (100_001, False), (1, True), (0, False)):
            changed = data[:18] + struct.pack(">I", depth) + data[22:]
            if is_right:
                self.assertEqual(reader.read(changed)["journal_depth"], depth)
                continue
            with self.assertRaises(rrdi.Damaged) as raised:
                reader.read(changed)
            self.assertEqual(str(raised.exception), "file: bad block at 6")

    def test_rows_of_a_journal(self) -> None:
        """The rows before a resize and before the removal of an archive end at the time of the change, and each has its time."""
        data = file_bytes()
        one_entry = data[:26] + struct.pack(">I", 1) + data[30:]
        old = b"".join(map(amount, (1_000_000, 2_000_000, 3_000_000)))
        rows = [{"time": time, "cells": [time * 100_000 + 1_000_000]} for time in (0, 10, 20)]
        change, = reader.read(one_entry + b"\3" + struct.pack(">HI", 0, 3) + old)["journal"]
        self.assertEqual(change, {"change": "resize", "archive": 0, "rows": rows})
        head = struct.pack(">HBIII", 1, 2, 1, 500_000, 3) + struct.pack(">I", 0) + amount(0)
        change, = reader.read(one_entry + b"\5" + head + old)["journal"]
        self.assertEqual((change["change"], change["archive"], change["function"], change["rows"]), ("removal", 1, "MAX", rows))

    def test_rows_that_an_update_replaced(self) -> None:
        """An update from 20 to 40 wrote two rows in the places of those that ended at 10 and 20."""
        data = file_bytes().replace(struct.pack(">IQ", 10, 20), struct.pack(">IQ", 10, 40))
        parts = amount(7_000_000) + struct.pack(">I", 0) + amount(0) + struct.pack(">I", 0) + amount(0)
        entry = b"\1" + struct.pack(">Q", 20) + parts + struct.pack(">I", 2) + amount(1_000_000) + amount(2_000_000)
        change, = reader.read(data[:26] + struct.pack(">I", 1) + data[30:] + entry)["journal"]
        self.assertEqual((change["change"], change["last_time"]), ("update", 20))
        self.assertEqual(change["archives"][0]["rows"], [{"time": 10, "cells": [1_000_000]}, {"time": 20, "cells": [2_000_000]}])

    def test_a_name_in_openmetrics(self) -> None:
        """A quote, a backslash and a line feed are escaped, as OpenMetrics has it."""
        text = "\n".join(as_openmetrics(reader.read(file_bytes()), 'a"b\\c\nd'))
        self.assertIn('file="a\\"b\\\\c\\nd"', text)

    def test_all_rows(self) -> None:
        """Each known cell of each archive and source is a line of OpenMetrics, each row with one a line of CSV."""
        database = {"version": 2, "step": 10, "sources": [{"name": "a", "min": None}, {"name": "b", "min": -5}], "archives": [
            {"function": "AVERAGE", "steps": 3, "rows": [{"time": 0, "cells": [None, None]}, {"time": 30, "cells": [None, 2]}]},
            {"function": "LAST", "steps": 1, "rows": [{"time": 20, "cells": [1, None]}, {"time": 30, "cells": [0, 4]}]}]}
        self.assertEqual(list(as_csv(database, "f")), ["archive,function,seconds,time,a,b", "0,AVERAGE,30,30,,2", "1,LAST,10,20,1,",
                                                      "1,LAST,10,30,0,4"])
        average, last = 'file="f",archive="0",function="AVERAGE",seconds="30"', 'file="f",archive="1",function="LAST",seconds="10"'
        self.assertEqual(list(as_openmetrics(database, "f"))[2:], [
            f'rrdi_row{{source="b",{average}}} 2 30', f'rrdi_row{{source="a",{last}}} 1 20', f'rrdi_row{{source="a",{last}}} 0 30',
            f'rrdi_row{{source="b",{last}}} 4 30', "# EOF"])
        self.assertEqual(json.loads(as_json(database)), database)
        self.assertEqual(as_json({"a": [Millionths(-1), None, 7, 'x"y'], "b": {}}),
                         '{"a": [-0.000001, null, 7, "x\\"y"], "b": {}}')

    def test_amounts(self) -> None:
        for value, text in ((0, "0.000000"), (-1, "-0.000001"), (1_500_000, "1.500000"), (-2_250_000, "-2.250000")):
            self.assertEqual(str(Millionths(value)), text)


class CommandLine(unittest.TestCase):
    def setUp(self) -> None:
        self.folder = new_folder(self)
        (self.folder / "f.rrdi").write_bytes(file_bytes())
        (self.folder / "cut").write_bytes(file_bytes()[:30])

    def ran(self, *words: str, given: str = os.devnull) -> Tuple[int, str, str]:
        env = {**os.environ, "PYTHONPATH": str(TOP / "python")}
        with open(self.folder / given, "rb") as lines:
            ran = subprocess.run([sys.executable, "-B", *words], cwd=self.folder, env=env, stdin=lines, stdout=subprocess.PIPE,
                                 stderr=subprocess.PIPE, universal_newlines=True)
        return ran.returncode, ran.stdout, ran.stderr

    def test_both_ways(self) -> None:
        script = str(TOP / "examples/rrdi.py")
        ways: List[Tuple[List[str], str]] = [(["-m", "rrdi.reader"], "rrdi.reader"), ([script], "rrdi.py")]
        for way, name in ways:
            csv = "archive,function,seconds,time,g\n0,LAST,10,20,2.500000\n"
            self.assertEqual(self.ran(*way, "csv", "f.rrdi"), (0, csv, ""))
            self.assertEqual(self.ran(*way, "csv", "-", given="f.rrdi"), (0, csv, ""))
            self.assertEqual(self.ran(*way, "check", "f.rrdi"), (0, "", ""))
            self.assertEqual(self.ran(*way, "check", "-"), (1, "", f"{name}: -: file: truncated at 0\n"))
            self.assertEqual(self.ran(*way, "check", "cut"), (1, "", f"{name}: cut: file: truncated at 30\n"))
            self.assertEqual(self.ran(*way, "json", "none"), (1, "", f"{name}: none: No such file or directory\n"))
            self.assertEqual(self.ran(*way, "xml", "f.rrdi"),
                             (2, "", f"usage: {name} json|csv|openmetrics|check FILE\n"))
            self.assertIn("FILE may be - for standard input", self.ran(*way, "--help")[1])

    def test_import_of_the_script(self) -> None:
        """A program that finds the script first gets the package."""
        asks = f"import sys; sys.path.insert(0, {str(TOP / 'examples')!r}); import rrdi; " \
               "print(rrdi.read_file('f.rrdi')['last_time'], rrdi.__path__ != [], rrdi.Fault.__name__)"
        self.assertEqual(self.ran("-c", asks), (0, "20 True Damaged\n", ""))


class Package(unittest.TestCase):
    def test_version(self) -> None:
        version = (TOP / "VERSION").read_text().strip()
        self.assertEqual(rrdi.__version__, version)
        self.assertIn(f'\nversion = "{version}"\n', (TOP / "python/pyproject.toml").read_text())

    def test_names(self) -> None:
        for name in rrdi.__all__:
            self.assertIsNotNone(getattr(rrdi, name))
        with self.assertRaises(AttributeError):
            getattr(rrdi, "graph")
        pages = "".join((TOP / "docs" / page).read_text() for page in ("python.md", "export.md"))
        words = set(re.findall(r"\w+", pages))
        self.assertEqual([name for name in rrdi.__all__ if name not in words], [], "public names are documented")

    def test_without_a_library(self) -> None:
        """Without the C library the package can be imported, and its reader works; a command says what is missing."""
        asks = "import rrdi\nfrom rrdi import library\nlibrary.NAMES = ('nothing.so',)\n" \
               "try:\n    rrdi.last('f')\nexcept rrdi.Error as error:\n    print(type(error).__name__, error)"
        env = {**os.environ, "PYTHONPATH": str(TOP / "python")}
        env.pop("RRDI_LIBRARY", None)
        ran = subprocess.run([sys.executable, "-B", "-c", asks], env=env, stdout=subprocess.PIPE,
                             universal_newlines=True)
        self.assertEqual(ran.stdout, "NoLibrary the C library nothing.so is not found; install it, or name it by the "
                                     "variable RRDI_LIBRARY\n")
