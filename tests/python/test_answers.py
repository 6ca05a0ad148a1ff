# SPDX-License-Identifier: MIT OR Apache-2.0
"""Tests of what becomes of an answer: exceptions of faults, lines of a run of the program, settings, rows and amounts; each at its
boundaries. No program is needed: the texts are those of docs/errors.md and docs/commands.md."""
from __future__ import annotations

import datetime
import errno
import math
import os
import pickle
import re
import time
import unittest
from decimal import Decimal
from typing import Any, List, Tuple, Type
from unittest import mock

from cases import new_folder
from doubles import TOP
from rrdi import errors
from rrdi.amounts import Millionths, gauge_text, shortened
from rrdi.by_program import as_argument, number_of, of_every_second, of_lines, output_of
from rrdi.damaged import LONGEST_CREATION, is_being_made
from rrdi.described import ArchiveInfo, Info, SourceInfo
from rrdi.differences import difference
from rrdi.words import numbers_in
from rrdi.environment import is_synced, milliseconds, sync_of_environment, wait_of_environment
from rrdi.errors import details_in, error_of, error_of_line, fault_of, reason_of, reasons_in
from rrdi.printed import Settings, printed_rows, settings_of
from rrdi.results import info_of, last_update

INFO = """step = 10
last_update = 1600000033
journal = 16
undoable = 2
ds[0].name = g
ds[0].type = GAUGE
ds[0].minimal_heartbeat = 60
ds[0].min = -1.500000
ds[0].max = U
ds[0].last_raw = 2.500000
ds[1].name = c
ds[1].type = COUNTER
ds[1].minimal_heartbeat = 70
ds[1].min = 0.000000
ds[1].max = 100.000000
ds[1].last_raw = U
rra[0].cf = AVERAGE
rra[0].xff = 0.500000
rra[0].steps = 1
rra[0].rows = 4
rra[1].cf = MAX
rra[1].xff = 0.250000
rra[1].steps = 6
rra[1].rows = 3
"""


class Faults(unittest.TestCase):
    def test_kinds(self) -> None:
        """Each fault has its exception, and some have another one for the system's reason."""
        cases: List[Tuple[int, int, Type[errors.Error]]] = [
            (errors.NO_MEMORY, 0, errors.OutOfMemory), (errors.USAGE, 0, errors.Usage), (errors.BAD_WORD, 0, errors.Unreadable), (errors.REFUSED, 0, errors.Refused),
            (errors.CANNOT_OPEN, 0, errors.CannotOpen), (errors.CANNOT_OPEN, errno.EIO, errors.CannotOpen), (errors.CANNOT_OPEN, errno.ENOENT, errors.NoDatabase),
            (errors.CANNOT_OPEN, errno.EAGAIN, errors.Busy), (errors.CANNOT_OPEN, errno.EACCES, errors.MayNotOpen), (errors.CANNOT_WRITE, 0, errors.CannotWrite),
            (errors.CANNOT_WRITE, errno.ENOENT, errors.CannotWrite), (errors.CANNOT_WRITE, errno.EAGAIN, errors.Busy), (errors.CANNOT_WRITE, errno.EACCES, errors.MayNotWrite),
            (errors.READ_FAILED, errno.EACCES, errors.CannotRead), (errors.READ_FAILED, errno.EAGAIN, errors.CannotRead), (errors.NO_DATABASE, 0, errors.NoDatabase),
            *((fault, 0, errors.Damaged) for fault in (errors.NOT_OURS, errors.VERSION, errors.TRUNCATED, errors.BAD_BLOCK, errors.BAD_ENTRY, errors.TRAILING)),
            (99, errno.ENOENT, errors.OperationalError)]
        for fault, number, kind in cases:
            error = error_of(fault, "why", "f", 7, number)
            has_place = fault in (errors.TRUNCATED, errors.BAD_BLOCK, errors.BAD_ENTRY, errors.TRAILING)
            self.assertIs(type(error), kind, (fault, number))
            if isinstance(error, errors.SystemFault):
                self.assertEqual((error.errno, error.strerror, error.filename), (number or None, os.strerror(number) if number else None, "f"))
            self.assertEqual((error.reason, error.path, error.fault, getattr(error, "at", None), error.system_error), ("why", "f", fault, 7 if has_place else None, number))

    def test_numbers(self) -> None:
        """They are those of rrdi.h."""
        header = (TOP / "include/rrdi.h").read_text(encoding="utf-8")
        enum = header[header.index("enum rrdi_fault"):]
        found, number = {}, -1
        for name, given in re.findall(r"^ +RRDI_(\w+)(?: = (\d+))?,?(?: |$)", enum[:enum.index("};")], re.MULTILINE):
            number = int(given) if given else number + 1
            found[name] = number
        own = {"OK": errors.OK, "NO_ROOM": errors.NO_ROOM, "NO_MEMORY": errors.NO_MEMORY, "USAGE": errors.USAGE, "BAD_WORD": errors.BAD_WORD, "REFUSED": errors.REFUSED, "CANNOT_OPEN": errors.CANNOT_OPEN,
               "CANNOT_WRITE": errors.CANNOT_WRITE, "NOT_OURS": errors.NOT_OURS, "OTHER_VERSION": errors.VERSION, "TRUNCATED": errors.TRUNCATED, "BAD_BLOCK": errors.BAD_BLOCK, "BAD_ENTRY": errors.BAD_ENTRY,
               "TRAILING": errors.TRAILING, "READ": errors.READ_FAILED}
        self.assertEqual(found, own)
        self.assertNotIn(errors.NO_DATABASE, found.values())
        for reason, name in (("file: truncated at 7", "TRUNCATED"), ("file: bad block at 7", "BAD_BLOCK"), ("file: bad entry 7", "BAD_ENTRY"), ("file: trailing at 7", "TRAILING")):
            self.assertEqual(fault_of(reason), (found[name], 7))
            self.assertIs(type(error_of(found[name], reason)), errors.Damaged)

    def test_exceptions_that_are_made_here(self) -> None:
        error = errors.Exists("f")
        self.assertEqual((error.reason, error.path, error.fault, error.errno, error.detail), ("cannot write", "f", errors.CANNOT_WRITE, errno.EEXIST, "overwrite=True replaces it, exist_ok=True keeps it"))
        self.assertEqual(str(error), "f: cannot write: File exists; overwrite=True replaces it, exist_ok=True keeps it")
        for one in (error, errors.Different("g", "the file has step=10")):
            again = pickle.loads(pickle.dumps(one))
            self.assertEqual((type(again), again.path, again.detail, again.errno), (type(one), one.path, one.detail, errno.EEXIST))
        bad = errors.BadSample("bad value", "f", "value 1 is inf")
        self.assertEqual((bad.reason, bad.path, bad.detail, bad.fault, str(bad)), ("bad value", "f", "value 1 is inf", errors.REFUSED, "f: bad value: value 1 is inf"))
        for number, detail, text in ((0, "", "why"), (0, "more", "why: more"), (errno.EIO, "", "why: Input/output error"), (errno.EIO, "more", "why: Input/output error; more"),
                                     (errno.EAGAIN, "", "why: another program holds its lock"), (errno.EAGAIN, "more", "why: more")):
            self.assertEqual(str(errors.CannotOpen("why", None, errors.CANNOT_OPEN, None, number, detail)), text)
            self.assertEqual(str(errors.CannotOpen("why", "a\nb", errors.CANNOT_OPEN, None, number, detail)), f"a\\nb: {text}")
        plain = errors.CannotOpen("why")
        self.assertEqual((plain.errno, plain.strerror, plain.filename, plain.stored, plain.at), (None, None, None, 0, None))

    def test_reasons_of_the_program(self) -> None:
        for reason, found in (("usage", (errors.USAGE, 0)), ("no database", (errors.NO_DATABASE, 0)), ("out of memory", (errors.NO_MEMORY, 0)), ("cannot open", (errors.CANNOT_OPEN, 0)),
                              ("cannot write", (errors.CANNOT_WRITE, 0)), ("file: not ours", (errors.NOT_OURS, 0)), ("file: version", (errors.VERSION, 0)), ("file: read failed", (errors.READ_FAILED, 0)),
                              ("file: truncated at 60", (errors.TRUNCATED, 60)), ("file: bad block at 6", (errors.BAD_BLOCK, 6)), ("file: bad entry 12", (errors.BAD_ENTRY, 12)),
                              ("file: trailing at 309", (errors.TRAILING, 309)), ("unreadable sample 1", (errors.BAD_WORD, 0)), ("not later than 10", (errors.REFUSED, 0)), ("unreadable", (errors.REFUSED, 0)),
                              ("no such data source", (errors.REFUSED, 0)), ("", (errors.REFUSED, 0))):
            self.assertEqual(fault_of(reason), found, reason)

    def test_texts(self) -> None:
        """After the lines of a batch have printed something, the output is not the text of the fault."""
        for fault, text in ((errors.NO_MEMORY, "out of memory"), (errors.CANNOT_OPEN, "cannot open"), (errors.CANNOT_WRITE, "cannot write"), (errors.REFUSED, "10\n20"), (errors.TRUNCATED, "10\n20")):
            self.assertEqual(reason_of(fault, b"10\n20\n"), text)
        self.assertEqual(reason_of(errors.REFUSED, b"a\xff"), "a\ufffd")
        self.assertEqual(reasons_in("10\nERROR: not later than 10\nnot ERROR: x\nERROR: \nERROR:\n"), ["not later than 10", ""])
        self.assertEqual(details_in(b"line 2: why\nline 12: a: b\nwhy\nline x: y\n\nline 3: \xff\xe2\x80\xa8c"), {2: "why", 12: "a: b", 3: "\ufffd\u2028c"})
        for reason, kind in (("not later than 10", errors.Refused), ("unreadable sample 1", errors.Unreadable), ("no database", errors.NoDatabase)):
            error = error_of_line(reason, "f", "what was wrong")
            self.assertEqual((type(error), error.reason, error.path, error.detail), (kind, reason, "f", "what was wrong"))


class Runs(unittest.TestCase):
    """What a run of the program prints, where each line of a batch is followed by one of `last`."""

    def test_lines(self) -> None:
        cases: List[Tuple[List[str], str, str, Tuple[int, ...]]] = [
                (["update 20:1"], "20\n", "", ()), (["update 20:1", "update 20:2", "update 30:1"], "20\nERROR: not later than 20\n20\n30\n", "ERROR: not later than 20\n", (2,)),
                (["last", "first"], "20\n20\n10\n20\n", "20\n10\n", ()), (["last", "update 5:1", "last"], "20\n20\nERROR: x\n20\n20\n20\n", "20\nERROR: x\n20\n", (2,)),
                (["fetch LAST"], "time: g\n10: 1.0\n20: nan\n20\n", "time: g\n10: 1.0\n20: nan\n", ()), (["info", "last"], "step = 10\na = b\n20\n20\n20\n", "step = 10\na = b\n20\n", ()),
                (["", "  ", "update 20:1"], "20\n20\n20\n", "", ()), (["update 1:1", "info"], "ERROR: no database\nERROR: no database\nERROR: no database\nERROR: no database\n",
                                                                    "ERROR: no database\nERROR: no database\n", (1, 2)),
                (["update 20:1", "update 30:1"], "20\n", "ERROR: no result\n", (2,)), ([], "", "", ())]
        for given, printed, output, refused in cases:
            found = of_lines([line.encode() for line in given], printed.encode())
            self.assertEqual(found, (output.encode(), refused), given)

    def test_one_command(self) -> None:
        lines = iter([b"a: 1\n", b"b=2\n", b"20\n", b"rest\n"])
        self.assertEqual((output_of(b"fetch", lines), list(lines)), ([b"a: 1\n", b"b=2\n"], [b"rest\n"]))
        lines = iter([b"20\n", b"30\n", b"rest\n"])
        self.assertEqual((output_of(b"last", lines), list(lines)), ([b"20\n"], [b"rest\n"]))
        lines = iter([b"20\n", b"rest\n"])
        self.assertEqual((output_of(b"", lines), list(lines)), ([], [b"rest\n"]))
        lines = iter([b"a: 1\n"])
        self.assertEqual(output_of(b"fetch", lines), [b"a: 1\n"])

    def test_explanations(self) -> None:
        """Those of the lines of `last` go, and the others get the numbers that their lines had."""
        self.assertEqual(of_every_second(b"line 1: a\nline 2: b\nline 3: c: d\nline 6: e\nline 9: f"), b"line 1: a\nline 2: c: d\nline 5: f\n")
        self.assertEqual(of_every_second(b""), b"")

    def test_numbers_of_errors(self) -> None:
        for text, number in (("f: in use by another program", errno.EAGAIN), ("f: in use by another program (rrdi)", errno.EAGAIN), ("f: no such file or directory", errno.ENOENT),
                             ("a: b: No space left on device", errno.ENOSPC), ("permission denied", errno.EACCES), ("f: odd (os error 77)", 77), ("f: odd (os error 77) x", 0), ("f: odd", 0), ("", 0),
                             ("f: not in use by another program", 0)):
            self.assertEqual(number_of(text), number, text)

    def test_paths(self) -> None:
        for path, argument in ((b"-f", b"./-f"), (b"f", b"f"), (b"", b""), (b"--", b"./--"), (b"a-f", b"a-f")):
            self.assertEqual(as_argument(path), argument)

    def test_paths_by_the_number_of_an_open_file(self) -> None:
        """A number that is open is passed on to the program; no other one, and no other path."""
        with open("/dev/null", "rb") as file:
            number = file.fileno()
            self.assertEqual(numbers_in(b"/proc/self/fd/%d" % number), (number,))
            for path in (b"/proc/self/fd/%d/x" % number, b"./proc/self/fd/%d" % number, b"f", b"/proc/self/fd/", b"/proc/self/fd/" + b"9" * 30,
                         b"/proc/self/fd/999999999"):
                self.assertEqual(numbers_in(path), (), path)


class Definitions(unittest.TestCase):
    def test_read(self) -> None:
        found = settings_of(INFO)
        self.assertEqual((found.step, found.last, found.journal, found.undoable), (10, 1_600_000_033, 16, 2))
        self.assertEqual([tuple(one) for one in found.sources], [("g", "GAUGE", 60, "-1.500000", "U", "2.500000"), ("c", "COUNTER", 70, "0.000000", "100.000000", "U")])
        self.assertEqual([tuple(one) for one in found.archives], [("AVERAGE", "0.500000", 1, 4), ("MAX", "0.250000", 6, 3)])
        self.assertEqual([(found.resolution(at), found.start(at), found.end(at)) for at in (0, 1)], [(10, 1_599_999_990, 1_600_000_030), (60, 1_599_999_840, 1_600_000_020)])
        self.assertEqual(Settings(10, 20, 1, 0, [], found.archives).start(1), -180)

    def test_what_is_lacking(self) -> None:
        for line in INFO.splitlines(True):
            if not line.startswith(("ds[1].name", "rra[1].cf")):  # these end the sources, or the archives
                with self.assertRaisesRegex(ValueError, "^no "):
                    settings_of(INFO.replace(line, ""))
        self.assertEqual(len(settings_of(INFO.replace("ds[1].name = c\n", "")).sources), 1)
        self.assertEqual(len(settings_of(INFO.replace("rra[1].cf = MAX\n", "")).archives), 1)
        for text in ("", "step = 10\nlast_update = 5\njournal = 1\nundoable = 0\n", INFO.replace("step = 10", "step = x")):
            self.assertRaises(ValueError, settings_of, text)
        self.assertEqual(settings_of(INFO.replace("last_raw = U", "last_raw = 7 = 8")).sources[1].last_raw, "7 = 8")

    def test_for_people(self) -> None:
        for kind in (float, Decimal):
            found: Any = info_of(INFO, "net.rrdi", kind)
            self.assertEqual(found, Info("net.rrdi", 10, 1_600_000_033, 16, 2, {
                "g": SourceInfo("g", "GAUGE", 60, kind("-1.5"), None, kind("2.5")), "c": SourceInfo("c", "COUNTER", 70, kind("0"), kind("100"), None)},
                (ArchiveInfo("AVERAGE", kind("0.5"), 1, 4, 10), ArchiveInfo("MAX", kind("0.25"), 6, 3, 60))))
            self.assertIs(type(found.sources["g"].min), kind)
            with self.assertRaises(AttributeError):
                found.step = 5
        exact = info_of(INFO.replace("last_raw = U", f"last_raw = {2**64 - 1}"), "net.rrdi", Decimal)
        self.assertEqual(exact.sources["c"].last_raw, Decimal(2**64 - 1))
        self.assertRaises(TypeError, info_of, INFO, "net.rrdi", str)

    def test_what_differs(self) -> None:
        """The first difference of two definitions; what samples have changed is none."""
        changes = (("step = 10", "step = 20", "the file has step=10, not step=20"), ("undoable = 2", "undoable = 3", ""), ("last_update = 1600000033", "last_update = 5", ""),
                   ("last_raw = U", "last_raw = 7", ""), ("journal = 16", "journal = 17", ""), ("ds[0].name = g", "ds[0].name = h", "the file has DS:g:GAUGE:60:-1.5:U, not DS:h:GAUGE:60:-1.5:U"),
                   ("ds[1].type = COUNTER", "ds[1].type = DERIVE", "the file has DS:c:COUNTER:70:0:100, not DS:c:DERIVE:70:0:100"),
                   ("ds[1].minimal_heartbeat = 70", "ds[1].minimal_heartbeat = 71", "the file has DS:c:COUNTER:70:0:100, not DS:c:COUNTER:71:0:100"),
                   ("ds[0].min = -1.500000", "ds[0].min = U", "the file has DS:g:GAUGE:60:-1.5:U, not DS:g:GAUGE:60:U:U"), ("ds[0].max = U", "ds[0].max = 5.000000", "the file has DS:g:GAUGE:60:-1.5:U, not DS:g:GAUGE:60:-1.5:5"),
                   ("rra[1].cf = MAX", "rra[1].cf = MIN", "the file has RRA:MAX:0.25:6:3, not RRA:MIN:0.25:6:3"), ("rra[1].xff = 0.250000", "rra[1].xff = 0.000000", "the file has RRA:MAX:0.25:6:3, not RRA:MAX:0:6:3"),
                   ("rra[0].steps = 1", "rra[0].steps = 2", "the file has RRA:AVERAGE:0.5:1:4, not RRA:AVERAGE:0.5:2:4"), ("rra[0].rows = 4", "rra[0].rows = 5", "the file has RRA:AVERAGE:0.5:1:4, not RRA:AVERAGE:0.5:1:5"))
        for before, after, text in changes:
            self.assertEqual(difference(INFO, INFO.replace(before, after), False), text, before)
        self.assertEqual(difference(INFO, INFO.replace("journal = 16", "journal = 17"), True), "the file has journal=16, not journal=17")
        shorter = INFO[:INFO.index("rra[1]")]
        self.assertEqual((difference(INFO, shorter, True), difference(shorter, INFO, True), difference(INFO, INFO, True)),
                         ("the file has RRA:MAX:0.25:6:3", "the file lacks RRA:MAX:0.25:6:3", ""))


class Rows(unittest.TestCase):
    def test_printed(self) -> None:
        found = printed_rows("time: a b\n10: 1.500000 nan\n-20: U -2.000000\n")
        self.assertEqual((found.names, found.times, found.words), (("a", "b"), [10, -20], [["1.500000", "nan"], ["U", "-2.000000"]]))
        self.assertEqual((tuple(printed_rows("")), tuple(printed_rows("time: a b\n"))), (((), [], []), (("a", "b"), [], [])))

    def test_the_last_update(self) -> None:
        found = last_update("time: a b\n1700000000: 5 U\n", float, datetime.timezone.utc)
        self.assertEqual((found.date, found.values), (datetime.datetime(2023, 11, 14, 22, 13, 20, tzinfo=datetime.timezone.utc), {"a": 5.0, "b": None}))
        self.assertIsNone(last_update("time: a\n1700000000: 5\n", float).date.tzinfo)


class Amounts(unittest.TestCase):
    def test_texts(self) -> None:
        for text, short in (("1.500000", "1.5"), ("100", "100"), ("100.000000", "100"), ("0.000000", "0"), ("-0.000000", "0"), ("-0", "0"), ("-0.500000", "-0.5"), ("U", "U"), ("10.010", "10.01"), ("0.000001", "0.000001"), ("", "")):
            self.assertEqual(shortened(text), short)
        for value, text_of_it in ((1_500_000, "1.500000"), (-1, "-0.000001"), (0, "0.000000"), (-1_000_000, "-1.000000"), (999_999, "0.999999"), (-999_999, "-0.999999")):
            self.assertEqual(str(Millionths(value)), text_of_it)

    def test_gauges(self) -> None:
        for number, text in ((0.0, "0.000000"), (-0.0, "0"), (-4e-7, "0"), (-6e-7, "-0.000001"), (4e-7, "0.000000"), (1e18, None), (-1e18, None), (999999999999999872.0, "999999999999999872.000000"), (-999999999999999872.0, "-999999999999999872.000000"),
                             (math.inf, None), (-math.inf, None), (math.nan, None), (2.5, "2.500000")):
            self.assertEqual(gauge_text(number), text, number)


class Defaults(unittest.TestCase):
    def test_defaults(self) -> None:
        for given, wait in ((0, 0), (0.0005, 0), (0.001, 1), (1.5, 1_500), (3_600, 3_600_000), (3_600.5, 3_600_000), (math.inf, 3_600_000)):
            self.assertEqual(milliseconds(given), wait)
        for wrong in (-0.001, -1, math.nan):
            with self.assertRaisesRegex(ValueError, "^busy_timeout must be 0 or more seconds, not "):
                milliseconds(wrong)
        for text, seconds in (("18446744073709551615", 3_600), ("18446744073709551616", 5), ("00000000000000000007", 7), ("000000000000000000007", 5), ("99999999999999999999", 5), ("100000000000000000000", 5),
                              ("3599", 3_599), ("3600", 3_600), ("3601", 3_600), ("000", 0), ("", 5), ("\u0661", 5), ("1 ", 5), ("+1", 5), ("5.5", 5), ("9" * 5_000, 5)):
            with mock.patch.dict(os.environ, {"RRDI_WAIT": text}):
                self.assertEqual(wait_of_environment(), 1_000 * seconds, text)
        for text, is_set in (("1", True), ("0", False), ("", False), ("01", False), ("true", False)):
            with mock.patch.dict(os.environ, {"RRDI_SYNC": text}):
                self.assertEqual(sync_of_environment(), is_set, text)
        with mock.patch("rrdi.environment.WAIT", 7), mock.patch("rrdi.environment.SYNC", True):
            self.assertEqual((milliseconds(None), is_synced(None), is_synced(False)), (7, True, False))


class Empty(unittest.TestCase):
    def test_a_file_that_is_being_made(self) -> None:
        """One that is gone, or has bytes by now, or is younger than ten seconds, whatever the clocks say."""
        file = new_folder(self) / "f"
        self.assertTrue(is_being_made(file))
        self.assertEqual(LONGEST_CREATION, 10)
        file.touch()
        for age, is_new in ((0, True), (9, True), (10, False), (11, False), (-9, True), (-11, False), (86_400, False)):
            os.utime(file, (0, 1_700_000_000 - age))
            with mock.patch.object(time, "time", lambda: 1_700_000_000.0):
                self.assertEqual(is_being_made(file), is_new, age)
        file.write_bytes(b"x")
        os.utime(file, (0, 0))
        self.assertTrue(is_being_made(file))


if __name__ == "__main__":
    unittest.main()
