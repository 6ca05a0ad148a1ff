# SPDX-License-Identifier: MIT OR Apache-2.0
"""Tests of `rrdi.compat`: RRDtool's syntax, and the module that replaces Python's `rrdtool`. If Python's `rrdtool` is
installed for /usr/bin/python3, the tests make the same calls of both modules, and compare the results."""
from __future__ import annotations

import datetime
import errno
import os
import subprocess
import sys
import unittest
from pathlib import Path
from typing import Any, List, Optional
from unittest import mock

from cases import WithLibrary, WithProgram, new_folder, use_library
from doubles import TOP

import rrdi
from rrdi.compat import rrdtool
from rrdi.compat.syntax import OPTIONS, Untranslatable, read_length, read_number, read_options
from rrdi.compat.translate import translate
from rrdi.printed import Archive, Settings

NOW = 1_700_000_000
# Where Debian's package python3-rrdtool can be imported.
PYTHONS = [path for path in ("/usr/bin/python3",) if os.access(path, os.X_OK)]
LACKING = ("dump", "flushcached", "graph", "graphv", "list", "register_fetch_cb", "clear_fetch_cb", "updatev", "xport")


class Questions:
    def last(self, file: str) -> int:
        return 1_600_000_020

    def settings(self, file: str) -> Optional[Settings]:
        if file == "none.rrd":
            return None
        return Settings(10, 1_600_000_020, 16, 0, [], [Archive("MAX", "0.500000", 1, 4)])


class Translations(unittest.TestCase):
    def test_numbers(self) -> None:
        for text, wanted in (("1e3", "1000"), ("+5", "5"), (".5", "0.5"), ("5.", "5"), ("0.1234565", "0.123457"),
                             ("-0.0000005", "0"), ("-0.0000006", "-0.000001"), ("nan", "U"), ("-NaN", "U"), ("U", "U"),
                             ("12.5", "12.5"), ("x", "x"), ("1e-7", "0"), ("1.5e2", "150")):
            self.assertEqual(read_number(text), wanted, text)

    def test_lengths(self) -> None:
        for text, unit, wanted in (("5m", 1, "300"), ("1h", 300, "12"), ("1d", 1, "86400"), ("7", 300, "7"),
                                   ("1w", 1, "604800"), ("1M", 1, "2678400"), ("1y", 1, "31622400")):
            self.assertEqual(read_length(text, "step", unit), wanted)
        for text in ("", "x", "5 m", "-5", "\u0665", "\u0665m"):
            with self.assertRaisesRegex(Untranslatable, "step must be a number or a duration"):
                read_length(text, "step")
        with self.assertRaisesRegex(Untranslatable, "^step must be a number or a duration such as 5m, not 5 m$"):
            read_length("5 m", "step")
        with self.assertRaisesRegex(Untranslatable, "rows must be a multiple of 300 seconds, not 450s"):
            read_length("450s", "rows", 300)

    def test_letters_in_one_word(self) -> None:
        """Those after an option without a value begin the next option."""
        for words in (["-Ob5", "f"], ["-O", "-b", "5", "f"], ["-O", "-b5", "f"], ["--no-overwrite", "f", "--start=5"]):
            self.assertEqual(read_options("create", words), ([("--no-overwrite", ""), ("--start", "5")], ["f"]))
        self.assertEqual(read_options("create", ["-Ob", "5", "f"]), ([("--no-overwrite", ""), ("--start", "5")], ["f"]))
        with self.assertRaisesRegex(Untranslatable, "create has no option -5"):
            read_options("create", ["-O5", "f"])
        with self.assertRaisesRegex(Untranslatable, "--start needs a value"):
            read_options("create", ["f", "-Ob"])

    def test_archives_in_other_parts(self) -> None:
        """rrdi says what is wrong with them."""
        for wrong in ("RRA:AVERAGE:0.5:1", "RRA:MAX:0.5:1:5m:9"):
            self.assertEqual(translate("create", ["f", wrong], NOW, Questions())[0][-1], wrong)

    def test_commands(self) -> None:
        for words, wanted in (
                ("create -s 5m f.rrd -b 1600000000 DS:g:GAUGE:10m:0:1e3 RRA:AVERAGE:.5:5m:1d",
                 ["create f.rrd --step 300 --start 1600000000 DS:g:GAUGE:600:0:1000 RRA:AVERAGE:0.5:1:288"]),
                ("update f.rrd -t g 1600000030.7:1e0 N:2", ["update f.rrd --template g 1600000030:1 N:2"]),
                ("update f.rrd -s 1600000010:1 1600000020:1 1600000030:nan 1600000030:2",
                 ["update f.rrd 1600000030:U"]),
                ("update f.rrd --skip-past-updates 1600000010:1", []),
                (f"update f.rrd -s \u00b2:1 {'9' * 5_000}:1", [f"update f.rrd \u00b2:1 {'9' * 5_000}:1"]),
                ("update f.rrd \u0661:1", ["update f.rrd \u0661:1"]),
                ("update f.rrd now-1h@1", [f"update f.rrd {NOW - 3_600}:1"]),
                ("fetch f.rrd MAX -r 1h -s end-2h -e 1600000000 -a",
                 ["fetch f.rrd MAX --resolution 3600 --start 1599991200 --end 1599998400"]),
                ("fetch f.rrd MAX", ["fetch f.rrd MAX"]),
                ("fetch f.rrdi MAX -a -r 300 -s 1000000299 -e 1000000700",
                 ["fetch f.rrdi MAX --resolution 300 --start 1000000200 --end 1000000601"]),
                ("fetch -s 1000000000 -e start+1h f.rrdi MAX", ["fetch f.rrdi MAX --start 1000000000 --end 1000003600"]),
                ("create x.rrdi --step 1d DS:g:GAUGE:1M:0:U RRA:MAX:.5:1:1M",
                 ["create x.rrdi --step 86400 DS:g:GAUGE:2678400:0:U RRA:MAX:0.5:1:31"]),
                ("update f.rrdi 10:1.23456789e1:nan", ["update f.rrdi 10:12.345679:U"]),
                ("create f.rrd DS:g RRA", ["create f.rrd DS:g RRA"]), ("tune f.rrdi RRA#0:+0", ["resize f.rrdi 0 GROW 0"]),
                ("tune f.rrdi RRA#0:4", []), ("tune f.rrdi -h g:5m -h g:10m", ["tune f.rrdi --heartbeat g:300",
                                                                              "tune f.rrdi --heartbeat g:600"]),
                ("tune f.rrd -h g:5m -r g:h -h h:7", ["tune f.rrd --heartbeat g:300 --data-source-rename g:h",
                                                      "tune f.rrd --heartbeat h:7"]),
                ("tune f.rrd RRA#0:+3 RRA#0:4 RRA#0:=6 RRA#0:-1 DELRRA:2 RRA:MAX:.5:1m:1h",
                 ["resize f.rrd 0 GROW 3", "resize f.rrd 0 GROW 2", "resize f.rrd 0 SHRINK 1", "tune f.rrd DELRRA:2",
                  "tune f.rrd RRA:MAX:0.5:6:60"]),
                # The step is 300 seconds by default; a length in a file that there is not is in seconds.
                ("create f.rrd DS:g:GAUGE:10m:U:U RRA:MAX:0.5:5m:1d", ["create f.rrd DS:g:GAUGE:600:U:U RRA:MAX:0.5:1:288"]),
                ("tune none.rrd RRA:MAX:.5:1m:1h", ["tune none.rrd RRA:MAX:0.5:60:60"]),
                # A time of 0 or more is one since 1970, and one below 0 is before now, and never before 1970.
                ("update f.rrd 0:1 1:1", ["update f.rrd 0:1 1:1"]), ("update f.rrd -- -1:5", [f"update f.rrd {NOW - 1}:5"]),
                (f"update f.rrd -- -{NOW}:5 -{NOW + 1}:5", ["update f.rrd 0:5 0:5"]),
                # Samples up to the last one are left out, whatever option comes first; the others are as they would be without it.
                ("update f.rrd -s -t g 1600000020:1 1600000021:2", ["update f.rrd --template g 1600000021:2"]),
                ("update f.rrd -s x:1 N:2", [f"update f.rrd x:1 {NOW}:2"]), ("update f.rrd x:1 N:2", ["update f.rrd x:1 N:2"]),
                # Without a resolution, or with 0, there is nothing to align with.
                ("fetch f.rrd MAX -a -s 1000000299 -e 1000000700", ["fetch f.rrd MAX --start 1000000299 --end 1000000700"]),
                ("fetch f.rrd MAX -a -r 0 -s 1000000299 -e 1000000700", ["fetch f.rrd MAX --resolution 0 --start 1000000299 --end 1000000700"]),
                ("fetch f.rrd MAX -a -r 1 -s 1000000299 -e 1000000700", ["fetch f.rrd MAX --resolution 1 --start 1000000299 --end 1000000700"]),
                # A command has an option once, and none after a rename, whatever the commands before it have.
                ("tune f.rrd -h a:1 -h b:2 -i a:3 -i b:4", ["tune f.rrd --heartbeat a:1", "tune f.rrd --heartbeat b:2 --minimum a:3",
                                                            "tune f.rrd --minimum b:4"]),
                ("tune f.rrd -h a:1 -h b:2 -r a:c -i c:1", ["tune f.rrd --heartbeat a:1", "tune f.rrd --heartbeat b:2 --data-source-rename a:c",
                                                            "tune f.rrd --minimum c:1"]),
                ("tune f.rrd -d g:DERIVE -i g:nan -a g:1e2", ["tune f.rrd --data-source-type g:DERIVE --minimum g:U --maximum g:100"]),
                ("tune f.rrd -r COMPUTE:DDERIVE", ["tune f.rrd --data-source-rename COMPUTE:DDERIVE"]),
                # rrdi reports that there is no such archive.
                ("tune f.rrd RRA#5:4", ["resize f.rrd 5 GROW 4"]), ("tune f.rrd RRA#5:=4", ["resize f.rrd 5 GROW 4"]),
                ("tune f.rrd RRA#0:=3", ["resize f.rrd 0 SHRINK 1"]), ("tune f.rrd RRA#0:=5", ["resize f.rrd 0 GROW 1"]),
                ("first f.rrd --rraindex 1", ["first f.rrd --rraindex 1"]), ("last -- -f.rrd", ["last ./-f.rrd"]),
                ("info f.rrd -F", ["info f.rrd"]), ("resize f.rrd 0 GROW 3", ["resize f.rrd 0 GROW 3"])):
            command, *others = words.split()
            self.assertEqual([" ".join(one) for one in translate(command, others, NOW, Questions())], wanted, words)

    def test_a_copy_that_cannot_be_made(self) -> None:
        with mock.patch.object(rrdtool, "resize_copy", side_effect=OSError(errno.ENOSPC, "", "x")), self.assertRaises(rrdtool.OperationalError) as raised:
            rrdtool.resize("f", "0", "GROW", "5")
        error = raised.exception
        self.assertEqual((error.reason, error.path, error.fault, error.system_error, str(error)), ("cannot open", "x", 0, errno.ENOSPC, "x: cannot open: No space left on device"))

    def test_no_overwrite(self) -> None:
        folder = new_folder(self)
        (folder / "link").symlink_to("nowhere")
        (folder / "file").touch()
        for name in ("link", "file"):
            for option in ("-O", "--no-overwrite"):
                with self.assertRaisesRegex(Untranslatable, f"{name} already exists"):
                    words = [option, f"{folder}/{name}", "DS:g:GAUGE:9:U:U", "RRA:MAX:0.5:1:4"]
                    translate("create", words, NOW, Questions())

    def test_what_is_lacking(self) -> None:
        for words, reason in (("graph x.png", "rrdi has no command graph"), ("last", "last needs a FILE"),
                              ("-", "pipe mode is not supported"), ("last f -d x", "last --daemon is not supported"),
                              ("create f DS:g:DDERIVE:9:U:U", "rrdi has no type DDERIVE"),
                              ("create f RRA:HWPREDICT:9:0.1:0.1:3", "rrdi has no function HWPREDICT"),
                              ("create f DS:g=a:GAUGE:9:U:U", "a source cannot be filled from another file"),
                              ("fetch f MAX -s end-1 -e start+1", "cannot both be relative to each other"),
                              ("fetch f MAX --wrong", "fetch has no option --wrong$"), ("fetch f MAX -Zab", "fetch has no option -Z$"),
                              ("create f DS:g:COMPUTE", "rrdi has no type COMPUTE: DS:g:COMPUTE"),
                              ("create f RRA:HWPREDICT", "rrdi has no function HWPREDICT: RRA:HWPREDICT"),
                              ("tune f RRA:HWPREDICT", "rrdi has no function HWPREDICT: RRA:HWPREDICT"),
                              ("tune f RRA", "tune cannot add or remove data sources: RRA$"),
                              # 366 days are not a whole number of weeks.
                              ("create f --step 1d RRA:MAX:.5:1w:1y", "rows must be a multiple of 604800 seconds, not 1y"),
                              ("fetch f MAX -s", "--start needs a value"), ("tune f", "tune needs an option"),
                              ("tune f DEL:g", "tune cannot add or remove data sources"),
                              ("tune f RRA#0:x", "cannot parse the number of rows"),
                              ("tune f RRA#0:=\u0665", "cannot parse the number of rows"),
                              ("tune f -d g:COMPUTE", "rrdi has no type COMPUTE"), ("tune f -x 1", "is not supported"),
                              ("tune f --alpha 0.1", "tune --alpha is not supported"),
                              ("create f -r y DS:g:GAUGE:9:U:U", "create --source is not supported"),
                              ("create f --step 5m RRA:MAX:0.5:450s:4", "steps must be a multiple of 300 seconds, not 450s"),
                              ("fetch f MAX -s 32:00", "cannot parse time: 32:00")):
            command, *others = words.split()
            with self.assertRaisesRegex(Untranslatable, reason):
                translate(command, others, NOW, Questions())


    def test_options_of_tune(self) -> None:
        """Five are those of rrdi; others are RRDtool's."""
        own = ("--heartbeat", "--minimum", "--maximum", "--data-source-type", "--data-source-rename")
        for option in OPTIONS["tune"]:
            name, letter = option.split("= ")
            if name in own:
                self.assertEqual(read_options("tune", ["f", letter, "g:5"]), ([(name, "g:5")], ["f"]))
            else:
                with self.assertRaisesRegex(Untranslatable, f"^tune {name} is not supported$"):
                    read_options("tune", ["f", letter, "g:5"])
        self.assertTrue(set(own) < {option.split("=")[0] for option in OPTIONS["tune"]})


class Module:
    """The module's functions. A class of tests adds which library they call."""

    def setUp(self: Any) -> None:
        folder = new_folder(self)
        self.addCleanup(os.chdir, os.getcwd())
        os.chdir(folder)
        use_library(self, self.library())

    def fill(self: Any) -> None:
        rrdtool.create("f.rrd", "-s", "10", "--start", "1600000000", ["DS:g:GAUGE:1m:U:U", "DS:c:COUNTER:60:0:1e2"],
                       "RRA:AVERAGE:.5:1:4", "RRA:MAX:.5:20s:4")
        rrdtool.update("f.rrd", "1600000010:1.5e0:5", ["1600000020:nan:8", "1600000030.9:-2.25:15"])

    def test_values(self: Any) -> None:
        self.fill()
        self.assertEqual(rrdtool.fetch("f.rrd", "AVERAGE", "-s", "end-30", "-e", "1600000029"),
                         ((1_599_999_990, 1_600_000_030, 10), ("g", "c"),
                          [(None, None), (1.5, None), (None, 0.3), (-2.25, 0.7)]))
        self.assertEqual((rrdtool.last("f.rrd"), rrdtool.first("f.rrd")), (1_600_000_030, 1_600_000_000))
        self.assertEqual(rrdtool.first(["--rraindex", "1"], "f.rrd"), 1_599_999_960)
        self.assertEqual(rrdtool.lastupdate("f.rrd"), {"date": datetime.datetime.fromtimestamp(1_600_000_030),
                                                       "ds": {"g": -2.25, "c": 15.0}})
        found = rrdtool.info(["f.rrd"])
        self.assertEqual((found["filename"], found["ds[c].max"], found["rra[1].pdp_per_row"]), ("f.rrd", 100.0, 2))
        rrdtool.tune("f.rrd", "-h", "g:2m", "-h", "g:3m", "RRA#0:+2")
        found = rrdtool.info("f.rrd")
        self.assertEqual((found["ds[g].minimal_heartbeat"], found["rra[0].rows"]), (180, 6))
        rrdtool.update("f.rrd", "-s", "1600000030:9:9", "1600000040:9:20")
        self.assertEqual(rrdtool.last("f.rrd"), 1_600_000_040)
        rrdtool.update("f.rrd", "--skip-past-updates", "1600000030:9:9")
        rrdtool.update("f.rrd", "-t", "c", "1600000050:30")
        self.assertEqual(rrdtool.lastupdate("f.rrd")["ds"], {"g": None, "c": 30.0})

    def test_the_present_second(self: Any) -> None:
        """A fraction of it is dropped, as rrdi drops it: no sample is later than the clock."""
        self.fill()
        with mock.patch("time.time", lambda: 1_600_000_040.9):
            rrdtool.update("f.rrd", "-s", "N:1:20")
        self.assertEqual(rrdtool.last("f.rrd"), 1_600_000_040)

    def test_resize(self: Any) -> None:
        self.fill()
        before = Path("f.rrd").read_bytes()
        rrdtool.resize("f.rrd", "0", "GROW", "3")
        self.assertEqual(Path("f.rrd").read_bytes(), before)
        self.assertEqual(rrdtool.info("resize.rrd")["rra[0].rows"], 7)
        with self.assertRaises(rrdtool.OperationalError):
            rrdtool.resize("f.rrd", "9", "GROW", "3")
        self.assertFalse(Path("resize.rrd").exists())
        with self.assertRaises(rrdtool.OperationalError):
            rrdtool.resize("none.rrd", "0", "GROW", "3")

    def test_faults(self: Any) -> None:
        self.fill()
        nothing = "none.rrd: cannot open: No such file or directory"
        faults: List[Any] = [
            (lambda: rrdtool.update("f.rrd", "1600000030:1:2"),
             "f.rrd: not later than 1600000030: 1600000030 is not later than the last update, 1600000030; the next sample may be "
             "at 1600000031 or later"),
            (lambda: rrdtool.update("f.rrd", "x"), "f.rrd: unreadable sample 1: its time is 'x', not whole seconds since 1970 or N"),
            (lambda: rrdtool.update("f.rrd", "1600000040:1,5:2"),
             "f.rrd: unreadable sample 1: its value 1 is '1,5'; write '1.5', with a point"),
            (lambda: rrdtool.resize("f.rrd"), "resize.rrd: usage: give the number of an archive, such as 0"),
            (lambda: rrdtool.fetch("f.rrd", "AVERAGE", "-s", "32:00"), "cannot parse time: 32:00"),
            (lambda: rrdtool.fetch("f.rrd", "AVERAGE", "-s", "a\nb\x1b"), "cannot parse time: a\\nb\\u{1b}"),
            (lambda: rrdtool.fetch("f.rrd"), "f.rrd: fetch needs a FUNCTION"),
            (lambda: rrdtool.last("none.rrd"), nothing), (lambda: rrdtool.last(), "last needs a FILE"),
            (lambda: rrdtool.update("none.rrd", "-s", "N:1"), nothing),
            (lambda: rrdtool.create("f.rrd", "-O", "DS:g:GAUGE:9:U:U"), "f.rrd already exists")]
        for call, reason in faults:
            with self.assertRaises(rrdtool.OperationalError) as raised:
                call()
            self.assertEqual(str(raised.exception), reason)
        with self.assertRaises(rrdtool.ProgrammingError):
            rrdtool.lastupdate()
        others: List[Any] = [((1, "N:1"), "Argument 0 must be str or a list of str"),
                             (("f.rrd", 5), "Argument 1 must be str or a list of str"),
                             (("f.rrd", ("N:1",)), "Argument 1 must be str or a list of str"),
                             (("f.rrd", ["N:1", 5]), "Element 1 in argument 1 must be str")]
        for words, reason in others:
            with self.assertRaises(TypeError) as wrong:
                rrdtool.update(*words)
            self.assertEqual(str(wrong.exception), reason)

    def test_rows_that_are_set(self: Any) -> None:
        """The file tells how many there are."""
        self.fill()
        rows = rrdi.info("f.rrd").archives[0].rows
        for words, wanted in (("RRA#0:=20", 20), ("RRA#0:20", 20), ("RRA#0:-7", 13), (f"RRA#0:={rows}", rows)):
            rrdtool.tune("f.rrd", words)
            self.assertEqual(rrdi.info("f.rrd").archives[0].rows, wanted, words)
        for file in ("none.rrd", "."):
            with self.assertRaises(rrdtool.OperationalError):
                rrdtool.tune(file, "RRA#0:=20")

    def test_what_is_lacking(self: Any) -> None:
        for name in LACKING:
            with self.assertRaises(rrdtool.OperationalError) as raised:
                getattr(rrdtool, name)("f.rrd")
            self.assertEqual(str(raised.exception), f"rrdi has no command {name}")
        self.assertEqual((rrdtool.lib_version(), rrdtool.__version__), (rrdi.__version__,) * 2)

    @unittest.skipUnless(PYTHONS, "there is no /usr/bin/python3")
    def test_beside_rrdtool(self: Any) -> None:
        """The same calls of Python's module `rrdtool`, by the python3 that has it."""
        if subprocess.run([PYTHONS[0], "-c", "import rrdtool"], stderr=subprocess.DEVNULL).returncode:
            self.skipTest("python3-rrdtool is not installed")
        ran = subprocess.run([PYTHONS[0], "-c", f"import rrdtool\nfor call in {CALLS!r}:\n    print(repr(eval(call)))"],
                             stdout=subprocess.PIPE, universal_newlines=True, check=True)
        theirs = ran.stdout.splitlines()
        os.remove("f.rrd")
        self.assertEqual(len(theirs), len(CALLS))
        for call, printed in zip(CALLS, theirs):
            wanted = eval(printed, {"datetime": datetime, "nan": float("nan")})
            found = eval(call, {"rrdtool": rrdtool})
            if call.startswith("rrdtool.info"):
                found, wanted = self.shared_settings(found, wanted)
            self.assertEqual(repr(rounded(found)), repr(rounded(wanted)), call)

    def shared_settings(self: Any, found: Any, wanted: Any) -> Any:
        """The settings that both have. Debian's module leaves out every number with a point that is known."""
        left_out = {key.split("].")[-1] for key in wanted if key not in found}
        self.assertLessEqual(left_out, {"rrd_version", "header_size", "cur_row", "value", "unknown_sec",
                                        "unknown_datapoints"})
        floats = {key for key, value in found.items() if isinstance(value, float)}
        self.assertEqual({key for key in found if key not in wanted} - floats, {"journal", "undoable"})
        shared = [key for key in found if key in wanted]
        self.assertGreater(len(shared), 15)
        return {key: found[key] for key in shared}, {key: wanted[key] for key in shared}


def rounded(value: Any) -> Any:
    """Numbers to a millionth, which is as exact as rrdi is."""
    if isinstance(value, float):
        return round(value, 6) + 0.0
    if isinstance(value, (list, tuple)):
        return type(value)(rounded(part) for part in value)
    return {key: rounded(part) for key, part in value.items()} if isinstance(value, dict) else value


SAMPLES = [f"{1_600_000_000 + 10 * at}:{at * 1.25 - 40}:{at * at}" for at in range(1, 60)]
CALLS: List[str] = [
    "rrdtool.create('f.rrd', '--step', '10', '--start', '1600000000', 'DS:g:GAUGE:1m:U:U', 'DS:c:COUNTER:60:0:1000',"
    " ['RRA:AVERAGE:0.5:1:60', 'RRA:MAX:0.5:6:20', 'RRA:LAST:0.5:6:20', 'RRA:MIN:0.5:6:20', 'RRA:AVERAGE:0.5:1m:20'])",
    *(f"rrdtool.update('f.rrd', *{SAMPLES[at:at + 7]!r})" for at in range(0, len(SAMPLES), 7)),
    "rrdtool.update('f.rrd', '-t', 'c:g', '1600000600:3600:1e1', '1600000610:U:5')",
    "rrdtool.last('f.rrd')", "rrdtool.first('f.rrd')", "rrdtool.first('f.rrd', '--rraindex', '2')",
    "rrdtool.fetch('f.rrd', 'AVERAGE', '-s', '1600000000', '-e', '1600000609')",
    "rrdtool.fetch('f.rrd', 'AVERAGE', '-r', '60', '-s', 'end-10m', '-e', '1600000600')",
    "rrdtool.fetch('f.rrd', 'MAX', '-r', '60', '-s', '1600000000', '-e', 'start+10m')",
    "rrdtool.fetch('f.rrd', 'AVERAGE', '-s', '1600000300', '-e', '1600000300')",
    "rrdtool.fetch('f.rrd', 'MIN', '-r', '60', '-s', '1600000300', '-e', '1600000300')",
    "rrdtool.fetch(['f.rrd', 'LAST', '-r', '1m', '-a', '-s', '1600000010', '-e', '1600000500'])",
    "rrdtool.lastupdate('f.rrd')", "rrdtool.info('f.rrd')",
    "rrdtool.tune('f.rrd', '-h', 'g:200', '-i', 'g:-1e3', '-a', 'c:500', '-r', 'c:d', '-d', 'g:DERIVE')",
    "rrdtool.update('f.rrd', '1600000620:7:5')", "rrdtool.info('f.rrd')", "rrdtool.lastupdate('f.rrd')",
    "rrdtool.update('f.rrd', '--skip-past-updates', '1600000610:7:5', '1600000630:17:6')", "rrdtool.last('f.rrd')",
    "rrdtool.fetch('f.rrd', 'AVERAGE', '-s', '1600000580', '-e', '1600000640')",
    "rrdtool.resize('f.rrd', '0', 'GROW', '3')", "rrdtool.info('resize.rrd')",
    "rrdtool.tune('f.rrd', 'RRA#1:+5', 'DELRRA:4')", "rrdtool.info('f.rrd')",
    "rrdtool.lastupdate(['f.rrd'])",
]


class Stub(unittest.TestCase):
    def test_import_by_the_name(self) -> None:
        """A program that says `import rrdtool` gets this module if the stub's folder is first on its path."""
        asks = "import rrdtool; print(rrdtool.fetch.__module__, rrdtool.__version__, " \
               "rrdtool.OperationalError.__module__)"
        env = {**os.environ, "PYTHONPATH": str(TOP / "python/compat")}
        ran = subprocess.run([sys.executable, "-B", "-c", asks], env=env, stdout=subprocess.PIPE,
                             universal_newlines=True)
        self.assertEqual(ran.stdout, f"rrdi.compat.rrdtool {rrdi.__version__} rrdi.errors\n")


class ModuleByProgram(WithProgram, Module, unittest.TestCase):
    pass


class ModuleByLibrary(WithLibrary, Module, unittest.TestCase):
    pass
