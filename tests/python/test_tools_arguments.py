# SPDX-License-Identifier: MIT OR Apache-2.0
"""Tests of the arguments of each tool: what each form means, what each wrong one is told, and that no word more or less, empty
or twice ends otherwise. No program is needed; test_tools_check has those of rrdi-check."""
from __future__ import annotations

import unittest
from functools import partial
from typing import Any, Callable, List, Tuple
from unittest import mock

import doubles  # noqa: F401
from rrdi.feeding.feeder import FeedOptions
from rrdi.tools import compare, exporter, feed, fix, importer, machine, plot, record, rrdtool, show
from rrdi.tools.command_line import WrongArguments
from rrdi.tools.exporter import ExportOptions
from rrdi.tools.importer import ImportArguments
from rrdi.tools.plot_folder import PagesAsked
from rrdi.tools.plotting.asked import PlotOptions

Read = Callable[[List[str]], Any]
EMPTY = "EMPTY"  # stands for a word without a character
FUNCTION = "the function %r must be AVERAGE, MIN, MAX or LAST"


def words_of(line: str) -> List[str]:
    return ["" if word == EMPTY else word.replace(EMPTY, "") for word in line.split()]


class Arguments(unittest.TestCase):
    def check(self, read: Read, right: List[Tuple[str, Any]], wrong: List[str], told: Tuple[Tuple[str, str], ...] = ()) -> None:
        """Checks what lines mean, which ones are wrong, and what is told of these: nothing but the usage without a text."""
        for line, wanted in right:
            self.assertEqual(read(words_of(line)), wanted, line)
            self.vary(read, words_of(line))
        for line, text in (*((line, "") for line in wrong), *told):
            with self.assertRaises(WrongArguments, msg=line) as raised:
                read(words_of(line))
            self.assertEqual(str(raised.exception), text, line)

    def vary(self, read: Read, words: List[str]) -> None:
        for at in range(len(words)):
            for changed in (words[:at], words[:at] + words[at + 1:], words[:at] + [""] + words[at + 1:], words[:at + 1] + words[at:]):
                given = list(changed)
                try:
                    read(given)
                except WrongArguments:
                    pass
                self.assertEqual(given, changed, "the words of the caller stay")

    def test_import(self) -> None:
        many = partial(ImportArguments, None, True)
        with mock.patch("os.sched_getaffinity", lambda process: {1, 2, 5}):
            self.check(importer.read_arguments, [
                ("a.rrd", ImportArguments(None, False, ["a.rrd"], None)), ("a b", ImportArguments(None, False, ["a"], "b")), ("--journal 7 a b", ImportArguments("7", False, ["a"], "b")),
                ("--journal 999999999999 a", ImportArguments("999999999999", False, ["a"], None)), ("--into d a", many(["a"], "d", 3)), ("--into d a b c", many(["a", "b", "c"], "d", 3)),
                ("--in-place a", many(["a"], None, 3)), ("--in-place a b c", many(["a", "b", "c"], None, 3)), ("--jobs 2 --in-place a", many(["a"], None, 2)), ("--jobs 007 --into d a", many(["a"], "d", 7)),
                ("--into d --jobs 9999999999 --journal 0 a", ImportArguments("0", True, ["a"], "d", 9_999_999_999))],
                ["", "a b c", "-x", "a -b", "a EMPTY", "EMPTY", "--journal", "--journal x a", "--journal -1 a", "--journal 1000000000000 a", "--journal 1 --journal 1 a", "--journal EMPTY a", "--in-place", "--into d",
                 "--into EMPTY a", "--into", "--into d --into e a", "--into d --in-place a", "--in-place --into d a", "--in-place --in-place a", "--in-place a EMPTY", "--jobs", "--jobs 2 a", "--jobs 2 a b", "--jobs 0 --in-place a",
                 "--jobs 00 --in-place a", "--jobs x --in-place a", "--jobs 10000000000 --in-place a", "--jobs 1 --jobs 2 --in-place a", "--jobs 2", "--other a", "a --in-place"])

    def test_export(self) -> None:
        alone = "give --in-place alone; --whisper is for --into, or for one new file"
        with mock.patch("os.sched_getaffinity", lambda process: {1, 2, 5}):
            self.check(exporter.read_options, [
                ("a", ExportOptions(["a"], False, None, False, 3)), ("a b", ExportOptions(["a", "b"], False, None, False, 3)), ("-", ExportOptions(["-"], False, None, False, 3)),
                ("--whisper a b", ExportOptions(["a", "b"], False, None, True, 3)), ("a --into d", ExportOptions(["a"], True, "d", False, 3)), ("--into=d a b c", ExportOptions(["a", "b", "c"], True, "d", False, 3)),
                ("a b c --into d --whisper", ExportOptions(["a", "b", "c"], True, "d", True, 3)), ("--in-place a", ExportOptions(["a"], True, None, False, 3)), ("a b c --in-place --jobs 2", ExportOptions(["a", "b", "c"], True, None, False, 2)),
                ("--jobs=1 --into d a", ExportOptions(["a"], True, "d", False, 1))],
                ["", "a b c", "-x", "EMPTY", "a EMPTY", "--in-place", "--into d", "--into= a", "--into", "--whisper a", "--whisper a b c", "--whisper", "--jobs 2 a", "--jobs 2 a b", "--jobs 0 --in-place a"],
                (("--in-place --into d a", alone), ("--in-place --whisper a", alone), ("--jobs x --in-place a", "--jobs must be a whole number, not 'x'")))

    def test_record(self) -> None:
        def read(words: List[str]) -> Any:
            found: Any = record.read_arguments(words)
            readers = [(reader.func, *reader.args) if isinstance(reader, partial) else (reader,) for reader in found.readers]
            return readers, found.file, found.journal
        loads, memory, disk, network = (machine.load,), (machine.memory,), (machine.disk, "/x"), (machine.network, "eth0")
        self.check(read, [
            ("f", ([loads], "f", "60")), ("--load f", ([loads], "f", "60")), ("--memory f", ([memory], "f", "60")), ("--disk /x f", ([disk], "f", "60")), ("--network eth0 f", ([network], "f", "60")),
            ("--network eth0 --disk /x --journal 7 --memory --load f", ([loads, memory, disk, network], "f", "7")), ("--memory --load f", ([loads, memory], "f", "60")),
            ("--journal 1 f", ([loads], "f", "1")), ("--journal 0100000 f", ([loads], "f", "100000"))],
            ["", "a b", "-a", "EMPTY", "--memory", "--disk a", "--disk", "--network EMPTY a", "--disk EMPTY a", "--journal", "--journal 3", "--journal 3 --journal 3 a", "--load --load a", "--memory --memory a", "--disk / --disk / a", "a --load",
             "--loads a", "a -b"],
            (("--journal 0 f", "--journal must be 1 to 100000, not 0"), ("--journal 100001 f", "--journal must be 1 to 100000, not 100001"), ("--journal x f", "--journal must be a whole number, not 'x'")))

    def test_plot(self) -> None:
        one = PlotOptions("f", "p.png", None, {}, set())
        pages = PagesAsked("d", "out", None, {"html": "d"}, {"--cut-spikes"}, 3)
        with mock.patch("os.sched_getaffinity", lambda process: {1, 2, 5}):
            self.check(plot.read_options, [
                ("f p.png", one), ("f p.svg MAX", one._replace(picture="p.svg", function="MAX")), ("-s -7d f --area p.png -e=now --dark", one._replace(values={"start": "-7d", "end": "now"}, flags={"--area", "--dark"})),
                ("f p.png -r 60 --source a,b --stack --fit --min -1 --max 2.5 --rigid", one._replace(values={"resolution": "60", "source": "a,b", "min": "-1", "max": "2.5"}, flags={"--stack", "--fit", "--rigid"})),
                ("f p.png --size 900x300 --unit B/s --title T --no-band --no-legend --cut-spikes", one._replace(values={"size": "900x300", "unit": "B/s", "title": "T"}, flags={"--no-band", "--no-legend", "--cut-spikes"})),
                ("--html d out", pages), ("out LAST --html=d", pages._replace(function="LAST", values={"html": "d"})), ("--html d out --keep-spikes", pages._replace(flags={"--keep-spikes"})),
                ("--html d out --jobs 2 --area -e now", pages._replace(values={"html": "d", "jobs": "2", "end": "now"}, flags={"--area", "--cut-spikes"}, jobs=2)),
                ("--html d out --width 200 --height 10000", pages._replace(values={"html": "d", "width": "200", "height": "10000"}))],
                ["", "a", "f p.gif", "f png", "f .png x y", "f p.png MAX c", "f p.png -x", "f p.png --start", "f p.png EMPTY", "--html", "--html d", "--html= out", "--html d out MAX c", "--html d out --jobs 0"],
                (("f p.png max", FUNCTION % "max"), ("--html d out max", FUNCTION % "max"), ("f p.png -r x", "--resolution must be a whole number, not 'x'"), ("f p.png --size 20", "--size must be WIDTHxHEIGHT, each from 200 to 10000, not '20'"),
                 ("f p.png --height 199", "--height must be a number of points from 200 to 10000, not '199'"), ("f p.png --width 10001", "--width must be a number of points from 200 to 10000, not '10001'"),
                 ("f p.png --min x", "--min must be a number, not 'x'"), ("f p.png --min 5 --max 5", "--min, 5, must be below --max, 5"), ("f p.png --rigid", "--rigid needs --min or --max"), ("--html d out --jobs x", "--jobs must be a whole number, not 'x'"),
                 *((f"--html d out {option} {value}", f"{option} is for one picture") for option, value in (("--start", "5"), ("--resolution", "5"), ("--dark", ""), ("--no-legend", ""))), ("--html d out -s 5", "--start is for one picture"),
                 ("f p.png --jobs 2", "--jobs is for --html"), ("f p.png --keep-spikes", "--keep-spikes is for --html")))

    def test_show(self) -> None:
        found = show.ShowOptions("f", None, "text", False, {})
        self.check(show.read_options, [
            ("f", found), ("f MAX", found._replace(function="MAX")), ("--csv f", found._replace(way="csv")), ("f --json -s 5", found._replace(way="json", values={"start": "5"})), ("--journal f", found._replace(is_journal=True)),
            ("--journal f --json", found._replace(way="json", is_journal=True)), ("f MIN -a 2 -e=7 --openmetrics", found._replace(function="MIN", way="openmetrics", values={"archive": "2", "end": "7"})),
            ("-s -1h f MAX --end=now --resolution 60", found._replace(function="MAX", values={"start": "-1h", "end": "now", "resolution": "60"}))],
            ["", "-x f", "EMPTY", "a MAX c", "-s", "f --csv --json", "--journal f MAX", "--journal f -s 5", "--journal f --csv", "--journal f --json --json", "--journal --csv f", "--journal"],
            (("f avg", FUNCTION % "avg"), ("f EMPTYmax", FUNCTION % "max")))
        for line, has_rows in (("f", False), ("f --csv", False), ("f MAX", True), ("f -s 5", True)):
            self.assertEqual(show.read_options(line.split()).has_rows, has_rows)

    def test_fix(self) -> None:
        found = fix.FixOptions("f", {10}, None, None, None)
        wrong = "the value %r is neither a number as rrdi takes it, such as -0.5, nor U"
        self.check(fix.read_options, [
            ("f 10", found), ("f @10 U", found._replace(values=("U",))), ("--source in f 10 --samples=- -0.5", found._replace(values=("-0.5",), source="in", samples="-")), ("f 10 -1:U:2.5", found._replace(values=("-1", "U", "2.5"))),
            ("f 10 12345678901234567890.123456", found._replace(values=("12345678901234567890.123456",))), ("--samples s f 10", found._replace(samples="s")), ("f 1970-01-01T00:00:10Z", found)],
            ["", "f", "f 1 2 3", "-x f 1", "f 1 -2 -3", "f 1 --source", "f 1 U --source=", "f 1 --samples=", "EMPTY 1", "f 1 -2 3"],
            (("f never", "the time 'never' is neither seconds since 1970 nor like 2026-11-25 14:00:00"), ("f 12345678901", "the time '12345678901' is neither seconds since 1970 nor like 2026-11-25 14:00:00"),
             ("f 2024-02-30", "there is no time '2024-02-30'"), ("f 1 --source a", "--source needs a VALUE, such as U"), *((f"f 1 {value}", wrong % one) for value, one in (
                 ("+1", "+1"), ("1e3", "1e3"), ("1:", ""), ("1.", "1."), ("1.1234567", "1.1234567"), ("123456789012345678901", "123456789012345678901"), ("1:x", "x")))))

    def test_feed(self) -> None:
        found = feed.FeedArguments(FeedOptions(60, 4, 1_000_000, 30, 256, 2, 64), None, None, False)
        self.check(feed.read_arguments, [
            ("", found), ("--jobs 2 --seconds 5 --held 7 --patience 0", found._replace(options=FeedOptions(5, 2, 7, 0))), ("--open-files 0 --open-seconds 5 --open-memory 7", found._replace(options=FeedOptions(open_files=0, open_seconds=5, open_memory=7))),
            ("--graphite d --backfill --rules r --jobs 3", feed.FeedArguments(FeedOptions(jobs=3), "d", "r", True)), ("--backfill", found._replace(fills=True)), ("--graphite d", found._replace(directory="d")),
            ("--jobs 1 --seconds 1 --held 1 --open-seconds 1 --open-memory 1", found._replace(options=FeedOptions(1, 1, 1, open_seconds=1, open_memory=1))), ("--held 999999999999", found._replace(options=FeedOptions(held=999_999_999_999)))],
            ["--jobs", *(f"--{name} 0" for name in ("jobs", "seconds", "held", "open-seconds", "open-memory")), "--wrong 1", "jobs 1", "--jobs x", "-jobs 1", "--jobs \u0663", "--jobs 1 2", "--graphite", "--graphite EMPTY", "--rules r",
             "--graphite d --rules EMPTY", "--jobs -1", "--__class__ 1", "--jobs 1000000000000", "a.rrdi", "--open_files 1", "--open-files x", "--backfill 1"])

    def test_others(self) -> None:
        """Those that run the tool at once."""
        with mock.patch("rrdi.tools.rrdtool_program.ask", side_effect=ZeroDivisionError):
            for line in ("", "a", "a b c", "-a b", "a -b", "a EMPTY", "EMPTY b"):
                self.assertRaises(WrongArguments, compare.compare, words_of(line))
            self.assertRaises(ZeroDivisionError, compare.compare, ["a", "b"])
        with mock.patch.multiple(rrdtool, run_pipe=lambda words, has_lengths: (words, has_lengths), run_as_rrdi=lambda *words: words, run_command=lambda *words: [], plain=lambda lines: b"",
                                 be_exact=mock.DEFAULT) as made:
            self.check(rrdtool.run_words, [
                ("-", ([], False)), ("- d", (["d"], False)), ("--lengths -", ([], True)), ("--exact --lengths - d", (["d"], True)), ("--exact -", ([], False)), ("--rrdi last f", ("last", ["f"], False)), ("--show last f", ("last", ["f"], True)),
                ("--show - x", ("-", ["x"], True))],
                ["", "EMPTY", "--exact", "--lengths", "--lengths last f", "--rrdi", "--show EMPTY", "--lengths --show -"])
            made["be_exact"].reset_mock()
            for line, calls in (("-", 0), ("--show last f", 0), ("--exact -", 1)):
                rrdtool.run_words(line.split())
                self.assertEqual(made["be_exact"].call_count, calls)
        with mock.patch("sys.stdin", None):
            self.assertRaises(WrongArguments, rrdtool.run_pipe, ["a", "b"], False)


if __name__ == "__main__":
    unittest.main()
