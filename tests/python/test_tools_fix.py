# SPDX-License-Identifier: MIT OR Apache-2.0
"""Tests of rrdi-fix: its words, what it refuses, random histories against a replay, other programs, and kills."""
from __future__ import annotations

import errno
import os
import random
import signal
import struct
import subprocess
import sys
import time
import unittest
from pathlib import Path
from typing import Dict, List, NamedTuple, Optional, Tuple
from unittest import mock

from cases import HANG, needs_program, new_folder, use_zone
from doubles import PROGRAM, TOP
from process_case import ProcessCase, locked
from tool_case import Ran, ToolCase

from rrdi import places
from rrdi.errors import CANNOT_OPEN
from rrdi.protocol import DONE, Answer
from rrdi.tools.command_line import Failure, WrongArguments
from rrdi.tools.fix import OLDER, found_sample, times_of
from rrdi.tools.fixing import held as holding
from rrdi.tools.fixing.held import NotOpened, NotStored, PartlyStored
from rrdi.tools.fixing.history import History, SentUpdate, OneSample, given_samples, with_given
from rrdi.tools.program import CommandFailed

COUNT = slice(26, 30)  # the bytes with the number of a journal's entries
USAGE = "FILE TIME [VALUE] [--source NAME] [--samples FILE]"
GAUGE = ("DS:g:GAUGE:100:U:U", "RRA:AVERAGE:0.5:1:40", "RRA:MAX:0.5:4:10")


class Words(ToolCase):
    def test_usage(self) -> None:
        self.check_usage("rrdi-fix", USAGE, [[], ["f", "1", "-2", "-3"]])


class OutOfReach(unittest.TestCase):
    """An older sample than those of the journal."""

    def test_what_is_left(self) -> None:
        """A further line names the page with the way that is left, as it is installed."""
        history = History(["g"], [OneSample(40, ("1",)), OneSample(31, ("2",))], 1)
        for time in (30, 31):
            with self.assertRaisesRegex(Failure, "^f: .* is out of reach: .* with 1 change$") as raised:
                found_sample(mock.Mock(path="f"), history, time, [])
            self.assertEqual(raised.exception.detail, f'what else there is, {TOP}/docs/cookbook.md says under "{OLDER}"')

    def test_pages(self) -> None:
        folder = new_folder(self)
        (folder / "share/rrdi/docs").mkdir(parents=True)
        (folder / "share/rrdi/docs/a.md").touch()
        with mock.patch.object(places, "__file__", str(folder / "share/rrdi/python/rrdi/places.py")):
            self.assertEqual((places.page("a.md"), places.page("b.md")), (f"{folder}/share/rrdi/docs/a.md", "docs/b.md"))


class Times(unittest.TestCase):
    def setUp(self) -> None:
        use_zone(self, "Europe/Berlin")

    def test_times(self) -> None:
        """Hand-computed. In Berlin 02:30 came twice on 2023-10-29, and not at all on 2023-03-26."""
        for text, times in (("1700000160", {1_700_000_160}), ("0", {0}), ("2024-01-01 12:00:30", {1_704_106_830}),
                            ("2024-07-01T00:00", {1_719_784_800}), ("2024-07-01", {1_719_784_800}),
                            ("2023-10-29 02:30:00", {1_698_539_400, 1_698_543_000})):
            self.assertEqual(times_of(text), times, text)
        with self.assertRaises(WrongArguments):
            times_of("2023-03-26 02:30:00")

    def test_clocks_that_were_set_back_without_summer_time(self) -> None:
        """In Caracas 02:45 came twice on 2007-12-09, when the zone moved by half an hour."""
        with mock.patch.dict(os.environ, {"TZ": "America/Caracas"}):
            time.tzset()
            self.assertEqual(times_of("2007-12-09 02:45:00"), {1_197_182_700, 1_197_184_500})


class GivenSamples(unittest.TestCase):
    def test_samples(self) -> None:
        self.assertEqual(given_samples(["10:1.5:U", "", " 20:-3:4 "], "s", 2),
                         [OneSample(10, ("1.5", "U")), OneSample(20, ("-3", "4"))])
        self.assertEqual(given_samples(["9999999999:1"], "s", 1), [OneSample(9_999_999_999, ("1",))])  # the latest time

    def test_wrong_lines(self) -> None:
        for lines, why in ((["10:1:2", "10:1"], "s: line 1 has 2 values, but the file has 1 source"),
                           (["N:1"], "s: line 1 is not TIME:VALUE..: 'N:1'"), (["10:1", "10:2"], "s: line 2 is not later"),
                           (["10:1e3"], "s: line 1 is not"), (["update 10:1"], "s: line 1 is not"), (["9999999999999:1"], "is not")):
            with self.subTest(lines=lines), self.assertRaisesRegex(Failure, why):
                given_samples(lines, "s", 1)

    def test_the_samples_of_a_change(self) -> None:
        """Those after the time before it, up to its own."""
        given = [OneSample(at, (str(at),)) for at in (10, 15, 20, 25)]
        change = SentUpdate(10, [OneSample(20, ("20",))])
        self.assertEqual(with_given(change, given), SentUpdate(10, given[1:3], True))
        self.assertEqual(with_given(change, given[:1]), change)


class FixCase(ToolCase):
    def fix(self, *words: str, given: str = "", env: Optional[Dict[str, str]] = None) -> Ran:
        return self.tool("rrdi-fix", *words, given=given, env=env)

    def updated(self, file: str, *changes: str) -> None:
        """Sends changes, each as a line of a batch, which is accepted."""
        self.assertEqual(self.rrdi("batch", file, given="".join(change + "\n" for change in changes)), "")

    def filled(self, file: str, changes: List[str], *definitions: str, depth: int = 60) -> None:
        self.create(file, "--journal", str(depth), *(definitions or GAUGE))
        self.updated(file, *changes)

    def check_same(self, found: bytes, wanted: bytes, is_full: bool) -> None:
        """The bytes are the same. If a journal was full, an entry that it had dropped does not come back: the file that never
        had the sample has it, as the last bytes of the file, and counts it."""
        if is_full:
            self.assertIn(int.from_bytes(wanted[COUNT], "big") - int.from_bytes(found[COUNT], "big"), (0, 1))
            wanted = wanted[:COUNT.start] + found[COUNT] + wanted[COUNT.stop:len(found)]
        self.assertEqual(found, wanted)

    def stays(self, why: str, *words: str, given: str = "", env: Optional[Dict[str, str]] = None) -> None:
        """The tool refuses, says why, and leaves the bytes of f.rrdi."""
        before = self.read("f.rrdi")
        ran = self.fix("f.rrdi", *words, given=given, env=env)
        self.assertEqual((ran.status, ran.out, self.read("f.rrdi")), (1, "", before), words)
        self.assertEqual(ran.err, f"rrdi-fix: {why}\n")

    def out_of_reach(self, why: str, *words: str) -> None:
        """The tool refuses a sample, and says where the way is that is left."""
        page = TOP / "docs/cookbook.md"
        self.stays(f'f.rrdi: {why}\nrrdi-fix: what else there is, {page} says under "{OLDER}"', *words)
        self.assertIn(f"\n## {OLDER}\n", page.read_text())


@needs_program
class Files(FixCase):
    """What is expected is the file that never had the sample, or had the other value."""

    CHANGES = ["update 10:1", "update 23:850", "update 31:2", "update 40:3.5", "update 55:U"]

    def setUp(self) -> None:
        super().setUp()
        self.filled("f.rrdi", self.CHANGES)

    def test_a_spike(self) -> None:
        for words, line, said in ((["23"], None, "is taken out; 3 later changes were sent again"),
                                  (["23", "1.5"], "update 23:1.5", "is now 23:1.5; 3 later changes were sent again"),
                                  (["1970-01-01 00:00:23", "U"], "update 23:U", "is now 23:U; 3 later changes were sent again"),
                                  (["23", "-7"], "update 23:-7", "is now 23:-7; 3 later changes were sent again")):
            with self.subTest(words=words):
                self.filled("f.rrdi", self.CHANGES)
                self.filled("wanted.rrdi", [one for one in (line if one == "update 23:850" else one for one in self.CHANGES) if one])
                self.assertEqual(self.fix("f.rrdi", *words), Ran(0, f"f.rrdi: 23:850 (1970-01-01 00:00:23) {said}\n", ""))
                self.assertEqual(self.read("f.rrdi"), self.read("wanted.rrdi"))

    def test_the_newest_and_the_oldest(self) -> None:
        self.assertEqual(self.fix("f.rrdi", "55"), Ran(0, "f.rrdi: 55:U (1970-01-01 00:00:55) is taken out\n", ""))
        self.assertEqual(self.fix("f.rrdi", "10", "4").status, 0)
        self.assertEqual(self.fix("f.rrdi", "31").out.split(";")[1], " 1 later change was sent again\n")
        self.filled("wanted.rrdi", ["update 10:4", "update 23:850", "update 40:3.5"])
        self.assertEqual(self.read("f.rrdi"), self.read("wanted.rrdi"))

    def test_the_same_value(self) -> None:
        before = self.read("f.rrdi")
        self.assertEqual(self.fix("f.rrdi", "40", "3.50").out, "f.rrdi: 40:3.5 (1970-01-01 00:00:40) is in the file already\n")
        self.assertEqual(self.read("f.rrdi"), before)

    def test_refusals(self) -> None:
        at = "{0} (1970-01-01 00:00:{0})".format
        self.stays(f"f.rrdi: there is no sample between {at(23)} and {at(31)}", "24")
        self.stays(f"f.rrdi: there is no sample after {at(55)}", "56")
        self.out_of_reach("0 (1970-01-01 00:00:00) is out of reach: the journal begins after 0 (1970-01-01 00:00:00), with 5 changes", "0")
        self.stays("f.rrdi: give 1 value, for the source g, not 2", "23", "1:2")
        self.stays("f.rrdi: there is no source h, only g", "23", "1", "--source", "h")
        self.stays("f.rrdi: 23:1000000000000000000: bad value", "23", "1" + 18 * "0")
        self.stays("nowhere: No such file or directory", "23", "--samples", "nowhere")
        self.stays("-: line 1 is not TIME:VALUE..: 'x'", "23", "--samples", "-", given="x\n")

    def test_files_that_are_none(self) -> None:
        self.write("other", "an entirely different kind of file")
        for file, why in (("none.rrdi", "No such file or directory"), (".", "Is a directory"), ("other", "file: not ours")):
            ran = self.fix(file, "10")
            self.assertEqual((ran.status, ran.out, ran.err.splitlines()[:1]), (1, "", [f"rrdi-fix: {file}: {why}"]))
        self.assertFalse((self.folder / "none.rrdi").exists())

    def test_a_short_journal(self) -> None:
        self.filled("f.rrdi", self.CHANGES, depth=2)
        self.out_of_reach("23 (1970-01-01 00:00:23) is out of reach: the journal begins after 31 (1970-01-01 00:00:31), with 2 changes", "23")
        self.assertEqual(self.fix("f.rrdi", "40", "3").status, 0)

    def test_the_first_layout(self) -> None:
        """A file of rrdi 0.1 has another header, and a shorter one."""
        data = self.read("f.rrdi")
        depth, sources, archives, entries = struct.unpack(">IHHI", data[18:30])
        self.write("f.rrdi", data[:4] + b"\0\1" + data[6:18] + struct.pack(">HHHH", depth, sources, archives, entries) + data[30:])
        self.assertEqual(self.rrdi("last", "f.rrdi"), "55\n")
        self.stays("f.rrdi: the layout is that of rrdi 0.1, whose old samples stay as they are; the next update makes it new", "23")
        self.updated("f.rrdi", "update 60:1")
        self.assertEqual(self.fix("f.rrdi", "23").status, 0)

    def test_settings_among_the_changes(self) -> None:
        for change in ("tune --heartbeat g:50", "resize 0 GROW 2", "tune RRA:LAST:0.5:1:3", "tune DELRRA:1"):
            with self.subTest(change=change):
                self.filled("f.rrdi", [*self.CHANGES[:3], change, *self.CHANGES[3:]])
                self.stays("f.rrdi: since then came a tune or a resize, at 31 (1970-01-01 00:00:31), which rrdi-fix does not "
                           "repeat; rrdi-show --journal f.rrdi shows it", "23")
                self.assertEqual(self.fix("f.rrdi", "40").status, 0)

    def test_a_lock(self) -> None:
        with locked(self.folder / "f.rrdi"):
            self.stays("f.rrdi: cannot open: another program holds its lock" if "RRDI" not in self.env else
                       "f.rrdi: cannot open: in use by another program (waited 0 seconds)", "23")

    def test_several_sources(self) -> None:
        sources = ["DS:a:GAUGE:100:U:U", "DS:b:DERIVE:100:0:U", "RRA:AVERAGE:0.5:1:9", "RRA:LAST:0:3:4"]
        changes = ["update 10:1:100", "update 20:850:200", "update 30:U:300", "update 40:4:U"]
        for words, line in ((["20", "2:210"], "update 20:2:210"), (["20", "2", "--source", "a"], "update 20:2:200"),
                            (["--source=b", "20", "U"], "update 20:850:U")):
            with self.subTest(words=words):
                self.filled("f.rrdi", changes, *sources)
                self.filled("wanted.rrdi", [changes[0], line, *changes[2:]], *sources)
                self.assertEqual(self.fix("f.rrdi", *words).err, "")
                self.assertEqual(self.read("f.rrdi"), self.read("wanted.rrdi"))
        self.filled("f.rrdi", changes, *sources)
        self.stays("f.rrdi: give 2 values, for the sources a, b, not 1; or one of them, with --source", "20", "2")
        self.stays("f.rrdi: 20:850:2.5: bad value", "20", "2.5", "--source", "b")

    def test_updates_of_several_samples(self) -> None:
        """The journal has the last one alone; the others come from the user, and are compared with what the file has."""
        changes = ["update 10:1", "update 20:2 30:850 40:4", "update 50:5 60:6", "update 70:7"]
        self.filled("f.rrdi", changes)
        why = "f.rrdi: the update from {} to {} had more than the sample that the journal shows; give all of its samples by --samples"
        at = "{0} (1970-01-01 00:{1})".format
        self.stays(why.format(at(40, "00:40"), at(60, "01:00")), "30")
        self.stays(why.format(at(10, "00:10"), at(40, "00:40")), "40", "--samples", "-", given="50:5\n60:6\n")
        self.stays(f"f.rrdi: the samples given after {at(40, '00:40')} up to {at(60, '01:00')} are not those of the file",
                   "30", "--samples", "-", given="20:2\n30:850\n40:4\n50:5.1\n60:6\n")
        self.assertEqual(self.fix("f.rrdi", "70", "8").status, 0)
        self.write("day", "5:9\n10:1\n20:2\n30:850\n40:4\n\n50:5\n60:6\n80:9\n")
        for words, second in ((["30"], "update 20:2 40:4"), (["30", "3"], "update 20:2 30:3 40:4"), (["40"], "update 20:2 30:850")):
            with self.subTest(words=words):
                self.filled("f.rrdi", changes)
                self.filled("wanted.rrdi", [changes[0], second, *changes[2:]])
                self.assertEqual(self.fix("f.rrdi", *words, "--samples", "day").err, "")
                self.assertEqual(self.read("f.rrdi"), self.read("wanted.rrdi"))

    def test_archives_that_hide_samples(self) -> None:
        """A MAX of ten steps shows nothing below the spike, and averages nothing that is longer ago than they reach."""
        for archives, changes in ((["RRA:MAX:0.5:10:9", "RRA:LAST:0.5:2:9"], ["update 10:1 20:850", "update 30:7 40:6"]),
                                  (["RRA:AVERAGE:0.5:1:2", "RRA:MIN:0.5:5:9"], ["update 20:850", "update 30:7 50:6"])):
            with self.subTest(archives=archives):
                self.filled("f.rrdi", changes, GAUGE[0], *archives)
                last = int(changes[1].split()[-1].split(":")[0])
                self.stays("f.rrdi: no archive tells whether the update from 20 (1970-01-01 00:00:20) to "
                           f"{last} (1970-01-01 00:00:{last}) had one sample; give all of its samples by --samples", "20")
                self.assertEqual(self.fix("f.rrdi", "20", "2", "--samples", "-", given="10:1\n20:850\n30:7\n40:6\n50:6\n"
                                          if last == 40 else "30:7\n50:6\n").err, "")
                self.filled("wanted.rrdi", [changes[0].replace("850", "2"), changes[1]], GAUGE[0], *archives)
                self.assertEqual(self.read("f.rrdi"), self.read("wanted.rrdi"))

    def test_a_change_that_is_too_long(self) -> None:
        many = " ".join(f"{at}:{at % 7}" for at in range(60, 10_060))
        self.rrdi("update", "f.rrdi", *many.split())
        self.write("many", many.replace(" ", "\n"))
        self.stays("a change of 10000 samples is too long to be sent again as one change", "100", "--samples", "many")

    def test_an_hour_twice(self) -> None:
        """Clocks were set back at 03:00: a time before has two samples."""
        first = 1_698_539_400
        self.create("f.rrdi", GAUGE[0], "RRA:AVERAGE:0.5:1:1000", start=first - 10)
        self.updated("f.rrdi", f"update {first}:1", f"update {first + 10}:2", f"update {first + 3_600}:3")
        self.stays(f"f.rrdi: two samples have this time, since the clock was set back; give {first} or {first + 3600}",
                   "2023-10-29 02:30", env={"TZ": "Europe/Berlin"})
        self.assertIn(f"{first + 10}:2", self.fix("f.rrdi", "2023-10-29 02:30:10", env={"TZ": "Europe/Berlin"}).out)

    def test_many_changes(self) -> None:
        """More than a pipe takes, unless it is made larger."""
        changes = [f"update {at}:{at % 9}" for at in range(1_000_000, 1_040_000, 10)]
        self.filled("f.rrdi", changes, depth=5_000)
        self.filled("wanted.rrdi", [*changes[:7], *changes[8:]], depth=5_000)
        self.assertEqual(self.fix("f.rrdi", "1000070").out,
                         "f.rrdi: 1000070:8 (1970-01-12 13:47:50) is taken out; 3992 later changes were sent again\n")
        self.assertEqual(self.read("f.rrdi"), self.read("wanted.rrdi"))

    def test_a_link(self) -> None:
        """The file behind a link is changed, and stays the same file."""
        (self.folder / "link.rrdi").symlink_to("f.rrdi")
        os.link(self.folder / "f.rrdi", self.folder / "hard.rrdi")
        self.assertEqual(self.fix("link.rrdi", "23").status, 0)
        self.assertTrue((self.folder / "link.rrdi").is_symlink())
        self.assertEqual(self.read("hard.rrdi"), self.read("f.rrdi"))

    def test_a_full_disk(self) -> None:
        before = self.read("f.rrdi")
        ran = self.tool("rrdi-fix", "f.rrdi", "23", size=100)
        self.assertNotEqual((ran.status, ran.err), (0, ""))
        self.assertEqual((ran.out, self.rrdi("last", "f.rrdi"), self.read("f.rrdi")), ("", "55\n", before))

    def test_output_that_is_not_taken(self) -> None:
        """The file is changed all the same, and the message says so."""
        said = "f.rrdi: 23:850 (1970-01-01 00:00:23) is taken out; 3 later changes were sent again"
        ran = self.tool("rrdi-fix", "f.rrdi", "23", stdout="/dev/full")
        why = "standard output did not take this: No space left on device"
        self.assertEqual(ran, Ran(1, "", f"rrdi-fix: {said} ({why})\n"))
        self.assertEqual(self.fix("f.rrdi", "23").status, 1)
        os.rename(self.folder / "f.rrdi", self.folder / "\xfc.rrdi")
        ran = self.fix("\xfc.rrdi", "31", env={"PYTHONIOENCODING": "ascii"})
        self.assertEqual((ran.status, ran.out, ran.err.count("\n")), (1, "", 1))
        self.assertIn("\\xfc.rrdi: 31:2 (1970-01-01 00:00:31) is taken out; 2 later changes were sent again (", ran.err)

    def test_closed_streams(self) -> None:
        def ran(words: str) -> Ran:
            return self.run_command(["sh", "-c", f"{sys.executable} {TOP}/tools/rrdi-fix f.rrdi {words}"])
        self.assertEqual(ran("23 --samples - <&-"), Ran(1, "", "rrdi-fix: -: Bad file descriptor\n"))
        self.assertEqual(ran("23 >&-"), Ran(0, "", ""))
        self.assertEqual(ran("24 >&-").err.count("\n"), 1)
        self.filled("wanted.rrdi", [*self.CHANGES[:1], *self.CHANGES[2:]])
        self.assertEqual(self.read("f.rrdi"), self.read("wanted.rrdi"))

    def test_samples_that_are_no_text(self) -> None:
        command = f"printf '\\377' | {sys.executable} {TOP}/tools/rrdi-fix f.rrdi 23 --samples -"
        ran = self.run_command(["sh", "-c", command], env={"PYTHONIOENCODING": "utf-8:strict"})
        self.assertEqual(ran, Ran(1, "", "rrdi-fix: -: line 1 is not TIME:VALUE..: '\ufffd'\n"))


# ---- Random histories

class Sent(NamedTuple):
    """A random update: the times and values of its samples."""

    samples: List[Tuple[int, Tuple[str, ...]]]

    @property
    def line(self) -> str:
        return " ".join(["update", *(":".join([str(time), *values]) for time, values in self.samples)])


def random_history(chance: random.Random, kinds: List[str]) -> List[Sent]:
    last, sent = 0, []
    for _ in range(chance.randint(3, 30)):
        samples = []
        for _ in range(chance.choice((1, 1, 1, 1, 2, 3))):
            last += chance.choice((1, 3, 10, 10, 10, 17, 60, 300))
            samples.append((last, tuple(random_value(chance, kind) for kind in kinds)))
        sent.append(Sent(samples))
    return sent


def random_value(chance: random.Random, kind: str) -> str:
    if chance.random() < 0.1:
        return "U"
    if kind in ("COUNTER", "DERIVE"):
        return str(chance.randint(0, 10**6))
    return str(round(chance.uniform(-50, 50), chance.choice((0, 1, 6)))) if kind == "GAUGE" else str(chance.randint(0, 900))


@needs_program
class Histories(FixCase):
    ROUNDS = 60

    def definitions(self, chance: random.Random, kinds: List[str]) -> List[str]:
        archives = [f"RRA:{chance.choice(('AVERAGE', 'MIN', 'MAX', 'LAST'))}:{chance.choice(('0', '0.5', '0.9'))}:"
                    f"{chance.choice((1, 2, 5))}:{chance.choice((1, 4, 50))}" for _ in range(chance.randint(1, 3))]
        return [f"DS:s{number}:{kind}:{chance.choice((15, 60, 400))}:U:U" for number, kind in enumerate(kinds)] + [
            "RRA:AVERAGE:0.5:1:100", *archives]

    def test_random_histories(self) -> None:
        """With the samples at hand, each change gives the file that the other history gives, byte for byte. Without them it
        gives the same, or is refused and leaves the file as it was. (None of these histories has an update of several samples
        that leaves the trace of one.)"""
        for seed in range(self.ROUNDS):
            with self.subTest(seed=seed):
                self.one_history(random.Random(seed))

    def one_history(self, chance: random.Random) -> None:
        kinds = [chance.choice(("GAUGE", "GAUGE", "COUNTER", "DERIVE", "ABSOLUTE")) for _ in range(chance.randint(1, 3))]
        definitions, sent = self.definitions(chance, kinds), random_history(chance, kinds)
        depth, number = chance.choice((4, 100)), chance.randrange(len(sent))
        at = chance.randrange(len(sent[number].samples))
        moment = sent[number].samples[at][0]
        new = chance.choice((None, tuple(random_value(chance, kind) for kind in kinds)))
        others = [one for one in sent[number].samples if one[0] != moment] if new is None else [
            (moment, new) if one[0] == moment else one for one in sent[number].samples]
        history = [*sent[:number], *([Sent(others)] if others else []), *sent[number + 1:]]
        self.filled("f.rrdi", [one.line for one in sent], *definitions, depth=depth)
        self.filled("wanted.rrdi", [one.line for one in history], *definitions, depth=depth)
        words = [str(moment)] + ([] if new is None else [":".join(new)])
        before = self.read("f.rrdi")
        if chance.random() < 0.7:
            self.write("all", "".join(f"{time}:{':'.join(values)}\n" for one in sent for time, values in one.samples))
            words += ["--samples", "all"]
        ran = self.fix("f.rrdi", *words)
        if len(sent) - number > depth:
            self.assertIn("is out of reach" if moment <= sent[-depth - 1].samples[-1][0] else "", ran.err)
        may_refuse = "--samples" not in words and any(len(one.samples) > 1 for one in sent[number:])
        if ran.status or len(sent) - number > depth:
            self.assertEqual((ran.status, self.read("f.rrdi")), (1, before), ran.err)
            self.assertTrue(may_refuse or len(sent) - number > depth, ran.err)
            return
        self.check_same(self.read("f.rrdi"), self.read("wanted.rrdi"), len(sent) > depth)


# ---- Other programs, and kills

@needs_program
class OthersAndKills(ProcessCase, FixCase):
    ROUNDS = 40

    def long_file(self, file: str, spike: Optional[int], depth: int = 60) -> None:
        """Four hours off the step in a day of minutes, the sample 40 from the end wrong or missing."""
        lines = [f"update {at}:{850 if number == 200 else 20 + number % 7}" for number, at in enumerate(range(33, 14_400, 60))
                 if spike is not None or number != 200]
        self.create(file, "--journal", str(depth), "DS:g:GAUGE:150:U:U", "RRA:AVERAGE:0.5:1:1440", "RRA:MAX:0.5:60:200", step=60)
        self.updated(file, *lines)

    def test_kills(self) -> None:
        """A kill leaves the old bytes or the new ones, or bytes that stand for one of them. The kills come close to the moment
        of the change: a little earlier after each one that came too late, and later after each one that came too early."""
        self.long_file("f.rrdi", 850)
        old, spike = self.read("f.rrdi"), str(33 + 200 * 60)
        start = time.monotonic()
        self.assertEqual(self.fix("f.rrdi", spike).status, 0)
        pause, new, seen = time.monotonic() - start, self.read("f.rrdi"), set()
        for number in range(self.ROUNDS):
            self.write("f.rrdi", old)
            process = self.start(sys.executable, str(TOP / "tools/rrdi-fix"), "f.rrdi", spike, stdout=subprocess.DEVNULL)
            time.sleep(pause)
            process.send_signal(signal.SIGKILL if number % 2 else signal.SIGTERM)
            process.wait()
            self.run_command([PROGRAM or "", "batch", "f.rrdi"], "last\n", {"RRDI_WAIT": "60"})  # repairs what was broken off
            self.assertIn(self.read("f.rrdi"), (old, new), number)
            pause *= 0.9 if self.read("f.rrdi") == new else 1.1
            seen.add(self.read("f.rrdi") == new)
        self.assertEqual(seen, {False, True})

    def test_the_file_without_the_spike(self) -> None:
        self.long_file("f.rrdi", 850)
        self.long_file("wanted.rrdi", None)
        self.assertEqual(self.fix("f.rrdi", str(33 + 200 * 60)).status, 0)
        self.assertEqual(self.rrdi("info", "f.rrdi").count("undoable = 59"), 1)
        for function, seconds in (("AVERAGE", 60), ("MAX", 3_600)):
            words = (function, "-r", str(seconds), "-s", "0", "-e", "14400")
            self.assertEqual(self.rrdi("fetch", "f.rrdi", *words), self.rrdi("fetch", "wanted.rrdi", *words))
        self.check_same(self.read("f.rrdi"), self.read("wanted.rrdi"), True)

    def test_an_updater_at_the_same_time(self) -> None:
        """No sample of another program is lost, whatever it does meanwhile."""
        self.long_file("f.rrdi", 850, 9_999)
        updates = self.start("sh", "-c", 'at=14400; until [ -e stop ]; do at=$((at + 60)); "$0" update f.rrdi $at:5 || exit 1; done',
                             PROGRAM or "", env={"RRDI_WAIT": "60"})
        ran = [self.fix("f.rrdi", str(33 + 200 * 60), value, env={"RRDI_WAIT": "60"}) for value in ("1", "2")]
        self.write("stop", "")
        self.assertEqual((updates.wait(HANG), [one.status for one in ran]), (0, [0, 0]), ran)
        last = int(self.rrdi("last", "f.rrdi"))
        rows = self.rrdi("fetch", "f.rrdi", "AVERAGE", "-s", "14460", "-e", str(last - 1)).splitlines()[1:]
        self.assertEqual([row for row in rows if row.split()[1] != "5.000000"], [])
        self.assertEqual((len(rows) > 5, len(rows)), (True, (last - 14_460) // 60))


class ReplacedFile(unittest.TestCase):
    """Another file takes the name between two steps of an opening."""

    def setUp(self) -> None:
        self.folder = new_folder(self)
        self.path = str(self.folder / "f.rrdi")
        Path(self.path).write_bytes(b"one")
        Path(self.path + ".new").write_bytes(b"other")

    def replace(self, *_: object) -> "FakeSession":
        os.replace(self.path + ".new", self.path)
        return FakeSession(self.path)

    def test_before_the_lock(self) -> None:
        """The first session has the other file, and is given up; the next one has the file of the name."""
        sessions: List[FakeSession] = []

        def session_at(path: str) -> FakeSession:
            sessions.append(self.replace() if not sessions else FakeSession(path))
            return sessions[-1]
        with mock.patch.object(holding, "session_at", session_at):
            session, file = holding.opened(self.path)
        self.addCleanup(sessions[1].end)
        with file:
            self.assertEqual((file.readall(), [one.is_open for one in sessions]), (b"other", [False, True]))
        self.assertIs(session, sessions[1])

    def test_a_session_with_another_file(self) -> None:
        """The name had another file for a moment, and the session has locked that one."""
        def session_at(path: str) -> FakeSession:
            return FakeSession(path + ".new")
        with mock.patch.object(holding, "session_at", session_at), self.assertRaisesRegex(Failure, "keeps replacing the file, or the locks"):
            holding.opened(self.path)

    def test_a_file_that_this_user_may_not_write(self) -> None:
        """The program opens it for reading, so nobody holds the lock of a writer."""
        with mock.patch.object(holding, "session_at", FakeSession), mock.patch("os.access", return_value=False):
            with mock.patch.object(holding, "is_locked", return_value=False):
                with self.assertRaisesRegex(Failure, "cannot write: this user may not$"):
                    holding.opened(self.path)

    def test_after_the_change(self) -> None:
        session = FakeSession(self.path)
        self.addCleanup(session.end)
        found = os.stat(self.path)
        file = holding.HeldFile(self.path, session, (found.st_dev, found.st_ino), b"one", mock.Mock())
        file.store([])
        os.replace(self.path + ".new", self.path)
        with self.assertRaisesRegex(Failure, "the file that had it before is changed"):
            file.store([])

    def test_lines_that_are_refused_at_last(self) -> None:
        """Memory ran out, though the same lines went well on the copy."""
        library = mock.Mock()
        library.open.return_value = DONE, library.opened
        library.opened.batch.return_value = Answer(0, 0, 0, b"ERROR: out of memory\n", (1,))
        session = holding.LibrarySession(library, self.path)
        with self.assertRaisesRegex(CommandFailed, "^out of memory; the file has a part of the change only$"):
            session.store(["revert", "update 1:2"])


    def test_faults_of_a_change(self) -> None:
        """They name the file, and whether a part of the change may be in it."""
        session = mock.Mock()
        file = holding.HeldFile("f.rrdi", session, (0, 0), b"", mock.Mock())
        for fault, kind in ((CommandFailed("cannot write"), NotStored), (PartlyStored("cannot write"), PartlyStored)):
            session.store.side_effect = fault
            with self.assertRaisesRegex(Exception, "^f.rrdi: cannot write") as raised:
                file.store(["last"])
            self.assertIs(type(raised.exception), kind)

    def test_another_content_than_was_read(self) -> None:
        for name, is_same in (("", True), ("info", False), ("lastupdate", False)):
            session = mock.Mock(ask=lambda asked: "other" if asked == name else "same")
            file = holding.HeldFile("f.rrdi", session, (0, 0), b"", lambda data, lines: mock.Mock(output="same"))
            if is_same:
                file.check_same()
            else:
                with self.assertRaisesRegex(NotOpened, "^f.rrdi: another file took the name while it was opened; nothing was"):
                    file.check_same()

    def test_nothing_stays_open_after_a_fault(self) -> None:
        sessions: List[FakeSession] = []

        def session_at(path: str) -> FakeSession:
            sessions.append(FakeSession(path))
            return sessions[-1]
        for name, fault in (("is_locked", RuntimeError), ("open_regular", PermissionError(errno.EACCES, "Permission denied"))):
            numbers = os.listdir("/proc/self/fd")
            found = os.stat(self.path)
            with mock.patch.object(holding, "session_at", session_at), mock.patch.object(holding, name, side_effect=fault), \
                    mock.patch.object(holding, "identity_of_file", return_value=(found.st_dev, found.st_ino)), \
                    self.assertRaises((RuntimeError, Failure)) as raised:
                holding.opened(self.path)
            self.assertEqual((sessions.pop().is_open, len(os.listdir("/proc/self/fd"))), (False, len(numbers)))
        self.assertEqual(str(raised.exception), f"{self.path}: Permission denied")

    def test_files_that_cannot_be_read(self) -> None:
        with self.assertRaisesRegex(Failure, "^none.rrdi: No such file or directory$"):
            holding.identity_of_file("none.rrdi")
        self.assertIsNone(holding.read_by(mock.Mock(), "none.rrdi", (0, 0)))
        with self.assertRaisesRegex(Failure, "^f.rrdi: Input/output error$"):
            holding.read_all(mock.Mock(readall=mock.Mock(side_effect=OSError(errno.EIO, "Input/output error"))), "f.rrdi")

    def test_file_systems_without_locks(self) -> None:
        """No old sample is changed there, neither by the library nor by the program."""
        with mock.patch.object(holding, "flock", return_value=errno.ENOSYS), self.assertRaisesRegex(Failure, f"^f: {holding.NO_LOCK}$"):
            holding.is_locked(mock.Mock(), "f")
        library, none = mock.Mock(), mock.patch("shutil.which", return_value=None)
        library.open.return_value = Answer(CANNOT_OPEN, errno.EINVAL, 0, b"cannot open"), None
        with none, mock.patch.object(holding, "chosen_library", return_value=library), \
                self.assertRaisesRegex(Failure, f"^f: {holding.NO_LOCK}$"):
            holding.session_at("f")
        library.open.return_value = DONE, None
        with self.assertRaisesRegex(CommandFailed, "^cannot open$"):
            holding.LibrarySession(library, "f")


class Programs(ToolCase):
    """What the program does that has the lock."""

    def session(self, text: str) -> holding.ProgramSession:
        with mock.patch.dict(os.environ, {"RRDI": self.stub("program", text)}):
            session = holding.ProgramSession("f.rrdi")
        self.addCleanup(session.end)
        return session

    def test_answers(self) -> None:
        echo = 'while read line; do case $line in last) echo 10 ;; *) echo "{}" ;; esac; done'
        self.assertEqual(self.session(echo.format("some text")).ask("info"), "some text\n")
        with self.assertRaisesRegex(CommandFailed, "^no such command$"):
            self.session(echo.format("ERROR: no such command")).ask("info")
        self.session(echo.format("")).store(["update 10:1"])
        refused = self.session(echo.format("ERROR: not later than 10"))
        with self.assertRaisesRegex(CommandFailed, "^not later than 10$"):
            refused.store(["update 10:1", "update 10:2"])
        self.assertIsNotNone(refused.process.returncode)

    def test_a_program_that_ends(self) -> None:
        """Its reason is told, or else its status."""
        for text, why in (("exit 3", "ended with status 3$"), ("echo ERROR: cannot open >&2; exit 1", "^cannot open$"),
                          ("echo ERROR: cannot open >&2; echo rrdi: f.rrdi: in use >&2; exit 1", "^cannot open: in use$"),
                          ("exit 0", "program has ended$")):
            session = self.session(text)
            session.process.wait()
            with mock.patch.dict(os.environ, {"RRDI": "program"}), self.assertRaisesRegex(CommandFailed, why):
                session.ask("info")

    def test_a_program_that_is_not_there(self) -> None:
        with mock.patch.dict(os.environ, {"RRDI": "/nowhere/rrdi"}):
            with self.assertRaisesRegex(NotOpened, "^cannot run /nowhere/rrdi: No such file or directory$"):
                holding.ProgramSession("f.rrdi")

    def test_how_the_program_is_started(self) -> None:
        """With the wait in seconds, and in a session of its own; a path that begins as an option does does not."""
        for wait, seconds in ((0, "0"), (5_000, "5"), (3_600_000, "3600")):
            with mock.patch.object(holding, "milliseconds", return_value=wait), mock.patch.object(subprocess, "Popen") as started, mock.patch.dict(os.environ, {"RRDI": "/x/rrdi", "OTHER": "o"}):
                holding.ProgramSession("-f")
            self.assertEqual(started.call_args[0][0], ["/x/rrdi", "batch", b"./-f"])
            given = started.call_args[1]
            self.assertEqual((given["env"]["RRDI_WAIT"], given["env"]["OTHER"], given["start_new_session"], given["bufsize"]), (seconds, "o", True, 0))

    def test_more_lines_than_a_pipe_takes(self) -> None:
        """None is sent, since a part of them must not be stored."""
        session = self.session("exec cat")
        with mock.patch("fcntl.fcntl", side_effect=PermissionError):
            self.assertEqual([holding.has_room(0, size) for size in (0, 4_096, 4_097)], [True, True, False])  # any pipe takes a page
        for has, gets in ((5_000, 5_000), (5_000, 8_192), (5_000, 5_001), (4_096, 4_096), (8_192, 0)):
            with mock.patch("fcntl.fcntl", side_effect=[has, gets]) as asked:
                self.assertEqual(holding.has_room(7, 5_001), max(has, gets) >= 5_001)
            self.assertEqual(asked.mock_calls, [mock.call(7, 1032), mock.call(7, 1031, 5_001)][:1 + (has < 5_001)])
        with mock.patch("fcntl.fcntl", side_effect=PermissionError), mock.patch("os.write") as written, \
                self.assertRaisesRegex(Failure, "cannot take so many lines at once"):
            session.store(["update 10:1"] * 1_000)
        written.assert_not_called()


class FakeSession:
    """A session that has locked the file of a name, and does nothing with it."""

    def __init__(self, path: str):
        from rrdi.locks import EXCLUSIVE, lock, open_file
        self.file = open_file(path, os.O_RDONLY)
        lock(self.file, EXCLUSIVE, 0)

    @property
    def is_open(self) -> bool:
        return not self.file.closed

    def ask(self, name: str) -> str:
        return ""

    def store(self, lines: List[str]) -> None:
        pass

    def end(self) -> None:
        self.file.close()
