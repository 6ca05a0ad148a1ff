# SPDX-License-Identifier: MIT OR Apache-2.0
"""Late samples of rrdi-feed: the file is, byte for byte, the one that got all samples in order. Random orders, a year,
several feeders, kills."""
from __future__ import annotations

import fcntl
import os
import random
import subprocess
import sys
import time
import unittest
from typing import Any, Callable, Dict, List, NamedTuple, Optional, Tuple
from unittest import mock

from cases import HANG, DataCase, needs_library, needs_program, use_any_library, use_library
from doubles import PROGRAM, TOP, Program
from process_case import ProcessCase, locked
from tool_case import ToolCase, finished, taken

from rrdi import choice
from rrdi.by_ctypes import FileByWords
from rrdi.by_program import ByProgram
from rrdi.feeding.feeder import Feeder, FeedOptions
from rrdi.feeding.opened import OpenWriter
from rrdi.feeding.ordering import in_order, seconds_of
from rrdi.feeding.writers import BatchWriter, Outcome
from rrdi.graphite import store as stores
from rrdi.graphite.layout import template
from rrdi.graphite.losses import Losses
from rrdi.graphite.store import Store, StoreOptions
from rrdi.library import load_library
from rrdi.locks import open_file
from rrdi.protocol import DONE, Answer, OpenedFile
from rrdi.tools.command_line import Failure
from rrdi.tools.fixing import backfill
from rrdi.tools.fixing import held as held_files
from rrdi.tools.fixing.backfill import BackfillWriter, LateSample, Sent
from rrdi.tools.fixing.held import HeldFile, NotStored, PartlyStored, Session
from rrdi.tools.fixing.history import OneSample
from rrdi.tools.fixing.trials import NoCopy, by_program
from rrdi.tools.program import CommandFailed

GAUGE = ("DS:g:GAUGE:100:U:U", "RRA:AVERAGE:0.5:1:200", "RRA:MAX:0.5:4:50")
SEVERAL = ("DS:g:GAUGE:900:U:U", "DS:c:COUNTER:900:0:U", "DS:d:DERIVE:900:U:U", "RRA:AVERAGE:0.5:1:600", "RRA:MIN:0.5:12:400",
           "RRA:AVERAGE:0.5:288:370", "RRA:LAST:0.9:7:100")


class Ordering(unittest.TestCase):
    def test_times(self) -> None:
        """Numbers of any length are in their order; those of one time stay as they came."""
        lists: List[List[bytes]] = [
            [b"9:1", b"10:2", b"100:1"], [b"1700000000:5", b"1700000000:3", b"1700000001:1"], [b"3:1"], [],
            [b"999999999:1", b"1000000000:1"], [b"007:1", b"8:1"], [b"9" * 19 + b":1", b"1" + b"0" * 19 + b":1"]]
        for samples in lists:
            self.assertIs(in_order(samples), samples)
            for seed in range(20):
                mixed = samples[:]
                random.Random(seed).shuffle(mixed)
                self.assertEqual([seconds_of(one) for one in in_order(mixed)], [seconds_of(one) for one in samples])
        self.assertEqual(in_order([b"20:2", b"10:b", b"10:a"]), [b"10:b", b"10:a", b"20:2"])
        self.assertEqual(in_order([b"1700000020:2", b"1700000010:b", b"1700000010:a"]),
                         [b"1700000010:b", b"1700000010:a", b"1700000020:2"])

    def test_other_texts(self) -> None:
        """What is no time moves no other sample out of its order, and is kept."""
        for odd in (b"x", b"", b":1", b"12345678:x:1", b"1" * 5_000, b"\xff" * 12, b"1700000000", b"1700000000.5:1"):
            found = in_order([b"1700000020:1", odd, b"1700000010:1"])
            self.assertEqual(sorted(found), sorted([b"1700000020:1", odd, b"1700000010:1"]))
            self.assertLess(found.index(b"1700000010:1"), found.index(b"1700000020:1"))
        self.assertEqual([seconds_of(one) for one in (b"10:1", b"x:1", b"", b"1" * 5_000, b"-1:2", b"1" * 20, b"1" * 21)], [10, -1, -1, -1, -1, int("1" * 20), -1])


class LeftSamples(unittest.TestCase):
    def test_what_is_tried_again(self) -> None:
        """A batch has the samples in order, and only those that it has left are tried again."""
        writer = mock.Mock()
        writer.write.side_effect = [Outcome(again="busy", left=(b"20:2",)), Outcome()]
        feeder = Feeder(FeedOptions(), writer)
        self.assertEqual(taken(feeder, b"a 30:3\na 10:1\na 20:2"), "")
        self.assertEqual(finished(feeder), "")
        self.assertEqual(writer.write.mock_calls, [mock.call(b"a", [b"10:1", b"20:2", b"30:3"]), mock.call(b"a", [b"20:2"])])


class Overtaken(unittest.TestCase):
    """Samples that are late by the time when they are written."""

    def outcome(self, put: Outcome, **found: Any) -> Outcome:
        writer = BackfillWriter(mock.Mock())
        refused = ((b"20:1", "not later than 25"), (b"x", "unreadable sample 1"), (b"10:1", "not later than 25"))
        with mock.patch.object(writer, "_put_in", return_value=put) as put_in:
            outcome = writer._put_overtaken(b"f", Outcome(refused=refused, **found))
        put_in.assert_called_once_with(b"f", [b"20:1", b"10:1"])
        return outcome

    def test_what_stays_of_them(self) -> None:
        """What cannot be put in yet is tried again with the newer ones, by time; of what is lost, all that may be is named."""
        wrong = (b"x", "unreadable sample 1")
        self.assertEqual(self.outcome(Outcome()), Outcome(refused=(wrong,)))
        too_old = (b"10:1", "too old")
        self.assertEqual(self.outcome(Outcome(refused=(too_old,))), Outcome(refused=(wrong, too_old)))
        self.assertEqual(self.outcome(Outcome(again="cannot open"), left=(b"15:1", b"30:1")),
                         Outcome(again="cannot open", refused=(wrong,), left=(b"10:1", b"15:1", b"20:1", b"30:1")))
        self.assertEqual(self.outcome(Outcome(lost="cannot write", left=(b"20:1",)), left=(b"15:1",)),
                         Outcome(lost="cannot write", refused=(wrong,), left=(b"15:1", b"20:1")))
        self.assertEqual(self.outcome(Outcome(again="cannot open"), lost="no space", left=(b"30:1",)),
                         Outcome(lost="no space", refused=(wrong,), left=(b"10:1", b"20:1", b"30:1")))

    def test_what_a_try_refused(self) -> None:
        """After two reverts a refused sample of the file is the fault of the late one before it."""
        late, later = (LateSample(OneSample(at, ("1",)), b"%d:1" % at) for at in (10, 30))
        sent = Sent(2, [late, LateSample(OneSample(20, ("1",))), later, LateSample(OneSample(40, ("1",)))])
        self.assertEqual(sent.lines, ["revert", "revert", "update 10:1", "update 20:1", "update 30:1", "update 40:1"])
        self.assertEqual(sent.wrong_ones((3, 5), ("a", "b")), {b"10:1": "a", b"30:1": "b"})
        self.assertEqual(sent.wrong_ones((4, 6), ("a", "b")),
                         {b"10:1": "20:1 would then be refused: a", b"30:1": "40:1 would then be refused: b"})
        self.assertEqual(sent.wrong_ones((5, 6), ("a", "b")), {b"30:1": "a"})

    def test_a_file_that_stays_open(self) -> None:
        """It is closed before late samples are put in, which would else wait for its lock."""
        files, calls = mock.Mock(), []  # type: mock.Mock, List[str]
        files.close.side_effect = lambda file: calls.append(f"close {file.decode()}")
        with mock.patch.object(backfill, "put_in", side_effect=lambda file, late: calls.append(f"put {len(late)}")):
            for count in (0, 2):
                BackfillWriter(mock.Mock(), files)._put_in(b"f", [b"10:1", b"20:1"][:count])
        self.assertEqual(calls, ["put 0", "close f", "put 2"])

    def test_a_file_that_is_created(self) -> None:
        writer = mock.Mock(create=mock.Mock(return_value="why"))
        self.assertEqual(BackfillWriter(writer).create(b"f", ["DS:.."]), "why")
        writer.create.assert_called_once_with(b"f", ["DS:.."])

    def test_the_last_time_of_no_file(self) -> None:
        self.assertEqual(backfill.last_of(b"/nowhere/f.rrdi"), -1)


class Trials(ToolCase):
    def test_programs_that_do_not_try(self) -> None:
        """What a change would do is not known if the program is not there, or has ended."""
        for program, kind, why in (("/nowhere/rrdi", Failure, "^cannot run /nowhere/rrdi: No such file or directory$"),
                                   (self.stub("ends", "exit 3"), CommandFailed, "/ends ended with status 3$")):
            with self.assertRaisesRegex(kind, why):
                by_program(program)(b"", ["last"])


class Arrival(NamedTuple):
    """Samples that come together."""

    samples: List[bytes]


def random_value(chance: random.Random, kind: str, time: int) -> str:
    if chance.random() < 0.05:
        return "U"
    if kind == "GAUGE":
        return str(round(chance.uniform(-50, 50), chance.choice((0, 1, 6))))
    return str(7 * time + chance.randint(0, 9)) if kind == "COUNTER" else str(chance.randint(-10**6, 10**6))


def random_samples(chance: random.Random, kinds: List[str], count: int, step: int) -> List[bytes]:
    """Samples off the step, with gaps and unknown values."""
    found, at = [], 0
    for _ in range(count):
        at += chance.choice((1, step // 2, step, step, step, step, step + 7, 3 * step, 40 * step))
        found.append(":".join([str(at), *(random_value(chance, kind, at) for kind in kinds)]).encode())
    return found


def arrivals(chance: random.Random, samples: List[bytes], most_late: int, most: int) -> List[Arrival]:
    """Samples in the order of their arrival: some come up to `most_late` places late, and up to `most` come together."""
    places = sorted(range(len(samples)), key=lambda at: at + (chance.randint(0, most_late) if chance.random() < 0.3 else 0))
    found = []
    while places:
        count = chance.randint(1, most)
        found.append(Arrival([samples[at] for at in places[:count]]))
        places = places[count:]
    return found


class BackfillCase(ToolCase):
    """Runs a writer in this process, on files in a folder."""

    def writer(self) -> BackfillWriter:
        raise NotImplementedError

    def path(self, name: str = "f.rrdi") -> bytes:
        return os.fsencode(self.folder / name)

    def put(self, *samples: str, name: str = "f.rrdi") -> Outcome:
        return self.writer().write(self.path(name), in_order([sample.encode() for sample in samples]))

    def filled(self, name: str, samples: List[str], *definitions: str, depth: int = 16, step: int = 10) -> None:
        """A file that got each sample by an update, in order."""
        self.create(name, "--journal", str(depth), *(definitions or GAUGE), step=step)
        lines = "".join(f"update {sample}\n" for sample in samples)
        self.assertEqual(self.rrdi("batch", name, given=lines), "")

    def check_like(self, *samples: str, depth: int = 16) -> None:
        self.filled("wanted.rrdi", list(samples), depth=depth)
        self.assertEqual(self.read("f.rrdi"), self.read("wanted.rrdi"))


class PutIn(BackfillCase):
    """The checks of each writer. `SIZE` is how many random files there are, and the share of a year."""

    SIZE = 1
    __test__ = False

    def test_late_samples(self) -> None:
        self.filled("f.rrdi", ["10:1", "20:2", "50:5"])
        self.assertEqual(self.put("30:3.5", "7:U", "60:6", "41:4"), Outcome())
        self.check_like("7:U", "10:1", "20:2", "30:3.5", "41:4", "50:5", "60:6")

    def test_no_late_samples(self) -> None:
        self.filled("f.rrdi", ["10:1"])
        with mock.patch.object(backfill, "held", side_effect=AssertionError("nothing is late")):
            self.assertEqual(self.put("20:2", "30:x", "40:4").refused, ((b"30:x", "unreadable sample 1"),))
        self.check_like("10:1", "20:2", "40:4")

    def test_what_is_there(self) -> None:
        """A sample that is there is no other one, however its number is written. Another one of its time is refused."""
        self.filled("f.rrdi", ["10:1.5", "20:2", "30:U", "40:-0.5"])
        before = self.read("f.rrdi")
        self.assertEqual(self.put("10:1.50", "20:2.000000", "30:U", "40:-0.500", "20:02"), Outcome())
        self.assertEqual(self.read("f.rrdi"), before)
        self.assertEqual(self.put("10:1.4", "30:3", "35:1", "35:2", "35:1.0"), Outcome(refused=(
            (b"10:1.4", "another sample has this time: 10:1.5"), (b"30:3", "another sample has this time: 30:U"),
            (b"35:2", "another sample has this time: 35:1"))))
        self.check_like("10:1.5", "20:2", "30:U", "35:1", "40:-0.5")

    def test_too_old(self) -> None:
        """A journal of three reaches to the sample before the last three."""
        self.filled("f.rrdi", ["10:1", "20:2", "30:3", "40:4", "50:5"], depth=3)
        old = "too old: the journal begins after 20"
        self.assertEqual(self.put("15:1", "20:9", "20:2", "21:2.1"), Outcome(refused=((b"15:1", old), (b"20:9", old))))
        self.check_like("10:1", "20:2", "21:2.1", "30:3", "40:4", "50:5", depth=3)
        self.assertEqual(self.put("11:1").refused, ((b"11:1", "too old: the journal begins after 21"),))

    def test_before_the_start(self) -> None:
        self.create("f.rrdi", *GAUGE, start=1_000)
        self.rrdi("update", "f.rrdi", "1010:1")
        self.assertEqual(self.put("1000:1", "999:1", "1005:2").refused, (
            (b"999:1", "too old: the journal begins after 1000"), (b"1000:1", "too old: the journal begins after 1000")))

    def test_changes_that_cannot_be_sent_again(self) -> None:
        for line, why in (("tune --heartbeat g:50", "a tune or a resize came at 40"),
                          ("resize 0 GROW 5", "a tune or a resize came at 40"),
                          ("update 45:1 50:9", "the update up to 50 had several samples")):
            self.filled("f.rrdi", ["10:1", "40:4"])
            self.rrdi("batch", "f.rrdi", given=f"{line}\nupdate 60:6\nupdate 80:8\n")
            before = self.read("f.rrdi")
            self.assertEqual(self.put("20:2").refused, ((b"20:2", f"too old: {why}"),))
            self.assertEqual(self.read("f.rrdi"), before)
            self.assertEqual(self.put("70:7", "39:3").refused, ((b"39:3", f"too old: {why}"),))
            self.assertIn("70:", self.rrdi("fetch", "f.rrdi", "AVERAGE", "-s", "60", "-e", "79"))

    def test_an_archive_without_a_trace(self) -> None:
        self.filled("f.rrdi", ["10:1", "20:2"], "DS:g:GAUGE:100:U:U", "RRA:MAX:0.5:4:50")
        why = "too old: no archive tells whether the update up to 20 had one sample"
        self.assertEqual(self.put("15:1").refused, ((b"15:1", why),))

    def test_samples_that_rrdi_refuses(self) -> None:
        """The others go in all the same, and each refused one has rrdi's reason."""
        self.filled("f.rrdi", ["10:1:100:1", "50:5:500:5"], *SEVERAL, step=300)
        self.assertEqual(self.put("20:2", "25:1:200:-3", "30:1:2.5:1", "40:1:2:3:4", "45:x:1:1", "60:6:600:6").refused, (
            (b"20:2", "wrong number of values"), (b"30:1:2.5:1", "bad value"), (b"40:1:2:3:4", "wrong number of values"),
            (b"45:x:1:1", "unreadable sample 1")))
        self.filled("wanted.rrdi", ["10:1:100:1", "25:1:200:-3", "50:5:500:5", "60:6:600:6"], *SEVERAL, step=300)
        self.assertEqual(self.read("f.rrdi"), self.read("wanted.rrdi"))

    def test_a_locked_file(self) -> None:
        """All samples are tried again, the later ones too."""
        self.filled("f.rrdi", ["10:1", "30:3"])
        before = self.read("f.rrdi")
        with locked(self.folder / "f.rrdi"), mock.patch.object(backfill, "last_of", return_value=30):
            outcome = self.put("20:2", "40:4")
        self.assertTrue(outcome.again.startswith("cannot open"), outcome)
        self.assertEqual((outcome._replace(again=""), self.read("f.rrdi")), (Outcome(), before))
        self.assertEqual(self.put("20:2", "40:4"), Outcome())
        self.check_like("10:1", "20:2", "30:3", "40:4")

    def test_another_program_was_faster(self) -> None:
        """What became late after the look at the file is put in all the same."""
        self.filled("f.rrdi", ["10:1", "30:3"])
        with mock.patch.object(backfill, "last_of", return_value=-1):
            self.assertEqual(self.put("20:2", "40:4", "x"), Outcome(refused=((b"x", "unreadable sample 1"),)))
        self.check_like("10:1", "20:2", "30:3", "40:4")

    def test_faults(self) -> None:
        """A change that is not stored costs no later sample. One that is stored in part costs all that were sent."""
        self.filled("f.rrdi", ["10:1", "30:3"])
        with mock.patch.object(HeldFile, "store", side_effect=Failure(f"{os.fsdecode(self.path())}: cannot write: full")):
            self.assertEqual(self.put("20:2", "40:4"), Outcome(refused=((b"20:2", "cannot write: full"),)))
        self.check_like("10:1", "30:3", "40:4")
        with mock.patch.object(HeldFile, "store", side_effect=PartlyStored("out of memory; a part only")):
            self.assertEqual(self.put("35:2", "50:5"),
                             Outcome(lost="out of memory; a part only", left=(b"35:2", b"40:4", b"50:5")))
        self.check_like("10:1", "30:3", "40:4")
        with mock.patch.object(self.writer().writer.__class__, "write", return_value=Outcome(again="full")):
            self.assertEqual(self.put("20:2", "50:5", "60:6"), Outcome(again="full", left=(b"50:5", b"60:6")))
        self.check_like("10:1", "20:2", "30:3", "40:4")
        with mock.patch.object(backfill, "history_of", side_effect=MemoryError):
            self.assertEqual(self.put("25:2", "50:5"), Outcome(again="out of memory"))

    def test_faults_that_may_pass(self) -> None:
        """On a full disk, later samples are passed on, and late ones are tried again: none is lost."""
        self.filled("f.rrdi", ["10:1", "30:3"])
        full = NotStored(f"{os.fsdecode(self.path())}: cannot write: full")
        with mock.patch.object(HeldFile, "store", side_effect=full):
            self.assertEqual(self.put("20:2", "40:4"), Outcome(again="cannot write: full", left=(b"20:2",)))
            self.check_like("10:1", "30:3", "40:4")
            for second, both in ((Outcome(lost="gone"), Outcome(lost="gone", left=(b"20:2", b"60:6"))),
                                 (Outcome(again="busy"), Outcome(again="busy", left=(b"20:2", b"60:6")))):
                with mock.patch.object(self.writer().writer.__class__, "write", return_value=second):
                    self.assertEqual(self.put("20:2", "60:6"), both)
        with mock.patch.object(backfill, "history_of", side_effect=NoCopy("no room")):
            self.assertEqual(self.put("20:2", "50:5"), Outcome(again="no room", left=(b"20:2",)))
        self.assertEqual(self.put("20:2"), Outcome())
        self.check_like("10:1", "20:2", "30:3", "40:4", "50:5")

    def test_all_changes_are_taken_back(self) -> None:
        """Another program does it after the look at the file. Then no sample is late any more."""
        self.filled("f.rrdi", ["50:5"])

        def taken_back(file: bytes) -> int:
            self.rrdi("revert", "f.rrdi")
            return 50
        with mock.patch.object(backfill, "last_of", taken_back):
            self.assertEqual(self.put("20:2"), Outcome())
        self.check_like("20:2")

    def test_random_orders(self) -> None:
        """Whatever the order, the file is the one that got in order what was taken, and what is refused is too old."""
        for seed in range(6 * self.SIZE):
            chance = random.Random(seed)
            with self.subTest(seed=seed):
                self.one_order(chance, chance.choice((1, 3, 16, 80)), chance.choice((10, 40, 120)), chance.choice((3, 20, 100)))

    def one_order(self, chance: random.Random, depth: int, most: int, most_late: int) -> None:
        kinds = [chance.choice(("GAUGE", "GAUGE", "COUNTER", "DERIVE")) for _ in range(chance.randint(1, 3))]
        definitions = [f"DS:s{number}:{kind}:{chance.choice((15, 60, 400))}:U:U" for number, kind in enumerate(kinds)] + [
            "RRA:AVERAGE:0.5:1:2000", "RRA:MAX:0.5:3:40", "RRA:LAST:0.9:7:20"]
        samples = random_samples(chance, kinds, chance.randint(20, 100), 10)
        self.create("f.rrdi", "--journal", str(depth), *definitions)
        taken: List[bytes] = []
        for arrival in arrivals(chance, samples, most_late, most):
            reach = seconds_of(taken[-depth - 1]) if len(taken) > depth else 0
            old = [one for one in in_order(arrival.samples) if seconds_of(one) <= reach]
            outcome = self.writer().write(self.path(), in_order(arrival.samples))
            self.assertEqual(([sample for sample, _ in outcome.refused], outcome.again, outcome.lost), (old, "", ""))
            taken = in_order(taken + [one for one in arrival.samples if one not in old])
        self.filled("wanted.rrdi", [one.decode() for one in taken], *definitions, depth=depth)
        self.assertEqual(self.read("f.rrdi"), self.read("wanted.rrdi"))

    def test_a_year(self) -> None:
        """A sample each five minutes, three sources, gaps: all of those that came late are in every archive."""
        chance = random.Random(79)
        samples = random_samples(chance, ["GAUGE", "COUNTER", "DERIVE"], 1_000 * self.SIZE, 300)
        self.create("f.rrdi", "--journal", "200", *SEVERAL, step=300)
        for arrival in arrivals(chance, samples, 100, 90):
            self.assertEqual(self.writer().write(self.path(), in_order(arrival.samples)), Outcome())
        self.filled("wanted.rrdi", [one.decode() for one in samples], *SEVERAL, depth=200, step=300)
        self.assertEqual(self.read("f.rrdi"), self.read("wanted.rrdi"))


@needs_program
class PutInByProgram(PutIn):
    __test__ = True

    def setUp(self) -> None:
        super().setUp()
        variables = mock.patch.dict(os.environ, {"RRDI": PROGRAM or "", "RRDI_WAIT": "0"})
        variables.start()
        self.addCleanup(variables.stop)

    def writer(self) -> BackfillWriter:
        return BackfillWriter(BatchWriter(ByProgram(PROGRAM or "")))

    def test_a_file_that_goes_away(self) -> None:
        """The program, which then waits for a `create`, is not waited for."""
        self.filled("f.rrdi", ["50:5"])
        session_at: Callable[[str], Session] = held_files.session_at

        def gone(path: str) -> Session:
            os.unlink(path)
            return session_at(path)
        with mock.patch.object(held_files, "session_at", gone):
            self.assertEqual(self.put("20:2"), Outcome(refused=((b"20:2", "no database"),)))


@needs_program
@needs_library
class PutInByLibrary(PutIn):
    SIZE = 8
    __test__ = True

    def setUp(self) -> None:
        super().setUp()
        others = {name: value for name, value in os.environ.items() if name != "RRDI"}
        variables = mock.patch.dict(os.environ, {**others, "RRDI_WAIT": "0"}, clear=True)
        variables.start()
        self.addCleanup(variables.stop)
        loaded = mock.patch.object(choice, "loaded_library", load_library)
        loaded.start()
        self.addCleanup(loaded.stop)

    def writer(self) -> BackfillWriter:
        return BackfillWriter(OpenWriter(load_library()))


# ---- The tool

@needs_program
class Tool(ProcessCase, BackfillCase):
    ROUNDS = 25

    def feed(self, *words: str, env: Optional[Dict[str, str]] = None) -> "subprocess.Popen[bytes]":
        return self.start(sys.executable, str(TOP / "tools/rrdi-feed"), *words, env=env, stdin=subprocess.PIPE,
                          stderr=subprocess.PIPE)

    def test_the_option(self) -> None:
        """Without it the lines of one run are sorted, and those of an earlier time refused."""
        self.filled("f.rrdi", ["10:1", "20:2", "40:4"], depth=2)
        ran = self.tool("rrdi-feed", given="f.rrdi 60:6\nf.rrdi 30:3\nf.rrdi 50:5\n")
        self.assertEqual((ran.status, ran.err.splitlines()[0]), (1, "rrdi-feed: f.rrdi 30:3: not later than 40"))
        self.check_like("10:1", "20:2", "40:4", "50:5", "60:6", depth=2)
        ran = self.tool("rrdi-feed", "--backfill", given="f.rrdi 45:4.5\nf.rrdi 70:7\nf.rrdi 41:4\nf.rrdi 30:3\nf.rrdi 70:7\n")
        self.assertEqual(ran, (1, "", "rrdi-feed: f.rrdi 30:3: too old: the journal begins after 40\n"
                                      "rrdi-feed: samples too old: 1\n"))
        self.check_like("10:1", "20:2", "40:4", "41:4", "45:4.5", "50:5", "60:6", "70:7", depth=2)

    def test_graphite(self) -> None:
        (self.folder / "data").mkdir()
        now = int(time.time()) // 10 * 10
        self.create("data/a.rrdi", *GAUGE, start=now - 100)
        for number in (30, 50, 40, 20):
            ran = self.tool("rrdi-feed", "--graphite", "data", "--backfill", given=f"a {number}.25 {now - number}\n")
            self.assertEqual(ran, (0, "", ""))
        self.assertEqual(self.rrdi("fetch", "data/a.rrdi", "AVERAGE", "-s", str(now - 49), "-e", str(now - 21)).splitlines()[1:],
                         [f"{now - number}: {number}.250000" for number in (40, 30, 20)])

    def test_two_feeders(self) -> None:
        """Each has every other sample, and writes each second or so. No sample is lost, and none is there twice."""
        samples = [f"{10 * number}:{number % 17}" for number in range(1, 201)]
        self.create("f.rrdi", "--journal", "700", *GAUGE)
        feeders = [self.feed("--backfill", "--seconds", "1", env={"RRDI_WAIT": "60"}) for _ in range(2)]
        for begin in range(0, len(samples), 50):
            for number, feeder in enumerate(feeders):
                assert feeder.stdin
                feeder.stdin.write("".join(f"f.rrdi {one}\n" for one in samples[begin + number:begin + 50:2]).encode())
                feeder.stdin.flush()
            time.sleep(0.4)
        for feeder in feeders:
            assert feeder.stdin and feeder.stderr
            feeder.stdin.close()
            self.assertEqual((feeder.wait(10 * HANG), feeder.stderr.read()), (0, b""))
        self.check_like(*samples, depth=700)

    def test_kills(self) -> None:
        """A kill leaves the bytes without the late samples or with all of them, or bytes that stand for one of these."""
        samples = [f"{60 * number + 33}:{20 + number % 7}" for number in range(240)]
        late = [sample for number, sample in enumerate(samples[:-1]) if number in (190, 205, 206, 230)]
        self.filled("new.rrdi", samples, depth=60, step=60)
        self.filled("f.rrdi", [one for one in samples if one not in late], depth=60, step=60)
        old, new, given, seen = self.read("f.rrdi"), self.read("new.rrdi"), "".join(f"f.rrdi {one}\n" for one in late), set()
        start = time.monotonic()
        self.assertEqual(self.tool("rrdi-feed", "--backfill", given=given).status, 0)
        pause = time.monotonic() - start
        for number in range(self.ROUNDS):
            self.write("f.rrdi", old)
            feeder = self.feed("--backfill", env={"RRDI_WAIT": "60"})
            assert feeder.stdin
            feeder.stdin.write(given.encode())
            feeder.stdin.close()
            time.sleep(pause)
            feeder.kill()
            feeder.wait()
            self.run_command([PROGRAM or "", "batch", "f.rrdi"], "last\n", {"RRDI_WAIT": "60"})  # repairs what was broken off
            self.assertIn(self.read("f.rrdi"), (old, new), number)
            pause *= 0.9 if self.read("f.rrdi") == new else 1.1
            seen.add(self.read("f.rrdi") == new)
        self.assertEqual(seen, {False, True})


# ---- carbon

class LockedFile(FileByWords):
    """A file that is locked, except while the program runs a command on it."""

    def __init__(self, path: bytes, library: Program):
        self.path, self.library, self.is_open = path, library, True
        self.file = open_file(os.fsdecode(path), os.O_RDWR)
        fcntl.flock(self.file, fcntl.LOCK_EX | fcntl.LOCK_NB)

    def unlocked(self, run: Callable[[], Answer]) -> Answer:
        fcntl.flock(self.file, fcntl.LOCK_UN)
        answer = run()
        fcntl.flock(self.file, fcntl.LOCK_EX | fcntl.LOCK_NB)
        return answer

    def run(self, words: bytes, now: int) -> Answer:
        return self.unlocked(lambda: self.library.run_file(self.path, words, now, 0, False))

    def batch(self, lines: bytes, now: int) -> Answer:
        return self.unlocked(lambda: self.library.batch_file(self.path, lines, now, 0, False))

    def close(self) -> None:
        self.is_open = False
        self.file.close()


class LockingLibrary(Program):
    """The library by runs of the program, with files that stay open."""

    def open(self, path: bytes, wait: int, syncs: bool) -> Tuple[Answer, Optional[OpenedFile]]:
        return DONE, LockedFile(path, self)


class CarbonStore(DataCase):
    """The store of carbon puts late points in by itself, as far as the journal of a metric reaches."""

    NOW = 1_700_000_000

    def store(self, name: str) -> Store:
        folder = self.folder / name
        folder.mkdir()
        store = Store(StoreOptions(str(folder), 16), Losses(lambda text: None), lambda: self.NOW)
        store.create("m", template([(10, 360), (60, 240)], 0.5, "average", 16))
        return store

    def test_late_points(self) -> None:
        """The file is the one that got the points in order, gaps too; what is too late is counted."""
        use_any_library(self)
        for seed in range(6):
            chance = random.Random(seed)
            times = sorted(chance.sample(range(self.NOW - 1_600, self.NOW, 10), 80))
            points = [(float(at), float(chance.randint(0, 99))) for at in times]
            in_turn, late = self.store(f"{seed} in turn"), self.store(f"{seed} late")
            for point in points:
                in_turn.write("m", [point])
            late.write("m", points[:1])
            for arrival in arrivals(chance, [str(number).encode() for number in range(1, len(points))], 8, 7):
                late.write("m", [points[int(one)] for one in arrival.samples])
            for store in (in_turn, late):
                store.close()
            files = [(self.folder / f"{seed} {name}" / "m.rrdi").read_bytes() for name in ("in turn", "late")]
            self.assertEqual(files[0], files[1], seed)
            found = late.losses.take()
            self.assertEqual((found["rewritten"] > 0, sum(found.values()) - found["rewritten"]), (True, 0))
            late.write("m", [(points[0][0], 1.0)])
            self.assertEqual(late.losses.take()["late"], 1)

    @needs_program
    def test_another_program(self) -> None:
        """No update comes between the look at a file and the reverts, which would take it back: the file is locked."""
        use_library(self, LockingLibrary())
        store, outside = self.store("others"), []  # type: Store, List[int]
        give = stores.give

        def late(*words: object, **named: object) -> stores.Tried:
            ran = subprocess.run([PROGRAM or "", "update", str(self.folder / "others/m.rrdi"), f"{self.NOW}:9"],
                                 env={**os.environ, "RRDI_WAIT": "0"}, capture_output=True)
            outside.append(ran.returncode)
            return give(*words, **named)  # type: ignore[arg-type]
        for at in (50, 40, 20):
            store.write("m", [(self.NOW - at, 1.0)])
        with mock.patch.object(stores, "give", late):
            store.write("m", [(self.NOW - 30, 2.0)])
        self.assertEqual(outside, [1])
        self.assertEqual((store.losses.take()["rewritten"], store.waiting), (1, 0))
