# SPDX-License-Identifier: MIT OR Apache-2.0
"""Tests of `rrdi.feeding`: lines, batches by a library that is a stub, what is tried again, refused and lost."""
from __future__ import annotations

import contextlib
import errno
import io
import itertools
import os
import random
import time
import unittest
from typing import Any, Dict, List, Sequence, Tuple, cast
from unittest import mock

import doubles
from cases import HANG, new_folder, use_library
from tool_case import EachWriter, finished, taken

import rrdi
from rrdi import choice, library
from rrdi.errors import CANNOT_OPEN, CANNOT_WRITE, NO_MEMORY, NoLibrary
from rrdi.feeding import feeder as feeders
from rrdi.feeding.feeder import FIRST_PAUSE, LONGEST_PAUSE, Feeder, FeedOptions, line_text
from rrdi.by_program import ByProgram
from rrdi.feeding.writers import BatchWriter, Outcome, Reason
from rrdi.library import Answer


class Stub:
    """A writer that keeps its samples, and returns given outcomes."""

    def __init__(self) -> None:
        self.batches: List[Tuple[bytes, List[bytes]]] = []
        self.outcomes: Dict[bytes, List[Outcome]] = {}

    def write(self, file: bytes, samples: List[bytes]) -> Outcome:
        self.batches.append((file, samples))
        outcomes = self.outcomes.get(file, [])
        return outcomes.pop(0) if outcomes else Outcome()

    def create(self, file: bytes, arguments: Sequence[str]) -> str:
        raise AssertionError("no test here creates a file")


class Lines(unittest.TestCase):
    def feeder(self, **options: int) -> Feeder:
        feeder = Feeder(FeedOptions(**options), Stub())
        self.addCleanup(feeder.threads.shutdown)
        return feeder

    def taken(self, text: bytes, **options: int) -> Tuple[Feeder, str]:
        feeder = self.feeder(**options)
        return feeder, taken(feeder, text)

    def test_lines(self) -> None:
        text = b"a 10:1\n\nUPDATE b 10:5 20:6\n a\t20:2 \nupdate a 30:3\nb 30:1\r\nc/d 5:U 6:1"
        feeder, said = self.taken(text)
        self.assertEqual(feeder.held, {b"a": [b"10:1", b"20:2", b"30:3"], b"b": [b"10:5", b"20:6", b"30:1"],
                                       b"c/d": [b"5:U", b"6:1"]})
        self.assertEqual((feeder.count, said, feeder.has_failed), (8, "", False))

    def test_a_file_with_the_name_of_the_command(self) -> None:
        """The first word UPDATE is never FILE, whether or not that file has samples."""
        feeder, said = self.taken(b"update update 10:1\nupdate 20:2\nupdate b 30:3\nUPDATE Update 40:4")
        self.assertEqual(feeder.held, {b"./update": [b"10:1"], b"b": [b"30:3"], b"./Update": [b"40:4"]})
        self.assertEqual(said, "rrdi-feed: expected FILE SAMPLE.., got: update 20:2\n")

    def test_now(self) -> None:
        before = int(time.time())
        feeder, _ = self.taken(b"a N:1\na N:2\na 5:1 N:3\nNow 5:1")
        after = int(time.time())
        for sample in feeder.held[b"a"]:
            if sample != b"5:1":
                self.assertTrue(before <= int(sample.split(b":")[0]) <= after, sample)
        self.assertEqual([sample.split(b":")[1] for sample in feeder.held[b"a"]], [b"1", b"2", b"1", b"3"])

    def test_lines_that_are_wrong(self) -> None:
        feeder, said = self.taken(b"a\n-a 10:1\nUPDATE\nUPDATE a\nupdate -x 1:2\n\xff 5:1\n\xff \xff")
        self.assertEqual(said, "".join(f"rrdi-feed: expected FILE SAMPLE.., got: {line}\n"
                                       for line in ("a", "-a 10:1", "UPDATE a", "update -x 1:2")))
        self.assertEqual((feeder.held, feeder.count), ({b"\xff": [b"5:1", b"\xff"]}, 2))
        self.assertEqual((feeder.has_failed, feeder.bad_lines), (True, 4))

    def test_how_a_bad_line_is_shown(self) -> None:
        feeder = self.feeder()
        for line, text in ((b"a\r", "a"), (b"\x1b[2Ja", "\\u{1b}[2Ja"), (b"a\0b", "a\\u{0}b"), (b"\xff", "\\xff"),
                           ("\u202eü".encode(), "\\u{202e}ü"), (b"a" * 4_096, "a" * 4_096), (b"a" * 4_097, "a" * 4_096 + "..")):
            with contextlib.redirect_stderr(io.StringIO()) as said:
                feeder.say_bad("why", line)
            self.assertEqual(said.getvalue(), f"rrdi-feed: why, got: {text}\n")

    def test_nobody_reads_the_messages(self) -> None:
        feeder, closed = self.feeder(), mock.Mock(write=mock.Mock(side_effect=BrokenPipeError))
        with mock.patch("sys.stderr", closed):
            feeder.take_all([b"a", b"a 10:1"])
        self.assertEqual((feeder.held, feeder.has_failed), ({b"a": [b"10:1"]}, True))

    def test_data_in_pieces(self) -> None:
        """Lines that arrive in pieces of any length are the same lines; the last one may lack its end."""
        text = b"a 10:1\nb 10:2\n\na 20:3"
        for length in range(1, len(text) + 1):
            feeder = self.feeder()
            for at in range(0, len(text), length):
                feeder.take_data(text[at:at + length])
            feeder.take_data(b"")
            self.assertEqual(feeder.held, {b"a": [b"10:1", b"20:3"], b"b": [b"10:2"]}, length)

    def test_a_line_without_an_end(self) -> None:
        """A line that is too long is passed over up to its end, and takes no memory; the next line is read."""
        with mock.patch("rrdi.feeding.feeder.LONGEST_GIVEN", 10), contextlib.redirect_stderr(io.StringIO()) as said:
            feeder = self.feeder()
            for piece in (b"a 10:1\nx", b" 1234567890", b"123\0" * 9, b"4 5:6\na 20:2\n", b"b 10:1"):
                feeder.take_data(piece)
                self.assertLess(len(feeder.rest), 20)
            feeder.take_data(b"")
        self.assertEqual(feeder.held, {b"a": [b"10:1", b"20:2"], b"b": [b"10:1"]})
        self.assertEqual(said.getvalue(), "rrdi-feed: a line has over 10 bytes, got: x 1234567890\n")
        self.assertEqual(feeder.bad_lines, 1)

    def test_long_samples(self) -> None:
        longest = b"1:" + b"1" * (65_536 - len("update 1:"))
        for first in (b"", b"a 5:1\n"):
            feeder, said = self.taken(first + b"a " + longest)
            self.assertEqual((feeder.held[b"a"][-1], said), (longest, ""))
            feeder, said = self.taken(first + b"a " + longest + b"1")
            line = line_text(b"a " + longest + b"1")
            self.assertEqual(said, f"rrdi-feed: a sample has over 65536 bytes, got: {line}\n")
            self.assertEqual(feeder.count, 1 if first else 0)


class Batches(unittest.TestCase):
    def fed(self, text: bytes, outcomes: Dict[bytes, List[Outcome]], **options: int) -> Tuple[Stub, Feeder, str]:
        """Feeds lines to their end."""
        writer = Stub()
        writer.outcomes = outcomes
        feeder = Feeder(FeedOptions(**options), writer)
        said = taken(feeder, text) + finished(feeder)
        return writer, feeder, said

    def test_many_refused_samples(self) -> None:
        """Those of one file with one reason share lines, from which they can be fed again; a reason is explained once a minute,
        whichever numbers it has; and at the end comes the count."""
        late = [(b"%d:1" % at, Reason("not later than 300", f"{at} is late")) for at in range(1, 251)]
        others = (late[0], (b"x", Reason("unreadable sample 1", "'x' has no value")), (b"2:1", "another"), *late[:11])
        outcomes = {b"a": [Outcome(refused=tuple(late))], b"b": [Outcome(refused=others)],
                    b"c": [Outcome(refused=((b"5:1", Reason("not later than 7", "5 is late")),))]}
        said = self.fed(b"a 1:1\nb 1:1\nc 5:1", outcomes, jobs=1)[2]
        lines = [" ".join(sample.decode() for sample, _ in late[at:at + 100]) for at in (0, 100, 200)]
        self.assertEqual(said, "".join(f"rrdi-feed: {line}\n" for line in (
            *(f"a {line}: not later than 300" for line in lines), "1 is late", "b 1:1: not later than 300",
            "b x: unreadable sample 1", "'x' has no value", "b 2:1: another",
            f"b {' '.join(sample.decode() for sample, _ in late[:11])}: not later than 300", "c 5:1: not later than 7",
            "samples refused: 265")))

    def test_samples_that_are_too_old(self) -> None:
        """Their count is part of that of the refused samples."""
        refused = tuple((b"%d:1" % at, Reason("too old" if at < 5 else "bad value")) for at in range(11))
        for count, wanted in ((11, ["samples refused: 11", "of these too old: 5"]), (9, ["9:1: bad value", "samples too old: 5"])):
            said = self.fed(b"a 1:1", {b"a": [Outcome(refused=(*refused[:count - 1], (b"9:1", "bad value")))]})[2]
            self.assertEqual([line.rpartition("rrdi-feed: ")[2].replace("a ", "") for line in said.splitlines()[-2:]], wanted)

    def test_few_refused_samples(self) -> None:
        """Each has a line of its own; a minute later a reason is explained again."""
        late = tuple((b"%d:1" % at, Reason("not later than 300", f"{at} is late")) for at in range(1, 11))
        with mock.patch.object(time, "monotonic", mock.Mock(side_effect=itertools.count(0, 0.001))) as clock:
            said = self.fed(b"a 1:1", {b"a": [Outcome(refused=late[:2])]}, jobs=1)[2]
            self.assertEqual(said, "rrdi-feed: a 1:1: not later than 300\nrrdi-feed: a 2:1: not later than 300\n"
                                   "rrdi-feed: 1 is late\n")
            feeder = Feeder(FeedOptions(), Stub())
            self.addCleanup(feeder.threads.shutdown)
            for seconds, explained in ((0, 1), (59, 0), (60.1, 1), (60.2, 0), (500, 1)):
                clock.side_effect = itertools.count(seconds, 0.001)
                with contextlib.redirect_stderr(io.StringIO()) as lines:
                    feeder.say_refused(b"a", late)
                self.assertEqual(len(lines.getvalue().splitlines()), 10 + explained, seconds)

    def test_one_batch_a_file(self) -> None:
        writer, feeder, said = self.fed(b"a 10:1\nb 10:2\na 20:3", {}, jobs=1)
        self.assertEqual(writer.batches, [(b"a", [b"10:1", b"20:3"]), (b"b", [b"10:2"])])
        self.assertEqual((feeder.count, said, feeder.has_failed), (0, "", False))

    def test_samples_are_held_from_the_first_one_on(self) -> None:
        """A file that gets a sample each second is due when its first one was held for the seconds."""
        now = [1_000.0]
        with mock.patch.object(time, "monotonic", lambda: now[0]):
            feeder = Feeder(FeedOptions(seconds=60), Stub())
            self.addCleanup(feeder.threads.shutdown)
            for second, due in ((0, []), (30, []), (59, []), (61, [b"a"]), (62, [b"a"]), (91, [b"a", b"b"])):
                now[0] = 1_000 + second
                feeder.hold(b"a" if second != 30 else b"b", [b"%d:1" % second])
                with mock.patch.object(feeder, "start") as start:
                    feeder.start_due()
                self.assertEqual([call[0][0] for call in start.call_args_list], due, second)

    def test_a_signal_at_any_moment(self) -> None:
        """A hurry that comes while files are chosen and started counts for those that are held afterwards."""
        for name in ("end_batches", "start"):
            feeder = Feeder(FeedOptions(seconds=10**9), Stub())
            self.addCleanup(feeder.threads.shutdown)
            act = getattr(feeder, name)

            def hurried(*words: Any) -> None:
                act(*words)
                feeder.take_all([b"b 10:1"])
                feeder.hurry()
            feeder.take_all([b"a 10:1"])
            feeder.hurry()
            with mock.patch.object(feeder, name, hurried):
                feeder.start_due()
            feeder.start_due()
            self.assertEqual((feeder.held, feeder.is_hurried), ({}, False), name)
            while feeder.running:
                feeder.end_batches(HANG)
            self.assertEqual(sorted(cast(Stub, feeder.writer).batches), [(b"a", [b"10:1"]), (b"b", [b"10:1"])], name)

    def test_a_hurry_closes_files(self) -> None:
        """Before it has the held samples written, so that no file is open afterwards."""
        feeder, said = Feeder(FeedOptions(), Stub()), []  # type: Feeder, List[str]
        self.addCleanup(feeder.threads.shutdown)
        feeder.let_go = lambda: said.append("let go")
        feeder.take_all([b"a 10:1"])
        feeder.start_due()
        feeder.hurry()
        with mock.patch.object(feeder, "start", lambda file: said.append("start")):
            feeder.start_due()
        self.assertEqual(said, ["let go", "start"])

    def test_refused_samples(self) -> None:
        _, feeder, said = self.fed(b"a 10:1\na 20:3", {b"a": [Outcome(refused=((b"20:3", "bad value"),))]})
        self.assertEqual((said, feeder.has_failed), ("rrdi-feed: a 20:3: bad value\n", True))
        _, _, said = self.fed(b"\x07 \x1b[2J:1", {b"\x07": [Outcome(refused=((b"\x1b[2J:1", "unreadable sample 1"),))]})
        self.assertEqual(said, "rrdi-feed: \\u{7} \\u{1b}[2J:1: unreadable sample 1\n")

    def test_again(self) -> None:
        again = Outcome(again="cannot open")
        writer, feeder, said = self.fed(b"a 10:1\na 20:3", {b"a": [again, again]})
        self.assertEqual(writer.batches, [(b"a", [b"10:1", b"20:3"])] * 3)
        self.assertEqual((feeder.count, said, feeder.pauses), (0, "", {}))

    def test_pauses(self) -> None:
        """Each is twice as long as the one before, up to a bound."""
        feeder, found = Feeder(FeedOptions(), Stub()), []  # type: Feeder, List[float]
        self.addCleanup(feeder.threads.shutdown)
        while not found or found[-1] < LONGEST_PAUSE:
            feeder.end_batch(b"a", [b"10:1"], Outcome(again="cannot open"))
            found.append(feeder.waiting[b"a"].pause)
        self.assertEqual(found, [min(FIRST_PAUSE * 2 ** number, LONGEST_PAUSE) for number in range(len(found))])
        self.assertEqual((FIRST_PAUSE, LONGEST_PAUSE, len(found)), (0.1, 60, 11))

    def test_lost(self) -> None:
        _, _, said = self.fed(b"a 10:1\na 20:3", {b"a": [Outcome(lost="cannot write")]})
        self.assertEqual(said, "rrdi-feed: a: cannot write; 2 samples may be lost\nrrdi-feed: may be lost: a 10:1 20:3\n")
        _, _, said = self.fed(b"a 10:1", {b"a": [Outcome(again="cannot open")] * 9}, patience=0)
        self.assertEqual(said, "rrdi-feed: a: cannot open; 1 samples may be lost\nrrdi-feed: may be lost: a 10:1\n")

    def test_samples_that_are_left(self) -> None:
        """Only these are tried again, or may be lost."""
        some = Outcome(again="out of memory", left=(b"30:5",))
        writer, feeder, said = self.fed(b"a 10:1\na 20:3\na 30:5", {b"a": [some]})
        self.assertEqual((writer.batches[1:], feeder.count, said), ([(b"a", [b"30:5"])], 0, ""))
        _, _, said = self.fed(b"a 10:1\na 20:3\na 30:5", {b"a": [Outcome(lost="cannot write", left=(b"20:3", b"30:5"))]})
        self.assertEqual(said, "rrdi-feed: a: cannot write; 2 samples may be lost\nrrdi-feed: may be lost: a 20:3 30:5\n")
        every = Outcome(lost="cannot write", refused=((b"20:3", "bad value"),), left=())
        _, _, said = self.fed(b"a 10:1\na 20:3\na 30:5", {b"a": [every]})
        self.assertEqual(said, "rrdi-feed: a: cannot write; 0 samples may be lost\nrrdi-feed: a 20:3: bad value\n")

    def test_a_writer_that_fails(self) -> None:
        feeder = Feeder(FeedOptions(), mock.Mock(write=mock.Mock(side_effect=MemoryError("none"))))
        self.assertEqual(taken(feeder, b"a 10:1") + finished(feeder),
                         "rrdi-feed: a: MemoryError; 1 samples may be lost\nrrdi-feed: may be lost: a 10:1\n")

    def test_newer_samples_follow_those_that_wait(self) -> None:
        feeder = Feeder(FeedOptions(seconds=60), Stub())
        assert isinstance(feeder.writer, Stub)
        feeder.writer.outcomes[b"a"] = [Outcome(again="cannot open")]
        feeder.take_all([b"a 10:1"])
        feeder.hurry()
        feeder.start_due()
        feeder.end_batches(HANG)
        self.assertEqual((list(feeder.waiting), feeder.count), ([b"a"], 1))
        feeder.take_all([b"a 20:2", b"a 30:3"])
        feeder.start_due()
        time.sleep(0.15)
        feeder.start_due()
        feeder.end_batches(HANG)
        self.assertEqual(feeder.writer.batches[1:], [(b"a", [b"10:1", b"20:2", b"30:3"])])
        feeder.threads.shutdown()


class States(unittest.TestCase):
    """Whatever comes in whatever order, each sample is in one place, and a file is written when it is due, never before."""

    def setUp(self) -> None:
        patch = mock.patch.object(time, "monotonic", lambda: self.now)
        patch.start()
        self.addCleanup(patch.stop)

    def begin(self, seed: int) -> None:
        self.chance, self.now, self.arrived, self.given, self.count = random.Random(seed), 1_000.0, {}, [], 0  # type: Any, float, Dict[bytes, float], List[Any], int
        self.pauses: Dict[bytes, float] = {}
        self.settled: List[bytes] = []  # samples that were stored, refused, or named as lost
        self.feeder = Feeder(FeedOptions(seconds=60, held=30), Stub())
        self.feeder.threads.give = lambda batch, running: self.given.append(batch)  # type: ignore[assignment]
        self.feeder.say_lost = lambda file, reason, samples: self.settled.extend(samples)  # type: ignore[assignment]
        self.hurried = False

    def take(self) -> None:
        file = self.chance.choice((b"a", b"b", b"c"))
        samples = [b"%d:1" % (self.count + at) for at in range(self.chance.choice((1, 1, 2)))]
        self.count += len(samples)
        if file not in self.feeder.held:
            self.arrived[file] = self.now
        self.feeder.take_all([b" ".join([file, *samples])])

    def pass_on(self) -> None:
        waiting, held = dict(self.feeder.waiting), {file: list(samples) for file, samples in self.feeder.held.items()}
        is_full, running, before = self.feeder.count >= 30, set(self.feeder.running), len(self.given)
        self.feeder.start_due()
        due = {file for file, one in waiting.items() if (self.hurried or self.now >= one.due) and one.samples + held.get(file, [])}
        due |= {file for file in held if file not in waiting and file not in running and (is_full or self.hurried or self.now - self.arrived[file] >= 60)}
        self.assertEqual({file for file, _ in self.given[before:]}, due)
        for file, samples in self.given[before:]:
            self.assertEqual(samples, (waiting[file].samples if file in waiting else []) + held.get(file, []))
        if self.hurried:  # what could not be written yet stays due
            self.arrived = dict.fromkeys(self.arrived, self.now - 60)
        self.hurried = False

    def end_one(self) -> None:
        if not self.given:
            return
        file, samples = self.given.pop(self.chance.randrange(len(self.given)))
        some = tuple(samples[:self.chance.randrange(len(samples) + 1)])
        outcome = self.chance.choice((Outcome(), Outcome(again="no"), Outcome(lost="no"), Outcome(refused=tuple((one, "bad") for one in some)), Outcome(again="no", left=some), Outcome(lost="no", left=some)))
        left = samples if outcome.left is None else list(some)
        self.settled += [one for one in samples if one not in left] if outcome.again or outcome.lost else samples
        with contextlib.redirect_stderr(io.StringIO()):
            self.feeder.end_batch(file, samples, outcome)
        self.assertEqual(file in self.feeder.waiting, bool(outcome.again))
        pause = self.pauses.pop(file, FIRST_PAUSE)
        if outcome.again:
            self.pauses[file] = min(2 * pause, LONGEST_PAUSE)
            self.assertEqual(self.feeder.waiting[file], feeders.Waiting(left, "no", pause, self.now + pause))

    def hurry(self) -> None:
        self.feeder.hurry()
        self.hurried = True

    def wait(self) -> None:
        self.now += self.chance.choice((0.05, 0.1, 1, 20, 60))

    def test_random_feeds(self) -> None:
        for seed in range(300):
            self.begin(seed)
            for _ in range(60):
                self.chance.choice((self.take, self.take, self.take, self.pass_on, self.pass_on, self.end_one, self.end_one, self.wait, self.hurry if self.chance.random() < 0.2 else self.wait))()
                feeder = self.feeder
                places = [*(one for samples in feeder.held.values() for one in samples), *(one for waits in feeder.waiting.values() for one in waits.samples)]
                self.assertEqual(feeder.count, len(places), seed)
                self.assertEqual(sorted([*places, *self.settled, *(one for _, samples in self.given for one in samples)]), sorted(b"%d:1" % at for at in range(self.count)), seed)
                self.assertEqual((list(feeder.since), set(feeder.running)), (list(feeder.held), {file for file, _ in self.given}), seed)

    def test_how_long_the_input_is_waited_for(self) -> None:
        """Shortly if a file waits for its next try, else for as long as samples are held, up to half a second."""
        for seconds, waits, wanted in ((60, False, 0.5), (1, False, 0.5), (0, False, 0), (60, True, 0.1), (0, True, 0.1)):
            feeder, asked = Feeder(FeedOptions(seconds=seconds), Stub()), []  # type: Feeder, List[float]
            if waits:
                feeder.end_batch(b"a", [b"10:1"], Outcome(again="no"))
                feeder.waiting[b"a"].due = 1e9

            def select(timeout: float) -> List[int]:
                asked.append(timeout)
                feeder.is_ending = len(asked) == 2
                return []
            self.now = 1_000.0
            with mock.patch("sys.stdin", mock.Mock(fileno=lambda: 0)), mock.patch.object(feeders, "selector_of", return_value=mock.Mock(select=select)), mock.patch("os.read", side_effect=AssertionError):
                feeder.read()
            self.assertEqual(asked, [wanted] * 2, (seconds, waits))


class FakeLibrary:
    """A library whose batches are all answered alike."""

    def __init__(self, answer: Answer):
        self.answer = answer
        self.lines = b""

    def batch_file(self, path: bytes, lines: bytes, now: int, wait: int, syncs: bool) -> Answer:
        self.lines = lines
        return self.answer


class Writers(EachWriter, unittest.TestCase):
    def outcome(self, answer: Answer) -> Outcome:
        library = FakeLibrary(answer)
        outcome = BatchWriter(library).write(b"a", [b"10:1", b"20:2", b"30:3"])  # type: ignore[arg-type]
        self.assertEqual(library.lines, b"update 10:1\nupdate 20:2\nupdate 30:3")
        return outcome

    def test_by_library(self) -> None:
        self.assertEqual(self.outcome(Answer(0, 0, 0, b"")), Outcome())
        refused = Answer(0, 0, 0, b"ERROR: bad value\nERROR: not later than 20\n", (1, 3))
        self.assertEqual(self.outcome(refused),
                         Outcome(refused=((b"10:1", "bad value"), (b"30:3", "not later than 20"))))
        for fault, number, text in ((CANNOT_OPEN, 0, "cannot open"), (NO_MEMORY, 0, "out of memory"),
                                    (CANNOT_OPEN, errno.EAGAIN, "cannot open: another program holds its lock")):
            self.assertEqual(self.outcome(Answer(fault, number, 0, text.partition(": ")[0].encode())), Outcome(again=text))
        for fault, number, text in ((CANNOT_WRITE, 0, "cannot write"), (20, 0, "file: not ours"),
                                    (CANNOT_WRITE, errno.ENOSPC, "cannot write: no space left on device")):
            self.assertEqual(self.outcome(Answer(fault, number, 0, text.partition(": no ")[0].encode())), Outcome(lost=text))

    def program(self) -> str:
        """Returns the program of the chosen writer; the empty text for the library."""
        choice.loaded_library.cache_clear()
        chosen = choice.chosen()
        return chosen.program if isinstance(chosen, ByProgram) else ""

    def test_the_choice(self) -> None:
        self.addCleanup(choice.loaded_library.cache_clear)
        with mock.patch.dict(os.environ, {"RRDI": "/x/rrdi"}):
            self.assertEqual(self.program(), "/x/rrdi")
        with mock.patch.dict(os.environ, {"RRDI": ""}):
            with mock.patch.object(library, "library_path", return_value=None):
                self.assertEqual(self.program(), "rrdi")
            with mock.patch.object(library, "library_path", return_value="/nowhere/librrdi.so.0"):
                for error in (OSError(), NoLibrary("none")):
                    with mock.patch.object(library, "load_library", side_effect=error):
                        self.assertEqual(self.program(), "rrdi")
                with mock.patch.object(library, "load_library", return_value=FakeLibrary(Answer(0, 0, 0, b""))):
                    self.assertEqual(self.program(), "")
                    del os.environ["RRDI"]
                    self.assertEqual(self.program(), "")

    def of_files(self, writer: BatchWriter) -> None:
        """Both writers do the same to files."""
        file = new_folder(self) / "f.rrdi"
        use_library(self, doubles.Program() if isinstance(writer.rrdi, ByProgram) else None)
        with mock.patch("rrdi.environment.WAIT", 0):
            name = os.fsencode(file)
            self.assertEqual(writer.write(name, [b"10:1"]), Outcome(refused=((b"10:1", "no database"),)))
            rrdi.create(file, "DS:g:GAUGE:99:U:U", "RRA:LAST:0:1:9", step=10, start=0)
            wanted = Outcome(refused=((b"10:2", "not later than 10"), (b"x", "unreadable sample 1"),
                                      (b"\xff", "usage")))
            self.assertEqual(writer.write(name, [b"10:1", b"10:2", b"20:2", b"x", b"30:3", b"\xff"]), wanted)
            self.assertEqual((rrdi.last(file), rrdi.info(file).undoable), (30, 3))
            with open(file, "rb") as other:
                import fcntl
                fcntl.flock(other, fcntl.LOCK_EX)
                self.assertEqual(writer.write(name, [b"40:1"]), Outcome(again="cannot open: another program holds its lock"))
            file.write_bytes(b"other")
            self.assertEqual(writer.write(name, [b"40:1"]), Outcome(lost="file: not ours"))
