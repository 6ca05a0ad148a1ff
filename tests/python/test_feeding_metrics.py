# SPDX-License-Identifier: MIT OR Apache-2.0
"""Tests of `rrdi.feeding.metrics`: rules, names, numbers, and files that are created."""
from __future__ import annotations

import os
import random
import time
import unittest
from pathlib import Path
from typing import List, Sequence, Tuple
from unittest import mock

from cases import new_folder
from tool_case import EachWriter, finished, taken

from rrdi.by_program import ByProgram
from rrdi.feeding.feeder import FeedOptions
from rrdi.feeding.metrics import Creating, MetricFeeder, as_sample, with_start
from rrdi.feeding.rules import EACH_NAME, BadLine, BadRule, Names, read_rules
from rrdi.feeding.writers import BatchWriter, Outcome, Writer
from rrdi.making import NewFile

ARGUMENTS = "--step 10 DS:v:GAUGE:60:U:U RRA:AVERAGE:0.5:1:9"


class Stub:
    """A writer that keeps batches in memory, and creates empty files."""

    def __init__(self, reason: str = "") -> None:
        self.batches: List[Tuple[bytes, List[bytes]]] = []
        self.created: List[Tuple[str, ...]] = []
        self.reason = reason

    def write(self, file: bytes, samples: List[bytes]) -> Outcome:
        self.batches.append((file, samples))
        return Outcome()

    def create(self, file: bytes, arguments: Sequence[str]) -> str:
        self.created.append(tuple(arguments))
        Path(os.fsdecode(file)).write_bytes(b"new")
        return self.reason


class Rules(unittest.TestCase):
    def file(self, rules: str, name: str) -> str:
        return os.fsdecode(Names(b"/d", read_rules(rules)).target(os.fsencode(name)).file)

    def refusal(self, rules: str, name: "str | bytes") -> str:
        with self.assertRaises(BadLine) as found:
            Names(b"/d", read_rules(rules)).target(name if isinstance(name, bytes) else name.encode())
        return str(found.exception)

    def test_files_of_names(self) -> None:
        for rules, name, file in (
                (EACH_NAME, "a", "a.rrdi"), (EACH_NAME, "a.b-c.d", "a.b-c.d.rrdi"),
                (EACH_NAME, "disk.used;dc=x;server=w", "disk.used;dc=x;server=w.rrdi"), (EACH_NAME, "ü.ö", "ü.ö.rrdi"),
                ("a.*.c */c.rrdi", "a.b.c", "b/c.rrdi"), ("*.*.c */x-*.rrdi", "a.b.c", "a/x-b.rrdi"),
                ("s*.cpu *.rrdi", "s12.cpu", "12.rrdi"), ("a.** **", "a.b.c", "b.c"), ("**.*.x */**", "a.b.c.x", "a.b/c"),
                ("a+b one", "a+b", "one"), ("a.b one\n** **.rrdi", "a.b", "one"), ("a.b one\n** **.rrdi", "a.c", "a.c.rrdi"),
                ("# a\n\n  # b\n** **\n", "x", "x")):
            self.assertEqual(self.file(rules, name), f"/d/{file}", (rules, name))

    def test_names_without_a_file(self) -> None:
        for rules, name in (("a.* *", "a.b.c"), ("a.* *", "b.c"), ("*.c *", "a.b.c"), ("a.c x", "a-c"), ("a x", "ab"),
                            ("a.** **", "a"), ("** **", "")):
            reason = self.refusal(rules, name)
            self.assertIn(reason, ("no rule has this name", "the name must be parts without slashes, and a point between them"))

    def test_names_that_lead_elsewhere(self) -> None:
        for name in (b"..", b".", b"a/b", b"/etc/passwd", b"../x", b"a..b", b".a", b"a.", b"a.../../b", b"a\0b", b"a\nb",
                     b"a\x7f", b"a\tb", b"a b", b"/", b""):
            self.assertEqual(self.refusal(EACH_NAME, name),
                             "the name must be parts without slashes, and a point between them", name)
        self.assertEqual(self.refusal("a**b .**/x", "a.b"), "the file of this name is not below the directory")
        self.assertEqual(self.refusal("a**b x/**/y", "a.b"), "the file of this name is not below the directory")

    def test_long_names(self) -> None:
        self.assertEqual(len(self.file(EACH_NAME, "a" * 250)), 258)
        for name in ("a" * 251, "ü" * 126, "a" * 300, "a.b" * 100):
            self.assertEqual(self.refusal(EACH_NAME, name), "the file of this name has too long a name")
        self.assertEqual(self.refusal("** x/**/y", "a" * 256), "the file of this name has too long a name")
        self.assertEqual(self.refusal(EACH_NAME, "a" * 1_025), "the name has over 1024 bytes")
        longest, rule = ".".join(["x" * 204] * 5), "*.*.*.*.* */*/*/*/*.rrdi"
        self.assertEqual(self.file(rule, longest), f"/d/{longest.replace('.', '/')}.rrdi")
        self.assertEqual(self.refusal(rule, longest + "x"), "the name has over 1024 bytes")
        self.assertEqual(self.refusal("** " + "x/" * 1_950 + "**", "a" * 240), "the file of this name has too long a name")

    def test_bad_rules(self) -> None:
        for rules, reason in (
                ("a", "line 1: expected NAME FILE [ARGUMENTS OF create..]"),
                ("a b\n** x", "line 2: NAME and FILE have different numbers of stars"),
                ("a *", "line 1: NAME and FILE have different numbers of stars"),
                ("**.** **-**", "line 1: a NAME has at most one **"),
                ("*** ***", "line 1: a NAME has at most one **"),
                *((f"a {file}", f"line 1: FILE must be a path below the directory, not {file}")
                  for file in ("/x", "../x", "x/../../y", "./x", "x//y", "x/", "..")),
                ("a b --step 10", "line 1: a FILE has one data source: give one DS:.."),
                ("a b DS:a:GAUGE:9:U:U DS:b:GAUGE:9:U:U", "line 1: a FILE has one data source: give one DS:..")):
            with self.assertRaises(BadRule) as found:
                read_rules(rules)
            self.assertEqual(str(found.exception), reason, rules)

    def test_any_name_stays_below(self) -> None:
        """Random names and rules: each file is below the directory, or the name is refused."""
        chance = random.Random(49)
        letters, kept = ["a", "b", ".", "..", "/", "*", "-", "ü", "\0", " ", "a" * 300, "\\"], 0
        rules = ["** **", "** **.rrdi", "** x/**/y", "*.* */*", "a** **", "**b **/b", "*a*.** */*-**", "a**b .**/x"]
        for _ in range(20_000):
            name = "".join(chance.choice(letters) for _ in range(chance.randrange(1, 9))).encode()
            try:
                target = Names(b"/d", read_rules(chance.choice(rules))).target(name)
            except BadLine:
                continue
            kept += 1
            path = os.path.normpath(target.file)
            self.assertTrue(path.startswith(b"/d/") and path == target.file and b"\0" not in path, name)
            self.assertTrue(all(len(part) < 256 for part in path.split(b"/")), name)
        self.assertGreater(kept, 1_000)

    def test_names_are_kept(self) -> None:
        names = Names(b"/d", read_rules(f"** ** {ARGUMENTS}"))
        names.MOST_KEPT = 2
        for name in (b"a", b"b", b"a", b"c", b"a"):
            self.assertEqual(names.target(name).file, b"/d/" + name)
        self.assertEqual((len(names.kept), names.target(b"a").arguments), (2, tuple(ARGUMENTS.split())))


class Lines(unittest.TestCase):
    def taken(self, text: bytes, rules: str = EACH_NAME) -> Tuple[MetricFeeder, str]:
        feeder = MetricFeeder(FeedOptions(), Stub(), Names(b"/d", read_rules(rules)))
        self.addCleanup(feeder.threads.shutdown)
        return feeder, taken(feeder, text)

    def test_samples(self) -> None:
        for value, moment, sample in ((b"1", b"10", b"10:1"), (b"-0.5", b"10.9", b"10:-0.5"), (b"1e3", b"10.", b"10:1000"),
                                      (b"1.23456789", b"10", b"10:1.234568"), (b"2.5E-05", b"007", b"7:0.000025"),
                                      (b"nan", b"1", b"1:U"), (b"-NaN", b"1", b"1:U"), (b"U", b"1", b"1:U"),
                                      (b"+5", b"1", b"1:5"), (b".5", b"1", b"1:0.5"), (b"5.", b"1", b"1:5"),
                                      (b"0." + b"1" * 1_022, b"0" * 1_023 + b"7", b"7:0.111111")):
            self.assertEqual(as_sample(value, moment), sample)
        for value, moment, reason in (
                (b"x", b"1", "the value must be a number"), (b"inf", b"1", "the value must be a number"),
                (b"1:2", b"1", "the value must be a number"), (b"0." + b"1" * 1_023, b"1", "the value must be a number"),
                ("٣".encode(), b"1", "the value must be a number"), (b"0x10", b"1", "the value must be a number"),
                (b"1e9999", b"1", "the value must be a number"),
                *((b"1", moment, "the time must be seconds since 1970")
                  for moment in (b"-2", b"x", b"1e9", b"1:2", b"+1", "٣".encode(), b"0" * 1_024 + b"7")),
                (b"1", b"%d" % (time.time() + 90_000), "the time is over a day ahead"),
                (b"1", b"1700000000000", "the time is over a day ahead")):
            with self.assertRaises(BadLine) as found:
                as_sample(value, moment)
            self.assertEqual(str(found.exception), reason, (value, moment))

    def test_now(self) -> None:
        for moment in (b"N", b"-1"):
            before = int(time.time())
            found = int(as_sample(b"1", moment).split(b":")[0])
            self.assertTrue(before <= found <= time.time())

    def test_lines(self) -> None:
        feeder, said = self.taken(b"a.b 1 10\n\nc 5 10\r\n  a.b\t2  20 \nc 6 20")
        self.assertEqual(feeder.held, {b"/d/a.b.rrdi": [b"10:1", b"20:2"], b"/d/c.rrdi": [b"10:5", b"20:6"]})
        self.assertEqual((feeder.count, said, feeder.has_failed), (4, "", False))

    def test_bad_lines(self) -> None:
        """Each bad line is reported with the line itself, and counted; the lines beside them are kept."""
        bad = ["a 1", "a 1 10 7", "UPDATE a 10:1", "a x 10", "a 1 x", "../a 1 10", "/etc/x 1 10", ".. 1 10", "a" * 300 + " 1 10"]
        text = "".join(f"good {at} {10 + at}\n{line}\n" for at, line in enumerate(bad)) + "good 9 30"
        feeder, said = self.taken(text.encode())
        self.assertEqual(feeder.held, {b"/d/good.rrdi": [*(b"%d:%d" % (10 + at, at) for at in range(len(bad))), b"30:9"]})
        lines = said.splitlines()
        self.assertEqual([line.partition(", got: ")[2] for line in lines], bad)
        self.assertTrue(all(line.startswith("rrdi-feed: ") for line in lines))
        self.assertEqual(lines[:2], [f"rrdi-feed: expected NAME VALUE TIME, got: {line}" for line in bad[:2]])
        self.assertEqual((finished(feeder), feeder.bad_lines), ("rrdi-feed: bad lines: 9\n", 9))
        self.assertTrue(feeder.has_failed)

    def test_any_bytes(self) -> None:
        """Random bytes are samples or bad lines; nothing else happens, and no line is in two of them."""
        chance = random.Random(7)
        for _ in range(300):
            text = bytes(chance.choice(b"a1 .\t\0\xff/:-e\r") for _ in range(chance.randrange(60)))
            feeder, said = self.taken(text + b"\nok 1 10")
            self.assertEqual(feeder.bad_lines, len(said.splitlines()), text)
            self.assertEqual(feeder.count + feeder.bad_lines, 1 + bool(text.split()), text)


class New(EachWriter, unittest.TestCase):
    """Files that are created."""

    def setUp(self) -> None:
        self.folder = os.fsencode(new_folder(self))

    def names(self) -> List[str]:
        return sorted(os.fsdecode(os.path.relpath(os.path.join(root, name), self.folder))
                      for root, _, names in os.walk(self.folder) for name in names)

    def fed(self, text: bytes, rules: str, writer: Writer, **options: int) -> Tuple[MetricFeeder, str]:
        feeder = MetricFeeder(FeedOptions(**options), writer, Names(self.folder, read_rules(rules)))
        said = taken(feeder, text) + finished(feeder)
        return feeder, said

    def test_the_start(self) -> None:
        arguments = ["--step", "10", "DS:b:GAUGE:9:U:U"]
        self.assertEqual(with_start(arguments, b"20:1"), ["--start", "10", *arguments])
        self.assertEqual(with_start(arguments, b"9:1"), ["--start", "0", *arguments])
        steps: List[Tuple[List[str], int]] = [(["--step=60"], 940), (["-s", "60"], 940), (["-s60"], 940), ([], 700), (["--step", "x"], 700),
                                              (["DS:s-s5:GAUGE:9:U:U"], 700)]
        for step, begin in steps:
            self.assertEqual(with_start(step, b"1000:1"), ["--start", str(begin), *step])
        for start in (["-b", "5"], ["--start", "5"], ["--start=5"], ["-b5"]):
            self.assertEqual(with_start([*start, *arguments], b"20:1"), [*start, *arguments])

    def test_a_file_is_created_once(self) -> None:
        writer = Stub()
        rules = f"*.b */b.rrdi {ARGUMENTS}\n** **.rrdi"
        feeder, said = self.fed(b"x.b 1 20\nother 1 20\nx.b 2 30", rules, writer)
        self.assertEqual((said, self.names()), ("", ["x/b.rrdi"]))
        self.assertEqual(writer.created, [("--start", "10", *ARGUMENTS.split())])
        self.assertIn((os.path.join(self.folder, b"x/b.rrdi"), [b"20:1", b"30:2"]), writer.batches)
        self.fed(b"x.b 3 40", rules, writer)
        self.assertEqual(len(writer.created), 1)

    def test_a_file_of_another_program_stays(self) -> None:
        """If another program creates the file in the meantime, its file stays."""
        file = os.path.join(self.folder, b"f")
        writer = Stub()
        creating = Creating(writer)
        Path(os.fsdecode(file)).write_bytes(b"other")
        self.assertEqual(creating.create(file, ARGUMENTS.split()), "")
        self.assertEqual((Path(os.fsdecode(file)).read_bytes(), self.names()), (b"other", ["f"]))
        os.unlink(file)
        os.symlink("/nowhere/f", file)
        creating.arguments[file] = tuple(ARGUMENTS.split())
        self.assertEqual((creating.write(file, [b"20:1"]), os.path.islink(file)), (Outcome(), True))

    def test_a_file_that_is_not_created(self) -> None:
        text, rules = b"f 1 20", f"** x/** {ARGUMENTS}"
        file = os.fsdecode(self.folder) + "/x/f"
        feeder, said = self.fed(text, rules, Stub("cannot write"), patience=0)
        self.assertEqual((said, self.names()), (f"rrdi-feed: {file}: cannot write; 1 samples may be lost\n"
                                                f"rrdi-feed: may be lost: {file} 20:1\n", []))
        os.rmdir(os.path.join(self.folder, b"x"))
        Path(os.fsdecode(self.folder), "x").write_text("")
        _, said = self.fed(text, rules, Stub(), patience=0)
        self.assertIn("cannot create: ", said)

    def test_a_file_that_is_taken_away(self) -> None:
        """Another process has renamed the file meanwhile: the samples are tried again, and the file is made again."""
        writer = Stub()
        gone = Outcome(refused=((b"20:1", "no database"),))
        with mock.patch.object(writer, "write", side_effect=[gone, Outcome()]) as write:
            feeder, said = self.fed(b"f 1 20", f"** x/** {ARGUMENTS}", writer)
        self.assertEqual((write.call_count, said, feeder.has_failed), (2, "", False))

    def test_a_creation_is_tried_again(self) -> None:
        writer = Stub("cannot write")
        with mock.patch.object(writer, "create", side_effect=["cannot write", "cannot write", ""]) as create, \
                mock.patch.object(NewFile, "appear"):
            feeder, said = self.fed(b"f 1 20\nf 2 30", f"** x/** {ARGUMENTS}", writer)
        self.assertEqual((create.call_count, said, feeder.has_failed), (3, "", False))
        self.assertEqual(writer.batches, [(os.path.join(self.folder, b"x/f"), [b"20:1", b"30:2"])])

    def of_files(self, writer: Writer) -> None:
        """Both writers create and fill the same files."""
        _, said = self.fed(b"a.b 1.5 20\na.b 2.5 30\na.b 9 30\nc 1 20", f"a.* */b.rrdi {ARGUMENTS}\nc c {ARGUMENTS}", writer)
        file = os.path.join(self.folder, b"b/b.rrdi")
        self.assertEqual(said, f"rrdi-feed: {os.fsdecode(file)} 30:9: not later than 30\n"
                               "rrdi-feed: 30 is not later than the last update, 30; the next sample may be at 31 or later\n")
        self.assertEqual(self.names(), ["b/b.rrdi", "c"])
        self.assertEqual(writer.write(file, [b"30:1", b"40:1"]), Outcome(refused=((b"30:1", "not later than 30"),)))
        self.assertEqual(writer.create(os.path.join(self.folder, b"none/f"), ARGUMENTS.split()),
                         "cannot write: no such file or directory")
        self.assertEqual(writer.create(os.path.join(self.folder, b"g"), ["DS:a:GAUGE:x:U:U"]), "unreadable definition 1")
        _, said = self.fed(b"none 1 20", EACH_NAME, writer)
        self.assertEqual(said, f"rrdi-feed: {os.fsdecode(self.folder)}/none.rrdi 20:1: no database\n"
                               "rrdi-feed: there is none yet: begin with a create, or check the path of FILE\n")
        self.being_made(writer)

    def being_made(self, writer: Writer) -> None:
        """An empty file that is new may be one that another program has not yet locked and filled."""
        file = os.path.join(self.folder, b"new.rrdi")
        with open(file, "wb"):
            pass
        self.assertEqual(writer.write(file, [b"30:1"]), Outcome(again="file: truncated at 0"))
        os.utime(file, (20, 20))
        self.assertEqual(writer.write(file, [b"30:1"]), Outcome(lost="file: truncated at 0"))


class NoProgram(unittest.TestCase):
    def test_create(self) -> None:
        self.assertEqual(BatchWriter(ByProgram("/nowhere")).create(b"/nowhere/f", ["x"]), "/nowhere: No such file or directory")
        self.assertEqual(BatchWriter(ByProgram("/bin/false")).create(b"/nowhere/f", ["x"]), "/bin/false ended with 1")
        self.assertEqual(BatchWriter(ByProgram("/bin/true")).create(b"/nowhere/f", ["x"]), "")
