# SPDX-License-Identifier: MIT OR Apache-2.0
"""Tests of lines and commands that are built from words of others: of the package's calls, of rrdi-feed, of Graphite's and
collectd's writers, and of rrdi-import. A library that keeps what it is given takes the place of rrdi."""
from __future__ import annotations

import contextlib
import io
import math
import os
import types
import unittest
from array import array
from typing import Any, Dict, List, Sequence, Tuple
from unittest import mock

import graphite_doubles as graphite
import rrdi
from cases import DataCase, use_library
from doubles import NothingStaysOpen
from hostile import HOSTILE, LONG, is_one_line
from rrdi import collectd, commands, errors
from rrdi.by_program import ByProgram
from rrdi.escaping import escaped
from rrdi.feeding.feeder import Feeder, FeedOptions
from rrdi.feeding.metrics import MetricFeeder
from rrdi.feeding.rules import BadRule, Names, read_rules
from rrdi.feeding.writers import BatchWriter
from rrdi.graphite import layout
from rrdi.graphite.store import StoreOptions
from rrdi.graphite.store import Store
from rrdi.importing.rounding import raw_value
from rrdi.importing.batch import RrdBatch
from rrdi.importing.dump import RrdArchive, RrdFile, Refusal, RrdSource
from rrdi.library import DONE, Answer
from rrdi.tools import importer
from rrdi.tools.command_line import WrongArguments
from rrdi.tools.conversion import Conversion
from rrdi.words import line_of

NOW = 1_700_000_000


class Keeping(NothingStaysOpen):
    """A library that keeps the calls, and accepts them."""

    def __init__(self) -> None:
        self.commands: List[List[bytes]] = []
        self.lines: List[str] = []
        self.paths: List[bytes] = []

    def run_file(self, path: bytes, words: bytes, now: int, wait: int, syncs: bool) -> Answer:
        self.paths.append(path)
        self.commands.append(words.split(b"\0"))
        with open(path, "wb") as file:
            file.write(b"a database")
        return DONE

    def batch_file(self, path: bytes, lines: bytes, now: int, wait: int, syncs: bool) -> Answer:
        self.paths.append(path)
        self.lines += lines.decode("utf-8", "surrogateescape").split("\n")
        with open(path, "wb") as file:
            file.write(b"a database")
        return DONE

    def batch(self, data: object, lines: bytes, now: int) -> Answer:
        self.lines += lines.decode("utf-8", "surrogateescape").split("\n")
        return DONE._replace(data=b"a database")

    def run(self, data: object, words: bytes, now: int) -> Answer:
        raise AssertionError("no command is run in memory")


class LineCase(DataCase):
    def setUp(self) -> None:
        super().setUp()
        self.keeping = Keeping()
        use_library(self, self.keeping)

    def only_updates(self, most: int, lines: Sequence[str], word: str) -> None:
        """The library was given at most so many lines, each with one update and no option."""
        self.assertLessEqual(len(lines), most, ascii(word[:60]))
        for line in lines:
            self.assertTrue(is_one_line(line, "update"), (ascii(word[:60]), ascii(line[:90])))


class Calls(LineCase):
    """rrdi.words, and what uses it."""

    def test_lines(self) -> None:
        for word in HOSTILE:
            for words in ([word], ["10:1", word], [word, "10:1"]):
                try:
                    line = line_of(["update", *words])
                except errors.Usage:
                    continue
                self.assertEqual(line.split(), ["update", *words], ascii(word[:60]))

    def test_a_database(self) -> None:
        path = str(self.folder / "f.rrdi")
        for word in HOSTILE:
            self.keeping.lines.clear()
            with contextlib.suppress(errors.Usage), rrdi.Database(path, collect=True) as database:
                database.update("10:1", template=word)
            with contextlib.suppress(errors.Usage), rrdi.Database(path, collect=True) as database:
                database.resize(0, "GROW", word)
            self.assertLessEqual(len(self.keeping.lines), 2, ascii(word[:60]))
            for line, words in zip(self.keeping.lines, ([f"--template={word}", "10:1"], ["0", "GROW", word])):
                self.assertIn(line.split(" ")[1:], ([f"--template={word}", "10:1"], ["0", "GROW", word]), words)

    def test_words_of_a_command(self) -> None:
        """Each word stays one word, and a value of a keyword is no option."""
        path = str(self.folder / "f.rrdi")
        for word in HOSTILE:
            self.keeping.commands.clear()
            with contextlib.suppress(errors.Usage):
                rrdi.update(path, "10:1", template=word)
            with contextlib.suppress(errors.Usage):
                rrdi.tune(path, word)
            for found in self.keeping.commands:
                self.assertIn(found, ([b"update", b"--template=" + word.encode(), b"10:1"], [b"tune", word.encode()]))

    def test_lines_of_a_batch(self) -> None:
        for word in HOSTILE:
            self.keeping.lines.clear()
            with contextlib.suppress(errors.Usage):
                commands.batch(str(self.folder / "f.rrdi"), ["update 10:1", f"update {word}", "last"])
            self.assertIn(len(self.keeping.lines), (0, 3), ascii(word[:60]))

    def test_paths(self) -> None:
        """A path is no word: it may have anything but a zero byte."""
        for word in HOSTILE:
            self.keeping.paths.clear()
            with contextlib.suppress(ValueError, OSError):
                rrdi.last(os.path.join(self.folder, word))
            for path in self.keeping.paths:
                self.assertEqual(path, os.fsencode(os.path.join(self.folder, word)))
                self.assertNotIn(b"\0", path)


class Feeding(LineCase):
    """rrdi-feed. Its input is bytes, in which white space parts words."""

    def fed(self, feeder: Feeder, line: bytes) -> None:
        with contextlib.redirect_stderr(io.StringIO()) as said:
            feeder.take_data(line + b"\n")
            feeder.end()
            feeder.finish()
        # A message has no line that the input made.
        self.assertTrue(all(text.startswith("rrdi-feed: ") for text in said.getvalue().splitlines()), line)

    def test_samples(self) -> None:
        file = os.fsencode(self.folder / "f.rrdi")
        for word in HOSTILE:
            for before in (b"", file + b" 1:1\n"):  # the second line of a file takes another way
                self.keeping.lines.clear()
                given = word.encode("utf-8", "surrogateescape")
                self.fed(Feeder(FeedOptions(), BatchWriter(self.keeping)), before + file + b" " + given)
                for line in self.keeping.lines:
                    words = line.split(" ")
                    self.assertEqual((words[0], len(words)), ("update", 2), ascii(word[:60]))
                    self.assertFalse(words[1].startswith("-") or set(words[1]) & set("\n\r\t"), ascii(line[:90]))

    def test_files(self) -> None:
        for word in (word for word in HOSTILE if "\n" not in word):  # which would begin another line of the input
            self.keeping.paths.clear()
            self.fed(Feeder(FeedOptions(), BatchWriter(self.keeping)),
                     os.fsencode(self.folder) + b"/" + word.encode("utf-8", "surrogateescape")[:200] + b" 10:1")
            for path in self.keeping.paths:
                self.assertTrue(path.startswith(os.fsencode(self.folder)) and not path.startswith(b"-"))
                self.assertFalse(set(path) & set(b"\0\n\r\t "), path[:90])

    def test_metrics(self) -> None:
        rules = read_rules("** **.rrdi --step 10 DS:v:GAUGE:60:U:U RRA:AVERAGE:0.5:1:9")
        for word in HOSTILE:
            given = word.encode("utf-8", "surrogateescape")
            for line in (given + b" 1 10", b"a " + given + b" 10", b"a 1 " + given):
                self.keeping.lines.clear()
                self.keeping.commands.clear()
                names = Names(os.fsencode(self.folder), rules)
                self.fed(MetricFeeder(FeedOptions(), BatchWriter(self.keeping), names), line)
                self.only_updates(1, self.keeping.lines, word)
                for found in self.keeping.commands:
                    self.assertEqual([found[0], *found[3:]], [b"create", b"--step", b"10", b"DS:v:GAUGE:60:U:U",
                                                              b"RRA:AVERAGE:0.5:1:9"])

    def test_arguments_of_rules(self) -> None:
        """A word of a rule is a word of create, or the rule is refused; nothing fails for the word."""
        for word in HOSTILE:
            self.keeping.commands.clear()
            try:
                rule, = read_rules(f"a b DS:v:GAUGE:60:U:U x{word}x")
            except (BadRule, ValueError):
                continue
            file = os.fsencode(self.folder / "f.rrdi")
            BatchWriter(self.keeping).create(file, rule.arguments)
            BatchWriter(ByProgram("/bin/true")).create(file, rule.arguments)
            self.assertEqual([[part.decode() for part in found] for found in self.keeping.commands],
                             [["create", *rule.arguments]])
            self.assertTrue(all(part.isprintable() for part in rule.arguments), ascii(word[:60]))


class Carbon(LineCase):
    def store(self) -> Store:
        return Store(StoreOptions(str(self.folder)), mock.Mock(), lambda: NOW + 100)

    def test_metrics(self) -> None:
        for word in HOSTILE:
            for metric in (word, f"a.{word}.b", f"{word};tag=1", f"a;tag={word}"):
                self.keeping.lines.clear()
                store = self.store()
                store.create(metric, layout.template([(10, 60)], 0.5, "average", 16))
                store.write(metric, [(NOW, 1.0)])
                self.assertIn(self.keeping.lines[1:], ([], [f"update {NOW + 10}:1.000000"]))
                self.assertIn(self.keeping.lines[:1], ([], [
                    f"create --start {NOW} --step 10 --journal 16 DS:average:GAUGE:10:U:U RRA:AVERAGE:0.500000:1:60"]))
        self.assertEqual([name for name in self.files() if not name.startswith("data/")], [])

    def test_methods(self) -> None:
        for word in filter(None, HOSTILE):  # no method is the usual one
            with self.assertRaises((KeyError, ValueError)):
                layout.template([(10, 60)], 0.5, word, 16)

    def test_values(self) -> None:
        store = self.store()
        store.create("m", layout.template([(10, 60)], 0.5, "average", 16))
        store.write("m", [(NOW + 10 * number, value) for number, value in enumerate((math.nan, math.inf, -0.0, 1e17, -1e-9))])
        self.only_updates(3, self.keeping.lines[1:], "values")


class Collectd(LineCase):
    def setUp(self) -> None:
        super().setUp()
        self.collectd = graphite.Collectd()
        self.writer = collectd.Plugin(self.collectd, lambda: 0.0)
        self.writer.options.datadir = str(self.folder)

    def values(self, **more: Any) -> Any:
        usual = {"host": "h", "plugin": "p", "plugin_instance": "", "type": "derive", "type_instance": "", "time": NOW,
                 "interval": 10.0, "values": [1]}
        return types.SimpleNamespace(**{**usual, **more})

    def written(self, values: Any) -> Tuple[List[str], List[str]]:
        """The lines that create a file, and the others."""
        self.keeping.lines.clear()
        self.writer.write(values)
        self.writer.flush(0)
        begin = [line for line in self.keeping.lines if line.startswith("create ")]
        return begin, [line for line in self.keeping.lines if line not in begin]

    def test_identifiers(self) -> None:
        for word in HOSTILE:
            for name in ("host", "plugin", "plugin_instance", "type_instance"):
                self.collectd.lines.clear()
                begin, lines = self.written(self.values(**{name: word}))
                self.writer.write(self.values(**{name: word, "time": -1.0}))  # a message has the name
                self.assertTrue(all(escaped(text) == text for text in self.collectd.lines), ascii(word[:60]))
                self.only_updates(1, lines, word)
                for line in begin:
                    self.assertRegex(line, rf"^create --step 10 --start {NOW - 1} --journal 16 DS:value:DERIVE:20:0.000000:U RRA:")
        self.assertEqual([name for name in self.files() if not name.startswith("data/")], [])

    def test_names_of_sources(self) -> None:
        """collectd's data sets name the sources of a file."""
        for number, word in enumerate(HOSTILE):
            with mock.patch.dict(self.collectd.DATASETS, {word: [(word, "gauge", 0.0, math.nan)]}):
                begin, lines = self.written(self.values(type=word, host=f"h{number}"))
            self.only_updates(1, lines, word)
            for line in begin:
                self.assertTrue(line.isascii() and line.isprintable() and line.split(" ")[7].startswith(f"DS:{word}:"), word)

    def test_options(self) -> None:
        for word in HOSTILE:
            for name in ("StepSize", "HeartBeat", "RRARows", "XFF", "Journal", "CacheTimeout", word):
                with contextlib.suppress(ValueError):
                    self.writer.options.set(name, word)
        begin, _ = self.written(self.values())
        self.assertRegex(begin[0], rf"^create --step 10 --start {NOW - 1} --journal 16 DS:value:DERIVE:20:0.000000:U RRA:")


class Importing(unittest.TestCase):
    def old(self, **more: Any) -> RrdFile:
        usual: Dict[str, Any] = {"column": 0, "name": "g", "kind": "COUNTER", "heartbeat": 20, "minimum": math.nan, "maximum": math.nan,
                 "last_raw": "5", "partial_sum": 0.0, "unknown_seconds": 0}
        archive = RrdArchive(0, more.pop("function", "AVERAGE"), 1, 0.5, [math.nan], [0], array("d", [1.0, 2.0]), 1)
        return RrdFile(10, NOW, [RrdSource(**{**usual, **more})], [archive])

    def test_texts_of_the_file(self) -> None:
        for word in HOSTILE:
            for name in ("name", "kind", "last_raw", "function"):
                try:
                    lines = list(RrdBatch(self.old(**{name: word}), None, lambda text: None).noted_lines())
                except Refusal:
                    continue
                self.assertEqual([line.split(" ")[0] for line in lines][:1], ["create"])
                self.assertLessEqual(len(lines), 4, ascii(word[:60]))
                for line in lines:
                    self.assertTrue(line.isascii() and line.isprintable(), ascii(line[:90]))

    def test_raw_values(self) -> None:
        for word in (*HOSTILE, "5\n", "٣", "-", "--5", "1" * 100_000):
            for kind in ("COUNTER", "DERIVE"):
                self.assertIsNone(raw_value(kind, word), ascii(word[:60]))

    def test_arguments(self) -> None:
        for word in (*HOSTILE, "1" * 5_000):
            with self.assertRaises(WrongArguments):
                importer.read_arguments(["--journal", word, "old.rrd"])

    def test_messages(self) -> None:
        """What is printed of a file's texts is one line."""
        for word in HOSTILE:
            conversion = Conversion("old.rrd", None)
            conversion.note(f"skipped data source {word}")
            note, = conversion.notes
            self.assertTrue(escaped(note) == note and len(note) < len(LONG), ascii(word[:60]))
