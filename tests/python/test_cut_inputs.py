# SPDX-License-Identifier: MIT OR Apache-2.0
"""Tests of inputs that end in the middle: after each of their bytes, what is read is what is there, or an error; never a
part that is taken for the whole."""
from __future__ import annotations

import contextlib
import io
import os
import unittest
import xml.etree.ElementTree as ElementTree
from pathlib import Path
from typing import Callable, Dict, Iterator, List, Tuple
from unittest import mock

import graphite_doubles as graphite
from cases import DataCase, use_any_library
from rrdi import collectd
from rrdi.by_program import ByProgram, NoAnswer
from rrdi.errors import Damaged
from rrdi.feeding.feeder import Feeder, FeedOptions
from rrdi.feeding.metrics import MetricFeeder
from rrdi.feeding.rules import EACH_NAME, BadRule, Names, read_rules
from rrdi.importing.dump import Refusal, read_dump, read_rrd
from rrdi.importing.whisper import read_whisper
from rrdi.reader.selected import OpenFile
from rrdi.tools import machine
from rrdi.tools.command_line import Failure
from tool_case import ToolCase

import test_collectd
import test_feeding
import test_graphite_whisper
import test_importing

NOW = 1_700_000_400
DUMP = test_importing.Dumps.TEXT


def cuts(text: bytes) -> Iterator[bytes]:
    """Yields all beginnings of an input except the whole."""
    return (text[:length] for length in range(len(text)))


class Dumped(ToolCase):
    """What `rrdtool dump` prints."""

    def test_the_text(self) -> None:
        for part in cuts(DUMP):
            with self.assertRaises((ElementTree.ParseError, Refusal), msg=part[-40:]):
                read_dump(io.BytesIO(part))
        self.assertEqual(read_dump(io.BytesIO(DUMP)).last, 1_600_000_033)

    def test_rrdtool_ends_early(self) -> None:
        """Neither half an output counts, whatever the status, nor a whole one of a run that failed."""
        whole = self.write("dump", DUMP)
        for end in ("exit 0", "exit 1", "kill -9 $$"):
            for count in (0, 400, len(DUMP) - 1, len(DUMP)):
                rrdtool = self.stub("rrdtool", f"[ $1 = dump ] || exec echo 1600000033\nhead -c {count} {whole}\n{end}")
                if (end, count) == ("exit 0", len(DUMP)):
                    self.assertEqual(read_rrd(rrdtool, "old.rrd").step, 10)
                    continue
                with self.assertRaisesRegex(Refusal, "^rrdtool did not read the file to its end$", msg=(end, count)):
                    read_rrd(rrdtool, "old.rrd")

    def test_rrdtool_does_not_end(self) -> None:
        """It prints as many rows, and as long a history of failures, as a damaged file says."""
        begun = self.write("begun", DUMP[:DUMP.index(b"<row>")])
        for more in ("<row><v>1</v><v>2</v></row>", "101"):
            rrdtool = self.stub("rrdtool", f"cat {begun}\nexec yes '{more}'")
            with self.assertRaisesRegex(Refusal, "^rrdtool prints more than the file has$"):
                read_rrd(rrdtool, begun)

    def test_what_is_no_number(self) -> None:
        """A text of the file may have a tag in it."""
        with self.assertRaisesRegex(Refusal, "^what rrdtool prints of the file has something else than a number$"):
            read_rrd(self.stub("rrdtool", "echo '<rrd><step>x</step></rrd>'"), "old.rrd")


class OfWhisper(DataCase):
    def test_files(self) -> None:
        path = self.folder / "m.wsp"
        data = test_graphite_whisper.whisper_bytes([(10, 12, {NOW + 10 * at: float(at) for at in range(12)}), (60, 10, {NOW: 1.0, NOW - 60: 2.0})])
        for part in cuts(data):
            path.write_bytes(part)
            with self.assertRaisesRegex(Refusal, "no file of whisper|shorter than its header says", msg=len(part)):
                read_whisper(str(path))
        path.write_bytes(data)
        self.assertEqual([len(archive.values) for archive in read_whisper(str(path)).archives], [12, 2])


class Selected(DataCase):
    """Parts of a database's file: each is that of the whole file, or an error."""

    PARTS: List[Tuple[str, Callable[[OpenFile], object]]] = [
        ("front", lambda file: file.front), ("outline", lambda file: file.outline()), ("settings", lambda file: file.settings()),
        ("fine rows", lambda file: file.rows(file.outline().archives[0], NOW - 200, NOW)),
        ("coarse rows", lambda file: file.rows(file.outline().archives[-1], NOW - 600, NOW)),
        ("one row", lambda file: file.rows(file.outline().archives[0], NOW - 20, NOW - 20)),
        ("times", lambda file: list(file.times_before()))]

    def read(self, path: Path) -> Dict[str, object]:
        """The parts that can be read."""
        found: Dict[str, object] = {}
        for name, part in self.PARTS:
            with contextlib.suppress(Damaged), OpenFile(str(path)) as file:
                found[name] = part(file)
        return found

    def check(self, archives: int, count: int) -> None:
        path = self.folder / "m.rrdi"
        entries = [graphite.update_entry(NOW - 10 * at, archives) for at in range(1, count + 1)]
        both = [(1, 6, {NOW - 10 * at: [float(at)] for at in range(6)}), (6, 4, {NOW - 60: [7.0]})]
        data = graphite.file_bytes(NOW, archives=both[:archives], entries=b"".join(entries), count=count)
        path.write_bytes(data)
        whole = self.read(path)
        self.assertEqual(whole.keys(), {name for name, _ in self.PARTS})
        self.assertEqual(whole["times"], [NOW - 10 * at for at in range(1, count + 1)])
        for part in cuts(data):
            path.write_bytes(part)
            for name, found in self.read(path).items():
                self.assertEqual(found, whole[name], (name, len(part)))
                # The times of all entries end where the file does.
                self.assertNotEqual(name, "times", len(part))

    def test_files(self) -> None:
        for archives in (1, 2):
            for count in (0, 1, 3):
                self.check(archives, count)


class Lines(unittest.TestCase):
    """The lines of rrdi-feed. The last one may lack its end, so its words count as far as they are there."""

    def held(self, feeder: Feeder, *pieces: bytes) -> Dict[bytes, List[bytes]]:
        self.addCleanup(feeder.threads.shutdown)
        with contextlib.redirect_stderr(io.StringIO()) as said:
            for piece in (*filter(None, pieces), b""):
                feeder.take_data(piece)
        self.said = said.getvalue()
        return feeder.held

    def test_samples(self) -> None:
        text = b"a 10:1\nUPDATE b/c 20:2.5 30:U\n\na\t40:-3\r\nd 50:7:8"
        for part in [*cuts(text), text]:
            wanted: Dict[bytes, List[bytes]] = {}
            bad = 0
            for line in part.split(b"\n"):
                words = line.split()[line[:6] == b"UPDATE":]
                if words[1:]:
                    wanted.setdefault(words[0], []).extend(words[1:])
                bad += len(words) == 1
            for at in {0, 1, len(part) // 2, len(part)}:
                self.assertEqual(self.held(Feeder(FeedOptions(), test_feeding.Stub()), part[:at], part[at:]), wanted, part)
                self.assertEqual(self.said.count("expected FILE SAMPLE.., got: "), bad, part)

    def test_metrics(self) -> None:
        """A line of Graphite without its third word is bad, and a word that is cut counts as what it says."""
        text = b"web.load 12.5 1700000400\n\ndb.size -7 1700000410\nweb.load 3e2 1700000420"
        names = Names(b"/d", read_rules(EACH_NAME))
        for part in [*cuts(text), text]:
            wanted: Dict[bytes, List[bytes]] = {}
            bad = 0
            for words in filter(None, map(bytes.split, part.split(b"\n"))):
                if len(words) == 3:
                    file = b"/d/" + words[0] + b".rrdi"
                    wanted.setdefault(file, []).append(b"%d:%.6f" % (int(words[2]), float(words[1])))
                bad += len(words) != 3
            found = self.held(MetricFeeder(FeedOptions(), test_feeding.Stub(), names), part)
            self.assertEqual({file: [numbers(sample) for sample in samples] for file, samples in found.items()},
                             {file: [numbers(sample) for sample in samples] for file, samples in wanted.items()}, part)
            self.assertEqual(self.said.count("expected NAME VALUE TIME, got: "), bad, part)

    def test_rules(self) -> None:
        """The last rule may lack its end; a rule that is cut is another rule, or none."""
        text = b"web.** web/*.rrdi\n# a note\ndb.* db.rrdi DS:g:GAUGE:60:U:U RRA:LAST:0.5:1:9"
        for part in [*cuts(text), text]:
            lines = [line.split() for line in part.decode().split("\n") if line.strip() and not line.startswith("#")]
            with contextlib.suppress(BadRule):
                rules = read_rules(part.decode())
                self.assertEqual([list(rule.arguments) for rule in rules], [line[2:] for line in lines], part)


def numbers(sample: bytes) -> Tuple[int, float]:
    when, value = sample.split(b":")
    return int(when), float(value)


class OfCollectd(DataCase):
    """Value lists with fewer values than their type has sources, or more."""

    def test_value_lists(self) -> None:
        use_any_library(self)
        for first in ((1.0, 2.0, 3.0), (1.0, 2.0)):
            host = graphite.Collectd()
            writer = collectd.Plugin(host)
            writer.options.datadir = str(self.folder / f"{len(first)} values")
            for at, amounts in enumerate((first, (1.0, 2.0, 3.0), (1.0,), (), (1.0, 2.0, 3.0, 4.0), (4.0, 5.0, 6.0))):
                writer.write(test_collectd.values(NOW + 10 * at, *amounts))
            writer.end()
            taken = 3 if len(first) == 3 else 2
            self.assertEqual((writer.counts["taken"], writer.counts["lost"]), (taken, 6 - taken), host.lines)
            self.assertIn(f"{6 - taken} samples lost: the first: update {NOW + (20 if taken == 3 else 0)}:", host.lines[0])


class OfMachines(ToolCase):
    """Files of /proc: numbers as they are, or a failure."""

    def numbers(self, ask: Callable[[], List[machine.Number]]) -> List[str]:
        with contextlib.suppress(Failure), mock.patch.dict(os.environ, {"RRDI_PROC": str(self.folder)}):
            return [number.value for number in ask()]
        return []

    def test_memory(self) -> None:
        text = b"".join(b"%s: %d kB\n" % (name, 111 * at) for at, name in enumerate(
            (b"MemTotal", b"MemFree", b"Buffers", b"Cached", b"SwapTotal", b"SwapFree", b"SReclaimable"), 3))
        self.write("meminfo", text)
        whole = self.numbers(machine.memory)
        self.assertEqual(len(whole), 4)
        self.write("meminfo", text[:text.index(b"SReclaimable")])
        short = self.numbers(machine.memory)
        for part in cuts(text):
            self.write("meminfo", part)
            self.assertIn(self.numbers(machine.memory), ([], whole, short), part)

    def test_the_load(self) -> None:
        for text, count in (("0.42 0.35 0.37 1/200 999\n", 3), ("0.42 0.35", 0), ("0.42 0.35 ", 0), ("0.42", 0), ("", 0)):
            self.write("loadavg", text)
            self.assertEqual(len(self.numbers(machine.load)), count, text)


class Answers(ToolCase):
    """A program in the place of the library that is killed while it prints: what it has printed is no answer."""

    def test_outputs(self) -> None:
        whole = b"time: g\n10: 1.000000\n20: 12.500000\n"
        printed = self.write("printed", whole)
        for count in (0, 1, 8, 12, len(whole) - 1, len(whole)):
            program = ByProgram(self.stub("killed", f"cat >/dev/null; head -c {count} {printed}; kill -9 $$"))
            with self.assertRaises(NoAnswer, msg=count):
                program.run_file(b"f", b"fetch\0LAST", NOW, 0, False)
            with self.assertRaises(NoAnswer, msg=count):
                program.batch_file(b"f", b"fetch LAST", NOW, 0, False)
