# SPDX-License-Identifier: MIT OR Apache-2.0
"""Tests of the writer for collectd, with a double of collectd's module. The rows are those of the library or the program,
if one is there."""
from __future__ import annotations

import importlib
import math
import os
import sys
import threading
import types
from typing import Any, Dict, List, Optional, Tuple
from unittest import mock

import graphite_doubles as graphite
from cases import HANG, DataCase, run_in_threads, use_any_library, use_library
from doubles import Program
from rrdi import collectd, commands, library
from rrdi.library import Answer
from rrdi.reader import read_file

NOW = 1_700_000_000


def values(time: float = NOW, *amounts: float, host: str = "here", plugin: str = "load", plugin_instance: str = "",
           type: str = "load", type_instance: str = "", interval: float = 10.0) -> Any:
    return types.SimpleNamespace(host=host, plugin=plugin, plugin_instance=plugin_instance, type=type,
                                 type_instance=type_instance, time=time, interval=interval, values=list(amounts))


class WriterCase(DataCase):
    def setUp(self) -> None:
        super().setUp()
        self.collectd, self.now = graphite.Collectd(), 0.0
        self.writer = collectd.Plugin(self.collectd, lambda: self.now)
        self.writer.options.datadir = str(self.folder)

    def use(self, chosen: Any) -> Any:
        use_library(self, chosen)
        return chosen


class Making(graphite.KeepingLibrary):
    """A library that makes each file."""

    @property
    def lines(self) -> List[List[str]]:
        return [lines for _, lines in self.batches]


class Definitions(WriterCase):
    def test_names(self) -> None:
        cases: List[Tuple[Dict[str, Any], str]] = [
            ({}, "here/load/load.rrdi"),
            ({"plugin_instance": "0", "type": "cpu", "type_instance": "idle"}, "here/load-0/cpu-idle.rrdi"),
            ({"host": "a/b", "plugin": "c/d"}, "a_b/c_d/load.rrdi"),
            ({"host": "..", "plugin": "."}, "__/_/load.rrdi"), ({"host": ""}, "_/load/load.rrdi"),
            ({"host": "../..", "type": "x\0y"}, ".._../load/x_y.rrdi")]
        for given, path in cases:
            self.assertEqual(collectd.file_of("/d", values(NOW, **given)), f"/d/{path}")
        self.assertIsNone(collectd.file_of("/d", values(NOW, host="x" * 300)))

    def test_archives(self) -> None:
        """As the plugin rrdtool reckons them: the first span has rows of one step."""
        options = collectd.Configuration()
        self.assertEqual([word for word in collectd.archives(options, 10) if "AVERAGE" in word],
                         ["RRA:AVERAGE:0.100000:1:1200", "RRA:AVERAGE:0.100000:7:1235", "RRA:AVERAGE:0.100000:50:1210",
                          "RRA:AVERAGE:0.100000:223:1202", "RRA:AVERAGE:0.100000:2635:1201"])
        self.assertEqual(collectd.archives(options, 1)[:3],
                         ["RRA:AVERAGE:0.100000:1:3600", "RRA:MIN:0.100000:1:3600", "RRA:MAX:0.100000:1:3600"])
        for xff, text in ((0.0, "0.000000"), (0.75, "0.750000"), (0.9, "0.900000"), (0.9999999, "0.999999")):
            options.set("XFF", xff)
            self.assertEqual(collectd.archives(options, 10)[0], f"RRA:AVERAGE:{text}:1:1200")
        for name, value in (("RRARows", 300.0), ("RRATimespan", 3600.0), ("RRATimespan", 86400.0), ("XFF", 0.5)):
            options.set(name, value)
        self.assertEqual(collectd.archives(options, 10)[::3], ["RRA:AVERAGE:0.500000:1:360", "RRA:AVERAGE:0.500000:28:309"])

    def test_definition(self) -> None:
        options, dataset = collectd.Configuration(), graphite.Collectd.DATASETS["load"]
        words = collectd.definition(options, values(), dataset, NOW).split()
        self.assertEqual(words[:7], ["create", "--step", "10", "--start", str(NOW - 1), "--journal", "16"])
        self.assertEqual(words[7], "DS:shortterm:GAUGE:20:0.000000:5000.000000")
        self.assertEqual(len(words), 7 + 3 + 15)
        # collectd counts its intervals in parts of a second.
        for interval, step in ((9.999999, 10), (10.000001, 10), (0.5, 1), (0.1, 1), (1.5, 2), (59.6, 60)):
            words = collectd.definition(options, values(NOW, interval=interval), dataset, NOW).split()
            self.assertEqual((words[2], words[7].split(":")[3]), (str(step), str(2 * step)), interval)
        options.set("StepSize", 60.0)
        options.set("HeartBeat", 600)
        words = collectd.definition(options, values(), graphite.Collectd.DATASETS["derive"], NOW).split()
        self.assertEqual((words[2], words[7]), ("60", "DS:value:DERIVE:600:0.000000:U"))

    def test_values(self) -> None:
        for value, text in ((7, "7"), (2**64 - 1, str(2**64 - 1)), (-5, "-5"), (1.5, "1.500000"), (math.nan, "U"),
                            (math.inf, "U"), (1e18, "U"), (-1e-9, "0")):
            self.assertEqual(collectd.raw_text(value), text)

    def test_options(self) -> None:
        child = types.SimpleNamespace
        self.writer.configure(child(children=[
            child(key="DataDir", values=("/other",)), child(key="CacheTimeout", values=(120.0,)),
            child(key="RRATimespan", values=(3600.0, 86400.0)), child(key="XFF", values=("x",)),
            child(key="None", values=(1.0,)), child(key="set", values=(1.0,)), child(key="RRARows", values=(0.0,)),
            child(key="Journal", values=(-3.0,)), child(key="XFF", values=(1.5,)), child(key="StepSize", values=(math.inf,))]))
        options = self.writer.options
        self.assertEqual((options.datadir, options.cachetimeout, options.rratimespan), ("/other", 120.0, [3600, 86400]))
        self.assertEqual(self.collectd.lines, [
            "rrdi: XFF must be a number, not 'x'", "rrdi: unknown option None", "rrdi: unknown option set",
            "rrdi: RRARows is out of range: 0.0", "rrdi: Journal is out of range: -3.0",
            "rrdi: XFF is out of range: 1.5", "rrdi: StepSize must be a number, not inf"])
        self.assertEqual((options.rrarows, options.journal, options.xff), (1200, 16, 0.1))

    def test_options_of_open_files(self) -> None:
        """They count from the start on."""
        for name, value in (("OpenFiles", 0.0), ("OpenSeconds", 90.0), ("OpenMemory", 5.0)):
            self.writer.options.set(name, value)
        with mock.patch.object(collectd, "load_library"):
            self.writer.start()
        self.assertEqual(self.writer._files.bounds, (0, 90, 5))


class Writing(WriterCase):
    def test_samples_are_held(self) -> None:
        making = self.use(Making())
        self.writer.write(values(NOW + 0.4, 1.0, 2.0, math.nan))
        self.writer.write(values(NOW + 9.6, 2.0, 3.0, 4.0))
        self.assertEqual(making.lines, [])
        self.now = 61
        self.writer.write(values(NOW + 20, 3.0, 4.0, 5.0))
        self.assertEqual(len(making.lines), 1)
        self.assertTrue(making.lines[0][0].startswith(f"create --step 10 --start {NOW - 1} "))
        self.assertEqual(making.lines[0][1:], [f"update {NOW}:1.000000:2.000000:U",
                                                 f"update {NOW + 10}:2.000000:3.000000:4.000000",
                                                 f"update {NOW + 20}:3.000000:4.000000:5.000000"])
        self.writer.write(values(NOW + 30, 1.0, 1.0, 1.0))
        self.writer.end()
        self.assertEqual(making.lines[1], [f"update {NOW + 30}:1.000000:1.000000:1.000000"])
        self.assertEqual(self.collectd.lines, ["rrdi: 4 samples taken in, 0 lost"])

    def test_flush(self) -> None:
        making = self.use(Making())
        self.writer.write(values(NOW, 1.0, 1.0, 1.0))
        self.writer.flush(30.0)
        self.assertEqual(making.lines, [])
        self.writer.flush(-1.0, "load", "here/load/load")
        self.assertEqual(len(making.lines), 1)

    def test_refused_samples(self) -> None:
        self.use(Making(Answer(0, 0, 0, b"ERROR: not later than 5\n", (2,))))
        self.writer.write(values(NOW, 1, type="derive"))
        self.writer.end()
        self.assertIn("1 samples lost: the first: update 1700000000:1: not later than 5", self.collectd.lines[0])
        self.assertEqual(self.collectd.lines[1], "rrdi: 0 samples taken in, 1 lost")

    def test_names_and_times_that_cannot_be_used(self) -> None:
        making = self.use(Making())
        for wrong in (values(NOW, 1, host="x" * 300), values(math.nan, 1), values(-1, 1), values(math.inf, 1)):
            self.writer.write(wrong)
        self.writer.write(values(NOW, 1, type="derive", host="../../.."))
        self.writer.end()
        self.assertEqual((len(making.lines), self.writer.counts["lost"]), (1, 4))
        self.assertEqual(self.files(), ["data/.._.._../load/derive.rrdi"])
        self.assertEqual(self.collectd.lines, [*(f"rrdi: {name}: 1 samples lost: its name or its time cannot be used" for name in ("x" * 300, *["here/load/load"] * 3)),
                                               "rrdi: 1 samples taken in, 4 lost"])

    def test_why_a_sample_is_lost(self) -> None:
        """What rrdi says of it stands alone, and other faults are named: also where collectd knows no such type."""
        self.use(Making())
        self.collectd.DATASETS = {**self.collectd.DATASETS, "odd": [("a b", "gauge", 0.0, 1.0)]}
        for given, why in ((values(NOW, 1, type="odd"), "the names of its sources cannot be used"), (values(NOW, 1, type="none"), "KeyError: 'none'")):
            self.writer.write(given)
            self.assertEqual(self.collectd.lines[-1], f"rrdi: here/load/{given.type}: 1 samples lost: {why}")

    def test_how_long_samples_are_held(self) -> None:
        """Each file from its own first sample on, whatever time the clock had then."""
        making = self.use(Making())
        for at, name, written in ((1_000, "a", []), (1_030, "b", []), (1_059, "a", []), (1_060, "c", []), (1_061, "a", ["a"]), (1_089, "b", ["a"]), (1_090, "b", ["a", "b"]), (1_119, "c", ["a", "b"]),
                                  (1_120, "d", ["a", "b"]), (1_121, "c", ["a", "b", "c"])):
            self.now = float(at)
            self.writer.write(values(NOW + at, 1, type="derive", host=name))
            found = sorted(os.listdir(self.folder))
            self.assertEqual((found, len(making.lines)), (written, len(found)), (at, name))

    def test_the_end(self) -> None:
        """What could not be written is lost then, once, and no file stays open."""
        self.use(Making(graphite.BUSY))
        self.writer.write(values(NOW, 1, type="derive"))
        with mock.patch.object(self.writer._files, "close_all") as closed:
            self.writer.end()
        self.assertEqual((closed.call_count, self.collectd.lines[1:]), (1, ["rrdi: : 1 samples lost: their files could not be written before the end", "rrdi: 0 samples taken in, 1 lost"]))
        self.writer.end()
        self.assertEqual(self.collectd.lines[3:], ["rrdi: 0 samples taken in, 1 lost"])

    def test_the_usual_spans(self) -> None:
        """An hour, a day, a week, a month of 31 days and a year of 366."""
        options = collectd.Configuration()
        options.rrarows = 1
        found = [word.split(":") for word in collectd.archives(options, 1)]
        self.assertEqual([(word[1], word[3], word[4]) for word in found], [(function, steps, rows) for steps, rows in (("1", "3600"), ("86400", "1"), ("604800", "1"), ("2678400", "1"), ("31622400", "1"))
                                                                          for function in ("AVERAGE", "MIN", "MAX")])

    def test_lengths_of_names(self) -> None:
        """A name of a file or a folder has 255 bytes at most, the end of a file's name among them."""
        for given, is_right in (({"host": "x" * 255}, True), ({"host": "x" * 256}, False), ({"host": "\u00e4" * 127}, True), ({"host": "\u00e4" * 128}, False), ({"type": "t" * 250}, True), ({"type": "t" * 251}, False),
                                ({"plugin": "p" * 200, "plugin_instance": "i" * 54}, True), ({"plugin": "p" * 200, "plugin_instance": "i" * 55}, False)):
            self.assertEqual(collectd.file_of("/d", values(**given)) is not None, is_right, given)  # type: ignore[arg-type]

    def test_bounds_of_options(self) -> None:
        """Whole numbers from 0 or 1 on, below 10^9; a share below 1."""
        for name, given, is_right in (("RRARows", 0, False), ("RRARows", 1, True), ("RRARows", 999_999_999, True), ("RRARows", 10**9, False), ("Journal", 0, False), ("Journal", 1, True), ("RRATimespan", 0, False),
                                      ("RRATimespan", 1, True), ("StepSize", -1, False), ("StepSize", 0, True), ("HeartBeat", 999_999_999, True), ("HeartBeat", 10**9, False), ("XFF", 0, True), ("XFF", 0.999, True),
                                      ("XFF", 1, False), ("XFF", -0.1, False), ("CacheTimeout", 0, True), ("CacheTimeout", -0.5, False), ("CacheTimeout", 999_999_999.5, True), ("OpenFiles", 0, True), ("OpenFiles", -1, False)):
            try:
                collectd.Configuration().set(name, given)
                self.assertTrue(is_right, (name, given))
            except ValueError as error:
                self.assertEqual((str(error), is_right), (f"{name} is out of range: {given!r}", False))

    def test_a_refused_create(self) -> None:
        """Each sample is counted once, and nothing is left."""
        self.use(Making(Answer(0, 0, 0, b"ERROR: bad step\nERROR: no database\nERROR: no database\n", (1, 2, 3))))
        for number in range(2):
            self.writer.write(values(NOW + number, 1, type="derive"))
        self.writer.end()
        self.assertRegex(self.collectd.lines[0], "2 samples lost: the first: create --step 10 .*: bad step$")
        self.assertEqual((self.collectd.lines[1:], self.files()), (["rrdi: 0 samples taken in, 2 lost"], []))

    def test_a_file_that_another_program_makes(self) -> None:
        """The file of another program is not replaced: it gets the samples."""
        path = self.folder / "here/load/derive.rrdi"

        class Racing(Making):
            def batch(self, *words: Any) -> Answer:
                path.write_bytes(b"another program's")
                return super().batch(*words)
        racing = self.use(Racing())
        self.writer.write(values(NOW, 1, type="derive"))
        self.writer.end()
        self.assertEqual(racing.lines[1], [f"update {NOW}:1"])
        self.assertEqual([given for given, _ in racing.batches][1], str(path))
        self.assertEqual((self.files(), self.writer.counts["taken"]), (["data/here/load/derive.rrdi"], 1))
        self.assertFalse(any(line.startswith("create") for given, lines in racing.batches if given == str(path)
                             for line in lines))

    def test_a_file_that_is_taken_away(self) -> None:
        """Between the look at a file and the batch another process has renamed it: the samples wait."""
        making = self.use(Making(Answer(0, 0, 0, b""), Answer(0, 0, 0, b"ERROR: no database\n", (1,))))
        for number in range(2):
            self.writer.write(values(NOW + number, 1, type="derive"))
            self.writer.flush(0)
        (self.folder / "here/load/derive.rrdi").unlink()
        self.writer.end()
        self.assertEqual(making.lines[2][1:], [f"update {NOW + 1}:1"])
        self.assertEqual(self.collectd.lines[-1], "rrdi: 2 samples taken in, 0 lost")

    def test_a_file_that_is_locked(self) -> None:
        making = self.use(Making(graphite.BUSY))
        self.writer.write(values(NOW, 1, type="derive"))
        self.now = 61
        self.writer.take_in(60)
        self.assertRegex(self.collectd.lines[0], r"^rrdi: \S+/here/load/derive\.rrdi: cannot open: another program holds its lock; 1 samples wait$")
        self.writer.write(values(NOW + 10, 2, type="derive"))
        self.writer.end()
        self.assertEqual(making.lines[1][1:], [f"update {NOW}:1", f"update {NOW + 10}:2"])
        self.assertEqual(self.collectd.lines[1:], ["rrdi: 2 samples taken in, 0 lost"])

    def test_a_sample_that_comes_during_a_try(self) -> None:
        """It stays behind those that come back."""
        writer = self.writer

        class Slow(Making):
            def batch(self, *words: Any) -> Answer:
                if not self.batches:
                    writer.write(values(NOW + 20, 3, type="derive"))
                return super().batch(*words)
        making = self.use(Slow(graphite.BUSY))
        for at in (0, 10):
            writer.write(values(NOW + at, 1 + at // 10, type="derive"))
        writer.flush(0)
        self.assertRegex(self.collectd.lines[0], "; 3 samples wait$")
        writer.end()
        self.assertEqual(making.lines[-1][1:], [f"update {NOW + 10 * at}:{1 + at}" for at in range(3)])

    def test_the_next_try(self) -> None:
        """What could not be written is tried again after the whole timeout, and not with each further value."""
        making = self.use(Making(*[graphite.BUSY] * 2))
        for seconds in range(0, 200, 10):
            self.now = float(seconds)
            self.writer.write(values(NOW + seconds, seconds, type="derive"))
            self.assertEqual(len(making.batches), seconds // 60, seconds)
        self.assertEqual(making.lines[-1][1:], [f"update {NOW + seconds}:{seconds}" for seconds in range(0, 190, 10)])

    def test_times_between_two_seconds(self) -> None:
        """The half rounds up, as in the plugin rrdtool; so no two samples that are a second apart get one time."""
        making = self.use(Making())
        for at in (0.0, 0.5, 1.49, 1.5, 2.5, 3.5, 4.999):
            self.writer.write(values(NOW + at, 1, type="derive"))
        self.writer.end()
        self.assertEqual([line.split()[1] for line in making.lines[0][1:]], [f"{NOW + at}:1" for at in (0, 1, 1, 2, 3, 4, 5)])

    def test_a_flush_while_another_thread_writes(self) -> None:
        """It waits for the other thread: afterwards all that was there before is written, and so at the end."""
        for act in (lambda: self.writer.flush(0), self.writer.end):
            is_writing, may_go_on, has_asked = threading.Event(), threading.Event(), threading.Event()

            class Slow(Making):
                def batch(self, *words: Any) -> Answer:
                    if not self.batches:
                        is_writing.set()
                        may_go_on.wait(HANG)
                    return super().batch(*words)

            class Turn:
                def __init__(self, inner: Any) -> None:
                    self.inner = inner

                def acquire(self, blocking: bool = True) -> bool:
                    if is_writing.is_set():
                        has_asked.set()
                    return bool(self.inner.acquire(blocking=blocking))

                def release(self) -> None:
                    self.inner.release()
            making, written = self.use(Slow()), []  # type: Any, List[int]

            def finish() -> None:
                act()
                written.append(len(making.batches))
            self.writer._turn = Turn(threading.Lock())  # type: ignore[assignment]
            self.writer.write(values(NOW, 1, type="derive", host="first"))
            other = threading.Thread(target=self.writer.flush, args=(0,))
            other.start()
            is_writing.wait(HANG)
            self.writer.write(values(NOW, 1, type="derive", host="second"))
            mine = threading.Thread(target=finish)
            mine.start()
            has_asked.wait(HANG)
            may_go_on.set()
            for thread in (other, mine):
                thread.join(HANG)
            self.assertEqual(written, [2])

    def test_too_many_samples_wait(self) -> None:
        self.use(Making(*[graphite.BUSY] * 3))
        with mock.patch.object(collectd, "MOST_OF_A_FILE", 2):
            for number in range(3):
                self.writer.write(values(NOW + number, number, type="derive"))
            self.writer.flush(0)
            self.writer.end()
        self.assertEqual(self.collectd.lines[-1], "rrdi: 0 samples taken in, 3 lost")

    def test_another_thread_writes(self) -> None:
        """A value does not wait for it, but a flush does."""
        self.use(Making())
        self.writer.options.cachetimeout = 0.0
        with mock.patch.object(self.writer, "_turn", mock.Mock(acquire=mock.Mock(return_value=False))) as turn:
            self.writer.write(values(NOW, 1.0))
            self.writer.flush(0)
        self.assertEqual(turn.mock_calls, [mock.call.acquire(blocking=False), mock.call.acquire(blocking=True)])

    def test_many_threads(self) -> None:
        """A file is created once, and each sample is given once and in order."""
        making = self.use(Making())

        def send(number: int) -> None:
            for at in range(200):
                self.writer.write(values(NOW + at, at, type="derive", plugin=f"p{number}"))
                self.writer.flush(0)
        run_in_threads(8, send)
        self.writer.end()
        lines = [line for batch in making.lines for line in batch]
        self.assertEqual(sum(line.startswith("create") for line in lines), 8)
        self.assertEqual(sum(line.startswith("update") for line in lines), 1_600)

    def test_registered(self) -> None:
        with mock.patch.dict(sys.modules, collectd=self.collectd):
            importlib.reload(collectd)
        self.assertEqual(self.collectd.registered, ["config", "init", "write", "flush", "shutdown"])

    def test_no_library(self) -> None:
        self.writer.options.library = "/none/librrdi.so"
        self.addCleanup(library.use_library, None)
        self.writer.start()
        self.assertIn("/none/librrdi.so", self.collectd.lines[0])


class Rows(WriterCase):
    """Samples to rows, by the library or the program."""

    def setUp(self) -> None:
        super().setUp()
        use_any_library(self)

    def rows(self, name: str) -> Dict[int, Optional[List[Optional[float]]]]:
        archive = read_file(str(self.folder / name))["archives"][0]
        return {row["time"] - NOW: [None if cell is None else cell / 1_000_000 for cell in row["cells"]]
                for row in archive["rows"] if any(cell is not None for cell in row["cells"])}

    def test_samples(self) -> None:
        for at in range(4):
            self.writer.write(values(NOW + 10 * at, 1.0 + at, 2.0, math.nan))
            self.writer.write(values(NOW + 10 * at, 100 * at, type="derive"))
        self.writer.end()
        self.assertEqual(self.rows("here/load/load.rrdi"),
                         {10 * at: [1.0 + at, 2.0, None] for at in range(1, 4)})
        self.assertEqual(self.rows("here/load/derive.rrdi"), {10 * at: [10.0] for at in range(1, 4)})

    def test_files_that_stay_open(self) -> None:
        """From the third batch on, until the end."""
        for at in range(4):
            self.writer.write(values(NOW + 10 * at, float(at), type="gauge"))
            self.writer.flush(0)
        paths = self.writer._files.open_paths()
        self.assertEqual(paths, [] if isinstance(library.the_library(), Program) else
                         [os.fsencode(self.folder / "here/load/gauge.rrdi")])
        self.writer.end()
        self.assertEqual((self.rows("here/load/gauge.rrdi"), self.writer._files.open_paths()),
                         ({10 * at: [float(at)] for at in range(1, 4)}, []))

    def test_a_file_that_another_program_is_making(self) -> None:
        """A file that is there, and not yet locked by its maker, is not damaged: the samples wait."""
        path = self.folder / "here/load/gauge.rrdi"
        path.parent.mkdir(parents=True)
        path.write_bytes(b"")
        self.writer.write(values(NOW + 10, 2.0, type="gauge"))
        self.writer.flush(0)
        self.assertIn("another program may be making the file; 1 samples wait", self.collectd.lines[0])
        commands.create(str(path), "DS:value:GAUGE:20:U:U", "RRA:AVERAGE:0.5:1:9", start=NOW, step=10,
                        overwrite=True)
        self.writer.end()
        self.assertEqual((self.rows("here/load/gauge.rrdi"), self.files()), ({10: [2.0]}, ["data/here/load/gauge.rrdi"]))

    def test_two_programs_that_start_one_file(self) -> None:
        """What both count as taken in is in the file, whoever makes it, and no file is renamed."""
        for number in range(10):
            writers = [collectd.Plugin(self.collectd, lambda: self.now) for _ in range(2)]
            for at, writer in enumerate(writers):
                writer.options.datadir = str(self.folder)
                for turn in range(5):
                    writer.write(values(NOW + 10 * (2 * turn + at), 1.0, type="gauge", host=f"h{number}"))
            run_in_threads(2, lambda at: writers[at].end())
            taken = sum(writer.counts["taken"] for writer in writers)
            path = str(self.folder / f"h{number}/load/gauge.rrdi")
            self.assertEqual(commands.info(path).undoable, taken)
            self.assertEqual(taken + sum(writer.counts["lost"] for writer in writers), 10)
        self.assertEqual([name for name in self.files() if not name.endswith("gauge.rrdi")], [])

    def test_a_damaged_file(self) -> None:
        self.writer.write(values(NOW, 1.0, type="gauge"))
        self.writer.flush(0)
        file = self.folder / "here/load/gauge.rrdi"
        file.write_bytes(file.read_bytes()[:-50])
        self.writer.write(values(NOW + 10, 2.0, type="gauge"))
        self.writer.flush(0)
        self.assertIn("; the file is now ", self.collectd.lines[0])
        self.writer.write(values(NOW + 20, 3.0, type="gauge"))
        self.writer.end()
        self.assertEqual(self.rows("here/load/gauge.rrdi"), {20: [3.0]})
