# SPDX-License-Identifier: MIT OR Apache-2.0
"""Tests against whisper: random points give the same values in both, and files of whisper are moved to rrdi. Files of
whisper are written by Debian's python3-whisper, or else here."""
from __future__ import annotations

import math
import os
import random
import struct
import unittest
from pathlib import Path
from typing import Dict, List, Mapping, Optional, Sequence, Tuple
from unittest import mock

import graphite_doubles as graphite
from cases import new_folder, use_any_library
from rrdi.amounts import Millionths
from rrdi.commands import batch
from rrdi.graphite.layout import METHODS, template
from rrdi.graphite.losses import Losses
from rrdi.graphite.series import read_series
from rrdi.graphite.store import StoreOptions, Store
from rrdi.importing.dump import Refusal
from rrdi.importing.whisper import spans as whisper_spans
from rrdi.importing.whisper import NUMBERS, WhisperArchive, WhisperFile, read_whisper, samples, stretches, whisper_batch
from rrdi.reader.selected import OpenFile
from rrdi.tools import whisper_file
from rrdi.tools.command_line import Failure
from rrdi.tools.conversion import Conversion, make
from rrdi.tools.whisper_file import write_equal

NOW = 1_700_000_400  # a multiple of 600
RETENTIONS = [(10, 60), (60, 120)]
HAS_WHISPER = graphite.is_installed("whisper")


def whisper_bytes(archives: Sequence[Tuple[int, int, Mapping[int, float]]], method: int = 1, xff: float = 0.5) -> bytes:
    """A file of whisper: each archive has the seconds of a point, the number of points, and values by their times."""
    offset = 16 + 12 * len(archives)
    head = struct.pack("!2LfL", method, max(seconds * rows for seconds, rows, _ in archives), xff, len(archives))
    body = b""
    for seconds, rows, values in archives:
        head += struct.pack("!3L", offset + len(body), seconds, rows)
        base = min(values, default=0)
        points = {(when - base) // seconds % rows: struct.pack("!Ld", when, value) for when, value in values.items()}
        body += b"".join(points.get(index, bytes(12)) for index in range(rows))
    return head + body


class FolderCase(unittest.TestCase):
    def setUp(self) -> None:
        self.folder = new_folder(self)
        self.old, self.new = str(self.folder / "m.wsp"), str(self.folder / "m.rrdi")

    def values(self, start: int, end: int, now: int) -> Tuple[Tuple[int, int, int], List[Optional[float]]]:
        with OpenFile(self.new) as file:
            found = read_series(file, start, end, now)
        assert found is not None
        return found[:3], found.values

    def assert_close(self, ours: Sequence[Optional[float]], theirs: Sequence[Optional[float]], what: object) -> None:
        self.assertEqual(len(ours), len(theirs), what)
        for one, other in zip(ours, theirs):
            self.assertEqual(one is None, other is None, (what, ours, theirs))
            if one is not None and other is not None:
                self.assertAlmostEqual(one, other, delta=6e-5, msg=str(what))


@unittest.skipUnless(HAS_WHISPER, "whisper is not installed for this Python")
class AsInWhisper(FolderCase):
    """The same random points in both: of the finest archive and of the next one all values are the same."""

    def flushes(self, chance: random.Random) -> List[List[Tuple[int, float]]]:
        """Points as carbon gives them: in order, with gaps, twice in a slot, and late within a journal of 16."""
        found: List[List[Tuple[int, float]]] = []
        slot, sent = 0, []  # type: int, List[int]
        for _ in range(chance.randint(5, 60)):
            points = {}
            for _ in range(chance.choice((1, 1, 2, 6))):
                slot += chance.choice((0, 1, 1, 1, 1, 2, 5, 20 if chance.random() < 0.1 else 1))
                points[NOW + 10 * slot + chance.randrange(10)] = round(chance.uniform(-100, 100), chance.choice((0, 3, 6)))
                sent.append(slot)
            if chance.random() < 0.2:
                late = chance.choice(sent[-8:])
                points[NOW + 10 * late + chance.randrange(10)] = float(chance.randrange(100))
            found.append(sorted(points.items()))
        return found

    def try_method(self, method: str, seed: int) -> int:
        import whisper
        chance = random.Random(f"{method} {seed}")
        xff, now, counted = chance.choice((0.0, 0.1, 0.5, 1.0)), NOW, 0
        for path in (self.old, self.new):
            Path(path).unlink(missing_ok=True)
        losses = Losses(lambda line: None)
        store = Store(StoreOptions(str(self.folder), 32), losses, lambda: now)
        whisper.create(self.old, RETENTIONS, xff, method)
        store.create("m", template(RETENTIONS, xff, method, 32))
        for points in self.flushes(chance):
            now = max(now, points[-1][0])
            whisper.update_many(self.old, points, now=now)
            store.write("m", [(float(when), value) for when, value in points])
            for start in (now - chance.randrange(590), now - chance.randrange(610, 7_000)):
                info, theirs = whisper.fetch(self.old, start, now, now=now)
                span, ours = self.values(start, now, now)
                self.assertEqual(span, info)
                self.assert_close(ours, theirs, (method, seed, start - NOW, now - NOW, xff))
                counted += sum(value is not None for value in ours)
        lost = {kind: count for kind, count in losses.take().items() if count and kind != "rewritten"}
        self.assertEqual(lost, {}, (method, seed))
        return counted

    def test_random_points(self) -> None:
        use_any_library(self)
        for method in METHODS:
            counted = sum(self.try_method(method, seed) for seed in range(6))
            self.assertGreater(counted, 1_000)


class Written(FolderCase):
    """What is moved."""

    def test_before_the_first_point(self) -> None:
        """The file begins before its first slot, whose time up to there is unknown, and counts as zeros in a sum."""
        for method, line in (("average", "100:U"), ("sum", "100:U:0")):
            old = WhisperFile(method, 0.5, [WhisperArchive(10, 60, {100: 1.5})])
            for start, lines in ((90, [line]), (100, [])):
                found = list(samples(old, 100, start, lambda text: None))
                self.assertEqual(found[:-1], lines)
                self.assertEqual(found[-1].split(":")[0], "110")

    def test_which_archive_gives_which_time(self) -> None:
        """The finest one that has the time; between them may be a time that none has."""
        coarse = WhisperArchive(60, 10, {0: 3.0, 60: 4.0})
        for at, begin in ((110, 60), (150, 100), (170, 120), (1_000, 950)):
            fine = WhisperArchive(10, 6, {at: 1.0})
            self.assertEqual(whisper_spans([fine, coarse]), [(coarse, 0, min(begin, 120)), (fine, begin, at + 10)])
            known = [(60, "3.000000"), (min(begin, 120), "4.000000")][:1 + (begin > 60)]
            self.assertEqual(stretches(WhisperFile("average", 0.5, [fine, coarse]), print), [*known, (at, None), (at + 10, "1.000000")])
        self.assertEqual(whisper_spans([WhisperArchive(10, 6, {}), coarse]), [(coarse, 0, 120)])
        late = WhisperArchive(60, 1, {60: 4.0})  # no longer ago than the finer one
        self.assertEqual(whisper_spans([WhisperArchive(10, 6, {110: 1.0}), late]), [(WhisperArchive(10, 6, {110: 1.0}), 60, 120)])
        self.assertEqual(whisper_spans([WhisperArchive(10, 6, {})]), [])

    def test_where_a_finer_archive_begins(self) -> None:
        """Within a point of the next one: its points are kept, and the beginning of that point gets what makes it right. The six
        steps of the point from 60 on are then: four of the beginning, 5 at 100, and an unknown one."""
        fine = WhisperArchive(10, 6, {100: 5.0, 150: 1.0})
        for method, value, beginning in (("average", 4.0, "3.750000"), ("sum", 25.0, "5.000000"), ("avg_zero", 4.0, "4.750000"),
                                         ("last", 5.0, "5.000000"), ("max", 7.0, "7.000000"), ("min", -1.0, "-1.000000"),
                                         ("average", math.nan, None), ("average", None, None)):
            coarse = WhisperArchive(60, 10, {0: 12.0, **({} if value is None else {60: value})})
            notes: List[str] = []
            found = stretches(WhisperFile(method, 0.5, [fine, coarse]), notes.append)
            whole = "2.000000" if method == "sum" else "12.000000"
            wanted = [(60, whole), (100, beginning), (110, "5.000000"), (150, None), (160, "1.000000")]
            if beginning == "5.000000":
                wanted.remove((100, beginning))
            self.assertEqual((found, notes), (wanted, []), (method, value))

    def test_points_that_give_way(self) -> None:
        """If the file asks for more known steps than a coarse point would have, that point counts for all its time, and the
        points of the finer archive that are lost are counted. So it is if no step can have the number that is left."""
        fine = WhisperArchive(10, 6, {100: 5.0, 150: 1.0})
        low: Dict[int, float] = {100: -2.0**59, 110: -2.0**59}
        for xff, value, finer in ((0.9, 4.0, fine), (0.5, 2.0**59, fine._replace(values={**fine.values, **low}))):
            coarse = WhisperArchive(60, 10, {0: 3.0, 60: value})
            notes: List[str] = []
            found = stretches(WhisperFile("average", xff, [finer, coarse]), notes.append)
            self.assertEqual(found, [(60, "3.000000"), (120, f"{value:.6f}"), (150, None), (160, "1.000000")])
            count = 1 + (xff == 0.5)
            self.assertEqual(notes, [f"{count} of the oldest points of 10 s gave way to one of 60 s"])

    def test_many_retentions(self) -> None:
        """Each archive is read where the header says that it is."""
        archives = [WhisperArchive(1 << at, 4, {4_096: at + 0.5}) for at in range(12)]
        written = whisper_file.bytes_of(WhisperFile("last", 0.5, archives))
        (self.folder / "m.wsp").write_bytes(written)
        self.assertEqual(read_whisper(str(self.folder / "m.wsp")), WhisperFile("last", 0.5, archives))

    def test_times_that_a_point_can_have(self) -> None:
        """Those from 1 to the greatest number of four bytes. The slot of a row begins where the row before it ends."""
        file, archive = mock.Mock(front=mock.Mock(last=2**32 + 1)), mock.Mock(seconds=1, steps=1, rows=9)
        file.rows.return_value = {end: [Millionths(1_500_000)] for end in (1, 2, 2**32, 2**32 + 1)}
        self.assertEqual(whisper_file.points_of(file, archive, "average"), {1: 1.5, 2**32 - 1: 1.5})

    def test_what_is_read_back(self) -> None:
        """A file that cannot be read back, or has other points or another method, is an error."""
        path, file = str(self.folder / "new.wsp"), WhisperFile("max", 0.5, [WhisperArchive(10, 60, {100: 1.5})])
        copy = mock.Mock(file=file)
        for found, why in ((file, ""), (file._replace(method="min"), "is not equal to the database"),
                           (file._replace(archives=[WhisperArchive(10, 60, {100: 1.75})]), "is not equal to the database"),
                           (Refusal("this is no file"), "cannot be read back: this is no file")):
            with mock.patch.object(whisper_file, "read_whisper", side_effect=[found]):
                if why:
                    with self.assertRaisesRegex(Failure, f"^the new file {why}$"):
                        write_equal(copy, path)
                else:
                    write_equal(copy, path)
            os.unlink(path)


class Moving(FolderCase):
    """rrdi-import with files of whisper."""

    def lines(self, data: bytes, journal: Optional[str] = None) -> List[str]:
        Path(self.old).write_bytes(data)
        self.notes: List[str] = []
        return list(whisper_batch(read_whisper(self.old), journal, self.notes.append))

    def test_lines(self) -> None:
        fine = {NOW + 10 * n: float(n) for n in range(6) if n != 3}
        lines = self.lines(whisper_bytes([(10, 60, fine), (60, 60, {NOW: 2.4})]), "5")
        self.assertIn(" --step 10 --journal 16 DS:", self.lines(Path(self.old).read_bytes())[0])
        self.assertEqual(lines[0], f"create --start {NOW} --step 10 --journal 5 DS:average:GAUGE:9999999999:U:U "
                                   "RRA:AVERAGE:0.500000:1:60 RRA:AVERAGE:0.500000:6:60")
        self.assertEqual(lines[1], "update " + " ".join(
            f"{NOW + 10 * n + 10}:{'U' if n == 3 else f'{n}.000000'}" for n in range(6)))
        self.assertEqual(lines[2:], ["tune --heartbeat average:10"])

    def test_older_points_come_from_coarser_archives(self) -> None:
        fine = {NOW + 10 * n: 1.0 for n in range(3)}
        coarse = {NOW - 600 - 60 * n: 12.0 for n in range(3)}
        lines = self.lines(whisper_bytes([(10, 60, fine), (60, 60, coarse)], 2))
        self.assertTrue(lines[0].startswith(f"create --start {NOW - 720} "), lines[0])
        self.assertEqual(lines[1], f"update {NOW - 600}:2.000000:2.000000 {NOW - 570}:4.000000:4.000000 {NOW}:U:0 "
                                   f"{NOW + 30}:1.000000:1.000000")

    def test_values_that_rrdi_does_not_take(self) -> None:
        lines = self.lines(whisper_bytes([(10, 60, {NOW: math.inf, NOW + 10: 1e18, NOW + 20: math.nan, NOW + 30: 1.0})]))
        self.assertEqual(lines[1], f"update {NOW + 30}:U {NOW + 40}:1.000000")
        self.assertEqual(self.notes, ["2 values that are too large for rrdi became unknown"])

    def notes_of(self, *archives: Tuple[int, int, Mapping[int, float]], xff: float) -> List[str]:
        """What is noted when a database is made of these archives."""
        use_any_library(self)
        Path(self.old).write_bytes(whisper_bytes(archives, 1, xff))
        conversion = Conversion(self.old, None)
        make(self.new, conversion.lines(), conversion.compare)
        return conversion.notes

    def test_coarse_points_in_a_gap_of_a_finer_archive(self) -> None:
        """The finer archive has the time from 570 seconds ago on, and only three points. What is not a number is no point."""
        coarse = {NOW - 60 * n: float(n) for n in (2, 3, 9, 10, 11)}
        notes = self.notes_of((10, 60, {NOW + 10 * n: 1.0 for n in range(3)}), (60, 60, {**coarse, NOW - 240: math.nan}), xff=0.5)
        self.assertEqual(notes, [f"3 of 5 points of 60 s differ, 3 of them lost, the newest at {NOW - 120}"])

    def test_points_that_are_computed_again(self) -> None:
        """Of 3 steps with 1 and 6 with 2 the average is 15 / 9; whisper has that of the averages of both minutes, 1 and 2."""
        fine = {NOW + 10 * n: 1.0 if n < 6 else 2.0 for n in range(12) if n not in (3, 4, 5)}
        for average, notes in ((1.5, [f"1 of 1 points of 600 s differ, the newest at {NOW}"]), (15 / 9, [])):
            Path(self.new).unlink(missing_ok=True)
            found = self.notes_of((10, 60, fine), (60, 60, {NOW: 1.0, NOW + 60: 2.0}), (600, 20, {NOW: average}), xff=0.1)
            self.assertEqual(found, notes)

    def test_how_far_equal_points_are_apart(self) -> None:
        """By a millionth for each step of a sum and for the sum; of other methods one step counts. A double has few digits."""
        for method, before, after, wanted in (
                ("average", 1.0, 1.0000019, True), ("average", 1.0, 1.0000031, False), ("sum", 1.0, 1.0000069, True),
                ("sum", 1.0, 0.9999929, False), ("last", 1e12, 1e12 + 50, True), ("last", 1e12, 1e12 - 200, False),
                ("max", 1.0, None, False)):
            self.assertEqual(whisper_file.agree(before, after, method, 6), wanted, (method, before, after))

    def test_refusals(self) -> None:
        whole = whisper_bytes([(10, 60, {NOW: 1.0})])
        for data, reason in ((b"", "this is no file of whisper"), (b"RRD\0" + bytes(100), "this is no file of whisper"),
                             (whole[:20], "this is no file of whisper"), (whole[:-1], "the file is shorter than its header says"),
                             (whisper_bytes([(10, 60, {})]), "the file has no point"),
                             (whisper_bytes([(10, 60, {NOW: 1.0})], 7), "the aggregation method absmax is not supported"),
                             (whisper_bytes([(10, 60, {NOW: 1.0})], 9), "this is no file of whisper"),
                             (whisper_bytes([(10, 60, {NOW: 1.0}), (15, 60, {})]), "15 seconds must be a larger multiple"),
                             (struct.pack("!2LfL", 1, 1, 0.5, 10**6), "this is no file of whisper"),
                             (struct.pack("!2LfL3L", 1, 1, 0.5, 1, 28, 0, 10), "the shortest retention must have")):
            with self.assertRaises(Refusal) as raised:
                self.lines(data)
            self.assertIn(reason, str(raised.exception))

    def test_bounds_of_a_header(self) -> None:
        """An xff is a share, and 1 to 128 archives follow. The next 4-byte numbers beyond 0 and 1 are 1e-45 and 1.0000001."""
        for xff, is_right in ((0.0, True), (-0.0, True), (-1e-45, False), (1.0, True), (1.0000001, False), (2.0, False), (math.nan, False)):
            data = whisper_bytes([(10, 60, {NOW: 1.0})], 1, xff)
            if is_right:
                self.assertTrue(self.lines(data)[0].startswith("create "), xff)
            else:
                self.assertRaisesRegex(Refusal, "^this is no file of whisper$", self.lines, data)
        for count, reason in ((0, "^this is no file of whisper$"), (1, "must have 1 to"), (128, "must have 1 to"),
                              (129, "^this is no file of whisper$")):
            with self.assertRaisesRegex(Refusal, reason):
                self.lines(struct.pack("!2LfL", 1, 1, 0.5, count) + bytes(12 * count))

    def test_rows(self) -> None:
        """The finest archive is as it was, and of all methods the next one too."""
        use_any_library(self)
        for number, method in NUMBERS.items():
            if method not in METHODS:
                continue
            fine: Dict[int, float] = {NOW + 10 * n: float(n % 7) for n in range(60) if n % 5}
            coarse = {NOW - 60 * n: float(n) for n in range(1, 50)}
            Path(self.new).unlink(missing_ok=True)
            ran = batch(self.new, self.lines(whisper_bytes([(10, 60, fine), (60, 120, coarse)], number)))
            self.assertEqual(ran.refused, (), method)
            now = NOW + 599
            (start, _, _), values = self.values(NOW, now, now)
            self.assertEqual({start + 10 * at: value for at, value in enumerate(values) if value is not None},
                             {when: value for when, value in fine.items() if when >= start}, method)
            (start, _, step), values = self.values(NOW - 3_000, NOW - 60, now)
            self.assertEqual(step, 60)
            self.assert_close(values, [coarse.get(start + 60 * at, fine.get(NOW)) for at in range(len(values))], method)

    @unittest.skipUnless(HAS_WHISPER, "whisper is not installed for this Python")
    def test_no_point_of_random_files_is_lost(self) -> None:
        """Of the finest archive and of the next one, wherever they begin and end, and without a note."""
        import whisper
        use_any_library(self)
        for seed in range(24):
            chance, method = random.Random(seed), list(METHODS)[seed % len(METHODS)]
            for path in (self.old, self.new):
                Path(path).unlink(missing_ok=True)
            whisper.create(self.old, RETENTIONS, chance.choice((0.0, 0.1, 0.5, 1.0)), method)
            when, share = NOW + 10 * chance.randrange(12), chance.choice((0.3, 0.6, 1.0))
            for _ in range(chance.randint(40, 200)):
                when += 10
                if chance.random() < share:
                    whisper.update(self.old, round(chance.uniform(-9, 9), 3), when, now=when)
            old = read_whisper(self.old)
            notes: List[str] = []
            self.assertEqual(batch(self.new, list(whisper_batch(old, None, notes.append))).refused, ())
            self.assertEqual(notes, [])
            with OpenFile(self.new) as file:
                last, made = file.front.last, whisper_file.copy_of(file).file
            for before, after in zip(old.archives, made.archives):
                whole = {slot: value for slot, value in before.values.items() if slot + before.seconds <= last}
                self.assert_close([after.values.get(slot) for slot in sorted(whole)],
                                  [whole[slot] for slot in sorted(whole)], (seed, method, before.seconds))

    @unittest.skipUnless(HAS_WHISPER, "whisper is not installed for this Python")
    def test_files_of_whisper_itself(self) -> None:
        import whisper
        for method in METHODS:
            Path(self.old).unlink(missing_ok=True)
            whisper.create(self.old, RETENTIONS, 0.5, method)
            for n in range(0, 300, 3):
                points = [(NOW + 10 * slot, float(slot)) for slot in range(n, n + 3) if slot % 11]
                whisper.update_many(self.old, points, now=points[-1][0])
            old = read_whisper(self.old)
            self.assertEqual((old.method, [archive[:2] for archive in old.archives]), (method, RETENTIONS))
            now = NOW + 2_990
            for archive, (seconds, rows) in zip(old.archives, RETENTIONS):
                (start, _, step), values = whisper.fetch(self.old, now - seconds * rows, now, now=now,
                                                         archiveToSelect=f"{seconds}s")
                self.assertEqual({start + step * at: value for at, value in enumerate(values) if value is not None},
                                 {when: value for when, value in archive.values.items() if start <= when <= now})
