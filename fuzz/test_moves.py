# SPDX-License-Identifier: MIT OR Apache-2.0
"""Random files of RRDtool lose no row on the way to rrdi and back.

Each cell must agree to a millionth and a ten-billionth of its value: in the new file, in the file that `rrdtool restore`
creates from it, and, of gauges, in both after more samples. Of files of every kind, `rrdi-import` must name each archive
of which a cell or the unfinished row differs, and no other. --seeds=FIRST:COUNT tries other files."""
from __future__ import annotations

import math
import re
import subprocess
import sys
from pathlib import Path
from typing import Any, Callable, Iterator, Sequence

import pytest

from fuzz.random_rrd import Case, odd_case, random_case
from rrdi.importing.batch import RrdBatch
from rrdi.importing.dump import RrdFile
from rrdi.importing.dump import read_rrd as read_dumped
from rrdi.reader.files import read
from rrdi.tools.rrdtool_xml import as_xml
from support.check import Check
from support.program import TOP, Program, environment

FILES, CELLS, ODD_FILES, ODD_ARCHIVES = "files", "cells", "files of every kind", "archives that differ"
ODD_ROWS = "unfinished rows that differ"
LEAST = {FILES: 40, CELLS: 100_000, ODD_FILES: 40, ODD_ARCHIVES: 10, ODD_ROWS: 2}
LEAST_LONG = {FILES: 400, CELLS: 2_000_000, ODD_FILES: 400, ODD_ARCHIVES: 100, ODD_ROWS: 20}
# The files of one test.
PART = 10


class Differing:
    """The cells that were compared, and those that do not agree."""

    def __init__(self) -> None:
        self.cells, self.wrong = 0, list[str]()

    def compare(self, what: str, old: RrdFile, database: dict[str, Any], kind: str) -> None:
        assert len(old.archives) == len(database["archives"])
        for archive, new in zip(old.archives, database["archives"]):
            wanted = archive.function, archive.steps, archive.row_count
            assert wanted == (new["function"], new["steps"], len(new["rows"]))
            if kind in ("steps", "reach") and archive.function == "LAST":
                continue
            for time, column, cell in cells_of(old, archive, new["rows"], kind):
                before, after = archive.cell(time, column), None if cell is None else int(cell) / 1e6
                self.cells += 1
                if not agrees(before, after):
                    self.wrong.append(f"{what}, {archive.function} of {archive.seconds} s at {time}, source {column}: "
                                      f"{before!r} became {after!r}")


def cells_of(old: RrdFile, archive: Any, rows: list[dict[str, Any]], kind: str) -> Iterator[tuple[int, int, Any]]:
    """Yields the time, the column and the value of each cell that must agree."""
    finest = next((archive.begin for archive in old.archives if archive.steps == 1), 0)
    for row in rows:
        if row["time"] > 0 and (kind != "reach" or row["time"] - archive.seconds >= finest):
            for column, cell in enumerate(row["cells"]):
                yield row["time"], column, cell


def agrees(wanted: float, cell: float | None) -> bool:
    if cell is None or math.isnan(wanted):
        return cell is None and math.isnan(wanted)
    return abs(wanted - cell) <= 1.0000010001e-6 + abs(cell) / 1e10


class Move:
    """A file of RRDtool on the way to rrdi and back, in a folder of its own."""

    def __init__(self, program: Program, case: Case, folder: Path) -> None:
        self.program, self.case = program, case
        self.old, self.new, self.back = (folder / name for name in ("old.rrd", "new.rrdi", "back.rrd"))
        for file in (self.old, self.new, self.back):
            file.unlink(missing_ok=True)

    def rrdtool(self, *lines: str) -> None:
        """Runs commands in one process of rrdtool."""
        ran = subprocess.run(["rrdtool", "-"], input="\n".join(lines) + "\n", capture_output=True, text=True)
        assert ran.returncode == 0 and "ERROR" not in ran.stdout + ran.stderr, f"rrdtool: {ran}"

    def update(self, file: Path, samples: Sequence[str]) -> None:
        self.rrdtool(*(f"update {file} {' '.join(samples[at:at + 100])}" for at in range(0, len(samples), 100)))

    def create(self) -> RrdFile:
        case = self.case
        self.rrdtool(f"create {self.old} --step {case.step} --start {case.start} {' '.join(case.definitions)}")
        self.update(self.old, case.samples)
        return read_rrd(self.old)

    def batch(self, lines: Iterator[str]) -> None:
        answer = self.program.run(["batch", self.new], "".join(f"{line}\n" for line in lines))
        assert answer == (0, "", ""), f"the batch: {str(answer)[:500]}"

    def restore(self) -> RrdFile:
        text = "\n".join(as_xml(read(self.new.read_bytes())))
        ran = subprocess.run(["rrdtool", "restore", "/dev/stdin", str(self.back)], input=text, capture_output=True,
                             text=True)
        assert (ran.returncode, ran.stderr) == (0, ""), f"rrdtool restore: {ran}"
        return read_rrd(self.back)

    def add(self) -> None:
        """Adds the later samples to the three files."""
        self.update(self.old, self.case.later)
        self.update(self.back, self.case.later)
        self.batch(f"update {sample}" for sample in self.case.later)


def read_rrd(file: Path) -> RrdFile:
    old = read_dumped("rrdtool", str(file))
    assert old is not None
    for archive in old.archives:
        archive.place(old.step, old.last)
    return old


# Changes what a file of RRDtool is said to hold: a test of the comparison itself.
Spoil = Callable[[RrdFile], None]


def leave(old: RrdFile) -> None:
    """Changes nothing."""


def compared(move: Move, spoil: Spoil) -> Differing:
    """Moves a file, and compares all its cells."""
    old, kind, differing = move.create(), move.case.kind, Differing()
    move.batch(RrdBatch(read_rrd(move.old), None, lambda note: None).noted_lines())
    spoil(old)
    database = read(move.new.read_bytes())
    differing.compare("there", old, database, kind)
    differing.compare("back", move.restore(), database, "whole")
    if move.case.later and not differing.wrong:
        move.add()
        database = read(move.new.read_bytes())
        differing.compare("later", read_rrd(move.old), database, kind)
        differing.compare("later, back", read_rrd(move.back), database, kind)
    return differing


def pytest_generate_tests(metafunc: pytest.Metafunc) -> None:
    if "numbers" in metafunc.fixturenames:
        first, _, count = metafunc.config.getoption("seeds").partition(":")
        begin, count = int(first or 1), int(count or (400 if metafunc.config.getoption("long") else 40))
        parts = [range(at, min(at + PART, begin + count)) for at in range(begin, begin + count, PART)]
        metafunc.parametrize("numbers", parts, ids=[str(part[0]) for part in parts])


def test_files(numbers: range, program: Program, needs: Callable[..., None], tmp_path: Path, check: Check) -> None:
    needs("rrdtool")
    move_files(numbers, program, tmp_path, check)


def move_files(numbers: range, program: Program, folder: Path, check: Check, spoil: Spoil = leave) -> None:
    for number in numbers:
        case = random_case(number)
        differing = compared(Move(program, case, folder), spoil)
        check.count(FILES)
        check.count(CELLS, differing.cells)
        check(not differing.wrong, f"file {number} ({case.kind}): {len(differing.wrong)} of {differing.cells} cells "
                                   f"differ; {differing.wrong[:1]}")


# ---- what rrdi-import says of files of every kind

SAID = re.compile(r"archive (\d+), [A-Z]+ of \d+ s: \d+ of \d+ cells differ, the newest at \d+: \w")
SAID_OF_UNFINISHED = re.compile(r"archive (\d+), [A-Z]+ of \d+ s: [^;]*(?:; )?its unfinished row differs(?:: \w|, too)")


def pairs(old: RrdFile, database: dict[str, Any]) -> Iterator[tuple[Any, dict[str, Any], list[int]]]:
    """Yields the archives that both files have, with the columns of the sources that both have."""
    there = [source["name"] for source in database["sources"]]
    columns = [source.column for source in old.sources if source.name in there]
    kept = [archive for archive in old.archives if archive.function in ("AVERAGE", "MIN", "MAX", "LAST")]
    assert len(kept) == len(database["archives"])
    for archive, new in zip(kept, database["archives"]):
        yield archive, new, columns


def differing_archives(old: RrdFile, database: dict[str, Any]) -> set[int]:
    """Returns the numbers of the archives of which a cell differs."""
    return {archive.number for archive, new, columns in pairs(old, database) for row in new["rows"] if row["time"] > 0
            for column, cell in zip(columns, row["cells"])
            if not agrees(archive.cell(row["time"], column), None if cell is None else int(cell) / 1e6)}


def differing_unfinished(old: RrdFile, database: dict[str, Any]) -> set[int]:
    """Returns the numbers of the archives of which the unfinished row differs."""
    found = set()
    for archive, new, columns in pairs(old, database):
        passed = old.last // old.step % archive.steps
        for column, part in zip(columns, new["preparations"]):
            known = passed - archive.unknown_steps[column]
            parts = known if archive.function == "AVERAGE" else 1
            if known != part["known_steps"] or known and not agrees(archive.partial[column] / parts,
                                                                    int(part["value"]) / 1e6 / parts):
                found.add(archive.number)
    return found


def imported(files: Sequence[Path], into: Path, program: Program) -> dict[str, str]:
    """Converts files by one call of rrdi-import. Returns its line for each file, by the file's name."""
    words = [sys.executable, TOP / "tools/rrdi-import", "--into", into, *files]
    ran = subprocess.run(words, capture_output=True, text=True, env=environment({"RRDI": str(program.path)}))
    return {Path(path).name: text for path, _, text in (
        line.removeprefix("rrdi-import: ").partition(": ") for line in (ran.stdout + ran.stderr).splitlines()) if text}


def faults_of(old: RrdFile, said: str, new: Path) -> list[str]:
    """Returns what is wrong in the line of a file."""
    if not new.exists():
        return [] if re.match("not converted: .+", said) else ["there is no file, and no reason"]
    database = read(new.read_bytes())
    wanted, noted = differing_archives(old, database), set(map(int, SAID.findall(said)))
    wanted_unfinished, noted_unfinished = differing_unfinished(old, database), set(map(int, SAID_OF_UNFINISHED.findall(said)))
    kinds = {"COMPUTE": "skipped data source {}: type COMPUTE is not supported; its formula is ",
             **{kind: f"source {{}}: its type {kind} becomes DERIVE" for kind in ("DCOUNTER", "DDERIVE")}}
    lacking = [source.name for source in old.sources if kinds.get(source.kind, "").format(source.name) not in said]
    return [*([f"it names the archives {noted}, not {wanted}"] if noted != wanted else []),
            *([f"it names the unfinished rows of {noted_unfinished}, not of {wanted_unfinished}"]
              if noted_unfinished != wanted_unfinished else []),
            *([f"it does not tell about {lacking}"] if lacking else [])]


def test_notes(numbers: range, program: Program, needs: Callable[..., None], tmp_path: Path, check: Check) -> None:
    needs("rrdtool")
    note_files(numbers, program, tmp_path, check)


def note_files(numbers: range, program: Program, folder: Path, check: Check, spoil: Spoil = leave) -> None:
    olds = {}
    for number in numbers:
        move = Move(program, odd_case(number), folder)
        olds[f"{number}.rrd"] = move.create()
        move.old.rename(folder / f"{number}.rrd")
    lines = imported([folder / name for name in olds], folder / "new", program)
    for name, old in olds.items():
        spoil(old)
        said = lines.get(name, "")
        found = faults_of(old, said, folder / "new" / f"{name}i")
        check.count(ODD_FILES)
        check.count(ODD_ARCHIVES, len(SAID.findall(said)))
        check.count(ODD_ROWS, len(SAID_OF_UNFINISHED.findall(said)))
        check(not found, f"{name}: {'; '.join(found)}: {said}")
