# SPDX-License-Identifier: MIT OR Apache-2.0
"""The program reads each file as the reader in Python does, which was written from docs/file-format.md alone.

- Whole files of both versions: the same settings, raw values and rows, and each entry of the journal is what a revert
  brings back.
- Damaged files: the same fault, or neither reports one; then both read the same.
- Files that look as if a change had been broken off, many of them forged: both agree as above, and afterwards the file
  has the bytes for which the reader says that it stands.

Each seed makes files of its own. --seeds=FIRST:COUNT tries other ones."""
from __future__ import annotations

import random
from pathlib import Path
from typing import Any, Iterator

import pytest

from fuzz.random_files import LARGE, SMALL, damaged, fields_of, random_lines
from rrdi import reader
from support.check import Check
from support.forged import forged
from support.layout import as_version
from support.program import Program, parted, put

FILES = "files"
# What one seed makes: databases, each as files of both versions, and damaged files and files with a mark made of these.
DATABASES, DAMAGED, MARKED, OF_PAGES = 15, 600, 150, 5
LEAST, LEAST_LONG = {FILES: 1_560, "reverts": 300}, {FILES: 7_800, "reverts": 1_500}


class Differs(Exception):
    """The program and the reader do not agree."""


def same(what: str, got: object, wanted: object) -> None:
    if got != wanted:
        raise Differs(f"{what}: {got!r}, not {wanted!r}")


class Comparison:
    """Compares both readers on one file."""

    def __init__(self, program: Program, file: Path, check: Check) -> None:
        self.program, self.file, self.check = program, file, check

    def printed(self, name: str, *words: object) -> str:
        status, out, err = self.program.run([name, self.file, *words])
        same(f"the end of {name} {words}", (status, err), (0, ""))
        return out

    def compare(self, data: bytes, reverts: bool) -> str:
        """Compares both readers on these bytes. Returns the fault without its number, or `read`."""
        put(self.file, data)
        status, out, err = self.program.run(["info", self.file])
        same("the bytes afterwards", self.file.read_bytes(), data)
        self.program.run(["update", self.file, "0:1"])  # is refused, and repairs the file
        same("the bytes after a repair", self.file.read_bytes(), reader.settled(data))
        try:
            database = reader.read(data)
        except reader.Fault as fault:
            same("the fault", (status, out, parted(err)[0]), (1, "", f"ERROR: {fault}\n"))
            return " ".join(word for word in str(fault).split() if not word.isdigit())
        same("the end of info", (status, err), (0, ""))
        same("info", out.splitlines(), list(info(database)))
        names = " ".join(source["name"] for source in database["sources"])
        raws = " ".join(map(raw_of, database["sources"]))
        same("lastupdate", self.printed("lastupdate"), f"time: {names}\n{database['last_time']}: {raws}\n")
        self.compare_rows(database, names)
        if reverts:
            self.compare_reverts(database)
        return "read"

    def compare_rows(self, database: dict[str, Any], names: str) -> None:
        seen = set()
        for number, archive in enumerate(database["archives"]):
            rows, length = archive["rows"], database["step"] * archive["steps"]
            same("first", self.printed("first", "--rraindex", number), f"{rows[0]['time']}\n")
            begin, newest = max(rows[0]["time"] - length, 0), rows[-1]["time"]
            # A fetch prints the first archive of this kind, and a damaged one may have more rows than can be printed.
            if (archive["function"], length) in seen or newest <= begin or (newest - begin) // length > 10**6:
                continue
            seen.add((archive["function"], length))
            wanted = [f"{row['time']}: {' '.join('nan' if cell is None else str(cell) for cell in row['cells'])}"
                      for row in rows if row["time"] > begin]
            out = self.printed("fetch", archive["function"], "-r", length, "-s", begin, "-e", newest - 1)
            same(f"archive {number}", out.splitlines(), [f"time: {names}", *wanted])

    def compare_reverts(self, before: dict[str, Any]) -> None:
        """Reverts each change: its entry in the journal says what the file is afterwards."""
        while before["journal"]:
            self.printed("revert")
            after = reader.read(self.file.read_bytes())
            same(f"a reverted {before['journal'][0]['change']}", after, reverted(before))
            self.check.count("reverts")
            before = after
        told = self.program.run(["revert", self.file])
        none_left = f"rrdi: no change is left in the journal, which keeps the newest {before['journal_depth']}\n"
        same("one revert more than changes", told, (1, "", f"ERROR: nothing to revert\n{none_left}"))


def reverted(before: dict[str, Any]) -> dict[str, Any]:
    """Returns a database without its newest change, by the entry of this change."""
    entry, *older = before["journal"]
    sources, archives = ([dict(part) for part in before[name]] for name in ("sources", "archives"))
    after = {**before, "version": 2, "journal": older, "sources": sources, "archives": archives}
    if entry["change"] == "update":
        after["last_time"] = entry["last_time"]
        for source, replaced in zip(sources, entry["sources"]):
            source.update(replaced)
        for archive, replaced in zip(archives, entry["archives"]):
            kept = len(archive["rows"]) - len(replaced["rows"])
            archive.update(preparations=replaced["preparations"], rows=replaced["rows"] + archive["rows"][:kept])
    elif entry["change"] == "tune":
        for replaced in entry["sources"]:
            sources[replaced["number"]].update({name: value for name, value in replaced.items() if name != "number"})
    elif entry["change"] == "addition":
        archives.pop()
    elif entry["change"] == "removal":
        names = ("function", "steps", "xff", "preparations", "rows")
        archives.insert(entry["archive"], {name: entry[name] for name in names})
    else:
        archives[entry["archive"]]["rows"] = entry["rows"]
    return after


def raw_of(source: dict[str, Any]) -> str:
    return "U" if source["last_raw"] is None else str(source["last_raw"])


def info(database: dict[str, Any]) -> Iterator[str]:
    """Yields the lines that `rrdi info` prints of a database."""
    yield f"step = {database['step']}"
    yield f"last_update = {database['last_time']}"
    yield f"journal = {database['journal_depth']}"
    yield f"undoable = {len(database['journal'])}"
    for number, source in enumerate(database["sources"]):
        for name, key in (("name", "name"), ("type", "type"), ("minimal_heartbeat", "heartbeat")):
            yield f"ds[{number}].{name} = {source[key]}"
        for key in ("min", "max"):
            yield f"ds[{number}].{key} = {'U' if source[key] is None else source[key]}"
        yield f"ds[{number}].last_raw = {raw_of(source)}"
    for number, archive in enumerate(database["archives"]):
        for name, value in (("cf", archive["function"]), ("xff", archive["xff"]), ("steps", archive["steps"]),
                            ("rows", len(archive["rows"]))):
            yield f"rra[{number}].{name} = {value}"


# ---- files


def made(program: Program, lines: str, file: Path) -> bytes:
    """Returns the bytes of the file that lines create."""
    put(file, None)
    answer = program.run(["batch", file], lines)
    assert file.exists(), f"{lines} created no file: {answer}"
    return file.read_bytes()


def files_of(seed: int, program: Program, file: Path) -> Iterator[tuple[str, bytes, bool]]:
    """Yields files: the name of each one, its bytes, and whether its journal is compared."""
    chance, whole = random.Random(seed), []
    for number in range(DATABASES):
        data = made(program, random_lines(chance, SMALL), file)
        yield f"database {number}", data, True
        whole.append(data)
        # The first version has no entries of archives that came or went.
        comes_or_goes = any(entry["change"] in ("addition", "removal") for entry in reader.read(data)["journal"])
        yield f"database {number} in the first version", as_version(1, data), not comes_or_goes
        whole += [] if comes_or_goes else [as_version(1, data)]
    large = [made(program, random_lines(chance, LARGE), file) for _ in range(OF_PAGES)]
    for number in range(DAMAGED):
        data = chance.choice(whole)
        data = damaged(chance, data, fields_of(data), whole)
        if chance.random() < 0.15:
            data = damaged(chance, data or b"R", [(0, 4), (len(data) // 2, 1)], whole)
        yield f"damaged file {number}", data, chance.random() < 0.3
    for number in range(MARKED):
        old, new = chance.choice([whole, large]), chance.choice([whole, large])
        data = forged(chance, chance.choice(old), chance.choice(new))
        yield f"file with a mark {number}", data, chance.random() < 0.3


def compare_file(comparison: Comparison, name: str, data: bytes, reverts: bool) -> None:
    comparison.check.count(FILES)
    try:
        fault = comparison.compare(data, reverts).replace("file: ", "")
        comparison.check.count(f"reported {fault!r}")
    except Differs as differs:
        comparison.check(False, f"{name} differs: {differs}; bytes {data.hex()}")


def pytest_generate_tests(metafunc: pytest.Metafunc) -> None:
    if "seed" in metafunc.fixturenames:
        first, _, count = metafunc.config.getoption("seeds").partition(":")
        begin, usual = int(first or 0), 10 if metafunc.config.getoption("long") else 2
        metafunc.parametrize("seed", range(begin, begin + int(count or usual)))


def test_files(seed: int, program: Program, tmp_path: Path, check: Check) -> None:
    comparison = Comparison(program, tmp_path / "compared.rrdi", check)
    for name, data, reverts in files_of(seed, program, tmp_path / "made.rrdi"):
        compare_file(comparison, name, data, reverts)
