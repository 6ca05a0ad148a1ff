# SPDX-License-Identifier: MIT OR Apache-2.0
"""The fuzzers find wrong answers: a check that cannot fail is worth nothing."""
from __future__ import annotations

import math
from pathlib import Path
from typing import Any, Callable

import pytest

from fuzz import test_definitions, test_moves, test_readers
from rrdi.importing.dump import RrdFile
from support import definitions
from support.check import Check
from support.fakes import answering
from support.program import Program, error, status_of
from support.random_batches import batch, text_of

# ---- the definitions

# Definitions that compute otherwise: halves go down, a counter wraps once only, a long name is good, the second bound
# of a source does not count, and a sign is lost.
WRONG: dict[str, Callable[..., Any]] = {
    "near": lambda a, b: a // b,
    "rise": lambda old, new: new - old + (2**32 if new < old else 0),
    "is_good": lambda name: 1 <= len(name) <= 20 and name.replace("_", "a").replace("-", "a").isalnum(),
    "is_outside": lambda value, most: not 1 <= value <= most + 1,
    "shown": lambda value, unknown="nan": unknown if value is None else f"{value / 10**6:.6f}",
}


@pytest.mark.parametrize("name", WRONG)
def test_wrong_definitions(name: str, program: Program, tmp_path: Path, planted: Check, monkeypatch: pytest.MonkeyPatch
                           ) -> None:
    monkeypatch.setattr(definitions, name, WRONG[name])
    comparison = test_definitions.Comparison(program, None, tmp_path, planted)
    test_definitions.compare_batches("in memory", range(1_000), comparison)
    assert len(planted.faults) == 1


LINES, WANTED = batch(3)
TEXT = text_of(WANTED)
STATUS = status_of(TEXT)


# The way of a comparison, and what a program answers.
ANSWERS = {"right": ("in memory", STATUS, TEXT, ""), "another status": ("in memory", 1 - STATUS, TEXT, ""),
           "another number": ("in memory", STATUS, TEXT.replace("1", "2", 1), ""),
           "less": ("in memory", STATUS, TEXT[:-1], ""), "another file": ("on a file", STATUS, TEXT, 'echo >>"$2"'),
           "no file": ("on an older file", STATUS, TEXT, 'echo >>"$2"')}


@pytest.mark.parametrize("answer", ANSWERS)
def test_wrong_answers(answer: str, tmp_path: Path, planted: Check) -> None:
    way, status, out, more = ANSWERS[answer]
    fake = answering(tmp_path / "fake", status, out, more=more)
    (tmp_path / "files").mkdir()
    comparison = test_definitions.Comparison(fake, None, tmp_path / "files", planted)
    test_definitions.compare_batches(way, range(3, 4), comparison)
    assert bool(planted.faults) == (answer != "right")


@pytest.mark.parametrize("line", ("last", "fetch LAST"))
def test_a_command_that_shows_and_changes(line: str, tmp_path: Path) -> None:
    session = test_definitions.Session(answering(tmp_path / "fake", out="0\n", more='echo >>"$2"'), tmp_path / "file")
    with pytest.raises(test_definitions.Differs):
        session.single(line)


# ---- the readers

NOT_OURS = error("file: not ours")


@pytest.mark.parametrize("data, told, more, is_right", (
    (b"RRDX and more", (1, "", NOT_OURS), "", True), (b"RRDX and more", (0, "", NOT_OURS), "", False),
    (b"RRDX and more", (1, "", error("file: version")), "", False), (b"RRDX and more", (1, "x", NOT_OURS), "", False),
    (b"RRDX and more", (0, "", ""), "", False), (b"RRDCached notes of a user", (1, "", NOT_OURS), "", True),
    # A program that repairs a file that is not rrdi's.
    (b"RRDCached notes of a user", (1, "", NOT_OURS), 'printf RRDI | dd of="$2" conv=notrunc 2>/dev/null', False)))
def test_wrong_readers(data: bytes, told: tuple[int, str, str], more: str, is_right: bool, tmp_path: Path,
                       planted: Check) -> None:
    fake = test_readers.Comparison(answering(tmp_path / "fake", *told, more), tmp_path / "file", planted)
    test_readers.compare_file(fake, "a", data, False)
    assert bool(planted.faults) != is_right


# ---- moves


def spoil(old: RrdFile) -> None:
    """Changes the newest cell by a little more than is allowed."""
    cells = old.archives[0].cells
    cells[-1] = 1.0 if math.isnan(cells[-1]) else cells[-1] + 2e-6 + cells[-1] / 5e9


@pytest.mark.parametrize("number", range(1, 5))
def test_a_cell_that_was_changed(number: int, program: Program, needs: Callable[..., None], tmp_path: Path,
                                 planted: Check) -> None:
    needs("rrdtool")
    test_moves.move_files(range(number, number + 1), program, tmp_path, planted, spoil)
    assert len(planted.faults) == 1


def spoil_all(old: RrdFile) -> None:
    """Makes the newest cell of each archive unknown, or known."""
    for archive in old.archives:
        archive.cells[-1] = 1.0 if math.isnan(archive.cells[-1]) else math.nan


def test_notes_that_are_missing(program: Program, needs: Callable[..., None], tmp_path: Path, planted: Check) -> None:
    """Files whose differences nobody named, because they are others than rrdi-import saw."""
    needs("rrdtool")
    test_moves.note_files(range(1, 4), program, tmp_path, planted, spoil_all)
    assert planted.faults
