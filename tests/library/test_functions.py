# SPDX-License-Identifier: MIT OR Apache-2.0
"""Each function of the headers: results, faults, buffers that are too small, refused lines, locks, threads.

The tests are the programs in c/: functions.c for the proved functions, inline.c for rrdi_words and rrdi_create_new, numbers.c
for calls by numbers, system.c for what the library asks of the system, database.c for the first part of rrdi.h and its
misuse, misuse.c for that of the other parts. The last two and inline.c run by sanitizers too: no byte beyond a room is read or
written. With --long all run under valgrind, and some worked batches: nothing is read before it is written, and nothing is
lost, but by a child that forgets the file of its parent."""
from __future__ import annotations

import subprocess
from pathlib import Path
from typing import Callable, Sequence

import pytest

from support.check import Check
from support.library import PATIENCE, Library, run_checks
from support.program import TOP, specified

PROGRAMS = ("functions.c", "inline.c", "numbers.c", "system.c", "database.c", "misuse.c")
SANITIZED = ("inline.c", "database.c", "misuse.c")
LEAST, LEAST_LONG = {"checks": 10_000}, {"batches under valgrind": 4}
VALGRIND = ("valgrind", "-q", "--error-exitcode=9", "--leak-check=full", "--show-leak-kinds=all",
            "--errors-for-leak-kinds=all", "--exit-on-first-error=yes")
WORKED = TOP / "crates/rrdi/cases"
OF_VALGRIND = ("road_counter", "shrink_and_grow", "archive_added", "another_type_taken_back")


@pytest.mark.parametrize("static", (False, True), ids=("shared", "static"))
@pytest.mark.parametrize("source", PROGRAMS)
def test_functions(source: str, static: bool, built: Library, folder: Path, check: Check) -> None:
    run_checks([built.program(source, static=static)], folder / "own", check)


@pytest.mark.parametrize("source", SANITIZED)
def test_functions_by_sanitizers(source: str, built: Library, folder: Path, check: Check) -> None:
    run_checks([built.sanitized(source, folder)], folder / "own", check)


@pytest.mark.long
@pytest.mark.parametrize("source", PROGRAMS)
def test_functions_under_valgrind(source: str, built: Library, needs: Callable[..., None], folder: Path,
                                  check: Check) -> None:
    needs("valgrind")
    run_checks([*VALGRIND, built.program(source)], folder / "own", check)


def run_case(words: Sequence[object], name: str, folder: Path, check: Check) -> bool:
    """Runs a worked batch by a program under valgrind."""
    ran = subprocess.run([*map(str, words), "batch", "net.rrdi"], input=(WORKED / name).read_text(),
                         capture_output=True, text=True, cwd=folder, timeout=PATIENCE)
    text = (WORKED / f"{name}.stdout").read_text()
    check.count("batches under valgrind")
    return check(ran.returncode in (0, 1) and (ran.stdout, specified(ran.stderr)) == (text, ""),
                 f"{name} under valgrind: {ran.returncode} {ran.stderr[-2000:]}")


@pytest.mark.long
@pytest.mark.parametrize("name", OF_VALGRIND)
def test_batches_under_valgrind(name: str, built: Library, needs: Callable[..., None], folder: Path,
                                check: Check) -> None:
    needs("valgrind")
    run_case([*VALGRIND, built.program("by_library.c")], name, folder, check)
