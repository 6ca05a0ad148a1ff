# SPDX-License-Identifier: MIT OR Apache-2.0
"""Each check of the library's tests rejects wrong answers, by small programs in place of those that use the library."""
from __future__ import annotations

import errno
from pathlib import Path
from typing import Callable

import pytest

from library.test_against_program import Growth, Growths, check_commands_on_stack, compare_batch, compare_openings
from library.test_creating import IS_THERE, MADE, NEW, RACES, Creator, Left, judge_fault, judge_kill, judge_race
from library.test_functions import OF_VALGRIND, WORKED, run_case
from library.test_lock_order import ANSWERS, check_logs, check_open_file
from support.changes import FILE, Place
from support.check import Check
from support.fakes import answering, build, compiled
from support.library import STACK, run_checks


@pytest.fixture
def rejects(planted: Check) -> Callable[..., bool]:
    """Tells whether a judgement rejects something of what it gets."""
    def is_rejected(judge: Callable[..., object], *words: object) -> bool:
        before = len(planted.faults)
        judge(*words, planted)
        return len(planted.faults) > before
    return is_rejected


def test_programs_of_checks(folder: Path, rejects: Callable[..., bool]) -> None:
    for number, (status, out, is_right) in enumerate((
            (0, "3 tests: 0 wrong\n", True), (1, "3 tests: 0 wrong\n", False), (0, "3 tests: 1 wrong\n", False),
            (0, "0 tests: 0 wrong\n", False), (0, "3 tests: 0 wrong\nmore\n", False), (0, "", False))):
        words = [answering(folder / "tests", status, out).path]
        assert rejects(run_checks, words, folder / str(number)) != is_right, (status, out)


def test_worked_batches(folder: Path, rejects: Callable[..., bool]) -> None:
    name = OF_VALGRIND[0]
    text = (WORKED / f"{name}.stdout").read_text()
    for status, out, err, is_right in ((0, text, "", True), (1, text, "", True), (9, text, "", False),
                                       (0, text + "x", "", False), (0, text, "==1== lost", False)):
        words = [answering(folder / "valgrind", status, out, err).path]
        assert rejects(run_case, words, name, folder) != is_right, (status, err)


def test_logs(folder: Path, between: str, rejects: Callable[..., bool], monkeypatch: pytest.MonkeyPatch) -> None:
    """Finds a call without its lock in the log, and an open file that others could lock."""
    place = Place(build(folder / "fake"), between, folder)
    monkeypatch.setenv("FAKE_BUG", "reads-without-lock")
    assert rejects(check_logs, place, "over a file")
    monkeypatch.setenv("FAKE_BUG", "")
    for answers in (ANSWERS, ANSWERS.replace("13 held", "13 free")):
        assert rejects(check_open_file, answering(folder / "opened", 0, answers), place)


# The answers of processes that make one file, what they leave, and whether that is right.
WHOLE, HALF, LATE, ONE = b"whole", b"half", f"15 {errno.EIO}\n", (f"{NEW}.new-7-0",)
RACE = (([MADE, IS_THERE], Left(WHOLE), True), ([MADE, MADE], Left(WHOLE), False),
        ([IS_THERE, IS_THERE], Left(WHOLE), False), ([MADE, LATE], Left(WHOLE), False),
        ([MADE, IS_THERE], Left(HALF), False), ([MADE, IS_THERE], Left(WHOLE, ONE), False))
# What a kill leaves, the next answer, what is left then, whether an empty file may be, and whether that is right.
KILL = ((Left(None, ONE), MADE, Left(WHOLE, ONE), False, True),
        (Left(WHOLE, ONE), IS_THERE, Left(WHOLE, ONE), False, True),
        (Left(b"", ONE), IS_THERE, Left(b"", ONE), True, True),
        (Left(b"", ONE), IS_THERE, Left(b"", ONE), False, False), (Left(HALF), IS_THERE, Left(HALF), True, False),
        (Left(None, ONE * 2), MADE, Left(WHOLE, ONE * 2), False, False),
        (Left(None), IS_THERE, Left(None), False, False), (Left(WHOLE), MADE, Left(WHOLE), False, False),
        (Left(None, ONE), MADE, Left(WHOLE), False, False), (Left(WHOLE), IS_THERE, Left(HALF), False, False))
# The answer after a fault, what is left, whether the other file may stay, and whether that is right.
# The same of a file that has its name, without the third.
NAMED = ((LATE, Left(WHOLE), True), (MADE, Left(WHOLE), True), (LATE, Left(None), False), (LATE, Left(WHOLE, ONE), False))
FAULT = ((MADE, Left(WHOLE), False, True), (LATE, Left(None), False, True), (LATE, Left(None, ONE), True, True),
         (LATE, Left(b"", ONE), True, False), (LATE, Left(b""), False, False), (LATE, Left(None, ONE), False, False), (LATE, Left(WHOLE), False, False),
         (LATE, Left(HALF), True, False), (MADE, Left(None), False, False), (IS_THERE, Left(None), False, False))


def test_files_that_are_made(rejects: Callable[..., bool]) -> None:
    for answers, left, is_right in RACE:
        assert rejects(judge_race, answers, left, WHOLE) != is_right, (answers, left)
    for left, following, then, is_empty, is_right in KILL:
        found = rejects(judge_kill, "a kill", left, following, then, WHOLE, is_empty)
        assert found != is_right, (left, following, then)
    for said, left, keeps, is_right in FAULT:
        assert rejects(judge_fault, "a fault", said, left, WHOLE, errno.EIO, keeps, False) != is_right, (said, left)
    for said, left, is_right in NAMED:
        assert rejects(judge_fault, "a fault", said, left, WHOLE, errno.EIO, False, True) != is_right, (said, left)


def test_a_program_that_makes_no_file(folder: Path, between: str, rejects: Callable[..., bool]) -> None:
    idle = Creator(answering(folder / "idle", 0, LATE), between, folder)
    assert rejects(idle.try_races, max(RACES)) and rejects(idle.try_disturbed, "with links")


def test_batches(folder: Path, rejects: Callable[..., bool]) -> None:
    right = answering(folder / "right", 0, "1\n")
    for status, out, is_right in ((0, "1\n", True), (0, "2\n", False), (1, "1\n", False)):
        other = answering(folder / "other", status, out)
        assert rejects(compare_batch, right, other, folder, 1) != is_right, (status, out)


def test_open_files(folder: Path, rejects: Callable[..., bool]) -> None:
    same, other = (answering(folder / text, more=f"echo {text} >{FILE}") for text in ("a", "b"))
    assert not rejects(compare_openings, 1, same, same, folder) and rejects(compare_openings, 1, same, other, folder)


def test_stacks(folder: Path, rejects: Callable[..., bool]) -> None:
    for count, is_right in ((STACK, True), (STACK + 1, False), (0, False)):
        deep = answering(folder / "deep", more=f'[ -z "$STACK_USED" ] || echo {count} > "$STACK_USED"')
        assert rejects(check_commands_on_stack, deep, folder) != is_right, count


# A program that allocates memory twice, and frees the memory; or has a fault when an allocation fails.
ALLOCATES = """
#include <stdio.h>
#include <stdlib.h>

int main(void) {
    char *first = malloc(10), *second = malloc(20);
    if (!first || !second)
        FAULT;
    free(first);
    free(second);
    return !first || !second;
}
"""
TOLD = 'fputs("ERROR: out of memory\\n", stderr)'
FAULTS = ((TOLD, True), (f"first = {TOLD} ? malloc(7) : first", False), ('fputs("ERROR: usage\\n", stderr)', False),
          (f"{TOLD}, exit(0)", False), (f'puts("1"), {TOLD}', False))


def test_allocations(folder: Path, between_all: str, rejects: Callable[..., bool]) -> None:
    for number, (fault, is_right) in enumerate(FAULTS):
        program = compiled(folder / str(number), ALLOCATES.replace("FAULT", fault))
        task = Growth("a task", ["last", FILE], "", "")
        growths = Growths(program, program, between_all, folder, task, "over a file")
        assert rejects(growths.try_all) != is_right, fault
