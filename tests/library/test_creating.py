# SPDX-License-Identifier: MIT OR Apache-2.0
"""rrdi_create_new makes a file once: by many processes, by processes that are killed, and with calls that fail.

One process makes the file, and no other file stays. Where there are no links, and no renaming that replaces nothing, an
empty file may have the name after a kill. The program is c/creator.c."""
from __future__ import annotations

import errno
import os
import re
import shutil
import subprocess
from pathlib import Path
from typing import NamedTuple

import pytest

from support.between import calls_of, events_of, settings
from support.check import Check
from support.library import Library
from support.program import Program, held

LEAST = {"races": 44, "kills": 57, "calls that failed": 165}
NEW, OTHER = "new.rrdi", re.compile(r"new\.rrdi\.new-\d+-\d+")
MADE, IS_THERE = "0 0\n", f"15 {errno.EEXIST}\n"
# How often so many processes make one file.
RACES = {2: 40, 50: 4}
FAILS = (errno.EIO, errno.ENOSPC, errno.EACCES)
LINKS: dict[str, dict[str, object]] = {"with links": {}, "without links": {"NO_LINKS": 1}, "by a file": {"NO_LINKS": 2}}


class Left(NamedTuple):
    """What a run leaves in its folder: the file of the name, if there is one, and the names of other files."""
    new: bytes | None
    others: tuple[str, ...] = ()

    @property
    def has_other(self) -> bool:
        """Checks whether there is at most one other file, of the name that rrdi.h announces."""
        return len(self.others) <= 1 and all(map(OTHER.fullmatch, self.others))


def judge_race(answers: list[str], left: Left, whole: bytes, check: Check) -> None:
    """Checks that one process has made the file, and the others have found it there."""
    check.count("races")
    is_right = sorted(answers) == sorted([MADE] + [IS_THERE] * (len(answers) - 1)) and left == Left(whole)
    check(is_right, f"{len(answers)} processes make one file: {answers}, {str(left)[:200]}")


def judge_kill(what: str, left: Left, following: str, then: Left, whole: bytes, is_empty: bool, check: Check) -> None:
    """Checks what a kill leaves, which may be an empty file if `is_empty`, and that the next process makes the file, or finds
    it there."""
    check.count("kills")
    is_left = left.new in (None, whole) or left.new == b"" and is_empty
    check(is_left and left.has_other, f"{what}: it leaves {str(left)[:200]}")
    wanted = (IS_THERE, left) if left.new is not None else (MADE, Left(whole, left.others))
    check((following, then) == wanted, f"{what}, then {following!r}, {str(then)[:200]}")


def judge_fault(what: str, said: str, left: Left, whole: bytes, why: int, keeps: bool, is_named: bool, check: Check) -> None:
    """Checks that the file is made, or the reason is told and nothing left, except the other file if it can't be taken
    away, or the file if it has its name, which the disk does not store."""
    check.count("calls that failed")
    is_told = said == f"15 {why}\n" and left.new == (whole if is_named else None)
    is_right = said == MADE and left.new == whole or is_told
    check(is_right and (not left.others or keeps and left.has_other), f"{what}: {said!r}, {str(left)[:200]}")


class Creator:
    """The program that makes a file, in a folder of its own."""

    def __init__(self, program: Program, preload: str, folder: Path) -> None:
        self.program, self.preload, self.log, self.place = program, preload, folder / "log", folder / "place"

    def run(self, **more: object) -> str:
        env = settings(self.preload, LOG=self.log, **more)
        self.log.unlink(missing_ok=True)
        return self.program.run([NEW], cwd=self.place, env=env).out

    def empty(self) -> None:
        shutil.rmtree(self.place, ignore_errors=True)
        self.place.mkdir()

    def left(self) -> Left:
        others = sorted(path.name for path in self.place.iterdir() if path.name != NEW)
        return Left(held(self.place / NEW), tuple(others))

    def whole(self) -> bytes:
        """Returns the bytes of a file that nothing disturbs."""
        self.empty()
        self.run()
        return held(self.place / NEW) or b""

    def race(self, count: int) -> list[str]:
        """Runs so many processes at once: each begins when the pipe is closed."""
        reads, writes = os.pipe()
        started = [subprocess.Popen([self.program.path, NEW], cwd=self.place, stdin=reads, stdout=subprocess.PIPE,
                                    text=True) for _ in range(count)]
        os.close(reads)
        os.close(writes)
        return [it.communicate()[0] for it in started]

    def try_races(self, count: int, check: Check) -> None:
        whole = self.whole()
        check(whole[:4] == b"RRDI", "rrdi_create_new makes no database")
        for _ in range(RACES[count]):
            self.empty()
            judge_race(self.race(count), self.left(), whole, check)

    def try_disturbed(self, way: str, check: Check) -> None:
        """Kills a process that makes a file before each of its calls, and lets each call fail."""
        whole, links = self.whole(), LINKS[way]
        self.empty()
        check(self.run(**links) == MADE, "rrdi_create_new makes no file")
        calls = calls_of(events_of(self.log))
        check(any(call.kind == "link" for call in calls), "rrdi_create_new makes no link")
        named = max((number for number, call in enumerate(calls, 1) if call.kind == "unlink"), default=0)
        check([call.kind for call in calls[named:]] == ["open", "fsync"], "rrdi_create_new does not store the name")
        for number, call in enumerate(calls, 1):
            what = f"rrdi_create_new {way}, call {number}, {call.kind},"
            self.empty()
            self.run(**links, KILL=number)
            left, following = self.left(), self.run(**links)
            judge_kill(f"{what} killed", left, following, self.left(), whole, way == "by a file", check)
            for why in () if links and call.kind == "link" else FAILS:
                self.empty()
                said = self.run(**links, CALL=number, WHY=why)
                judge_fault(f"{what} error {why}", said, self.left(), whole, why, call.kind == "unlink", number > named, check)


@pytest.fixture
def creator(built: Library, between: str, folder: Path) -> Creator:
    return Creator(Program(str(built.program("creator.c"))), between, folder)


@pytest.mark.parametrize("count", RACES)
def test_processes_that_make_one_file(count: int, creator: Creator, check: Check) -> None:
    creator.try_races(count, check)


@pytest.mark.parametrize("way", LINKS)
def test_a_file_that_is_made_in_part(way: str, creator: Creator, check: Check) -> None:
    creator.try_disturbed(way, check)


@pytest.mark.parametrize("before", (b"important", b""))
def test_a_link_in_place_of_the_other_file(before: bytes, built: Library, folder: Path) -> None:
    """Whoever may write the directory puts a link there: the file to which it leads stays as it is."""
    victim = folder / "victim"
    victim.write_bytes(before)
    Program(str(built.program("swapped.c"))).run([NEW, str(victim)], cwd=folder)
    assert victim.read_bytes() == before
