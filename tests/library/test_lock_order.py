# SPDX-License-Identifier: MIT OR Apache-2.0
"""The calls on a file come in their order: the lock first, then the file's length and name, then its bytes.

The log of the calls shows it, for each kind of command, on a file and on an open file; and no call gives up the lock of
an open file. The same log, and the programs that try the functions, find each bug that c/planted_calls.c can plant in
the library's system calls: a contract cannot refuse these, as it says what rrdi asks of the system, and not how."""
from __future__ import annotations

import re
from pathlib import Path
from typing import Iterator

import pytest

from support import locks
from support.between import calls_of, events_of, settings
from support.changes import FILE, PAGE, PAGES, Place, changes, create, locks_of, made, over_interrupted, readings
from support.check import Check
from support.library import ON_FILES, SOURCES, WAYS, Library, run_checks
from support.program import Answer, Program

LEAST = {"logs of commands": 204, "logs of an open file": 1, "planted bugs": 26}
# Lines for an open file, each with the number of its fault.
OPENED = (("last", 0), ("update 20:2", 0), ("update 5:1", 13), ("update 30", 11), ("nothing", 10), ("tune -i g:1", 0),
          ("resize 0 GROW 300", 0), ("revert", 0), ("+update 40:1", 0), ("+nothing", 0), ("create DS:g", 11),
          (create(PAGE), 0), ("last", 0))
ANSWERS = "".join(f"{fault} held\n" for fault in (0, *(fault for _, fault in OPENED))) + "free\n"
PLANTED = ["", *dict.fromkeys(re.findall(r'has\("([\w-]+)"\)', (SOURCES / "planted_calls.c").read_text()))]


def check_logs(place: Place, way: str, check: Check, bug: str = "") -> None:
    """Judges the log of each kind of command."""
    for task in (*changes(), *readings(), *over_interrupted()):
        ran = place.run(task, place.old(task), BUG=bug, **WAYS[way])
        faults = locks.faults_of(ran.calls, FILE)
        if way == "on an open file" and task.words[0] != "create":
            faults += locks_of(ran.calls, FILE, task.over_database)
        check.count("logs of commands")
        is_tried = any(call.kind == "open" and call.words[4:] == [FILE] for call in ran.calls)
        check(is_tried and not faults, f"{task.name} {way}: {'; '.join(faults[:3]) or 'no call'}")


def check_open_file(opened: Program, place: Place, check: Check, bug: str = "") -> None:
    """Judges the log of an open file, which is locked from the opening to the end."""
    place.program.run(["batch", FILE], made(PAGES), cwd=place.folder)
    place.log.unlink(missing_ok=True)
    env = settings(place.library, LOG=place.log, NO_PAUSES=1, BUG=bug)
    answer = opened.run([FILE], "".join(f"{line}\n" for line, _ in OPENED), cwd=place.folder, env=env)
    events = events_of(place.log)
    faults = locks.faults_of_open(events, FILE) + locks.faults_of(calls_of(events), FILE)
    check.count("logs of an open file")
    check(answer == Answer(0, ANSWERS), f"the locks of an open file: {answer}, not {ANSWERS!r}")
    is_whole = len(list(locks.parts_of(events))) == len(OPENED) + 2
    check(is_whole and not faults, f"an open file: {'; '.join(faults[:3])}")


@pytest.fixture
def place(by_library: Program, between: str, folder: Path) -> Place:
    return Place(by_library, between, folder)


@pytest.mark.parametrize("way", ON_FILES)
def test_a_command(way: str, place: Place, check: Check) -> None:
    check_logs(place, way, check)


def test_an_open_file(opened: Program, place: Place, check: Check) -> None:
    check_open_file(opened, place, check)


@pytest.fixture(scope="session")
def with_bugs(built: Library, workshop: Path) -> dict[str, Path]:
    """The programs whose system calls have the bug that BUG names, by their names."""
    place = workshop / "planted"
    place.mkdir()
    planted = built.planted(place)
    return {source: planted.program(source, static=True)
            for source in ("system.c", "functions.c", "by_library.c", "opened.c")}


def tried(bug: str, programs: dict[str, Path], preload: str, folder: Path) -> Iterator[Check]:
    """Yields what each part of the tests finds with a bug."""
    for source in ("system.c", "functions.c"):
        found = Check()
        run_checks([programs[source]], folder / source, found, bug)
        yield found
    found, place = Check(), Place(Program(str(programs["by_library.c"])), preload, folder)
    for way in ON_FILES:
        check_logs(place, way, found, bug)
    check_open_file(Program(str(programs["opened.c"])), place, found, bug)
    yield found


@pytest.mark.parametrize("bug", PLANTED)
def test_a_bug_of_the_system_calls(bug: str, with_bugs: dict[str, Path], between: str, folder: Path,
                                   check: Check) -> None:
    check.count("planted bugs")
    assert any(found.faults for found in tried(bug, with_bugs, between, folder)) == bool(bug)
