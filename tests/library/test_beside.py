# SPDX-License-Identifier: MIT OR Apache-2.0
"""Readers beside a process that keeps files open: they come in between two changes, get one database, and lose none of
what was acknowledged, also when that process is killed; and the process is never refused."""
from __future__ import annotations

import os
import random
import subprocess
import sys
import threading
import time
from pathlib import Path
from typing import Callable, Iterator, List, Tuple

import pytest

from support import beside
from support.check import Check
from support.program import KILLED, TOP, Answer, Program, environment, error, held, parted, waited

sys.path.insert(0, str(TOP / "python"))

from rrdi import reader  # noqa: E402
from rrdi.amounts import MILLION  # noqa: E402

LEAST = {"readers at rest": 8, "readings": 200, "kills": 4}
LEAST_LONG = {"readings": 2_000, "kills": 10}
AT_ONCE = {"RRDI_WAIT": "0"}
PATIENT = {"RRDI_WAIT": "60"}
Rows = List[Tuple[int, List[float]]]


@pytest.fixture
def recorders() -> Iterator[list[beside.Recorder]]:
    """The recorders of a test, which are ended with it."""
    found: list[beside.Recorder] = []
    yield found
    for recorder in found:
        if recorder.process.returncode is None:
            recorder.kill()


def new_files(program: Program, folder: Path, count: int) -> list[Path]:
    files = [folder / f"{number}.rrdi" for number in range(count)]
    for file in files:
        assert program.run(["create", file, *beside.DEFINITION]) == Answer(0)
    return files


# ---- the ways to read a file


def by_program(program: Program, file: Path, env: dict[str, str]) -> Rows:
    answer = program.run(["fetch", file, "LAST", "-s", "0", "-e", "4000"], env=env)
    assert (answer.status, answer.err) == (0, ""), answer
    return beside.rows_of(answer.out)


def by_reader(file: Path) -> Rows:
    """Reads a file by Python's reader, which waits for as long as RRDI_WAIT says, or 5 seconds."""
    rows = reader.read_file(str(file))["archives"][0]["rows"]
    return [(row["time"], [cell / MILLION for cell in row["cells"]]) for row in rows if None not in row["cells"]]


def by_tool(tool: str, words: list[object], env: dict[str, str]) -> Answer:
    ran = subprocess.run([sys.executable, TOP / "tools" / tool, *map(str, words)], capture_output=True, text=True,
                         env=environment(env))
    return Answer(ran.returncode, ran.stdout, ran.stderr)


# ---- between two changes


def check_at_rest(program: Program, library: Path, file: Path, last: int, check: Check) -> None:
    """Reads a file that another process has open, and is not changing: everybody comes in at once, and changes nothing."""
    before = held(file)
    by_tools = {**AT_ONCE, "RRDI_LIBRARY": str(library), "RRDI": program.path}
    for name, faults in (
            ("the program", beside.faults_in(by_program(program, file, AT_ONCE), last)),
            ("the program's last", [] if program.run(["last", file], env=AT_ONCE).out == f"{last}\n" else ["another time"]),
            ("the reader", beside.faults_in(by_reader(file), last)),
            *((tool, [answer.err] if answer.status else []) for tool in ("rrdi-show", "rrdi-export")
              for answer in [by_tool(tool, [file], by_tools)])):
        check.count("readers at rest")
        check(not faults, f"{name} beside an open file: {'; '.join(faults)}")
    check(held(file) == before, "a reader has changed the file")


def check_other_writer(program: Program, file: Path, last: int, check: Check) -> None:
    """Somebody else cannot change a file that a process has open."""
    before = held(file)
    answer = program.run(["update", file, f"{last + 1}:1:1"], env=AT_ONCE)
    check((answer.status, parted(answer.err)) == (1, (error("cannot open"), waited(0))) and held(file) == before,
          f"an update beside an open file: {answer}")


def test_at_rest(program: Program, library: Path, folder: Path, check: Check,
                 recorders: list[beside.Recorder]) -> None:
    """Everybody reads an open file between two changes, and after a kill; nobody else changes it."""
    file = new_files(program, folder, 1)[0]
    for begin in (0, 20):
        recorders.append(beside.Recorder(library, [file], 0))
        check(recorders[-1].has_begun, "the recorder cannot open the file")
        for last in range(begin + 1, begin + 21):
            recorders[-1].tell()
        check_at_rest(program, library, file, last, check)
        check_other_writer(program, file, last, check)
        check(recorders[-1].kill() == "", "the recorder was refused")
        check_at_rest(program, library, file, last, check)
    answer = program.run(["update", file, f"{last + 1}:1:1"])
    check(answer == Answer(0), f"an update after a kill: {answer}")


# ---- while it changes


class Readers:
    """Threads that read files of which others acknowledge what they have written."""

    def __init__(self, program: Program, files: list[Path], written: Callable[[int], int], count: int, check: Check):
        self.program, self.files, self.written, self.check = program, files, written, check
        self.is_over = threading.Event()
        self.waits: list[float] = []
        self.threads = [threading.Thread(target=self._read, args=(number,)) for number in range(count)]
        for thread in self.threads:
            thread.start()

    def _read(self, number: int) -> None:
        chosen = random.Random(number)
        while not self.is_over.is_set():
            at = chosen.randrange(len(self.files))
            last, begin = self.written(at), time.monotonic()
            faults = self._faults(number, self.files[at], last)
            self.waits.append(time.monotonic() - begin)
            self.check.count("readings")
            self.check(not faults, f"reader {number}: {'; '.join(faults[:3])}")
            time.sleep(0.02)

    def _faults(self, number: int, file: Path, last: int) -> list[str]:
        try:
            rows = by_program(self.program, file, PATIENT) if number % 2 else by_reader(file)
        except (AssertionError, OSError, reader.Damaged) as error:
            return [str(error)]
        return beside.faults_in(rows, last)

    def end(self) -> None:
        self.is_over.set()
        for thread in self.threads:
            thread.join()


def crowd(program: Program, library: Path, folder: Path, check: Check, recorders: list[beside.Recorder], *, files: int,
          readers: int, kills: int, seconds: float) -> None:
    """Kills a process that updates files ten times a second, while others read them, and starts it again."""
    paths = new_files(program, folder, files)
    written = {number: 0 for number in range(files)}

    def follow() -> None:
        for number, last in recorders[-1].written.items():
            written[number] = max(written[number], last)

    def last_of(number: int) -> int:
        return max(written[number], recorders[-1].written.get(number, 0))
    recorders.append(beside.Recorder(library, paths, 0.1))
    reading = Readers(program, paths, last_of, readers, check)
    try:
        for _ in range(kills):
            time.sleep(random.uniform(0.5, 1.5) * seconds / kills)
            check(recorders[-1].process.poll() is None, "the recorder has ended by itself")
            said = recorders[-1].kill()
            check(said == "" and recorders[-1].process.returncode == KILLED, f"the recorder was refused: {said}")
            follow()
            for number, path in enumerate(paths[:3]):
                last = int(program.run(["last", path], env=PATIENT).out)
                check(last in (written[number], written[number] + 1),
                      f"after a kill file {number} ends at {last}, and {written[number]} was acknowledged")
            check.count("kills")
            recorders.append(beside.Recorder(library, paths, 0.1))
            check(recorders[-1].has_begun, "the recorder cannot open the files again")
        while check.tried["readings"] < LEAST["readings"] and recorders[-1].process.poll() is None:
            time.sleep(0.05)  # however slow the machine is
    finally:
        reading.end()
    check(min(written.values()) > 0, "a file was never updated")
    if "RRDI_TEST_WAITS" in os.environ:  # for who measures; no verdict depends on it
        waits = sorted(reading.waits)
        print(f"{len(waits)} readings: median {waits[len(waits) // 2]:.4f} s, longest {waits[-1]:.4f} s")


@pytest.mark.xdist_group("locks")
def test_beside_changes(program: Program, library: Path, folder: Path, check: Check,
                        recorders: list[beside.Recorder]) -> None:
    crowd(program, library, folder, check, recorders, files=3, readers=6, kills=4, seconds=8)


@pytest.mark.long
@pytest.mark.xdist_group("locks")
def test_beside_many_changes(program: Program, library: Path, folder: Path, check: Check,
                             recorders: list[beside.Recorder]) -> None:
    crowd(program, library, folder, check, recorders, files=50, readers=20, kills=10, seconds=60)
