# SPDX-License-Identifier: MIT OR Apache-2.0
"""A file is replaced by rename over and over while others use it: each answer is of one of the files, or says that the file was
replaced; each change that was accepted is in exactly one file, and each file stays a database of its own."""
from __future__ import annotations

import itertools
import os
import shutil
import subprocess
import sys
import threading
from pathlib import Path
from typing import Callable, List

import pytest

from support.check import Check
from support.program import PATIENCE, TOP, Answer, Program, environment

sys.path.insert(0, str(TOP / "python"))

import rrdi  # noqa: E402
from rrdi import library as library_module, reader  # noqa: E402

LEAST = {"replacements": 400, "readings": 120, "changes": 40}
LEAST_ANSWERS = 30  # of each user while files are replaced
REPLACED = "another program keeps replacing the file"
ROWS, KNOWN = 3_000, 40


class Replaced:
    """A name whose file is replaced, again and again, by a new copy of one of two databases: all values of one are its times, of
    the other the negative times, and their sources have other names. A copy stays linked under a number."""

    def __init__(self, program: Program, folder: Path):
        self.program, self.folder, self.path, self.count = program, folder, folder / "f.rrdi", 0
        self.is_over = threading.Event()
        (folder / "copies").mkdir()
        for name, sign in (("one", ""), ("other", "-")):
            lines = f"create --step 1 --start 0 --journal 5 DS:{name}:GAUGE:100000:U:U RRA:LAST:0.5:1:{ROWS} RRA:MAX:0.5:3:99\n"
            lines += "".join(f"update {at}:{sign}{at}\n" for at in range(1, KNOWN + 1))
            assert program.run(["batch", folder / name], lines) == Answer(0)
        self.replace()

    def replace(self) -> None:
        """Puts the next copy in the place of the file."""
        copy = self.folder / "copies" / str(self.count)
        shutil.copy(self.folder / ("one", "other")[self.count % 2], copy)
        os.link(copy, self.folder / "next")
        os.rename(self.folder / "next", self.path)
        self.count += 1

    def texts(self, *words: str) -> List[str]:
        """Returns what a command answers of each of the two databases."""
        return [self.program.run([words[0], self.folder / name, *words[1:]]).out for name in ("one", "other")]

    def beside(self, users: List[Callable[[], None]], times: int = 100) -> None:
        """Replaces the file at least so many times, and until each user has done its work, which it repeats meanwhile. Who is
        fast waits for the others now and then, and no file is replaced before somebody has used it."""
        done = [0] * len(users)

        def use(number: int) -> None:
            try:
                while not self.is_over.wait(0.05 if done[number] >= LEAST_ANSWERS else 0):
                    users[number]()
                    done[number] += 1
            finally:
                done[number] += LEAST_ANSWERS
        threads = [threading.Thread(target=use, args=(number,)) for number in range(len(users))]
        for thread in threads:
            thread.start()
        begin, seen = self.count, -1
        while self.count - begin < times or min(done) < LEAST_ANSWERS:
            if self.count - begin < times or seen != sum(done):
                seen = sum(done)
                self.replace()
            else:
                self.is_over.wait(0.001)
        self.is_over.set()
        for thread in threads:
            thread.join()


@pytest.fixture
def replaced(program: Program, folder: Path) -> Replaced:
    return Replaced(program, folder)


def is_replaced(answer: Answer) -> bool:
    return answer.status == 1 and REPLACED in answer.err


def test_readers(replaced: Replaced, library: Path, check: Check) -> None:
    """The program, Python's reader and rrdi-show read one of the two databases, whole."""
    words = ("fetch", "LAST", "-s", "0", "-e", str(KNOWN))
    fetched, told = replaced.texts(*words), replaced.texts("info")
    both = [reader.read_file(str(replaced.folder / name)) for name in ("one", "other")]
    show = [sys.executable, "-B", TOP / "tools/rrdi-show", "--csv", "f.rrdi"]
    shown = [subprocess.run([*show[:-1], replaced.folder / name], capture_output=True, text=True).stdout for name in ("one", "other")]

    def by_program(command: str, *more: str, wanted: List[str]) -> None:
        answer = replaced.program.run([command, replaced.path, *more])
        check.count("readings")
        is_right = answer.status == 0 and answer.out in wanted or is_replaced(answer)
        check.same(is_right, True, f"{command}: {answer.status} {answer.err}{answer.out[:300]}")

    def by_reader() -> None:
        check.count("readings")
        try:
            check.same(reader.read_file(str(replaced.path)) in both, True, "the reader has read one of the databases")
        except OSError as error:
            check.same("replacing" in str(error), True, f"the reader: {error}")

    def by_tool() -> None:
        ran = subprocess.run(show, cwd=replaced.folder, capture_output=True, text=True)
        check.count("readings")
        is_right = ran.stdout in shown or ran.returncode == 1 and "replacing" in ran.stderr
        check.same(is_right, True, f"rrdi-show: {ran.stderr} {ran.stdout[:300]}")
    replaced.beside([lambda: by_program("fetch", *words[1:], wanted=fetched), lambda: by_program("info", wanted=told), by_reader, by_tool])
    check.count("replacements", replaced.count)


def stored_in(copy: Path, number: int, check: Check) -> List[int]:
    """Returns the times of the changes that a copy got, and checks the rest of it."""
    database = reader.read_file(str(copy))
    name, sign = ("one", 1) if number % 2 == 0 else ("other", -1)
    check.same([source["name"] for source in database["sources"]], [name], f"copy {number}: its source")
    rows = {row["time"]: row["cells"][0] for row in database["archives"][0]["rows"] if row["cells"][0] is not None}
    check.same({time: int(cell) // 10**6 for time, cell in rows.items() if time <= KNOWN}, {time: sign * time for time in range(1, KNOWN + 1)},
               f"copy {number}: the rows from before")
    last = KNOWN
    found = []
    for time in sorted({int(cell) // 10**6 for at, cell in rows.items() if at > KNOWN}):
        check(last < time and all(int(rows[at]) // 10**6 == time for at in range(last + 1, time + 1)), f"copy {number}: rows up to {time}")
        last = time
        found.append(time)
    return found


def check_changes(replaced: Replaced, accepted: List[int], check: Check) -> None:
    """Each change that was accepted, and no other one, is in exactly one of the copies."""
    found = [time for number in range(replaced.count) for time in stored_in(replaced.folder / "copies" / str(number), number, check)]
    check.count("changes", len(accepted))
    check.same(sorted(found), sorted(accepted), "the changes in all copies")
    check.same(sorted(path.name for path in replaced.folder.iterdir()), ["copies", "f.rrdi", "one", "other"], "the folder")
    check.count("replacements", replaced.count)


def test_changes_by_path(replaced: Replaced, check: Check) -> None:
    """Updates of the file at a path, and batches that run for a while."""
    times, accepted = itertools.count(KNOWN + 1), []

    def update() -> None:
        time = next(times)
        if time >= ROWS:
            return
        answer = replaced.program.run(["update", replaced.path, f"{time}:{time}"])
        if answer.status == 0:
            accepted.append(time)
        else:
            # Another update with a later time may have come first.
            check.same(is_replaced(answer) or answer.err.startswith("ERROR: not later than "), True, f"an update: {answer}")

    def batch() -> None:
        time = next(times)
        if time >= ROWS:
            return
        lines = f"last\nupdate {time}:{time}\n" + "info\n" * 40 + "fetch LAST -s 0 -e 40\nlast\n"
        answer = replaced.program.run(["batch", replaced.path], lines)
        settings = {line for line in answer.out.splitlines() if line.startswith("ds[0].name")}
        check.same(len(settings) == 1 or not settings and is_replaced(answer), True, f"a batch: {answer.status} {answer.err} {settings}")
        if answer.status == 0:
            accepted.append(time)
    replaced.beside([update, batch])
    check_changes(replaced, accepted, check)


def test_a_batch_that_waits(replaced: Replaced, check: Check) -> None:
    """A batch has its file until its input ends, however often the name gets another one meanwhile."""
    with subprocess.Popen([replaced.program.path, "batch", str(replaced.path)], stdin=subprocess.PIPE, stdout=subprocess.PIPE,
                          stderr=subprocess.PIPE, text=True, env=environment({})) as batch:
        assert batch.stdin and batch.stdout
        batch.stdin.write("last\n")
        batch.stdin.flush()
        check.same(batch.stdout.readline(), f"{KNOWN}\n", "the first answer")
        for _ in range(100):
            replaced.replace()
        out, err = batch.communicate(f"update {KNOWN + 1}:{KNOWN + 1}\ninfo\n", PATIENCE)
    check.same((batch.returncode, err, "ds[0].name = one\n" in out), (0, "", True), "the end of a batch")
    check_changes(replaced, [KNOWN + 1], check)


@pytest.mark.parametrize("way", ("a block for each change", "one block"))
def test_open_files(way: str, replaced: Replaced, library: Path, check: Check, monkeypatch: pytest.MonkeyPatch) -> None:
    """A file that stays open keeps its file, or goes to the new one: its answers are of one of them."""
    monkeypatch.setenv("RRDI_LIBRARY", str(library))
    library_module.use_library(library_module.load_library())
    times, accepted, names = itertools.count(KNOWN + 1), [], set()
    database = rrdi.Database(replaced.path)

    def rows_and_change() -> None:
        found = database.fetch("LAST", start=0, end=KNOWN - 1)
        names.add(found.names)
        sign = 1 if found.names == ("one",) else -1
        check.same([row[0] for row in found.rows], [sign * at for at in range(1, KNOWN + 1)], f"rows of {found.names}")
        time = next(times)
        if time < ROWS:
            database.update((time, time))
            accepted.append(time)

    def use() -> None:
        try:
            if way == "one block":
                rows_and_change()
            else:
                with database:
                    rows_and_change()
        except rrdi.Error as refused:
            check.same(REPLACED in str(refused), True, f"an open file: {refused!r}")
    try:
        if way == "one block":
            database.open()
        replaced.beside([use])
        for _ in range(2):  # perhaps all uses came between the same two replacements
            replaced.replace()
            use()
        database.close()
    finally:
        library_module.use_library(None)
    check.same(names, {("one",), ("other",)}, "the databases that were read")
    check_changes(replaced, accepted, check)


def test_wrong_files(replaced: Replaced, planted: Check) -> None:
    """The checks reject a mixture of two databases, and a change that is lost, or in two files."""
    for number, lines in enumerate(("update 50:50\n", f"update 50:7\nupdate 60:{KNOWN + 1}\n")):
        replaced.replace()
        replaced.program.run(["batch", replaced.folder / "copies" / str(number + 1)], lines)
    stored_in(replaced.folder / "copies/2", 1, planted)
    assert len(planted.faults) == 4
    check_changes(replaced, [50, 51], planted)
    assert len(planted.faults) > 6
