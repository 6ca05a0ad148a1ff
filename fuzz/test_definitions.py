# SPDX-License-Identifier: MIT OR Apache-2.0
"""Random batches print what docs/definitions.md says: in memory, and on a file, whole and cut into batches and
commands.

`support/definitions.py` computes the definitions without any code of the program. The number of a batch is its seed,
the same on each machine. A batch that differs is shown with as few commands as still differ. --seeds=FIRST:COUNT tries
other batches. With --old-program=PATH an older program begins the files of the first version, not the layout."""
from __future__ import annotations

import random
from pathlib import Path
from typing import Any, Callable, Sequence

import pytest

from support.check import Check
from support.definitions import run
from support.layout import as_version
from support.program import Answer, Program, held, parted, put, status_of
from support.random_batches import commands_and_texts, text_of

IN_MEMORY, ON_FILES, CONTINUED = "batches in memory", "batches on files", "batches that go on over a file"
LEAST = {IN_MEMORY: 1_000, ON_FILES: 100, CONTINUED: 100, "known values": 11_000, "refusals": 4_000}
LEAST_LONG = {ON_FILES: 1_000, CONTINUED: 1_000, "runs": 20_000}
# The batches of one test: few, so that the processes of xdist share the work.
PART = 25
# The commands that change nothing.
SHOWS = ("fetch", "first", "last", "lastupdate", "info")


class Differs(Exception):
    """What a program prints or leaves is not what the definitions say."""


def same(got: object, wanted: object, what: str) -> None:
    if got != wanted:
        shown = ["\n".join(it) if isinstance(it, list) else str(it) for it in (wanted, got)]
        raise Differs(f"{what}\n--- wanted:\n{shown[0]}\n--- got:\n{shown[1]}")


class Session:
    """The runs of a program on one file, and the lines that the runs printed."""

    def __init__(self, program: Program, file: Path) -> None:
        self.program, self.file, self.runs = program, file, 0
        self.told: list[str] = []
        put(file, None)

    def run(self, words: list[object], lines: str = "") -> Answer:
        self.runs += 1
        return self.program.run(words, lines)

    def held(self) -> bytes | None:
        return held(self.file)

    def batch(self, lines: list[str]) -> None:
        status, out, err = self.run(["batch", self.file], text_of(lines))
        same((status, err), (status_of(out), ""), f"a batch of {lines}")
        self.told += out.splitlines()

    def single(self, line: str) -> None:
        """Runs one command. A command reports its fault on standard error, and `cannot open` if a batch would report
        `no database`."""
        name, *words = line.split()
        before = self.held()
        status, out, err = self.run([name, self.file, *words])
        faults = parted(err)[0].splitlines()
        same((status, len(faults)), (len(faults), len(faults[:1])), f"{line}: {err}")
        if faults or name in SHOWS:
            same(self.held(), before, f"the file after {line}")
        if faults == ["ERROR: cannot open"] and before is None:
            faults = ["ERROR: no database"]
        self.told += out.splitlines() + faults

    def cut(self, number: int, lines: list[str]) -> None:
        """Runs some of the lines as single commands, and the lines between two single commands as a batch."""
        chance, waiting = random.Random(f"cut {number}"), list[str]()
        share = chance.choice([0.1, 0.3, 0.6, 1])
        for line in lines:
            if chance.random() < share:
                if waiting or chance.random() < 0.1:
                    self.batch(waiting)
                self.single(line)
                waiting = []
            else:
                waiting.append(line)
        self.batch(waiting)


class Comparison:
    """Holds a program against the definitions. Each way of comparing takes the number of a batch, its lines, and the
    lines that the definitions print; it raises `Differs`."""

    def __init__(self, program: Program, old: Program | None, folder: Path, check: Check) -> None:
        self.program, self.old, self.folder, self.check = program, old, folder, check

    def in_memory(self, number: int, lines: list[str], wanted: list[str]) -> None:
        text = text_of(wanted)
        same(self.program.run(["batch"], text_of(lines)), Answer(status_of(text), text), "printed")
        self.check.count(IN_MEMORY)
        self.check.count("lines", len(wanted))
        self.check.count("refusals", sum(line.startswith("ERROR: ") for line in wanted))
        self.check.count("known values", sum(line.count(".") for line in wanted if " = " not in line))

    def whole(self, lines: list[str], wanted: list[str]) -> Session:
        whole = Session(self.program, self.folder / "whole")
        whole.batch(lines)
        same(whole.told, wanted, "whole")
        return whole

    def on_a_file(self, number: int, lines: list[str], wanted: list[str]) -> None:
        """A batch leaves the same file, whole and cut."""
        whole, cut = self.whole(lines, wanted), Session(self.program, self.folder / "cut")
        cut.cut(number, lines)
        same(cut.told, wanted, "cut")
        same(cut.held(), whole.held(), "the file")
        self.check.count(ON_FILES)
        self.check.count("runs", cut.runs)
        self.check.count("bytes of files", len(cut.held() or b""))

    def on_an_older_file(self, number: int, lines: list[str], wanted: list[str]) -> None:
        """A batch that began on a file of the first version leaves the file of a new batch, and so does each revert.
        The first version knows no added or removed archive, so it has no line after one that adds or removes."""
        known = min([len(lines), *(at for at, line in enumerate(lines) if line.startswith("tune") and "RRA:" in line)])
        begun = random.Random(f"before {number}").randrange(known + 1)
        whole, cut = self.whole(lines, wanted), Session(self.old or self.program, self.folder / "cut")
        cut.batch(lines[:begun])
        data, cut.program = cut.held(), self.program
        if data and self.old is None:
            same(data[:6], b"RRDI\0\2", "the mark and the version")
            put(cut.file, as_version(1, data))
        self.check.count("files of the first version", int((cut.held() or b"RRDI\0\0")[5] == 1))
        cut.cut(number, lines[begun:])
        same(cut.told, wanted, "cut")
        same(cut.held(), whole.held(), "the file")
        while cut.held() is not None and cut.run(["revert", cut.file]).status == 0:
            whole.run(["revert", whole.file])
            same(cut.held(), whole.held(), "the file after a revert")
            self.check.count("changes reverted at the end")
        self.check.count(CONTINUED)


WAYS: dict[str, Callable[[Comparison, int, list[str], list[str]], None]] = {
    "in memory": Comparison.in_memory, "on a file": Comparison.on_a_file,
    "on an older file": Comparison.on_an_older_file}


def printed(commands: Sequence[Any]) -> list[str]:
    """Returns the lines that the definitions print."""
    database, wanted = None, list[str]()
    for command in commands:
        database, told = run(database, command)
        wanted += told
    return wanted


def difference(way: str, comparison: Comparison, number: int, commands: Sequence[Any], wanted: list[str]) -> str:
    """Returns how the results of these commands differ from the lines that are wanted; nothing if they do not."""
    try:
        WAYS[way](comparison, number, [str(command) for command in commands], wanted)
    except Differs as differs:
        return str(differs)
    return ""


def fewest(commands: Sequence[Any], differs: Callable[[Sequence[Any]], str]) -> Sequence[Any]:
    """Leaves out commands, many at a time and then one by one, while the others still differ."""
    size = len(commands)
    while size := size // 2:
        at = 0
        while at < len(commands):
            rest = [*commands[:at], *commands[at + size:]]
            if differs(rest):
                commands = rest
            else:
                at += size
    return commands


def parts_of(config: pytest.Config, way: str) -> list[range]:
    first, _, count = config.getoption("seeds").partition(":")
    least = 1_000 if config.getoption("long") or way == "in memory" else 100
    numbers = range(int(first or 0), int(first or 0) + int(count or least))
    return [numbers[at:at + PART] for at in range(0, len(numbers), PART)]


def pytest_generate_tests(metafunc: pytest.Metafunc) -> None:
    if "numbers" in metafunc.fixturenames:
        found = [(way, numbers) for way in WAYS for numbers in parts_of(metafunc.config, way)]
        metafunc.parametrize("way, numbers", found, ids=[f"{way}-{numbers[0]}" for way, numbers in found])


def test_batches(way: str, numbers: range, program: Program, tmp_path: Path, check: Check, pytestconfig: pytest.Config
                 ) -> None:
    old = pytestconfig.getoption("old_program")
    compare_batches(way, numbers, Comparison(program, Program.at(old) if old else None, tmp_path, check))


def compare_batches(way: str, numbers: range, comparison: Comparison) -> None:
    """Compares batches until one differs, and then leaves out what does not matter."""
    for number in numbers:
        commands, texts = commands_and_texts(number)
        if difference(way, comparison, number, commands, sum(texts, [])):
            uncounted = Comparison(comparison.program, comparison.old, comparison.folder, Check())
            differs = lambda some: difference(way, uncounted, number, some, printed(some))
            least = fewest(commands, differs)
            comparison.check(False, f"batch {number}, of whose {len(commands)} commands these {len(least)} differ:\n"
                                    f"{text_of(map(str, least))}--- {differs(least)}")
            break
