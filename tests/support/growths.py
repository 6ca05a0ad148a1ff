# SPDX-License-Identifier: MIT OR Apache-2.0
"""Runs of a batch or a command in which an allocation is refused, and where in the run each allocation was.

A growth is an allocation, or a block that is made larger; support/between.c counts them."""
from __future__ import annotations

import tempfile
from collections import Counter
from dataclasses import dataclass
from itertools import accumulate
from pathlib import Path
from typing import Any, NamedTuple, Union

from support import between
from support.marks import CUT
from support.program import Answer, Program, held, put

FILE = "net.rrdi"
# The parts of a run that have allocations of no line.
START, END, STORE, REPORT = "start", "end", "store", "report"
Where = Union[int, str]


@dataclass
class Task:
    """The program's arguments, its standard input, and the lines that create its file, if it has one. A batch may have
    its commands and its output, as the definitions have them."""
    name: str
    words: list[str]
    lines: str = ""
    made: str | None = None
    commands: list[Any] | None = None
    text: str | None = None

    @property
    def is_batch(self) -> bool:
        return self.words[:1] == ["batch"]

    @property
    def rows(self) -> list[str]:
        """Returns the lines, each with its end."""
        *whole, last = self.lines.split("\n")
        return [f"{line}\n" for line in whole] + ([last] if last else [])

    def without(self, first: int, behind: int) -> Task:
        """Returns the batch without the lines between two numbers."""
        return Task(self.name, self.words, "".join(self.rows[:first] + self.rows[behind:]), self.made)


class Told(NamedTuple):
    """The answer of a run, and the file afterwards: under a cut mark, as the next command leaves it."""
    status: int | str
    out: str
    err: str
    held: bytes | None


@dataclass
class End:
    """How a run ended, and its log."""
    told: Told
    events: list[between.Event]

    @property
    def has_refusal(self) -> bool:
        return any(event.is_refused for event in self.events)

    @property
    def reads_input(self) -> bool:
        return any(event.kind == "read" and event.file == 0 for event in self.events)

    @property
    def kept(self) -> tuple[int, int] | None:
        """Returns the number of blocks that were not freed, and the maximum number of bytes held at a time."""
        last = self.events[-1] if self.events else None
        return (int(last.words[0]), int(last.words[3])) if last and last.kind == "end" else None

    def stored(self) -> range:
        """Returns the growths of the change of the file: that of the new bytes, the last one of their size before the
        first write, and all that follow it."""
        sizes: list[int] = []
        before = None
        for event in self.events:
            if event.kind == "pwrite" and before is None:
                before = len(sizes)
            if event.kind == "grow":
                sizes.append(event.size)
        new = self.told.held
        found = [number for number, size in enumerate(sizes[:before or 0]) if new is not None and size == len(new)]
        return range(found[-1], len(sizes)) if found else range(0)

    def places(self, task: Task) -> tuple[list[Where], Counter[Where]]:
        """Returns for each growth the number of its line, or START or END, and for each line the number of bytes that
        it printed. A line begins when its first bytes are read, and may take several reads. A last line without its end
        runs at the end of the input."""
        ends = set(accumulate(len(row) for row in task.lines.splitlines(keepends=True)))
        line: Where = START
        places: list[Where] = []
        printed: Counter[Where] = Counter()
        offset = 0
        for event in self.events:
            if event.kind == "read" and event.file == 0:
                if event.got > 0:
                    if offset == 0 or offset in ends:
                        line = line + 1 if isinstance(line, int) else 0
                    offset += event.got
                elif task.lines.endswith("\n") or not task.lines:
                    line = END
            elif event.kind == "grow":
                places.append(line)
            elif event.kind == "write" and event.file == 1:
                printed[line] += event.got
            elif event.kind == "write" and event.file == 2:
                line = REPORT
        return places, printed


class Runner:
    """Runs tasks with allocations that are refused. `library` is between the program and the system."""

    def __init__(self, program: Program, library: str, folder: Path, shrinks: bool = False) -> None:
        self.program, self.library, self.folder, self.shrinks = program, library, folder, shrinks
        self.files: dict[str, bytes | None] = {}
        self.count = 0

    def file_of(self, task: Task) -> bytes | None:
        """Returns the file of a task, which its lines create."""
        if task.made is None:
            return None
        if task.made not in self.files:
            with tempfile.TemporaryDirectory(dir=self.folder) as folder:
                answer = self.program.run(["batch", FILE], task.made, cwd=folder)
                if answer != Answer(0):
                    raise RuntimeError(f"{task.made} ends in {answer}")
                self.files[task.made] = held(Path(folder, FILE))
        return self.files[task.made]

    def run(self, task: Task, **settings: object) -> End:
        """Runs a task in a folder of its own. The name of the program is the same in each folder, so that its arguments
        have the same sizes."""
        with tempfile.TemporaryDirectory(dir=self.folder) as folder:
            file, log = Path(folder, FILE), Path(folder, "log")
            put(file, self.file_of(task))
            env = between.settings(self.library, LOG=log, LINES=1, SHRINKS=int(self.shrinks), **settings)
            answer = self.program.run(task.words, task.lines, cwd=folder, env=env, name="rrdi")
            self.count += 1
            if (held(file) or b"").startswith(CUT):
                self.program.run(["batch", FILE], "last\n", cwd=folder)
            return End(Told(*answer, held(file)), between.events_of(log))
