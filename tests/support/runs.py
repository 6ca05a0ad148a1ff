# SPDX-License-Identifier: MIT OR Apache-2.0
"""Runs of the program in a folder of a test, and what they must print and leave."""
from __future__ import annotations

import subprocess
from contextlib import ExitStack
from pathlib import Path
from typing import Any, Sequence

from support import program as programs
from support.check import Check
from support.program import PATIENCE, Answer, Program, environment, error, lines_in_memory, specified

RUNS = "runs"
CREATE = "--step 10 --start 0 DS:g:GAUGE:100:U:U RRA:LAST:0.5:1:4".split()
FILE = "a net.rrdi"
# The line of a usage fault, after which more lines follow.
MISUSE = "ERROR: usage\n"


def refused(text: str, name: str, reason: str) -> str:
    """Returns the lines of a run that cannot open, read or write a file."""
    return f"{error(text)}rrdi: {name}: {reason}\n"


class Runs:
    """A program, the folder of its files, and the check of a test."""

    def __init__(self, program: Program, folder: Path, check: Check) -> None:
        self.program, self.folder, self.check = program, folder, check

    def held(self, name: str = FILE) -> bytes | None:
        return programs.held(self.folder / name)

    def put(self, held: bytes | None, name: str = FILE) -> None:
        programs.put(self.folder / name, held)

    def run(self, words: Sequence[Any], status: int = 0, out: str = "", err: str = "", lines: str = "",
            **streams: Any) -> None:
        """Runs the program and compares its answer. If the expected error begins with the line of the usage fault, more
        text may follow."""
        told = self.told(words, lines, **streams)
        if err == MISUSE:
            told = told._replace(err=told.err[:len(MISUSE)])
        self.check.same(told, Answer(status, out, err), words)

    def told(self, words: Sequence[Any], lines: str = "", to: str | None = None, stdin: int | None = None,
             explains: bool = False, **env: str) -> Answer:
        """Returns the answer of a run, whose output may go to a file, and whose lines may come from an open one. If
        `explains`, the answer has what is said of refused lines of a batch."""
        self.check.count(RUNS)
        with ExitStack() as streams:
            source = stdin if stdin is not None else streams.enter_context(lines_in_memory(lines)).fileno()
            sink = streams.enter_context(open(to, "wb")).fileno() if to else subprocess.PIPE
            try:
                ran = subprocess.run([self.program.path, *words], cwd=self.folder, timeout=PATIENCE,
                                     env=environment(env),
                                     stdin=source, stdout=sink, stderr=subprocess.PIPE)
            except subprocess.TimeoutExpired:
                return Answer(f"no end in {PATIENCE} seconds")
        err = ran.stderr.decode()
        return Answer(ran.returncode, (ran.stdout or b"").decode(), err if explains else specified(err))

    def same(self, words: Sequence[Any], status: int, err: str, lines: str = "") -> None:
        """Checks that a run is refused and leaves the bytes of the file unchanged."""
        before = self.held()
        self.run(words, status, "", err, lines)
        self.check.same(self.held(), before, f"the file after {words}")
