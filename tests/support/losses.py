# SPDX-License-Identifier: MIT OR Apache-2.0
"""Runs of a program on files that others use, and files that it must not lose."""
from __future__ import annotations

import fcntl
import select
import subprocess
import time
from pathlib import Path
from typing import Any, Sequence

from support import between, waits
from support.check import Check
from support.program import PATIENCE, Answer, Program, environment, error, put

TRIED = "runs checked"
CREATE = "--step 10 --start 0 DS:g:GAUGE:100:U:U".split()
FEW = [*CREATE, "RRA:LAST:0.5:1:4"]
CANNOT_OPEN, CANNOT_WRITE = error("cannot open"), error("cannot write")
# A file that is not a database.
OTHER_BYTES = b"no database\n" * 500
# The seconds after which a run hangs, also on a busy machine; and those after which it is looked for again.
HANG, AGAIN = PATIENCE, 0.005


class Losses:
    """A program, a folder for its files, and the check of a test. `library` is between a run and the system."""

    def __init__(self, program: Program, folder: Path, check: Check, library: str) -> None:
        self.program, self.folder, self.check, self.library = program, folder, check, library

    def run(self, words: Sequence[object], lines: str = "", **more: Any) -> Answer:
        return self.program.run(words, lines, **more)

    def make(self, file: Path, rows: int, updates: int, more: str = "") -> bytes:
        """Creates a file of `rows` rows after a number of updates."""
        put(file, None)
        lines = [f"create {more} {' '.join(CREATE)} RRA:LAST:0.5:1:{rows}"]
        lines += [f"update {10 * number}:{number}" for number in range(1, updates + 1)]
        answer = self.run(["batch", file], "\n".join(lines) + "\n")
        if answer != Answer(0):
            raise RuntimeError(f"{file} was not created: {answer}")
        return file.read_bytes()

    def started(self, words: Sequence[object], **env: str) -> subprocess.Popen[str]:
        return subprocess.Popen([self.program.path, *map(str, words)], stdin=subprocess.PIPE, stdout=subprocess.PIPE,
                                stderr=subprocess.PIPE, text=True, env=environment(env))

    def batch(self, file: Path, lines: str) -> subprocess.Popen[str]:
        """Starts a batch that has read these lines, and waits for more."""
        batch = self.started(["batch", file])
        assert batch.stdin
        batch.stdin.write(lines)
        batch.stdin.flush()
        return batch

    def waiting(self, words: Sequence[object], log: Path) -> subprocess.Popen[str]:
        """Starts a run on a file whose lock another program holds. Returns when the run has tried to lock the file."""
        child = self.started(words, **between.settings(self.library, LOG=log, RRDI_WAIT="3600"))
        end = time.monotonic() + HANG
        while not waits.tries(between.events_of(log)) and child.poll() is None and time.monotonic() < end:
            time.sleep(AGAIN)
        return child

    def while_held(self, file: Path, lock: int, words: Sequence[object], **env: str) -> Answer:
        """Returns the answer of a run while another program holds a lock."""
        with open(file, "rb") as holder:
            fcntl.flock(holder, lock)
            self.check.count(TRIED)
            return self.run(words, env=env)


def line_of(batch: subprocess.Popen[str]) -> str:
    """Returns the next line that a batch prints; nothing if it prints none."""
    assert batch.stdout
    return batch.stdout.readline() if select.select([batch.stdout], [], [], HANG)[0] else ""
