# SPDX-License-Identifier: MIT OR Apache-2.0
"""Tests that start tools and scripts as processes of their own, and look at what they leave."""
from __future__ import annotations

import contextlib
import fcntl
import subprocess
import time
from pathlib import Path
from typing import Any, Callable, Dict, Iterator, Optional

from cases import HANG
from doubles import PROGRAM, TOP
from tool_case import Ran, ToolCase


def path_of(tool: str) -> str:
    return str(TOP / "tools" / tool)


def script(name: str) -> str:
    return str(TOP / "examples" / name)


@contextlib.contextmanager
def locked(path: Path, kind: int = fcntl.LOCK_EX) -> Iterator[None]:
    with open(path, "ab") as file:
        fcntl.flock(file, kind)
        yield


class ProcessCase(ToolCase):
    """Runs tools and scripts as processes, several at a time."""

    def ran(self, *words: str, given: str = "", env: Optional[Dict[str, str]] = None) -> Ran:
        return self.run_command(list(words), given, env)

    def start(self, *words: str, env: Optional[Dict[str, str]] = None, **others: Any) -> "subprocess.Popen[bytes]":
        """Starts a process, which is ended with the test."""
        process = subprocess.Popen(words, cwd=self.folder, env={**self.env, **(env or {})}, **others)

        def end() -> None:
            process.kill()
            process.wait()
            for stream in (process.stdin, process.stdout, process.stderr):
                if stream:
                    with contextlib.suppress(OSError):
                        stream.close()
        self.addCleanup(end)
        return process

    def asked(self, *words: str, given: str = "") -> str:
        """Runs rrdi, which may refuse, and returns its output."""
        assert PROGRAM
        return self.ran(PROGRAM, *words, given=given).out

    def made(self, file: str, *definitions: str) -> None:
        self.create(file, *(definitions or ("DS:g:GAUGE:100:U:U", "RRA:AVERAGE:0.5:1:40")))

    def same(self, what: str, found: object, wanted: object) -> None:
        self.assertEqual(found, wanted, what)

    def has(self, what: str, found: str, wanted: str) -> None:
        self.assertIn(wanted, found, what)

    def until(self, what: str, condition: Callable[[], bool], seconds: float = HANG) -> None:
        end = time.monotonic() + seconds
        while not condition():
            self.assertLess(time.monotonic(), end, what)
            time.sleep(0.02)
