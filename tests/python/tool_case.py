# SPDX-License-Identifier: MIT OR Apache-2.0
"""The parts that the tests of the tools share: a folder, runs of the tools, small scripts that replace other programs, and
how rrdi-feed takes lines and passes them on."""
from __future__ import annotations

import contextlib
import io
import os
import pty
import re
import resource
import subprocess
import sys
import unittest
from typing import Any, Dict, List, NamedTuple, Optional

from cases import HANG, needs_library, needs_program, new_folder
from doubles import PROGRAM, TOP
from rrdi.feeding.feeder import Feeder
from rrdi.feeding.writers import BatchWriter
from rrdi.by_program import ByProgram
from rrdi.library import load_library
from rrdi.tools import rrdtool_program

RRDTOOL = rrdtool_program.find()
NO_RRDTOOL = "rrdtool is not installed"


class Ran(NamedTuple):
    status: int
    out: str
    err: str


def taken(feeder: Feeder, text: bytes) -> str:
    """Passes lines to a feeder. Returns what the feeder reports."""
    with contextlib.redirect_stderr(io.StringIO()) as said:
        feeder.take_all(text.split(b"\n"))
    return said.getvalue()


def finished(feeder: Feeder) -> str:
    """Ends the input of a feeder. Returns what the feeder reports up to its end."""
    with contextlib.redirect_stderr(io.StringIO()) as said:
        feeder.end()
        feeder.finish()
    return said.getvalue()


class EachWriter:
    """Runs the checks `of_files` by each writer of rrdi-feed."""

    @needs_program
    def test_by_program(self: Any) -> None:
        self.of_files(BatchWriter(ByProgram(PROGRAM or "")))

    @needs_library
    def test_by_the_library_itself(self: Any) -> None:
        self.of_files(BatchWriter(load_library()))


class ToolCase(unittest.TestCase):
    """Runs tools in a folder of their own. Nothing that the caller's environment sets changes what they do."""

    def setUp(self) -> None:
        self.folder = new_folder(self)
        self.bin = self.folder / "bin"
        self.bin.mkdir()
        self.env: Dict[str, str] = {"PATH": f"{self.bin}:{os.environ['PATH']}", "HOME": str(self.folder), "TZ": "UTC",
                                    "LC_ALL": "C.UTF-8", "RRDI": PROGRAM or "rrdi", "RRDI_WAIT": "0"}
        # The same tests by the C library: RRDI_TOOLS_BY names it.
        if "RRDI_TOOLS_BY" in os.environ:
            self.env["RRDI_LIBRARY"] = os.environ["RRDI_TOOLS_BY"]
            del self.env["RRDI"]

    def stub(self, name: str, text: str) -> str:
        """Writes a shell script that replaces another program."""
        path = self.bin / name
        path.write_text(f"#!/bin/sh\n{text}\n")
        path.chmod(0o755)
        return str(path)

    def only_path(self) -> Dict[str, str]:
        """An environment whose PATH has nothing but Python and the stubs."""
        python = self.bin / "python3"
        if not python.exists():
            python.symlink_to(sys.executable)
        return {"PATH": str(self.bin)}

    def run_command(self, words: List[str], given: str = "", env: Optional[Dict[str, str]] = None,
                    size: Optional[int] = None, stdout: Optional[str] = None) -> Ran:
        """Runs a command. `size` is the most bytes that it may write to a file, as on a disk that gets full."""
        def limit() -> None:
            if size is not None:
                resource.setrlimit(resource.RLIMIT_FSIZE, (size, size))
        with open(stdout or os.devnull, "wb") as out:
            ran = subprocess.run(words, input=given.encode(), stdout=out if stdout else subprocess.PIPE, cwd=self.folder,
                                 stderr=subprocess.PIPE, env={**self.env, **(env or {})}, preexec_fn=limit, timeout=10 * HANG)
        return Ran(ran.returncode, (ran.stdout or b"").decode(errors="replace"), ran.stderr.decode(errors="replace"))

    def tool(self, name: str, *words: str, given: str = "", env: Optional[Dict[str, str]] = None,
             size: Optional[int] = None, stdout: Optional[str] = None) -> Ran:
        return self.run_command([sys.executable, str(TOP / "tools" / name), *words], given, env, size, stdout)

    def on_terminal(self, words: List[str]) -> "tuple[int, str]":
        """Runs a command whose standard error is a terminal. Returns its status and what the terminal got."""
        terminal, other = pty.openpty()
        with subprocess.Popen(words, stdin=subprocess.DEVNULL, stdout=subprocess.DEVNULL, stderr=other, cwd=self.folder,
                              env=self.env) as running:
            os.close(other)
            seen = b""
            try:
                while data := os.read(terminal, 65_536):
                    seen += data
            except OSError:  # all programs have closed the terminal
                pass
        os.close(terminal)
        return running.returncode, seen.decode()

    def rrdi(self, *words: str, given: str = "") -> str:
        assert PROGRAM
        ran = self.run_command([PROGRAM, *words], given)
        self.assertEqual((ran.status, ran.err), (0, ""), words)
        return ran.out

    def create(self, file: str, *definitions: str, start: int = 0, step: int = 10) -> None:
        self.rrdi("create", file, "--step", str(step), "--start", str(start), *definitions)

    def write(self, name: str, data: "str | bytes") -> str:
        path = self.folder / name
        path.write_bytes(data.encode() if isinstance(data, str) else data)
        return str(path)

    def read(self, name: str) -> bytes:
        return (self.folder / name).read_bytes()

    def check_usage(self, name: str, usage: str, wrong: List[List[str]]) -> None:
        """The help is printed, and wrong arguments end with the line of usage and status 2."""
        for option in ("-h", "--help"):
            ran = self.tool(name, option)
            self.assertEqual((ran.status, ran.err), (0, ""))
            self.assertIn(name, ran.out)
            self.assertIn("Exit status:", ran.out)
        for words in wrong:
            with self.subTest(words=words):
                ran = self.tool(name, *words)
                self.assertEqual((ran.status, ran.out), (2, ""))
                # A further line may say which option was meant.
                self.assertRegex(ran.err, f"^{re.escape(f'usage: {name} {usage}')}\n({name}: there is no option .*\n)?$")
