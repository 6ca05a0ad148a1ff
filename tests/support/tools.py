# SPDX-License-Identifier: MIT OR Apache-2.0
"""Runs rrdi's tools, rrdtool and other programs in a folder, beside the program that is tried."""
from __future__ import annotations

import subprocess
import sys
from pathlib import Path

from support.check import Check
from support.program import PATIENCE, TOP, Answer, Program, environment, lines_in_memory


def build_preload(source: str, library: Path) -> Path:
    """Builds a library of this folder that LD_PRELOAD loads."""
    subprocess.run(["cc", "-O1", "-fPIC", "-shared", "-o", library, TOP / "tests/support" / source, "-ldl"], check=True)
    return library


class Tools:
    """A folder with files, a program, and the check of a test. Nothing that the caller's environment sets changes what
    the tools do."""

    def __init__(self, program: Program, folder: Path, check: Check) -> None:
        self.program, self.folder, self.check, self.tools = program, folder, check, TOP / "tools"
        self.env = environment({"RRDI": program.path, "PERL5LIB": str(TOP / "perl"), "TZ": "UTC", "LANG": "C",
                                "LC_ALL": "C"})

    def run(self, *words: object, given: str = "", **env: str) -> Answer:
        """Runs a command. The name of one of rrdi's tools stands for the tool, and `rrdi` for the program."""
        name, *others = map(str, words)
        command = [self.program.path] if name == "rrdi" else [name]
        if name.startswith("rrdi-"):
            command = [sys.executable, str(self.tools / name)]
        with lines_in_memory(given) as source:
            try:
                ran = subprocess.run([*command, *others], cwd=self.folder, env={**self.env, **env}, stdin=source,
                                     capture_output=True, timeout=PATIENCE)
            except subprocess.TimeoutExpired:
                return Answer(f"no end in {PATIENCE} seconds")
        return Answer(ran.returncode, ran.stdout.decode(errors="replace"), ran.stderr.decode(errors="replace"))

    def expect(self, status: int, text: str, *words: object, given: str = "", **env: str) -> str:
        """Runs a command, and checks its status and that it prints a text. Returns its output."""
        told = self.run(*words, given=given, **env)
        self.check.count("commands")
        self.check(told.status == status and text in told.out + told.err,
                   f"{' '.join(map(str, words))[:300]} must end with {status} and print {text!r}: {str(told)[:3_000]}")
        return told.out

    def rrdtool(self, *lines: str) -> str:
        """Runs lines in one process of rrdtool."""
        told = self.run("rrdtool", "-", given="".join(f"{line}\n" for line in lines))
        assert told.status == 0 and "ERROR" not in told.out, f"rrdtool: {told}"
        return told.out
