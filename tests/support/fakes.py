# SPDX-License-Identifier: MIT OR Apache-2.0
"""Programs that stand in for rrdi: the small one of fake.c, those with fixed answers, and compiled ones."""
from __future__ import annotations

import shlex
import subprocess
from pathlib import Path

from support.program import Program


def build(path: Path) -> Program:
    """Builds the small program, whose faults FAKE_BUG names."""
    subprocess.run(["cc", "-O1", str(Path(__file__).with_name("fake.c")), "-o", str(path)], check=True)
    return Program.at(path)


def answering(path: Path, status: int = 0, out: str = "", err: str = "", more: str = "") -> Program:
    """Creates a program that gives the same answer to all arguments. Its shell runs `more` first."""
    says = f"printf %s {shlex.quote(out)}\nprintf %s {shlex.quote(err)} >&2"
    path.write_text(f"#!/bin/sh\n{more}\n{says}\nexit {status}\n")
    path.chmod(0o755)
    return Program.at(path)


def compiled(path: Path, source: str) -> Program:
    """Compiles a program in C, which may do what compilers warn of."""
    subprocess.run(["cc", "-O0", "-w", "-x", "c", "-", "-o", str(path)], input=source.strip(), text=True, check=True)
    return Program.at(path)
