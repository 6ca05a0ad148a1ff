# SPDX-License-Identifier: MIT OR Apache-2.0
"""Each work of benches/ is measured once, so that the benches still run when somebody needs them."""
from __future__ import annotations

import subprocess
import sys
from pathlib import Path

import pytest

from support.program import TOP, Program

sys.path.append(str(TOP / "benches"))
from bench import NAMES


def bench(program: Program, library: Path, *words: str) -> subprocess.CompletedProcess[str]:
    return subprocess.run([sys.executable, str(TOP / "benches/bench.py"), "--quick", "--rounds=1", f"--library={library}",
                           f"--program={program.path}", *words], capture_output=True, text=True)


@pytest.mark.parametrize("name", NAMES)
def test_work(name: str, program: Program, library: Path) -> None:
    ran = bench(program, library, name)
    assert ran.returncode == 0, ran.stdout + ran.stderr
    rows = [line for line in ran.stdout.splitlines() if line.startswith(f"{name}: ")]
    left_out = [line for line in ran.stdout.splitlines() if "left out: " in line]
    assert rows, ran.stdout
    if left_out:
        pytest.skip("; ".join(left_out))


def test_a_program_that_fails(library: Path) -> None:
    assert "ended with 1" in bench(Program.at("/bin/false"), library, "fetch").stderr
