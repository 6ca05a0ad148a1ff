# SPDX-License-Identifier: MIT OR Apache-2.0
"""The program, without proofs, prints the output of the batches that are worked by hand (crates/rrdi/cases), and what
the definitions compute of random batches. This needs `rt`, and no built program."""
from __future__ import annotations

import re
import shutil
import subprocess
from pathlib import Path
from typing import Callable

import pytest

from support.check import Check
from support.program import TOP, status_of
from support.random_batches import batch, text_of

CASES = "batches"
# The numbers of worked and of random batches.
WORKED, RANDOM = 52, 40
LEAST = {CASES: WORKED + RANDOM}


def judge(wanted: dict[str, str], told: str, check: Check) -> None:
    """Checks the line of each batch: the batch ended with its status, and printed the expected output."""
    lines = {found[1]: found[0] for found in re.finditer(r"^case=(\S+) .*$", told, re.MULTILINE)}
    for name, text in sorted(wanted.items()):
        line = lines.get(name, "not run")
        is_right = f" run=ended status={status_of(text)} " in line and re.search(r" output=expected( |$)",
                                                                                 line) is not None
        check.count(CASES)
        check(is_right, f"{name}: {line}")


def write_cases(folder: Path, count: int) -> dict[str, str]:
    """Puts the batches into a folder, and returns the expected output of each, which is in the file beside it."""
    shutil.copytree(TOP / "crates/rrdi/cases", folder, dirs_exist_ok=True)
    for number in range(count):
        lines, wanted = batch(number)
        (folder / f"batch-{number}").write_text(text_of(lines))
        (folder / f"batch-{number}.stdout").write_text(text_of(wanted))
    return {file.stem: file.read_text() for file in folder.glob("*.stdout")}


def try_cases(folder: Path, check: Check) -> None:
    wanted = write_cases(folder, RANDOM)
    ran = subprocess.run(["rt", "try", "--cases", folder, "--", "batch"], cwd=TOP / "crates/rrdi", capture_output=True,
                         text=True)
    check(ran.returncode == 0, f"rt try ended with {ran.returncode}: {ran.stdout[-2_000:]}{ran.stderr[-2_000:]}")
    judge(wanted, ran.stdout + ran.stderr, check)


@pytest.mark.xdist_group("rt")
def test_cases(folder: Path, check: Check, needs: Callable[..., None]) -> None:
    needs("rt")
    try_cases(folder, check)
