# SPDX-License-Identifier: MIT OR Apache-2.0
"""Fixtures of the tests of the program, all in an empty folder: `t` has runs, `net` the same with a new file, and
`losses` runs beside others."""
from __future__ import annotations

from pathlib import Path

import pytest

from support.check import Check
from support.losses import Losses
from support.program import Program
from support.runs import CREATE, FILE, Runs


@pytest.fixture
def t(program: Program, folder: Path, check: Check) -> Runs:
    return Runs(program, folder, check)


@pytest.fixture
def net(t: Runs) -> Runs:
    t.run(["create", FILE, *CREATE])
    return t


@pytest.fixture
def losses(program: Program, folder: Path, check: Check, between: str) -> Losses:
    return Losses(program, folder, check, between)
