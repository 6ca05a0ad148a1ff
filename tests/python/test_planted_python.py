# SPDX-License-Identifier: MIT OR Apache-2.0
"""The checks of the package find what they must: a bug that its tests do not find, and types that are wrong."""
from __future__ import annotations

from pathlib import Path
from typing import Callable

import pytest

from support.check import Check
from support.program import Program
from test_bugs import QUICK, Bug, Planting, bugs
from test_package import check_tools, check_types

SAFELY = "examples/rrdi-safely"


@pytest.mark.parametrize("old", ("exec", "no such text"))
def test_a_bug_that_is_not_found(old: str, program: Program, folder: Path, workshop: Path, planted: Check) -> None:
    Planting(program.path, "", workshop).try_bug(Bug("test_scripts Safely", SAFELY, old, old), folder, planted)
    assert planted.faults


def test_a_check_that_fails_without_a_bug(folder: Path, workshop: Path, planted: Check) -> None:
    bug = next(bug for bug in bugs() if bug.tests == QUICK[0])
    Planting("/bin/true", "", workshop).try_bug(bug, folder, planted)
    assert planted.faults


def test_a_library_that_is_missing(folder: Path, planted: Check) -> None:
    check_tools("/bin/true", f"{folder}/librrdi.so", ("test_tools_rrdtool::RRDtoolOutput",), planted)
    assert planted.faults


@pytest.mark.parametrize("text, is_right", (("x: int = 1\n", True), ("x: int = ''\n", False),
                                            ("def f(): pass\n", False)))
def test_wrong_types(text: str, is_right: bool, folder: Path, planted: Check, needs: Callable[..., None]) -> None:
    needs("mypy")
    (folder / "pyproject.toml").write_text("[tool.mypy]\nstrict = true\npackages = ['it']\n")
    (folder / "it").mkdir()
    (folder / "it/__init__.py").write_text(text)
    check_types(folder, folder / "cache", [], planted)
    assert bool(planted.faults) != is_right
