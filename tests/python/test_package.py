# SPDX-License-Identifier: MIT OR Apache-2.0
"""The Python package once more: its tools by the C library, and the types of the package and its tests.

The other tests of this folder run the tools by the program."""
from __future__ import annotations

import os
import re
import subprocess
import sys
from pathlib import Path
from typing import Callable

from support.check import Check
from support.program import TOP, Program

PACKAGE = TOP / "python"
LEAST = {"tests of tools by the library": 28, "tests by ctypes": 100, "typed files": 160}
# The tests that run by ctypes too: all others run by the extension, where there is a compiler.
BY_CTYPES = ("test_commands", "test_database", "test_choices", "test_samples", "test_creating", "test_tools_program::InProcess")
# The tests of tools that run by the library too.
OF_TOOLS = ("test_feed_processes::Lines", "test_feed_processes::InProcess", "test_tools_feed::Files",
            "test_feeding_metrics::New", "test_tools_rrdtool::RRDtoolOutput", "test_tools_rrdtool::PipeMode",
            "test_tools_program::InProcess")


def test_tools_by_the_library(program: Program, library: Path, check: Check) -> None:
    check_tools(program.path, str(library), OF_TOOLS, check)


def test_by_ctypes(program: Program, library: Path, check: Check) -> None:
    check_tests(program.path, str(library), BY_CTYPES, {"RRDI_EXTENSION": "none"}, check, "tests by ctypes")


def check_tools(program: str, library: str, names: tuple[str, ...], check: Check) -> None:
    check_tests(program, library, names, {"RRDI_TOOLS_BY": library}, check, "tests of tools by the library")


def check_tests(program: str, library: str, names: tuple[str, ...], variables: dict[str, str], check: Check,
                counted: str) -> None:
    """Runs tests by the library, in a process that does not take itself for one of xdist."""
    tests = ["tests/python/" + (name.replace("::", ".py::") if "::" in name else f"{name}.py") for name in names]
    env = {name: value for name, value in os.environ.items() if not name.startswith("PYTEST_")}
    ran = subprocess.run([sys.executable, "-m", "pytest", "-q", "--lacking", f"--program={program}",
                          f"--library={library}", *tests], cwd=TOP, env={**env, **variables},
                         stdin=subprocess.DEVNULL, capture_output=True, text=True)
    passed = re.search(r"^(\d+) passed", ran.stdout, re.MULTILINE)
    check.count(counted, int(passed[1]) if passed else 0)
    check(ran.returncode == 0, f"{ran.stdout[-3_500:]}{ran.stderr[-500:]}")


def test_types(needs: Callable[..., None], tmp_path: Path, check: Check) -> None:
    needs("mypy")
    tests = [str(path) for path in sorted(Path(__file__).parent.glob("*.py"))]
    check_types(PACKAGE, tmp_path, [], check)
    check_types(PACKAGE, tmp_path, tests, check)


def check_types(package: Path, cache: Path, files: list[str], check: Check) -> None:
    """Checks the files by the package's pyproject.toml; without files, the package."""
    path = f"{package}:{TOP}/tests/python:{TOP}/tests"
    ran = subprocess.run(["mypy", "--cache-dir", cache, *files], cwd=package, capture_output=True, text=True,
                         env={**os.environ, "MYPYPATH": path})
    found = re.search(r"no issues found in (\d+) source files?", ran.stdout)
    check.count("typed files", int(found[1]) if found else 0)
    check(ran.returncode == 0 and found is not None, f"mypy: {ran.stdout}{ran.stderr}")
