# SPDX-License-Identifier: MIT OR Apache-2.0
"""Each bug that is planted in the Python package, the tools, RRDs.pm, librrd/record.c or examples/ is found by the
tests of this folder that must find it.

The file `bugs` has the bugs, each with these tests. Without --long only a few are planted: all take over half an
hour."""
from __future__ import annotations

import ast
import os
import re
import shutil
import subprocess
import sys
from functools import lru_cache
from pathlib import Path
from typing import Iterator, NamedTuple

import pytest

from support.check import Check
from support.program import TOP, Program, environment

LEAST, LEAST_LONG = {"bugs": 4}, {"bugs": 340}
PATIENCE = 1_200  # seconds for the tests of a bug
# The bugs of these tests are planted without --long too, one of three.
QUICK, SHARE = ("test_scripts Moves.test_the_way_there", "test_scripts Safely", "test_compat Translations"), 3
# What is copied of the repository.
COPIED = ("LICENSE-MIT", "VERSION", "docs", "examples", "include", "librrd", "perl", "python", "tests/python",
          "tests/support", "tools")


class Bug(NamedTuple):
    tests: str
    file: str
    old: str
    new: str


def bugs() -> list[Bug]:
    lines = (Path(__file__).parent / "bugs").read_text().splitlines()
    columns = [line.split(" | ") for line in lines if not line.startswith("#")]
    return [Bug(tests, file, ast.literal_eval(old), ast.literal_eval(new)) for tests, file, old, new in columns]


def cases() -> Iterator[object]:
    """Yields the bugs. Those of the same tests come to one process, which first runs the tests without a bug."""
    quick = [bug for bug in bugs() if bug.tests in QUICK][::SHARE]
    for number, bug in enumerate(bugs()):
        marks = [pytest.mark.xdist_group(bug.tests)] + ([] if bug in quick else [pytest.mark.long])
        yield pytest.param(bug, marks=marks, id=f"{number} {bug.file}")


def copied(sources: Path) -> Path:
    """Copies what the tests of the package need into a folder."""
    for part in COPIED:
        if (TOP / part).is_dir():
            ignored = shutil.ignore_patterns("__pycache__", "out")
            shutil.copytree(TOP / part, sources / part, symlinks=True, ignore=ignored)
        else:
            shutil.copy(TOP / part, sources / part)
    return sources


def link_recorder(sources: Path, library: str, recorder: Path) -> str:
    """Links the recorder of some sources over the C library. Returns its path."""
    beside = recorder.with_name("librrdi.so.0")
    if not beside.exists():
        beside.symlink_to(library)
    subprocess.run(["cc", "-std=c11", "-O2", "-fPIC", "-fvisibility=hidden", "-shared", "-o", recorder,
                    "-I", sources / "include", sources / "librrd/record.c", beside, f"-Wl,-rpath,{recorder.parent}"],
                   check=True)
    return str(recorder)


def report_of(tests: str, sources: Path, variables: dict[str, str]) -> str:
    """Runs tests of some sources. Returns the end of what they report; nothing if they find nothing wrong."""
    file, *classes = tests.split()
    try:
        ran = subprocess.run([sys.executable, "-B", "-m", "unittest", "-f", *(f"{file}.{name}" for name in classes)],
                             cwd=sources / "tests/python", env=environment(variables), stdin=subprocess.DEVNULL,
                             capture_output=True, text=True, errors="replace", timeout=PATIENCE)
    except subprocess.TimeoutExpired:
        return "they do not end"
    found = re.search(r"^Ran ([1-9]\d*) tests?", ran.stderr, re.MULTILINE)
    return "" if ran.returncode == 0 and found else ran.stderr[-2_000:] or "no test ran"


class Planting:
    """Runs tests on the package, or on a copy of it with a bug, by one program and one library."""

    def __init__(self, program: str, library: str, folder: Path) -> None:
        self.program, self.library, self.folder = program, library, folder

    def report(self, tests: str, sources: Path) -> str:
        by, _, tests = tests.rpartition(": ")
        variables = {"RRDI": self.program, **({"RRDI_LIBRARY": self.library} if os.path.isfile(self.library) else {})}
        if by == "library":
            variables["RRDI_TOOLS_BY"] = self.library
        elif by == "recorder":
            variables["RRDI_RECORD"] = link_recorder(sources, self.library, self.folder / "librrdi-record.so")
        return report_of(tests, sources, variables)

    @lru_cache(maxsize=None)
    def report_without_a_bug(self, tests: str) -> str:
        return self.report(tests, TOP)

    def try_bug(self, bug: Bug, sources: Path, check: Check) -> None:
        """Plants a bug. Tests that find something without a bug find no bug."""
        text = (copied(sources) / bug.file).read_text()
        said = self.report_without_a_bug(bug.tests)
        check(not said, f"without a bug: {said}")
        check(bug.old in text, f"{bug.file} has no {bug.old!r}")
        (sources / bug.file).write_text(text.replace(bug.old, bug.new))
        is_found = bool(self.report(bug.tests, sources))
        check(is_found, f"{bug.tests} does not find it: {bug.old!r} became {bug.new!r} in {bug.file}")
        check.count("bugs")


@pytest.fixture(scope="module")
def planting(program: Program, pytestconfig: pytest.Config, workshop: Path) -> Planting:
    return Planting(program.path, os.path.abspath(pytestconfig.getoption("library")), workshop)


@pytest.mark.parametrize("bug", cases())
def test_bug(bug: Bug, planting: Planting, folder: Path, check: Check, request: pytest.FixtureRequest) -> None:
    if ": " in bug.tests:
        request.getfixturevalue("library")
    planting.try_bug(bug, folder, check)


def test_each_bug_can_be_planted() -> None:
    for bug in bugs():
        file, *classes = bug.tests.rpartition(": ")[2].split()
        tests = (Path(__file__).parent / f"{file}.py").read_text()
        assert bug.old in (TOP / bug.file).read_text() and bug.old != bug.new, bug
        assert classes and all(f"class {name.partition('.')[0]}(" in tests for name in classes), bug


@pytest.mark.parametrize("tests", (QUICK[0], "test_feed_processes Lines.test_lines", "test_scripts ReaderScript"))
def test_a_program_that_does_nothing(tests: str, planting: Planting) -> None:
    assert Planting("/bin/true", planting.library, planting.folder).report(tests, TOP)
