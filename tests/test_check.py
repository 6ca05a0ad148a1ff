# SPDX-License-Identifier: MIT OR Apache-2.0
"""The full check fails if one of its steps fails or does too little, and says what it has left out (scripts/check.py)."""
from __future__ import annotations

import os
import re
import subprocess
import sys
import time
from pathlib import Path
from typing import NamedTuple

import pytest

from scripts import check as full
from support.program import TOP

# What the commands of the steps print if all is well: sixteen crates, 185 tests of theirs, 120 planted bugs, 2,000 tests.
TEXTS = {"rt": "test result: ok. 185 passed; 0 failed; 0 ignored\n16 passed, 0 failed\n",
         full.BUGS: "120 planted bugs, 12 crates proved: 0 wrong\n", "library/build": "", "make": "",
         "python": "2000 passed, 3 deselected in 9.00s\n"}
# `rt ci` must find the sources and no planted bug, and builds the program.
BUILDS = ("test -f crates/rrdi/src/main.rt && test ! -e crates/rrdi/must-fail || exit 1; mkdir crates/rrdi/out; "
          "echo built >crates/rrdi/out/rrdi")


class Whole(NamedTuple):
    """A run of the full check in a repository whose commands only print."""
    folder: Path
    patch: pytest.MonkeyPatch

    def answer(self, name: str, text: str, status: int = 0, more: str = ":") -> None:
        """Makes a command that prints a text and ends with a status."""
        path = self.folder / name
        path.parent.mkdir(exist_ok=True)
        path.write_text(f"#!/bin/sh\n{more}\nprintf '%s' '{text}'\nexit {status}\n")
        path.chmod(0o755)

    def run(self, capsys: pytest.CaptureFixture[str]) -> tuple[int, list[str]]:
        """Returns the status and the lines."""
        self.patch.setattr(sys, "argv", ["check"])
        return full.main(), capsys.readouterr().out.splitlines()


@pytest.fixture
def whole(folder: Path, monkeypatch: pytest.MonkeyPatch) -> Whole:
    for name in ("crates/rrdi/src/main.rt", "crates/rrdi/must-fail/a.edit"):
        (folder / name).parent.mkdir(parents=True)
        (folder / name).write_text("")
    subprocess.run(["git", "init", "-q"], cwd=folder, check=True)
    made = Whole(folder, monkeypatch)
    for name, text in TEXTS.items():
        made.answer(name, text, more=BUILDS if name == "rt" else ":")
    monkeypatch.setattr(full, "TOP", folder)
    monkeypatch.setattr(full, "install", lambda packages: None)
    monkeypatch.setattr(sys, "executable", str(folder / "python"))
    monkeypatch.setenv("PATH", f"{folder}:{os.environ['PATH']}")
    return made


def test_all_is_well(whole: Whole, capsys: pytest.CaptureFixture[str]) -> None:
    whole.answer("python", "SKIPPED [2] tests/test_it.py: not installed: rrdtool\n2000 passed, 2 skipped in 9.00s\n")
    whole.answer("rt", TEXTS["rt"].replace("0 ignored", "2 ignored"), more=BUILDS)
    status, lines = whole.run(capsys)
    assert (status, lines[-1]) == (0, "2321 passed, 0 failed"), lines
    assert lines[-3:-1] == ["left out: rt ci: 2 ignored", "left out: pytest: [2] tests/test_it.py: not installed: rrdtool"]
    assert sum(bool(re.fullmatch(r" +\d+:\d\d  \S.*", line)) for line in lines) == len(TEXTS) + 1
    assert (whole.folder / "crates/rrdi/out/rrdi").read_text() == "built\n"


@pytest.mark.parametrize("name", TEXTS)
def test_a_step_that_fails(name: str, whole: Whole, capsys: pytest.CaptureFixture[str]) -> None:
    whole.answer(name, TEXTS[name], 1, BUILDS if name == "rt" else ":")
    status, lines = whole.run(capsys)
    assert status == 1 and lines[-1].endswith(" passed, 1 failed"), lines
    assert any(line.startswith("pytest: ") for line in lines) == (name == "python")


def test_what_failed_stands_at_the_end(whole: Whole, capsys: pytest.CaptureFixture[str]) -> None:
    lines_of_pytest = ("FAILED tests/test_it.py::test_that - assert 1 == 2\n9.50s call     tests/test_it.py::test_that\n"
                       "tests.test_it tried 3 files, but must try at least 4\n1 failed, 1999 passed in 9.00s\n")
    whole.answer("python", lines_of_pytest, 1)
    status, lines = whole.run(capsys)
    assert status == 1 and lines[-4:-1] == [
        "slow: pytest: 9.50s call     tests/test_it.py::test_that",
        "failed: pytest: FAILED tests/test_it.py::test_that - assert 1 == 2",
        "failed: pytest: tests.test_it tried 3 files, but must try at least 4"], lines


@pytest.mark.parametrize("name, text", [(name, text) for name in ("rt", full.BUGS, "python")
                                        for text in ("", "0 passed, 0 failed\n", "15 passed, 0 failed\n")])
def test_a_step_that_does_too_little(name: str, text: str, whole: Whole, capsys: pytest.CaptureFixture[str]) -> None:
    whole.answer(name, text, more=BUILDS if name == "rt" else ":")
    status, lines = whole.run(capsys)
    assert status == 1 and lines[-1].endswith(" passed, 1 failed"), lines


def test_a_failure_ends_the_steps_beside_it(whole: Whole) -> None:
    whole.answer("slow", "", more="sleep 600")
    begin, check = time.monotonic(), full.Check()
    slow = full.Step("slow", [whole.folder / "slow"])
    check.beside(((slow, slow), (full.Step("false", ["false"]),)))
    assert check.failed == 1 and len(check.times) == 2 and time.monotonic() - begin < 300
    check = full.Check()
    check.beside(((full.Step("missing", ["no-such-command"]), slow),))
    assert check.failed == 1 and check.times == []


def test_missing_packages(folder: Path, monkeypatch: pytest.MonkeyPatch, capsys: pytest.CaptureFixture[str]) -> None:
    """root installs what is missing; what is missing then is named."""
    made = Whole(folder, monkeypatch)
    made.answer("apt-get", "", more=f': >"{folder}/$4"; /bin/chmod 755 "{folder}/$4"')
    monkeypatch.setenv("PATH", str(folder))
    full.install({"gift": "gift", "pytest": "python3-pytest"})
    made.answer("apt-get", "", 1)
    full.install({"gift": "gift", "no-such-tool": "its-package"})
    packages = "its-package" if os.geteuid() == 0 else "gift its-package"
    assert capsys.readouterr().out.splitlines()[-1].endswith(f"sudo apt-get install {packages}")


def test_who_calls_it(folder: Path) -> None:
    """.ci/run is `make check`, and that this script."""
    assert (TOP / ".ci/run").read_text().endswith('exec make --no-print-directory check OPTIONS="$*"\n')
    said = subprocess.run(["make", "--no-print-directory", "-n", "check"], cwd=TOP, capture_output=True, text=True).stdout
    assert "scripts/check.py" in said
    assert "full check" in subprocess.run([TOP / "scripts/check.py", "--help"], capture_output=True, text=True).stdout
