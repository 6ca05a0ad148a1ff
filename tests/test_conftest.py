# SPDX-License-Identifier: MIT OR Apache-2.0
"""The run of the tests itself fails if a test notes a fault, tries too little, or is left out (conftest.py)."""
from __future__ import annotations

import os
import re
import subprocess
import sys
from pathlib import Path

import pytest

from support.check import Check
from support.counts import Counts
from support.program import TOP
from support.results import with_counts

TESTS = {
    "a right one": ('LEAST = {"runs": 2}\n\ndef test_it(check):\n    check.count("runs", 2)\n    check(True, "it")',
                    True),
    "a fault": ('def test_it(check):\n    check.count("runs")\n    check.same(1, 2, "it")', False),
    "nothing tried": ("def test_it(check):\n    pass", False),
    "too little": ('LEAST = {"runs": 2}\n\ndef test_it(check):\n    check.count("runs")', False),
    "too little of something": ('LEAST = {"runs": 1}\n\ndef test_it(check):\n    check.count("walks")', False),
    "an exception": ('def test_it(check):\n    check.count("runs")\n    raise ValueError', False),
    "left out": ('def test_it(needs):\n    needs("no-such-tool")', False),
    "little memory": ('import pytest\n\ndef test_it():\n    pytest.skip("too little free memory: none")', True),
    "no case": ('import pytest\n\n@pytest.mark.parametrize("name", [])\ndef test_it(name):\n    pass', False),
    "an unknown mark": ("import pytest\n\n@pytest.mark.lnog\ndef test_it():\n    pass", False),
}
LATER = "import pytest\n\ndef test_one():\n    pass\n\n@pytest.mark.long\ndef test_later():\n    assert False"


def run(folder: Path, text: str, *words: str) -> subprocess.CompletedProcess[str]:
    """Runs one module of tests with this repository's settings and fixtures."""
    (folder / "test_it.py").write_text(text)
    env = {name: value for name, value in os.environ.items() if not name.startswith("PYTEST_")}
    return subprocess.run([sys.executable, "-B", "-m", "pytest", "-c", TOP / "pyproject.toml", "--rootdir", folder,
                           "-p", "conftest",
                           folder / "test_it.py", *words], cwd=folder, capture_output=True, text=True,
                          env={**env, "PYTHONPATH": f"{TOP}:{TOP / 'tests'}"})


@pytest.mark.parametrize("name, jobs", [*((name, ()) for name in TESTS),
                                        *((name, ("-n", "2")) for name in ("a right one", "a fault", "too little"))])
def test_verdicts(name: str, jobs: tuple[str, ...], folder: Path) -> None:
    text, is_right = TESTS[name]
    ran = run(folder, text, *jobs)
    assert (ran.returncode == 0) == is_right, ran.stdout + ran.stderr


def test_what_may_be_left_out(folder: Path) -> None:
    assert run(folder, TESTS["left out"][0], "--lacking").returncode == 0
    assert run(folder, TESTS["too little"][0], "-k", "it").returncode == 0  # only some tests were chosen
    assert "1 passed, 1 deselected" in run(folder, LATER).stdout
    assert run(folder, LATER, "--long").returncode != 0


def test_all_faults_are_told(folder: Path) -> None:
    ran = run(folder, 'def test_it(check):\n    check(False, "one")\n    check(False, "two")\n    raise ValueError')
    assert all(told in ran.stdout for told in ("one", "two", "ValueError")), ran.stdout


def test_blind_judgements(pytestconfig: pytest.Config) -> None:
    counts = Counts(pytestconfig)
    assert counts.blind() == []
    counts.rejected = {"test_kills.py:1"}
    told = counts.blind()
    assert len(told) > 5 and all(line.startswith("test_kills.py:") and "check(" in line for line in told), told


def test_where_a_check_failed() -> None:
    check = Check()
    check(False, "it")
    assert check.faults[0].startswith("test_conftest.py:") and check.places


def test_the_list_of_modules() -> None:
    """No module of tests can go unseen: README.md names each, but for those of the Python package."""
    named = re.findall(r"`(test_\w+)`", (TOP / "tests/README.md").read_text())
    there = [path for folder in ("tests", "fuzz") for path in (TOP / folder).rglob("test_*.py")]
    assert sorted(named) == sorted(path.stem for path in there if path.parent.name != "python")


def test_recorded_counts() -> None:
    counts = "- `a.py` (`01`, day): 1 run,\n  2 kills\n- `b.py` (`01`, day): 1 run\n"
    page = f"# Results\n\n## Counts\n\n{counts}\n## Proofs\n\n- `a`\n"
    told = with_counts(page, {"a.py": {"runs": 1_200}, "a.py --long": {"runs": 5, "kills": 3, "files": 4}}, "02")
    assert [line.split(" (")[0] for line in told.splitlines()] == [
        "# Results", "", "## Counts", "", "- `a.py`", "- `a.py --long`", "- `b.py`", "", "## Proofs", "", "- `a`"]
    assert re.search(r"- `a\.py` \(`02`, \d{4}-\d\d-\d\d\): 1,200 runs\n", told)
    assert ": 5 runs, 3 kills\n" in told and "files" not in told
