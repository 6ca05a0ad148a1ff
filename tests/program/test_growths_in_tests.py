# SPDX-License-Identifier: MIT OR Apache-2.0
"""Each allocation is refused in the unit tests whose names have the word `growth`: also in functions that no command
reaches.

After a refusal a test must pass, or end with an error of its own. A failed assertion, a signal, or a test that does
not end is wrong. So a call that runs out of memory either changes nothing, or the test repeats the call and the call
then succeeds."""
from __future__ import annotations

from pathlib import Path
from typing import Callable

import pytest

from support import between
from support.check import Check
from support.program import Program

REFUSED, TESTS = "growths refused", "unit tests"
LEAST = {REFUSED: 1_050, TESTS: 15}
CRATES = ("tests_of_parts", "tests_of_database", "tests_of_program")
WORD = "growth"
# If a test has more growths, only the first ones are refused.
MOST = 3_000
# The status of a test program if a test returned an error, and how its last line then begins. A failed assertion gives
# another status.
FAILED, FAILED_LINE = 101, "the test failed"


def names(tests: Program) -> list[str]:
    """Returns the names of the tests of a test program that have the word."""
    lines = tests.run(["--list"]).out.splitlines()
    found = [line.split(":  ")[0].rsplit(":", 1)[0].strip() for line in lines if line.endswith(": test")]
    return [name for name in found if WORD in name]


def try_test(tests: Program, name: str, library: str, folder: Path, check: Check) -> None:
    log = folder / "log"
    for number in range(1, MOST + 1):
        log.unlink(missing_ok=True)
        status, out, err = tests.run([name], env=between.settings(library, LOG=log, REFUSE=number))
        lines = (out + err).strip().splitlines()
        refused = [event.size for event in between.events_of(log) if event.is_refused]
        if not refused:
            check(status == 0, f"{name}, with no growth refused: {status}, {lines[-3:]}")
            break
        is_error = status == FAILED and bool(lines) and lines[-1].startswith(FAILED_LINE)
        check.count(REFUSED)
        check(status == 0 or is_error, f"{name}, growth {number} of {refused} bytes refused: {status}, {lines[-3:]}")
    check(number > 1, f"{name}: the test has no growth")
    check.count(TESTS)


def try_tests(tests: Program, library: str, folder: Path, check: Check) -> None:
    found = names(tests)
    check(bool(found), f"{tests.path}: there is no test with {WORD} in its name")
    for name in found:
        try_test(tests, name, library, folder, check)


@pytest.mark.parametrize("crate", CRATES)
def test_growths_in_tests(crate: str, unit_tests: Callable[[str], Program], between_all: str, folder: Path,
                          check: Check) -> None:
    try_tests(unit_tests(crate), between_all, folder, check)
