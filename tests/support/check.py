# SPDX-License-Identifier: MIT OR Apache-2.0
"""What one test tried, and what went wrong: for tests that go on after a fault, and report all faults at their end."""
from __future__ import annotations

import sys
from collections import Counter
from pathlib import Path
from types import FrameType

import pytest

# The most faults of a test that are shown, and the most characters of one.
SHOWN, MOST = 20, 4_000
OWN, FOLDERS = Path(__file__).name, ("/tests/", "/fuzz/")


def trail() -> list[str]:
    """Returns the lines of the tests on the way to this module, the innermost one first."""
    frame: FrameType | None = sys._getframe(1)
    places = []
    while frame is not None:
        path = Path(frame.f_code.co_filename)
        if path.name != OWN and any(folder in str(path) for folder in FOLDERS):
            places.append(f"{path.name}:{frame.f_lineno}")
        frame = frame.f_back
    return places


class Check:
    """`check(is_right, what)` notes a fault, and the test goes on; `check.count(name)` counts what was tried."""

    def __init__(self) -> None:
        self.tried: Counter[str] = Counter()
        self.faults: list[str] = []
        self.places: set[str] = set()
        self.has_ended = False

    def __call__(self, is_right: bool, what: str) -> bool:
        if not is_right:
            way = trail()
            self.places.update(way)
            self.faults.append(f"{' < '.join(way[:3])}: {what[:MOST]}")
        return is_right

    def same(self, got: object, wanted: object, what: object) -> bool:
        return self(got == wanted, f"{what}:\n  wanted {str(wanted)[:1500]}\n  got    {str(got)[:1500]}")

    def count(self, name: str, number: int = 1) -> None:
        self.tried[name] += number

    def text(self) -> str:
        more = [f".. and {len(self.faults) - SHOWN} more"] * (len(self.faults) > SHOWN)
        return "\n".join([*self.faults[:SHOWN], *more, f"{len(self.faults)} faults; tried: {dict(self.tried)}"])

    def end(self) -> None:
        """Fails the test if there was a fault, or if nothing was tried."""
        self.has_ended = True
        if not self.tried:
            self.faults.append("nothing was tried")
        if self.faults:
            pytest.fail(self.text(), pytrace=False)
