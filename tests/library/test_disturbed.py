# SPDX-License-Identifier: MIT OR Apache-2.0
"""Calls of the library fail, and processes that use it are killed, as tests/program tries the program.

The library runs on a stack of 64 KiB, on a file and on an open file. Without --long two changes are tried."""
from __future__ import annotations

from dataclasses import dataclass, field
from pathlib import Path
from typing import Any, Iterator, Mapping, Sequence

import pytest

from program import test_failing_calls as failing
from program import test_kills as kills
from support.changes import Place
from support.check import Check
from support.cuts import AFTER_KILL, AFTER_SYNC, CUTS, LONG, SHORT, Cuts
from support.library import ON_FILES, STACK, WAYS
from support.program import Answer, Program

LEAST = {"runs": 5_000, kills.KILLS: 60, kills.NEXT_KILLS: 800, failing.FAILED: 200, "short calls": 400, CUTS: 100,
         AFTER_KILL: 120, AFTER_SYNC: 300}
ONLY = ("update that lengthens 1000 rows", "batch over 1000 rows")
CALLS, KILLS = "failing calls", "kills"


@dataclass(frozen=True)
class InWay(Program):
    """A program that runs with more in its environment."""
    more: Mapping[str, str] = field(default_factory=dict)

    def run(self, words: Sequence[object], lines: str = "", *, env: Mapping[str, str] | None = None, **rest: Any
            ) -> Answer:
        return super().run(words, lines, env={**self.more, **(env or {})}, **rest)


def parts(is_long: bool) -> Iterator[tuple[str, str, int]]:
    """Yields what is tried: the kind of disturbance, the name of the change, and a part of its calls."""
    for name in failing.TASKS if is_long else ONLY:
        yield from ((CALLS, name, part) for part in range(failing.PIECES))
    for name in kills.TASKS if is_long else ONLY:
        yield from ((KILLS, name, part) for part in range(kills.FEW))
        for kind, count in kills.POWER.items():
            if kills.has_power(kind, kills.TASKS[name], is_long):
                yield from ((kind, name, part) for part in range(count))


def pytest_generate_tests(metafunc: pytest.Metafunc) -> None:
    metafunc.parametrize("kind, name, part", list(parts(metafunc.config.getoption("long"))))


@pytest.mark.parametrize("way", ON_FILES)
def test_disturbed(way: str, kind: str, name: str, part: int, by_library: Program, between: str, folder: Path,
                   check: Check, is_long: bool) -> None:
    place = Place(InWay(by_library.path, {"STACK": str(STACK), **WAYS[way]}), between, folder, "OPEN" in WAYS[way])
    if kind == CALLS:
        task = failing.TASKS[name]
        has_syncs = not task.reads and (is_long or name.endswith("lengthens 1000 rows"))
        failing.try_piece(place, task, part, check, has_syncs)
        return
    if kind == KILLS:
        kills.try_kills(place, kills.TASKS[name], part, check, is_long)
    else:
        kills.try_power(Cuts(place, kills.TASKS[name], check, LONG if is_long else SHORT), kind, part)
    check.count("runs", place.count)
