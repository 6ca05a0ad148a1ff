# SPDX-License-Identifier: MIT OR Apache-2.0
"""Measures works: one round of each side after the other, so that a busy moment of the machine meets all of them."""
from __future__ import annotations

import os
import re
import statistics
import subprocess
import sys
import tempfile
from contextlib import ExitStack
from dataclasses import dataclass, field
from pathlib import Path
from typing import Callable, Dict, List, Mapping, NamedTuple, Sequence, Set, Tuple

TOP = Path(__file__).resolve().parent.parent
sys.path[:0] = [str(TOP / "tests"), str(TOP / "python")]
from support.program import environment

# What rrdi is compared with. The names of all other sides are ways of rrdi.
PEERS = ("rrdtool", "librrd", "rrdcached", "whisper", "Python alone")
HEAD = f"{'work':44} {'unit':22} {'rrdi':>9} {'peer':>9} {'ratio':>7}"

Values = Tuple[float, ...]
# Does a work once, in the round of a number, and returns a value for each unit of the work.
Round = Callable[[int], Values]
Sides = Dict[str, Round]


class LeftOut(Exception):
    """Says what a work needs that is not there."""


@dataclass
class Bench:
    """What is measured, and how; and what one work has: an empty folder, and what is closed at its end."""
    program: str
    library: Path
    rounds: int
    is_quick: bool
    folder: Path = Path()
    closing: ExitStack = field(default_factory=ExitStack)
    lacks: Set[str] = field(default_factory=set)

    def few(self, count: int) -> int:
        """Returns how often something is done in a round."""
        return max(count // 50, 2) if self.is_quick else count

    def needs(self, what: str, is_there: object) -> None:
        """Ends a work that needs something that is missing."""
        if not is_there:
            raise LeftOut(what)

    def has(self, peer: str, is_there: object) -> bool:
        """Notes that a peer is missing, and returns whether it is there."""
        if not is_there:
            self.lacks.add(peer)
        return bool(is_there)

    def needs_library(self) -> str:
        self.needs(str(self.library), self.library.exists())
        return str(self.library)


class Work(NamedTuple):
    """What is measured: its name and what it is, the unit of each value, and what prepares the sides. `of_rounds` makes
    one value of those of all rounds."""
    title: str
    units: Tuple[str, ...]
    sides: Callable[[Bench], Sides]
    of_rounds: Callable[[Sequence[float]], float] = statistics.median

    @property
    def name(self) -> str:
        return self.title.partition(":")[0]


def measure(work: Work, bench: Bench) -> List[str]:
    """Measures a work in rounds, each of which begins with another side. Returns the rows of its table."""
    with tempfile.TemporaryDirectory(prefix="rrdi-bench-", ignore_cleanup_errors=True) as folder, ExitStack() as bench.closing:
        bench.folder = Path(folder)
        sides = work.sides(bench)
        names = list(sides)
        found: Dict[str, List[Values]] = {name: [] for name in names}
        for number in range(bench.rounds):
            for name in names:
                found[name].append(sides[name](number))
            names.append(names.pop(0))
    return rows(work, found)


def rows(work: Work, found: Mapping[str, Sequence[Values]]) -> List[str]:
    """Returns a row for each unit, way of rrdi and peer."""
    ways, peers = [name for name in found if name not in PEERS], [name for name in found if name in PEERS]
    return [row(work, at, way, peer, found) for at in range(len(work.units)) for way in ways for peer in peers or [""]]


def row(work: Work, at: int, way: str, peer: str, found: Mapping[str, Sequence[Values]]) -> str:
    ours, theirs = ([values[at] for values in found.get(side, ())] for side in (way, peer))
    title = work.title if way == "rrdi" else f"{work.title}, {way}"
    told = f"{title:44} {work.units[at]:22} {digits(work.of_rounds(ours)):>9}"
    if not theirs:
        return told
    ratio = statistics.median(one / other for one, other in zip(ours, theirs))
    return f"{told} {digits(work.of_rounds(theirs)):>9} {digits(ratio):>7}  {peer}"


def digits(value: float) -> str:
    """Returns whole numbers from 1,000 on, and three digits of others."""
    return f"{value:,.0f}" if value >= 1_000 else f"{value:.3g}"


# ---- What processes cost


def processor_seconds(process: subprocess.Popen[bytes]) -> float:
    """Waits for the end of a process, which must be a good one, and returns its processor time."""
    _, status, used = os.wait4(process.pid, 0)
    process.returncode = os.waitstatus_to_exitcode(status)
    if process.returncode:
        raise RuntimeError(f"{process.args!r} ended with {process.returncode}")
    return float(used.ru_utime + used.ru_stime)


def run_seconds(words: Sequence[object], **variables: str) -> float:
    """Runs a program, and returns its processor time."""
    return processor_seconds(subprocess.Popen([*map(str, words)], stdout=subprocess.DEVNULL, env=environment(variables)))


def instructions(words: Sequence[object], folder: Path, lines: str = "", **variables: str) -> int:
    """Returns the processor instructions of a program itself, without those of the system and of its children."""
    counted = ["valgrind", "--tool=callgrind", "--callgrind-out-file=/dev/null", *map(str, words)]
    ran = subprocess.run(counted, cwd=folder, input=lines, env=environment(variables), capture_output=True, text=True)
    counts = re.findall(r"^==\d+== Collected : (\d+)", ran.stderr, re.MULTILINE)
    if ran.returncode or not counts or "ERROR" in ran.stdout:
        raise RuntimeError(f"{counted} ended with {ran.returncode}: {ran.stdout[-500:]}{ran.stderr[-500:]}")
    return max(int(count) for count in counts)
