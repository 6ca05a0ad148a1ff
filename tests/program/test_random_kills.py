# SPDX-License-Identifier: MIT OR Apache-2.0
"""Kills at random moments of updates and other changes, on files of 1.5, 30, 400 and 4,000 kilobytes: the next command
finds the old database or the new one. test_kills.py tries each call instead; here the moment may lie within a call."""
from __future__ import annotations

import random
import subprocess
import time
from pathlib import Path

import pytest

from support.changes import REPAIR
from support.losses import TRIED, Losses
from support.program import KILLED, environment

LEAST_LONG = {TRIED: 5_800}
COUNT, FEW = 1_000, 200
# An update that a journal of 16 places keeps after so many others.
FULL = 16
# Changes, each with the updates before it, and how often it is killed.
CHANGES = {"an update, the journal full": (FULL, ["update", "170:5"], COUNT),
           "an update that lengthens": (3, ["update", "40:5"], FEW),
           "a revert": (FULL, ["revert"], FEW)}
MANY = ["update", *(f"{10 * number}:{number}" for number in range(20, 1_000))]
# Rows of a file of 1.5, 30, 400 and 4,000 kilobytes once its journal is full.
SIZES = (4, 1_800, 25_000, 250_000)


def lifetime(losses: Losses, file: Path, old: bytes, words: list[str]) -> float:
    """Returns the usual duration of a run in seconds."""
    seconds = []
    for _ in range(15):
        file.write_bytes(old)
        begin = time.perf_counter()
        subprocess.run([losses.program.path, *words], env=environment(None), stderr=subprocess.DEVNULL)
        seconds.append(time.perf_counter() - begin)
    return sorted(seconds)[7]


def killed_at(losses: Losses, words: list[str], delay: float) -> bool:
    """Runs a command and kills it after a number of seconds. Returns whether the run was killed."""
    child = subprocess.Popen([losses.program.path, *words], stderr=subprocess.DEVNULL, env=environment(None))
    end = time.perf_counter() + delay
    while time.perf_counter() < end:
        pass
    child.kill()
    return child.wait() == KILLED


def kill(losses: Losses, rows: int, updates: int, change: list[str], count: int) -> None:
    """Kills a change `count` times, on a file of `rows` rows after `updates` updates."""
    file = losses.folder / "killed.rrdi"
    old = losses.make(file, rows, updates)
    words = [change[0], str(file), *change[1:]]
    losses.run(words)
    new = file.read_bytes()
    losses.check(old != new, "the command changes nothing")
    whole, runs, killed = lifetime(losses, file, old, words), 0, 0
    while killed < count and runs < 50 * count + 100:
        file.write_bytes(old)
        runs += 1
        if not killed_at(losses, words, random.uniform(0, 1.2 * whole)):
            if runs % 100 == 0:
                whole = lifetime(losses, file, old, words)  # the machine may be less busy now
            continue
        killed += 1
        read = losses.run(["last", file])
        answer = losses.run([REPAIR.words[0], file], REPAIR.lines)
        now = file.read_bytes()
        losses.check.count(TRIED)
        losses.check(answer.status == 0 and read == answer and now in (old, new),
                     f"{change[:2]}: {answer}, {len(now)} bytes, {now[:16]!r}")
    losses.check(killed == count, f"{change[:2]}: only {killed} of {runs} runs were killed in time")


@pytest.mark.long
@pytest.mark.xdist_group("kills")
@pytest.mark.parametrize("name", CHANGES)
@pytest.mark.parametrize("rows", SIZES)
def test_random_kills(losses: Losses, rows: int, name: str) -> None:
    updates, change, count = CHANGES[name]
    kill(losses, rows, updates, change, count)


@pytest.mark.long
@pytest.mark.xdist_group("kills")
def test_random_kills_of_many_pages(losses: Losses) -> None:
    kill(losses, SIZES[2], FULL, MANY, FEW)
