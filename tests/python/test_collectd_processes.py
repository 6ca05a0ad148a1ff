# SPDX-License-Identifier: MIT OR Apache-2.0
"""Tests of two processes with collectd's writer that start one file: what both count as taken in is in the file, whoever makes
it, and no file is renamed.

RRDI_ROUNDS sets how many files are started (10)."""
from __future__ import annotations

import json
import os
import random
import time
from typing import Any, List, NamedTuple

import graphite_doubles as graphite
from cases import DataCase, WithLibrary, WithProgram, use_library
from rrdi import collectd, commands
from test_collectd import NOW, values

ROUNDS = int(os.environ.get("RRDI_ROUNDS", "10"))
TURNS = 5  # of a process: each writes a sample at once
LONGEST_DELAY = 0.004  # seconds between the beginnings of the two


class Counts(NamedTuple):
    """What a process says at its end: the samples that it took in and lost, and the lines for collectd's log."""

    taken: int
    lost: int
    lines: List[str]


def recorded(folder: str, host: str, which: int) -> Counts:
    """Writes samples as one of two processes, whose times come in turns."""
    host_of_plugin = graphite.Collectd()
    plugin = collectd.Plugin(host_of_plugin)
    plugin.options.datadir = folder
    for turn in range(TURNS):
        plugin.write(values(NOW + 10 * (2 * turn + which), 1.0, type="gauge", host=host))
        plugin.flush(0)
    plugin.end()
    return Counts(plugin.counts["taken"], plugin.counts["lost"], host_of_plugin.lines)


class Recording:
    """A process that records when `gate` is closed, after a delay."""

    def __init__(self, folder: str, host: str, which: int, gate: int, own_end: int, delay: float):
        self.answer, told = os.pipe()
        self.process = os.fork()
        if self.process == 0:
            try:
                os.close(own_end)  # of this process, so that the gate is closed when the other one closes it
                os.read(gate, 1)
                time.sleep(delay)
                os.write(told, json.dumps(recorded(folder, host, which)).encode())
            finally:
                os._exit(0)
        os.close(told)

    def counts(self) -> Counts:
        """Waits for the end of the process."""
        with open(self.answer, "rb") as answer:
            found = answer.read()
        os.waitpid(self.process, 0)
        return Counts(*json.loads(found))


class Starting(DataCase):
    def setUp(self: Any) -> None:
        super().setUp()
        use_library(self, self.library())
        self.chance = random.Random(7)

    def started(self, host: str) -> List[Counts]:
        """Lets two processes start one file."""
        gate, held = os.pipe()
        pair = [Recording(str(self.folder), host, which, gate, held, self.chance.uniform(0, LONGEST_DELAY)) for which in range(2)]
        os.close(held)
        os.close(gate)
        return [one.counts() for one in pair]

    def test_two_processes(self: Any) -> None:
        for number in range(ROUNDS):
            host = f"h{number}"
            both = self.started(host)
            taken, lines = sum(one.taken for one in both), [line for one in both for line in one.lines]
            self.assertEqual(taken + sum(one.lost for one in both), 2 * TURNS, lines)
            self.assertGreater(taken, 0, lines)
            self.assertEqual(commands.info(str(self.folder / host / "load/gauge.rrdi")).undoable, taken, lines)
        wanted = sorted(f"data/h{number}/load/gauge.rrdi" for number in range(ROUNDS))
        self.assertEqual(self.files(), wanted)


class ByProgram(WithProgram, Starting):
    pass


class ByLibrary(WithLibrary, Starting):
    pass


del Starting
