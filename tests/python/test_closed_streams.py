# SPDX-License-Identifier: MIT OR Apache-2.0
"""Tests of a process that has closed some of its standard streams, as a daemon does: the system then gives their numbers to
the next files that are opened, and no text of another thread may reach a database; and a tool does what it does with them."""
from __future__ import annotations

import json
import os
import subprocess
import sys
import unittest
from pathlib import Path
from typing import Any, List, Tuple

from cases import needs_library, new_folder

PYTHON = Path(__file__).resolve().parents[2] / "python"
# Closes streams, runs commands by the library, and stores what each command gave, and the bytes of the file after it.
SCRIPT = """
import fcntl, hashlib, json, os, sys, threading, time
import rrdi

file, results, streams = sys.argv[1], sys.argv[2], json.loads(sys.argv[3])
lines = "fetch LAST -s 0 -e 39\\nupdate 30:3\\nupdate 5:1\\n"
calls = [lambda: rrdi.create(file, "DS:g:GAUGE:100:U:U", "RRA:LAST:0.5:1:4", step=10, start=0),
         lambda: rrdi.update(file, "10:1"), lambda: rrdi.update(file, "5:1"), lambda: rrdi.update(file, "unreadable"),
         lambda: rrdi.fetch(file, "LAST", start=0, end=39), lambda: rrdi.batch(file, lines), lambda: rrdi.last(file),
         lambda: rrdi.revert(file), lambda: rrdi.tune(file, "-i", "g:5")]
rrdi.load_library()
calls[0]()
# The present process holds the lock by another descriptor, so that a call waits while text is written to the streams.
number = os.open(file, os.O_RDWR)
holder = fcntl.fcntl(number, fcntl.F_DUPFD_CLOEXEC, 10)
os.close(number)
for stream in streams:
    os.close(stream)


def write_texts():
    time.sleep(0.15)
    for stream in (0, 1, 2):
        try:
            os.write(stream, b"a text of the process")
        except OSError:
            pass
    fcntl.flock(holder, fcntl.LOCK_UN)


# Makes a call that waits for the lock, while another thread writes to the streams.
def called(call):
    fcntl.flock(holder, fcntl.LOCK_EX)
    thread = threading.Thread(target=write_texts)
    thread.start()
    try:
        return repr(call())
    except rrdi.Error as error:
        return repr(error)
    finally:
        thread.join()


told = []
for call in calls:
    answer = called(call)
    with open(file, "rb") as held:
        told.append((answer, hashlib.sha256(held.read()).hexdigest()))
with open(results, "w") as to:
    json.dump(told, to)
os._exit(0)
"""


# The streams that are closed: none, each alone, and all.
CLOSED: List[Tuple[int, ...]] = [(), (0,), (1,), (2,), (0, 1, 2)]


@needs_library
class ClosedStreams(unittest.TestCase):
    def told(self, streams: Tuple[int, ...]) -> Any:
        """Returns what a process without these streams got, and the file after each of its commands."""
        folder = new_folder(self)
        results = folder / "results"
        subprocess.run([sys.executable, "-c", SCRIPT, str(folder / "f.rrdi"), str(results), json.dumps(streams)],
                       env={**os.environ, "PYTHONPATH": str(PYTHON), "RRDI_WAIT": "60"}, stdin=subprocess.DEVNULL, capture_output=True,
                       timeout=300, check=True)
        return [(answer.replace(str(folder), ""), digest) for answer, digest in json.loads(results.read_text())]

    def test_each_command_does_the_same(self) -> None:
        whole = self.told(CLOSED[0])
        answers, digests = zip(*whole)
        self.assertIn("not later than 10", answers[2])
        self.assertEqual(len({digests[number] for number in (1, 2, 3, 4)}), 1)
        self.assertEqual(answers[6], "30")
        self.assertEqual(len(set(digests)), 4)
        for streams in CLOSED[1:]:
            with self.subTest(streams=streams):
                self.assertEqual(self.told(streams), whole)


class ClosedOutput(unittest.TestCase):
    """A daemon that has closed its standard output runs rrdi-rrdtool: the command is run all the same."""

    def test_a_change_is_made(self) -> None:
        folder = new_folder(self)
        program, file = folder / "rrdi", str(folder / "x.rrd")
        program.write_text(f"#!/bin/sh\necho \"$@\" >> {folder}/ran\n")
        program.chmod(0o755)
        tool = str(PYTHON.parent / "tools" / "rrdi-rrdtool")
        for words in (["update"], ["--rrdi", "update"]):
            ran = subprocess.run(["sh", "-c", 'exec "$@" >&-', "sh", sys.executable, tool, *words, file, "10:1"],
                                 env={**os.environ, "RRDI": str(program)}, capture_output=True, timeout=300)
            self.assertEqual((ran.returncode, ran.stderr), (0, b""))
        self.assertEqual((folder / "ran").read_text(), 2 * f"update {file} 10:1\n")
