# SPDX-License-Identifier: MIT OR Apache-2.0
"""A recorder that keeps files open, as a process that a test kills; and what a reader beside it may find.

Each file has the sources a and b, and an update at time t gives both the value t. So each row that anybody reads shows
whether it belongs to one database: its values are its time, and no row is missing up to the last one."""
from __future__ import annotations

import subprocess
import sys
import threading
from pathlib import Path
from typing import Iterable, Sequence

from support.program import TOP, environment

ROWS = 600
DEFINITION = ("--start", "0", "--step", "1", "DS:a:GAUGE:9:U:U", "DS:b:GAUGE:9:U:U", f"RRA:LAST:0:1:{ROWS}",
              f"RRA:AVERAGE:0:10:{ROWS}", f"RRA:MAX:0:60:{ROWS}")
# Updates each file that the arguments name, whenever a line comes or a time in seconds is over, and says which time it has
# written to which file. It never closes a file.
RECORDER = """
import select, sys
import rrdi
pause, paths = float(sys.argv[1]), sys.argv[2:]
files = [rrdi.Database(path).open() for path in paths]
times = [file.last() for file in files]
print("begun", flush=True)
while True:
    ready = select.select([sys.stdin], [], [], pause or None)[0]
    if ready and not sys.stdin.readline():
        break
    for number, file in enumerate(files):
        times[number] += 1
        time = times[number]
        file.update((time, time, time))
        print(number, time, flush=True)
"""


class Recorder:
    """A process that keeps files open and updates them: every `pause` seconds, or with 0 when it is told to."""

    def __init__(self, library: Path, files: Sequence[Path], pause: float):
        env = environment({"RRDI_LIBRARY": str(library), "PYTHONPATH": str(TOP / "python"), "RRDI_WAIT": "60"})
        self.process = subprocess.Popen([sys.executable, "-c", RECORDER, str(pause), *map(str, files)], env=env, text=True,
                                        stdin=subprocess.PIPE, stdout=subprocess.PIPE, stderr=subprocess.PIPE)
        assert self.process.stdout
        self.has_begun = self.process.stdout.readline() == "begun\n"
        self.written: dict[int, int] = {}
        self.thread = threading.Thread(target=self._follow)
        if pause:
            self.thread.start()

    def _follow(self) -> None:
        assert self.process.stdout
        for line in self.process.stdout:
            self._note(line)

    def _note(self, line: str) -> None:
        words = line.split()
        if line.endswith("\n") and len(words) == 2:
            self.written[int(words[0])] = int(words[1])

    def tell(self) -> None:
        """Has each file updated once, and returns when that is done: then nothing happens until the next call."""
        assert self.process.stdin and self.process.stdout
        self.process.stdin.write("\n")
        self.process.stdin.flush()
        last = len(self.process.args) - 5  # type: ignore[arg-type]
        while (line := self.process.stdout.readline()) and not line.startswith(f"{last} "):
            self._note(line)
        self._note(line)

    def kill(self) -> str:
        """Kills the process, and returns what it said on its standard error."""
        self.process.kill()
        return self.end()

    def end(self) -> str:
        """Lets the process end, without closing its files, and returns what it said on its standard error."""
        assert self.process.stdin and self.process.stdout and self.process.stderr
        self.process.stdin.close()
        said = self.process.stderr.read()
        if self.thread.ident:
            self.thread.join()
        self.process.wait()
        self.process.stdout.close()
        self.process.stderr.close()
        return said


def rows_of(text: str) -> list[tuple[int, list[float]]]:
    """Returns the known rows of what `fetch` printed."""
    found = []
    for line in text.splitlines():
        time, colon, values = line.partition(": ")
        if time.isdigit() and colon and "nan" not in values:
            found.append((int(time), [float(value) for value in values.split()]))
    return found


def faults_in(rows: Iterable[tuple[int, Sequence[float]]], last: int) -> list[str]:
    """Returns what shows that rows, which were read when at least the update at `last` was in the file, are not those of one
    database."""
    found, times = [], []
    for time, values in rows:
        times.append(time)
        if list(values) != [time, time]:
            found.append(f"the row at {time} has {values}")
    if times and times != list(range(times[0], times[0] + len(times))):
        found.append("rows are missing in between")
    if (times[-1] if times else 0) < last:
        found.append(f"the rows end at {times[-1:]} before {last}")
    return found
