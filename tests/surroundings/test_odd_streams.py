# SPDX-License-Identifier: MIT OR Apache-2.0
"""Standard streams that are named pipes, sockets, closed, or on a full disk: the program and the tools read and write the same
through them, and end with the status that they have otherwise."""
from __future__ import annotations

import os
import re
import shutil
import socket
import subprocess
import sys
import threading
from contextlib import ExitStack
from pathlib import Path
from typing import Callable, List, NamedTuple, Optional, Union

import pytest

from support.check import Check
from support.program import PATIENCE, Program
from support.tools import Tools

LEAST = {"runs": 125}
AT = 1_700_000_000
MADE = f"create f.rrdi --step 10 --start {AT} DS:g:GAUGE:60:U:U RRA:LAST:0.5:1:3000 RRA:MAX:0.5:3:9".split()
SAMPLES = [f"{AT + 10 * at}:{at}" for at in range(1, 2001)]
LINES = "".join(f"f.rrdi {AT + 20_000 + 10 * at}:{at}.5\n" for at in range(1, 2001))
BATCH = "".join(f"update {AT + 20_000 + 10 * at}:{at}\nlast\n" for at in range(1, 2001))
# Commands that print something, and what they read.
PRINTING: List[tuple[str, str]] = [
    ("rrdi info f.rrdi", ""), (f"rrdi fetch f.rrdi LAST -s {AT} -e {AT + 19_000}", ""), ("rrdi batch f.rrdi", BATCH),
    ("rrdi-show f.rrdi", ""), ("rrdi-show --csv f.rrdi", ""), ("rrdi-export f.rrdi", ""), ("rrdi-check f.rrdi g --stale 99999d", ""),
    (f"rrdi-fix f.rrdi {AT + 20_000} 5", ""), ("rrdi-rrdtool -", "info f.rrdi\nlast f.rrdi\nquit\n")]
# Commands that read their standard input to its end.
READING: List[tuple[str, str]] = [
    ("rrdi batch f.rrdi", BATCH), ("rrdi-feed", LINES), ("rrdi-rrdtool -", "last f.rrdi\nquit\n"),
    (f"rrdi-fix f.rrdi {AT + 20_000} 5 --samples -", "")]
# Commands that fail, and say so.
FAILING = ["rrdi last none.rrdi", "rrdi nothing f.rrdi", "rrdi update f.rrdi 5:1", "rrdi-show none.rrdi", "rrdi-check f.rrdi",
           "rrdi-fix none.rrdi 5", "rrdi-export none.rrdi", "rrdi-import none.rrd", "rrdi-compare none.rrd f.rrdi",
           "rrdi-plot none.rrdi p.svg", "rrdi-record none/f.rrdi"]
Stream = Union[int, None]
SECONDS = re.compile(rb"u:[0-9.]+ s:[0-9.]+ r:[0-9.]+")  # that a call has taken


class Ran(NamedTuple):
    status: int
    out: bytes
    err: bytes
    file: bytes


class Ends:
    """The other ends of the streams of a process: threads write into them, and read from them."""

    def __init__(self, folder: Path, stack: ExitStack):
        self.folder, self.stack, self.threads, self.got = folder, stack, [], b""
        self.is_begun = False

    def source(self, way: str, given: bytes) -> int:
        """Returns a standard input from which bytes can be read."""
        ours, theirs = self.pair(way, "in")
        self.run(lambda: self.write(ours, given))
        return theirs

    def sink(self, way: str) -> int:
        """Returns a standard output; `got` has what was written to it."""
        theirs, ours = self.pair(way, "out")
        self.run(lambda: self.read(ours))
        return theirs

    def pair(self, way: str, name: str) -> tuple[int, int]:
        """Returns an end to write to, and one to read from."""
        if way == "socket":
            left, right = socket.socketpair()
            return left.detach(), right.detach()
        path = self.folder / f"fifo.{name}"
        os.mkfifo(path)
        reading = os.open(path, os.O_RDONLY | os.O_NONBLOCK)
        writing = os.open(path, os.O_WRONLY)
        os.set_blocking(reading, True)
        path.unlink()
        return writing, reading

    def run(self, work: Callable[[], None]) -> None:
        self.threads.append(threading.Thread(target=work))

    def write(self, number: int, given: bytes) -> None:
        with open(number, "wb", buffering=0) as stream, self.stack.enter_context(ExitStack()):
            try:
                left = memoryview(given)
                while left:
                    left = left[stream.write(left[:1000]):]
            except (BrokenPipeError, ConnectionResetError):
                pass

    def read(self, number: int) -> None:
        with open(number, "rb") as stream:
            self.got = stream.read()

    def begin(self) -> None:
        for thread in self.threads:
            thread.start()

    def end(self) -> None:
        for thread in self.threads:
            thread.join(PATIENCE)


@pytest.fixture
def tools(program: Program, folder: Path, check: Check) -> Tools:
    made = Tools(program, folder, check)
    assert made.run("rrdi", *MADE).status == 0
    for samples in (SAMPLES[:-1], SAMPLES[-1:]):
        assert made.run("rrdi", "update", "f.rrdi", *samples).status == 0
    shutil.copy(folder / "f.rrdi", folder / "kept")
    return made


def run(tools: Tools, line: str, given: str = "", source: str = "", sink: str = "", err: str = "") -> Ran:
    """Runs a command on a new copy of the file, whose streams are named pipes, sockets, closed, or a file that is named; the others
    are as ever."""
    shutil.copy(tools.folder / "kept", tools.folder / "f.rrdi")
    name, *words = line.split()
    path = [tools.program.path] if name == "rrdi" else [sys.executable, str(tools.tools / name)]
    closed = "".join(f" {number}{mark}&-" for number, mark, way in ((0, "<", source), (1, ">", sink), (2, ">", err)) if way == "closed")
    with ExitStack() as stack:
        ends, opened = Ends(tools.folder, stack), []
        streams: List[Optional[Stream]] = []
        for way, usual in ((source, subprocess.PIPE), (sink, subprocess.PIPE), (err, subprocess.PIPE)):
            if way.startswith("/"):
                opened.append(os.open(way, os.O_RDWR))
                streams.append(opened[-1])
            else:
                streams.append(usual)
        if source in ("fifo", "socket"):
            streams[0] = ends.source(source, given.encode())
            opened.append(streams[0])
        if sink in ("fifo", "socket"):
            streams[1] = ends.sink(sink)
            opened.append(streams[1])
        command = ["sh", "-c", f'exec "$@"{closed}', "sh", *path, *words] if closed else [*path, *words]
        process = subprocess.Popen(command, stdin=streams[0], stdout=streams[1], stderr=streams[2], cwd=tools.folder, env=tools.env)
        for number in opened:
            os.close(number)
        ends.begin()
        out, said = process.communicate(given.encode() if streams[0] == subprocess.PIPE and not closed.startswith(" 0") else None, PATIENCE)
        ends.end()
    tools.check.count("runs")
    printed = ends.got if sink in ("fifo", "socket") else out or b""
    return Ran(process.returncode, SECONDS.sub(b"", printed), said or b"", (tools.folder / "f.rrdi").read_bytes())


@pytest.mark.parametrize("way", ("fifo", "socket"))
def test_output(way: str, tools: Tools, check: Check) -> None:
    for line, given in PRINTING:
        plain = run(tools, line, given)
        check.same(run(tools, line, given, sink=way), plain, f"{line}, to a {way}")
        check.same((plain.status, plain.err, len(plain.out) > 5), (0, b"", True), line)


@pytest.mark.parametrize("way", ("fifo", "socket"))
def test_input(way: str, tools: Tools, check: Check) -> None:
    for line, given in READING:
        plain = run(tools, line, given)
        check.same(run(tools, line, given, source=way), plain, f"{line}, from a {way}")
        check.same((plain.status, plain.err), (0, b""), line)


def test_a_closed_input(tools: Tools, check: Check) -> None:
    """Who needs no input does not miss it, and no other file is taken for it."""
    for line, _ in PRINTING[:2] + PRINTING[3:8]:
        check.same(run(tools, line, source="closed"), run(tools, line), f"{line}, without an input")
    for line, _ in READING:
        ran = run(tools, line, source="closed")
        is_right = ran.status in (0, 1) and b"Traceback" not in ran.err and ran.file == (tools.folder / "kept").read_bytes()
        check.same(is_right, True, f"{line}, without an input: {ran[:3]}")


@pytest.mark.parametrize("err", ("closed", "/dev/full"))
def test_nowhere_to_complain(err: str, tools: Tools, check: Check) -> None:
    """A message that nobody takes is in no other stream, and changes no status."""
    for line in FAILING:
        plain = run(tools, line)
        check.same((plain.status > 0, plain.err != b""), (True, True), f"{line}: {plain[:3]}")
        check.same(run(tools, line, err=err)[:2], plain[:2], f"{line} 2>{err}")


@pytest.mark.parametrize("sink", ("closed", "/dev/full"))
def test_nowhere_to_print(sink: str, tools: Tools, check: Check) -> None:
    """A run whose output is lost says so in one line, or not at all if it was closed, and leaves the file right."""
    for line, given in PRINTING:
        plain, ran = run(tools, line, given), run(tools, line, given, sink=sink)
        told = ran.status, ran.err.decode(errors="replace")
        check.same("Traceback" not in told[1] and told[1].count("\n") <= 1, True, f"{line} >{sink}: {told}")
        if sink == "/dev/full":
            check.same(ran.status in (1, 3) and ran.err != b"", True, f"{line} >{sink}: {told}")
        check.same(ran.file == plain.file or line.startswith("rrdi batch"), True, f"the file after {line} >{sink}")
