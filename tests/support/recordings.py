# SPDX-License-Identifier: MIT OR Apache-2.0
"""What programs that were written for RRDtool record and draw on rrdi, beside what rrdtool makes of the same calls."""
from __future__ import annotations

import re
import shutil
import struct
import subprocess
import time
import zlib
from pathlib import Path

from support.check import Check
from support.program import TOP, Program
from support.tools import Tools, build_preload

CHANGES = ("create", "update", "updatev", "tune")
PATIENCE = 600  # seconds for one run of a program
# Keeps the lines of the pipe in a file, and passes them on.
TEE = """#!/usr/bin/python3
import os, subprocess, sys
log = open(f"{os.environ['CALLS']}.{os.getpid()}", "ab", 0)
child = subprocess.Popen([os.environ["PIPED"], *sys.argv[1:]], stdin=subprocess.PIPE)
for line in sys.stdin.buffer:
    log.write(line)
    child.stdin.write(line)
    child.stdin.flush()
child.stdin.close()
sys.exit(child.wait())
"""
# RRDtool keeps a step that was known for its first seconds before an outage; docs/differences.md has the rule. A row of
# several steps, one of which is such a step, has another value.
AFTER_OUTAGE = re.compile(r"\w+ (\d+) s: \d+ cells, \d+ agree(, \d+ only in the old file)?"
                          r"(, \d+ apart by up to [\d.]+)?, the newest at \d+$")


def pixels(picture: bytes) -> bytes:
    """Returns the pixels of a PNG, as they are before compression, and the bytes of any other picture."""
    if picture[:8] != b"\x89PNG\r\n\x1a\n":
        return picture
    at, data = 8, b""
    while at < len(picture):
        length, kind = struct.unpack_from(">I4s", picture, at)
        data += picture[at + 8:at + 8 + length] if kind == b"IDAT" else b""
        at += length + 12
    return zlib.decompress(data)


def is_of_outage(lines: list[str]) -> bool:
    """Checks whether an outage explains how archives differ, in what rrdi-compare prints."""
    finest = min(int(line.split()[1]) for line in lines)
    found = [AFTER_OUTAGE.match(line) for line in lines if not line.endswith(" agree")]
    return bool(found) and all(match and (not match[3] or int(match[1]) > finest) for match in found)


def has_outage(lines: list[str]) -> bool:
    """Checks whether two samples of a file are farther apart than its heartbeat, as on a machine that is too busy."""
    words = [word for line in lines for word in line.split()]
    heartbeat = min(int(word.split(":")[3]) for word in words if word.startswith("DS:"))
    times = [int(word.split(":")[0]) for word in words if re.match(r"\d{10}:", word)]
    return any(later - sooner > heartbeat for sooner, later in zip(times, times[1:]))


def one_by_one(line: str) -> list[str]:
    """Splits an update into updates of one sample each. The recorder stores each sample that rrdi accepts; of several
    samples in one update, rrdtool stores none after a refused one, such as a second sample of one second."""
    words = line.split(" ")
    if words[0] != "update":
        return [line]
    begin = 4 if words[2] == "--template" else 2
    return [" ".join([*words[:begin], sample]) for sample in words[begin:]]


class Recordings(Tools):
    """A folder with a program's files, and the calls that the program made."""

    def __init__(self, program: Program, folder: Path, check: Check) -> None:
        super().__init__(program, folder, check)
        self.rrdtool_program, self.piped = shutil.which("rrdtool") or "rrdtool", str(TOP / "tools/rrdi-rrdtool")
        self.compare, self.export = str(TOP / "tools/rrdi-compare"), str(TOP / "tools/rrdi-export")
        self.env.update(RRDI_RRDTOOL=self.script("tee", TEE), PIPED=self.piped)
        # In taint mode the module runs the program of its own installation, whatever the environment names.
        self.installed = folder / "installed"
        for name in ("perl", "tools"):
            (self.installed / name).mkdir(parents=True)
        shutil.copy(TOP / "perl/RRDs.pm", self.installed / "perl")
        self.script("installed/tools/rrdi-rrdtool", f"#!/bin/sh\nRRDI='{program.path}' exec '{folder}/tee' \"$@\"\n")
        folder.chmod(0o777)
        self.clock = build_preload("clock.c", folder / "clock.so")

    def script(self, name: str, text: str) -> str:
        path = self.folder / name
        path.write_text(text)
        path.chmod(0o755)
        return str(path)

    def record(self, name: str, *words: str, user: str = "", may_fail: bool = False) -> bool:
        """Runs a program, whose calls go to files calls.NAME.*, and returns whether it ended well."""
        command = ["runuser", "-u", user, "--", *words] if user else list(words)
        env = {**self.env, "CALLS": str(self.folder / f"calls.{name}")}
        ran = subprocess.run(command, cwd=self.folder, env=env, stdin=subprocess.DEVNULL, capture_output=True,
                             text=True, timeout=PATIENCE)
        self.check.count("runs of programs")
        if may_fail and ran.returncode != 0:
            return False
        said = ran.stdout[-900:] + ran.stderr[-900:]
        return self.check(ran.returncode == 0, f"{name}: status {ran.returncode}: {said}")

    def calls(self, name: str) -> list[str]:
        files = sorted(self.folder.glob(f"calls.{name}.*"), key=lambda path: path.stat().st_mtime)
        return [line for path in files for line in path.read_text().splitlines() if not line.startswith("cd ")]

    def moved(self, text: str, to: str) -> str:
        """Returns a text with the files of a folder of this folder, in place of this folder's own."""
        return text.replace(str(self.folder), str(self.folder / to))

    # ---- files

    def compare_files(self, name: str, is_by_sample: bool = False) -> None:
        """Passes the program's changes to rrdtool, each sample as an update if that is asked for, and compares all rows
        of all files."""
        lines = [line for line in self.calls(name) if line.split(" ")[0] in CHANGES]
        if is_by_sample:
            lines = [one for line in lines for one in one_by_one(line)]
        self.check.count("calls", len(lines))
        files = sorted({line.split()[1] for line in lines if line.startswith("create ")})
        for file in files:
            Path(self.moved(file, "replayed")).parent.mkdir(parents=True, exist_ok=True)
        given = "".join(f"{self.moved(line, 'replayed')}\n" for line in lines)
        self.run(self.rrdtool_program, "-", given=given)  # which refuses what rrdi refuses
        self.check(bool(files), f"{name} created no file")
        for file in files:
            self.compare_file(file, [line for line in lines if line.split()[1] == file])

    def compare_file(self, file: str, made: list[str]) -> None:
        """Compares a file with the one that rrdtool made by the same calls."""
        old = self.moved(file, "replayed")
        told = self.run(self.compare, old, file)
        self.check.count("files")
        self.check.count("cells", sum(int(count) for count in re.findall(r": (\d+) cells", told.out)))
        self.check.count("rows known", self.known_rows(old))
        apart = [line for line in told.out.splitlines() if not line.endswith(" agree")]
        if told.status == 1 and apart and is_of_outage(told.out.splitlines()) and has_outage(made):
            self.check.count("files with an outage")
            return
        self.check(told.status == 0 and "agree" in told.out,
                   "\n".join([f"{file}:", *apart, told.err, "the calls:", *(line[:300] for line in made)]))

    def known_rows(self, file: str) -> int:
        """Counts the known rows of the last minute of a file of RRDtool."""
        last = int(self.run(self.rrdtool_program, "last", file).out)
        fetched = self.run(self.rrdtool_program, "fetch", file, "AVERAGE", "-s", last - 60, "-e", last).out
        return len(re.findall(r": [-\d]\S*e", fetched))

    # ---- pictures

    def compare_pictures(self, name: str) -> None:
        """Draws each picture again by both programs, with the same stopped clock; rrdtool draws from the same rows in
        an .rrd."""
        words = [word for line in self.calls(name) for word in line.split() if word.startswith("DEF:")]
        for file in {word.split("=")[1].split(":")[0] for word in words}:
            there = Path(self.moved(file, "exported"))
            there.parent.mkdir(parents=True, exist_ok=True)
            there.unlink(missing_ok=True)
            told = self.run(self.export, file, there)
            assert told.status == 0, f"rrdi-export {file}: {told}"
        lines = [line for line in self.calls(name) if line.startswith("graph ") and "DEF:" in line]
        self.check(bool(lines), f"{name} drew no picture")
        for line in lines:
            drawn, now = re.sub(r"^graph \S+", "graph drawn.png", line), int(time.time())
            old = self.draw(self.rrdtool_program, drawn.replace(f"={self.folder}", f"={self.folder}/exported"), now)
            new = self.draw(self.piped, drawn, now)
            self.check.count("pictures")
            # Smokeping also draws pictures of 0x0 points, for the numbers that it prints.
            is_alike = old == new and "x" in str(old[0][:1]) and (old[1] is not None or old[0][0] == "0x0")
            self.check(is_alike, f"{name}: the pictures differ: {old[0]} by rrdtool, {new[0]}: {line[:200]}")

    def draw(self, by: str, line: str, now: int) -> tuple[list[str], bytes | None]:
        """Draws a picture as of the time `now`. Returns the answer and the pixels."""
        told = self.run(by, "-", given=f"{line}\n", LD_PRELOAD=str(self.clock), CLOCK=str(now))
        picture = self.folder / "drawn.png"
        drawn = pixels(picture.read_bytes()) if picture.exists() else None
        picture.unlink(missing_ok=True)
        return told.out.splitlines()[:-1], drawn

