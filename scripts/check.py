#!/usr/bin/python3
# SPDX-License-Identifier: MIT OR Apache-2.0
"""Runs the full check: every proof, planted bug and test. `make check` is the same.

    scripts/check.py [--record]

Two rows of steps run beside each other:

- `rt ci` proves and tests every crate and builds the programs, in a copy of the repository without the planted bugs.
- scripts/try-planted-bugs has the prover refuse the planted bugs, in a workspace with proofs of its own. library/build
  then builds the C library there, and make links it.

pytest then tries what they have built. The first step that fails ends the others. At the end you see the minutes of each
step, the slowest tests, what was left out, what failed, and how many crates, tests and planted bugs passed. The status is
0 if nothing failed."""
from __future__ import annotations

import argparse
import importlib
import os
import re
import shutil
import signal
import subprocess
import sys
import tempfile
import threading
import time
from contextlib import suppress
from dataclasses import dataclass, field
from importlib.util import find_spec
from pathlib import Path
from typing import NamedTuple, Sequence

TOP = Path(__file__).resolve().parent.parent
# Debian's packages: those that the check needs, by a tool or a module of each, and those that only some tests need.
NEEDED = {"cc": "gcc", "make": "make", "objcopy": "binutils", "pytest": "python3-pytest", "xdist": "python3-pytest-xdist"}
USEFUL = {"strace": "strace", "mypy": "mypy", "rrdtool": "rrdtool", "gnuplot": "gnuplot-nox", "pkg-config": "pkg-config",
          "g++": "build-essential", "dh": "debhelper", "dh_python3": "dh-python", "lintian": "lintian",
          "clang-format": "clang-format", "help2man": "help2man", "pandoc": "pandoc"}
# The memory of a process of pytest, with the programs that it runs.
WORKER = 2 << 30
BUGS = "scripts/try-planted-bugs"
LEFT_OUT = re.compile(r"^(?:left out: |SKIPPED )(.*)|^test result: .*; ([1-9]\d* ignored)")
# A test that failed, and what the tests together fail by (tests/support/counts.py).
WRONG = re.compile(r"^(?:FAILED|ERROR) .*|^.* (?:but must try at least|rejects no planted answer).*|^(?:NOT PROVED|REFUSED).*")
# A test among the slowest, as pytest lists them.
SLOW = re.compile(r"^\d+\.\d+s (?:call|setup) .*")
# What `rt ci` builds and pytest tries.
BUILT = re.compile(r"crates/(rrdi/out/rrdi|(tests_\w+)/out/\2_tests)")


class Step(NamedTuple):
    """A command, the pattern of the numbers of what passed in its lines, and the least sum of these numbers."""
    name: str
    words: Sequence[object]
    passed: str = ""
    least: int = 0
    folder: Path | None = None


def rows(copy: Path, workspace: Path) -> tuple[tuple[Step, ...], ...]:
    """Returns the steps before the tests."""
    return ((Step("rt ci", ("rt", "ci"), r"^(?:test result: ok\. )?(\d+) passed[,;] 0 failed", 155, copy),),
            (Step("planted bugs", (TOP / BUGS, "--in", workspace), r"^(\d+) planted bugs.*: 0 wrong$", 100),
             Step("library", (TOP / "library/build", workspace)),
             Step("link", ("make", "--no-print-directory", "link-library", "record"))))


def tests(*options: str) -> Step:
    words = (sys.executable, "-B", "-m", "pytest", "-q", "-n", workers(), "--lacking", "--durations=12", *options)
    return Step("pytest", words, r"\b(\d+) passed", 1_800)


def workers() -> int:
    """Returns how many tests run beside each other: as many as there are processors, if memory permits."""
    free = re.search(r"^MemAvailable: +(\d+) kB", Path("/proc/meminfo").read_text(), re.MULTILINE)
    return max(1, min(len(os.sched_getaffinity(0)), int(free[1] if free else 0) * 1024 // WORKER))


def install(packages: dict[str, str]) -> None:
    """Installs the packages of what is missing, if root may do that, and names those that are missing then."""
    def lacking() -> list[str]:
        importlib.invalidate_caches()
        return [package for name, package in packages.items() if not shutil.which(name) and not find_spec(name)]

    if lacking() and os.geteuid() == 0 and shutil.which("apt-get"):
        for words in (["install", "-y", "-qq"], ["update", "-qq"], ["install", "-y", "-qq"]):  # a new machine has no lists
            with suppress(OSError, subprocess.TimeoutExpired):
                subprocess.run(["apt-get", *words, *(lacking() if words[0] == "install" else [])], timeout=600,
                               stdin=subprocess.DEVNULL, stdout=subprocess.DEVNULL, stderr=subprocess.DEVNULL)
            if not lacking():
                break
    if lacking():
        print(f"check: not all can be tried without: sudo apt-get install {' '.join(lacking())}", flush=True)


def minutes(seconds: float) -> str:
    return f"{int(seconds) // 60}:{int(seconds) % 60:02}"


@dataclass
class Check:
    """A run of the full check."""
    passed: int = 0
    failed: int = 0
    times: list[str] = field(default_factory=list)
    left_out: list[str] = field(default_factory=list)
    slow: list[str] = field(default_factory=list)
    wrong: list[str] = field(default_factory=list)
    running: list[subprocess.Popen[str]] = field(default_factory=list)
    lock: threading.Lock = field(default_factory=threading.Lock)

    def run(self, step: Step) -> None:
        """Runs a step, unless another one has failed, and shows its output as it comes."""
        begin, lines = time.monotonic(), []
        with self.lock:
            if self.failed:
                return
            ran = subprocess.Popen([str(word) for word in step.words], cwd=step.folder or TOP, text=True, errors="replace",
                                   stdin=subprocess.DEVNULL, stdout=subprocess.PIPE, stderr=subprocess.STDOUT,
                                   start_new_session=True)
            self.running.append(ran)
        for line in ran.stdout or ():
            lines.append(line.strip())
            print(f"{step.name}: {line}", end="", flush=True)
        status = ran.wait()
        with self.lock:
            self.running.remove(ran)
            self.times.append(f"{minutes(time.monotonic() - begin):>8}  {step.name}")
            self.judge(step, status, lines)

    def judge(self, step: Step, status: int, lines: list[str]) -> None:
        """Counts what passed in a step that has ended, and fails if that is too little."""
        counts = [int(found[1]) for line in lines if step.passed for found in re.finditer(step.passed, line)]
        self.left_out += [f"{step.name}: {found[1] or found[2]}" for found in map(LEFT_OUT.match, lines) if found]
        self.slow += [f"{step.name}: {line}" for line in lines if SLOW.match(line)]
        self.wrong += [f"{step.name}: {line}" for line in lines if WRONG.match(line)]
        self.passed += sum(counts)
        if status:
            self.fail(f"{step.name} ended with status {status}")
        elif sum(counts) < step.least:
            self.fail(f"{step.name}: {sum(counts)} passed, but {step.least} must")

    def fail(self, why: str) -> None:
        """Reports the first failure, and ends the steps that run."""
        if not self.failed:
            print(f"check: {why}", flush=True)
        self.failed = 1
        for ran in self.running:
            with suppress(ProcessLookupError):
                os.killpg(ran.pid, signal.SIGTERM)

    def row(self, steps: Sequence[Step]) -> None:
        """Runs steps one after another. A step that cannot be started has failed."""
        try:
            for step in steps:
                self.run(step)
        except OSError as error:
            with self.lock:
                self.fail(str(error))

    def beside(self, beside: Sequence[Sequence[Step]]) -> None:
        """Runs rows of steps beside each other. An interrupt ends them."""
        threads = [threading.Thread(target=self.row, args=(steps,)) for steps in beside]
        for thread in threads:
            thread.start()
        try:
            for thread in threads:
                thread.join()
        except KeyboardInterrupt:
            with self.lock:
                self.fail("interrupted")

    def last_lines(self, begin: float) -> str:
        """Returns the time of each step, the slowest tests, what was left out, what failed, and the last line."""
        times = [*self.times, f"{minutes(time.monotonic() - begin):>8}  all, some beside each other"]
        return "\n".join([f"check: minutes of each step, on {len(os.sched_getaffinity(0))} processors", *times,
                          *(f"slow: {what}" for what in self.slow), *(f"left out: {what}" for what in self.left_out),
                          *(f"failed: {what[:300]}" for what in self.wrong), f"{self.passed} passed, {self.failed} failed"])


def copy_without_bugs(top: Path, folder: Path) -> None:
    """Copies the files of the repository that git does not ignore, except the planted bugs."""
    listed = subprocess.run(["git", "-c", "safe.directory=*", "ls-files", "-z", "--cached", "--others", "--exclude-standard"],
                            cwd=top, capture_output=True, text=True, check=True).stdout
    for name in filter(None, listed.split("\0")):
        if not re.match(r"crates/[^/]+/must-fail/", name) and os.path.lexists(top / name):
            (folder / name).parent.mkdir(parents=True, exist_ok=True)
            shutil.copy2(top / name, folder / name, follow_symlinks=False)
    subprocess.run(["git", "init", "-q"], cwd=folder, check=True)


def take_built(folder: Path, top: Path) -> None:
    """Takes the programs that `rt ci` has built in the copy."""
    for path in folder.glob("crates/*/out/*"):
        name = str(path.relative_to(folder))
        if BUILT.fullmatch(name):
            (top / name).parent.mkdir(parents=True, exist_ok=True)
            shutil.copy2(path, top / name)


def run_all(check: Check, *options: str) -> None:
    folder = Path(tempfile.mkdtemp(prefix="rrdi-check-"))
    try:
        copy, workspace = folder / "copy", folder / "workspace"
        workspace.mkdir()
        copy_without_bugs(TOP, copy)
        check.beside(rows(copy, workspace))
        take_built(copy, TOP)
    finally:
        shutil.rmtree(folder, ignore_errors=True)
    if not check.failed:
        check.beside(((tests(*options),),))


def main() -> int:
    parser = argparse.ArgumentParser(prog="make check", description=__doc__,
                                     formatter_class=argparse.RawDescriptionHelpFormatter)
    parser.add_argument("--record", action="store_true", help="put what the tests have counted into docs/results.md")
    options = parser.parse_args()
    signal.signal(signal.SIGTERM, signal.default_int_handler)
    begin, check = time.monotonic(), Check()
    for packages in (NEEDED, USEFUL):
        install(packages)
    if not (find_spec("pytest") and find_spec("xdist")):
        print("0 passed, 1 failed")
        return 1
    run_all(check, *["--record"] * options.record)
    print(check.last_lines(begin), flush=True)
    return 1 if check.failed or not check.passed else 0


if __name__ == "__main__":
    sys.exit(main())
