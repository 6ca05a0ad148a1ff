# SPDX-License-Identifier: MIT OR Apache-2.0
"""Runs unit tests one by one, in a copy of the repository:

    covered.py --each MODULE    prints a line for each test: whether it passes, its seconds, the lines that ran
    covered.py --serve          reads lines, each with seconds and names of tests, and answers whether one of them fails

A served line costs a fork, because the process has imported what tests and package use of Python's library. For the
lines that ran, `trace` has prepared the copy: the package then notes each line that runs, in all its processes, in a file
of one byte for each line of its sources. It is mapped into memory, so a killed process leaves what it noted."""
from __future__ import annotations

import ast
import atexit
import importlib
import json
import mmap
import os
import resource
import select
import signal
import sys
import time
import unittest
from contextlib import suppress
from pathlib import Path
from typing import Any, Iterator

MEMORY = 6 << 30  # bytes of a process with a bug
SURVIVES = 99  # the status of a process in which no test fails; others may end in any way
FUTURE = "from __future__ import annotations"
NOTES, TRACER = "covered.notes", "covered_lines.py"
# What the package of a copy runs first.
TEXT = '''
import json, mmap, sys, threading
from pathlib import Path

folder = Path(__file__).parent
with open(folder / "covered.notes", "r+b") as file:
    notes = mmap.mmap(file.fileno(), 0)

def noter(begin):
    def note(frame, event, arg):
        notes[begin + frame.f_lineno] = 1
        return note
    return note

noters = {str(folder.parent.parent / name): noter(begin) for name, begin in json.loads((folder / "covered.json").read_text())}

def trace(frame, event, arg):
    note = noters.get(frame.f_code.co_filename)
    return note and note(frame, event, arg)

threading.settrace(trace)
sys.settrace(trace)
'''


def package(top: Path) -> Path:
    return top / "python/rrdi"


def trace(top: Path, files: list[str]) -> None:
    """Prepares a copy: its package notes the lines of these files that run."""
    begins, size = [], 0
    for name in files:
        begins.append((name, size))
        size += (top / name).read_bytes().count(b"\n") + 2
    (package(top) / NOTES).write_bytes(bytes(size))
    (package(top) / "covered.json").write_text(json.dumps(begins))
    (package(top) / TRACER).write_text(TEXT)
    first = package(top) / "__init__.py"
    first.write_text(first.read_text().replace(FUTURE, f"{FUTURE}; from . import covered_lines", 1))


def cases_of(suite: Any) -> Iterator[unittest.TestCase]:
    for part in suite:
        if isinstance(part, unittest.TestCase):
            yield part
        else:
            yield from cases_of(part)


def passes(name: str) -> bool:
    """Runs a test with the fixtures of its class. One that is left out does not pass."""
    result = unittest.TestResult()
    unittest.defaultTestLoader.loadTestsFromName(name).run(result)
    return result.wasSuccessful() and result.testsRun > len(result.skipped)


def lines_in(notes: mmap.mmap, begins: list[tuple[str, int]]) -> dict[str, list[int]]:
    """Returns the lines that are noted, of each file."""
    found = {}
    for (name, begin), (_, end) in zip(begins, [*begins[1:], ("", len(notes))]):
        lines = [number for number, byte in enumerate(notes[begin:end]) if byte]
        if lines:
            found[name] = lines
    return found


def run_each(module: str, top: Path) -> None:
    begins = json.loads((package(top) / "covered.json").read_text())
    with open(package(top) / NOTES, "r+b") as file:
        notes = mmap.mmap(file.fileno(), 0)
    out = os.fdopen(os.dup(1), "w")
    for case in list(cases_of(unittest.defaultTestLoader.loadTestsFromName(module))):
        notes[:] = bytes(len(notes))
        begin = time.monotonic()
        if "rrdi.covered_lines" in sys.modules:
            sys.settrace(sys.modules["rrdi.covered_lines"].trace)
        is_passed = passes(case.id())
        print(json.dumps([case.id(), is_passed, time.monotonic() - begin, lines_in(notes, begins)]), file=out, flush=True)


def imported_by(folder: Path) -> set[str]:
    """Returns the modules of Python's library that the files of a folder import."""
    nodes = [node for path in folder.rglob("*.py") for node in ast.walk(ast.parse(path.read_text()))]
    names = {alias.name for node in nodes if isinstance(node, ast.Import) for alias in node.names}
    names |= {node.module or "" for node in nodes if isinstance(node, ast.ImportFrom) and not node.level}
    return {name for name in names if name.partition(".")[0] in sys.stdlib_module_names}


def serve(top: Path) -> None:
    for name in imported_by(package(top)) | imported_by(Path.cwd()):
        with suppress(ImportError):
            importlib.import_module(name)
    for line in sys.stdin:
        seconds, *names = line.split()
        print(end_of(names, float(seconds)), flush=True)


def end_of(names: list[str], seconds: float) -> str:
    """Runs tests in a child until one fails, and ends all that they leave. Returns how that ends."""
    child = os.fork()
    if child == 0:
        run_in_child(names)
    waits = select.poll()
    ended = os.pidfd_open(child)
    waits.register(ended, select.POLLIN)
    has_ended = bool(waits.poll(1_000 * seconds))
    os.close(ended)
    with suppress(ProcessLookupError):
        os.killpg(child, signal.SIGKILL)
    _, status = os.waitpid(child, 0)
    if not has_ended:
        return "no end"
    return "survives" if os.waitstatus_to_exitcode(status) == SURVIVES else "killed"


def run_in_child(names: list[str]) -> None:
    status = 1
    try:
        os.setsid()
        null = os.open(os.devnull, os.O_RDWR)
        for number in range(3):
            os.dup2(null, number)
        resource.setrlimit(resource.RLIMIT_AS, (MEMORY, MEMORY))
        status = SURVIVES if all(map(passes, names)) else 1
        atexit._run_exitfuncs()
    finally:
        os._exit(status)


def main() -> int:
    sys.path.insert(0, os.getcwd())
    top = Path.cwd().parent.parent
    if sys.argv[1] == "--each":
        run_each(sys.argv[2], top)
    else:
        serve(top)
    return 0


if __name__ == "__main__":
    os.environ.pop("PYTHONDONTWRITEBYTECODE", None)
    sys.exit(main())
