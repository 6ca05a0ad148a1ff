# SPDX-License-Identifier: MIT OR Apache-2.0
"""One update writes few bytes, however large the file is (docs/performance.md): for a file of up to 4 MB at most 4 KB,
for 64 MB at most 8 KB. They have the new bytes twice, in the log and in their place. A tune of a setting and a revert
write at most 8 KB."""
from __future__ import annotations

import re
import subprocess
from pathlib import Path
from typing import Callable

import pytest

from support.check import Check
from support.program import Answer, Program, environment
from support.sizes import FILES, SizedFile

MEASURED = "updates measured"
UPDATES = 5
OTHERS = "other changes measured"
CHANGES = [["tune", "--heartbeat", "g:200"], ["revert"]]
OF_CHANGE = 8_192
LEAST = {MEASURED: UPDATES * len(FILES), OTHERS: len(CHANGES) * len(FILES)}
# A call that writes a file, or creates a second file: the name of the call, its arguments, and its result.
CALL = re.compile(r"(?:\d+ +)?(\w+)\((.*)\) += (-?\d+)")
WRITING = "trace=write,pwrite64,pwritev,writev,copy_file_range,sendfile"


def written(trace: str) -> int:
    """Returns the bytes that the calls of a trace wrote, without those to the program's standard streams."""
    calls = [found for found in map(CALL.match, trace.splitlines()) if found]
    return sum(max(int(call[3]), 0) for call in calls if call[2].split(",")[0] not in ("0", "1", "2"))


def measure_one(program: Program, path: Path, words: list[str], file: SizedFile, most: int, check: Check) -> None:
    trace = path.with_name("trace")
    traced = ["strace", "-f", "-qq", "-e", WRITING, "-o", str(trace), program.path, words[0], str(path), *words[1:]]
    ran = subprocess.run(traced, capture_output=True, text=True, env=environment(None))
    check(ran.returncode == 0, f"{file.name}: {words}: {ran.returncode}, {ran.stderr!r}")
    count = written(trace.read_text())
    check(0 < count <= most, f"{file.name}: {words} writes {count:,} bytes, at most {most:,}")


def settings(program: Program, path: Path) -> list[str]:
    """Returns what `info` prints but for the changes that can be reverted: the oldest is forgotten where there is no room."""
    return [line for line in program.run(["info", path]).out.splitlines() if not line.startswith("undoable")]


def measure(program: Program, folder: Path, file: SizedFile, check: Check) -> None:
    path = folder / "net.rrdi"
    check.same(file.create(program, path), Answer(0), f"the creation of {file.name}")
    for number in range(UPDATES):
        sample = file.sample(number)
        measure_one(program, path, ["update", sample], file, file.most, check)
        check.count(MEASURED)
    last = program.run(["last", path]).out
    check(last == sample.split(":")[0] + "\n", f"{file.name}: the update is not in the file: {last!r}")
    before = settings(program, path)
    for words in CHANGES:
        measure_one(program, path, words, file, OF_CHANGE, check)
        check.count(OTHERS)
    check(settings(program, path) == before, f"{file.name}: after {CHANGES}: {settings(program, path)}, not {before}")


@pytest.mark.parametrize("file", FILES, ids=lambda file: file.name)
def test_writes(program: Program, folder: Path, file: SizedFile, check: Check, needs: Callable[..., None]) -> None:
    needs("strace")
    measure(program, folder, file, check)


def test_the_calls_of_a_trace() -> None:
    trace = ['12 pwrite64(3, "RRDI"..., 4096, 0) = 4096', 'pwrite64(3, "", 100, 4096) = 100', 'write(1, "0\\n", 2) = 2',
             'write(4, "", 7) = 7', 'pwrite64(3, "", 9, 0) = -1 ENOSPC (No space left on device)',
             "+++ exited with 0 +++"]
    assert written("\n".join(trace)) == 4_203
