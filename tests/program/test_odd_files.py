# SPDX-License-Identifier: MIT OR Apache-2.0
"""Files at their limits and one past each, files with one byte changed, small files whose headers announce much, and a
file of over 4 GB: the program reads what docs/file-format.md allows, refuses the rest, and needs little memory."""
from __future__ import annotations

import re
import resource
import subprocess
from pathlib import Path
from typing import IO, Iterator

import pytest

from support import between as calls_between
from support.check import Check
from support.counts import MEMORY
from support.layout import (LIMITS, MILLION, MOST_ROWS, PREPARATION, UNKNOWN, archive, as_version, heads, known, number,
                            resized, size_of_header, source, tune)
from support.program import PATIENCE, Answer, Program, environment, error, parted

CHANGED = "files with a byte changed"
LEAST = {"files at limits": 16, "small files": 36}
LEAST_LONG = {CHANGED: 517_140}


# ---- each byte changed to each other value

CREATE = "create --step 10 --start 0 DS:g:GAUGE:100:U:U RRA:LAST:0.5:1:4"
# The lines that create each file, and the length of the file in bytes.
RENAMED = f"{CREATE.replace('DS:g', 'DS:a:GAUGE:100:U:U DS:b')}\ntune --data-source-rename a:c\n"
FILES = {"a new file": (f"{CREATE}\n", 224), "an update": (f"{CREATE}\nupdate 10:1\n", 309), "a rename": (RENAMED, 487)}
REFUSED = re.compile(r"ERROR: file: (not ours|version|(truncated|bad block|trailing) at \d+|bad entry \d+)\n")
# A changed byte may make the mark of another program, which one more line names.
OF_RRDTOOL = b"RRD\0"
# The mark of a file whose change only has to be ended.
CUT_MARK = b"RRDC"
# The bytes of a file are changed in parts, which run side by side.
PARTS = 4


def as_written(held: bytes) -> bytes:
    """Returns the file that a batch leaves after it has read these bytes: of the second version, and without a mark."""
    database = b"RRDI" + held[4:] if held[:4] == CUT_MARK else held
    return as_version(2, database) if database[5] == 1 else database


def change(program: Program, folder: Path, right: bytes, at: int, check: Check) -> None:
    """Changes byte `at` of a file to each other value. A batch without lines refuses the file and leaves it, or reads
    it and writes the same database."""
    file = folder / f"{at}.rrdi"
    for byte in {*range(256)} - {right[at]}:
        held = right[:at] + bytes([byte]) + right[at + 1:]
        file.write_bytes(held)
        answer, left = program.run(["batch", file]), file.read_bytes()
        is_read = answer == Answer(0) and left == as_written(held)
        err, advice = parted(answer.err)
        is_advised = "is a file of RRDtool; rrdi-import converts it" in advice if held.startswith(OF_RRDTOOL) else not advice
        is_refused = answer[:2] == (1, "") and bool(REFUSED.fullmatch(err)) and is_advised and left == held
        check.count(CHANGED)
        check.count("read" if is_read else "refused")
        check(is_read or is_refused, f"byte {at} as {byte}: {answer}, {'the same' if left == held else 'another'} file")
    file.unlink()


@pytest.mark.long
@pytest.mark.parametrize("part", range(PARTS))
@pytest.mark.parametrize("version", [1, 2])
@pytest.mark.parametrize("name", FILES)
def test_each_byte_changed(program: Program, folder: Path, name: str, version: int, part: int, check: Check) -> None:
    lines, size = FILES[name]
    made = folder / "made"
    check.same(program.run(["batch", made], lines), Answer(0), f"the creation of {name}")
    right = made.read_bytes()
    check.same(len(right), size, f"the bytes of {name}")
    right = as_version(version, right)
    for at in range(part, len(right), PARTS):
        change(program, folder, right, at, check)


# ---- the limits


def file_of(version: int, depth: int, rows: list[int], tunes: int) -> bytes:
    """Returns a database of one source with archives of `rows` rows, and a journal of tunes."""
    return heads(version, ["g"], rows, depth=depth, entries=tunes) + UNKNOWN * sum(rows) + tune() * tunes


def in_archives(cells: int) -> list[int]:
    """Returns the smallest number of archives that have this number of rows in all."""
    return [MOST_ROWS] * (cells // MOST_ROWS) + [cells % MOST_ROWS] * (cells % MOST_ROWS > 0)


def at_limits(version: int) -> Iterator[tuple[str, bytes, str]]:
    """Yields the name of each file, the file, and the fault of the file, if there is one."""
    depth, archives, cells = LIMITS[version]
    last_head = size_of_header(version) + len(source("g")) + len(archive(1)) * (cells // MOST_ROWS)
    yield f"{depth} places", file_of(version, depth, [4], 0), ""
    yield f"a journal of {depth + 1} entries", file_of(version, depth + 1, [4], 0), "bad block at 6"
    yield f"{depth} entries", file_of(version, depth, [4], depth), ""
    yield f"a journal of {depth} entries and one entry more", file_of(version, depth, [4], depth + 1), "bad block at 6"
    yield f"{archives} archives", file_of(version, 16, [1] * archives, 0), ""
    yield f"{archives + 1} archives", file_of(version, 16, [1] * (archives + 1), 0), "bad block at 6"
    yield f"{cells} cells", file_of(version, 16, in_archives(cells), 0), ""
    yield f"{cells + 1} cells", file_of(version, 16, in_archives(cells + 1), 0), f"bad block at {last_head}"


def try_limit(program: Program, file: Path, held: bytes, fault: str, what: str, check: Check) -> None:
    file.write_bytes(held)
    answer = program.run(["last", file])
    check.count("files at limits")
    if fault:
        check(answer == Answer(1, "", error(f"file: {fault}")), f"{what}: {answer}, not {fault}")
    elif check(answer == Answer(0, "0\n"), f"{what}: {answer}"):
        # The program writes the file back in the second version.
        check(program.run(["tune", file, "--heartbeat", "g:100"]) == Answer(0), f"{what}: the tune fails")
        check(file.read_bytes()[:6] == b"RRDI\0\2", f"{what}: not written in the second version")


@pytest.mark.parametrize("version", [1, 2])
def test_limits_of_files(program: Program, folder: Path, version: int, check: Check) -> None:
    for what, held, fault in at_limits(version):
        try_limit(program, folder / "file", held, fault, what, check)


# ---- small files whose headers announce much


def named(count: int) -> list[str]:
    return [f"s{index}" for index in range(count)]


SMALL = heads(2, named(1), [4]) + 4 * UNKNOWN
NO_ENTRY, A_RESIZE = "the deepest journal, no entry", "the deepest journal, a resize"


def announcing(version: int) -> Iterator[tuple[str, bytes]]:
    """Yields the name of each file, and its bytes: headers of the largest archives, a resize that removed the most
    rows, and the deepest journal."""
    deepest, many, most = LIMITS[version]
    new = lambda **more: heads(version, named(1), [4], **more) + 4 * UNKNOWN
    fewest = heads(version, named(most // MILLION), [1], entries=1) + most // MILLION * UNKNOWN
    for name, begun in [("largest archives", heads(version, named(1), [MILLION] * (most // MILLION))),
                        ("64 sources", heads(version, named(64), [most // 64])),
                        ("as many archives as can be", heads(version, named(1), [most // many] * many))]:
        yield f"{name}, no cell", begun
        yield f"{name}, a known cell", begun + known(1)
        yield f"{name}, an unknown cell", begun + UNKNOWN
        yield f"{name}, 1,000 known cells", begun + 1_000 * known(1)
    yield "a resize of the most rows, no cell", fewest + resized(MILLION)
    yield "a resize of the most rows, a cell", fewest + resized(MILLION) + known(1)
    yield NO_ENTRY, new(depth=deepest)
    yield "the deepest journal, an entry announced", new(depth=deepest, entries=1)
    yield "the deepest journal, all entries announced", new(depth=deepest, entries=deepest)
    yield A_RESIZE, new(depth=deepest, entries=1) + resized(1) + UNKNOWN


def touched(program: Program, library: str, folder: Path, held: bytes) -> tuple[Answer, int]:
    """Returns the program's answer for a file, and the kilobytes of memory that the program touched."""
    file, log = folder / "file", folder / "log"
    file.write_bytes(held)
    log.unlink(missing_ok=True)
    answer = program.run(["last", file], env=calls_between.settings(library, LOG=log))
    ends = [event for event in calls_between.events_of(log) if event.kind == "end"]
    return answer, int(ends[-1].words[4]) if ends else -1


def is_over(kilobytes: int, length: int) -> bool:
    """Checks whether a file costs over 2,000 kilobytes and three times its length, beyond those for a new database."""
    return 1_000 * kilobytes > 2_000_000 + 3 * length


def try_announcing(program: Program, library: str, folder: Path, version: int, check: Check) -> None:
    answer, least = touched(program, library, folder, SMALL)
    check(answer == Answer(0, "0\n") and len(SMALL) == 224 and least > 0, f"the answer for a new database is {answer}")
    for name, held in announcing(version):
        answer, most = touched(program, library, folder, held)
        check.count("small files")
        wanted = Answer(0, "0\n") if name == NO_ENTRY else Answer(1, "", error(f"file: truncated at {len(held)}"))
        is_right = answer == wanted or name == A_RESIZE and answer == Answer(0, "0\n")
        check(most > 0 and not is_over(most - least, len(held)) and is_right,
              f"{name}: {most - least} kB, {answer}, not {wanted}")


@pytest.mark.xdist_group("memory")
@pytest.mark.parametrize("version", [1, 2])
def test_small_files(program: Program, between_all: str, folder: Path, version: int, check: Check) -> None:
    try_announcing(program, between_all, folder, version, check)


# ---- a file of over 4,294,967,296 bytes: the largest database, without known values, and 33 updates, each of all rows

SOURCES, ROWS, ENTRIES = 64, 125_000, 33
LAST = ENTRIES * ROWS
SIZE = 4_352_126_232
NEEDED = 15 << 30
WANTED = {f"last_update = {LAST}", f"undoable = {ENTRIES}", f"rra[0].rows = {ROWS}"}


def entry(index: int) -> bytes:
    """Returns the entry of an update that finished all rows, up to its cells."""
    replaced = (UNKNOWN + bytes(PREPARATION)) * SOURCES + bytes(PREPARATION) * SOURCES
    return b"\1" + number(LAST - index * ROWS, 8) + replaced + number(ROWS, 4)


def pieces() -> Iterator[bytes]:
    cells, count = UNKNOWN * 50_000, SOURCES * ROWS // 50_000
    yield heads(2, named(SOURCES), [ROWS], depth=ENTRIES, entries=ENTRIES, step=1, last=LAST)
    yield from [cells] * count
    for index in range(1, ENTRIES + 1):
        yield entry(index)
        yield from [cells] * count


def number_in(path: str) -> int | None:
    try:
        text = Path(path).read_text().strip()
    except OSError:
        return None
    return int(text) if text.isdigit() else None


def free() -> int:
    """Returns the bytes of memory that are free, within the limits of this process and of its group."""
    lines = Path("/proc/meminfo").read_text().splitlines()
    found = [int(line.split()[1]) * 1024 for line in lines if line.startswith("MemAvailable:")]
    most, used = number_in("/sys/fs/cgroup/memory.max"), number_in("/sys/fs/cgroup/memory.current")
    if most is not None and used is not None:
        found.append(most - used)
    limit = resource.getrlimit(resource.RLIMIT_AS)[0]
    return min(found + [limit] * (limit != resource.RLIM_INFINITY), default=0)


def write_whole(out: IO[bytes], piece: bytes) -> None:
    """Writes a piece. A pipe may take a part of the piece at a time."""
    rest = memoryview(piece)
    while rest:
        rest = rest[out.write(rest):]


def read_large(program: Program, parts: Iterator[bytes]) -> tuple[Answer, int]:
    """Lets the program read a file from a pipe without a name. Returns its answer, and how many bytes were written."""
    count = 0
    with subprocess.Popen([program.path, "info", "/dev/stdin"], stdin=subprocess.PIPE, stdout=subprocess.PIPE,
                          stderr=subprocess.PIPE, bufsize=0, env=environment(None)) as ran:
        out, ran.stdin = ran.stdin, None
        assert out is not None
        try:
            with out:
                for piece in parts:
                    write_whole(out, piece)
                    count += len(piece)
        except BrokenPipeError:
            pass  # it ended, or reads no more
        told = [text.decode() for text in ran.communicate(timeout=PATIENCE)]
    return Answer(ran.returncode, *told), count


def judge_large(answer: Answer, count: int, check: Check) -> None:
    """Checks that the program read the file to its end, and printed what the file contains."""
    check.count("large files")
    is_right = (answer.status, answer.err) == (0, "") and WANTED <= set(answer.out.splitlines())
    check(is_right and count == SIZE,
          f"a file of {count:,} bytes: {answer.status}, {answer.err!r}, {answer.out[:200]!r}")


@pytest.mark.xdist_group("memory")
def test_a_large_file(program: Program, check: Check) -> None:
    if free() < NEEDED:
        pytest.skip(f"{MEMORY} {free() >> 20:,} MB are free, {NEEDED >> 20:,} MB are needed")
    judge_large(*read_large(program, pieces()), check)
