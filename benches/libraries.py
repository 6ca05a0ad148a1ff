# SPDX-License-Identifier: MIT OR Apache-2.0
"""What a call costs in a process that stays: from C, by librrdi and librrd; from Python, by rrdi and rrdtool."""
from __future__ import annotations

import resource
import shutil
import subprocess
import time
from functools import partial
from importlib import import_module
from importlib.util import find_spec
from itertools import product
from pathlib import Path
from typing import Callable, Dict, List, Sequence

from harness import PEERS, TOP, Bench, Sides, Values, Work, instructions
from processes import COUNTED, make_files, programs
from support.sizes import HUGE, LARGE, SMALL, STEP, Kind

import rrdi

BEFORE = 100  # the samples of a file at the start
TURNS = 34  # the calls on an open file: its log is begun, and brought into place twice
MICROSECONDS = "µs"


def copies(bench: Bench, kind: Kind, count: int, ways: Sequence[str]) -> Dict[str, Path]:
    """Makes a folder with files for each way and each peer. All files have the same samples."""
    make_files(bench, kind, BEFORE)
    folders = {way: bench.folder / f"by {way}" for way in ways}
    for way, folder in folders.items():
        folder.mkdir()
        for file in range(count):
            shutil.copyfile(bench.folder / ("rrdtool" if way in PEERS else "rrdi"), folder / str(file))
    return folders


# ---- From C

# The ways of calls.c and what their rows are called.
WAYS = {"path": "by path", "open": "open", "numbers": "in numbers"}


def compiled(bench: Bench) -> tuple[Path, List[str]]:
    """Returns calls.c as a program, and its ways."""
    library, path = Path(bench.needs_library()), bench.folder / "calls"
    header = subprocess.run(["cc", "-E", "-include", "rrd.h", "-x", "c", "/dev/null"], capture_output=True)
    has_peer = bench.has("librrd-dev", header.returncode == 0 and "rrdtool" in programs(bench))
    words = ["cc", "-Wall", "-Wextra", "-Werror", "-O1", "-g", f"-I{TOP / 'include'}", TOP / "benches/calls.c", library,
             f"-Wl,-rpath,{library.parent}", *["-DLIBRRD", "-lrrd"] * has_peer, "-o", path]
    subprocess.run(list(map(str, words)), check=True)
    return path, [*WAYS, *["librrd"] * has_peer]


def words_of(program: Path, way: str, kind: Kind, what: str, files: int, turns: int, count: int, turn: int) -> List[str]:
    """Returns a run of calls.c. Updates go on where the last turn ended, and a fetch has the rows of the samples before."""
    first = 0 if what == "fetch" else BEFORE + 1 + turn * count
    when = kind.sample(first).partition(":")[0]
    return [str(program), way, what, str(files), str(turns), when, str(kind.sources), str(count)]


def c_calls(kind: Kind, what: str, count: int, bench: Bench) -> Sides:
    """In numbers a call has one sample."""
    program, ways = compiled(bench)
    files = bench.few(10 if kind == HUGE else 40)
    folders = copies(bench, kind, files, [way for way in ways if what == "fetch" or count == 1 or way != "numbers"])

    def timed(way: str, number: int) -> Values:
        words = words_of(program, way, kind, what, files, TURNS, count, TURNS * number)
        return float(subprocess.check_output(words, cwd=folders[way])),
    return {WAYS.get(way, way): partial(timed, way) for way in folders}


def c_instructions(kind: Kind, bench: Bench) -> Sides:
    """Counts an update, and how its words are written, by the difference of two runs."""
    bench.needs("valgrind", shutil.which("valgrind"))
    program, ways = compiled(bench)
    folders, few, many = copies(bench, kind, 1, ways), 10, 60

    def counted(way: str, number: int) -> Values:
        first = number * (few + many)
        less, more = (instructions(words_of(program, way, kind, "update", 1, turns, 1, turn), folders[way])
                      for turns, turn in ((few, first), (many, first + few)))
        return (more - less) / (many - few),
    return {WAYS.get(way, way): partial(counted, way) for way in folders}


# ---- From Python


def in_a_loop(calls: Sequence[Callable[..., object]], turns: Sequence[Sequence[str]]) -> Values:
    """Measures the calls one after the other, as a recorder makes them."""
    begin = time.perf_counter()
    for given in turns:
        for call in calls:
            call(*given)
    return 1e6 * (time.perf_counter() - begin) / len(calls) / len(turns),


def python_calls(kind: Kind, count: int, bench: Bench) -> Sides:
    rrdi.load_library(bench.needs_library())
    files, has_peer = bench.few(40), bench.has("python3-rrdtool", find_spec("rrdtool") and "rrdtool" in programs(bench))
    folders = copies(bench, kind, files, ["rrdi", "open", *["rrdtool"] * has_peer])
    hard = resource.getrlimit(resource.RLIMIT_NOFILE)[1]
    resource.setrlimit(resource.RLIMIT_NOFILE, (hard, hard))
    opened = [bench.closing.enter_context(rrdi.Database(folders["open"] / str(file))) for file in range(files)]
    for database in opened:  # the first change of an open file is another work than the next ones
        database.update(kind.sample(BEFORE + 1))
    ways: Dict[str, List[Callable[..., object]]] = {
        "rrdi": [partial(rrdi.update, folders["rrdi"] / str(file)) for file in range(files)],
        "open": [database.update for database in opened]}
    if has_peer:
        update = import_module("rrdtool").update
        ways["rrdtool"] = [partial(update, f"{folders['rrdtool']}/{file}") for file in range(files)]

    def timed(way: str, number: int) -> Values:
        first = BEFORE + 2 + number * TURNS * count
        return in_a_loop(ways[way], [[kind.sample(first + turn * count + at) for at in range(count)] for turn in range(TURNS)])
    return {way: partial(timed, way) for way in ways}


def python_fetches(kind: Kind, bench: Bench) -> Sides:
    """Fetches 61 rows of each file, which the samples before have filled."""
    rrdi.load_library(bench.needs_library())
    files, has_peer = bench.few(40), bench.has("python3-rrdtool", find_spec("rrdtool") and "rrdtool" in programs(bench))
    folders = copies(bench, kind, files, ["rrdi", "open", *["rrdtool"] * has_peer])
    start = int(kind.sample(20).partition(":")[0])
    opened = [bench.closing.enter_context(rrdi.Database(folders["open"] / str(file))) for file in range(files)]
    for database in opened:
        database.last()
    asked = {"start": start, "end": start + 60 * STEP}
    ways: Dict[str, List[Callable[..., object]]] = {
        "rrdi": [partial(rrdi.fetch, folders["rrdi"] / str(file), "AVERAGE", **asked) for file in range(files)],
        "open": [partial(database.fetch, "AVERAGE", **asked) for database in opened]}
    if has_peer:
        fetch, words = import_module("rrdtool").fetch, [f"--{name}={value}" for name, value in asked.items()]
        ways["rrdtool"] = [partial(fetch, f"{folders['rrdtool']}/{file}", "AVERAGE", *words) for file in range(files)]

    def timed(way: str, number: int) -> Values:
        return in_a_loop(ways[way], [[]] * TURNS)
    return {way: partial(timed, way) for way in ways}


KINDS, COUNTS = (SMALL, LARGE, HUGE), (1, 20)
WORKS = [
    *(Work(f"python: {kind.name}, {count} a call", (MICROSECONDS,), partial(python_calls, kind, count))
      for kind, count in product(KINDS[:2], COUNTS)),
    *(Work(f"python: {kind.name}, fetch", (MICROSECONDS,), partial(python_fetches, kind)) for kind in KINDS[:2]),
    *(Work(f"c: {kind.name}, {count} a call", (MICROSECONDS,), partial(c_calls, kind, "update", count))
      for kind, count in product(KINDS, COUNTS)),
    *(Work(f"c: {kind.name}, fetch", (MICROSECONDS,), partial(c_calls, kind, "fetch", BEFORE)) for kind in KINDS),
    *(Work(f"c: {kind.name}, 1 a call", (COUNTED,), partial(c_instructions, kind)) for kind in KINDS),
]
