# SPDX-License-Identifier: MIT OR Apache-2.0
"""What many files cost: rrdi-feed beside rrdcached, carbon-cache on rrdi beside whisper, and carbon's writer alone."""
from __future__ import annotations

import fcntl
import os
import shutil
import socket
import struct
import subprocess
import sys
import termios
import time
from contextlib import suppress
from functools import partial
from importlib import import_module
from importlib.util import find_spec
from itertools import product
from pathlib import Path
from typing import Callable, Dict, List, Tuple

from harness import TOP, Bench, Sides, Values, Work, processor_seconds, run_seconds
from processes import PROCESSOR, make_files, programs
from support.graphite import PACKAGES, Cluster, Point, known, python_of_graphite
from support.program import environment
from support.sizes import LARGE

import rrdi
from rrdi.graphite import store as stores
from rrdi.graphite.layout import template
from rrdi.graphite.losses import Losses
from rrdi.open_files import OpenBounds

RATE = "a second"
PATIENCE = 600  # seconds until everything is written, on a machine that is busy

# ---- rrdi-feed and rrdcached

WRITERS = 4


def feed(samples: int, bench: Bench) -> Sides:
    """The lines come sample by sample: one for each file, then the next one for each. The start of a process does not count.
    In the end the rows of a few files must be the same in all ways."""
    make_files(bench, LARGE, 1)
    files, compare = bench.few(1_000), TOP / "tools/rrdi-compare"
    folders = {way: bench.folder / way for way in ("library", "program", "rrdcached")}
    ways: Dict[str, Callable[[Path, bytes, int], Values]] = {
        "library": partial(through_feed, {"RRDI_LIBRARY": bench.needs_library()}),
        "program": partial(through_feed, {"RRDI": bench.program})}
    if bench.has("rrdcached", shutil.which("rrdcached") and "rrdtool" in programs(bench)):
        ways["rrdcached"] = through_rrdcached
        for way, file in product(("library", "program"), range(0, files, files // 2)):
            words = [compare, folders["rrdcached"] / str(file), folders[way] / str(file)]
            bench.closing.callback(run_seconds, words, RRDI=bench.program)

    def fed(way: str, number: int) -> Values:
        shutil.rmtree(folders[way], ignore_errors=True)
        folders[way].mkdir()
        for file in range(files):
            shutil.copyfile(bench.folder / ("rrdtool" if way == "rrdcached" else "rrdi"), folders[way] / str(file))
        front = "UPDATE " if way == "rrdcached" else ""
        lines = [f"{front}{folders[way]}/{file} {LARGE.sample(2 + at, file)}\n"
                 for at in range(samples) for file in range(files)]
        return ways[way](folders[way], "".join(lines).encode(), len(lines))
    return {way: partial(fed, way) for way in ways}


def through_feed(named: Dict[str, str], folder: Path, data: bytes, count: int) -> Values:
    """Feeds lines by the program or by the library that a variable names."""
    words = [sys.executable, str(TOP / "tools/rrdi-feed"), "--jobs", str(WRITERS)]
    with subprocess.Popen(words, stdin=subprocess.PIPE, env={**environment(None), **named}) as process:
        assert process.stdin
        first = data.index(b"\n") + 1
        process.stdin.write(data[:first])
        process.stdin.flush()
        wait_until(partial(has_read, process.stdin.fileno()))
        begin, before = time.monotonic(), processor_time(process.pid)
        process.stdin.write(data[first:])
        process.stdin.close()
        spent = processor_seconds(process) - before
    return count / (time.monotonic() - begin), 1e6 * spent / count


def has_read(pipe: int) -> bool:
    """Whether the other end of a pipe has read all that was written: a process that has read a line has begun its work."""
    return struct.unpack("i", fcntl.ioctl(pipe, termios.FIONREAD, bytes(4))) == (0,)


def through_rrdcached(folder: Path, data: bytes, count: int) -> Values:
    """Measures until all samples are in the files, and not the end of the daemon, which takes a second."""
    place = folder.with_name("socket")
    words = ["rrdcached", "-g", "-t", str(WRITERS), "-w", str(PATIENCE), "-l", f"unix:{place}",
             "-p", str(folder.with_name("process")), "-b", str(folder)]
    with subprocess.Popen(words, stderr=subprocess.DEVNULL) as daemon, socket.socket(socket.AF_UNIX) as to:
        def ask(lines: bytes) -> List[str]:
            to.sendall(lines + b"\n")
            first = answers.readline()
            return [first, *(answers.readline() for _ in range(int(first.split()[0])))]
        try:
            wait_until(lambda: is_connected(to, str(place)))
            begin, before = time.monotonic(), processor_time(daemon.pid)
            answers = to.makefile("r")
            for lines in (b"BATCH", data + b".", b"FLUSHALL"):
                ask(lines)
            wait_until(lambda: f"DataSetsWritten: {count}\n" in ask(b"STATS"))
            took = time.monotonic() - begin
        finally:
            daemon.terminate()
        spent = processor_seconds(daemon) - before
    return count / took, 1e6 * spent / count


def is_connected(to: socket.socket, place: str) -> bool:
    """Connects, if the daemon listens by now. The socket of the round before may still have its name."""
    with suppress(FileNotFoundError, ConnectionRefusedError):
        to.connect(place)
        return True
    return False


def wait_until(is_true: Callable[[], bool]) -> None:
    end = time.monotonic() + PATIENCE
    while not is_true():
        time.sleep(0.01)
        if time.monotonic() > end:
            raise RuntimeError("waited in vain")


# ---- carbon-cache

STEP, QUIET = 10, 1.5  # seconds between points, and for which the cache has to stay empty
BEFORE = 24  # points of metrics that are not new


def carbon(metrics: int, points: int, bench: Bench) -> Sides:
    """Each round has the next points of all metrics, which have files."""
    bench.needs(PACKAGES, python_of_graphite())
    count, sides = bench.few(metrics), {}
    begin = int(time.time()) // STEP * STEP - STEP * (BEFORE + points * bench.rounds)
    for database in ("rrdi", "whisper"):
        cluster = Cluster(bench.folder / database, database, 1, bench.needs_library())
        bench.closing.callback(cluster.close)
        give(cluster, count, BEFORE, begin, 0)
        sides[database] = partial(give, cluster, count, points, begin + STEP * BEFORE)
    return {**sides}


def give(cluster: Cluster, metrics: int, count: int, begin: int, number: int) -> Values:
    """Sends points to the node, and waits until all are written. Graphite must show those of the first metrics."""
    times = range(begin + STEP * count * number, begin + STEP * count * (number + 1), STEP)
    points = [Point(f"load.host{metric // 10:03}.m{metric % 10}", when % 1_000 + metric / 8, when)
              for when in times for metric in range(metrics)]
    process, names = cluster.process_id("node1"), sorted({point.metric for point in points})
    before, begun = processor_time(process), time.monotonic()
    cluster.send("node1", [point.line for point in points])
    ended = time.monotonic()
    while time.monotonic() - ended < QUIET:
        time.sleep(0.2)
        if cluster.cached("node1", names):
            ended = time.monotonic()
        if ended > begun + PATIENCE:
            raise RuntimeError("carbon-cache does not get done")
    spent = processor_time(process) - before
    shown = known(cluster.render("node1", "load.host000.m*", times[0] - 1, times[-1], int(time.time())))
    if shown != min(metrics, 10) * count:
        raise RuntimeError(f"Graphite shows {shown} points")
    return len(points) / (ended - begun), 1e6 * spent / len(points)


def processor_time(process: int) -> float:
    fields = Path(f"/proc/{process}/stat").read_text().rpartition(")")[2].split()
    return sum(map(int, fields[11:15])) / os.sysconf("SC_CLK_TCK")


# ---- carbon's writer

RETENTIONS = [(10, 2160), (60, 1440), (600, 1008)]


def writer(points: int, bench: Bench) -> Sides:
    """Writes points to files, as carbon's writer does: by rrdi, by rrdi with files that stay open, and by whisper."""
    rrdi.load_library(bench.needs_library())
    losses = Losses(print)
    begin, files = int(time.time()) // STEP * STEP - 20_000, bench.few(200)
    writes: Dict[str, Callable[[str, List[Tuple[int, float]]], object]] = {}
    for way, bounds in (("rrdi", OpenBounds(files=0)), ("open", OpenBounds(files, PATIENCE, 1_000))):
        store = stores.Store(stores.StoreOptions(str(bench.folder), open=bounds), losses)
        writes[way] = store.write
        for name in (f"{way}{file}" for file in range(files)):
            store.create(name, template(RETENTIONS, 0.5, "average", 16))
            for at in (22, 2, 1):  # at the third write a file that may stay open is opened
                store.write(name, [(begin - STEP * back, 1.5) for back in range(at, at - 20 if at > 20 else at - 1, -1)])
    if bench.has("python3-whisper", find_spec("whisper")):
        whisper = import_module("whisper")
        for file in range(files):
            whisper.create(f"{bench.folder}/whisper{file}", RETENTIONS, 0.5, "average")
        writes["whisper"] = lambda name, given: whisper.update_many(f"{bench.folder}/{name}", given)

    def written(way: str, number: int) -> Values:
        given = [(begin + STEP * (number * points + at), 1.5 + at) for at in range(points)]
        begun = time.process_time()
        for file in range(files):
            writes[way](f"{way}{file}", given)
        spent = time.process_time() - begun
        if any(losses.take().values()):
            raise RuntimeError("points were lost")
        return 1e6 * spent / files,
    return {way: partial(written, way) for way in writes}


WORKS = [
    *(Work(f"feed: {count} lines for each file", (RATE, PROCESSOR), partial(feed, count)) for count in (60, 600)),
    *(Work(f"carbon: {points} points of {metrics:,} metrics", (RATE, PROCESSOR), partial(carbon, metrics, points))
      for metrics, points in ((500, 120), (5_000, 24), (5_000, 1))),
    *(Work(f"writer: {points} points", (PROCESSOR,), partial(writer, points)) for points in (1, 6, 60)),
]
