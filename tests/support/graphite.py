# SPDX-License-Identifier: MIT OR Apache-2.0
"""A cluster of Graphite: examples/make-cluster runs it; points go in by lines, and come out by the render
API. All on 127.0.0.1."""
from __future__ import annotations

import json
import os
import pickle
import socket
import struct
import subprocess
import sys
import time
import urllib.error
import urllib.parse
import urllib.request
from pathlib import Path
from typing import Any, Dict, List, NamedTuple, Optional, Sequence

from support.program import TOP

MAKE_CLUSTER = TOP / "examples/make-cluster"
PACKAGES = "graphite-carbon graphite-web gunicorn python3-whisper"
PATIENCE = 600  # seconds for a run of make-cluster
PAGE = 300  # seconds for a page, on a machine that is busy
LINES_AT_ONCE = 1_000

Values = Dict[int, Optional[float]]  # by the times of the slots


class Point(NamedTuple):
    metric: str
    value: float
    when: int

    @property
    def line(self) -> str:
        return f"{self.metric} {self.value!r} {self.when}\n"


def python_of_graphite() -> str | None:
    """The Python that has all packages; none if there is none."""
    for python in (sys.executable, "/usr/bin/python3"):
        words = [python, "-c", "import carbon, django, graphite, gunicorn, whisper"]
        if os.path.exists(python) and subprocess.run(words, capture_output=True, timeout=60).returncode == 0:
            return python
    return None


def is_free(port: int) -> bool:
    with socket.socket() as tried:
        tried.setsockopt(socket.SOL_SOCKET, socket.SO_REUSEADDR, 1)
        try:
            tried.bind(("127.0.0.1", port))
        except OSError:
            return False
    return True


def free_ports(count: int) -> int:
    """The first one of some ports in a row that nobody uses."""
    for first in range(20_000 + os.getpid() % 100 * 200, 60_000, count):
        if all(is_free(port) for port in range(first, first + count)):
            return first
    raise OSError("no ports are free")


class Cluster:
    """A cluster in a folder, which `close` ends."""

    def __init__(self, folder: Path, database: str, nodes: int, library: str | None = None):
        self.folder, self.nodes, self.port = folder, nodes, free_ports(10 * nodes + 20)
        self.env = {**os.environ, **({"RRDI_LIBRARY": library} if library else {})}
        self.run("up", "--nodes", str(nodes), "--port", str(self.port), "--database", database)

    def run(self, command: str, *words: str) -> None:
        """Runs make-cluster.

        # Errors
        `RuntimeError` with what it printed, if it fails.
        """
        ran = subprocess.run([sys.executable, MAKE_CLUSTER, command, self.folder, *words], env=self.env, text=True,
                             capture_output=True, timeout=PATIENCE)
        if ran.returncode != 0:
            raise RuntimeError(f"make-cluster {command}: {ran.stdout}{ran.stderr}")

    def close(self) -> None:
        self.run("down")

    def process_id(self, name: str) -> int:
        """The process of a node's carbon-cache."""
        return int((self.folder / name / "pid/carbon").read_text())

    def base(self, name: str) -> int:
        return self.port if name in ("relay", "front") else self.port + 10 * int(name[4:])

    def send(self, name: str, lines: Sequence[str]) -> None:
        """Sends lines to the relay or to a node."""
        with socket.create_connection(("127.0.0.1", self.base(name) + 3), 30) as to:
            for at in range(0, len(lines), LINES_AT_ONCE):
                to.sendall("".join(lines[at:at + LINES_AT_ONCE]).encode())

    def cached(self, name: str, metrics: Sequence[str]) -> int:
        """How many points of metrics a node's carbon-cache has received and not written."""
        with socket.create_connection(("127.0.0.1", self.base(name) + 2), 30) as to:
            data = pickle.dumps({"type": "cache-query-bulk", "metrics": list(metrics)}, protocol=2)
            to.sendall(struct.pack("!L", len(data)) + data)
            length, = struct.unpack("!L", received(to, 4))
            found = pickle.loads(received(to, length))
        return sum(len(points) for points in found["datapointsByMetric"].values())

    def render(self, name: str, target: str, begin: int, end: int, now: int) -> Dict[str, Values]:
        """The values that a graphite-web shows, by the metrics."""
        query = urllib.parse.urlencode({"target": target, "from": begin, "until": end, "now": now, "format": "json",
                                        "noCache": "1"})
        with urllib.request.urlopen(f"http://127.0.0.1:{self.base(name) + 8}/render?{query}", timeout=PAGE) as answer:
            found = json.load(answer)
        return values_of(found)

    def posted(self, name: str, page: str, fields: Sequence[tuple[str, object]]) -> Any:
        """What a graphite-web answers a form."""
        data = urllib.parse.urlencode(fields).encode()
        with urllib.request.urlopen(f"http://127.0.0.1:{self.base(name) + 8}/{page}", data, timeout=PAGE) as answer:
            return json.load(answer)

    def status(self, name: str, page: str) -> int:
        """The status with which a graphite-web answers a page."""
        try:
            with urllib.request.urlopen(f"http://127.0.0.1:{self.base(name) + 8}/{page}", timeout=PAGE) as answer:
                answer.read()
                return int(answer.status)
        except urllib.error.HTTPError as error:
            return error.code

    def wait_until_written(self, name: str, metrics: Sequence[str], seconds: float = 240) -> bool:
        """Waits until a node has received points of metrics and written them; the cache has to stay empty."""
        until, empty = time.monotonic() + seconds, 0
        while time.monotonic() < until:
            empty = 0 if self.cached(name, metrics) else empty + 1
            if empty == 4:
                return True
            time.sleep(0.4)
        return False


def values_of(found: List[Dict[str, Any]]) -> Dict[str, Values]:
    return {series["target"]: {when: value for value, when in series["datapoints"]} for series in found}


def received(source: socket.socket, length: int) -> bytes:
    data = b""
    while len(data) < length:
        more = source.recv(length - len(data))
        if not more:
            raise OSError("the connection was closed")
        data += more
    return data


def known(series: Dict[str, Values]) -> int:
    """How many known values series have."""
    return sum(value is not None for values in series.values() for value in values.values())


def apart(one: Dict[str, Values], other: Dict[str, Values], tolerance: float) -> List[str]:
    """The metrics and times at which two renders differ by more than a tolerance."""
    found = [f"{metric}: only in one" for metric in sorted(set(one) ^ set(other))]
    for metric in sorted(set(one) & set(other)):
        for when in sorted(set(one[metric]) | set(other[metric])):
            first, second = one[metric].get(when), other[metric].get(when)
            if first is None and second is None:
                continue
            if first is None or second is None or abs(first - second) > tolerance:
                found.append(f"{metric} at {when}: {first} and {second}")
    return found
