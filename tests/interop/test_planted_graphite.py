# SPDX-License-Identifier: MIT OR Apache-2.0
"""The checks of Graphite and collectd find wrong answers; and what they rest on: renders, ports, a cache's answers."""
from __future__ import annotations

import pickle
import re
import signal
import socket
import struct
import subprocess
import sys
import threading
from pathlib import Path
from typing import Any

import pytest

from interop import test_graphite
from interop.test_graphite import EXPECTED, STEP, Clusters, make_points, name_of
from support import collectd, graphite
from support.check import Check
from support.fakes import answering
from support.graphite import Cluster, Point, Values, apart, known
from support.program import Answer

# ---- a cluster


class Clock:
    """Stands in for the time: a pause takes none."""

    def __init__(self) -> None:
        self.now = 1_700_000_000.0

    def time(self) -> float:
        return self.now

    monotonic = time

    def sleep(self, seconds: float) -> None:
        self.now += seconds


FAULTS = ("not-written", "lost-points", "other-value", "lacks-metric", "other-form", "other-parts", "other-counts",
          "lost-good", "none-rewritten", "wrong-name", "lacks-damaged", "shows-damaged", "other-database",
          "no-page", "silent", "lost-later", "kept", "fails")


class Remembered(Cluster):
    """Stands in for a cluster: it remembers points, and shows them. It may have one fault."""

    def __init__(self, folder: Path, fault: str = "", ending: str = ".rrdi") -> None:
        self.folder, self.fault, self.port = folder, fault, 20_000
        self.points: dict[str, Values] = {}
        self.files = [folder / "node1/data" / (name_of(number).replace(".", "/") + ending) for number in range(10)]
        for file in [*self.files, *([folder / "node1/outside.rrdi"] if fault == "wrong-name" else [])]:
            file.parent.mkdir(parents=True, exist_ok=True)
            file.write_bytes(b"RRDI" + bytes(200))
        (folder / "node1/log").mkdir()
        said = "" if fault == "silent" else "".join(f"cannot read {file}\n" for file in self.files)
        (folder / "node1/log/info.log").write_text(said)

    def run(self, command: str, *words: str) -> None:
        if self.fault == "fails":
            raise RuntimeError(command)

    def send(self, name: str, lines: Any) -> None:
        is_after_damage = not self.files[4].exists()
        taken = [line.split() for line in lines if re.match(r"(app\.\S+|bad\.good) \S+ \d+\n", line)]
        for metric, value, when in [] if self.fault == "lost-later" and is_after_damage else taken:
            self.points.setdefault(metric, {})[int(when) // STEP * STEP] = float(value)
        for file in self.files[:5] if is_after_damage else ():
            if file.exists() and self.fault != "kept" and file.read_bytes()[:4] != b"RRDC":
                file.rename(f"{file}.damaged-1")
            file.write_bytes(b"RRDI" + bytes(200))

    def wait_until_written(self, name: str, metrics: Any, seconds: float = 0) -> bool:
        return self.fault != "not-written"

    def status(self, name: str, page: str) -> int:
        return 500 if self.fault == "no-page" else 200

    def posted(self, name: str, page: str, fields: Any) -> Any:
        given = dict(fields)
        if page == "render":
            value = 0.5 if self.fault == "other-form" else 1.5
            return [{"target": given["target"], "datapoints": [[value, 10]]}]
        return [] if self.fault == "other-parts" else [given["query"]]

    def is_damaged(self, metric: str) -> bool:
        file = self.folder / "node1/data" / (metric.replace(".", "/") + ".rrdi")
        return file in self.files and not (file.exists() and file.read_bytes()[:4] in (b"RRDI", b"RRDC"))

    def render(self, name: str, target: str, begin: int, end: int, now: int) -> dict[str, Values]:
        if target.startswith("carbon."):
            counts = {**EXPECTED, "rewritten": 0 if self.fault == "none-rewritten" else test_graphite.POINTS}
            return {f"carbon.agents.a.rrdi.{kind}": {now: float(count)} for kind, count in counts.items()
                    if not (self.fault == "other-counts" and kind == "name")}
        kinds = target.rpartition(".")[2].strip("{}").split(",")
        pattern = target.rpartition(".")[0].replace(".", r"\.").replace("*", r"\w+")
        shown = {metric: {when: value for when, value in points.items() if begin < when <= end}
                 for metric, points in self.points.items() if re.fullmatch(pattern, metric.rpartition(".")[0])}
        return self.with_fault(name, {metric: points for metric, points in shown.items()
                                      if kinds == ["*"] or metric.rpartition(".")[2] in kinds})

    def with_fault(self, name: str, found: dict[str, Values]) -> dict[str, Values]:
        """Returns what a node shows of damaged files, or shows wrong."""
        first, hurt = min(found, default=""), {metric for metric in found if self.is_damaged(metric)}
        if name == "node1" and self.fault != "shows-damaged":
            found = {metric: values for metric, values in found.items() if metric not in hurt}
        if self.fault == "other-value" and name == "front":
            found[first] = {when: 0.5 for when in found[first]}
        if self.fault == "other-database" and name == "node1" and name_of(3) in found:
            found[name_of(3)] = {}
        lacks = {"lacks-metric": True, "lost-good": first == "bad.good", "lacks-damaged": bool(hurt)}
        if lacks.get(self.fault):
            found.pop(first, None)
        if self.fault == "lost-points" and name == "node2":
            found = {}
        return found


@pytest.mark.parametrize("fault", ("", *FAULTS))
def test_clusters(fault: str, folder: Path, planted: Check, monkeypatch: pytest.MonkeyPatch) -> None:
    monkeypatch.setattr(test_graphite, "time", Clock())
    monkeypatch.setattr(test_graphite, "METRICS", test_graphite.METRICS // 10)
    monkeypatch.setattr(test_graphite, "POINTS", test_graphite.POINTS // 10)
    monkeypatch.setattr(Clusters, "try_taken_ports", lambda clusters: None)
    whisper = Remembered(folder / "whisper", ending=".wsp")
    Clusters(folder, Remembered(folder / "rrdi", fault), whisper, planted).try_all()
    assert bool(planted.faults) == bool(fault)


@pytest.fixture
def clusters(folder: Path, planted: Check) -> Clusters:
    return Clusters(folder, Remembered(folder / "ports"), Remembered(folder / "whisper"), planted)


@pytest.mark.parametrize("status, port, is_right", ((1, 20_012, True), (1, 20_000, False), (0, 20_012, False)))
def test_taken_ports(status: int, port: int, is_right: bool, clusters: Clusters, planted: Check,
                     monkeypatch: pytest.MonkeyPatch) -> None:
    make = clusters.folder / "make-cluster"
    make.write_text(f"import sys\nsys.stderr.write('another program uses port {port};')\nsys.exit({status})\n")
    monkeypatch.setattr(graphite, "MAKE_CLUSTER", make)
    clusters.try_taken_ports()
    assert bool(planted.faults) != is_right


@pytest.mark.parametrize("size, is_right", ((30_000, True), (10_000, False)))
def test_pictures_of_a_page(size: int, is_right: bool, clusters: Clusters, planted: Check,
                            monkeypatch: pytest.MonkeyPatch) -> None:
    writes = f'for word; do case $word in --screenshot=*) head -c {size} /dev/zero > "${{word#*=}}";; esac; done'
    answering(clusters.folder / "chromium", more=writes)
    monkeypatch.setenv("PATH", str(clusters.folder), prepend=":")
    clusters.look_at_page(clusters.folder / "page.png")
    assert bool(planted.faults) != is_right


def test_points() -> None:
    old, late, new = make_points(1_700_000_000)
    points = [*old, *late, *new]
    assert len(points) == test_graphite.POINTS and len({point.metric for point in points}) == test_graphite.METRICS
    assert len({(point.metric, point.when // STEP) for point in points}) == len(points)  # each has its own slot
    assert len(late) > 200 and max(point.when for point in points) <= 1_700_000_009
    lasts = {point.metric: point.when for point in old}
    assert all(point.when < lasts[point.metric] for point in late)


# ---- collectd

STORED = "1 only in the new, the newest at 17"
SAID_REFUSED = "".join(f"rrdtool plugin: rrd_update_r (FOLDER/rrdtool/{file}.rrd) failed: illegal attempt to update "
                       "using time 17 when last update time is 17 (minimum one second step)\n" for file in range(11))


@pytest.mark.parametrize("answer, count, status, said, is_right", (
    (Answer(0), 11, 0, "MAX 10 s: 9 cells, 9 agree\n", True), (Answer(1), 11, 0, "9 agree\n", False),
    (Answer(0, "samples lost"), 11, 0, "9 agree\n", False), (Answer(0), 10, 0, "9 agree\n", False),
    (Answer(0), 11, 1, "9 agree\n", False), (Answer(0), 11, 0, "", False),
    (Answer(0, SAID_REFUSED), 11, 1, f"MAX 10 s: 9 cells, 8 agree, {STORED}\n", True),
    (Answer(0, SAID_REFUSED), 11, 1, "MAX 10 s: 9 cells, 8 agree, 1 only in the old file, the newest at 17\n", False),
    (Answer(0), 11, 1, f"MAX 10 s: 9 cells, 8 agree, {STORED}\n", False)))
def test_files_of_collectd(answer: Answer, count: int, status: int, said: str, is_right: bool, folder: Path,
                           planted: Check) -> None:
    answer = answer._replace(out=answer.out.replace("FOLDER", str(folder)))
    (folder / "rrdi").mkdir()
    for file in range(count):
        (folder / f"rrdi/{file}.rrdi").touch()
    compare = answering(folder / "compare", status, said).path
    test_graphite.compare_collectd(folder, answer, "librrdi.so", compare, planted)
    assert bool(planted.faults) != is_right


def test_settings_of_collectd(folder: Path) -> None:
    program = answering(folder / "shows", 3, "out\n", "err\n", 'cat "$3"; echo "by $VARIABLE"').path
    env = {"VARIABLE": "value", "PATH": "/bin:/usr/bin"}
    answer = collectd.record(folder / "run", 'Other "FOLDER/other"\n', env, program)
    assert answer.status == 3
    assert answer.out.endswith(f'\nOther "{folder}/run/other"\nby value\nout\nerr\n')
    assert f'\n  DataDir "{folder}/run/rrdtool"\n' in answer.out


def test_the_end_of_collectd(folder: Path) -> None:
    program = answering(folder / "waits", more="exec sleep 600").path
    assert collectd.record(folder / "run", program=program, seconds=0.2).status == -signal.SIGTERM


# ---- renders and sockets


def test_renders() -> None:
    one: dict[str, Values] = {"a": {10: 1.0, 20: None}, "b": {10: 2.0}}
    assert apart(one, one, 0) == [] and known(one) == 2
    assert apart(one, {"a": {10: 1.001}, "b": {10: 2.0, 30: None}}, 0.01) == []
    others: tuple[tuple[dict[str, Values], str], ...] = (
        ({"a": {10: 1.0}, "b": {10: 2.1}}, "b at 10: 2.0 and 2.1"), ({"a": {10: 1.0}}, "b: only in one"),
        ({"a": {10: None}, "b": {10: 2.0}}, "a at 10: 1.0 and None"),
        ({"a": {10: 1.0, 20: 3.0}, "b": {10: 2.0}}, "a at 20: None and 3.0"))
    for other, found in others:
        assert apart(one, other, 0.01) == [found]


def test_ports() -> None:
    first = graphite.free_ports(5)
    with socket.socket() as taken:
        taken.bind(("127.0.0.1", first + 2))
        taken.listen()
        assert not graphite.is_free(first + 2)
        assert graphite.free_ports(5) >= first + 5


@pytest.fixture
def silent_cluster(folder: Path) -> Cluster:
    """A cluster that was not started."""
    cluster = Cluster.__new__(Cluster)
    cluster.folder, cluster.env, cluster.port = folder, {}, 12_000
    return cluster


def test_points_in_a_cache(silent_cluster: Cluster) -> None:
    """A cache's answer may come in pieces."""
    asked = []
    with socket.socket() as server:
        server.bind(("127.0.0.1", 0))
        server.listen()

        def answer() -> None:
            with server.accept()[0] as client:
                length, = struct.unpack("!L", graphite.received(client, 4))
                asked.append(pickle.loads(graphite.received(client, length)))
                data = pickle.dumps({"datapointsByMetric": {"a": [(1, 2.0), (2, 3.0)], "b": []}})
                client.sendall(struct.pack("!L", len(data)) + data[:5])
                client.sendall(data[5:])

        thread = threading.Thread(target=answer)
        thread.start()
        silent_cluster.port = server.getsockname()[1] - 12
        assert silent_cluster.cached("node1", ["a", "b"]) == 2
        thread.join()
    assert asked == [{"type": "cache-query-bulk", "metrics": ["a", "b"]}]


def test_a_closed_connection() -> None:
    one, other = socket.socketpair()
    with one, other:
        other.sendall(b"ab")
        other.close()
        with pytest.raises(OSError):
            graphite.received(one, 3)


def test_bases(silent_cluster: Cluster) -> None:
    bases = [silent_cluster.base(name) for name in ("relay", "front", "node1", "node12")]
    assert bases == [12_000, 12_000, 12_010, 12_120]
    assert Point("a.b", 1.25, 10).line == "a.b 1.25 10\n"


def test_runs_of_make_cluster_that_fail(silent_cluster: Cluster) -> None:
    with pytest.raises(RuntimeError, match="has no cluster"):
        silent_cluster.run("status")
    for words in ("", "up", "start /none", "down /none node1", "sideways /none"):
        ran = subprocess.run([sys.executable, graphite.MAKE_CLUSTER, *words.split()], capture_output=True, text=True)
        assert ran.returncode == 2, words
