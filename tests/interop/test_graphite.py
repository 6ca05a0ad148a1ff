# SPDX-License-Identifier: MIT OR Apache-2.0
"""Graphite on rrdi shows what Graphite on whisper shows: a cluster of two nodes behind a relay, beside whisper with the
same points. And collectd's writer of rrdi records what collectd's own plugin rrdtool records.

The points, with five aggregation methods, gaps and late points, are compared in the finest archive, in the next one,
and in the coarsest one for sums and last values, also while a node is ended. Then come lines that are no metrics,
damaged files, and the page of the composer.

Python needs Graphite's packages (Debian: graphite-carbon graphite-web gunicorn python3-whisper)."""
from __future__ import annotations

import importlib.util
import math
import os
import re
import subprocess
import sys
import time
from pathlib import Path
from typing import Callable, Iterator

import pytest

from support import collectd, graphite
from support.check import Check
from support.graphite import Cluster, Point, apart, known
from support.program import TOP, Answer, environment

LEAST = {"values": 60_000, "points": 20_000, "late points": 200, "bad lines": 20, "damaged files": 5, "requests of Grafana": 11,
         "files of collectd": 10}
METRICS, POINTS, STEP = 500, 20_000, 10
KINDS = ("load", "min", "max", "count", "last")
# By the archive: how far back it is asked for, and the largest difference: half a millionth of each rounded step.
ARCHIVES = {"10s": (3_600, 0.0, "app.*.*.*"), "1m": (30_000, 4e-6, "app.*.*.*"),
            "10m": (100_000, 4e-5, "app.*.*.{count,last}")}
# What Grafana asks for: series of a panel, with the most points that it draws, and parts of names.
SERIES = ((["aliasByNode(app.host00.*.*, 1, 2)"], 60), (["app.host01.m1.min", "scale(app.host01.m1.min, 2)"], 1_000),
          (["sumSeries(app.host0*.m*.load)"], 100), (["summarize(app.host02.*.*, '1min', 'max', false)"], 500),
          (["movingAverage(app.host03.m3.count, 5)", "perSecond(app.host03.m3.count)"], 180), (["app.{host04,host05}.m[0-4].*"], 7))
PARTS = (("metrics/find", "*"), ("metrics/find", "app.*"), ("metrics/find", "app.host00.*"), ("metrics/find", "app.{host01,host02}.m?.*"),
         ("metrics/expand", "app.host0[12].*.*"))
LATE = 10  # slots by which points are late
RETRY = 11  # seconds after which the front asks a node again that failed: REMOTE_RETRY_DELAY, and one more
PATIENCE = 600  # seconds for a node that has to write or to show something
# The settings of rrdi's writer, added to those of the plugin rrdtool.
WRITER = """LoadPlugin cpu
LoadPlugin python
<Plugin python>
  ModulePath "PACKAGE"
  Import "rrdi.collectd"
  <Module "rrdi.collectd">
    DataDir "FOLDER/rrdi"
    Library "LIBRARY"
    CacheTimeout 3
    RRARows 300
  </Module>
</Plugin>
"""


def name_of(number: int) -> str:
    return f"app.host{number // 10:02}.m{number % 10}.{KINDS[number % 5]}"


def value_of(number: int, slot: int) -> float:
    return round(100 + 50 * math.sin(slot / 40 + number) + (number * 7919 + slot * 104729) % 1000 / 77, 6)


def make_points(end: int) -> list[list[Point]]:
    """Returns points of all metrics in three parts: old ones, late ones of every tenth metric, and new ones. Some
    metrics have a point in each slot, others in each third one; each seventh slot of some is missing."""
    per_metric = POINTS // METRICS
    parts: list[list[Point]] = [[], [], []]
    for number in range(METRICS):
        stride, slots, slot = (3 if number % 4 == 3 else 1), list[int](), 0
        while len(slots) < per_metric:
            slots.append(slot)
            slot += stride + (number % 3 == 1 and slot % 7 == 6)
        for index, slot in enumerate(slots):
            when = end - STEP * (slots[-1] - slot) + number % STEP
            is_late = number % 10 == 4 and per_metric // 2 - LATE <= index < per_metric // 2 - LATE // 2
            place = 1 if is_late else 0 if index < per_metric // 2 else 2
            parts[place].append(Point(name_of(number), value_of(number, slot), when))
    for part in parts:
        part.sort(key=lambda point: point.when)
    return parts


def bad_lines(now: int) -> list[str]:
    """Returns lines that are no points, or no points of a file, and one good point."""
    return ["no metric\n", "\n", "bad.one\n", "bad.two x 1\n", f"bad.three 1 {now} 5\n", "\x00\x01\x02\n",
            f"bad.nan nan {now}\n", f"bad.inf inf {now}\n", f"bad.inf -inf {now - 10}\n", f"bad.large 1e300 {now}\n",
            "bad.negative 1 -5\n", f"bad.future 1 {now + 86_400}\n", f"bad.millis 1 {now * 1000}\n",
            f"../../outside 1 {now}\n", f"bad..empty 1 {now}\n", f"/etc/outside 1 {now}\n",
            f"bad/../../outside 1 {now}\n", f"{'x' * 300} 1 {now}\n", f"bad.{'y' * 300}.z 1 {now}\n", f".bad 1 {now}\n",
            f"bad. 1 {now}\n", f"bad.good 1.5 {now}\n"]


# What is counted of them by carbon's metrics: three values, two times ahead, a time before 1970, and seven names.
EXPECTED = {"value": 3, "future": 2, "time": 1, "name": 8}


class Clusters:
    """The clusters: two nodes over rrdi, and one over whisper."""

    def __init__(self, folder: Path, rrdi: Cluster, whisper: Cluster, check: Check) -> None:
        self.check, self.folder, self.rrdi, self.whisper = check, folder, rrdi, whisper
        self.begun = int(time.time()) // STEP * STEP
        self.names = [name_of(number) for number in range(METRICS)]

    def last_lines(self) -> str:
        """Returns the ends of the front's and the nodes' logs of exceptions."""
        logs = sorted(self.rrdi.folder.glob("*/log/exception.log"))
        return "\n".join(f"{log.parent.parent.name}: {log.read_text(errors='replace')[-600:]}" for log in logs)

    def send(self, points: list[Point]) -> None:
        lines = [point.line for point in points]
        self.rrdi.send("relay", lines)
        self.whisper.send("node1", lines)
        self.check.count("points", len(points))

    def wait(self, count: int, *nodes: str) -> None:
        """Waits until whisper and nodes show all points and have written them. The relay connects to a node that was
        started again after some seconds, and sends what it kept."""
        for cluster, names in ((self.rrdi, nodes), (self.whisper, ("node1",))):
            for name in names:
                until, found = time.monotonic() + PATIENCE, 0
                while time.monotonic() < until and found < count:
                    time.sleep(1)
                    found = known(cluster.render(name, "app.*.*.*", self.begun - 3_600, self.begun, self.begun))
                self.check(found == count, f"{name} shows {found} values of {count} points")
                self.wait_until_written(cluster, name)

    def wait_until_written(self, cluster: Cluster, name: str) -> None:
        self.check(cluster.wait_until_written(name, self.names, PATIENCE), f"{name} has not written all points")

    def compare(self, what: str, sent: int) -> None:
        """Compares what the front over rrdi and whisper's page show, by archive."""
        for archive, (seconds, tolerance, target) in ARCHIVES.items():
            words = target, self.begun - seconds, self.begun, self.begun
            ours, theirs = self.rrdi.render("front", *words), self.whisper.render("front", *words)
            found = apart(ours, theirs, tolerance)
            self.check.count("values", known(ours))
            self.check(not found, f"{what}, {archive}: {len(found)} values differ: {found[:5]}")
            self.check(len(ours) == (METRICS if "{" not in target else METRICS // 5 * 2) and known(ours) > 0,
                       f"{what}, {archive}: {len(ours)} metrics with {known(ours)} values")
            if archive == "10s":
                self.check(known(ours) == sent, f"{what}: {known(ours)} values of {sent} points")

    def try_points(self) -> None:
        """Sends points, ends a node in the middle and asks again, starts it, ends the other one and asks again."""
        old, late, new = make_points(self.begun)
        self.send(old)
        self.wait(len(old), "node1", "node2")
        self.compare("old points", len(old))
        self.send(late)
        self.wait(len(old) + len(late), "node1", "node2")
        self.compare("late points", len(old) + len(late))
        self.check.count("late points", len(late))
        self.rrdi.run("stop", "node2")
        self.compare("a node is ended", len(old) + len(late))
        self.send(new)
        self.wait(POINTS, "node1")
        self.compare("points without a node", POINTS)
        self.rrdi.run("start", "node2")
        self.wait(POINTS, "node1", "node2")
        time.sleep(RETRY)
        self.try_grafana()
        self.rrdi.run("stop", "node1")
        self.compare("the other node is ended", POINTS)
        self.rrdi.run("start", "node1")

    def try_grafana(self) -> None:
        """Sends what Grafana's data source for Graphite sends: forms that ask for series, of at most so many points, and for
        the parts of names. The front over rrdi answers as whisper does."""
        times = [("from", self.begun - 1_800), ("until", self.begun)]
        for targets, most in SERIES:
            fields = [*(("target", target) for target in targets), *times, ("format", "json"), ("maxDataPoints", most)]
            ours, theirs = (graphite.values_of(cluster.posted(name, "render", fields)) for cluster, name in self.pages())
            self.check(known(ours) > 0 and not apart(ours, theirs, 1e-5), f"{targets} at most {most}: {apart(ours, theirs, 1e-5)[:5]}")
        for page, query in PARTS:
            ours, theirs = (cluster.posted(name, page, [("query", query), *times]) for cluster, name in self.pages())
            self.check(ours and ours == theirs, f"{page} {query}: {str(ours)[:300]} and not {str(theirs)[:300]}")
        self.check.count("requests of Grafana", len(SERIES) + len(PARTS))

    def pages(self) -> list[tuple[Cluster, str]]:
        return [(self.rrdi, "front"), (self.whisper, "front")]

    def try_bad_input(self) -> None:
        """Sends bad lines: nothing else is lost, and carbon's own metrics have the counts."""
        now = int(time.time())
        self.rrdi.send("node1", bad_lines(now))
        self.check.count("bad lines", len(bad_lines(now)))
        until, counts = time.monotonic() + PATIENCE, dict[str, int]()
        while time.monotonic() < until and counts != EXPECTED:
            time.sleep(2)
            counts = self.losses(now)
        self.check(counts == EXPECTED, f"bad input: carbon's metrics count {counts}, not {EXPECTED}")
        found = self.rrdi.render("node1", "bad.good", now - 600, now + 10, now + 10)
        self.check(1.5 in found.get("bad.good", {}).values(), f"bad input: a good point is lost: {found}")
        self.check_files()
        rewritten, late = self.metrics(self.begun).get("rewritten", 0), self.check.tried["late points"]
        self.check(rewritten >= late, f"carbon's metrics count {rewritten} late points of {late}")

    def metrics(self, begun: int) -> dict[str, int]:
        """Returns the sums of rrdi's own metrics of node1."""
        now = int(time.time())
        found = self.rrdi.render("node1", "carbon.agents.*.rrdi.*", begun - 60, now, now)
        return {metric.rpartition(".")[2]: int(sum(value or 0 for value in values.values()))
                for metric, values in found.items()}

    def losses(self, begun: int) -> dict[str, int]:
        """Returns what was lost; the counts of the points that were sent before are 0."""
        return {kind: count for kind, count in self.metrics(begun).items()
                if count and kind not in ("rewritten", "waiting")}

    def check_files(self) -> None:
        """All databases are in the nodes' data folders, by the names of metrics."""
        files = [path for path in self.folder.rglob("*.rrdi*") if path.is_file()]
        self.check.count("files", len(files))
        for path in files:
            relative = path.relative_to(self.folder).as_posix()
            self.check(re.fullmatch(r"rrdi/node[12]/data/(app/host\d\d/m\d/\w+|carbon/.*|bad/good)\.rrdi", relative)
                       is not None, f"a file with a wrong name: {relative}")

    def try_damage(self) -> None:
        """Damages files of node1; node2 has them whole. Before that both nodes are asked for the same values."""
        words = "app.host00.*.*", self.begun - 3_600, self.begun, self.begun
        whole = self.rrdi.render("front", *words)
        files = [self.rrdi.folder / "node1/data" / (name_of(number).replace(".", "/") + ".rrdi") for number in range(5)]
        data = [file.read_bytes() for file in files]
        for file, new in zip(files, [b"", bytes(100), data[2][:-40], b"RRDC" + data[3][4:]]):
            file.write_bytes(new)
        files[4].unlink()
        self.check.count("damaged files", len(files))
        self.check(apart(whole, self.rrdi.render("front", *words), 0) == [], "the front lacks values of damaged files")
        ours = self.rrdi.render("node1", *words)
        readable = {name_of(number) for number in (2, 3, *range(5, 10))}
        self.check(set(ours) <= readable and len(ours) >= 6, f"node1 with damaged files shows {sorted(ours)}")
        self.check(ours.get(name_of(3)) == whole[name_of(3)], "a broken-off change is another database")
        self.check_pages(files)
        # The next points make new files of those that are no databases.
        self.check(self.shows_new_points(), "points after damage are lost")
        aside = self.files_set_aside(3)
        self.check(len(aside) == 3, f"files set aside: {aside}")

    def send_new_points(self) -> int:
        """Sends a point of each damaged file to node1. Returns its time."""
        now = int(time.time())
        self.rrdi.send("node1", [f"{name_of(number)} 5 {now}\n" for number in range(5)])
        return now

    def files_set_aside(self, count: int) -> list[str]:
        """Sends points until some files were set aside: an empty one only after ten seconds, since another program may
        be about to fill it."""
        until, found = time.monotonic() + PATIENCE, list[str]()
        while time.monotonic() < until and len(found) < count:
            self.send_new_points()
            time.sleep(2)
            found = sorted(path.name for path in (self.rrdi.folder / "node1/data").rglob("*.damaged-*"))
        return found

    def shows_new_points(self) -> bool:
        """Returns whether node1 shows points of files that can be read or made."""
        until, is_shown, now = time.monotonic() + PATIENCE, False, self.send_new_points()
        while time.monotonic() < until and not is_shown:
            time.sleep(1)
            shown = self.rrdi.render("node1", "app.host00.*.*", now - 60, now + 10, now + 10)
            is_shown = all(5 in shown.get(name_of(number), {}).values() for number in (3, 4))
        return is_shown

    def check_pages(self, files: list[Path]) -> None:
        """Each page is shown although some files are damaged, and the log names two of them."""
        for page in ("metrics/find?query=app.host00.*.*&format=treejson", "metrics/index.json",
                     "metrics/find?query=app.host00.**&format=json", "metrics/expand?query=app.*.m0.*"):
            status = self.rrdi.status("node1", page)
            self.check(status == 200, f"{page}: status {status}")
        log = "".join(file.read_text(errors="replace") for file in (self.rrdi.folder / "node1/log").glob("info.log*"))
        for file in files[:2]:
            self.check(f"cannot read {file}" in log, f"the log does not name {file}")

    def try_taken_ports(self) -> None:
        """Starts a second cluster on the ports of the first one: that is refused with the port, and ends nothing."""
        words = [sys.executable, str(graphite.MAKE_CLUSTER), "up", str(self.folder / "second"), "--port",
                 str(self.rrdi.port)]
        ran = subprocess.run(words, capture_output=True, text=True, timeout=graphite.PATIENCE)
        is_named = f"another program uses port {self.rrdi.port + 12};" in ran.stderr
        self.check(ran.returncode == 1 and is_named, f"ports that are taken: status {ran.returncode}: {ran.stderr}")

    def look_at_page(self, picture: Path) -> None:
        """Opens the composer with three series, and looks for a picture that is not empty."""
        targets = "&".join(f"target=app.host0{number}.m0.load" for number in range(3))
        url = (f"http://127.0.0.1:{self.rrdi.base('front') + 8}/composer?{targets}&from=-12min&width=600&height=350"
               "&title=Two%20nodes%20over%20rrdi&lineMode=connected")
        words = ["chromium", "--headless=new", "--no-sandbox", "--disable-gpu", "--window-size=960,560",
                 "--hide-scrollbars", f"--user-data-dir={self.folder}/browser", "--virtual-time-budget=8000",
                 f"--screenshot={picture}", url]
        ran = subprocess.run(words, capture_output=True, text=True, timeout=PATIENCE,
                             env={**os.environ, "HOME": str(self.folder)})
        size = picture.stat().st_size if picture.exists() else 0
        self.check.count("pages of the composer")
        self.check(size > 20_000, f"the page: a picture of {size} bytes: {ran.stderr[-500:]}")

    def try_all(self) -> None:
        try:
            self.try_taken_ports()
            self.try_points()
            self.try_bad_input()
            self.try_damage()
        except (OSError, RuntimeError) as error:
            self.check(False, f"the cluster: {error}: {self.last_lines()}")


def is_installed(module: str) -> bool:
    """Checks whether Python has a module. One that another test has put in its place has no `__spec__`."""
    try:
        return importlib.util.find_spec(module) is not None
    except ValueError:
        return False


@pytest.fixture
def clusters(folder: Path, library: Path, check: Check) -> Iterator[Clusters]:
    modules = ("carbon", "django", "graphite", "gunicorn", "whisper")
    if lacking := [name for name in modules if not is_installed(name)]:
        pytest.skip(f"{sys.executable} has no {', '.join(lacking)}: {graphite.PACKAGES}")
    rrdi = Cluster(folder / "rrdi", "rrdi", 2, str(library))
    try:
        whisper = Cluster(folder / "whisper", "whisper", 1)
        try:
            yield Clusters(folder, rrdi, whisper, check)
        finally:
            whisper.close()
    finally:
        rrdi.close()


@pytest.mark.xdist_group("ports")
def test_cluster(clusters: Clusters) -> None:
    clusters.try_all()


@pytest.mark.xdist_group("ports")
def test_page_of_the_composer(needs: Callable[..., None], request: pytest.FixtureRequest) -> None:
    needs("chromium")
    clusters = request.getfixturevalue("clusters")
    points = make_points(clusters.begun)[0]
    clusters.send(points)
    clusters.wait(len(points), "node1", "node2")
    clusters.look_at_page(clusters.folder / "page.png")


# ---- collectd


def test_collectd(folder: Path, library: Path, check: Check) -> None:
    """All cells of the files of rrdi's writer are those of the plugin rrdtool."""
    collectd.skip_without("/usr/lib/collectd/python.so", "/usr/bin/rrdtool")
    answer = collectd.record(folder, WRITER.replace("PACKAGE", str(TOP / "python")).replace("LIBRARY", str(library)))
    if "ibpython" in answer.out:
        pytest.skip(f"collectd's python plugin cannot be loaded: {answer.out[:300]}")
    compare_collectd(folder, answer, str(library), str(TOP / "tools/rrdi-compare"), check)


# On a busy machine collectd reads twice in a second. Then both refuse the second sample, and rrdtool also the later ones
# of the same update, which rrdi stores: what rrdtool says, and what rrdi-compare then says of an archive.
REFUSED = re.compile(r"rrd_update_r \((\S+)\) failed: .*illegal attempt to update using time")
STORED = re.compile(r"\w+ \d+ s: \d+ cells, \d+ agree(, \d+ only in the new, the newest at \d+)?$")


def compare_collectd(folder: Path, answer: Answer, library: str, compare: str, check: Check) -> None:
    lost = [line for line in answer.out.splitlines() if "samples lost" in line and "not later than" not in line]
    check(answer.status == 0 and not lost, f"collectd: {lost} status {answer.status}: {answer.out[-900:]}")
    files = sorted(folder.glob("rrdi/**/*.rrdi"))
    check(len(files) > 10, f"collectd: {len(files)} files")
    refused = set(REFUSED.findall(answer.out))
    for file in files:
        old = folder / "rrdtool" / file.relative_to(folder / "rrdi").with_suffix(".rrd")
        env = environment({"RRDI_LIBRARY": library})
        ran = subprocess.run([compare, old, file], env=env, text=True, capture_output=True)
        check.count("files of collectd")
        check.count("cells of collectd", sum(int(count) for count in re.findall(r": (\d+) cells", ran.stdout)))
        is_lacking = str(old) in refused and all(map(STORED.match, ran.stdout.splitlines()))
        check.count("files of which rrdtool refused samples", int(is_lacking))
        check((ran.returncode == 0 or is_lacking) and "agree" in ran.stdout, f"{file}: {ran.stdout}{ran.stderr}")
