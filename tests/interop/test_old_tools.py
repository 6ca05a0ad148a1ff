# SPDX-License-Identifier: MIT OR Apache-2.0
"""Programs that were written for RRDtool record and draw on rrdi what they do on rrdtool.

MRTG, munin-update and Smokeping run by perl/RRDs.pm, in four rounds at intervals of ten seconds, and then munin-graph,
munin-cgi-graph (perl -T) and the pages of Smokeping. collectd records by its own plugin rrdtool, with the recorder
before RRDtool's library. The calls of each go to rrdtool too: all rows of all files must agree, and all pictures must
be equal, pixel by pixel, to those that rrdtool draws from the same rows."""
from __future__ import annotations

import os
import re
import shutil
import socketserver
import subprocess
import threading
import time
from pathlib import Path
from typing import Callable, Iterator

import pytest

from support import collectd
from support.check import Check
from support.program import Answer, Program
from support.recordings import PATIENCE, Recordings, pixels
from support.tools import build_preload

LEAST = {"lines of answers": 100, "rows known": 1, "runs of programs": 20, "pictures": 5}
SETTINGS = Path(__file__).resolve().parent / "settings"
ROUNDS, SECONDS = 4, 10
MUNIN_CGI, MUNIN_UPDATE = "/usr/lib/munin/cgi/munin-cgi-graph", "/usr/share/munin/munin-update"
# Two counters that grow by fixed rates.
PROBE = """#!/bin/sh
now=$(date +%s)
echo $((now * 8 - 13000000000)); echo $((now * 4 - 6000000000)); echo up; echo here
"""
NODE = {"usual": "graph_title Usual\ngraph_vlabel v\na.label a\na.type GAUGE\na.min 0\nb.label b\nb.type DERIVE\n"
                 "b.min 0\nb.max 1000000\n",
        "fast": "graph_title Fast\nupdate_rate 10\ngraph_data_size custom 360, 6 240\na.label a\na.type COUNTER\n"
                "b.label b\n"}


class Node(socketserver.StreamRequestHandler):
    """Serves a node of Munin's protocol with two plugins, one of them with steps of ten seconds."""

    def handle(self) -> None:
        self.wfile.write(b"# munin node at here\n")
        fixed = {"cap": "cap multigraph dirtyconfig\n", "nodes": "here\n.\n", "list": "usual fast\n",
                 "version": "munins node on here version: 2\n"}
        for line in self.rfile:
            words, now = line.decode().split() or [""], time.time()
            if words[0] == "quit":
                return
            answer = fixed.get(words[0], "# Unknown command\n")
            if words[0] == "config":
                answer = NODE[words[1]] + ".\n"
            elif words[0] == "fetch":
                values = (f"{now % 60:.3f}", int(now * 100)) if words[1] == "usual" else (int(now * 7), "1.25e-3")
                answer = f"a.value {values[0]}\nb.value {values[1]}\n.\n"
            self.wfile.write(answer.encode())


@pytest.fixture
def recordings(program: Program, needs: Callable[..., None], folder: Path, check: Check) -> Recordings:
    needs("rrdtool", "cc", "perl")
    return Recordings(program, folder, check)


def write_settings(recordings: Recordings, name: str, port: int = 0) -> str:
    text = (SETTINGS / name).read_text().replace("FOLDER", str(recordings.folder)).replace("PORT", str(port))
    (recordings.folder / name).write_text(text)
    return str(recordings.folder / name)


def run_rounds(way: Callable[[], object]) -> None:
    begun = time.monotonic()
    for number in range(ROUNDS):
        time.sleep(max(begun + number * (SECONDS + 1) - time.monotonic(), 0))
        way()


def test_mrtg(recordings: Recordings, needs: Callable[..., None]) -> None:
    needs("mrtg")
    recordings.script("probe", PROBE)
    (recordings.folder / "mrtg").mkdir()
    settings = write_settings(recordings, "mrtg.cfg")
    run_rounds(lambda: recordings.record("mrtg", "mrtg", settings))
    recordings.compare_files("mrtg")


def test_smokeping(recordings: Recordings, needs: Callable[..., None]) -> None:
    needs("smokeping", "fping")
    for name in ("data", "img", "var"):
        (recordings.folder / "smoke" / name).mkdir(parents=True)
    settings = write_settings(recordings, "smoke.config")
    run_rounds(lambda: recordings.record("smoke", "smokeping", f"--config={settings}", "--debug"))
    recordings.record("smokepages", "smokeping", f"--config={settings}", f"--static={recordings.folder}/static")
    recordings.compare_files("smoke")
    recordings.compare_pictures("smokepages")


# ---- Munin


class Munin:
    """Munin's programs, which run as the user munin and ask a node of this process."""

    def __init__(self, recordings: Recordings, port: int = 0) -> None:
        self.recordings, self.folder = recordings, recordings.folder / "munin"
        for name in ("cgi", "db", "html", "log", "run"):
            (self.folder / name).mkdir(parents=True)
        for path in (self.folder, *self.folder.iterdir()):
            shutil.chown(path, "munin")
        self.settings = write_settings(recordings, "munin.conf", port)

    def run(self, name: str, program: str, *words: str, may_fail: bool = False) -> bool:
        words = (f"/usr/share/munin/{program}", *words, self.settings)
        return self.recordings.record(name, *words, user="munin", may_fail=may_fail)

    def update(self) -> bool:
        return self.run("munin", "munin-update", "--nofork", "--config_file")

    def graph(self) -> None:
        """Draws the pictures that munin-html requests from munin-graph. If the node was too slow in a round, a plugin
        is missing."""
        for tries in range(3):
            (self.folder / "db/graphs").write_text("/local/here/usual-day.png\n/local/here/fast-day.png\n")
            if self.run("muningraph", "munin-graph", "--cron", "--nolazy", "--nofork", "--config", may_fail=tries < 2):
                return
            self.update()

    def request_pictures(self) -> None:
        """Requests pictures from the CGI program as a web server does: those of the pages, and one that was zoomed."""
        now = int(time.time())
        for scale in ("day", "week", "month", "year", f"pinpoint={now - 40},{now}"):
            ask_for_picture(self.recordings, self.settings, scale)


def ask_for_picture(recordings: Recordings, settings: str, scale: str) -> None:
    env = {**recordings.env, "CALLS": str(recordings.folder / "calls.municgi"), "GATEWAY_INTERFACE": "CGI/1.1",
           "MUNIN_CONFIG": settings, "REQUEST_METHOD": "GET", "QUERY_STRING": "",
           "PATH_INFO": f"/local/here/usual-{scale}.png"}
    words = ["runuser", "-u", "munin", "--", "perl", "-T", f"-I{recordings.installed}/perl", MUNIN_CGI]
    ran = subprocess.run(words, cwd=recordings.folder, env=env, capture_output=True, stdin=subprocess.DEVNULL,
                         timeout=PATIENCE)
    recordings.check.count("runs of programs")
    is_right = b"Status: 200\r\n" in ran.stdout and b"\r\n\r\n\x89PNG\r\n" in ran.stdout
    recordings.check(is_right, f"{MUNIN_CGI}: {scale}: {ran.stdout[:500]!r}{ran.stderr[-900:]!r}")


@pytest.fixture
def node() -> Iterator[int]:
    """The port of a node."""
    with socketserver.ThreadingTCPServer(("127.0.0.1", 0), Node) as server:
        server.daemon_threads = True
        threading.Thread(target=server.serve_forever, daemon=True).start()
        yield server.server_address[1]
        server.shutdown()


def test_munin(recordings: Recordings, node: int, needs: Callable[..., None]) -> None:
    needs(MUNIN_UPDATE, MUNIN_CGI, "runuser")
    if os.geteuid() != 0:
        pytest.skip("only root may become the user munin")
    munin = Munin(recordings, node)
    run_rounds(munin.update)
    munin.graph()
    munin.request_pictures()
    recordings.compare_files("munin")
    recordings.compare_pictures("muningraph")
    recordings.compare_pictures("municgi")


# ---- collectd and Cacti


def judge_collectd(answer: Answer, check: Check) -> None:
    check.count("runs of programs")
    check(answer.status == 0 and "rror" not in answer.out, f"collectd: status {answer.status}: {answer.out[-900:]}")


def test_collectd(recordings: Recordings, library: Path) -> None:
    """Runs collectd's own plugin, with the recorder before RRDtool's library, and before both a library that records
    the calls."""
    collectd.skip_without()
    recorder = library.with_name("librrdi-record.so")
    if not recorder.exists():
        pytest.skip(f"{recorder} not found; run make record")
    noting = build_preload("calls.c", recordings.folder / "calls.so")
    env = {**recordings.env, "CALLS": str(recordings.folder / "calls.collectd.0"), "LD_PRELOAD": f"{noting}:{recorder}"}
    judge_collectd(collectd.record(recordings.folder / "collectd", env=env), recordings.check)
    recordings.compare_files("collectd", is_by_sample=True)


def answers(recordings: Recordings, program: str, folder: Path) -> list[str]:
    """Returns what a program answers to the lines of Cacti's poller, which end with CR LF. Each program has its own
    layout of a file, and its own times."""
    folder.mkdir()
    lines, found = (SETTINGS / "cacti-lines").read_text().replace("\\\n", "").replace("\n", "\r\n"), []
    told = recordings.run("sh", "-c", f'cd "{folder}" && exec "$0" -', program, given=lines)
    for line in told.out.splitlines():
        if not re.match(r"header_size|rra\[\d+\]\.cur_row|-1$", line):
            line = re.sub(r"(cdp_prep\[\d+\]\.value = )-?inf", r"\1NaN", line)
            found.append(re.sub(r"OK u:[\d.]+ s:[\d.]+ r:[\d.]+$", "OK", line))
    picture = folder / "h_1.png"
    return [*found, str(len(pixels(picture.read_bytes()))) if picture.exists() else "no picture"]


def compare_answers(recordings: Recordings, old_program: str, new_program: str) -> None:
    old = answers(recordings, old_program, recordings.folder / "old")
    new = answers(recordings, new_program, recordings.folder / "new")
    recordings.check.count("lines of answers", len(new))
    for wanted, got in zip(old, new):
        recordings.check(wanted == got, f"Cacti: {wanted!r} by rrdtool, {got!r}")
    recordings.check(len(old) == len(new) > 100, f"Cacti: {len(old)} and {len(new)} lines")


def test_cacti(recordings: Recordings) -> None:
    compare_answers(recordings, recordings.rrdtool_program, recordings.piped)
