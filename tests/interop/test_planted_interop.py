# SPDX-License-Identifier: MIT OR Apache-2.0
"""The checks beside other programs find wrong answers: a check that cannot fail is worth nothing."""
from __future__ import annotations

import os
import struct
import subprocess
import sys
import zlib
from pathlib import Path
from typing import Callable

import pytest

from interop import test_old_tools, test_rrdtool
from support.check import Check
from support.fakes import answering
from support.program import Answer
from support.recordings import Recordings, has_outage, is_of_outage, one_by_one, pixels
from support.tools import Tools, build_preload

# ---- tools


@pytest.mark.parametrize("status, text, is_right", ((0, "said", True), (1, "said", False), (0, "other", False)))
def test_a_tool_that_ends_otherwise(status: int, text: str, is_right: bool, folder: Path, planted: Check) -> None:
    Tools(answering(folder / "rrdi", 0, "it said\n"), folder, planted).expect(status, text, "rrdi")
    assert bool(planted.faults) != is_right


@pytest.fixture
def idle(folder: Path, planted: Check, needs: Callable[..., None]) -> Tools:
    """A program and tools that do nothing, and end well."""
    needs("rrdtool")
    tools = Tools(answering(folder / "rrdi"), folder, planted)
    tools.tools = folder / "tools"
    tools.tools.mkdir()
    for name in ("rrdi-compare", "rrdi-export", "rrdi-import", "rrdi-rrdtool"):
        (tools.tools / name).touch()
    return tools


@pytest.mark.parametrize("name", ("all kinds", "holes 1", "minimums alone"))
def test_idle_moves(name: str, idle: Tools, planted: Check) -> None:
    test_rrdtool.test_there_and_back(name, idle, planted)
    assert len(planted.faults) > 2


@pytest.mark.parametrize("name", ("all_digits_of_a_number", "what_cannot_be_moved", "lines_of_rrdtool",
                                  "times_of_rrdtool", "refused_lines", "an_added_archive"))
def test_idle_tools(name: str, idle: Tools, planted: Check, needs: Callable[..., None], monkeypatch: pytest.MonkeyPatch
                    ) -> None:
    monkeypatch.setattr(test_rrdtool, "times", lambda: [("now", "now"), ("-1h", "start+1h")])
    test = getattr(test_rrdtool, f"test_{name}")
    words = {"tools": idle, "check": planted, "needs": needs}
    test(**{word: words[word] for word in test.__code__.co_varnames[:test.__code__.co_argcount]})
    assert planted.faults


# ---- recordings


@pytest.fixture
def recordings(folder: Path, planted: Check, needs: Callable[..., None]) -> Recordings:
    """Recordings of programs that only answer."""
    needs("cc")
    recordings = Recordings(answering(folder / "rrdi"), folder, planted)
    recordings.rrdtool_program = recordings.piped = answering(folder / "rrdtool", 0, "1600000000\n").path
    return recordings


@pytest.mark.parametrize("status", (0, 1))
def test_programs_that_fail(status: int, recordings: Recordings, planted: Check) -> None:
    recordings.record("mrtg", answering(recordings.folder / "mrtg", status).path)
    assert len(planted.faults) == status


@pytest.mark.parametrize("status, said, is_right", (
    (0, "MAX 10 s: 9 cells, 9 agree", True), (1, "MAX 10 s: 9 cells, 9 agree", False), (0, "", False),
    (1, "MAX 10 s: 9 cells, 8 agree, 1 only in the new file, the newest at 17", False)))
def test_files_that_differ(status: int, said: str, is_right: bool, recordings: Recordings, planted: Check) -> None:
    recordings.compare = answering(recordings.folder / "rrdi-compare", status, said + "\n").path
    made = f"create {recordings.folder}/f.rrd -s 10 DS:g:GAUGE:20:U:U RRA:MAX:0.5:1:9\n"
    (recordings.folder / "calls.mrtg.1").write_text(made)
    recordings.compare_files("mrtg")
    assert bool(planted.faults) != is_right


@pytest.mark.parametrize("old, new, is_right", (("700x300", "700x300", True), ("700x300", "700x301", False),
                                                ("ERROR: no", "ERROR: no", False)))
def test_pictures_that_differ(old: str, new: str, is_right: bool, recordings: Recordings, planted: Check) -> None:
    folder = recordings.folder
    recordings.rrdtool_program, recordings.piped = (
        answering(folder / name, 0, f"{size}\nOK\n", more="printf x > drawn.png").path
        for name, size in (("old", old), ("new", new)))
    recordings.export = answering(folder / "rrdi-export").path
    (folder / "calls.smoke.1").write_text(f"graph a.png DEF:a={folder}/f.rrd:g:AVERAGE LINE1:a#ff0000\n")
    recordings.compare_pictures("smoke")
    assert bool(planted.faults) != is_right


def test_no_file_and_no_picture(recordings: Recordings, planted: Check) -> None:
    recordings.compare_files("mrtg")
    recordings.compare_pictures("mrtg")
    assert len(planted.faults) == 2


@pytest.mark.parametrize("answer, is_right", (("Status: 200\r\nX: y\r\n\r\n\x89PNG\r\n", True),
                                              ("Status: 404\r\n\r\n\x89PNG\r\n", False),
                                              ("Status: 200\r\n\r\nnone", False)))
def test_pages_that_are_refused(answer: str, is_right: bool, recordings: Recordings, planted: Check) -> None:
    folder = recordings.folder
    (folder / "answer").write_bytes(answer.encode("latin-1"))
    answering(folder / "runuser", more=f"cat {folder}/answer")
    recordings.env["PATH"] = f"{folder}:{os.environ['PATH']}"
    test_old_tools.ask_for_picture(recordings, "munin.conf", "day")
    assert bool(planted.faults) != is_right


@pytest.mark.parametrize("answer, is_right", ((Answer(0, "fine"), True), (Answer(1, "fine"), False),
                                              (Answer(0, "Error"), False)))
def test_collectd_that_fails(answer: Answer, is_right: bool, planted: Check) -> None:
    test_old_tools.judge_collectd(answer, planted)
    assert bool(planted.faults) != is_right


LINES = "".join(f"{number}\n" for number in range(120))


@pytest.mark.parametrize("old, new, is_right", ((LINES, LINES, True), (LINES, LINES.replace("7", "8"), False),
                                                (LINES, f"{LINES}x\n", False), ("OK\n", "OK\n", False)))
def test_answers_that_differ(old: str, new: str, is_right: bool, recordings: Recordings, planted: Check) -> None:
    folder = recordings.folder
    by_old, by_new = answering(folder / "by-old", 0, old), answering(folder / "by-new", 0, new)
    test_old_tools.compare_answers(recordings, by_old.path, by_new.path)
    assert bool(planted.faults) != is_right


# ---- what the comparisons rest on


def test_a_stopped_clock(folder: Path, needs: Callable[..., None]) -> None:
    needs("cc")
    env = {**os.environ, "LD_PRELOAD": str(build_preload("clock.c", folder / "clock.so")), "CLOCK": "1700000000"}
    for words in (["date", "+%s"], [sys.executable, "-c", "import time; print(int(time.time()))"]):
        assert subprocess.run(words, env=env, capture_output=True, text=True, check=True).stdout == "1700000000\n"


def test_pixels() -> None:
    data = zlib.compress(b"abc")
    assert pixels(b"\x89PNG\r\n\x1a\n" + struct.pack(">I4s", len(data), b"IDAT") + data + b"0000") == b"abc"


def test_samples_one_by_one() -> None:
    assert one_by_one("update f 1:2 3:4") == ["update f 1:2", "update f 3:4"]
    templates = ["update f --template a:b 1:2", "update f --template a:b 4:5"]
    assert one_by_one("update f --template a:b 1:2 4:5") == templates
    assert one_by_one("create f DS:x") == ["create f DS:x"]


def test_outages() -> None:
    made = ["create f -s 10 DS:g:GAUGE:20:U:U RRA:MAX:0.5:1:4", "update f 1000000000:1", "update f 1000000021:1"]
    assert has_outage(made)
    assert not has_outage([*made[:2], "update f 1000000020:1 1000000040:2"])
    equal, only = "MAX {} s: 9 cells, 9 agree", "MIN {} s: 9 cells, 8 agree, 1 only in the {}, the newest at 17"
    apart = "MAX {} s: 9 cells, 8 agree, 1 apart by up to 0.500000, the newest at 17"
    for lines, is_right in (([equal.format(10), only.format(10, "old file")], True), ([equal.format(10)], False),
                            ([equal.format(10), only.format(10, "new")], False), ([apart.format(10)], False),
                            ([only.format(10, "old file"), apart.format(60)], True),
                            ([equal.format(10), "other 5"], False)):
        assert is_of_outage(lines) == is_right, lines
