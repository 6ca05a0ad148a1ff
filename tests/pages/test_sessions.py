# SPDX-License-Identifier: MIT OR Apache-2.0
"""Each session that a page or a manual page shows prints what the page shows, and draws its plots.

A page is left out from the first command on that needs a tool which is not installed. The plots must look as the
session of plotting.md draws them, but for one pixel in a thousand; only Debian 12's programs draw them so."""
from __future__ import annotations

import difflib
import re
import shutil
import subprocess
from pathlib import Path

import pytest

from support import pixels
from support.check import Check
from support.program import TOP
from support.sessions import Command, sessions

LEAST = {"commands": 115, "plots": 3}
SESSIONS = sessions(TOP)
# A date, and a time zone. Which pages have one, and a mark of their sessions in another zone, five hours away.
DATE, ELSEWHERE = re.compile(r"\d{4}-\d\d-\d\d( \d\d:\d\d:\d\d)?|\b(UTC|EST)\b"), " in another zone"
DATED = ["docs/cookbook.md", "docs/export.md", "docs/plotting.md"]
# The pages whose sessions need the C library: installed, or for the Python package.
OF_C, OF_PYTHON = ("docs/embedding.md", "docs/rrdi.3"), "docs/python.md"
# The page whose session draws plots of docs. Another test draws that of Graphite.
PLOTTING, PLOTS, BY_OTHERS = "docs/plotting.md", ("gap.png", "graph.png", "load.png"), ("graphite.png",)
# The programs that drew the plots in docs. Others draw them in another way.
DRAWERS = {"gnuplot": "gnuplot 5.4 ", "rrdtool": "RRDtool 1.7.2 "}
# The share of the pixels in which two drawings of one plot may differ: less than a line of a plot has.
APART = 0.001
# The seconds after which a command hangs, also on a busy machine.
PATIENCE = 1_800


def printed_by(command: Command, place: Path, environment: dict[str, str], seconds: float = PATIENCE) -> str:
    """Returns what a command prints, on both streams, as a reader sees it."""
    try:
        ran = subprocess.run(["sh", "-c", command.text], cwd=place, env=environment, stdin=subprocess.DEVNULL,
                             stdout=subprocess.PIPE, stderr=subprocess.STDOUT, timeout=seconds)
    except subprocess.TimeoutExpired:
        return f"no end in {seconds:g} seconds\n"
    return ran.stdout.decode(errors="replace")


def judge(page: str, command: Command, printed: str, check: Check) -> bool:
    """Compares what a command prints with the page, in another time zone but for dates."""
    shown, printed = (DATE.sub("DATE", text) if ELSEWHERE in page else text for text in (command.shown, printed))
    lines = difflib.unified_diff(shown.splitlines(), printed.splitlines(), "shown", "printed", lineterm="")
    return check(printed == shown, f"{page}:{command.line}: {command.text}" + "\n".join(lines))


def run_session(page: str, commands: list[Command], place: Path, environment: dict[str, str], check: Check) -> str:
    """Runs the commands of a page, up to the first that prints something else, or that cannot be run here: then says
    why."""
    for number, command in enumerate(commands):
        lacks = [tool for tool in command.needs() if not shutil.which(tool)]
        if lacks:
            count = f"{len(commands) - number} of {len(commands)} commands"
            return f"{page}: {count}, from line {command.line} on: {', '.join(lacks)} not installed"
        check.count("commands")
        if not judge(page, command, printed_by(command, place, environment), check):
            break
    return ""


@pytest.mark.parametrize("page", SESSIONS)
def test_session(page: str, place: Path, environment: dict[str, str], check: Check,
                 request: pytest.FixtureRequest) -> None:
    more: dict[str, str] = {}
    if page in OF_C:
        more["PKG_CONFIG_PATH"] = f"{request.getfixturevalue('installed')}/lib/pkgconfig"
    elif page == OF_PYTHON:
        more.update(PYTHONPATH=str(TOP / "python"), RRDI_LIBRARY=str(request.getfixturevalue("library")))
    left_out = run_session(page, SESSIONS[page], place, {**environment, **more}, check)
    if left_out:
        check.end()
        pytest.skip(left_out)


@pytest.mark.parametrize("page", DATED)
def test_session_elsewhere(page: str, place: Path, environment: dict[str, str], check: Check) -> None:
    """In another time zone a session prints the same, but for dates."""
    left_out = run_session(page + ELSEWHERE, SESSIONS[page], place, {**environment, "TZ": "EST5"}, check)
    if left_out:
        check.end()
        pytest.skip(left_out)


def compare_plot(shown: Path, drawn: Path, check: Check) -> None:
    """Compares a plot of docs with the one that a session has drawn: byte by byte, and if they differ, by pixels."""
    check.count("plots")
    if check(drawn.is_file(), f"{shown}: no session draws it") and shown.read_bytes() != drawn.read_bytes():
        apart = pixels.share_apart(pixels.picture(shown), pixels.picture(drawn))
        check(apart <= APART, f"{shown}: {apart:.2%} of the pixels differ from what the session draws")


def other_drawers() -> list[str]:
    """Returns which of the programs that drew the plots are not installed here."""
    found = []
    for tool, version in DRAWERS.items():
        asked = [tool, "--version"] if shutil.which(tool) else ["true"]
        told = subprocess.run(asked, capture_output=True, text=True).stdout
        found += [] if told.startswith(version) else [version.strip()]
    return found


def test_plots(place: Path, environment: dict[str, str], check: Check) -> None:
    lacks = other_drawers()
    if lacks:
        pytest.skip(f"not installed: {', '.join(lacks)}")
    run_session(PLOTTING, SESSIONS[PLOTTING], place, environment, check)
    for name in PLOTS:
        compare_plot(TOP / "docs" / name, place / name, check)


def test_each_plot_is_drawn() -> None:
    assert {path.name for path in (TOP / "docs").glob("*.png")} == {*PLOTS, *BY_OTHERS}


def test_the_pages() -> None:
    assert {"README.md", "docs/tutorial.md", *OF_C, OF_PYTHON, PLOTTING} <= set(SESSIONS)
    assert sum(map(len, SESSIONS.values())) > 115
