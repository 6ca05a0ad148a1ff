# SPDX-License-Identifier: MIT OR Apache-2.0
"""Files and folders that are mounts: a file that is bound over another one, as containers do, cannot be replaced by rename, and is
changed in place or stays as it is; on an overlay, a file gets another place with its first change."""
from __future__ import annotations

import os
import shutil
import subprocess
import sys
from pathlib import Path
from typing import Callable, Dict, Sequence

import pytest

from support.check import Check
from support.program import PATIENCE, TOP, Answer, Program
from support.tools import Tools

LEAST = {"runs": 45}
AT = 1_700_000_000
DEFINITION = f"--step 10 --start {AT} --journal 9 DS:g:GAUGE:60:U:U RRA:LAST:0.5:1:30"
NAMESPACE = ["unshare", "--mount", *["--map-root-user"] * (os.geteuid() != 0)]
BOUND = 'mount --bind "$0/bound" "$0/place/$1" && cd "$0/place" && shift && exec "$@"'
OVERLAY = ('mount -t tmpfs none "$0/upper" && mkdir "$0/upper/new" "$0/upper/work" && mount -t overlay '
           '-o "lowerdir=$0/place,upperdir=$0/upper/new,workdir=$0/upper/work" none "$0/over" && cd "$0/over" && exec "$@"')


@pytest.fixture
def tools(program: Program, folder: Path, check: Check, needs: Callable[..., None]) -> Tools:
    """Runs tools beside a folder `place` with a database, in which each run may have mounts of its own."""
    needs("unshare", "mount", "rrdtool")
    tried = subprocess.run([*NAMESPACE, "sh", "-c", 'mount -t tmpfs none "$0"', str(folder)], capture_output=True, text=True)
    if tried.returncode:
        pytest.skip(f"no mount in a namespace: {tried.stderr}")
    made = Tools(program, folder, check)
    (folder / "place").mkdir()
    lines = f"create {DEFINITION}\n" + "".join(f"update {AT + 10 * at}:{at}\n" for at in range(1, 10))
    assert program.run(["batch", folder / "place/f.rrdi"], lines) == Answer(0)
    return made


def ran(tools: Tools, before: Sequence[object], line: str, given: str = "") -> Answer:
    """Runs a command behind some words."""
    name, *words = line.split()
    python = [sys.executable, "-B"]
    path = [tools.program.path] if name == "rrdi" else python if name == "python" else [*python, str(tools.tools / name)]
    command = [*map(str, before), *path, *words]
    done = subprocess.run(command, input=given, capture_output=True, text=True, env=tools.env, timeout=PATIENCE)
    tools.check.count("runs")
    return Answer(done.returncode, done.stdout, done.stderr)


def contents(folder: Path) -> Dict[str, bytes]:
    return {str(path.relative_to(folder)): path.read_bytes() for path in sorted(folder.rglob("*")) if path.is_file()}


def bound(tools: Tools, name: str, line: str, given: str = "") -> Answer:
    """Runs a command in the place, with the file `bound` over the one of this name."""
    return ran(tools, [*NAMESPACE, "sh", "-c", BOUND, tools.folder, name], line, given)


# Commands that change the file where it is, what they read, and what they print.
IN_PLACE = [(f"rrdi update f.rrdi {AT + 100}:10", "", ""), (f"rrdi-fix f.rrdi {AT + 50} 7.5", "", "; 5 later changes were sent again\n"),
            ("rrdi-feed", f"f.rrdi {AT + 110}:11 {AT + 120}:12\n", ""), ("rrdi batch f.rrdi", "revert\nlast\n", f"{AT + 110}\n"),
            ("rrdi-rrdtool tune f.rrdi --minimum g:0", "", ""), (f"rrdi create f.rrdi {DEFINITION}", "", "")]
READING = ["rrdi info f.rrdi", "rrdi-show --json f.rrdi", "rrdi-export f.rrdi", "python -m rrdi.reader csv f.rrdi",
           "rrdi-check f.rrdi g --stale 99999d"]


def test_changes_in_place(tools: Tools, check: Check) -> None:
    """Each change goes into the file that is bound, as it would go into a file of its own, and readers see it."""
    tools.env["PYTHONPATH"] = str(TOP / "python")
    place, plain = tools.folder / "place", tools.folder / "plain"
    shutil.copytree(place, plain)
    shutil.copy(place / "f.rrdi", tools.folder / "bound")
    (place / "f.rrdi").write_bytes(b"what is below")
    for line, given, printed in IN_PLACE:
        wanted = ran(tools, ["env", "-C", plain], line, given)
        found = bound(tools, "f.rrdi", line, given)
        check.same(found, wanted, f"{line}, of a bound file")
        check.same((found.status, found.out.endswith(printed), found.err), (0, True, ""), line)
        check.same((tools.folder / "bound").read_bytes(), (plain / "f.rrdi").read_bytes(), f"the file after {line}")
        for reading in READING if line == IN_PLACE[2][0] else READING[:1]:
            check.same(bound(tools, "f.rrdi", reading), ran(tools, ["env", "-C", plain], reading), f"{reading} after {line}")
    check.same(contents(place), {"f.rrdi": b"what is below"}, "the folder below")


# Commands that replace a file by rename: the file that is bound, and what is said.
BUSY = "Device or resource busy\n"
REPLACING = [("rrdi-import --in-place old.rrd", "old.rrd", 1, "rrdi-import: old.rrd: not converted: "),
             ("rrdi-export --in-place there.rrd", "there.rrd", 1, "rrdi-export: there.rrd: not converted: "),
             ("rrdi-plot --html . pages", "pages/index.html", 1, f"rrdi-plot: pages/index.html: {BUSY}"),
             ("rrdi-check f.rrdi g --stale 99999d --above 3 --changes state", "state", 2, "rrdi-check: state: the status is not kept")]


def test_replacements(tools: Tools, needs: Callable[..., None], check: Check) -> None:
    """Who cannot replace a file says so in a line, leaves it as it was, and leaves no other one."""
    needs("gnuplot")
    place = tools.folder / "place"
    shutil.copy(place / "f.rrdi", place / "there.rrd")
    assert ran(tools, ["env", "-C", place], "rrdi-export f.rrdi old.rrd").status == 0
    assert ran(tools, ["env", "-C", place], "rrdi-plot --html . pages --jobs 1").status == 0
    (place / "state").write_text("0\n")
    for line, name, status, said in REPLACING:
        shutil.copy(place / name, tools.folder / "bound")
        before, kept = contents(place), (tools.folder / "bound").read_bytes()
        answer = bound(tools, name, line)
        check.same((answer.status, said in answer.err, "Traceback" in answer.err), (status, True, False), f"{line}: {answer}")
        after = contents(place)
        if name.startswith("pages"):  # the other pages are new ones
            before, after = ({path: data for path, data in found.items() if not path.startswith("pages/f") and path != "pages/there.rrd.html"}
                             for found in (before, after))
        check.same({path: data[:200] for path, data in after.items()}, {path: data[:200] for path, data in before.items()},
                   f"the folder after {line}")
        check.same((tools.folder / "bound").read_bytes(), kept, f"the bound file after {line}")


def test_new_files(tools: Tools, check: Check) -> None:
    """A new file is made beside its name, also in a folder of another device than the folder above it."""
    place, script = tools.folder / "place", 'mount -t tmpfs none "$0/place/other" && cd "$0/place" && "$@" && cp other/* "$0/kept/"'
    (place / "other").mkdir()
    (tools.folder / "kept").mkdir()
    for line in ("rrdi-export f.rrdi other/new.rrd", f"rrdi create other/made.rrdi {DEFINITION}", "rrdi-record other/load.rrdi",
                 "rrdi-export --into other f.rrdi"):
        answer = ran(tools, [*NAMESPACE, "sh", "-c", script, tools.folder], line)
        check.same((answer.status, answer.err), (0, ""), f"{line}: {answer}")
    check.same(sorted(os.listdir(tools.folder / "kept")), ["f.rrd", "load.rrdi", "load.rrdi.1", "load.rrdi.lock", "made.rrdi", "new.rrd"],
               "the new files")
    check.same(sorted(os.listdir(place)), ["f.rrdi", "other"], "the folder")


# One process on an overlay: the reader, a file that stays open, and the program, before and after the first change.
ON_OVERLAY = """
import os, subprocess, sys
import rrdi
from rrdi import reader
at, program = int(sys.argv[1]), sys.argv[2]
def cells():
    return [row["cells"][0] for row in reader.read_file("f.rrdi")["archives"][0]["rows"] if row["cells"][0] is not None]
def run(*words):
    ran = subprocess.run([program, *words], capture_output=True, text=True)
    return ran.returncode, ran.stdout + ran.stderr
before = os.stat("f.rrdi").st_ino, len(cells())
with rrdi.Database("f.rrdi") as database:
    print(database.last() - at)
    for number in range(10, 14):
        database.update((at + 10 * number, number))
        assert len(cells()) == number, cells()
        assert run("last", "f.rrdi") == (0, f"{at + 10 * number}\\n")
    assert run("update", "f.rrdi", f"{at + 200}:1")[0] == 1
assert run("update", "f.rrdi", f"{at + 140}:14") == (0, "")
print(len(cells()), rrdi.last("f.rrdi") - at)
"""


def test_an_overlay(tools: Tools, library: Path, check: Check) -> None:
    """Readers and writers keep each other out, and see each other's changes, also beside the first change of a file."""
    tools.env.update(PYTHONPATH=str(TOP / "python"), RRDI_LIBRARY=str(library), RRDI_WAIT="0")
    for name in ("upper", "over"):
        (tools.folder / name).mkdir()
    before = contents(tools.folder / "place")
    done = subprocess.run([*NAMESPACE, "sh", "-c", OVERLAY, str(tools.folder), sys.executable, "-B", "-c", ON_OVERLAY, str(AT),
                           tools.program.path], capture_output=True, text=True, env=tools.env, timeout=PATIENCE)
    if "mount:" in done.stderr:
        pytest.skip(f"no overlay in a namespace: {done.stderr}")
    check.count("runs")
    check.same((done.returncode, done.stdout, done.stderr), (0, "90\n14 140\n", ""), "a file on an overlay")
    for line, given, _ in IN_PLACE:
        plain = tools.folder / "plain"
        shutil.rmtree(plain, ignore_errors=True)
        shutil.copytree(tools.folder / "place", plain)
        found = ran(tools, [*NAMESPACE, "sh", "-c", OVERLAY, tools.folder], line, given)
        check.same(found, ran(tools, ["env", "-C", plain], line, given), f"{line}, as the first change on an overlay")
    check.same(contents(tools.folder / "place"), before, "the folder below the overlay")
