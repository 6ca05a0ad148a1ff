# SPDX-License-Identifier: MIT OR Apache-2.0
"""Files on the way from RRDtool to rrdi and back, and RRDtool's own lines and times, beside rrdtool."""
from __future__ import annotations

import math
import re
import time
from pathlib import Path
from typing import Callable, Iterator, NamedTuple

import pytest

from support.check import Check
from support.program import TOP, Program
from support.tools import Tools, build_preload

HERE = Path(__file__).resolve().parent
WORDS = str(TOP / "examples/rrdtool-words")
LEAST = {"files there and back": 11, "lines of RRDtool": 40, "times": 92, "commands": 90}


@pytest.fixture
def tools(program: Program, needs: Callable[..., None], folder: Path, check: Check) -> Tools:
    needs("rrdtool")
    return Tools(program, folder, check)


# ---- there and back


class File(NamedTuple):
    """A file of RRDtool, and what comes of it in rrdi."""
    definitions: str
    samples: list[str]
    # The line of rrdi-compare. Or, for a file of which not every row can be moved, the number of the lines of averages,
    # minimums and maximums that agree.
    agreement: str = "agree"
    agreeing: int = 0
    # What rrdi-import says; its status is then 1.
    notes: tuple[str, ...] = ()
    options: str = ""
    # Checks whether the way back brings the same rows as the file in rrdi.
    is_whole: bool = False


GAUGE, SOURCES = "DS:g:GAUGE:60:U:U", " ".join(f"DS:s{number}:GAUGE:60:U:U" for number in range(64))
THREE = "RRA:AVERAGE:0.5:{0} RRA:MIN:0.5:{0} RRA:MAX:0.5:{0}"
NO_COMPUTE = "skipped data source double: type COMPUTE is not supported"
NO_PREDICTION = "HWPREDICT: this function is not supported"


def of_all_kinds() -> File:
    """Returns a file of all types and functions, without unknown steps, which is moved completely."""
    samples, at, counter, derive = [], 1600000003, 0, 100000
    while at < 1600010000:
        counter, derive = counter + at % 997, derive + at % 89 - 44
        samples.append(f"{at}:{40 * math.sin(at / 70):.3f}:{counter}:{derive}:{at % 1009}:1")
        at += 7 + at % 5
    archives = " ".join(f"RRA:{function}:{share}:{steps}:{rows}" for share, steps, rows in ((0.5, 6, 60), (0.3, 24, 30))
                        for function in ("AVERAGE", "MIN", "MAX", "LAST"))
    return File("--step 10 --start 1600000000 DS:gauge:GAUGE:60:-50:U DS:counter:COUNTER:60:0:U DS:derive:DERIVE:60:U:U"
                " DS:absolute:ABSOLUTE:60:0:1000 DS:a-b:GAUGE:60:U:U DS:double:COMPUTE:gauge,2,* RRA:AVERAGE:0.5:1:50 "
                f"{archives} RRA:HWPREDICT:100:0.1:0.1:10", samples, "LAST 240 s: 120 cells, 120 agree",
                notes=("skipped data source a-b", NO_COMPUTE, f"skipped archive 9, {NO_PREDICTION}"),
                options="--journal 3", is_whole=True)


def with_holes(step: int) -> File:
    """Returns a file with outages, rates outside their bounds, negative numbers, and a last update inside a step. As
    far as the archive of one step reaches, all averages, minimums and maximums agree."""
    samples, at, counter = [], 0, 0.0
    for number in range(1, 500):
        at += step * (9 if number % 61 == 0 else 1) + (step > 1) * (number % 4)
        counter += at % 97 * step / 3
        derive, last = 1000 * math.sin(number / 20), "U" if number % 37 == 0 else at % 1009
        samples.append(f"{1600000007 + at}:{40 * math.sin(number / 9):.6f}:{counter:.0f}:{derive:.0f}:{last}")
    beat, six = 3 * step, " ".join(f"RRA:{function}:0.5:6:120" for function in ("AVERAGE", "MIN", "MAX", "LAST"))
    return File(f"--step {step} --start 1600000000 DS:gauge:GAUGE:{beat}:-30:U DS:counter:COUNTER:{beat}:0:40 "
                f"DS:derive:DERIVE:{beat}:U:U DS:nineteen_characters:ABSOLUTE:{beat}:0:900 DS:double:COMPUTE:gauge,2,* "
                f"RRA:AVERAGE:0.5:1:700 RRA:LAST:0.5:1:700 {six} RRA:AVERAGE:0.2:24:30 RRA:MIN:0.2:24:30 "
                "RRA:MAX:0.2:24:30 RRA:HWPREDICT:100:0.1:0.1:10", samples, agreeing=7,
                notes=(NO_COMPUTE, NO_PREDICTION), is_whole=step == 1)


def with_outages() -> File:
    """Returns a file without an archive of single steps: its averages show outages within rows, over the end of a row,
    and with unknown rows."""
    outages = ((700, 730), (1450, 1500), (2000, 2160), (2810, 2960))
    samples = [f"{at}:{50 * math.sin(at / 200):.3f}:{at % 97:.2f}" for at in range(1600000030, 1600004300, 10)
               if not any(begin < at - 1600000000 < end for begin, end in outages)]
    return File(f"--step 10 --start 1600000020 DS:g:GAUGE:15:U:U DS:h:GAUGE:15:U:U {THREE.format('6:100')} "
                f"{THREE.format('60:10')}", samples, "AVERAGE 600 s: 20 cells, 20 agree")


def with_a_share() -> File:
    """Returns a file in which as many steps of a row are unknown as RRDtool allows: 28 of 100 for a share of 0.29."""
    samples = [f"{1600000000 + at}:{'U' if at % 100 < 29 - at / 200 else at % 7}" for at in range(1, 301)]
    return File("--step 1 --start 1600000000 DS:g:GAUGE:9:U:U RRA:AVERAGE:0.29:100:3 RRA:AVERAGE:0.5:1:400", samples,
                "AVERAGE 100 s: 3 cells, 3 agree")


FILES = {
    "all kinds": of_all_kinds(), "holes 1": with_holes(1), "holes 60": with_holes(60), "holes 300": with_holes(300),
    "64 sources": File(f"--step 10 --start 1600000000 {SOURCES} RRA:AVERAGE:0.5:1:5", []),
    "minimums alone": File(f"--step 10 --start 1600000000 {GAUGE} RRA:MIN:0.5:6:20",
                           ["1600000010:-1.5", "1600000060:2.25", "1600000130:1", "1600000165:-7"],
                           "MIN 60 s: 20 cells, 20 agree", is_whole=True),
    "a share": with_a_share(), "outages": with_outages(),
    "no sample": File(f"--step 10 --start 1600000000 {GAUGE} RRA:AVERAGE:0.5:1:50", [], is_whole=True),
    # Bursts among zeros, whose averages lose digits; and two finer archives that begin inside one coarse row.
    "bursts": File(f"--step 10 --start 1700000010 DS:g:GAUGE:20:U:U {THREE.format('1:6')} {THREE.format('3:20')}",
                   [f"{1700000010 + number * 10}:{894976 if number % 3 == 1 else 0}" for number in range(1, 61)]),
    "nested archives": File("--step 10 --start 1699999920 DS:g:GAUGE:20:U:U RRA:AVERAGE:0.5:1:7 RRA:AVERAGE:0.5:3:10 "
                            "RRA:AVERAGE:0.5:36:22",
                            [f"{at}:{5 if at % 20 else 10}" for at in range(1699999930, 1700007870, 10)])}


def create(tools: Tools, file: File) -> None:
    samples = (" ".join(file.samples[at:at + 100]) for at in range(0, len(file.samples), 100))
    tools.rrdtool(f"create old.rrd {file.definitions}", *(f"update old.rrd {some}" for some in samples))


def agree(tools: Tools, file: File, old: str) -> None:
    """Checks that the rows of a file of RRDtool are those of new.rrdi."""
    if not file.agreeing:
        tools.expect(0, file.agreement, "rrdi-compare", old, "new.rrdi")
        return
    said = tools.run("rrdi-compare", old, "new.rrdi").out
    found = re.findall(r"^(?:AVERAGE|MIN|MAX) \d+ s: ([1-9]\d*) cells, \1 agree$", said, re.MULTILINE)
    tools.check.same(len(found), file.agreeing, f"the archives that agree: {said}")


def rows(tools: Tools, file: str) -> list[object]:
    return [tools.run("rrdi", "fetch", file, function, "-s", 1600000000, "-e", 1600005000)
            for function in ("AVERAGE", "MIN", "MAX", "LAST")]


@pytest.mark.parametrize("name", FILES)
def test_there_and_back(name: str, tools: Tools, check: Check) -> None:
    """A file of RRDtool is moved to rrdi and back. On the way there the tools pass over a link with rrdtool's name to
    rrdi's own."""
    file, usual = FILES[name], tools.env["PATH"]
    create(tools, file)
    (tools.folder / "bin").mkdir()
    (tools.folder / "bin/rrdtool").symlink_to(WORDS)
    tools.env["PATH"] = f"{tools.folder}/bin:{usual}"
    for note in file.notes or ("",):
        batch = tools.expect(int(bool(file.notes)), note, "rrdi-import", *file.options.split(), "old.rrd")
    check.same(tools.run("rrdi", "batch", "new.rrdi", given=batch), (0, "", ""), "the batch")
    if file.options:
        shown = re.findall(r"--journal 3 |counter:COUNTER\n|absolute:ABSOLUTE\n", batch)
        check.same(len(shown), 3, f"the journal, and types that are set at the end: {batch}")
    agree(tools, file, "old.rrd")
    tools.env["PATH"] = usual
    xml = tools.expect(0, "<rrd>", "rrdi-export", "new.rrdi")
    tools.expect(0, "", "rrdtool", "restore", "/dev/stdin", "back.rrd", given=xml)
    tools.expect(0, "agree", "rrdi-compare", "back.rrd", "new.rrdi")
    if file.is_whole:
        back = tools.run("rrdi-import", "back.rrd").out
        check.same(tools.run("rrdi", "batch", "back.rrdi", given=back), (0, "", ""), "the batch of the way back")
        check.same(rows(tools, "back.rrdi"), rows(tools, "new.rrdi"), "the rows after the way there and back")
    check.count("files there and back")


def test_all_digits_of_a_number(tools: Tools) -> None:
    tools.expect(0, "", "rrdi", "create", "new.rrdi", "--step", 10, "--start", 1700000000, GAUGE, "RRA:AVERAGE:0.5:1:2")
    tools.expect(0, "", "rrdi", "update", "new.rrdi", "1700000010:123456789012.345678", "1700000020:-0.000001")
    xml = tools.expect(0, "<row><v>123456789012.345678</v></row>", "rrdi-export", "new.rrdi")
    tools.expect(0, "", "rrdtool", "restore", "/dev/stdin", "back.rrd", given=xml)
    tools.expect(0, "agree", "rrdi-compare", "back.rrd", "new.rrdi")


def test_what_cannot_be_moved(tools: Tools) -> None:
    tools.rrdtool(f"create more.rrd --step 10 --start 1600000000 {SOURCES} {GAUGE} RRA:AVERAGE:0.5:1:5")
    tools.expect(1, "more.rrd: there are 65 sources; rrdi has at most 64", "rrdi-import", "more.rrd")
    tools.expect(1, "rrdi-import: ERROR: ", "rrdi-import", "missing.rrd")
    tools.expect(2, "usage: rrdi-import", "rrdi-import")
    tools.expect(2, "usage: rrdi-import", "rrdi-import", "--journal", "x", "more.rrd")
    tools.expect(1, "rrdi-compare: rrdtool does not read", "rrdi-compare", "missing.rrd", "new.rrdi")
    tools.expect(2, "usage: rrdi-compare", "rrdi-compare", "more.rrd")
    tools.expect(1, "rrdi-export: more.rrd: file: not ours", "rrdi-export", "more.rrd")
    tools.expect(1, "rrdi-export: none.rrdi: No such file", "rrdi-export", "none.rrdi")
    tools.expect(2, "usage: rrdi-export", "rrdi-export")


# ---- RRDtool's syntax


def test_lines_of_rrdtool(tools: Tools, check: Check) -> None:
    """The same lines print the same by both, and leave the same rows."""
    script, printed = HERE / "rrdtool-lines", {}
    for name, by in (("old", "rrdtool"), ("new", WORDS)):
        (tools.folder / name).mkdir()
        printed[name] = tools.run("sh", "-c", f'cd {name} && . "{script}"', RRDTOOL=by)
    check.same(printed["new"], printed["old"], "the output of the lines")
    check.count("lines of RRDtool", len(re.findall(r"^\$RRDTOOL", script.read_text(), re.MULTILINE)))
    files = sorted((tools.folder / "old").glob("*.rrd"))
    check.same([file.stem for file in files], ["df", "load", "requests", "temp", "test", "traffic"], "the files")
    for file in files:
        tools.expect(0, "agree", "rrdi-compare", f"old/{file.name}", f"new/{file.name}")


def times() -> Iterator[tuple[str, str]]:
    for line in (HERE / "rrdtool-times").read_text().splitlines():
        start, _, end = line.partition("|")
        yield start, end


def test_times_of_rrdtool(tools: Tools, needs: Callable[..., None], check: Check) -> None:
    """Both read a start and an end as the same seconds. Their clock stands still."""
    needs("cc")
    clock, now = build_preload("clock.c", tools.folder / "clock.so"), int(time.time())
    tools.env.update(LD_PRELOAD=str(clock), CLOCK=str(now), TZ="Europe/Berlin")
    tools.rrdtool("create times.rrd --step 1 --start 1600000000 DS:g:GAUGE:100:U:U RRA:AVERAGE:0.5:1:10")
    for start, end in times():
        words = ("fetch", "times.rrd", "AVERAGE", "-s", start, "-e", end)
        rows = [int(row) - 1 for row in re.findall(r"(?m)^ *(\d+):", tools.run("rrdtool", *words).out)]
        shown = tools.run("rrdi-rrdtool", "--show", *words)
        check.count("times")
        told = re.search(r" --start (\d+) --end (\d+)$", shown.out.strip())
        check.same(told and [int(told[1]), int(told[2])], [rows[0], rows[-1]] if rows else None,
                   f"at {now}, from {start} to {end}: {shown}")


def test_refused_lines(tools: Tools) -> None:
    tools.expect(2, "usage: rrdi-rrdtool", WORDS)
    tools.expect(0, "", "rrdi", "create", "load.rrd", "--start", 1704068100, GAUGE, "RRA:AVERAGE:0.5:1:10")
    tools.expect(1, "ERROR: not later than 1704068100", WORDS, "update", "load.rrd", "20240101@1")


def test_an_added_archive(tools: Tools, check: Check) -> None:
    """RRDtool fills an added archive from one of its function or of AVERAGE. In rrdi it has no known row from before, as
    the manual says."""
    for name, old, known in (("rrdtool", "AVERAGE", 3), ("rrdtool", "LAST", 1), ("rrdi", "AVERAGE", 1)):
        file = f"{old}.{name}"
        changes = [f"create a --step 10 --start 1000000020 DS:g:GAUGE:100:U:U RRA:{old}:0.5:2:20",
                   *(f"update a 10000000{at}:{at}" for at in (30, 40, 50, 60)), "tune a RRA:MAX:0.5:2:8",
                   "update a 1000000080:80"]
        for change in changes:
            tools.expect(0, "", name, *change.replace(" a ", f" {file} ").split())
        said = tools.expect(0, "", name, *f"fetch {file} MAX -r 20 -s 1000000020 -e 1000000079".split())
        check.same(len(re.findall(r": \d", said)), known, f"{name}: the known rows of MAX, added to {old}")
