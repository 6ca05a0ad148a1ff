# SPDX-License-Identifier: MIT OR Apache-2.0
"""The line after a fault says what was wrong, and a command that is misused is followed by its usage
(docs/commands.md)."""
from __future__ import annotations

import re
import time
from typing import Any, Sequence

import pytest

from support import layout
from support.program import error
from support.refusals import Row, rows, said
from support.runs import FILE, RUNS, Runs

LEAST = {RUNS: 245}
# What the program says of times, and of other words, that RRDtool takes.
TIMES = "rrdi-rrdtool --rrdi takes RRDtool's times"
TOOL = "or run rrdi-rrdtool --rrdi"
# Arguments that are not a command, what the program says of them, and the command whose usage follows; without one, the
# whole usage.
MISTAKES: list[tuple[list[Any], str, str]] = [
    ([], "", ""), (["--help"], "", ""), (["-h"], "", ""), (["-h", FILE], "", ""),
    (["create"], "FILE is missing", "create"), (["last"], "FILE is missing", "last"),
    (["batch", FILE, "last"], "'last' is a word too many; batch takes only FILE, and commands on standard input", "batch"),
    (["last", FILE, "more"], "'more' is a word too many; last takes none", "last"),
    (["last", FILE, "--help"], "", "last"), (["tune", FILE, "-h"], "", "tune"),
    (["fetch", FILE], "give a function: AVERAGE, MIN, MAX, LAST", "fetch"),
    (["fetch", "MAX"], "MAX is in the place of FILE, which comes first", "fetch"),
    (["-last", FILE], "there is no command -last; did you mean last?", "last"),
    (["--version"], "there is no command --version; rrdi --help prints the version too", ""),
    (["last", "-"], "- is in the place of FILE, which does not begin with a dash", "last"),
    (["update", "--template", "g", FILE], "--template is in the place of FILE, which does not begin with a dash",
     "update"),
    (["batch", "-x"], "-x is in the place of FILE, which does not begin with a dash", "batch"),
    (["nothing", FILE], "there is no command nothing", ""),
    (["lst", FILE], "there is no command lst; did you mean last?", "last"),
    (["upadte", FILE, "10:1"], "there is no command upadte; did you mean update?", "update"),
    (["batsh"], "there is no command batsh; did you mean batch?", "batch"),
    (["x" * 50, FILE], f"there is no command {'x' * 20}", ""),
    (["a\tb\x1b[1m", FILE], "there is no command a\\tb\\u{1b}[1m", ""), (["", FILE], "the name of the command is empty", ""),
    (["create", FILE, "--stpe", "5"], "there is no option --stpe; did you mean --step?", "create"),
    (["fetch", FILE, "LAST", "--strat=5"], "there is no option --strat; did you mean --start?", "fetch"),
    (["last", FILE, "--start", "5"], "there is no option --start; last takes none", "last"),
    (["info", FILE, "-x"], "there is no option -x; info takes none", "info"),
    (["update", FILE, "10:1", "-T", "g"], "there is no option -T; update takes --template", "update"),
    (["fetch", FILE, "LAST", "--start", "-1x"], f"--start has no value; '-1x' begins with a dash; {TIMES}", "fetch"),
    (["tune", FILE, "--minimum", "-5"], "--minimum has no value; '-5' begins with a dash", "tune"),
    (["graph", "a.png"], "there is no command graph; rrdi-graph draws with RRDtool's grapher, rrdi-plot with gnuplot", ""),
    (["dump", FILE],
     "there is no command dump; rrdi-export prints the XML of RRDtool, rrdi-show JSON, CSV or OpenMetrics", ""),
    (["import", "a.rrd", FILE], "there is no command import; run rrdi-import", ""),
    (["rrdinfo", FILE], "there is no command rrdinfo; did you mean info?", "info"),
    (["-"], "- is no command; rrdi-rrdtool - reads commands as RRDtool does, and rrdi batch its own", ""),
    (["fetch", FILE, "LAST", "-s"], "--start has no value", "fetch"),
    (["create", FILE, "--step", "10", "-s5"], "--step is given twice", "create"),
    ([b"last", b"\xff"], "an argument is not in UTF-8", ""),
    (["first", FILE, "--rraindex=0", "--", "-x"], "'-x' is a word too many; first takes only the option --rraindex", "first")]
# The first bytes of files of other programs, the names of the files, and the program that is named.
OTHERS = [(b"RRD\x000003", "old", "RRDtool"), (b"\0\0\0\1" + bytes(100), "old.wsp", "whisper"),
          (b"\0\0\0\1" + bytes(100), "old", ""),
          (b"\0\0\0\x09" + bytes(100), "old.wsp", ""), (b"RRD3", "old", "")]


def usage_of(text: str, command: str) -> str:
    """Returns the usage of a command, as the whole usage text has it; without a command all of it."""
    if not command:
        return text
    if command == "batch":
        return "usage: rrdi batch [FILE]\n"
    found = re.search(rf"^  ({command} .*\n(?:         .*\n)*)", text, re.MULTILINE)
    return f"usage: rrdi {found[1]}" if found else f"no usage of {command}"


def line(says: str) -> str:
    return f"rrdi: {says}\n" if says else ""


def ids(table: Sequence[tuple[Any, ...]]) -> list[str]:
    return [" ".join(map(str, row[0]))[:60] for row in table]


@pytest.mark.parametrize("words, says, command", MISTAKES, ids=ids(MISTAKES))
def test_misuse(t: Runs, words: list[Any], says: str, command: str) -> None:
    usage = t.told([]).err.partition("\n")[2]
    t.same(words, 2, error("usage") + line(says) + usage_of(usage, command))


def test_refusals(t: Runs) -> None:
    """Runs the table of refusals."""
    made: list[str] = []
    for row in rows():
        if row.has_clock:
            continue
        if row.create != made:
            t.run(["create", FILE, *row.create[1:]])
            made = row.create
        status, out, err = t.told([row.words[0], FILE, *row.words[1:]])
        t.check.same((status in (1, 2), out, said(err)), (True, "", row.says), " ".join(row.words)[:80])


def test_refused_lines(t: Runs) -> None:
    """Runs the rows of the table that a line may have as lines of one batch, with one that is accepted after each of them."""
    table = [row for row in rows() if not row.has_clock and is_line(row)]
    for create in {tuple(row.create): None for row in table}:
        of_one = [row for row in table if tuple(row.create) == create][:40]
        t.run(["create", FILE, *create[1:]])
        lines = "".join(f"{' '.join(row.words)}\nlast\n" for row in of_one)
        ran = t.told(["batch", FILE], lines, explains=True)
        says = "".join(f"rrdi: line {2 * at + 1}: {row.says}\n" for at, row in enumerate(of_one) if row.says)
        t.check.same((ran.status, ran.err), (1, says), "what is said of refused lines")
        t.check.same(ran.out.count("ERROR: "), len(of_one), "refused lines")


def is_line(row: Row) -> bool:
    """Checks whether the words are those of a line: without an empty word, and of printable ASCII."""
    return all(re.fullmatch("[!-~]+", word) for word in row.words)


def test_a_long_batch(t: Runs) -> None:
    """Of very many refused lines the first ones are explained."""
    t.run(["create", FILE, *"--step 10 --start 0 DS:a:GAUGE:100:U:U RRA:LAST:0.5:1:4".split()])
    ran = t.told(["batch", FILE], "update 10:1:2\n" * 5_000, explains=True)
    said = ran.err.splitlines()
    t.check.same((ran.status, ran.out.count("ERROR")), (1, 5_000), "refused lines")
    t.check.same(said, [f"rrdi: line {at}: sample 1 has 2 values, 1 is wanted: a" for at in range(1, len(said) + 1)],
                 "explained lines")
    t.check.same(50 < len(said) < 500, True, f"{len(said)} explained lines")


@pytest.mark.parametrize("words, before", [(["-s", "now"], 0), (["-s-1h"], 3_600), (["-e", "now-5m"], 300),
                                           (["-s", "-1d"], 86_400), (["--end", "-2w"], 1_209_600)])
def test_times_of_rrdtool(t: Runs, words: list[str], before: int) -> None:
    """Checks that the seconds to write are named for times that RRDtool takes."""
    _, _, err = t.told(["fetch", FILE, "LAST", *words])
    found = re.search(rf"; write (\d+), {TOOL}$", err, re.MULTILINE)
    t.check.same(found is not None and abs(time.time() - before - int(found[1])) < 60, True, err)


@pytest.mark.parametrize("held, name, other", OTHERS, ids=range(len(OTHERS)))
def test_files_of_other_programs(t: Runs, held: bytes, name: str, other: str) -> None:
    t.put(held, name)
    says = f"{name} is a file of {other}; rrdi-import converts it" if other else ""
    for words in (["last", name], ["update", name, "10:1"], ["batch", name]):
        t.run(words, 1, err=error("file: not ours") + line(says))
    t.check.same(t.held(name), held, f"the file {name} afterwards")


def test_advice_on_other_files(t: Runs) -> None:
    """Checks what the line after a fault says of files with many sources and archives, of version 1, and ahead of the
    clock."""
    names = ["traffic", *(f"s{number}" for number in range(1, 9))]
    t.run(["create", FILE, "--start", "0", *(f"DS:{name}:DERIVE:100:U:U" for name in names), "RRA:MAX:0:1:4",
           "RRA:AVERAGE:0:2:4", "RRA:MAX:0:2:5"])
    t.same(["update", FILE, "10:1"], 1, error("wrong number of values")
           + f"rrdi: sample 1 has 1 value, 9 are wanted: {', '.join(names[:8])}, ..\n")
    t.same(["update", FILE, "-t", "s1:trafic", "10:1"], 1, error("no such data source")
           + "rrdi: there is no data source trafic; did you mean traffic?\n")
    t.same(["update", FILE, "-t", "s8", "10:0.5"], 1, error("bad value") + (
        "rrdi: value 1 of sample 1 is 0.5; s8 is of type DERIVE, which takes whole numbers without a point from -2^63 "
        "to 2^63 - 1\n"))
    t.same(["first", FILE, "--rraindex", "3"], 1, error("no such archive") + "rrdi: the file has 3 archives, 0 to 2\n")
    t.same(["fetch", FILE, "MIN"], 1, error("no archive for this function") + "rrdi: the archives have AVERAGE, MAX\n")
    t.same(["resize", FILE, "2", "SHRINK", "5"], 1, error("shrinks too far")
           + "rrdi: archive 2 has 5 rows, of which one has to be left\n")
    t.put(layout.heads(1, ["g"], [4]) + 4 * layout.UNKNOWN)
    t.same(["update", FILE, "10:1:2"], 1, error("wrong number of values")
           + "rrdi: sample 1 has 2 values, 1 is wanted: g\n")
    t.same(["resize", FILE, "1", "GROW", "5"], 1, error("no such archive") + "rrdi: the file has one archive, 0\n")
    last = int(time.time()) + 3_600
    t.run(["create", FILE, "--start", str(last), "DS:a:GAUGE:60:U:U", "RRA:LAST:0.5:1:4"])
    status, out, err = t.told(["update", FILE, "N:1"])
    says = (f"rrdi: {last} is 3600 seconds ahead of the clock; if a sample has this wrong time, "
            "rrdi revert takes it back\n")
    told = status, out, re.sub(r" 3[56]\d\d seconds", " 3600 seconds", err)
    t.check.same(told, (1, "", error(f"not later than {last}") + says), "a sample before the last one")
