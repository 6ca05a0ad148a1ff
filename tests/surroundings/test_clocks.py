# SPDX-License-Identifier: MIT OR Apache-2.0
"""Times that the tools take and print where clocks are changed: by an hour, by half an hour, at midnight, over a whole day, and
without a summer time. What is right is said by Python's zoneinfo, and by RRDtool for its own times."""
from __future__ import annotations

import datetime
import json
import re
import subprocess
import sys
from pathlib import Path
from typing import Any, Callable, Iterator, List, NamedTuple
from zoneinfo import ZoneInfo

import pytest

from support.check import Check
from support.program import PATIENCE, Program, environment
from support.tools import Tools, build_preload

HOUR, DAY = 3_600, 86_400
# The days on which clocks are changed, or the day before: forwards and backwards.
CHANGES = {
    "Europe/Berlin": ("2023-03-26", "2023-10-29"), "America/New_York": ("2023-03-12", "2023-11-05"),
    "Europe/Dublin": ("2023-03-26", "2023-10-29"),  # whose winter time is the special one
    "Australia/Lord_Howe": ("2023-10-01", "2024-04-07"),  # by half an hour
    "America/Sao_Paulo": ("2018-11-04", "2018-02-17"),  # at midnight
    "Pacific/Apia": ("2011-12-29", "2012-04-01"),  # the 30th of December is missing
    "America/Caracas": ("2016-05-01", "2007-12-09")}  # without a summer time
AROUND = (-2 * DAY, -DAY, -2 * HOUR, -HOUR - 1, -HOUR, -HOUR // 2, -1, 0, 1, 900, HOUR // 2, HOUR - 1, HOUR, HOUR + 1, 2 * HOUR, DAY,
          2 * DAY)
LENGTHS = (600, HOUR, 5 * HOUR, 11 * HOUR, DAY, 3 * DAY, 6 * DAY, 20 * DAY, 60 * DAY, 200 * DAY, 800 * DAY)  # of pictures
LEAST = {"times": 1_000, "labels": 3_000, "tools": 42}


class Change(NamedTuple):
    """A change of clocks: its zone, the first second of the new time, and by how much clocks go forward."""

    zone: ZoneInfo
    at: int
    by: int

    def local(self, seconds: int) -> datetime.datetime:
        return datetime.datetime.fromtimestamp(seconds, self.zone)

    def text(self, seconds: int) -> str:
        return self.local(seconds).strftime("%Y-%m-%d %H:%M:%S")

    def names(self, *times: int) -> str:
        """Returns the names of the zone at some times, each name once."""
        return "/".join(dict.fromkeys(self.local(seconds).tzname() or "" for seconds in times))

    def meant(self, text: str) -> list[int]:
        """Returns the times that a text means: two in an hour that comes twice, none in one that is left out."""
        naive = datetime.datetime.fromisoformat(text)
        both = {int(naive.replace(tzinfo=self.zone, fold=fold).timestamp()) for fold in (0, 1)}
        return sorted(seconds for seconds in both if self.text(seconds) == text)

    def left_out(self) -> list[str]:
        """Returns texts of times that are left out, and none if clocks are set back."""
        before = datetime.datetime.fromisoformat(self.text(self.at - 1))
        return [str(before + datetime.timedelta(seconds=by)) for by in range(1, self.by + 1, 900)]


def changes(name: str) -> Iterator[Change]:
    zone = ZoneInfo(name)

    def offset(seconds: int) -> int:
        found = datetime.datetime.fromtimestamp(seconds, zone).utcoffset()
        assert found is not None
        return int(found.total_seconds())
    for day in CHANGES[name]:
        begin = int(datetime.datetime.fromisoformat(f"{day} 00:00+00:00").timestamp()) - DAY
        at = next(at for at in range(begin, begin + 4 * DAY, 900) if offset(at) != offset(at - 1))
        yield Change(zone, at, offset(at) - offset(at - 1))


def asked(name: str, **questions: List[Any]) -> dict[str, list[Any]]:
    """Asks the tools' functions in a process of this zone."""
    whole = {**dict.fromkeys(("texts", "zones", "typed", "spans", "labels"), []), **questions}
    ran = subprocess.run([sys.executable, "-B", Path(__file__).with_name("zones.py")], input=json.dumps(whole), text=True,
                         capture_output=True, timeout=PATIENCE, env=environment({"TZ": name}))
    assert ran.returncode == 0, ran.stderr
    found: dict[str, list[Any]] = json.loads(ran.stdout)
    return found


def test_the_changes() -> None:
    """The zones are those that the other tests mean."""
    by = {name: [change.by for change in changes(name)] for name in CHANGES}
    assert by == {"Europe/Berlin": [HOUR, -HOUR], "America/New_York": [HOUR, -HOUR], "Europe/Dublin": [HOUR, -HOUR],
                  "Australia/Lord_Howe": [HOUR // 2, -HOUR // 2], "America/Sao_Paulo": [HOUR, -HOUR],
                  "Pacific/Apia": [DAY, -HOUR], "America/Caracas": [HOUR // 2, -HOUR // 2]}


@pytest.mark.parametrize("name", CHANGES)
def test_times(name: str, check: Check) -> None:
    """Times are printed as zoneinfo has them, and read back: of a time that comes twice rrdi-fix means both, and rrdi-show the
    first as a start and the second as an end; one that is left out is refused."""
    for change in changes(name):
        times = [change.at + by for by in AROUND]
        spans = [(first, second) for first, second in zip(times, times[1:])]
        typed, gone = [change.text(at) for at in times], change.left_out()
        assert bool(gone) == (change.by > 0)
        found = asked(name, texts=times, zones=spans, typed=[*typed, *gone])
        check.count("times", len(times) * 4 + len(gone))
        check.same(found["texts"], typed, f"{name}: printed times")
        check.same(found["zones"], [change.names(*span) for span in spans], f"{name}: names of the zone")
        check.same(found["fixed"], [*map(change.meant, typed), *([None] * len(gone))], f"{name}: times for rrdi-fix")
        for what, at in (("shown", 0), ("ended", -1)):
            check.same(found[what], [*(change.meant(text)[at] for text in typed), *([None] * len(gone))], f"{name}: times for rrdi-show, {what}")


def test_a_day_without_midnight(check: Check) -> None:
    """A date alone is the beginning of its day, which may be an hour after midnight; a day that is left out is none."""
    check.count("times", 2)
    check.same(asked("America/Sao_Paulo", typed=["2018-11-04"])["shown"], [1_541_300_400], "the first second of a day")
    check.same(asked("Pacific/Apia", typed=["2011-12-30"])["shown"], [None], "a missing day")


# ---- labels of a picture


def expected_labels(change: Change, begin: int, end: int, distance: int) -> set[int]:
    """Returns the times of a picture at which the clock shows a multiple of a distance of less than a day."""
    first = begin - begin % 60 if distance >= 60 else begin
    found = set()
    for at in range(first, end + 1, 60 if distance >= 60 else 1):
        local = change.local(at)
        if at >= begin and (local.hour * HOUR + local.minute * 60 + local.second) % distance == 0:
            found.add(at)
    return found


def label_text(change: Change, at: int, before: str, length: int) -> tuple[str, str]:
    """Returns the text of a label and its day; `before` is the day of the label before it."""
    local = change.local(at)
    day = local.strftime("%d %b")
    return (local.strftime("%H:%M") if day == before else f"{local.strftime('%H:%M')}\\n{day}"), day


def check_labels(change: Change, begin: int, end: int, found: list[tuple[str, int]], check: Check) -> None:
    what = f"{change.zone}: labels from {change.text(begin)} to {change.text(end)}: {found}"
    times = [at for _, at in found]
    check.count("labels", max(len(found), 1))
    check(times == sorted(set(times)) and all(begin <= at <= end for at in times), f"{what}: not in order")
    check(len(found) <= 8, f"{what}: too many")
    locals_ = [change.local(at) for at in times]
    if end - begin <= 5 * DAY and len(found) > 1 and any(local.hour or local.minute for local in locals_):
        distance = min(second - first for first, second in zip(times, times[1:]))
        day = ""
        for text, at in found:
            wanted, day = label_text(change, at, day, distance)
            check(text == wanted, f"{what}: {text!r}, not {wanted!r}")
    elif end - begin > 6 * DAY:
        check(all((local.hour, local.minute, local.second) == (0, 0, 0) for local in locals_), f"{what}: no midnights")
        texts = [local.strftime("%b\\n%Y" if local.day == 1 and "\\n" in text and text[:1].isalpha() else "%d %b\\n%Y")
                 for (text, _), local in zip(found, locals_)]
        check([text for text, _ in found] == texts, f"{what}: other texts than {texts}")


@pytest.mark.parametrize("name", CHANGES)
def test_labels(name: str, check: Check) -> None:
    """Labels of a picture stand at round local times, each once, in whatever part of the picture clocks are changed."""
    for change in changes(name):
        asked_for = [(change.at - length * part // 4 + 17, change.at - length * part // 4 + 17 + length, width)
                     for length in LENGTHS for part in range(5) for width in (900, 300)]
        for (begin, end, _), found in zip(asked_for, asked(name, labels=asked_for)["labels"]):
            check_labels(change, begin, end, [(text, at) for text, at in found], check)


@pytest.mark.parametrize("name", CHANGES)
def test_no_label_is_missing(name: str, check: Check) -> None:
    """In a picture of some hours around a change each round time has its label, also the one that comes twice."""
    for change in changes(name):
        for length, distance in ((5 * HOUR, HOUR), (HOUR, 600), (11 * HOUR, 2 * HOUR), (30 * HOUR, 6 * HOUR)):
            begin = change.at - length // 2 + 7
            found, = asked(name, labels=[(begin, begin + length, 900)])["labels"]
            check.count("labels", len(found))
            check.same([at for _, at in found], sorted(expected_labels(change, begin, begin + length, distance)),
                       f"{name}: labels every {distance} s of {length} s from {change.text(begin)}")


# ---- the tools themselves


@pytest.fixture
def tools(program: Program, folder: Path, check: Check) -> Tools:
    return Tools(program, folder, check)


@pytest.mark.parametrize("name", CHANGES)
def test_tools(name: str, tools: Tools, check: Check, needs: Callable[..., None]) -> None:
    """What rrdi-show, rrdi-check, rrdi-fix and rrdi-plot print and take of a file with rows around a change."""
    needs("cc")
    clock = build_preload("clock.c", tools.folder / "clock.so")
    for number, change in enumerate(changes(name)):
        file, tools.env["TZ"] = f"{number}.rrdi", name
        first = change.at - change.at % 900 - 2 * HOUR
        times = list(range(first + 900, first + 4 * HOUR + 1, 900))
        tools.expect(0, "", "rrdi", "create", file, "--step", 900, "--start", first, "--journal", 20, "DS:g:GAUGE:1800:U:U",
                     "RRA:LAST:0.5:1:100")
        assert tools.run("rrdi", "batch", file, given="".join(f"update {at}:{at}\n" for at in times)).status == 0
        shown = tools.expect(0, f"its time, {change.names(*times)}\n", "rrdi-show", file, "LAST", "-s", f"@{first}").splitlines()[2:]
        check.same([line[:19] for line in shown], [change.text(at) for at in times], f"{name}: the times of rows")
        tools.expect(0, f"last update {change.text(times[-1])} {change.names(times[-1])}, ", "rrdi-show", file)
        journal = tools.expect(0, f"1  update    {change.text(times[-2])} -> {change.text(times[-1])}\n", "rrdi-show", "--journal", file)
        check.same(journal.count(" -> 20"), len(times), f"{name}: changes in the journal")
        tools.expect(0, f"at {change.text(times[-1])} | g=", "rrdi-check", file, "g", LD_PRELOAD=str(clock), CLOCK=str(times[-1]))
        check_start(tools, change, file, times, check)
        check_fix(tools, change, file, times)
        check.count("tools", 5)


def check_start(tools: Tools, change: Change, file: str, times: list[int], check: Check) -> None:
    """A start and an end as they are printed mean the row of that time; one that comes twice, one of them."""
    for at in times[2:-2:3]:
        text = change.text(at)
        found = json.loads(tools.expect(0, "", "rrdi-show", file, "LAST", "--json", "-s", text, "-e", f"@{times[-1]}"))
        begin = found["rows"][0]["time"] - 900
        check.same(begin in change.meant(text), True, f"{change.zone}: rows after {text} begin at {begin}")


def check_fix(tools: Tools, change: Change, file: str, times: list[int]) -> None:
    """A sample is found by its time as it is printed; if two have it, both are named."""
    for at in (times[3], times[-4], change.at - change.at % 900):
        meant = [time for time in change.meant(change.text(at)) if time in times]
        if len(meant) > 1:
            tools.expect(1, f"give {meant[0]} or {meant[1]}", "rrdi-fix", file, change.text(at), 5)
        else:
            tools.expect(0, f"({change.text(at)}) is now {at}:5", "rrdi-fix", file, change.text(at), 5)
    for text in change.left_out()[:1]:
        tools.expect(2, f"there is no time {text!r}", "rrdi-fix", file, text, 5)


# ---- RRDtool's times

# A start and an end, beside a change at the time {at}. (Where no summer time tells two times from one another that the clock
# shows twice, as in Caracas, RRDtool takes the one that is nearer to what it has read before.)
TIMES = ("-1d|now", "-24h|now", "-1w|now", "-1h|now", "midnight|now", "noon yesterday|now", "midnight yesterday|start+1d", "now|start+1d",
         "{at}|start+1d", "{before}|start+1d", "end-1d|{after}", "end-1h|{after}", "{after}-1d|{after}", "{before}|start+1w",
         "{at}-1h|{at}+1h", "end-1mon|{after}", "noon|start+1h")


@pytest.mark.parametrize("name", CHANGES)
def test_times_of_rrdtool(name: str, tools: Tools, needs: Callable[..., None], check: Check) -> None:
    """RRDtool and rrdi read a start and an end as the same seconds, before and after each change."""
    needs("cc", "rrdtool")
    clock = build_preload("clock.c", tools.folder / "clock.so")
    tools.rrdtool("create half.rrd --step 1800 --start 900000000 DS:g:GAUGE:3600:U:U RRA:AVERAGE:0.5:1:10")
    questions, theirs = [], []
    for change in changes(name):
        for now in (change.at - 7 * HOUR, change.at - 1, change.at + HOUR * 3, change.at + DAY + HOUR):
            filled = [line.format(at=change.at, before=change.at - 5 * HOUR, after=change.at + 30 * HOUR) for line in TIMES]
            pairs = [line.split("|") for line in filled if name != "America/Caracas" or str(change.at) not in line]
            told = tools.run("rrdtool", "-", given="".join(f"fetch half.rrd AVERAGE -s '{start}' -e '{end}'\n" for start, end in pairs),
                             LD_PRELOAD=str(clock), CLOCK=str(now), TZ=name)
            theirs += [rows_of(answer) for answer in re.split("(?m)^(?:OK|ERROR:) .*\n", told.out)[:-1]]
            questions += [[start, end, now] for start, end in pairs]
    found = asked(name, spans=questions)["spans"]
    check.same(len(theirs), len(questions), f"{name}: answers of rrdtool")
    for question, ours, wanted in zip(questions, found, theirs):
        check.count("times")
        got = ours and [seconds - seconds % 1_800 + 1_800 for seconds in ours]
        check.same(got, wanted, f"{name}: {question}, which means {ours}")


def rows_of(answer: str) -> "list[int] | None":
    """Returns the first and the last time of rows that rrdtool fetched; None if it refused."""
    times = [int(line.split(":")[0]) for line in answer.splitlines() if line.partition(":")[0].strip().isdigit()]
    return [times[0], times[-1]] if times else None


def test_wrong_times(planted: Check) -> None:
    """The checks reject labels and times that are wrong."""
    change, = (change for change in changes("Europe/Berlin") if change.by > 0)
    noon = change.at + 11 * HOUR
    for begin, end, found in ((noon - HOUR, noon, [("12:00", noon - 60), ("12:00", noon - 60)]), (noon - HOUR, noon, [("12:00", noon + 1)]),
                              (noon, noon + 9 * HOUR, [("12", noon + HOUR * by) for by in range(9)]),
                              (noon, noon + 2 * HOUR, [("12:00", noon), ("14:00\\n26 Mar", noon + HOUR)]),
                              (noon - 20 * DAY, noon, [("26 Mar\\n2023", noon - HOUR)]),
                              (noon - 20 * DAY, noon, [("27 Mar\\n2023", noon - 13 * HOUR)])):
        before = len(planted.faults)
        check_labels(change, begin, end, found, planted)
        assert len(planted.faults) > before, found
