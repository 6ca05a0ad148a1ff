# SPDX-License-Identifier: MIT OR Apache-2.0
"""Each allocation is refused in turn: the program says `out of memory`, and changes nothing (docs/commands.md).

- An allocation before the first line is read, or of a single command, is refused: the program prints the line `ERROR:
  out of memory` on standard error, ends with status 1, reads nothing from standard input, prints nothing else, and
  leaves the file unchanged. If the allocation is for the bytes that are read when FILE is opened, the line is `ERROR:
  cannot open` (of a create, `ERROR: cannot write`), and the reason follows.
- An allocation of a line is refused: the output and the file are those of the batch without that line, except that
  `ERROR: out of memory` is the output of that line, and the status is 1. For random batches the definitions say the
  expected output; for others the program runs without the line.
- The program tries a refused allocation again, with success: everything is as without a refusal.
- An allocation for what is said of a fault is refused: the line that says more may be missing, and after a usage fault
  the usage may be that of all commands. Everything else is as without a refusal. These allocations are the last ones of
  a command, and may come before the line of the fault.
- An allocation for the bytes that replace those of the file is refused: the program reports `ERROR: cannot write` and
  the reason, and ends with status 1. The next command finds the file unchanged. If there was no file, there is none or
  an empty one.
- In every run the program frees as many blocks as without a refusal. After the last line it allocates only for the
  bytes of the file, and for what is said of refused lines. The lines first, last, lastupdate, info, revert, fetch, and a
  tune that adds no archive, allocate only to be parsed, and for what is said of them. Nothing is said of a line behind
  many refused ones: there they allocate as much with a database as without one.

The memory that a run holds at a time is at most that of a small run, and what the manual states for cells and journal
entries. In batches with thousands of samples or entries only some allocations are refused."""
from __future__ import annotations

from collections import Counter
from functools import cached_property, partial
from pathlib import Path
from typing import Any, Callable

import pytest

from support import random_batches
from support.check import Check
from support.growths import END, FILE, REPORT, START, STORE, End, Runner, Task, Told, Where
from support.program import TOP, Program

REFUSED, SIZES = "growths refused", "sizes of memory"
LEAST = {REFUSED: 6_600, SIZES: 7, "runs": 6_900}
LEAST_LONG = {REFUSED: 25_000}
NO_MEMORY = "ERROR: out of memory\n"
# The bytes that are read when FILE is opened, or that replace its bytes, did not fit into memory.
NOT_OPENED = f"ERROR: cannot open\nrrdi: {FILE}: out of memory\n"
NOT_STORED = f"ERROR: cannot write\nrrdi: {FILE}: out of memory\n"
WITH_REASON = {text.splitlines(keepends=True)[0]: text for text in (NOT_OPENED, NOT_STORED)}
# The commands that allocate only to be parsed, except a tune that adds an archive.
FREE = {"first", "last", "lastupdate", "info", "tune", "revert", "fetch"}
# So many refused lines that nothing is said of the lines behind them: each takes at least 28 of the 8,192 bytes that
# there are for what is said.
SILENCE = "nothing\n" * 300
# Which growths a run refuses, and whether a block that is made smaller counts as one. The first way is the short
# mode's.
WAYS = {"one": ("REFUSE", False), "one and all after it": ("REFUSE_FROM", False),
        "one, or a block made smaller": ("REFUSE", True)}

ONE_GAUGE = "create --step 10 --start 0 DS:g:GAUGE:100:U:U RRA:LAST:0.5:1:4\n"
# Creates a file with an entry of each kind in its journal.
EVERY_ENTRY = """\
create --step 10 --start 0 DS:in:GAUGE:100:U:U DS:out:COUNTER:100:0:1000 RRA:AVERAGE:0.5:1:4 RRA:MAX:0.25:3:5
update 10:6:2 20:9:3 95:20:U
tune --heartbeat in:50 -i in:-5 -d out:DERIVE -r out:back
update 130:1:2
resize 1 GROW 3
resize 0 SHRINK 2
tune RRA:LAST:0.5:2:3
tune DELRRA:1
"""
# Every command, accepted and refused, valid and invalid. The last line has no end of line.
EVERY_COMMAND = """\
info
create --step 10 --start 0 DS:in:GAUGE:100:U:U RRA:LAST:0.5:1:4 RRA:FIRST:0.5:1:4
create --step 0 DS:in:GAUGE:100:U:U RRA:LAST:0.5:1:4
create --step 5 --start 0 DS:g:GAUGE:100:U:U RRA:LAST:0.5:2:3
update 12:1 20:2
create --step 10 --start 0 --journal 4 DS:in:GAUGE:100:U:U DS:out:COUNTER:100:0:1000 RRA:MIN:0.5:1:4 RRA:AVERAGE:0.5:2:6
update --template out:in 10:7:1.5 20:9:-2 U
update --template out:in 10:7:1.5 20:9:-2 120:U:4
update -t out 130:25
update 130:1:2
update 140:1
\t
tune --heartbeat in:50 --minimum in:-5 --maximum in:7.25 --data-source-type out:DERIVE --data-source-rename out:back
tune -i nothing:5
tune
resize 1 GROW 5
resize 1 SHRINK 3
resize 0 SHRINK 4
tune RRA:LAST:0.5:1:3
tune DELRRA:0
tune DELRRA:7
tune -i in:5 RRA:LAST:0.5:1:3
revert
revert
lastupdate
info
fetch AVERAGE -r 20 -s 0 -e 139
fetch MIN -s 90 -e 139
fetch MAX
first
first --rraindex 1
first --rraindex 2
last
last --help
nothing
revert
revert
update 200:1:2 250:3:4
revert
revert
revert
revert
info
last"""
# Thousands of samples on a line, and of entries in a journal.
MANY_SAMPLES = ONE_GAUGE + "update " + " ".join(f"{10 * number}:{number}" for number in range(1, 4_001)) + "\nlast\n"
MANY_ENTRIES = ONE_GAUGE.replace("--start 0", "--start 0 --journal 3000") + "".join(
    f"update {10 * number}:{number}\n" for number in range(1, 2_501))
SINGLES = ["update 140:3:4", "update -t back 140:3 150:4 400:5", "update 5:1:1", "update 140:3", "tune -a in:9",
           "tune --maximum nothing:5", "tune RRA:MIN:0.5:3:7", "tune RRA:MIN:0.5:3:0", "tune DELRRA:0",
           "resize 0 GROW 2",
           "resize 0 SHRINK 1", "resize 9 GROW 1", "revert", "first", "fetch AVERAGE -s 0 -e 130", "fetch MIN",
           "first --rraindex 1",
           "last", "lastupdate", "info", "update", "fetch", "nothing", ONE_GAUGE.strip()]
# Worked batches of crates/rrdi/cases, and the numbers of random batches.
WORKED = ["road_counter", "shrink_and_grow", "first_path", "bounds_and_a_resize", "another_type_taken_back",
          "what_is_left_after_reverts", "short_journal", "strange_words", "archive_added", "archive_removed"]
RANDOM = [1, 4, 7]
# The names of the tasks in a short run begin so.
SHORT = ("every command over a file", "road_counter over", "shrink_and_grow over", "archive_added over",
         "archive_removed over",
         "random 1", "no", "a line", "many", "one: update", "one: tune RRA", "one: revert", "one: info", "one: create")
# If a task has more growths than this number, the first, the last, and some between them are refused.
ALL, SOME = 3_000, 20
# The bytes of memory that the manual says of a cell and of a journal entry; then the bytes that the rest of a run may
# use in addition if there are more cells or entries.
CELL, PLACE, SLACK = 16, 832, 4_096


def worked(name: str) -> Task:
    case = TOP / "crates/rrdi/cases" / name
    return Task(name, ["batch", FILE], case.read_text(), text=case.with_name(f"{name}.stdout").read_text())


def at_random(number: int) -> Task:
    commands, texts = random_batches.commands_and_texts(number)
    return Task(f"random {number}", ["batch", FILE], random_batches.text_of(commands), None, commands,
                random_batches.text_of(sum(texts, [])))


def single(line: str) -> Task:
    name, *rest = line.split()
    return Task(line, [name, FILE, *rest], made=EVERY_ENTRY)


# Makes each task when its test runs.
TASKS: dict[str, Callable[[], Task]] = {
    **{f"{name} over a new file": partial(worked, name) for name in WORKED},
    **{f"random {number}": partial(at_random, number) for number in RANDOM},
    **{f"one: {line}": partial(single, line) for line in SINGLES},
    **{task.name: partial(lambda task: task, task) for task in [
        Task("every command", ["batch"], EVERY_COMMAND),
        Task("every command over a new file", ["batch", FILE], EVERY_COMMAND),
        Task("every command over a file", ["batch", FILE], EVERY_COMMAND, EVERY_ENTRY),
        Task("no line over a file", ["batch", FILE], "", EVERY_ENTRY),
        Task("a line over a file without a journal", ["batch", FILE], "update 10:1\n", ONE_GAUGE),
        Task("many samples", ["batch", FILE], MANY_SAMPLES),
        Task("many entries", ["update", FILE, "999999:1"], made=MANY_ENTRIES),
        Task("many reverts", ["batch", FILE], "revert\n" * 40 + "last\n", made=MANY_ENTRIES),
        Task("one: create over no file", ["create", FILE, *ONE_GAUGE.split()[1:]]),
        Task("one: last over no file", ["last", FILE]),
        Task("no words", [])]},
}


def numbers(count: int) -> list[int]:
    """Returns the numbers of the growths that are refused, of `count` growths: all or some."""
    if count <= ALL:
        return list(range(1, count + 2))
    return sorted({*range(1, SOME), *range(1, count, count // SOME), *range(count - SOME, count + 2)})


class Growths:
    """Refuses the growths of one task."""

    def __init__(self, runner: Runner, task: Task, check: Check) -> None:
        self.runner, self.task, self.check = runner, task, check
        self.old = runner.file_of(task)
        self.plain = runner.run(task)
        self.places, self.printed = self.plain.places(task)

    def want(self, is_right: bool, what: str) -> None:
        self.check(is_right, f"{self.task.name}: {what}")

    def try_plain(self) -> None:
        """Checks the run without a refusal, and where its growths are."""
        status, out, err, _ = self.plain.told
        self.want(status in (0, 1, 2) and NO_MEMORY not in out + err, f"without a refusal: {self.plain.told}")
        self.want(self.task.text in (None, out), f"printed {out!r}")
        for number in self.plain.stored():
            self.places[number] = STORE
        if FILE in self.task.words:
            self.places = [STORE if place == END else place for place in self.places]
        elif status == 1:
            self.places = [REPORT if place == END else place for place in self.places]
        self.want(END not in self.places, f"{self.places.count(END)} growths behind the last line")
        self.try_free()

    def try_free(self) -> None:
        """Checks that lines of the commands that allocate only to be parsed do so, where nothing is said of them."""
        free = {number: line for number, line in enumerate(self.task.rows)
                if line.split() and line.split()[0] in FREE and " RRA:" not in line}
        if free and self.task.is_batch:
            over_database = self.in_silence(self.task.words, self.task.lines, self.task.made)
            for number, line in free.items():
                alone = self.in_silence(["batch"], line)[0]
                self.want(over_database[number] == alone, f"growths over a database of {line!r}: "
                          f"{over_database[number]}, alone {alone}")

    def in_silence(self, words: list[str], lines: str, made: str | None = None) -> Counter[Where]:
        """Returns the number of growths of each line of a batch of which nothing is said."""
        ended = lines if lines.endswith("\n") else f"{lines}\n"
        task = Task(self.task.name, words, SILENCE + ended, made)
        first = SILENCE.count("\n")
        return Counter(place - first if isinstance(place, int) else place
                       for place in self.runner.run(task).places(task)[0])

    def refuse_each(self, setting: str) -> None:
        wanted: dict[Where, Any] = {}
        number = 0
        for number in numbers(len(self.places)):
            end = self.runner.run(self.task, **{setting: number})
            if not end.has_refusal:
                self.want(end.told == self.plain.told, f"with no refusal, {setting} {number}: {end.told}")
                break
            if self.is_left_out(end):
                self.places[number - 1:] = [REPORT if place == START else place for place in self.places[number - 1:]]
            place = self.places[number - 1] if number <= len(self.places) else END
            if place not in wanted:
                wanted[place] = self.wanted(place, setting == "REFUSE_FROM")
            self.check.count(REFUSED)
            expected = wanted[place]
            if setting == "REFUSE_FROM":  # no memory is left for the line that says more
                end.told = end.told._replace(err=WITH_REASON.get(end.told.err, end.told.err))
                expected = REPORT if self.is_reported(end) else expected
            self.look(end, expected, f"{setting} {number}, at line {place}")
        self.want(number == len(self.places) + 1, f"{number - 1} refusals of {len(self.places)} growths")

    def wanted(self, place: Where, from_on: bool) -> Told | str | None:
        """Returns the expected output and file if a growth in this part of the run is refused; REPORT if it is in the
        lines after a fault."""
        if place == STORE:
            return Told(1, self.plain.told.out, NOT_STORED, self.old or b"")
        if place == REPORT:
            return REPORT
        if place == START or not self.task.is_batch:
            return Told(1, "", NO_MEMORY, self.old)
        if not isinstance(place, int):
            return None
        behind = len(self.task.rows) if from_on else place + 1
        left = self.runner.run(self.task.without(place, behind)).told
        front = self.plain.told.out.encode()[:sum(self.printed[line] for line in range(place))].decode()
        answers = NO_MEMORY * sum(1 for line in self.task.rows[place:behind] if line.split())
        if left.out[:len(front)] != front or left.err:
            return None
        text = front + answers + left.out[len(front):]
        if self.task.commands and not from_on:
            defined = random_batches.text_of(sum(random_batches.texts_of(self.task.commands, place), []))
            self.want(text == defined, f"without line {place}: {text!r}, as defined {defined!r}")
        if from_on and left.held is not None:
            return Told(1, text, NOT_STORED, self.old or b"")
        return Told(1, text, "", left.held)

    @cached_property
    def usage(self) -> list[str]:
        return self.runner.run(Task("no words", [])).told.err.splitlines()[1:]

    def is_reported(self, end: End) -> bool:
        """Checks a run in which an allocation for the lines after a fault was refused."""
        plain, lines = self.plain.told, end.told.err.splitlines()
        first, whole = plain.err.splitlines()[:1] or [""], {*plain.err.splitlines(), *self.usage}
        return end.told == plain._replace(err=end.told.err) and lines[:1] == first and set(lines) <= whole

    def is_left_out(self, end: End) -> bool:
        """Checks whether a refused command only lacks what is said of the refusal, which is made behind all else."""
        fault, *said = self.plain.told.err.splitlines(keepends=True) or [""]
        is_refused = not self.task.is_batch and self.plain.told.status == 1 and fault not in WITH_REASON
        return is_refused and said != [] and end.told == self.plain.told._replace(err=fault)

    def look(self, end: End, wanted: Told | str | None, what: str) -> None:
        is_made_good = end.told == self.plain.told
        if isinstance(wanted, str):
            wanted = end.told if self.is_reported(end) else self.plain.told
        is_early = not is_made_good and wanted is not None and wanted.err == NO_MEMORY
        if wanted is not None and is_early and end.told.err in (NOT_OPENED, NOT_STORED):
            wanted = wanted._replace(err=end.told.err)
        if wanted is not None and wanted[2:] == (NOT_STORED, b"") and end.told.held is None:
            wanted = wanted._replace(held=None)  # the file was not made yet
        self.check.count("made good by another try", is_made_good)
        self.want(is_made_good or end.told == wanted, f"{what}:\n  wanted {wanted}\n  got    {end.told}")
        self.want(not (is_early and end.reads_input), f"{what}: standard input is read")
        is_same = end.kept is not None and self.plain.kept is not None and end.kept[0] == self.plain.kept[0]
        self.want(is_same, f"{what}: {end.kept} blocks are not freed, {self.plain.kept} without a refusal")


def try_task(runner: Runner, task: Task, setting: str, check: Check) -> None:
    growths = Growths(runner, task, check)
    growths.try_plain()
    growths.refuse_each(setting)
    check.count("runs", runner.count)


# ---- memory


def create(sources: int = 1, archives: int = 1, rows: int = 4, depth: int = 1, more: str = "") -> str:
    words = [f"DS:s{number}:GAUGE:100:U:U" for number in range(sources)] + [f"RRA:LAST:0.5:1:{rows}"] * archives
    return f"create --step 10 --start 0 --journal {depth} {' '.join(words)}\n{more}"


UPDATES = "".join(f"update {10 * number}:1\n" for number in range(1, 1_001))
SAMPLES = " ".join(f"{10 * number}:1" for number in range(1, 1_001))
# Batches, and the most bytes that each holds beyond a small one.
MEMORY = {
    "100,000 rows": (create(rows=100_000), CELL * 100_000),
    "10,000 rows of 8 sources": (create(sources=8, rows=10_000), CELL * 80_000 + 8 * 1_000),
    "64 archives": (create(archives=64, rows=1_000), CELL * 64_000 + 64 * 1_000),
    "a journal of 10,000 places": (create(depth=10_000), PLACE * 10_000),
    "an update that finishes 10,000 rows": (create(rows=10_000, more="update 100000:1\n"), 2 * CELL * 10_000),
    "a journal of 1,000 updates": (create(depth=1_000, more=UPDATES), (PLACE + 5 * CELL + 400) * 1_000),
    "1,000 samples": (create(rows=4, more=f"update {SAMPLES}\n"), 5 * CELL * 1_000 + 200 * 1_000),
}


def held_at_a_time(runner: Runner, lines: str, check: Check) -> int:
    """Returns the maximum number of bytes that a batch in memory holds."""
    end = runner.run(Task("memory", ["batch"], lines))
    check(end.told.status == 0 and end.kept is not None, f"{lines[:40]}: the run ends with {end.told[:3]}")
    return end.kept[1] if end.kept else 0


def try_memory(runner: Runner, check: Check) -> None:
    base = held_at_a_time(runner, create(), check)
    for name, (lines, most) in MEMORY.items():
        more = held_at_a_time(runner, lines, check) - base
        check.count(SIZES)
        check(more <= most * 1.05 + SLACK, f"{name}: it holds {more:,} bytes more than a small database, over {most:,}")


def pytest_generate_tests(metafunc: pytest.Metafunc) -> None:
    if "way" in metafunc.fixturenames:
        is_long = metafunc.config.getoption("long")
        metafunc.parametrize("way", WAYS if is_long else list(WAYS)[:1])
        metafunc.parametrize("name", [name for name in TASKS if is_long or name.startswith(SHORT)])


def test_each_growth(name: str, way: str, program: Program, between_all: str, folder: Path, check: Check) -> None:
    setting, shrinks = WAYS[way]
    try_task(Runner(program, between_all, folder, shrinks), TASKS[name](), setting, check)


def test_memory(program: Program, between_all: str, folder: Path, check: Check) -> None:
    try_memory(Runner(program, between_all, folder), check)
