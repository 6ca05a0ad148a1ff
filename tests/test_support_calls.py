# SPDX-License-Identifier: MIT OR Apache-2.0
"""What the tests of failing calls and kills rest on: the library between a program and the system, the changes, the
order of the calls, and the model of a disk below the system's cache."""
from __future__ import annotations

import errno
import fcntl
import os
import random
import signal
from pathlib import Path

import pytest

from support import between
from support.between import Change, Event
from support.changes import FILE, calls_on_streams, changes, is_refused, locks_of, over_interrupted, readings
from support.cuts import Found, Wanted
from support.fakes import answering, compiled
from support.locks import faults_of, faults_of_open, parts_of
from support.power import MOST_LENGTHS, MOST_SUBSETS, PAGE, Disk, Part, subsets
from support.program import KILLED, Answer, Program, environment, error, held, parted, put, waited

SMALL = """
#include <fcntl.h>
#include <stdio.h>
#include <stdlib.h>
#include <sys/file.h>
#include <unistd.h>

int main(int count, char **words) {
    void *block = malloc(100);
    int file = open(words[1], O_RDWR | O_CREAT, 0600);
    int lock = flock(file, LOCK_EX | LOCK_NB);
    ssize_t put = pwrite(file, "0123456789", 10, 5);
    ssize_t more = pwrite(file, "abcdefghij", 10, 15);
    int cut = ftruncate(file, 20);
    int synced = fsync(file);
    dprintf(2, "%d %d %d %zd %zd %d %d", block != NULL, file >= 0, lock, put, more, cut, synced);
    free(block);
    return 0;
}
"""
PAUSES = """
#include <stdio.h>
#include <time.h>
#include <unistd.h>

int main(void) {
    struct timespec one = {1, 5}, other = {3600, 0};
    int first = nanosleep(&one, NULL), second = clock_nanosleep(CLOCK_MONOTONIC, 0, &other, NULL);
    fprintf(stderr, "%d %d %d", first, second, usleep(2500000));
    clock_gettime(CLOCK_MONOTONIC, &one);
    fprintf(stderr, " %ld.%09ld", one.tv_sec, one.tv_nsec);
    return 0;
}
"""


class Small:
    """A program with known calls, and its file."""

    def __init__(self, library: str, folder: Path) -> None:
        self.library, self.file = library, folder / "file"
        self.program = compiled(folder / "small", SMALL)

    def told(self, **settings: object) -> str:
        self.file.unlink(missing_ok=True)
        return self.program.run([self.file], env=between.settings(self.library, **settings)).err


@pytest.fixture
def small(between_all: str, folder: Path) -> Small:
    return Small(between_all, folder)


# ---- the library between a program and the system


def test_pauses_take_no_time(between_all: str, folder: Path) -> None:
    log = folder / "log"
    env = between.settings(between_all, LOG=log, NO_PAUSES=1)
    answer = compiled(folder / "pauses", PAUSES).run([], env=env)
    events = between.events_of(log)
    assert (answer.status, answer.err) == (0, "0 0 0 3603.500000005")
    assert between.pauses_of(events) == [1_000_000_005, 3_600 * 10**9, 2_500_000_000]
    assert "pause" not in [call.kind for call in between.calls_of(events)]


def test_the_log_of_calls(small: Small, folder: Path) -> None:
    log, record = folder / "log", folder / "record"
    assert small.told(LOG=log, RECORD=record) == "1 1 0 10 10 0 0"
    events = between.events_of(log)
    kinds = [event.kind for event in between.calls_of(events)]
    assert kinds[:6] == ["open", "flock", "pwrite", "pwrite", "ftruncate", "fsync"]
    assert [event.words[4:] for event in events if event.kind == "open"] == [[str(small.file)[:100]]]
    assert [(it.size, it.got, it.at) for it in events if it.kind == "pwrite"] == [(10, 10, 5), (10, 10, 15)]
    assert [event.size for event in events if event.kind == "grow"][:1] == [100]
    assert [event.words[0] for event in events if event.kind == "end"][0] == "0"
    assert list(between.changes_of(record)) == [Change("pwrite", 5, b"0123456789"), Change("pwrite", 15, b"abcdefghij"),
                                                Change("ftruncate", 20), Change("fsync")]
    small.told(RECORD=record, CALL=6)
    assert [change.name for change in between.changes_of(record)][-4:] == ["pwrite", "pwrite", "ftruncate", "unsynced"]


@pytest.mark.parametrize("settings, told", (
    ({"CALL": 1}, "1 0 -1 -1 -1 -1 -1"), ({"CALL": 2}, "1 1 -1 10 10 0 0"), ({"CALL": 3}, "1 1 0 -1 10 0 0"),
    ({"CALL": 4}, "1 1 0 10 -1 0 0"), ({"CALL": 5}, "1 1 0 10 10 -1 0"), ({"CALL": 6}, "1 1 0 10 10 0 -1"),
    ({"FROM": 4}, "1 1 0 10 -1 -1 -1"), ({"CALL": 2, "WHY": errno.ENOLCK}, "1 1 -1 10 10 0 0"),
    ({"CALL": 3, "MOVES": [4]}, "1 1 0 4 10 0 0"), ({"CALL": 3, "MOVES": [4, 7]}, "1 1 0 4 7 0 0"),
    ({"CALL": 3, "MOVES": [4, -1]}, "1 1 0 4 -1 0 0"), ({"CALL": 3, "CUT": 6}, "1 1 0 6 -1 0 0"),
    ({"CALL": 3, "INTERRUPTS": 1}, "1 1 0 -1 10 0 0"), ({"CALL": 3, "MOVES": [4], "INTERRUPTS": 1}, "1 1 0 4 -1 0 0"),
    ({"CALL": 4, "MOVES": [4], "INTERRUPTS": 1}, "1 1 0 10 4 0 0")))
def test_calls_fail(settings: dict[str, object], told: str, small: Small) -> None:
    assert small.told(**settings) == told


def test_a_child_has_the_lock(small: Small, folder: Path) -> None:
    assert small.told(LOG=folder / "log", FORK=3) == "1 1 0 10 10 0 0"
    child = next(event for event in between.events_of(folder / "log") if event.kind == "fork").file
    with open(small.file) as file, pytest.raises(BlockingIOError):
        fcntl.flock(file, fcntl.LOCK_SH | fcntl.LOCK_NB)
    os.kill(child, signal.SIGKILL)


def test_a_kill_comes_before_its_call(small: Small) -> None:
    answer = small.program.run([small.file], env=between.settings(small.library, KILL=4))
    assert answer.status == KILLED and small.file.read_bytes() == bytes(5) + b"0123456789"


def test_a_growth_is_refused(small: Small) -> None:
    assert [small.told(REFUSE=number)[:1] for number in (1, 99)] == ["0", "1"]
    assert Event("grow", ["5", "refused"]).is_refused and between.events_of("/no/such/log") == []


def test_changes_over_bytes() -> None:
    for change, wanted in ((Change("pwrite", 2, b"xy"), b"abxye"), (Change("pwrite", 7, b"xy"), b"abcde\0\0xy"),
                           (Change("ftruncate", 3), b"abc"), (Change("ftruncate", 7), b"abcde\0\0"),
                           (Change("fsync"), b"abcde")):
        assert change.over(b"abcde") == wanted
    with pytest.raises(ValueError):
        Change("rename")


# ---- a program and its answers


def test_answers(folder: Path) -> None:
    assert answering(folder / "it", 3, "out\n", "err\n").run(["a"]) == Answer(3, "out\n", "err\n")
    assert answering(folder / "slow", more="exec sleep 50").run([], seconds=0.2).status == "no end in 0.2 seconds"
    assert Program.at(folder / "it").run([], "lines\n").status == 3 and environment({"A": "b"})["A"] == "b"
    file = folder / "file"
    for data in (None, b"x", b"yy", None):
        put(file, data)
        assert held(file) == data


def test_lines_on_standard_error() -> None:
    write, opened, read = error("cannot write"), error("cannot open"), error("file: read failed")
    for text, both in ((write + "rrdi: a: b: disk quota exceeded\n", (write, "disk quota exceeded")),
                       (read + "rrdi: a: is a directory\n", (read, "is a directory")),
                       (error("write failed") + opened + "rrdi: a: b\n", (error("write failed") + opened, "b")),
                       (error("usage") + "rrdi: --end is 1; write: 2\n", (error("usage"), "--end is 1; write: 2"))):
        assert parted(text) == both
    for text in ("", write, error("usage") + "usage: a: b\n", write + "rrdi: a: b", write + "more\n", "rrdi: a: b\n",
                 write + "rrdi: a: b\nrrdi: a: b\n"):
        assert parted(text) == (text, "")
    ends = [waited(seconds).partition(" (")[2] for seconds in (0, 1, 5)]
    assert ends == ["waited 0 seconds)", "waited 1 second)", "waited 5 seconds)"]


# ---- changes


def test_tasks() -> None:
    """What a task must do if nothing disturbs it: without that, a comparison with it would show nothing."""
    tasks = [*changes(), *readings(), *over_interrupted()]
    assert len({task.name for task in tasks}) == len(tasks)
    assert {task.words[0] for task in changes()} == {"create", "update", "tune", "resize", "revert", "batch"}
    done, refused, old, new = Answer(0), Answer(1, "", error("not later than 10")), b"old", b"new"
    for task in tasks:
        right = refused if task.is_refused else Answer(1) if "nothing" in task.lines else done
        after, other = (old, new) if task.keeps else (new, old)
        assert task.faults(right, old, after) == [], task.name
        silent = right._replace(err="" if right.err else error("cannot open"))
        for answer, left in ((right, other), (Answer(0 if right.status else 1, "", right.err), after), (silent, after),
                             (Answer(-9), after)):
            assert len(task.faults(answer, old, left)) == 1, (task.name, answer, left)
    keeping = {task.name.split(" over ")[0] for task in over_interrupted() if task.keeps}
    assert keeping == {"last", "a refused update"}
    assert [task.name for task in changes() if task.keeps] == ["batch that changes nothing"]
    for status, text, is_right in ((1, "file: not ours", True), (0, "file: not ours", False), (1, "usage", False)):
        assert is_refused(Answer(status, "", error(text))) == is_right


# ---- the order of calls


def events(*lines: str) -> list[Event]:
    return [Event(kind, words) for kind, *words in map(str.split, lines)]


OPENED, SHARED, OWN, FREE = f"open -1 0 4 2 {FILE}", "flock 4 5 0 0", "flock 4 6 0 0", "flock 4 8 0 0"
REFUSED_LOCK = "flock 4 6 -1 0"  # a try that failed
MEASURED, NAMED, READ, WRITTEN = "statx 4 0 0 0", "statx -100 0 0 0", "pread 4 10 10 0", "pwrite 4 10 10 0"
RIGHT = (NAMED, OPENED, OWN, MEASURED, NAMED, READ, WRITTEN)


@pytest.mark.parametrize("calls, is_change, count", (
    ((OPENED, OWN, READ, WRITTEN), True, 0), ((OPENED, SHARED, READ), False, 0), ((OPENED, READ), False, 1),
    ((OPENED, SHARED, READ, WRITTEN), True, 2), ((OPENED, SHARED, READ, WRITTEN), False, 1),
    ((OPENED, OWN, "fcntl 4 1030 5 0", "read 5 10 10 0"), True, 0), ((OPENED, REFUSED_LOCK, READ), False, 1)))
def test_locks(calls: tuple[str, ...], is_change: bool, count: int) -> None:
    assert len(locks_of(events(*calls), FILE, is_change)) == count


@pytest.mark.parametrize("calls", (
    RIGHT, (*RIGHT, FREE), (*RIGHT, "fdatasync 4 0 0 0", "ftruncate 4 9 0 0", FREE),
    (OPENED, SHARED, NAMED, MEASURED, READ), ("open -1 0 5 2 other", "read 5 9 9 0"), (f"open -1 0 -1 2 {FILE}",),
    (*RIGHT[:4], "fcntl 4 1030 10 0", NAMED, "pread 10 1 1 0"), (*RIGHT, SHARED, READ, OWN, WRITTEN)))
def test_calls_in_order(calls: tuple[str, ...]) -> None:
    assert faults_of(events(*calls), FILE) == []


@pytest.mark.parametrize("calls, what", (
    ((OPENED, READ), "no lock"), ((OPENED, REFUSED_LOCK, READ), "no lock"),
    ((OPENED, MEASURED, NAMED, READ), "no lock"), ((*RIGHT, OPENED, READ), "no lock"),
    ((*RIGHT, FREE, WRITTEN), "no lock"), ((*RIGHT, FREE, "fdatasync 4 0 0 0"), "no lock"),
    ((OPENED, SHARED, MEASURED, NAMED, WRITTEN), "a shared lock"), ((*RIGHT, SHARED, WRITTEN), "a shared lock"),
    ((*RIGHT, SHARED, REFUSED_LOCK, READ), "no lock"),
    ((OPENED, MEASURED, OWN, NAMED, READ), "an old length"), ((*RIGHT, FREE, OWN, READ), "an old length"),
    ((OPENED, NAMED, OWN, MEASURED, READ), "an old name"),
    ((OPENED, OWN, MEASURED, "statx -100 0 -1 0", READ), "an old name")))
def test_calls_out_of_order(calls: tuple[str, ...], what: str) -> None:
    assert [fault.rpartition(" under ")[2] for fault in faults_of(events(*calls), FILE)] == [what]


def test_an_open_file() -> None:
    opening, end = ("grow 8 given", *RIGHT), (FREE, "pause 3")
    begin = (*opening, SHARED, "pause 1")
    assert [len(part) for part in parts_of(events(*begin, READ, "pause 2", *end))] == [8, 1, 1]
    for calls, count in (((READ,), 0), ((OWN, WRITTEN, SHARED), 0), ((OWN, WRITTEN), 1), ((FREE, SHARED), 1), ((FREE, OWN), 2),
                         ((REFUSED_LOCK, SHARED), 1), ((OPENED,), 1), (("open -1 0 5 2 other",), 0)):
        assert len(faults_of_open(events(*begin, *calls, "pause 2", *end), FILE)) == count, calls
    assert len(faults_of_open(events(*opening, "pause 1", READ, "pause 2", *end), FILE)) == 1


def test_calls_on_streams() -> None:
    for number, got, count in ((2, 10, 1), (0, 10, 1), (3, 10, 0), (2, -1, 0)):
        calls = (f"open -1 0 {number} 2 {FILE}", f"pwrite {number} 10 {got} 0", "open -1 0 1 2 other", "write 1 5 5 0")
        assert len(calls_on_streams(events(*calls), FILE)) == count, (number, got)


# ---- what a power failure may leave of a file

SYNC, UNSYNCED = Change("fsync"), Change("unsynced")


def write(at: int, data: bytes) -> Change:
    return Change("pwrite", at, data)


def after(held: bytes, *made: Change, torn: int = 0) -> set[bytes]:
    """Returns the files that a power failure may leave after these changes."""
    disk = Disk.of(held)
    for change in made:
        disk.apply(change)
    return {left.held for left in disk.files(random.Random(1), torn)}


FAR, LOST = bytes(PAGE), (write(0, b"x"), UNSYNCED)


@pytest.mark.parametrize("old, made, files", (
    (b"abcd", (), {b"abcd"}),
    # Writes in any order.
    (b"abcd", (write(0, b"x"), write(2, b"y")), {b"abcd", b"xbcd", b"abyd", b"xbyd"}),
    (b"abcd", (write(0, b"x"), SYNC, write(2, b"y")), {b"xbcd", b"xbyd"}),
    # A length apart from its bytes, and a truncation apart from the writes.
    (b"ab", (write(2, b"cd"),), {b"ab", b"ab\0\0", b"abcd"}), (b"ab", (write(3, b"d"), SYNC), {b"ab\0d"}),
    (b"abcd", (write(0, b"x"), Change("ftruncate", 2)), {b"abcd", b"xbcd", b"ab", b"xb"}),
    (b"abcd", (Change("ftruncate", 2), write(3, b"y")), {b"abcd", b"abcy", b"ab", b"ab\0\0", b"ab\0y"}),
    # A failed sync.
    (b"abcd", LOST, {b"abcd", b"xbcd"}), (b"abcd", (*LOST, SYNC), {b"abcd", b"xbcd"}),
    (b"abcd", (*LOST, write(2, b"y")), {b"abcd", b"xbcd", b"xbyd"}),
    (b"abcd", (*LOST, write(2, b"y"), SYNC), {b"xbyd"}),
    (FAR + b"abcd", (*LOST, write(PAGE, b"y"), SYNC), {FAR + b"ybcd", b"x" + FAR[1:] + b"ybcd"}),
    (b"ab", (write(2, b"cd"), UNSYNCED, SYNC), {b"ab\0\0", b"abcd"}),
    (b"ab", (write(2, b"cd"), UNSYNCED, Change("ftruncate", 2), SYNC), {b"ab"})))
def test_files_after_a_power_failure(old: bytes, made: tuple[Change, ...], files: set[bytes]) -> None:
    assert after(old, *made) == files


def test_a_write_may_be_torn() -> None:
    old, new = bytes(PAGE), b"x" * PAGE
    torn = after(old, write(0, new), torn=200) - {old, new}
    assert {new[:512] + old[512:], old[:512] + new[512:]} <= torn
    assert all(held[:16] in (old[:16], new[:16]) for held in torn)
    assert after(b"abcd", write(0, b"xyz"), torn=20) == {b"abcd", b"xyzd"}
    for at, count, whole, is_torn in ((0, 16, 16, False), (4, 8, 16, False), (0, 64, 16, True), (0, 64, 64, False)):
        assert bool(Part(at, bytes(count)).tears(random.Random(1), whole)) == is_torn, (at, count, whole)


def test_many_changes() -> None:
    files = after(b"", write(0, b"x" * PAGE * 20))
    assert {b"", b"x" * PAGE * 20, bytes(PAGE * 20)} <= files
    assert len({len(held) for held in files}) < MOST_LENGTHS + 2
    assert {len(held) for held in after(b"ab", write(2, bytes(2 * PAGE)))} == {2, PAGE, 2 * PAGE, 2 * PAGE + 2}
    assert len(set(subsets(MOST_SUBSETS, random.Random(1)))) == 2 ** MOST_SUBSETS
    assert {(), tuple(range(20)), (7,), tuple(range(9))} <= set(subsets(20, random.Random(1)))


def test_what_the_next_command_may_find() -> None:
    """A refusal is one only if the program reports it."""
    refusals = Answer(1, "", error("file: not ours")), Answer(1, "", error("cannot open"))
    others = (Answer(2, "", error("usage")), Answer(KILLED), Answer(-11), Answer(1),
              Answer(1, "7\n", error("file: not ours")), Answer("no end"))
    for may_be_refused in (True, False):
        wanted = Wanted((b"new",), may_be_refused)
        assert [wanted.has(Found(Answer(0), held)) for held in (b"new", b"old", None)] == [True, False, False]
        for answer in (*refusals, *others):
            assert wanted.has(Found(answer, b"new")) == (may_be_refused and answer in refusals), answer
