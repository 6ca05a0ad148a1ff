# SPDX-License-Identifier: MIT OR Apache-2.0
"""Each check of the program fails on wrong answers: a check that cannot fail is worth nothing.

`support/fake.c` is a small program that keeps rrdi's promises on files, or breaks the one that FAKE_BUG names; other
checks get programs with fixed answers. Each judgement must reject something here (`Counts.blind` in
support/counts.py)."""
from __future__ import annotations

import fcntl
import inspect
import os
import re
import tempfile
from functools import partial
from pathlib import Path
from typing import Any, Callable, Sequence

import pytest

from program import (test_advice, test_cases, test_commands, test_failing_calls, test_full_disks, test_growths,
                     test_growths_in_tests, test_kills, test_locks, test_names, test_odd_files, test_random_kills,
                     test_streams, test_writes)
from support import definitions, fakes, losses as support_losses
from support.changes import FILE, Place
from support.check import Check
from support.cuts import SHORT, Cuts
from support.growths import Runner
from support.growths import Task as Growing
from support.losses import Losses
from support.program import Answer, Program, error
from support.runs import MISUSE, Runs


@pytest.fixture(scope="session")
def fake(needs: Callable[..., None], workshop: Path) -> Program:
    needs("cc")
    return fakes.build(workshop / "fake")


@pytest.fixture
def bugs(monkeypatch: pytest.MonkeyPatch) -> Callable[[str], None]:
    """Names the faults of the small program."""
    return partial(monkeypatch.setenv, "FAKE_BUG")


def rejects(planted: Check, is_wrong: object) -> None:
    """Checks that something was tried, and rejected if it is wrong."""
    assert planted.tried
    assert bool(planted.faults) == bool(is_wrong), planted.text()


# ---- failing calls and kills

LONGER, LARGER, SMALLER = "update that lengthens 4 rows", "update that lengthens 1000 rows", "resize down of 1000 rows"
PAGES, MANY = "update of many pages", "update of many pages, the journal full"
LAST, NEW = "last of 4 rows", "create of 4 rows over nothing"
MARKED = "last over a change without its last two calls, 1000 rows"
REFUSED = "a refused update over a change without its last three calls, 4 rows"
# A fault of the small program, and the task that finds it.
CALLS = {
    "hides-failure": LONGER, "hides-short": LONGER, "hides-second": LONGER, "hides-sync": LARGER,
    "wrong-status": LONGER, "wrong-text": LONGER, "no-reason": LONGER,
    "wrong-reason": LONGER, "never-waits": LAST, "forgets-lock": LAST, "needs-locks": LAST, "goes-on-unlocked": LAST,
    "keeps-lock": LAST,
    "reads-without-lock": LAST, "creates-without-lock": NEW, "changes-share": LONGER, "no-tail": MANY,
    "stays-marked": LONGER,
    "saves-again": MANY, "reads-marked": MARKED, "settles-unlocked": MARKED, "needs-stderr": REFUSED,
    "ignores-holder": LAST,
    "spoils-unlocked": MARKED, "reads-and-cuts": LAST,
}
KILLS = {"no-tail": LARGER, "changes-share": LARGER, "marks-late": LARGER, "commits-early": LARGER, "cuts-early": SMALLER,
         "takes-head-first": LARGER,
         "stays-marked": LARGER, "recovers-shared": LARGER, "forgets-change": LONGER, "fails-to-read": LONGER}
# Faults that only a power failure finds: a lack of syncs, a length that is trusted without its bytes, a page that is
# written as a whole, and trust in what only the cache may have, after a kill and after a failed sync.
POWER = {"no-sync-1": LARGER, "no-sync-2": LARGER, "no-sync-3": LARGER, "no-sync-4": SMALLER,
         "no-sync-to-recover": LARGER,
         "marks-by-length": LONGER, "first-page-at-once": PAGES, "stays-marked": LARGER, "trusts-cache": LARGER,
         "syncs-cache": LARGER, "hides-sync": LARGER}
# The small program writes its first 64 bytes by one call.
EFFORT = SHORT._replace(whole=64)


def try_calls(place: Place, name: str, check: Check) -> None:
    task = test_failing_calls.TASKS[name]
    for piece in range(test_failing_calls.PIECES):
        test_failing_calls.try_piece(place, task, piece, check, has_syncs=name == LARGER)


def try_kills(place: Place, name: str, check: Check) -> None:
    for part in range(test_kills.FEW):
        test_kills.try_kills(place, test_kills.TASKS[name], part, check, is_long=False)


def try_power(place: Place, name: str, check: Check) -> None:
    task = test_kills.TASKS[name]
    for kind, parts in test_kills.POWER.items():
        for part in range(parts if test_kills.has_power(kind, task, False) else 0):
            test_kills.try_power(Cuts(place, task, check, EFFORT), kind, part)


@pytest.mark.parametrize("bug, name", [*CALLS.items(), *(("", name) for name in (LONGER, LARGER, LAST, NEW, MARKED))])
def test_failing_calls_find(bug: str, name: str, fake: Program, bugs: Any, between: str, folder: Path,
                            planted: Check) -> None:
    bugs(bug)
    try_calls(Place(fake, between, folder), name, planted)
    rejects(planted, bug)


@pytest.mark.parametrize("bug, name", [*KILLS.items(), ("", LARGER)])
def test_kills_find(bug: str, name: str, fake: Program, bugs: Any, between: str, folder: Path, planted: Check) -> None:
    bugs(bug)
    try_kills(Place(fake, between, folder), name, planted)
    rejects(planted, bug)


@pytest.mark.parametrize("bug, name", [*POWER.items(), ("", LARGER)])
def test_power_finds(bug: str, name: str, fake: Program, bugs: Any, between: str, folder: Path, planted: Check) -> None:
    bugs(bug)
    try_power(Place(fake, between, folder), name, planted)
    rejects(planted, bug)


def test_other_kills(fake: Program, bugs: Any, between: str, folder: Path, planted: Check) -> None:
    """A run that is not killed, a next command that does otherwise, a change with syncs that answers otherwise, and a
    file that is found though the disk has not stored its name."""
    bugs("")
    place, task = Place(fake, between, folder), test_kills.TASKS[LONGER]
    kills, cuts = test_kills.Kills(place, task, planted, False), Cuts(place, task, planted, EFFORT)
    kills.calls += kills.calls[-1:] * 2
    kills.kill(len(kills.calls) - 1)
    kills.try_next(("last", FILE), b"no database", kills.new, "a kill")
    cuts.answer = Answer(1)
    cuts.try_plain()
    cuts.place = Place(fakes.answering(folder / "finds", 0, "0\n"), between, folder)
    cuts.try_without_name()
    assert len(planted.faults) == 4, planted.text()


# ---- growths

# A program that allocates memory for its arguments, prints a line and frees the memory; or has a fault.
SMALL = """
#include <stdio.h>
#include <stdlib.h>
#include <unistd.h>
int main(int count, char **words) {
    char *blocks[3] = {malloc(10), malloc(20), calloc(1, 30)};
    for (int at = 0; at < 3; at++)
        if (!blocks[at]) {
            for (int other = 0; other < 3; other++)
                free(blocks[other]);
            FAULT;
        }
    write(1, "10\\n", 3);
    for (int at = 0; at < 3; at++)
        free(blocks[at]);
    return 0;
}
"""
# A program that allocates after the line of a fault, and what it does if that is refused.
ADVISING = """
#include <stdio.h>
#include <stdlib.h>
#include <unistd.h>
int main(void) {
    write(2, "ERROR: usage\\n", 13);
    void *block = malloc(100);
    FAULT;
    free(block);
    return 2;
}
"""
# A program that allocates for what it says of a refusal before it reports the refusal, and what it does then.
SAYING = """
#include <stdio.h>
#include <stdlib.h>
int main(void) {
    void *own = malloc(10), *block = malloc(20), *more = malloc(30);
    if (own) {
        FAULT;
    } else
        fputs("ERROR: out of memory\\n", stderr);
    free(own);
    free(block);
    free(more);
    return 1;
}
"""
# A program that holds more memory for each byte of its input.
GREEDY = """
#include <stdlib.h>
#include <unistd.h>
int main(void) {
    static char line[1 << 16];
    ssize_t got, count = 0;
    while ((got = read(0, line, sizeof line)) > 0)
        count += got;
    free(malloc((count < 300 ? count : 300) << 22));
    return 0;
}
"""
# A program that allocates a block and answers for each line, and has the fault that FAKE_BUG names.
LINES = """
#include <stdlib.h>
#include <string.h>
#include <unistd.h>
static int has(const char *fault) { return !strcmp(getenv("FAKE_BUG"), fault); }
static int tell(int to, const char *text) { return write(to, text, strlen(text)) > 0; }
int main(int count, char **words) {
    char line[4096], *first = malloc(10), *block;
    int status = 0;
    if (!first)
        return tell(2, "ERROR: out of memory\\n");
    if (!getenv("REFUSE") && has("allocates otherwise"))
        free(malloc(3));
    while (read(0, line, sizeof line) > 0) {
        block = malloc(20);
        if (block && count > 2 && has("allocates over files"))
            free(malloc(5));
        if (block)
            tell(1, has("prints more") ? "11\\n" : "10\\n");
        else
            status = tell(1, "ERROR: out of memory\\n");
        free(block);
    }
    if (has("allocates late"))
        free(malloc(7));
    if (getenv("REFUSE") && has("prints otherwise"))
        tell(1, "x");
    if (has("says no memory"))
        tell(2, "ERROR: out of memory\\n");
    free(first);
    return status;
}
"""
TOLD, SAYS = 'fputs("ERROR: out of memory\\n", stderr)', 'fputs("rrdi: it is so\\n", stderr)'
SMALL_FAULTS = {f"{TOLD}; return 1": True, f"{TOLD}; return 0": False, "return 1": False, "abort()": False,
                f"read(0, words, 1); {TOLD}; return 1": False, f'write(1, "x", 1); {TOLD}; return 1': False,
                f"malloc(5); {TOLD}; return 1": False}
ADVICE = {f"if (block) {SAYS}": True, f"if (block) {SAYS}; else return 1": False,
          'if (!block) fputs("other\\n", stderr)': False,
          'if (!block) puts("other")': False}
REFUSES = 'fputs("ERROR: no sample\\n", stderr)'
SAID = {f"{REFUSES}; if (block && more) {SAYS}": True, f"if (more) {REFUSES}; else {TOLD}; if (block && more) {SAYS}": False,
        f'{REFUSES}; if (block && more) {SAYS}; else fputs("rrdi: other\\n", stderr)': False,
        f"if (block) {REFUSES}; else puts(\"0\"); if (block && more) {SAYS}": False}
SOURCES = [*((SMALL, fault, is_right) for fault, is_right in SMALL_FAULTS.items()),
           *((ADVISING, fault, is_right) for fault, is_right in ADVICE.items()),
           *((SAYING, fault, is_right) for fault, is_right in SAID.items())]
TWO_LINES = Growing("two lines", ["batch"], "last\nlast\n", text="10\n10\n")
LINES_FAULTS = {"": TWO_LINES, "prints more": TWO_LINES, "allocates late": TWO_LINES, "allocates otherwise": TWO_LINES,
                "prints otherwise": TWO_LINES, "says no memory": TWO_LINES,
                "allocates over files": Growing("over a file", ["batch", FILE], "last\n"),
                "other texts": Growing("a defined one", ["batch"], "info\nlast\n",
                                       commands=[definitions.Info(), definitions.Last()])}


@pytest.mark.parametrize("source, fault, is_right", SOURCES, ids=range(len(SOURCES)))
def test_growths_find(source: str, fault: str, is_right: bool, between_all: str, folder: Path, planted: Check) -> None:
    program = fakes.compiled(folder / "it", source.replace("FAULT", fault))
    test_growths.try_task(Runner(program, between_all, folder), Growing("a task", ["last", FILE]), "REFUSE", planted)
    rejects(planted, not is_right)


@pytest.mark.parametrize("fault", LINES_FAULTS)
def test_growths_of_lines_find(fault: str, bugs: Any, between_all: str, folder: Path, planted: Check) -> None:
    bugs(fault)
    program = fakes.compiled(folder / "lines", LINES)
    test_growths.try_task(Runner(program, between_all, folder), LINES_FAULTS[fault], "REFUSE", planted)
    rejects(planted, fault)


@pytest.mark.parametrize("source, wrong", [(GREEDY, 7), ("int main(void) { return 1; }", 8),
                                           (SMALL.replace("FAULT", "return 0"), 0)])
def test_memory_finds(source: str, wrong: int, between_all: str, folder: Path, planted: Check) -> None:
    test_growths.try_memory(Runner(fakes.compiled(folder / "it", source), between_all, folder), planted)
    assert len(planted.faults) == wrong and planted.tried == {test_growths.SIZES: 7}


# A program of three tests: the first passes whatever is refused, the second ends with an error, and the third has a
# fault.
TESTS = """
#include <stdio.h>
#include <stdlib.h>
#include <string.h>
int main(int count, char **words) {
    if (!strcmp(words[1], "--list"))
        return printf("a::growth: test\\nb::growth: test\\nc::growth: test\\n") < 0;
    if (!strcmp(words[1], "FREE"))
        return 0;
    char *block = malloc(100);
    if (block) {
        strcpy(block, words[1]);
        block = realloc(block, 1000);
    }
    if (block && puts(block) > 0)
        return END;
    if (!strcmp(words[1], "b::growth"))
        return fprintf(stderr, "no memory\\nthe test failed\\n") ? 101 : 0;
    if (!strcmp(words[1], "c::growth"))
        FAULT;
    return 0;
}
"""


@pytest.mark.parametrize("fault, free, end, is_right", [
    ("return 0", "", "0", True), ("abort()", "", "0", False), ("return 1", "", "0", False),
    ("return 101", "", "0", False),
    ('return fprintf(stderr, "it failed\\n") ? 101 : 0', "", "0", False), ("return 0", "a::growth", "0", False),
    ("return 0", "", "1", False)], ids=range(7))
def test_growths_in_tests_find(fault: str, free: str, end: str, is_right: bool, between_all: str, folder: Path,
                               planted: Check) -> None:
    program = fakes.compiled(folder / "it", TESTS.replace("FAULT", fault).replace("FREE", free).replace("END", end))
    test_growths_in_tests.try_tests(program, between_all, folder, planted)
    rejects(planted, not is_right)


def test_growths_in_no_tests(between_all: str, folder: Path, planted: Check) -> None:
    test_growths_in_tests.try_tests(Program("/bin/true"), between_all, folder, planted)
    assert planted.faults


# ---- locks, full disks and names

LOCKED = [partial(test_locks.test_under_a_lock, lock=lock) for lock in (fcntl.LOCK_EX, fcntl.LOCK_SH)]
PAUSES = [partial(test_locks.test_pauses, words=words) for words in test_locks.WORDS]
LIMITS = [partial(test_full_disks.test_limits, rows=300, full=full) for full in (False, True)]
MOVED = [partial(test_names.test_a_file_moved_meanwhile, move=move, words=words)
         for move in (test_names.replace, test_names.unlink) for words in test_names.COMMANDS]
CROWD = [partial(test_locks.crowd, has_reader=True, writers=12)]
EXCLUSION, WAITING = [test_locks.test_exclusion], [test_locks.test_waiting]
FULL, READ_ONLY = [test_full_disks.test_a_full_disk], [test_full_disks.test_a_read_only_mount]
ODD, LINKS = [test_full_disks.test_what_is_no_file], [test_names.test_links]
DANGLING, MADE = [test_names.test_a_dangling_link], [test_names.test_a_file_made_meanwhile]
COPIES, LONG = [test_names.test_copies], [partial(test_locks.test_long_pauses, value="60")]
# A fault of the small program, and the tests of which each list finds it.
LOST: dict[str, Sequence[list[Any]]] = {
    "reads-without-lock": [LOCKED], "creates-without-lock": [LOCKED], "changes-share": [LOCKED, EXCLUSION],
    "no-reason": [LOCKED, FULL, ODD, READ_ONLY], "wrong-reason": [EXCLUSION, MADE, PAUSES],
    "never-waits": [WAITING, PAUSES, LONG],
    "never-sleeps": [WAITING, PAUSES], "sleeps-long": [PAUSES], "no-tail,reads-anything": [LIMITS],
    "writes-devices": [ODD],
    "loses-updates": [CROWD], "loses-tunes": [CROWD], "refuses-some": [CROWD], "refuses-all": [CROWD], "fails-to-read": [CROWD],
    "prints-more": [EXCLUSION],
    "touches-file": [EXCLUSION], "keeps-other-bytes": [FULL, LIMITS], "forgets-change": [EXCLUSION, LIMITS],
    "opens-to-write": [READ_ONLY],
    "writes-first": [READ_ONLY], "hides-failure": [FULL], "overwrites-new": [MADE], "breaks-links": [LINKS, DANGLING],
    "stays-marked": [LIMITS], "keeps-old-name": [MOVED], "refuses-pipes": [ODD], "replaces-pipes": [ODD],
    "leaves-files": [LINKS, COPIES],
    "reverts-less": [COPIES], "refuses-moved": [COPIES], "opens-pipes": [ODD], "prints-late": [EXCLUSION],
}
# Those after which a run waits for something for good, so that the test waits for fewer seconds.
HANGING, SHORT_HANG = ("opens-pipes", "prints-late"), 3


def try_lost(tests: list[Any], fake: Program, folder: Path, between: str) -> Check:
    """Runs tests, each in a folder of its own."""
    check = Check()
    for test in tests:
        test(Losses(fake, Path(tempfile.mkdtemp(dir=folder)), check, between))
    return check


@pytest.mark.parametrize("bug", LOST)
def test_losses_find(bug: str, fake: Program, bugs: Any, between: str, folder: Path, planted: Check,
                     monkeypatch: Any) -> None:
    monkeypatch.setattr(support_losses, "HANG", SHORT_HANG if bug in HANGING else support_losses.HANG)
    bugs(bug)
    for tests in LOST[bug]:
        found = try_lost(tests, fake, folder, between)
        planted.places |= found.places
        rejects(found, True)


@pytest.mark.parametrize("tests", [LOCKED, EXCLUSION, PAUSES, LONG, WAITING, CROWD, FULL, LIMITS, READ_ONLY, ODD, LINKS,
                                   DANGLING, MADE, MOVED,
                                   COPIES], ids=range(15))
def test_losses_accept(tests: list[Any], fake: Program, bugs: Any, between: str, folder: Path) -> None:
    bugs("")
    rejects(try_lost(tests, fake, folder, between), False)


@pytest.mark.parametrize("bug, is_right", [("", True), ("no-tail,reads-anything,slow", False),
                                           ("forgets-change", False)])
def test_random_kills_find(bug: str, is_right: bool, fake: Program, bugs: Any, between: str, folder: Path,
                           planted: Check) -> None:
    bugs(bug)
    test_random_kills.kill(Losses(fake, folder, planted, between), 25_000, 16, ["update", "170:5"], 40)
    rejects(planted, not is_right)


def test_no_random_kill(fake: Program, bugs: Any, between: str, folder: Path, planted: Check, monkeypatch: Any) -> None:
    bugs("")
    monkeypatch.setattr(test_random_kills, "killed_at", lambda *words: False)
    test_random_kills.kill(Losses(fake, folder, planted, between), 4, 16, ["update", "170:5"], 1)
    assert len(planted.faults) == 1


# ---- commands, streams and advice

DOES_NOTHING = [(module, name) for module in (test_advice, test_commands, test_streams)
                for name in vars(module) if name.startswith("test_")]


@pytest.mark.parametrize("module, name", DOES_NOTHING, ids=[name for _, name in DOES_NOTHING])
def test_a_program_that_does_nothing(module: Any, name: str, folder: Path, planted: Check,
                                     request: pytest.FixtureRequest) -> None:
    """Runs each test of commands on a program that does nothing; a test with a table on the first row."""
    test, t = getattr(module, name), Runs(Program("/bin/true"), folder, planted)
    marks = [mark for mark in getattr(test, "pytestmark", []) if mark.name == "parametrize"]
    given = dict(zip(re.split(", ", marks[0].args[0]), marks[0].args[1][0])) if marks else {}
    wanted = [word for word in inspect.signature(test).parameters if word not in given]
    try:
        test(**given, **{word: t if word in ("t", "net") else request.getfixturevalue(word) for word in wanted})
    except TypeError:
        pass  # it looks at a file that is not there
    else:
        rejects(planted, True)


def looked_at(planted: Check, folder: Path, is_right: bool, answer: tuple[int, str, str],
              look: Callable[[Runs], object], more: str = "") -> None:
    found = Check()
    look(Runs(fakes.answering(folder / "it", *answer, more), folder, found))
    planted.places |= found.places
    rejects(found, not is_right)


def test_each_judgement_of_runs(folder: Path, planted: Check) -> None:
    """Gives each judgement programs that answer otherwise in one respect."""
    (folder / "a net.rrdi").write_bytes(b"held")
    run = lambda t: t.run(["last", "a net.rrdi"], 1, "10\n", error("usage"))
    same = lambda t: t.same(["last", "a net.rrdi"], 1, error("usage"))
    clock = lambda t: test_streams.near_now(t, ["last"])
    misuse = lambda t: t.run(["last"], 2, "", MISUSE)
    others, not_ours = test_commands.test_files_of_others, (1, "", error("file: not ours"))
    for is_right, answer, look, more in [
            (True, (1, "10\n", error("usage")), run, ""), (False, (0, "10\n", error("usage")), run, ""),
            (False, (1, "11\n", error("usage")), run, ""), (False, (1, "10\n", error("use")), run, ""),
            (True, (1, "", error("usage")), same, ""), (False, (1, "", error("usage")), same, 'printf x >>"$2"'),
            (False, (0, "10\n", ""), clock, ""), (True, (0, "", ""), clock, "date +%s"),
            (False, (0, "", ""), clock, "date -d '1 hour' +%s"),
            (False, (0, "", ""), clock, "date -d '1 minute ago' +%s"),
            (True, (2, "", MISUSE + " WORD.."), misuse, ""), (False, (2, "", error("no usage")), misuse, ""),
            (True, not_ours, others, ""), (False, (0, "", ""), others, ""),
            (False, not_ours, others, 'printf RRDI | dd of="$2" conv=notrunc status=none')]:
        looked_at(planted, folder, is_right, answer, look, more)


def test_streams_find(fake: Program, bugs: Any, between: str, folder: Path, planted: Check) -> None:
    """The small program leaves a file at the number that it gets."""
    bugs("")
    test_streams.test_numbers_of_streams(Runs(fake, folder, planted), between)
    assert planted.faults


@pytest.mark.parametrize("closed, words, now, is_right", [
    ([2], ["update"], b"held", False), ([2], ["update"], b"new", True), ([1], ["batch"], b"held", True),
    ([1], ["batch"], b"new", True),
    ([1], ["batch"], b"text", False), ([0], ["batch"], b"new", False), ([0], ["batch"], b"held", True),
    ([2], ["batch"], b"held", False),
    ([0, 1, 2], ["last"], b"ERROR", False)])
def test_the_file_without_streams(closed: list[int], words: list[str], now: bytes, is_right: bool) -> None:
    assert test_streams.is_left_right(closed, words, now, b"held", b"new") == is_right


@pytest.mark.parametrize("closed, words, told, wanted", [
    ([2], ["update"], (1, "", "why"), (1, "", "")), ([1], ["last"], (0, "10", ""), (1, "", error("write failed"))),
    ([1], ["update"], (0, "", ""), (0, "", "")), ([0], ["batch"], (0, "10", ""), (1, "", error("read failed")))])
def test_the_answer_without_streams(closed: list[int], words: list[str], told: Any, wanted: Any) -> None:
    assert test_streams.told_without(closed, words, told) == wanted


def test_the_memory_of_a_long_file() -> None:
    more = test_streams.MISCOUNTED
    cheap = [test_streams.is_cheap(cost, share) for cost, share in (
        (2_001 + more, 0), (2_000 + more, 0), (-200 - more, 0), (3_000 + more, 1_000))]
    assert cheap == [False, True, False, True]


# ---- the bytes that an update writes

ONLY_UPDATES = '[ "$1" = update ] || exec "{0}" "$@"; '
WRITES = {"": "", "writes-all": "", "fails": ONLY_UPDATES + '"{0}" "$@"; exit 1',
          "is not created": '[ "$1" != batch ] || exit 1; exec "{0}" "$@"',
          "is idle": ONLY_UPDATES + "exit 0",
          "reverts twice": '[ "$1" != revert ] || "{0}" "$@"; exec "{0}" "$@"'}


@pytest.mark.parametrize("bug", WRITES)
def test_writes_find(bug: str, fake: Program, bugs: Any, folder: Path, planted: Check,
                     needs: Callable[..., None]) -> None:
    needs("strace")
    bugs(bug)
    program = fakes.answering(folder / "it", more=WRITES[bug].format(fake.path)) if WRITES[bug] else fake
    test_writes.measure(program, folder, test_writes.FILES[2 if bug == "writes-all" else 0], planted)
    rejects(planted, bug)


# ---- odd files

NOT_OURS = error("file: not ours")
OF_OTHERS = NOT_OURS + "rrdi: 4.rrdi is a file of RRDtool; rrdi-import converts it\n"


@pytest.mark.parametrize("answer, more, is_right", [
    ((1, "", NOT_OURS), "", True), ((0, "", ""), "", True), ((1, "", OF_OTHERS), "", False),
    ((0, "", NOT_OURS), "", False),
    ((1, "", error("usage")), "", False), ((0, "0\n", ""), "", False), ((0, "", ""), 'printf x >>"$2"', False)])
def test_changed_bytes_find(answer: tuple[int, str, str], more: str, is_right: bool, folder: Path,
                            planted: Check) -> None:
    test_odd_files.change(fakes.answering(folder / "it", *answer, more), folder, b"RRDI\0\2", 4, planted)
    rejects(planted, not is_right)
    assert planted.tried[test_odd_files.CHANGED] == 255


@pytest.mark.parametrize("more, wrong", [("", 1), ('printf RRDI | dd of="$2" conv=notrunc 2>/dev/null', 254)])
def test_changed_marks_find(more: str, wrong: int, folder: Path, planted: Check) -> None:
    test_odd_files.change(fakes.answering(folder / "it", more=more), folder, b"RRDI\0\2", 3, planted)
    assert len(planted.faults) == wrong


@pytest.mark.parametrize("fault, answer, is_right", [
    ("", (1, "0\n", ""), False), ("", (0, "1\n", ""), False), ("", (1, "", NOT_OURS), False),
    ("not ours", (1, "", NOT_OURS), True),
    ("not ours", (0, "", NOT_OURS), False), ("not ours", (1, "", error("file: version")), False),
    ("not ours", (0, "0\n", ""), False)])
def test_limits_find(fault: str, answer: tuple[int, str, str], is_right: bool, folder: Path, planted: Check) -> None:
    test_odd_files.try_limit(fakes.answering(folder / "it", *answer), folder / "file", b"RRDI\0\1", fault, "a file",
                             planted)
    rejects(planted, not is_right)


@pytest.mark.parametrize("last, tuned, status, is_right", [
    ("0", "RRDI\\0\\2", 0, True), ("1", "RRDI\\0\\2", 0, False), ("0", "RRDI\\0\\2", 1, False),
    ("0", "RRDI\\0\\1", 0, False)])
def test_versions_find(last: str, tuned: str, status: int, is_right: bool, folder: Path, planted: Check) -> None:
    more = f"case $1 in tune) printf '{tuned}' >\"$2\"; exit {status};; esac"
    program = fakes.answering(folder / "it", 0, f"{last}\n", more=more)
    test_odd_files.try_limit(program, folder / "file", b"RRDI\0\1", "", "a file", planted)
    rejects(planted, not is_right)


def test_files_that_announce_much() -> None:
    assert [len(list(files(version))) for files in (test_odd_files.announcing, test_odd_files.at_limits)
            for version in (1, 2)] == [18, 18, 8, 8]
    over = [test_odd_files.is_over(*words) for words in ((2_000, 200), (2_001, 200), (5_000, 1_000_000))]
    assert over == [False, True, False]


@pytest.mark.parametrize("source", ["int main(void) { return 0; }",
                                    '#include <stdio.h>\nint main(void) { return puts("0") < 0; }'])
def test_small_files_find(source: str, between_all: str, folder: Path, planted: Check) -> None:
    """A program that takes each file for a new database: only the answer for a bad file is wrong."""
    test_odd_files.try_announcing(fakes.compiled(folder / "it", source), between_all, folder, 2, planted)
    rejects(planted, True)


WHOLE = "".join(f"{line}\n" for line in sorted(test_odd_files.WANTED))


@pytest.mark.parametrize("answer, count, is_right", [
    (Answer(0, WHOLE), test_odd_files.SIZE, True), (Answer(0, WHOLE), 1 << 32, False),
    (Answer(1, WHOLE), test_odd_files.SIZE, False),
    (Answer(0, WHOLE, "x"), test_odd_files.SIZE, False), (Answer(0, WHOLE.replace("undoable", "")), test_odd_files.SIZE,
                                                          False),
    (Answer(1, "", "ERROR: out of memory\n"), test_odd_files.SIZE, False), (Answer(-9), test_odd_files.SIZE, False)],
    ids=range(7))
def test_a_large_file_finds(answer: Answer, count: int, is_right: bool, planted: Check) -> None:
    test_odd_files.judge_large(answer, count, planted)
    rejects(planted, not is_right)


def test_the_length_of_a_large_file() -> None:
    assert sum(map(len, test_odd_files.pieces())) == test_odd_files.SIZE > 1 << 32
    assert test_odd_files.read_large(Program("/bin/true"), iter([bytes(1 << 20)] * 2))[0] == Answer(0)


# ---- worked batches

RIGHT = "case=a run=ended status=0 steps=5 output=expected\ncase=b run=ended status=1 output=expected\nlast\n"


@pytest.mark.parametrize("told, is_right", [
    (RIGHT, True), (RIGHT.replace("status=0", "status=1"), False), (RIGHT.replace("status=1", "status=0"), False),
    (RIGHT.replace("expected", "other", 1), False), (RIGHT.replace("case=b", "case=c"), False),
    (RIGHT.replace("ended", "stopped", 1), False),
    ("", False)], ids=range(7))
def test_cases_find(told: str, is_right: bool, planted: Check) -> None:
    test_cases.judge({"a": "1\n", "b": "ERROR: usage\n"}, told, planted)
    rejects(planted, not is_right)
    assert planted.tried[test_cases.CASES] == 2


# An `rt` that finds all output as expected, and ends with a status.
FAKE_RT = """#!/usr/bin/python3
import pathlib, sys
for file in sorted(pathlib.Path(sys.argv[3]).glob("*.stdout")):
    is_refused = any(line.startswith("ERROR: ") for line in file.read_text().splitlines())
    print(f"case={{file.stem}} run=ended status={{int(is_refused)}} steps=1 output=expected")
sys.exit({status})
"""


@pytest.mark.parametrize("status", [0, 1])
def test_the_status_of_cases(status: int, folder: Path, planted: Check, monkeypatch: Any) -> None:
    (folder / "rt").write_text(FAKE_RT.format(status=status))
    (folder / "rt").chmod(0o755)
    monkeypatch.setenv("PATH", f"{folder}:{os.environ['PATH']}")
    test_cases.try_cases(folder / "cases", planted)
    rejects(planted, status)
