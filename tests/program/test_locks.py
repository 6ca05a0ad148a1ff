# SPDX-License-Identifier: MIT OR Apache-2.0
"""Many programs use one file at once: they lock it, wait for each other, and lose no update (docs/files.md)."""
from __future__ import annotations

import errno
import fcntl
import itertools
import os
import re
import subprocess
import threading
import time
from collections import Counter
from pathlib import Path
from typing import NamedTuple, Sequence

import pytest

from support import between as calls_between
from support import losses as support_losses
from support import waits
from support.changes import LOCK_UN
from support.losses import CANNOT_OPEN, CANNOT_WRITE, FEW, TRIED, Losses, line_of
from support.program import Answer, environment, parted, put, waited

LEAST = {TRIED: 2_070}
WRITERS, ROUNDS = 200, 10
# The values of `RRDI_WAIT` for which a lock that is held for good is tried by each of these commands.
WORDS = (["update", "10:1"], ["last"], ["create", *FEW])


def on(file: Path, words: Sequence[str]) -> list[str]:
    """Returns the words of a command on a file."""
    return [words[0], str(file), *words[1:]]


def new_file(losses: Losses, name: str) -> Path:
    file = losses.folder / name
    losses.run(["create", file, *FEW])
    return file


@pytest.mark.parametrize("lock", [fcntl.LOCK_EX, fcntl.LOCK_SH], ids=["exclusive", "shared"])
def test_under_a_lock(losses: Losses, lock: int) -> None:
    """Checks the answer while another program holds a lock: at once with RRDI_WAIT=0, and with an unchanged file."""
    file = new_file(losses, "locked.rrdi")
    before = file.read_bytes()
    for words in (["last"], ["info"], ["update", "10:1"], ["tune", "-i", "g:1"], ["revert"],
                  ["resize", "0", "GROW", "1"], ["batch"],
                  ["create", *FEW]):
        is_read = words[0] in ("last", "info")
        wanted = CANNOT_WRITE if words[0] == "create" else "" if is_read and lock == fcntl.LOCK_SH else CANNOT_OPEN
        err = losses.while_held(file, lock, on(file, words), RRDI_WAIT="0").err
        told = (wanted, waited(0) if wanted else "")
        losses.check((parted(err), file.read_bytes()) == (told, before), f"under a lock {words} failed with {err!r}")


def test_exclusion(losses: Losses) -> None:
    """Checks the lock that a batch holds while it waits for its input: no other program changes or reads FILE."""
    file = new_file(losses, "excluded.rrdi")
    before = file.read_bytes()
    batch = losses.batch(file, "update 10:1\nlast\n")
    losses.check(line_of(batch) == "10\n", "a batch does not print the result of its second line")
    for words, wanted in ((["last"], CANNOT_OPEN), (["update", "20:1"], CANNOT_OPEN), (["batch"], CANNOT_OPEN),
                          (["create", *FEW], CANNOT_WRITE)):
        answer = losses.run(on(file, words), env={"RRDI_WAIT": "0"})
        losses.check.count(TRIED)
        losses.check((*answer[:2], parted(answer.err)) == (1, "", (wanted, waited(0))),
                     f"while a batch holds the file, {words[0]} ended with {answer}")
    losses.check(file.read_bytes() == before, "a file changes while a batch holds it")
    batch.communicate(timeout=support_losses.HANG)
    losses.check(losses.run(["last", file]) == Answer(0, "10\n"), "a batch's change is not in its file")


# ---- pauses, which take no time in these runs


def held_for_good(losses: Losses, file: Path, words: Sequence[str], value: str, milliseconds: int) -> None:
    log = losses.folder / "log"
    log.unlink(missing_ok=True)
    settings = calls_between.settings(losses.library, LOG=log, NO_PAUSES=1, RRDI_WAIT=value)
    answer = losses.while_held(file, fcntl.LOCK_EX, on(file, words), **settings)
    wrong = waits.faults(calls_between.events_of(log), milliseconds)
    told = (CANNOT_WRITE if words[0] == "create" else CANNOT_OPEN, waited(milliseconds // 1_000))
    is_right = answer.status == 1 and parted(answer.err) == told and not wrong
    losses.check(is_right, f"{words[0]} with RRDI_WAIT={value!r}: {answer}, {wrong}")


def held_for_a_while(losses: Losses, file: Path, words: Sequence[str], refused: int) -> None:
    """Lets the first tries of a run find the lock taken."""
    log, before = losses.folder / "log", file.read_bytes()

    def run(**settings: object) -> tuple[Answer, list[calls_between.Event]]:
        put(file, before)
        log.unlink(missing_ok=True)
        answer = losses.run(on(file, words), env=calls_between.settings(losses.library, LOG=log, NO_PAUSES=1,
                                                                        **settings))
        return answer, calls_between.events_of(log)

    calls = calls_between.calls_of(run()[1])
    number = next((number for number, call in enumerate(calls, 1) if call.kind == "flock" and not call.size & LOCK_UN),
                  0)
    answer, events = run(CALL=number, WHY=errno.EAGAIN, MOVES=[-1] * refused) if refused else run()
    put(file, before)
    wrong = waits.faults(events, 5_000, refused)
    losses.check.count(TRIED)
    losses.check(number > 0 and answer.status == 0 and not wrong,
                 f"{words[0]}, {refused} tries are refused: {answer}, {wrong}")


@pytest.mark.parametrize("words", WORDS, ids=lambda words: words[0])
def test_pauses(losses: Losses, words: Sequence[str]) -> None:
    """Checks for how long a run waits for a lock that another program holds, and that it takes the lock at its first
    try after that program has given it up."""
    file = new_file(losses, "pauses.rrdi")
    for value, milliseconds in waits.WAITS.items():
        held_for_good(losses, file, words, value, milliseconds)
    for refused in (0, 1, 2, 6, 16):
        held_for_a_while(losses, file, words, refused)


@pytest.mark.parametrize("value", waits.LONG_WAITS)
def test_long_pauses(losses: Losses, value: str) -> None:
    held_for_good(losses, new_file(losses, "pauses.rrdi"), ["last"], value, waits.LONG_WAITS[value])


def test_waiting(losses: Losses) -> None:
    """Checks that a run really pauses, waits for a lock, and gets the lock when it is free."""
    file = new_file(losses, "waited.rrdi")
    begin = time.monotonic()
    answer = losses.while_held(file, fcntl.LOCK_EX, ["update", file, "10:1"], RRDI_WAIT="1")
    seconds = time.monotonic() - begin
    losses.check(parted(answer.err) == (CANNOT_OPEN, waited(1)) and seconds > 0.9,
                 f"RRDI_WAIT=1: {answer} after {seconds:.1f} s")
    for number, words in enumerate(WORDS):
        with open(file, "rb") as holder:
            fcntl.flock(holder, fcntl.LOCK_EX)
            child = losses.waiting(on(file, words), losses.folder / f"log{number}")
            losses.check(child.poll() is None, f"{words} did not wait for a lock")
        _, err = child.communicate(timeout=support_losses.HANG)
        losses.check(child.returncode == 0, f"{words} did not succeed when the lock was free: {err}")
        losses.check.count(TRIED)


# ---- many at once


class Write(NamedTuple):
    """A run of an update or a tune: its words, its status and its fault."""

    words: list[str]
    status: int
    err: str

    @property
    def number(self) -> int:
        """The time of an update, or the minimum of a tune."""
        return int(re.findall(r"\d+", self.words[-1])[0])


def at_once(losses: Losses, file: Path, commands: Sequence[list[str]]) -> list[Write]:
    """Starts commands at one time: each says when it is ready, and waits until a pipe is closed. They wait for the lock for as
    long as it takes, so that no load of the machine refuses one."""
    (read, write), (ready, says) = os.pipe(), os.pipe()
    script = 'echo; read go; exec "$@" >/dev/null'
    env = environment({"RRDI_WAIT": "3600"})
    children = [subprocess.Popen(["sh", "-c", script, "sh", losses.program.path, *on(file, words)], stdin=read, stdout=says,
                                 stderr=subprocess.PIPE, text=True, env=env) for words in commands]
    os.close(says)
    begun = 0
    while begun < len(children):
        begun += len(os.read(ready, len(children))) or len(children)
    for number in (ready, read, write):
        os.close(number)
    errors = [child.communicate(timeout=support_losses.HANG)[1] for child in children]
    return [Write(words, child.returncode, err) for words, child, err in zip(commands, children, errors)]


STATE = re.compile(r"^last_update = (\d+)\n(?:.*\n)*?ds\[0\]\.min = ([\w.]+)$", re.MULTILINE)


def taken_back(losses: Losses, file: Path, writers: int) -> list[tuple[str, ...]]:
    """Returns the last times of a file and the minimums of its source, the newest first, as reverts restore them."""
    told = losses.run(["batch", file], "info\nrevert\n" * (writers + 1)).out
    return [state for state, _ in itertools.groupby(STATE.findall(told))]


def crowd(losses: Losses, has_reader: bool, writers: int = WRITERS) -> None:
    """Runs many updates and tunes at once, and perhaps a reader beside them: the file has exactly those that ended well. Most of
    the updates are refused, as a later one came first; no tune is."""
    file = losses.folder / "crowd.rrdi"
    losses.run(["create", file, "--journal", "1000", *(word.replace(":U:U", ":0:U") for word in FEW)])
    read: Counter[object] = Counter()
    is_over = threading.Event()

    def reader() -> None:
        while not is_over.is_set():
            status, _, err = losses.run(["last", file])
            read[parted(err)[0] or status] += 1

    beside = threading.Thread(target=reader)
    if has_reader:
        beside.start()
    answers = at_once(losses, file, [["update", f"{10 * at}:1"] if at % 2 == 0 else ["tune", "--minimum", f"g:{at}"]
                                     for at in range(1, writers + 1)])
    is_over.set()
    if has_reader:
        beside.join()
    losses.check.count(TRIED, len(answers))
    for words, status, err in answers:
        losses.check(status == 0 or words[0] == "update" and err.startswith("ERROR: not later than "),
                     f"{words} ended with {status}, {err!r}")
    check_all_there(losses, taken_back(losses, file, writers), [answer for answer in answers if answer.status == 0])
    for answer in read:
        losses.check(answer in (0, CANNOT_OPEN), f"the reader failed with {answer!r}")


def check_all_there(losses: Losses, states: list[tuple[str, ...]], accepted: list[Write]) -> None:
    """Checks that the states through which a file has gone are those of the changes that were accepted, and no other ones."""
    times, tuned = ([answer.number for answer in accepted if answer.words[0] == name] for name in ("update", "tune"))
    losses.check(len(states) == len(accepted) + 1, f"{len(accepted)} changes ended with 0, and the file had {len(states) - 1}")
    found = [int(time) for time, _ in itertools.groupby(time for time, _ in states)]
    losses.check(found == sorted(times, reverse=True) + [0], "the file does not have exactly the updates that ended with 0")
    minimums = [int(float(least)) for least, _ in itertools.groupby(least for _, least in states)]
    losses.check(sorted(minimums) == [0, *sorted(tuned)], "the file does not have exactly the tunes that ended with 0")
    losses.check(bool(times), "no update was accepted")


@pytest.mark.xdist_group("locks")
@pytest.mark.parametrize("turn", range(ROUNDS))
def test_many_updates_at_once(losses: Losses, turn: int) -> None:
    crowd(losses, has_reader=turn % 2 == 1)
