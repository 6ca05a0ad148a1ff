# SPDX-License-Identifier: MIT OR Apache-2.0
"""Records numbers of this machine, once; cron repeats it.

usage: rrdi-record [--load] [--memory] [--disk DIRECTORY] [--network INTERFACE]
                   [--journal N] FILE

examples, for crontab -e:
  * * * * * RRDI=/usr/local/bin/rrdi /usr/local/bin/rrdi-record $HOME/load.rrdi
  * * * * * RRDI=/usr/local/bin/rrdi /usr/local/bin/rrdi-record --memory --disk / $HOME/memory.rrdi

options, of which the first four say what is recorded (default: --load):
  --load               load1, load5 and load15, the load averages
  --memory             mem_used, mem_cached, mem_free and swap_used, in bytes
  --disk DIRECTORY     disk_used and disk_free of its file system, in bytes
  --network INTERFACE  net_in and net_out of eth0, for example, in bytes per
                       second
  --journal N          how many samples rrdi-fix and rrdi revert can take back,
                       if this run creates FILE (default: 60, an hour)
  -h, --help           show this help and exit
  --version            show the version and exit

files:
  FILE                 the database, which the first run creates, with a year
                       of what its options record
  FILE.1, .2, .3       copies, an hour apart, the newest first
  FILE.refused         a damaged database, which a copy, or an empty one,
                       replaced
  FILE.lock            held while rrdi-record runs

Each change is flushed to the disk, as with RRDI_SYNC=1. A FILE of another
kind, or of a newer rrdi, is an error and stays as it is.

environment:
  RRDI                 the program to run instead of the C library
  LOADAVG              the file with the averages (default: /proc/loadavg)
  RRDI_PROC            the directory of the system's files (default: /proc)

docs/recording.md has more, and says how to record something else.

Exit status: 0; 1 if the sample was not recorded; 2 after wrong arguments.
"""
from __future__ import annotations

import os
import shutil
from contextlib import ExitStack, contextmanager, suppress
from functools import partial
from io import FileIO
from typing import Callable, Dict, Iterator, List, NamedTuple, Optional

from ..damaged import held, is_being_made
from ..errors import NOT_OURS, TRAILING, TRUNCATED, fault_of
from ..limits import MOST_CHANGES
from ..locks import EXCLUSIVE, check_regular, close, lock, open_file, open_regular
from ..making import NewFile, is_there, make, take_mode
from ..reader.stored import MARK
from . import machine, program
from .command_line import Failure, Tool, WrongArguments, called_name, error_text, say
from .machine import Number
from .options import number_of

WHAT = ("--load", "--memory", "--disk", "--network")  # the order of the sources
COPIES = 3
HOUR = 3_600  # seconds between copies
PATIENCE = 30.0  # seconds for which a run waits for another run
HEARTBEAT = 150  # seconds: one run that fails leaves no gap
JOURNAL = "60"  # changes: an hour. Each update writes the journal anew, so a day of them would be dear
ARCHIVES = ["RRA:AVERAGE:0.5:1:1440", "RRA:AVERAGE:0.5:10:1008", "RRA:AVERAGE:0.5:180:3000", "RRA:MAX:0.5:180:3000"]


@contextmanager
def alone(path: str) -> Iterator[None]:
    """Holds the lock of the file at `path`, which all runs for one database lock.

    # Errors
    `Failure` if another program holds the lock for half a minute.
    """
    file = open_file(path, os.O_WRONLY | os.O_CREAT, 0o666)
    try:
        take_turn(file, path)
        yield
    finally:
        close(file)


def take_turn(file: FileIO, path: str) -> None:
    try:
        lock(file, EXCLUSIVE, PATIENCE)
    except BlockingIOError:
        raise Failure(f"timed out after {PATIENCE:.0f} seconds waiting for {path}") from None


def copy(old: str, new: str) -> None:
    """Copies a file. The copy gets its name only when it is complete, and takes the place of a link of this name."""
    with open_regular(old) as source, NewFile(new, follows=False, mode=0o600) as made:
        fill_copy(old, source, new, made.unfinished)
        made.replace()


def fill_copy(old: str, source: FileIO, new: str, unfinished: str) -> None:
    """Copies a file that was opened before `new` is being made at a path: whoever may write the folder may put a link in the
    place of the old one then. The copy has its group, its mode and its access control list.

    # Errors
    `OSError` with the name of the file that cannot be read or made: Python's own names the old one if the disk is full, too.
    """
    try:
        with open(unfinished, "wb") as copied:
            shutil.copyfileobj(source, copied)
            take_mode(copied.fileno(), os.fstat(source.fileno()), source.fileno())
    except OSError as error:
        raise OSError(error.errno, error.strerror or str(error), old if error.filename == old else new) from None


Fill = Callable[[str], object]  # creates an empty database


def fill_for(file: str, numbers: List[Number], journal: str) -> Fill:
    """Returns what creates an empty database for these numbers. An error names the file, and not what will become it."""
    definitions = [f"DS:{number.name}:{number.type}:{HEARTBEAT}:0:U" for number in numbers]

    def fill(new: str) -> None:
        with program.naming(file):
            program.ask(["create", new, "--step", "60", "--journal", journal, *definitions, *ARCHIVES])
    return fill


# ---- Damaged files


class Condition(NamedTuple):
    """The last time of a database, or how the database is damaged."""

    last: int
    damage: str = ""


def look(file: str) -> Condition:
    """Asks for the last time of a database.

    # Errors
    `Failure` if the file cannot be opened or read, or is no damaged database: a file of another kind, of a newer rrdi, or
    one that another program is making.
    """
    try:
        return Condition(program.last(file))
    except program.CommandFailed as failed:
        reason = str(failed)
        fault, at = fault_of(reason)
        if not TRUNCATED <= fault <= TRAILING or not has_mark(file):
            raise Failure(failed.of_file(file)) from None
        if fault == TRUNCATED and at == 0 and is_being_made(file):
            raise Failure(f"{file}: {reason}; another program may be making the file") from None
        return Condition(0, reason.partition(": ")[2])


def has_mark(file: str) -> bool:
    """Checks whether a file begins as a database does, as far as there is something left of it."""
    with open(file, "rb") as opened:
        return MARK.startswith(opened.read(len(MARK)))


def last_of_copy(path: str) -> int:
    """Returns the last time of a copy; -1 if there is none, or it is damaged.

    # Errors
    - `CommandFailed` if the copy cannot be opened or read: there may be rows in it.
    - `OSError` if the system can't look at it.
    """
    try:
        return program.last(path)
    except program.CommandFailed as failed:
        if NOT_OURS <= fault_of(str(failed))[0] <= TRAILING or not is_there(path):
            return -1
        raise program.CommandFailed(failed.of_file(path)) from None


def newest_copy(file: str) -> str:
    """Returns the newest readable copy of a file; nothing if there is none.

    # Errors
    Those of `last_of_copy`, if a copy may be readable later, and no other one is readable now.
    """
    failure: Optional[Exception] = None
    for number in range(1, COPIES + 1):
        try:
            if last_of_copy(f"{file}.{number}") >= 0:
                return f"{file}.{number}"
        except (program.CommandFailed, OSError) as failed:
            failure = failed
    if failure is not None:
        raise failure
    return ""


def restore(file: str, damage: str, fill: Fill) -> None:
    """Replaces a damaged file by its newest readable copy, or by an empty database, and keeps the damaged one. What replaces
    it gets its owner, if this user may give that, and its mode.

    # Errors
    `Failure` if another program uses the file or has changed it meanwhile, and those of `newest_copy`.
    """
    with held(file, lambda path: look(path).damage != "") as is_held:
        if not is_held:
            raise Failure(f"{file} has changed meanwhile")
        copy(file, file + ".refused")
        chosen, path = newest_copy(file), os.path.realpath(file)
        with ExitStack() as opened:
            source = opened.enter_context(open_regular(chosen)) if chosen else None
            made = opened.enter_context(NewFile(path, follows=False, mode=0o600 if source else 0o666))
            if source:
                fill_copy(chosen, source, file, made.unfinished)
            else:
                fill(made.unfinished)
            found = os.stat(path, follow_symlinks=False)
            check_regular(found)
            with suppress(PermissionError):
                made.take_owner(found, path)
            made.replace()
    what = f"; restored from {chosen}" if chosen else " and no copy is readable; started an empty database"
    say(called_name(TOOL), f"{file} is damaged ({damage}){what}")


def make_ready(file: str, fill: Fill) -> int:
    """Creates or restores the file if necessary, and returns its last time.

    # Errors
    `Failure` if the file cannot be opened or read, or is no database of this rrdi.
    """
    if not is_there(file):
        make(file, fill)  # or another program has made the file meanwhile
    found = look(file)
    if found.damage:
        restore(file, found.damage, fill)
        found = look(file)
    return found.last


def keep_copies(file: str, last: int) -> None:
    """Copies the file if the newest copy is at least an hour older, or is newer: then a clock that was ahead was set back, and
    the file reverted. Renames the older copies.

    # Errors
    Those of `last_of_copy`, and `OSError` if the file cannot be copied, where the copies stay as they are, or if a copy
    cannot be renamed, where the oldest may be gone.
    """
    if 0 <= last - max(last_of_copy(f"{file}.1"), 0) < HOUR:
        return
    # A link of this name goes on with what it leads to.
    with open_regular(file) as source, NewFile(f"{file}.1", follows=False, mode=0o600) as made:
        fill_copy(file, source, f"{file}.1", made.unfinished)
        # Up to the first name that is free, as one is after a kill.
        free = next((number for number in range(1, COPIES) if not is_there(f"{file}.{number}")), COPIES)
        for number in range(free, 1, -1):
            rename_copy(f"{file}.{number - 1}", f"{file}.{number}")
        made.replace()


def rename_copy(before: str, after: str) -> None:
    try:
        os.rename(before, after)
    except OSError as error:
        raise OSError(error.errno, error.strerror, f"{before} as {after}") from None


class RecordArguments(NamedTuple):
    """The arguments: what reads the numbers, in their order, the database, and how deep the journal of a new one is."""

    readers: List[Callable[[], List[Number]]]
    file: str
    journal: str


def read_arguments(words: List[str]) -> RecordArguments:
    readers: Dict[str, Callable[[], List[Number]]] = {}
    journal, words = "", list(words)
    while words and words[0].startswith("--"):
        option = words.pop(0)
        if option == "--journal" and words and not journal:
            journal = depth_of(words.pop(0))
            continue
        if option in readers or option not in WHAT:
            raise WrongArguments
        if option in ("--load", "--memory"):
            readers[option] = machine.load if option == "--load" else machine.memory
        elif words and words[0]:
            readers[option] = partial(machine.disk if option == "--disk" else machine.network, words.pop(0))
        else:
            raise WrongArguments
    if len(words) != 1 or not words[0] or words[0].startswith("-"):
        raise WrongArguments
    return RecordArguments([readers[option] for option in WHAT if option in readers] or [machine.load], words[0],
                           journal or JOURNAL)


def depth_of(text: str) -> str:
    """Returns the depth of a journal.

    # Errors
    `WrongArguments` if no journal has this depth.
    """
    depth = number_of({"journal": text}, "journal") or 0
    if not 1 <= depth <= MOST_CHANGES:
        raise WrongArguments(f"--journal must be 1 to {MOST_CHANGES}, not {depth}")
    return str(depth)


def record(words: List[str]) -> int:
    arguments = read_arguments(words)
    file = arguments.file
    os.environ["RRDI_SYNC"] = "1"
    with alone(file + ".lock"):
        numbers = [number for reader in arguments.readers for number in reader()]
        last = make_ready(file, fill_for(file, numbers, arguments.journal))
        try:
            keep_copies(file, last)
        except (program.CommandFailed, OSError) as failed:  # the sample is recorded all the same
            why = error_text(failed) if isinstance(failed, OSError) else str(failed)
            say(called_name(TOOL), f"no copy was made: {why}; {file} is as it was")
        update(file, numbers)
    return 0


def update(file: str, numbers: List[Number]) -> None:
    """Adds a sample. Sources of the file that are not among the numbers are unknown.

    # Errors
    `Failure` if rrdi refuses the sample, for example because the file lacks a source.
    """
    names = [number.name for number in numbers]
    try:
        program.ask(["update", file, "--template", ":".join(names), ":".join(["N", *(number.value for number in numbers)])])
    except program.CommandFailed as failed:
        if str(failed) == "no such data source":
            raise Failure(f"{file} lacks one of {', '.join(names)}; record it in another file") from None
        raise program.CommandFailed(failed.of_file(file), detail=failed.detail) from None


TOOL = Tool("rrdi-record", "[--load] [--memory] [--disk DIRECTORY] [--network INTERFACE] [--journal N] FILE", __doc__,
            record)
main = TOOL.main
