# SPDX-License-Identifier: MIT OR Apache-2.0
"""Takes one wrong sample out of a database, or changes it, however many samples came after it.

usage: rrdi-fix FILE TIME [VALUE] [--source NAME] [--samples FILE]

examples:
  rrdi-fix room.rrdi 1700000160
  rrdi-fix room.rrdi '2023-11-14 22:16:00' 21.5
  rrdi-fix net.rrdi 1700000160 U --source in

TIME is the time of the sample: seconds since 1970, or a time of your zone as
rrdi-show --journal prints it, or one of UTC with a Z at its end. VALUE takes
the place of the sample's value; U is unknown, and of several sources give all,
such as 21.5:U. Without VALUE the file is as if the sample had never come.

The tool reverts to the sample and sends the later changes again, all as one
change of the file. It reaches as far as the journal (rrdi-show --journal FILE).
If it cannot do all of it, it says why and usually leaves FILE alone.

options, anywhere on the line:
  --source NAME        change the value of this source only
  --samples FILE       take samples from FILE, or standard input if it is -,
                       one line TIME:VALUE.. each: an update of several needs
                       them all, as the journal has only the last
  -h, --help           show this help and exit
  --version            show the version and exit

environment:
  RRDI                 the program to run instead of the C library
  RRDI_WAIT            how many seconds to wait for FILE's lock (default: 5)
  RRDI_SYNC            1: flush the change to the disk

docs/cookbook.md has an example.

Exit status: 0; 1 and a line on standard error if FILE could not be changed, or
what was done could not be printed; 2 after wrong arguments.
"""
from __future__ import annotations

import errno
import os
import re
import sys
from typing import Dict, List, NamedTuple, Optional, Set, Tuple

from ..escaping import escaped
from ..places import page
from .command_line import Failure, Tool, WrongArguments, error_text
from .fixing.held import HeldFile, held
from .fixing.history import History, OneSample, SentUpdate, given_samples, history_of, with_given, wrong_change
from .options import given_words
from .reading import reporting
from .spans import PRINTED, exact_seconds, local_times, time_text

WITH_VALUE = {"--source": "source", "--samples": "samples"}
OLDER = "A spike that is older than the journal"  # a heading of docs/cookbook.md
NEGATIVE = re.compile(r"-[0-9][0-9.]*(:.*)?")
VALUE = re.compile(r"U|-?[0-9]{1,20}(\.[0-9]{1,6})?")


class FixOptions(NamedTuple):
    """The file, the times that were meant (two when a clock was set back), the new values, and the options."""

    file: str
    times: Set[int]
    values: Optional[Tuple[str, ...]]
    source: Optional[str]
    samples: Optional[str]


def read_options(words: List[str]) -> FixOptions:
    negative = [word for word in words if NEGATIVE.fullmatch(word)]  # no option has a name of digits
    given = given_words([word for word in words if word not in negative], WITH_VALUE, [])
    others = given.others + negative
    source = given.values.get("source")
    if not 2 <= len(others) <= 3 or len(negative) > 1 or "" in given.values.values():
        raise WrongArguments
    values = tuple(others[2].split(":")) if len(others) == 3 else None
    if values is None and source is not None:
        raise WrongArguments("--source needs a VALUE, such as U")
    for value in values or ():
        if not VALUE.fullmatch(value):
            raise WrongArguments(f"the value {value!r} is neither a number as rrdi takes it, such as -0.5, nor U")
    return FixOptions(others[0], times_of(others[1]), values, source, given.values.get("samples"))


def times_of(text: str) -> Set[int]:
    """Returns the seconds since 1970 of a time that was typed. A local time comes twice when a clock is set back.

    # Errors
    `WrongArguments` if it is no time.
    """
    found, exact = PRINTED.fullmatch(text), exact_seconds(f"@{text}" if text.isdigit() else text)
    if exact is not None:
        return {exact}
    if found is None:
        raise WrongArguments(f"the time {text!r} is neither seconds since 1970 nor like 2026-11-25 14:00:00")
    return set(local_times(text, found.groups()))


# ---- The sample

class FoundSample(NamedTuple):
    """The wrong sample, and the changes from its own on, the newest first."""

    sample: OneSample
    changes: List[SentUpdate]


def found_sample(file: HeldFile, history: History, time: int, given: List[OneSample]) -> FoundSample:
    """Finds the sample of a time, and the samples of all changes after it.

    # Errors
    `Failure` if there is none, or some of the samples are not known.
    """
    newest, oldest = history.last[0].time, history.last[-1].time
    if time > newest:
        raise Failure(f"{file.path}: there is no sample after {shown(newest)}")
    if time <= oldest:
        failure = Failure(f"{file.path}: {shown(time)} is out of reach: the journal begins after {shown(oldest)}, with "
                          f"{history.reach} change{'s' * (history.reach != 1)}")
        failure.detail = f"what else there is, {page('cookbook.md')} says under \"{OLDER}\""
        raise failure
    count = next(number for number in range(1, history.reach + 1) if history.last[number].time < time)
    check_updates(file, history, count)
    changes = [with_given(history.change(number), given) for number in range(1, count + 1)]
    check_samples(file, history, changes)
    for sample in changes[-1].samples:
        if sample.time == time:
            return FoundSample(sample, changes)
    before = max([changes[-1].before, *(sample.time for sample in changes[-1].samples if sample.time < time)])
    after = min(sample.time for sample in changes[-1].samples if sample.time > time)
    raise Failure(f"{file.path}: there is no sample between {shown(before)} and {shown(after)}")


def check_updates(file: HeldFile, history: History, count: int) -> None:
    """Checks that the newest changes were updates: any other has the same time before and after it."""
    for number in range(1, count + 1):
        last = history.last[number].time
        if history.last[number - 1].time == last:
            raise Failure(f"{file.path}: since then came a tune or a resize, at {shown(last)}, which rrdi-fix does not "
                          f"repeat; rrdi-show --journal {file.path} shows it")


def check_samples(file: HeldFile, history: History, changes: List[SentUpdate]) -> None:
    """Checks that the samples of all changes are known.

    # Errors
    `Failure` if some of them are not, or are not those of the file.
    """
    for change in changes:
        if not change.is_given and change.until - change.before > max(history.seen, 1):
            raise Failure(f"{file.path}: no archive tells whether the update from {shown(change.before)} to "
                          f"{shown(change.until)} had one sample; give all of its samples by --samples")
    wrong = wrong_change(file, changes)
    if wrong is None:
        return
    if wrong.is_given:
        raise Failure(f"{file.path}: the samples given after {shown(wrong.before)} up to {shown(wrong.until)} are not "
                      "those of the file")
    raise Failure(f"{file.path}: the update from {shown(wrong.before)} to {shown(wrong.until)} had more "
                  "than the sample that the journal shows; give all of its samples by --samples")


def shown(time: int) -> str:
    return f"{time} ({time_text(time)})"


# ---- The change

def new_sample(options: FixOptions, names: List[str], old: OneSample) -> Optional[OneSample]:
    """Returns what takes the place of a sample; None if nothing does.

    # Errors
    `Failure` if there is no such source, or there are too many or too few values.
    """
    if options.values is None:
        return None
    wanted = 1 if options.source is not None else len(names)
    if options.source is not None and options.source not in names:
        raise Failure(f"{options.file}: there is no source {options.source}, only {', '.join(names)}")
    if len(options.values) != wanted:
        sources = f"the sources {', '.join(names)}" if wanted > 1 else f"the source {options.source or names[0]}"
        raise Failure(f"{options.file}: give {wanted} value{'s' * (wanted > 1)}, for {sources}, "
                      f"not {len(options.values)}{'; or one of them, with --source' * (wanted > 1)}")
    if options.source is None:
        return OneSample(old.time, options.values)
    by_name: Dict[str, str] = {**dict(zip(names, old.values)), options.source: options.values[0]}
    return OneSample(old.time, tuple(by_name[name] for name in names))


def lines_for(found: FoundSample, new: Optional[OneSample]) -> List[str]:
    """Returns the lines that take changes back, and send them again with another sample, or without it."""
    *later, own = found.changes
    samples = [new if sample == found.sample else sample for sample in own.samples]
    left = [sample for sample in samples if sample is not None]
    own_line = [SentUpdate(own.before, left).line] if left else []
    return ["revert"] * len(found.changes) + own_line + [change.line for change in reversed(later)]


def send(file: HeldFile, found: FoundSample, new: Optional[OneSample]) -> bool:
    """Changes the file, and returns whether there was something to change.

    # Errors
    `Failure` if rrdi takes no such value, or the file cannot be written.
    """
    lines = lines_for(found, new)
    tried = file.tried(file.data, lines)
    if tried.refusals:
        raise Failure(f"{file.path}: {new.word if new is not None else lines[-1]}: {tried.refusals[0]}")
    if tried.data == file.data:
        return False
    file.store(lines)
    return True


def read_samples(name: Optional[str]) -> List[str]:
    """Returns the lines of a file of samples; - is standard input.

    # Errors
    `Failure` if it cannot be read.
    """
    if name is None:
        return []
    with reporting(name):
        if name == "-" and sys.stdin is None:  # it was closed, and another file may have its number
            raise OSError(errno.EBADF, os.strerror(errno.EBADF))
        if name == "-":
            return sys.stdin.buffer.read().decode(errors="replace").splitlines()
        with open(name, encoding="utf-8", errors="replace") as lines:
            return lines.read().splitlines()


def chosen_time(options: FixOptions, history: History, given: List[OneSample]) -> int:
    """Returns the time that was meant. Of two, it is the one at which there is a sample.

    # Errors
    `Failure` if there is a sample at each of them.
    """
    if len(options.times) == 1:
        return min(options.times)
    there = {sample.time for sample in [*history.last[:-1], *given]}
    meant = sorted(options.times & there) or [min(options.times)]
    if len(meant) > 1:
        raise Failure(f"{options.file}: two samples have this time, since the clock was set back; "
                      f"give {meant[0]} or {meant[1]}")
    return meant[0]


def tell(text: str) -> None:
    """Prints what was done.

    # Errors
    `Failure` with the same text if it cannot be printed: the file is changed all the same.
    """
    try:
        print(text, flush=True)
    except (OSError, UnicodeEncodeError) as error:
        why = error_text(error) if isinstance(error, OSError) else error.reason
        raise Failure(f"{text} (standard output did not take this: {why})") from None


def fix(words: List[str]) -> int:
    options = read_options(words)
    lines = read_samples(options.samples)
    with held(options.file) as file:
        history = history_of(file)
        given = given_samples(lines, options.samples or "", len(history.names))
        found = found_sample(file, history, chosen_time(options, history, given), given)
        new = new_sample(options, history.names, found.sample)
        is_changed = send(file, found, new)
    later = len(found.changes) - 1
    after = f"; {later} later change{'s were' if later > 1 else ' was'} sent again" if later and is_changed else ""
    what = "is taken out" if new is None else f"is now {new.word}" if is_changed else "is in the file already"
    tell(f"{escaped(options.file)}: {found.sample.word} ({time_text(found.sample.time)}) {what}{after}")
    return 0


TOOL = Tool("rrdi-fix", "FILE TIME [VALUE] [--source NAME] [--samples FILE]", __doc__, fix)
main = TOOL.main
