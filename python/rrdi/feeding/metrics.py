# SPDX-License-Identifier: MIT OR Apache-2.0
"""Feeds files from the values of metrics, in lines `NAME VALUE TIME` as Graphite's programs send them, and creates the files
that do not exist."""
from __future__ import annotations

import os
import re
import time
from typing import Dict, Iterable, List, Sequence, Tuple

from ..amounts import WITH_EXPONENT
from ..compat.syntax import read_number
from ..environment import is_synced
from ..errors import NO_FILE
from ..making import is_there, make
from .feeder import Feeder, FeedOptions
from .rules import BadLine, Names
from .writers import NO_ROOM, Outcome, Writer

NUMBER = re.compile(WITH_EXPONENT.encode() + rb"|[-+]?[nN][aA][nN]|U")
TIME = re.compile(rb"([0-9]+)(\.[0-9]*)?")
NOW = (b"-1", b"N")
AHEAD = 86_400  # seconds by which a time may be later than the present: later samples of the file would be refused
STEP, USUAL_STEP = re.compile("(?:^| )(?:--step[= ]|-s ?)([0-9]{1,10})(?= |$)"), 300  # seconds
LONGEST_WORD = 1_024  # bytes of a value or a time


def as_sample(value: bytes, moment: bytes) -> bytes:
    """Returns a sample of rrdi. A part of a second is cut off, and a value is rounded to millionths.

    # Errors
    `BadLine` if the value or the time can't be read.
    """
    if len(value) > LONGEST_WORD or not NUMBER.fullmatch(value):
        raise BadLine("the value must be a number")
    found, now = TIME.fullmatch(moment), int(time.time())
    if moment in NOW:
        seconds = now
    elif found is None or len(moment) > LONGEST_WORD:
        raise BadLine("the time must be seconds since 1970")
    else:
        seconds = int(found[1])
    if seconds > now + AHEAD:
        raise BadLine("the time is over a day ahead")
    return b"%d:" % seconds + read_number(value.decode("ascii")).encode()


class MetricFeeder(Feeder):
    """Reads lines, each with the name of a metric, a value and a time."""

    def __init__(self, options: FeedOptions, writer: Writer, names: Names, name: str = "rrdi-feed"):
        self.names, self.creating = names, Creating(writer)
        super().__init__(options, self.creating, name)

    def take_all(self, lines: Iterable[bytes]) -> None:
        for line in lines:
            self.take(line.split(), line)

    def take(self, words: List[bytes], line: bytes) -> None:
        if not words:
            return
        try:
            if len(words) != 3:
                raise BadLine("expected NAME VALUE TIME")
            sample = as_sample(words[1], words[2])
            target = self.names.target(words[0])
        except BadLine as bad:
            self.say_bad(str(bad), line)
            return
        if target.arguments:
            self.creating.arguments[target.file] = target.arguments
        self.hold(target.file, [sample])


def with_start(arguments: Sequence[str], sample: bytes) -> List[str]:
    """Adds to the arguments of create a start one step before the first sample, if the arguments have no start: so its row is
    known."""
    if any(word == "-b" or re.match("-b[0-9]|--start(=|$)", word) for word in arguments):
        return list(arguments)
    first, step = int(sample.split(b":")[0]), STEP.search(" ".join(arguments))
    return ["--start", str(max(first - int(step[1] if step else USUAL_STEP), 0)), *arguments]


class NotCreated(Exception):
    """Why a file could not be created."""

    def __init__(self, reason: str):
        super().__init__(reason)
        self.reason = reason


class Creating:
    """A writer that first creates a file that does not exist, if the file has arguments of create."""

    def __init__(self, writer: Writer):
        self.writer = writer
        self.arguments: Dict[bytes, Tuple[str, ...]] = {}

    def write(self, file: bytes, samples: List[bytes]) -> Outcome:
        arguments = self.arguments.get(file)
        if arguments:
            reason = self.create_missing(file, with_start(arguments, samples[0]))
            if reason:
                return Outcome(again=reason)
        outcome = self.writer.write(file, samples)
        if arguments and outcome.refused and outcome.refused[0][1] == NO_FILE:
            return Outcome(again=NO_FILE)  # another program has taken the file away meanwhile
        return outcome

    def create_missing(self, file: bytes, arguments: Sequence[str]) -> str:
        """Does the same as `create`, and nothing if there is a file."""
        try:
            return "" if is_there(file, follows=False) else self.create(file, arguments)
        except OSError as error:
            return f"cannot open: {reason_in(error)}"

    def create(self, file: bytes, arguments: Sequence[str]) -> str:
        """Creates a database if no file has its name. Returns the reason if that fails, and otherwise nothing."""
        def fill(new: str) -> None:
            reason = self.writer.create(os.fsencode(new), arguments)
            if reason:
                raise NotCreated(reason)
        try:
            make(file, fill, makes_folder=True, syncs=is_synced(None))
            return ""
        except NotCreated as refused:
            return refused.reason
        except OSError as error:
            return f"cannot create: {reason_in(error)}"
        except MemoryError:
            return f"cannot create: {NO_ROOM}"


def reason_in(error: OSError) -> str:
    return (error.strerror or str(error)).lower()
