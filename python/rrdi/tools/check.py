# SPDX-License-Identifier: MIT OR Apache-2.0
"""Tells whether a source's newest value is in order, as a plugin of Nagios does.

usage: rrdi-check FILE SOURCE [--above N] [--below N] [-w RANGE] [-c RANGE]
                  [--for SPAN] [--stale SPAN] [--changes STATE]

examples:
  rrdi-check room.rrdi temp --above 30 --below 5 --for 5m
  rrdi-check net.rrdi in -w 8000000 -c 10000000 --stale 10m
  * * * * * /usr/local/bin/rrdi-check t.rrdi temp --above 30 --changes t.state

It prints one line, and its status is 0 (OK), 1 (WARNING), 2 (CRITICAL) or 3
(UNKNOWN). The value is the newest known row of the finest archive that
reaches back SPAN. A source without a new value is CRITICAL too.

options, anywhere on the line:
  --above N            CRITICAL above N
  --below N            CRITICAL below N
  -c, --critical RANGE
                       CRITICAL outside RANGE, instead of these; a RANGE is
                       5:10, 10: (or more), '~:10' (or less), 10 (from 0 on), or
                       @5:10, which alarms inside
  -w, --warning RANGE  WARNING outside RANGE
  --for SPAN           only if all known rows of the last SPAN are outside,
                       and after a gap the one before it too; a SPAN is in
                       seconds, or like 30s, 5m, 2h, 1d
  --stale SPAN         CRITICAL if the newest known row is older than SPAN, or
                       is that far in the future (default: the source's
                       heartbeat and one row)
  --changes STATE      for cron: print the line only if the status differs from
                       the last one, which the file STATE keeps; a file with
                       other contents stays as it is
  -h, --help           show this help and exit
  --version            show the version and exit

RRDI_WAIT sets how many seconds to wait for the file's lock (default: 5).
docs/cookbook.md has examples.

Exit status: that of the line; 3 also if FILE cannot be read or has no such
source, or the arguments are wrong.
"""
from __future__ import annotations

import errno
import re
import sys
import time
from typing import Dict, List, NamedTuple, Optional, Tuple

from ..amounts import Millionths, shortened
from ..escaping import escaped
from ..locks import open_regular
from ..making import NewFile
from ..reader.selected import OpenFile, StoredArchive
from .command_line import Failure, Tool, WrongArguments, called_name, error_text, say
from .options import given_words
from .program import as_millionths
from .reading import reporting
from .spans import length_text, time_text

WITH_VALUE = {"--above": "above", "--below": "below", "-w": "warning", "--warning": "warning", "-c": "critical",
              "--critical": "critical", "--for": "for", "--stale": "stale", "--changes": "changes"}
OK, WARNING, CRITICAL, UNKNOWN = range(4)
WORDS = ("OK", "WARNING", "CRITICAL", "UNKNOWN")
NUMBER = r"-?[0-9]{1,20}(?:\.[0-9]{1,6})?"
RANGE = re.compile(f"(@?)(?:(~|{NUMBER})?(:))?({NUMBER})?")
KEPT = re.compile(rb"[0-3]?\n?")
SPAN = re.compile("([0-9]{1,9})(s|m|min|h|d|w)?")
UNITS = {"s": 1, "m": 60, "min": 60, "h": 3_600, "d": 86_400, "w": 604_800}
ROWS_AT_ONCE = 1_000


class ValueRange(NamedTuple):
    """Values that are in order, in millionths: those from `low` to `high`, or all others. None is no limit."""

    text: str
    low: Optional[int]
    high: Optional[int]
    is_forbidden: bool = False

    def fault_of(self, value: int) -> str:
        """Returns why a value is not in order; nothing if it is."""
        is_below = self.low is not None and value < self.low
        is_above = self.high is not None and value > self.high
        if self.is_forbidden:
            return "" if is_below or is_above else f"within {self.text[1:]}"
        if is_below or is_above:
            return f"{'below' if is_below else 'above'} {number_text(self.low if is_below else self.high)}"
        return ""


class CheckOptions(NamedTuple):
    file: str
    source: str
    limits: Dict[int, ValueRange]  # by the status that a value outside has, the worst first
    seconds: int  # for which values must be outside
    stale: Optional[int]
    state: Optional[str]


class Verdict(NamedTuple):
    """A status with its reason, and the value if it is known."""

    status: int
    text: str
    value: Optional[Millionths] = None


def number_text(value: Optional[int]) -> str:
    return "" if value is None else shortened(str(Millionths(value)))


# ---- Words

def number_of(option: str, text: Optional[str]) -> Optional[int]:
    """Returns a number in millionths.

    # Errors
    `WrongArguments` if it is none, or has more than six decimals.
    """
    if text is None:
        return None
    if not re.fullmatch(NUMBER, text):
        raise WrongArguments(f"--{option} must be a number with at most six decimals, not {text!r}")
    return as_millionths(text)


def range_of(option: str, text: str) -> ValueRange:
    """Returns a range as Nagios writes it.

    # Errors
    `WrongArguments` if it is none.
    """
    found = RANGE.fullmatch(text)
    if found is None or not (found[2] or found[4]):
        quoted = "; bash needs quotes around '~:10'" if text.startswith("/") else ""  # a directory took the place of ~
        raise WrongArguments(f"--{option} must be a range such as 10, 5:10, 10:, ~:10 or @5:10, not {text!r}{quoted}")
    mark, start, _, end = found.groups()
    low = None if start == "~" else as_millionths(start or "0")
    high = None if end is None else as_millionths(end)
    if low is not None and high is not None and low > high:
        raise WrongArguments(f"the range {text!r} of --{option} ends below its start")
    return ValueRange(text, low, high, mark == "@")


def span_of(option: str, text: Optional[str]) -> Optional[int]:
    """Returns the seconds of a span.

    # Errors
    `WrongArguments` if it is none.
    """
    if text is None:
        return None
    found = SPAN.fullmatch(text)
    if found is None or int(found[1]) == 0:
        raise WrongArguments(f"--{option} must be seconds or a span such as 30s, 5m, 2h or 1d, not {text!r}")
    return int(found[1]) * UNITS[found[2] or "s"]


def critical_range(values: Dict[str, str]) -> Optional[ValueRange]:
    """Returns the range outside of which a value is critical; None if there is no limit."""
    low, high = number_of("below", values.get("below")), number_of("above", values.get("above"))
    given = values.get("critical")
    if given is not None and (low, high) != (None, None):
        raise WrongArguments("give --critical, or --above and --below")
    if given is not None:
        return range_of("critical", given)
    if low is not None and high is not None and low > high:
        raise WrongArguments("--below is greater than --above, so no value would be in order")
    if (low, high) == (None, None):
        return None
    return ValueRange(f"{'~' if low is None else number_text(low)}:{number_text(high)}", low, high)


def read_options(words: List[str]) -> CheckOptions:
    given = given_words(words, WITH_VALUE, [])
    if len(given.others) != 2 or "" in given.values.values():
        raise WrongArguments
    critical, warning = critical_range(given.values), given.values.get("warning")
    limits = {} if critical is None else {CRITICAL: critical}
    if warning is not None:
        limits[WARNING] = range_of("warning", warning)
    return CheckOptions(given.others[0], given.others[1], limits, span_of("for", given.values.get("for")) or 0,
                        span_of("stale", given.values.get("stale")), given.values.get("changes"))


# ---- Values

class KnownRow(NamedTuple):
    """A known cell, and the time at which its row ends."""

    time: int
    value: Millionths


class WatchedSource:
    """A source of an open file, with the finest archive that has rows for a number of seconds.

    # Errors
    `Failure` if there is no such source or archive.
    """

    def __init__(self, file: OpenFile, name: str, seconds: int):
        self.file, outline, sources = file, file.outline(), file.settings()["sources"]
        if name not in outline.sources:
            raise Failure(f"there is no source {name}, only {', '.join(outline.sources)}")
        self.column = outline.sources.index(name)
        self.heartbeat: int = sources[self.column]["heartbeat"]
        reaching = [archive for archive in outline.archives if archive.retention >= seconds]
        if not reaching:
            raise Failure(f"no archive has rows of the last {length_text(seconds)}")
        # Rows of several steps by another function would show the least or the greatest step, or one of them.
        self.archive: StoredArchive = min(reaching, key=lambda archive: (
            archive.steps > 1 and archive.function != "AVERAGE", archive.seconds))

    def rows(self, after: int, until: int) -> List[KnownRow]:
        """Returns the known rows that end after a time, up to another time."""
        found = self.file.rows(self.archive, after + 1, until)
        cells = ((end, row[self.column]) for end, row in found.items())
        return [KnownRow(end, cell) for end, cell in cells if cell is not None]

    @property
    def oldest(self) -> int:
        """The time at which the oldest row begins."""
        last = self.file.front.last
        return last - last % self.archive.seconds - self.archive.retention

    def newest(self, until: int) -> Optional[KnownRow]:
        """Looks back from a time for the newest known row; None if no row is known."""
        oldest = self.oldest
        while until > oldest:
            after = max(until - ROWS_AT_ONCE * self.archive.seconds, oldest)
            found = self.rows(after, until)
            if found:
                return found[-1]
            until = after
        return None


def rows_for(source: WatchedSource, newest: KnownRow, seconds: int) -> List[KnownRow]:
    """Returns the known rows of a number of seconds up to the newest one. If the first seconds are unknown, the row before
    them is the first: after a gap, one value alone does not stand for all of them. If there is none, the newest row stands
    for itself only: none is returned, unless the archive has no earlier rows at all."""
    begin = newest.time - seconds
    rows = source.rows(begin, newest.time)
    if rows[0].time - source.archive.seconds <= begin or source.oldest >= begin:
        return rows
    before = source.newest(begin)
    return [before, *rows] if before is not None else []


def status_of(value: int, limits: Dict[int, ValueRange]) -> Tuple[int, str]:
    """Returns the status of a value, and why it has this status."""
    for status, limit in limits.items():
        fault = limit.fault_of(value)
        if fault:
            return status, fault
    return OK, ""


def judged(source: WatchedSource, options: CheckOptions, now: int) -> Verdict:
    """Judges the newest value of a source, and those before it."""
    length, newest = source.archive.seconds, source.newest(source.file.front.last)
    if options.stale is not None and options.stale <= length:
        raise Failure(f"--stale must be longer than a row, which has {length_text(length)}")
    if newest is None:
        return Verdict(CRITICAL, f"{options.source} has no known value")
    value = f"{options.source} is {number_text(newest.value)}"
    age, longest = now - newest.time, options.stale or source.heartbeat + length
    if age > longest:
        return Verdict(CRITICAL, f"{options.source} has no known value after {time_text(newest.time)}, for {length_text(age)}")
    if -age > longest:  # rrdi takes no sample up to that time
        return Verdict(CRITICAL, f"{options.source} has a value of {time_text(newest.time)}, {length_text(-age)} from now")
    own, fault = status_of(newest.value, options.limits)
    rows = rows_for(source, newest, options.seconds) if options.seconds else [newest]
    status = min((status_of(row.value, options.limits)[0] for row in rows), default=OK)
    lasts = f" for {length_text(options.seconds)}" if options.seconds else ""
    why = "" if not fault else f", {fault}{lasts}" if status == own else f", {fault}, but not{lasts}"
    return Verdict(status, f"{value}{why}, at {time_text(newest.time)}", newest.value)


def verdict_of(options: CheckOptions) -> Verdict:
    """Reads the file; one that cannot be read, or has no such rows, is UNKNOWN."""
    try:
        with reporting(options.file), OpenFile(options.file) as file:
            return judged(WatchedSource(file, options.source, options.seconds), options, int(time.time()))
    except Failure as failure:
        text = str(failure)
        prefix = f"{options.file}: "
        return Verdict(UNKNOWN, text[len(prefix):] if text.startswith(prefix) else text)


def line_of(options: CheckOptions, verdict: Verdict) -> str:
    """Returns the line of a plugin: the status and the reason for people, and the value with its limits for programs."""
    text = escaped(f"{WORDS[verdict.status]} - {options.file}: {verdict.text}").replace("|", "?")
    if verdict.status == UNKNOWN:
        return text
    warning, critical = (options.limits[status].text if status in options.limits else "" for status in (WARNING, CRITICAL))
    value = "U" if verdict.value is None else number_text(verdict.value)
    return f"{text} | {options.source}={value};{warning};{critical}".rstrip(";")


# ---- The status of the last run

def kept_status(state: str) -> str:
    """Returns the status that was kept, which is OK before the first run; nothing if the file is empty.

    # Errors
    `OSError` if the file can't be read, or has something else.
    """
    try:
        with open_regular(state) as file:
            kept = file.read(3)
    except FileNotFoundError:
        return str(OK)
    if not KEPT.fullmatch(kept):
        raise OSError(errno.EINVAL, "the file has something else")
    return kept.decode().strip()


def is_kept(state: str, status: int) -> bool:
    try:
        return kept_status(state) == str(status)
    except OSError:  # `keep_status` says why
        return False


def keep_status(state: str, status: int) -> None:
    """Keeps a status, in place of another one only: by a slip, the file may be a database. What fails is said, but the status
    stays that of the check, and the next run prints it again."""
    try:
        kept_status(state)
        with NewFile(state) as new:
            with open(new.unfinished, "w", encoding="ascii") as file:
                file.write(f"{status}\n")
            new.replace()
    except OSError as error:
        say(called_name(TOOL), f"{state}: the status is not kept: {error.strerror or error_text(error)}")


def check(words: List[str]) -> int:
    options = read_options(words)
    verdict = verdict_of(options)
    if options.state is None:
        print(line_of(options, verdict))
    elif not is_kept(options.state, verdict.status):
        if sys.stdout is None:
            raise Failure("standard output is closed")  # nobody has seen the line, so it comes again
        print(line_of(options, verdict), flush=True)
        keep_status(options.state, verdict.status)
    return verdict.status


TOOL = Tool("rrdi-check", "FILE SOURCE [--above N] [--below N] [-w RANGE] [-c RANGE]\n"
            "                  [--for SPAN] [--stale SPAN] [--changes STATE]", __doc__, check, failed=UNKNOWN, misused=UNKNOWN)
main = TOOL.main
