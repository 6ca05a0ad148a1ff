# SPDX-License-Identifier: MIT OR Apache-2.0
"""Times and spans for people: what they type, and how they are shown."""
from __future__ import annotations

import calendar
import re
import time
from typing import List, Optional, Sequence, Tuple

from ..compat.syntax import Untranslatable
from ..compat.at_style import span
from ..limits import LATEST
from .command_line import Failure, WrongArguments

# A time as these tools print it, and one of ISO 8601, which may have a zone.
PRINTED = re.compile(r"(\d{4})-(\d\d)-(\d\d)(?:[T ](\d\d):(\d\d)(?::(\d\d))?)?", re.ASCII)
ISO = re.compile(PRINTED.pattern + r"(?: ?(Z)|([-+]\d\d):?(\d\d))?", re.ASCII)
SECONDS = re.compile("@([0-9]{1,10})")
DAY = 86_400  # seconds
SET_BACK = 10_800  # seconds: clocks are set back by no more, and by quarters of an hour
UNITS = (("week", 7 * DAY), ("day", DAY), ("h", 3_600), ("min", 60))


def exact_seconds(text: str) -> Optional[int]:
    """Returns the seconds since 1970 of a time with a zone, or after an `@`; None if the text is neither.

    # Errors
    `WrongArguments` if there is no such time.
    """
    seconds, found = SECONDS.fullmatch(text), ISO.fullmatch(text)
    if seconds is not None:
        return int(seconds[1])
    if found is None or not (found[7] or found[8]):
        return None
    hours, minutes = int(found[8] or 0), int(found[9] or 0)
    told = calendar.timegm(checked(text, found.groups()[:6]) + (0, 0, 0))
    return told - 3_600 * hours - (-60 if (found[8] or "").startswith("-") else 60) * minutes


def checked(text: str, parts: Sequence[Optional[str]]) -> Tuple[int, int, int, int, int, int]:
    """Returns the numbers of a date and a time of day.

    # Errors
    `WrongArguments` if there is no such date or time.
    """
    year, month, day, hour, minute, second = (int(part or 0) for part in parts)
    is_date = year >= 1 and 1 <= month <= 12 and 1 <= day <= calendar.monthrange(year, month)[1]
    if not (is_date and hour < 24 and minute < 60 and second < 60):
        raise WrongArguments(f"there is no time {text!r}")
    return year, month, day, hour, minute, second


def local_times(text: str, parts: Sequence[Optional[str]]) -> List[int]:
    """Returns the seconds since 1970 of a date and a time of day in the local time zone, the earliest first: two when a clock
    was set back. What `mktime` alone returns of these depends on its calls before.

    # Errors
    `WrongArguments` if there is no such time: also if the clock was set forward over it.
    """
    numbers = checked(text, parts)
    wanted = "{:04}-{:02}-{:02} {:02}:{:02}:{:02}".format(*numbers)
    try:
        near = int(time.mktime(numbers + (0, 0, -1)))
        texts = {at: time_text(at) for at in range(near - SET_BACK, near + SET_BACK + 1, 900) if 0 <= at <= LATEST}
    except (OverflowError, ValueError):
        texts = {}
    times = [at for at, told in texts.items() if told == wanted]
    if parts[3] is None and not times:  # clocks are set forward at midnight
        times = [at for at, told in texts.items() if told.startswith(wanted[:10])][:1]
    if not times:
        raise WrongArguments(f"there is no time {text!r}")
    return times


def typed_seconds(text: str, is_end: bool = False) -> Optional[int]:
    """Returns the seconds since 1970 of a time as these tools print it, which is in the local time zone unless it has another
    one; of two, it is the earlier one, or as an end the later one. Returns None if it is a time in another form.

    # Errors
    `WrongArguments` if there is no such time.
    """
    exact, found = exact_seconds(text), PRINTED.fullmatch(text)
    if exact is not None or found is None:
        return exact
    return local_times(text, found.groups())[-1 if is_end else 0]


def as_of_rrdtool(text: str, is_end: bool = False) -> str:
    """Returns a time in the form that `span` reads, where digits alone may be a date. Errors are those of `typed_seconds`."""
    seconds = typed_seconds(text, is_end)
    return text if seconds is None else f"epoch+{seconds}"


def span_of(start: Optional[str], end: Optional[str], last: int) -> Tuple[int, int]:
    """Returns the start and the end that were typed, in seconds since 1970: without an end the file's last time, and without
    a start the day before the end.

    # Errors
    - `WrongArguments` if a time can't be parsed.
    - `Failure` if the start is not before the end.
    """
    second = f"epoch+{last}" if end is None else as_of_rrdtool(end, is_end=True)
    try:
        begin, until = span("epoch+0" if start is None else as_of_rrdtool(start), second, int(time.time()))
    except (Untranslatable, OverflowError) as refused:
        raise WrongArguments(str(refused)) from None
    if start is None:
        begin = max(until - DAY, 0)
    if begin >= until:
        raise Failure(f"the start, {time_text(begin)}, is not before the end, {time_text(until)}"
                      + (", which is the last update of the file" if end is None else ""))
    return begin, until


def time_text(seconds: int) -> str:
    """Returns a time in the local time zone."""
    return time.strftime("%Y-%m-%d %H:%M:%S", time.localtime(seconds))


def zone_of(*times: int) -> str:
    """Returns the name of the local time zone at some times: two names if the clocks were changed between them."""
    return "/".join(dict.fromkeys(time.strftime("%Z", time.localtime(seconds)) for seconds in times))


def length_text(seconds: int) -> str:
    """Returns a number of seconds in the longest unit that divides it."""
    for unit, length in UNITS:
        if seconds >= length and seconds % length == 0:
            count = seconds // length
            return f"{count} {unit}{'s' if count > 1 and unit in ('week', 'day') else ''}"
    return f"{seconds} s"
