# SPDX-License-Identifier: MIT OR Apache-2.0
"""Converts times and spans of Python to whole seconds."""
from __future__ import annotations

import datetime
import math
from numbers import Integral, Real
from typing import Optional, Union

from .words import Word, present

Time = Union[int, float, datetime.datetime]
Span = Union[int, datetime.timedelta]

EPOCH = datetime.datetime(1970, 1, 1, tzinfo=datetime.timezone.utc)
SECOND = datetime.timedelta(seconds=1)


def seconds_of(time: Time) -> int:
    """Returns a time in whole seconds since 1970. A fraction is dropped, as by the time `N`.

    # Errors
    - `ValueError` if a datetime has no zone, or a float is not finite.
    - `TypeError` if `time` is neither a number nor a datetime.
    """
    if type(time) is int:
        return time
    if isinstance(time, bool):
        raise TypeError(f"a time must be a number or a datetime, not {time}")
    if isinstance(time, Integral):
        return int(time)
    if isinstance(time, datetime.datetime):
        if time.utcoffset() is None:
            raise ValueError(f"the datetime {time} has no zone; write {_with_zone(time)}")
        return int((time - EPOCH) // SECOND)  # that of pandas is no int
    if isinstance(time, Real):
        if not math.isfinite(time):
            raise ValueError(f"{time} is no time")
        return math.floor(time)
    kind = type(time).__name__
    hint = "; write pandas.Timestamp(time).tz_localize('UTC')" if kind == "datetime64" else ""
    raise TypeError(f"a time must be a number or a datetime, not {kind}{hint}")


def _with_zone(time: datetime.datetime) -> str:
    """Returns how to write a time that has no zone. A Timestamp of pandas has no astimezone() without a zone."""
    if hasattr(time, "tz_localize"):
        return "time.tz_localize('UTC'), or the zone of a local time in place of UTC"
    return "datetime.now(timezone.utc), or time.astimezone() for a local time"


def time_word(time: Union[Time, str, None]) -> Optional[Word]:
    """Returns the value of an option for a time. Text stays as it is."""
    return time if time is None or isinstance(time, str) else seconds_of(time)


def span_word(span: Union[Span, str, None]) -> Optional[Word]:
    """Returns the value of an option for a span in seconds. Text stays as it is.

    # Errors
    - `ValueError` if a timedelta is not a whole number of seconds.
    - `TypeError` if `span` is neither a whole number nor a timedelta.
    """
    if span is None or isinstance(span, str):
        return span
    if isinstance(span, datetime.timedelta):
        if span % SECOND:
            raise ValueError(f"a span must be whole seconds, not {span}")
        return span // SECOND
    if isinstance(span, Integral) and not isinstance(span, bool):
        return int(span)
    raise TypeError(f"a span must be whole seconds or a timedelta, not {type(span).__name__}")


def moment(now: Optional[Time]) -> int:
    """Returns the time that a command uses as now, in seconds since 1970."""
    return present(None if now is None else seconds_of(now))
