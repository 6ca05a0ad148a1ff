# SPDX-License-Identifier: MIT OR Apache-2.0
"""Times as RRDtool reads them: now-1h, end-1d, 12:00, noon yesterday, 20240101."""
from __future__ import annotations

import re
import time
from typing import List, NoReturn, Optional, Tuple

from .syntax import Untranslatable

MONTHS = ["jan", "feb", "mar", "apr", "may", "jun", "jul", "aug", "sep", "oct", "nov", "dec"]
DAYS = ["mon", "tue", "wed", "thu", "fri", "sat", "sun"]
UNITS = {"s": "s", "sec": "s", "second": "s", "m": "m", "min": "min", "minute": "min", "h": "h", "hr": "h", "hour": "h",
         "d": "d", "day": "d", "w": "w", "wk": "w", "week": "w", "mon": "mon", "month": "mon", "y": "y", "yr": "y",
         "year": "y"}


def seconds_of(parts: List[int], is_summer: int) -> int:
    """Returns the seconds since 1970 of a year, a month, a day and a time of day, in the local time zone."""
    year, month, day, hour, minute, second = parts
    return int(time.mktime((year, month, day, hour, minute, second, 0, 0, is_summer)))


class Moment:
    """A time, or the distance from another time: years, months, days and so on, and seconds."""

    def __init__(self, text: str, now: int):
        self.text, self.now, self.base, self.offset, self.is_summer = text, now, "", 0, -1
        self.parts = list(time.localtime(now)[:6])
        self.tokens: List[str] = re.findall(r"\d+|[a-z]+|[^\s\d]", re.sub(r"[_,]", " ", text.lower()), re.ASCII)
        if not self.tokens:
            self.refuse()
        first = self.tokens[0]
        if first in ("start", "s", "end", "e"):
            self.base = {"s": "start", "e": "end"}.get(first, first)
            self.parts = [0] * 6
        if first in ("start", "s", "end", "e", "epoch") and self.tokens[1:2] not in (["+"], ["-"]):
            self.refuse()
        if first in ("now", "n", "start", "s", "end", "e", "epoch"):
            self.tokens.pop(0)
        if first == "epoch":
            self.parts = list(time.localtime(0)[:6])
        self.read_day_and_hour()
        self.read_offset()

    def refuse(self) -> NoReturn:
        raise Untranslatable(f"cannot parse time: {self.text}")

    def next_is(self, pattern: str, ahead: int = 0) -> bool:
        return len(self.tokens) > ahead and re.fullmatch(pattern, self.tokens[ahead], re.ASCII) is not None

    def take(self, pattern: str) -> str:
        if not self.next_is(pattern):
            self.refuse()
        return self.tokens.pop(0)

    def read_day_and_hour(self) -> None:
        """Parses a day and an hour in either order, each at most once."""
        had_day = had_hour = is_numeric = False
        while self.tokens and not self.next_is("[-+]"):
            number = int(self.tokens[0]) if self.next_is(r"\d{1,11}") else None
            if not had_day and number is not None and number > 315_360_000:
                # An offset from such a number keeps the number's summer or winter time, as in RRDtool.
                self.parts, had_day, had_hour = list(time.localtime(number)[:6]), True, True
                self.is_summer = time.localtime(number).tm_isdst
                self.take(r"\d+")
            elif not had_day and self.next_is("[./]", 1) and number is not None:
                is_numeric = had_day = True
                self.read_numeric_day()
            elif not had_day and self.next_is(r"(19[7-9]|2[0-3]\d)\d{5}"):
                digits = self.take(r"\d{8}")
                self.set_day(int(digits[:4]), int(digits[4:6]), int(digits[6:]))
                is_numeric = had_day = True
            elif not had_day and self.read_named_day():
                had_day = True
            elif not had_hour:
                self.read_hour()
                had_hour = True
            else:
                self.refuse()
        if is_numeric and not had_hour:
            self.parts[3:] = [0, 0, 0]

    def set_day(self, year: int, month: int, day: int) -> None:
        if year < 139:
            year += 2000 if year < 38 else 1900
        if not (1970 < year and 1 <= month <= 12 and 1 <= day <= 31):
            self.refuse()
        self.parts[:3] = [year, month, day]

    def read_numeric_day(self) -> None:
        first, mark = int(self.take(r"\d{1,2}")), self.take("[./]")
        second, _, year = int(self.take(r"\d{1,2}")), self.take(re.escape(mark)), int(self.take(r"\d{2}|\d{4}"))
        self.set_day(year, *((second, first) if mark == "." else (first, second)))

    def read_named_day(self) -> bool:
        word = self.tokens[0]
        if word in ("today", "yesterday", "tomorrow"):
            self.parts[2] += {"today": 0, "yesterday": -1, "tomorrow": 1}[self.take(word)]
            return True
        if word[:3] in MONTHS and re.fullmatch(r"[a-z]{3}|[a-z]{4,9}", word):
            month, day = MONTHS.index(self.take("[a-z]+")[:3]) + 1, int(self.take(r"\d{1,2}"))
            has_year = self.next_is(r"\d{2}|\d{4}") and not self.next_is(":", 1)
            self.set_day(int(self.take(r"\d+")) if has_year else self.parts[0], month, day)
            return True
        if word in DAYS or word.endswith("day") and word[:3] in DAYS:
            today = time.localtime(seconds_of(self.parts, -1)).tm_wday
            # A week begins with its Sunday.
            self.parts[2] += (DAYS.index(self.take("[a-z]+")[:3]) + 1) % 7 - (today + 1) % 7
            return True
        return False

    def read_hour(self) -> None:
        named = {"midnight": 0, "noon": 12, "teatime": 16}
        if self.tokens[0] in named:
            hour, minute = named[self.take("[a-z]+")], 0
        elif self.next_is(r"\d{1,2}"):
            hour, minute = int(self.take(r"\d+")), 0
            if self.next_is(":"):
                self.take(":")
                minute = int(self.take(r"\d{2}"))
            if self.next_is("am|pm"):
                if hour > 12:
                    self.refuse()
                hour = hour % 12 + (12 if self.take("am|pm") == "pm" else 0)
        else:
            self.refuse()
        if hour > 23 or minute > 59:
            self.refuse()
        self.parts[3:] = [hour, minute, 0]

    def read_offset(self) -> None:
        sign, before = 1, ""
        while self.tokens:
            if self.next_is("[-+]"):
                sign, before = -1 if self.take("[-+]") == "-" else 1, ""
            number, unit = int(self.take(r"\d{1,10}")), "s"
            if self.next_is("[a-z]+"):
                word = self.take("[a-z]+")
                one = word[:-1] if len(word) > 2 and word.endswith("s") else ""
                unit = UNITS.get(word, UNITS.get(one, ""))
            # Right after days or longer units m is a month, and right after hours a minute. After a sign it is a month if the
            # number is small.
            if unit == "m":
                unit = "mon" if before in ("d", "w", "mon", "y") or before == "" and number < 6 else "min"
            if unit == "":
                self.refuse()
            before, number = unit, sign * number
            if unit in ("y", "mon", "w", "d"):
                self.parts[{"y": 0, "mon": 1, "w": 2, "d": 2}[unit]] += number * (7 if unit == "w" else 1)
            else:
                self.offset += number * {"h": 3600, "min": 60, "s": 1}[unit]

    def seconds(self, start: Optional[int] = None, end: Optional[int] = None) -> int:
        parts, is_summer = self.parts, self.is_summer
        if self.base:
            base = start if self.base == "start" else end
            if base is None:
                raise Untranslatable(f"this time is relative to itself: {self.text}")
            parts = [part + moved for part, moved in zip(time.localtime(base), parts)]
            is_summer = time.localtime(base).tm_isdst
        try:
            told = seconds_of(parts, is_summer)  # of now too: mktime puts a day that was left out near what it told last
        except (OverflowError, ValueError):
            return self.refuse()
        # A clock that was set back shows one time twice: that of now is now.
        if is_summer < 0 and parts == list(time.localtime(self.now)[:6]):
            told = self.now
        told += self.offset
        if told < 0:
            self.refuse()
        return told


def span(first: str, second: str, now: int) -> Tuple[int, int]:
    """Returns a start and an end, in seconds since 1970; one of them may be relative to the other.

    # Errors
    `Untranslatable` if one can't be parsed, or both are relative to each other.
    """
    start, end = Moment(first, now), Moment(second, now)
    if start.base and end.base:
        raise Untranslatable("--start and --end cannot both be relative to each other")
    if end.base:
        begin = start.seconds()
        return begin, end.seconds(start=begin)
    until = end.seconds()
    return start.seconds(end=until), until
