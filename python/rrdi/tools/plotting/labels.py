# SPDX-License-Identifier: MIT OR Apache-2.0
"""Labels at round times of the time zone."""
from __future__ import annotations

import math
import time
from typing import Callable, Iterator, List, Tuple

from ..spans import DAY

MONTH = 2_678_400  # seconds
DISTANCES = (1, 2, 5, 10, 20, 30, 60, 120, 300, 600, 1_200, 1_800, 3_600, 7_200, 10_800, 21_600, 43_200, DAY, 2 * DAY,
             4 * DAY, 7 * DAY, 14 * DAY, MONTH, 2 * MONTH, 3 * MONTH, 6 * MONTH, 12 * MONTH)
MOST_LABELS, LABEL = 7, 56  # and the points that a label takes at least
QUARTER = 900  # time zones differ by quarters of an hour
MONTHS = ("Jan", "Feb", "Mar", "Apr", "May", "Jun", "Jul", "Aug", "Sep", "Oct", "Nov", "Dec")

Label = Tuple[str, int]


def distance_of(seconds: int, most: int = MOST_LABELS) -> int:
    """Returns a distance between labels with which at most so many fit into this number of seconds."""
    for distance in DISTANCES:
        if seconds / distance <= most:
            return distance
    distance = DISTANCES[-1]
    while seconds / distance > most:
        distance *= 2
    return distance


def label_times(begin: int, end: int, distance: int) -> Iterator[Label]:
    """Labels times that are round in the time zone; the first label of a day has the day too."""
    by, day = math.gcd(distance, QUARTER), ""
    for at in range(begin - begin % by, end + by, by):
        now = time.localtime(at)
        if not begin <= at <= end or (now.tm_hour * 3_600 + now.tm_min * 60 + now.tm_sec) % distance:
            continue
        text = f"{now.tm_hour:02}:{now.tm_min:02}" + (f":{now.tm_sec:02}" if distance < 60 else "")
        is_same_day = day == f"{now.tm_mday:02} {MONTHS[now.tm_mon - 1]}"
        day = f"{now.tm_mday:02} {MONTHS[now.tm_mon - 1]}"
        yield (text if is_same_day else f"{text}\\n{day}"), at


def local_time(year: int, month: int, day: int) -> int:
    """Returns the midnight at which a day begins; days and months may be out of range."""
    return int(time.mktime((year, month, day, 0, 0, 0, 0, 0, -1)))


def label_days(begin: int, end: int, distance: int) -> Iterator[Label]:
    """Labels midnights of the time zone. A day with a change of clocks is an hour shorter or longer."""
    first, last = time.localtime(begin), None
    for passed in range((end - begin) // DAY + 3):
        at = local_time(first.tm_year, first.tm_mon, first.tm_mday + passed)
        now = time.localtime(at)
        if not begin <= at <= end or (now.tm_hour, now.tm_min) != (0, 0):
            continue
        if last is None or at - last >= distance - 7_200:
            last = at
            yield f"{now.tm_mday:02} {MONTHS[now.tm_mon - 1]}\\n{now.tm_year}", at


def label_months(begin: int, end: int, distance: int) -> Iterator[Label]:
    """Labels the first days of months."""
    first, months = time.localtime(begin), int(distance / MONTH + 0.5)
    for passed in range((end - begin) // (28 * DAY) + 3):
        at = local_time(first.tm_year, first.tm_mon + passed, 1)
        now = time.localtime(at)
        if begin <= at <= end and (now.tm_year * 12 + now.tm_mon - 1) % months == 0:
            yield f"{MONTHS[now.tm_mon - 1]}\\n{now.tm_year}", at


def labels(begin: int, end: int, width: int) -> List[Label]:
    """Returns at most about seven labels at round times of the time zone, and fewer for a plot that is not so many points wide,
    so that the labels do not overlap."""
    distance = distance_of(end - begin, min(max(width // LABEL, 1), MOST_LABELS))
    way: Callable[[int, int, int], Iterator[Label]]
    way = label_times if distance < DAY else label_days if distance < MONTH else label_months
    return list(way(begin, end, distance))
