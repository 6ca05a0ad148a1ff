# SPDX-License-Identifier: MIT OR Apache-2.0
"""Shows the last value of a gauge in its last second: if several samples came in one step, its rates have only their mean."""
from __future__ import annotations

import math
from typing import Optional, Tuple

from ..amounts import LARGEST, MILLION
from .dump import RrdSource
from .rounding import millionths
from .steps import Stretches

Bounds = Tuple[Optional[int], Optional[int]]


def last_value(source: RrdSource) -> Optional[int]:
    """Returns the last value of a GAUGE in millionths; None of others, or if it is unknown or too large for rrdi."""
    try:
        value = float(source.last_raw) if source.kind == "GAUGE" else math.nan
    except ValueError:
        return None
    return None if math.isnan(value) or abs(value) >= LARGEST else millionths(value)


def is_within(value: int, bounds: Bounds) -> bool:
    least, greatest = bounds
    return (least is None or least <= value) and (greatest is None or value <= greatest)


def cut_at(rates: Stretches, start: int, begin: int) -> Tuple[Stretches, Stretches]:
    """Cuts rates, which begin at `start`, into those up to a time and the others."""
    earlier, later = [one for one in rates if one[0] <= begin], [one for one in rates if one[0] > begin]
    if later and (earlier[-1][0] if earlier else start) < begin:
        earlier.append((begin, later[0][1]))
    return earlier, later


def with_last(rates: Stretches, start: int, begin: int, whole: int, value: int, is_in: bool) -> Optional[Stretches]:
    """Gives the last second of rates a value, and takes it from the other known seconds of the last step, which began at
    `begin`; it is finished if the rates end at `whole`. A value out of bounds leaves that second unknown. Returns None if the
    step could not be what it was."""
    found, later = cut_at(rates, start, begin)
    last, rate = later[-1]
    unknown = last - begin if rate is None else later[0][0] - begin if later[0][1] is None else 0
    known = last - begin - unknown
    if is_in:
        if rate is None or known < 2:
            return None
        rate = rounded(rate * known - value, known - 1)
        if abs(rate) >= LARGEST * MILLION:
            return None
    elif last == whole and rate is not None:  # what a known step does not know of its seconds, nobody knows
        if known < 2:
            return None
    elif unknown:
        unknown -= 1
    else:
        return None
    if unknown:
        found.append((begin + unknown, None))
    if begin + unknown < last - 1:
        found.append((last - 1, rate))
    return [*found, (last, value)]


def rounded(total: int, parts: int) -> int:
    """Returns the nearest whole number to a part of a total."""
    return (2 * total + parts) // (2 * parts)
