# SPDX-License-Identifier: MIT OR Apache-2.0
"""Numbers for people: with SI prefixes, and the marks of an axis at round values."""
from __future__ import annotations

import math
from typing import List, NamedTuple, Optional

PREFIXES = {-2: "\u00b5", -1: "m", 0: "", 1: "k", 2: "M", 3: "G", 4: "T", 5: "P", 6: "E"}
PLAIN = 0.01  # smaller numbers get a prefix
MARKS, MARK = 6, 30  # and the points that a mark takes at least
ROUND = (1, 2, 2.5, 5, 10)
BARE = ("%",)  # units that take no prefix


def power_of(size: float, unit: str = "") -> int:
    """Returns the power of 1,000 of the prefix that a number of this size gets."""
    if size == 0 or PLAIN <= size < 1_000 or unit in BARE:
        return 0
    return min(max(math.floor(math.log10(size) / 3 + 1e-9), -2), 6)


def with_unit(text: str, power: int, unit: str) -> str:
    """Returns a number with its prefix and its unit."""
    return f"{text} {PREFIXES[power]}{unit}".rstrip()


def number_text(value: float, unit: str = "") -> str:
    """Returns a number with three digits and a prefix; unknown is a dash."""
    if math.isnan(value):
        return "-"
    power = power_of(abs(value), unit)
    if round(abs(value) / 1_000**power) >= 1_000 and power < 6 and unit not in BARE:
        power += 1
    scaled = value / 1_000**power
    whole = math.floor(math.log10(float(f"{abs(scaled):.2e}"))) if value else 2
    digits = min(max(2 - whole, 0), 6)
    return with_unit(f"{scaled:.{digits}f}", power, unit)


class Axis(NamedTuple):
    """The marks of an axis: their values, and their texts with one prefix for all; and its ends."""

    values: List[float]
    texts: List[str]
    low: float
    high: float

    def ending_at(self, low: Optional[float], high: Optional[float]) -> Axis:
        """Returns the axis with other ends, without the marks beyond them; None leaves an end as it is."""
        low, high = self.low if low is None else low, self.high if high is None else high
        room = (high - low) * 1e-9
        inside = [at for at, value in enumerate(self.values) if low - room <= value <= high + room]
        return Axis([self.values[at] for at in inside], [self.texts[at] for at in inside], low, high)


def axis(low: float, high: float, unit: str = "", height: int = MARKS * MARK) -> Axis:
    """Returns an axis that has all values from `low` to `high`, for a plot that is so many points high."""
    if low == high:
        high = low + (abs(low) / 10 or 1)
    rough = (high - low) / min(max(height // MARK, 1), MARKS)
    base = 10.0 ** math.floor(math.log10(rough))
    step = next(part * base for part in ROUND if part * base >= rough * (1 - 1e-9))
    first, last = math.floor(low / step + 1e-9), math.ceil(high / step - 1e-9)
    values = [number * step for number in range(first, last + 1)]
    power = power_of(max(abs(values[0]), abs(values[-1])), unit)
    scaled = step / 1_000**power
    most = 6 + 3 * max(power, 0)  # numbers of rrdi have six decimals, and with a prefix more
    digits = next((digits for digits in range(most) if abs(round(scaled, digits) - scaled) < scaled / 1_000), most)
    texts = [with_unit(f"{value / 1_000**power:.{digits}f}", power, unit) if value else "0" for value in values]
    return Axis(values, texts, values[0], values[-1])
