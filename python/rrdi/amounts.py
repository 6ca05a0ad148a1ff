# SPDX-License-Identifier: MIT OR Apache-2.0
"""Amounts in whole millionths."""
from __future__ import annotations

import math
from typing import Optional

MILLION = 10**6
# A number that may have an exponent. Each text matches in one way at most, so that a text which does not match costs no
# more than its length.
WITH_EXPONENT = r"[-+]?([0-9]+(\.[0-9]*)?|\.[0-9]+)([eE][-+]?[0-9]{1,3})?"
LARGEST = 1e18  # the size from which on rrdi takes no value of a GAUGE


class Millionths(int):
    """An amount in whole millionths. Its text is the number as rrdi prints it."""

    def __str__(self) -> str:
        return f"{'-' * (self < 0)}{abs(self) // MILLION}.{abs(self) % MILLION:06}"


def shortened(text: str) -> str:
    """Returns a number without zeros at the end of its fraction. A COUNTER takes no number with a point."""
    if "." in text:
        text = text.rstrip("0").rstrip(".")
    return "0" if text == "-0" else text


def gauge_text(value: float) -> Optional[str]:
    """Writes a float as a value of a GAUGE, rounded to six decimals; None if rrdi takes no such value."""
    if not math.isfinite(value) or abs(value) >= LARGEST:
        return None
    text = f"{value:.6f}"
    return "0" if text == "-0.000000" else text
