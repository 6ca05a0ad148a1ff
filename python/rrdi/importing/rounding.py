# SPDX-License-Identifier: MIT OR Apache-2.0
"""Converts numbers of RRDtool to whole millionths."""
from __future__ import annotations

import math
import re
from dataclasses import dataclass

from ..amounts import LARGEST, Millionths, shortened

BOUND_LIMIT = 2.0**64


def millionths(value: float) -> int:
    """Rounds a number to whole millionths."""
    return int(("%.6f" % value).replace(".", ""))


def as_text(amount: int | None) -> str:
    """Returns the text of an amount of millionths, without zeros at the end; U if the amount is unknown."""
    return "U" if amount is None else shortened(str(Millionths(amount)))


def raw_value(kind: str, text: str) -> str | None:
    """Returns the last raw value of a COUNTER or a DERIVE if rrdi accepts the value."""
    if not re.fullmatch("[0-9]{1,20}" if kind == "COUNTER" else "-?[0-9]{1,20}", text):
        return None
    if kind == "COUNTER":
        return text if int(text) < 2**64 else None
    return text if abs(int(text)) < 2**63 else None


@dataclass
class Converter:
    """Converts numbers, and notes whether some became unknown or 0."""

    too_large: bool = False
    too_small: bool = False

    def amount(self, value: float, limit: float = LARGEST) -> int | None:
        """Converts a number of RRDtool to millionths; nan, and an absolute value of `limit` or more, become None."""
        if math.isnan(value):
            return None
        if abs(value) >= limit:
            self.too_large = True
            return None
        amount = millionths(value)
        if amount == 0 and value != 0:
            self.too_small = True
        return amount
