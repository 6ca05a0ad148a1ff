# SPDX-License-Identifier: MIT OR Apache-2.0
"""Numbers with an exponent, as RRDtool prints them."""
from __future__ import annotations

from typing import Optional

# Digits after the point. RRDtool prints ten digits; with sixteen, reading the text gives the same number.
PRINTED, EXACT = 10, 16
_digits = PRINTED


def be_exact() -> None:
    """Makes `exponent` print so many digits that reading the text gives the same number."""
    global _digits
    _digits = EXACT


def exponent(value: Optional[float], unknown: str) -> str:
    """Returns a number with an exponent, or `unknown` for None and for nan."""
    return unknown if value is None or value != value else f"{value:.{_digits}e}"
