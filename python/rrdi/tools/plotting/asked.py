# SPDX-License-Identifier: MIT OR Apache-2.0
"""What was asked of a picture: the file, the options, the size, and the limits of the axis."""
from __future__ import annotations

import math
import re
from typing import Dict, NamedTuple, Optional, Set, Tuple

from ..command_line import WrongArguments
from .look import WIDTH

LEAST_SIZE, MOST_SIZE = 200, 10_000  # points


class PlotOptions(NamedTuple):
    """The words of a command line: the values of options by their names, and the options without a value. A picture
    without a name is one in a page, which has its title and its legend."""

    file: str
    picture: str
    function: Optional[str]
    values: Dict[str, str]
    flags: Set[str]

    @property
    def style(self) -> str:
        return "stack" if "--stack" in self.flags else "area" if "--area" in self.flags else "lines"


def points_of(name: str, text: str, form: str, given: str) -> int:
    """Returns a number of points; `given` is the value of the option of which it is a part.

    # Errors
    `WrongArguments` if the text is no such number.
    """
    if not re.fullmatch("[0-9]{1,5}", text) or not LEAST_SIZE <= int(text) <= MOST_SIZE:
        raise WrongArguments(f"--{name} must be {form} from {LEAST_SIZE} to {MOST_SIZE}, not {given!r}")
    return int(text)


def read_size(values: Dict[str, str]) -> Tuple[int, int]:
    """Returns a width and a height; a height of 0 is as high as the legend needs.

    # Errors
    `WrongArguments` if an option is no size.
    """
    size = values.get("size", str(WIDTH))
    parts = [points_of("size", part, "WIDTHxHEIGHT, each", size) for part in re.split("[x,]", size, maxsplit=1)]
    width, height = (points_of(name, values[name], "a number of points", values[name]) if name in values else None
                     for name in ("width", "height"))
    return width or parts[0], height or (parts[1] if len(parts) > 1 else 0)


class Bounds(NamedTuple):
    """The limits that were asked of an axis. Unless they are rigid, it goes beyond them where values do."""

    least: Optional[float]
    greatest: Optional[float]
    is_rigid: bool
    cuts_spikes: bool


def read_bound(values: Dict[str, str], name: str) -> Optional[float]:
    """Returns the number of an option; None if it was not given.

    # Errors
    `WrongArguments` if the text is no finite number.
    """
    if name not in values:
        return None
    try:
        number = float(values[name])
    except ValueError:
        number = math.nan
    if not abs(number) < 1e18:
        raise WrongArguments(f"--{name} must be a number, not {values[name]!r}")
    return number


def read_bounds(values: Dict[str, str], flags: Set[str]) -> Bounds:
    """Returns the limits of the axis.

    # Errors
    `WrongArguments` if one is no number, the least is not below the greatest, or none is to be rigid.
    """
    least, greatest = read_bound(values, "min"), read_bound(values, "max")
    if least is not None and greatest is not None and least >= greatest:
        raise WrongArguments(f"--min, {values['min']}, must be below --max, {values['max']}")
    if "--rigid" in flags and least is None and greatest is None:
        raise WrongArguments("--rigid needs --min or --max")
    return Bounds(least, greatest, "--rigid" in flags, "--cut-spikes" in flags)
