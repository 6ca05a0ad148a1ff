# SPDX-License-Identifier: MIT OR Apache-2.0
"""RRDtool's syntax of options, numbers and lengths."""
from __future__ import annotations

import re
from typing import Dict, List, Tuple

from ..amounts import WITH_EXPONENT, Millionths, shortened

GivenOptions = List[Tuple[str, str]]

LONGEST_NUMBER = 1_024  # characters; no number needs more, and rounding costs the square of them
NUMBER = re.compile(WITH_EXPONENT)
LENGTHS = {"s": 1, "m": 60, "h": 3600, "d": 86400, "w": 7 * 86400, "M": 31 * 86400, "y": 366 * 86400}

# Each option with its letter and its name in this module. The names of options with a value end in =.
OPTIONS: Dict[str, List[str]] = {
    "create": ["--step= -s", "--start= -b", "--no-overwrite -O", "--source= -r", "--template= -t", "--daemon= -d"],
    "update": ["--template= -t", "--skip-past-updates -s", "--daemon= -d"],
    "fetch": ["--start= -s", "--end= -e", "--resolution= -r", "--align-start -a", "--daemon= -d"],
    "first": ["--rraindex= -", "--daemon= -d"],
    "last": ["--daemon= -d"],
    "lastupdate": ["--daemon= -d"],
    "info": ["--daemon= -d", "--noflush -F"],
    "tune": ["--heartbeat= -h", "--minimum= -i", "--maximum= -a", "--data-source-type= -d",
             "--data-source-rename= -r", "--deltapos= -p", "--deltaneg= -n", "--failure-threshold= -f",
             "--window-length= -w", "--alpha= -x", "--beta= -y", "--gamma= -z", "--gamma-deviation= -v",
             "--smoothing-window= -s", "--smoothing-window-deviation= -S", "--aberrant-reset= -b", "--step= -t",
             "--daemon= -D"],
    "resize": [],
}
LEFT_OUT: Dict[str, List[str]] = {
    "create": ["--source", "--template", "--daemon"], "update": ["--daemon"], "fetch": ["--daemon"],
    "first": ["--daemon"], "last": ["--daemon"], "lastupdate": ["--daemon"], "info": ["--daemon"],
    "tune": [option.split("=")[0] for option in OPTIONS["tune"][5:]], "resize": []}


class Untranslatable(Exception):
    """A feature that rrdi does not have, or a word that cannot be read."""


def read_options(command: str, words: List[str]) -> Tuple[GivenOptions, List[str]]:
    """Returns the options in their order, each with its value, and the other words."""
    takes_value: Dict[str, bool] = {}
    by_letter: Dict[str, str] = {}
    for option in OPTIONS[command]:
        name, letter = option.split()
        takes_value[name.rstrip("=")] = name.endswith("=")
        by_letter[letter] = name.rstrip("=")
    options: GivenOptions = []
    others: List[str] = []
    words = list(words)
    while words:
        word = words.pop(0)
        if word == "--":
            return options, others + words
        if word == "-" or not word.startswith("-"):
            others.append(word)
            continue
        if word.startswith("--"):
            name, equals, value = word.partition("=")
        else:
            name, equals, value = by_letter.get(word[:2], word[:2]), word[2:], word[2:]
        if name not in takes_value:
            raise Untranslatable(f"{command} has no option {name}")
        if name in LEFT_OUT[command]:
            raise Untranslatable(f"{command} {name} is not supported")
        if takes_value[name]:
            if not equals and not words:
                raise Untranslatable(f"{name} needs a value")
            options.append((name, value if equals else words.pop(0)))
        else:
            options.append((name, ""))
            # One word may have several letters of options without a value.
            if value and not word.startswith("--"):
                words.insert(0, "-" + value)
    return options, others


def read_number(text: str) -> str:
    """Returns a number as rrdi reads it: without an exponent, rounded to a millionth."""
    if re.fullmatch(r"[-+]?nan", text, re.IGNORECASE) or text == "U":
        return "U"
    if len(text) > LONGEST_NUMBER or not NUMBER.fullmatch(text):
        return text  # rrdi refuses the text and names it
    if re.fullmatch(r"-?[0-9]+(\.[0-9]{1,6})?", text):
        return text
    from decimal import Decimal  # most numbers need no rounding
    sign, digits, exponent = Decimal(text).as_tuple()
    value = int("".join(map(str, digits))) * (-1 if sign else 1)
    power = int(exponent) + 6
    millionths = value * 10**power if power >= 0 else (2 * value + 10**-power) // (2 * 10**-power)
    return shortened(str(Millionths(millionths)))


def read_length(text: str, what: str, unit: int = 1) -> str:
    """Returns a length such as 5m in units of `unit` seconds. A number alone is a number of units."""
    found = re.fullmatch("([0-9]{1,12})([smhdwMy]?)", text)
    if not found:
        raise Untranslatable(f"{what} must be a number or a duration such as 5m, not {text}")
    if not found[2]:
        return text
    seconds = int(found[1]) * LENGTHS[found[2]]
    if unit == 0 or seconds % unit:
        raise Untranslatable(f"{what} must be a multiple of {unit} seconds, not {text}")
    return str(seconds // unit)
