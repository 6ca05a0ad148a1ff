# SPDX-License-Identifier: MIT OR Apache-2.0
"""Reads command lines whose options may be before, between and after the other words."""
from __future__ import annotations

import re
from typing import Container, Dict, List, Mapping, NamedTuple, Optional

from ..limits import FUNCTIONS
from .command_line import WrongArguments


class GivenWords(NamedTuple):
    """The words of a command line: the values of options by their names, the options without a value, and the others."""

    values: Dict[str, str]
    flags: List[str]
    others: List[str]


def given_words(words: List[str], with_value: Mapping[str, str], flags: Container[str]) -> GivenWords:
    """Reads words. An option with a value has it in the same word, after `=`, or in the next one.

    # Errors
    `WrongArguments` if a word is empty, or is no option and begins as one.
    """
    given, words = GivenWords({}, [], []), list(words)
    while words:
        word = words.pop(0)
        name, equals, value = word.partition("=")
        if name in with_value and (words or equals):
            given.values[with_value[name]] = value if equals else words.pop(0)
        elif word in flags:
            given.flags.append(word)
        elif word.startswith("-") and word != "-" or not word:
            raise WrongArguments
        else:
            given.others.append(word)
    return given


def function_at(others: List[str], at: int) -> Optional[str]:
    """Returns the consolidation function among the other words; None if there is none.

    # Errors
    `WrongArguments` if the word is no function.
    """
    function = others[at] if at < len(others) else None
    if function is not None and function not in FUNCTIONS:
        raise WrongArguments(f"the function {function!r} must be AVERAGE, MIN, MAX or LAST")
    return function


def number_of(values: Mapping[str, str], name: str) -> Optional[int]:
    """Returns the value of an option that is a whole number; None if it was not given.

    # Errors
    `WrongArguments` if the value is no whole number.
    """
    text = values.get(name)
    if text is not None and not re.fullmatch("[0-9]{1,10}", text):
        raise WrongArguments(f"--{name} must be a whole number, not {text!r}")
    return None if text is None else int(text)
