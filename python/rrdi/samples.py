# SPDX-License-Identifier: MIT OR Apache-2.0
"""Writes the samples of a call as words of `update`.

A sample is a text (`"1700000010:21.5"`), which stays as it is, or an iterable of a time and values, which may also be in
one iterable, or in a mapping by the names of the sources. A value becomes text with at most six decimals: rrdi keeps whole
millionths.
"""
from __future__ import annotations

import datetime
import math
import operator
import os
import re
from decimal import ROUND_HALF_EVEN, Context, Decimal
from fractions import Fraction
from numbers import Complex, Rational, Real
from typing import Dict, Iterable, List, Mapping, NamedTuple, Optional, Sequence, SupportsFloat, SupportsInt, Union

from .amounts import LARGEST, MILLION, Millionths, shortened
from .errors import BadSample
from .limits import LATEST, NAME_OF_SOURCE
from .times import seconds_of
from .words import FilePath

Number = Union[int, float, Decimal, Fraction, SupportsFloat, SupportsInt]
Cell = Union[str, Number, datetime.datetime, None]
Part = Union[Cell, Iterable[Cell], Mapping[str, Cell]]
Sample = Union[str, Iterable[Part], Iterable[Iterable[Part]]]

LEAST, MOST = -2**63, 2**64 - 1  # whole numbers: the least of a DERIVE, the most of a COUNTER
EXACT = Context(prec=50, rounding=ROUND_HALF_EVEN, traps=[])
MILLIONTH = Decimal("0.000001")
# Types of numpy and pandas by their names, so that no program imports these for rrdi.
BOOLEANS, MISSING = frozenset({"bool", "bool_"}), frozenset({"NAType", "NaTType"})
# What has no order, or is no text: a sample of these would not be what it seems.
NO_SAMPLES = (bytes, bytearray, memoryview, set, frozenset, Mapping)


def value_text(value: object) -> str:
    """Returns a value as a sample has it, rounded to six decimals, half to even; None and nan are unknown.

    # Errors
    - `ValueError` if no source takes the value: inf, or a number beyond the limits.
    - `TypeError` if the value is neither a number nor text nor None.
    """
    if type(value) is float:
        return _of_float(value)
    if type(value) is int and LEAST <= value <= MOST:
        return str(value)
    if value is None:
        return "U"
    if isinstance(value, str):
        if ":" in value:
            raise ValueError(f"{value[:40]!r}; a colon would make two values of it")
        return value
    if isinstance(value, bool):
        raise TypeError(f"{value}, which is no number; write 1 or 0")
    if isinstance(value, Millionths):
        return _of_fraction(Fraction(int(value), MILLION))
    if isinstance(value, Rational):  # a whole number of numpy has only 64 bits to reckon with
        return _of_fraction(Fraction(int(value.numerator), int(value.denominator)))
    if isinstance(value, Decimal):
        return _of_decimal(value)
    return _of_other(value)


def _of_other(value: object) -> str:
    """Returns the text of a number of another type, such as one of numpy or pandas."""
    kind = type(value).__name__
    if kind in MISSING:
        return "U"
    if kind in BOOLEANS:
        raise TypeError(f"{value}, which is no number; write 1 or 0")
    if not is_many(value) and not (isinstance(value, Complex) and not isinstance(value, Real)):
        for convert in (operator.index, float):
            try:
                number = convert(value)  # type: ignore[operator]
            except TypeError:
                continue
            return _of_fraction(Fraction(number)) if isinstance(number, int) else _of_float(number)
    raise TypeError(f"of type {kind}, which is neither a number nor text nor None")


def _of_float(value: float) -> str:
    if math.isnan(value):
        return "U"
    if math.isinf(value):
        raise ValueError(f"{value}, which is no number; None is unknown")
    return _within_limits(f"{value:.6f}", value)


def _of_decimal(value: Decimal) -> str:
    if value.is_nan():
        return "U"
    if value.is_infinite():
        raise ValueError(f"{value}, which is no number; None is unknown")
    if not -MOST <= value <= MOST:  # before its digits are written, which may be a million
        raise _beyond(value)
    return _within_limits(f"{value.quantize(MILLIONTH, context=EXACT):f}", value)


def _of_fraction(value: Fraction) -> str:
    if not -MOST <= value <= MOST:
        raise _beyond(value)
    return _within_limits(str(Millionths(round(value * MILLION))), value)


def _within_limits(text: str, value: object) -> str:
    """Returns the text of a number without needless zeros.

    # Errors
    `ValueError` if no type of source takes the number.
    """
    text = shortened(text)
    if "." in text:
        if abs(int(text.partition(".")[0])) >= LARGEST:
            raise ValueError(f"{text}; a number with a fraction must be below 10^18")
    elif not LEAST <= int(text) <= MOST:
        raise _beyond(value)
    return text


def _beyond(value: object) -> ValueError:
    is_long = isinstance(value, Fraction) and abs(value) >= 10**40
    text = "a number of more than 40 digits" if is_long else str(value)
    return ValueError(f"{text[:40]}; a GAUGE takes numbers below 10^18, a COUNTER whole numbers up to 2^64 - 1, "
                      "a DERIVE whole numbers from -2^63 on")


def is_many(value: object) -> bool:
    """Returns whether a value is an iterable of others, and no text. An array of numpy may have no dimension."""
    if isinstance(value, (list, tuple)):
        return True
    return hasattr(type(value), "__iter__") and not isinstance(value, str) and getattr(value, "ndim", 1) != 0


def _is_time(first: object) -> bool:
    """Returns whether the first part of an iterable is a time, so that the whole is a sample."""
    if isinstance(first, str):
        return first == "N" or first.isdigit()
    return not is_many(first)


def _time_text(time: object, number: int, now: Optional[int]) -> str:
    if time == "N" and now is not None:
        return str(now)
    if isinstance(time, str):
        return time
    try:
        seconds = seconds_of(time)  # type: ignore[arg-type]
    except ValueError as error:
        raise ValueError(f"sample {number}: {error}") from None
    if not 0 <= seconds <= LATEST:
        raise ValueError(why_bad_time(f"sample {number} has the time", seconds))
    return str(seconds)


def why_bad_time(what: str, seconds: int) -> str:
    """Returns what is wrong with a time that rrdi cannot keep."""
    text = f"{what} {seconds}"
    if seconds < 0:
        return f"{text}, which is before 1970"
    for name, part in (("milliseconds", 10**3), ("microseconds", 10**6), ("nanoseconds", 10**9)):
        if seconds // part <= LATEST:
            return f"{text}; if these are {name}, write {seconds // part}"
    return f"{text}, which is over {LATEST}"


def _decoded(path: Optional[FilePath]) -> Optional[str]:
    """Returns the path of an error; None in memory."""
    return None if path is None else os.fsdecode(path)


def sample_text(sample: Sequence[object], number: int, path: Optional[FilePath] = None,
                now: Optional[int] = None) -> str:
    """Returns the text of sample `number`, which is a time and values.

    # Errors
    - `BadSample` if the time or a value is beyond the limits, or a datetime has no zone.
    - `TypeError` if the time or a value has another type.
    """
    words = [_time_of(sample, number, path, now)]
    for at, value in enumerate(sample[1:], 1):
        try:
            words.append(value_text(value))
        except (ValueError, TypeError) as error:
            raise _of_value(error, at, number, path) from None
    return ":".join(words)


def _time_of(sample: Sequence[object], number: int, path: Optional[FilePath], now: Optional[int]) -> str:
    try:
        return _time_text(sample[0], number, now)
    except ValueError as error:
        raise BadSample("bad time", _decoded(path), str(error)) from None


def _of_value(error: Exception, at: Union[int, str], number: int, path: Optional[FilePath]) -> Exception:
    """Returns the error of `value_text` for a value, which has a place or a name."""
    text = f"value {at} of sample {number} is {error}"
    return BadSample("bad value", _decoded(path), text) if isinstance(error, ValueError) else TypeError(text)


def is_table(value: object) -> bool:
    """Returns whether a value is a DataFrame of pandas, which is an iterable of the columns' names."""
    return hasattr(type(value), "itertuples")


def no_sample(value: object) -> TypeError:
    """Returns the error of what stands in the place of a sample and is none."""
    text = f"a sample must be text or a tuple of a time and values, not {type(value).__name__}"
    if is_table(value):
        text += "; pass its itertuples()"
    elif isinstance(value, int) and not isinstance(value, bool):
        text += f"; write ({value}, VALUE)"
    return TypeError(text)


def sample_words(samples: Iterable[object], path: Optional[FilePath] = None, now: Optional[int] = None,
                 template: Optional[str] = None) -> List[str]:
    """Returns the samples as text, after the option of a template, if there is one or if values have names.

    An iterable that does not begin with a time is one of samples. `now` replaces the time N.

    # Errors
    - `BadSample` if a time or a value is beyond the limits.
    - `TypeError` if a sample has another type, or only some samples have values by name.
    """
    found = _Words(path, now)
    found.add_all(samples)
    if found.named:
        if template is not None:
            raise TypeError("values by name need no template")
        template = found.put_names()
    return found.words if template is None else [f"--template={template}", *found.words]


class _SampleByName(NamedTuple):
    """A sample with values by name: the place of its word, and the texts of its time and values."""

    place: int
    time: str
    values: Dict[str, str]


class _Words:
    """The words of samples. Those with values by name are written when the names of all are known."""

    def __init__(self, path: Optional[FilePath], now: Optional[int]):
        self.path, self.now = path, now
        self.words: List[str] = []
        self.named: List[_SampleByName] = []

    def add_all(self, samples: Iterable[object]) -> None:
        for sample in samples:
            if type(sample) is tuple:
                self._add(sample)
            elif isinstance(sample, str):
                is_now = self.now is not None and sample.startswith("N:")
                self.words.append(f"{self.now}{sample[1:]}" if is_now else sample)
            elif is_many(sample) and not isinstance(sample, NO_SAMPLES) and not is_table(sample):
                self._add(list(sample))  # type: ignore[call-overload]
            else:
                raise no_sample(sample)

    def _add(self, parts: Sequence[object]) -> None:
        if not parts or not _is_time(parts[0]):
            self.add_all(parts)
            return
        if len(parts) == 2 and type(parts[1]) not in (float, int) and is_many(parts[1]):
            if isinstance(parts[1], Mapping):
                self._add_named(parts, parts[1])
                return
            if not isinstance(parts[1], NO_SAMPLES):
                parts = [parts[0], *parts[1]]  # type: ignore[misc]
        self.words.append(sample_text(parts, len(self.words) + 1, self.path, self.now))

    def _add_named(self, parts: Sequence[object], values: Mapping[object, object]) -> None:
        number = len(self.words) + 1
        for name in values:
            if not isinstance(name, str):
                raise TypeError(f"the names of sample {number} must be text, not {type(name).__name__}")
            if not re.fullmatch(NAME_OF_SOURCE, name):
                raise BadSample("no such data source", _decoded(self.path), f"sample {number} has the name {name[:40]!r}")
        texts: Dict[str, str] = {}
        for name, value in values.items():
            try:
                texts[str(name)] = value_text(value)
            except (ValueError, TypeError) as error:
                raise _of_value(error, str(name), number, self.path) from None
        self.named.append(_SampleByName(len(self.words), _time_of(parts, number, self.path, self.now), texts))
        self.words.append("")

    def put_names(self) -> str:
        """Writes the samples with values by name, and returns their template. What a sample does not name is unknown."""
        names = list(dict.fromkeys(name for sample in self.named for name in sample.values))
        if not names:
            raise TypeError("a sample has no values")
        for sample in self.named:
            self.words[sample.place] = ":".join([sample.time, *(sample.values.get(name, "U") for name in names)])
        if len(self.named) < sum(not word.startswith("-") for word in self.words):
            raise TypeError("give values by name in each sample of a call, or in none")
        return ":".join(names)
