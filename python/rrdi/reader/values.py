# SPDX-License-Identifier: MIT OR Apache-2.0
"""The database in a file, with numbers that a program can use: exact decimals, or floats.

A database is a dictionary, and so is each part of it. JSON has the same names:

- the database: `version` (of the layout), `step`, `last_time`, `journal_depth`, `sources`, `archives`, `journal`;
- a source: `name`, `type`, `heartbeat`, `min`, `max`, `last_raw`; `known_seconds` and `sum` of its partial step;
- an archive: `function`, `steps`, `xff`; `preparations`, the partial row of each source, with `known_steps` and `value`;
  `rows`, the oldest first, each with `time` (its end) and `cells`;
- an entry of the journal, the newest change first: `change`, and what it replaced. `update`: `last_time`; `sources`, each
  with `last_raw`, `known_seconds` and `sum`; `archives`, each with `preparations` and `rows`. `tune`: `sources`, each with
  its `number` and the names of a source. `resize`: `archive`, its number, and its `rows` before. `removal`: `archive`, its
  number, and the names of an archive. `addition`: nothing more.

None is an unknown value, or no bound.
"""
from __future__ import annotations

from decimal import Context, Decimal
from typing import Any, Callable, Dict, List, Type, Union

from ..amounts import MILLION, Millionths
from . import files
from .pieces import Parts

MILLIONTH = Decimal("0.000001")
EXACT = Context(prec=60)  # a sum has at most 32 digits


def as_decimal(amount: int) -> Decimal:
    """Returns an amount in millionths as a decimal with six digits after the point."""
    return EXACT.multiply(Decimal(amount), MILLIONTH)


def as_float(amount: int) -> float:
    """Returns the float that is nearest to an amount in millionths."""
    return amount / MILLION


Convert = Callable[[int], Union[float, Decimal]]
CONVERSIONS: Dict[type, Convert] = {float: as_float, Decimal: as_decimal}


def read(data: bytes, *, values: Type[Union[float, Decimal]] = Decimal) -> Parts:
    """Returns the database that these bytes represent, by names.

    `values` is the type of the numbers: `decimal.Decimal`, which is exact, or `float`. Raw values of COUNTER and DERIVE
    are ints.

    # Errors
    - `Damaged` if the bytes represent no database.
    - `TypeError` if `values` is another type.
    """
    return _read(lambda: files.read(data), values)


def read_file(path: str, *, values: Type[Union[float, Decimal]] = Decimal) -> Parts:
    """Returns the database in a file, by names, as `read`; - is standard input.

    # Errors
    - `OSError` if the file cannot be opened, locked or read.
    - `Damaged` if the file is not a database.
    - `TypeError` if `values` is another type.
    """
    return _read(lambda: files.read_file(path), values)


def _read(reading: Callable[[], Parts], values: type) -> Parts:
    convert = CONVERSIONS.get(values)
    if convert is None:
        raise TypeError(f"values must be float or Decimal, not {values!r}")
    found = reading()
    _convert_parts(found, convert)
    return found


def _convert_parts(parts: Parts, convert: Convert) -> None:
    """Replaces the amounts in some parts, and in the parts of these."""
    for name, part in parts.items():
        if type(part) is Millionths:
            parts[name] = convert(part)
        elif name == "cells":
            parts[name] = [None if cell is None else convert(cell) for cell in part]
        elif type(part) is list:
            _convert_all(part, convert)


def _convert_all(found: List[Dict[str, Any]], convert: Convert) -> None:
    for parts in found:
        _convert_parts(parts, convert)
