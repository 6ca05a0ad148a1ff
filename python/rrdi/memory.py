# SPDX-License-Identifier: MIT OR Apache-2.0
"""Commands on a database in memory: on the bytes of a file, and with no file."""
from __future__ import annotations

import errno
from typing import Iterable, NamedTuple, Optional, Tuple, Union

from .commands import RefusedLine, lines_of, refused_lines, text_of_lines
from .errors import CANNOT_OPEN, EXPLAINED, OK, Error, error_of, reason_of
from .library import Answer, the_library
from .samples import Sample, sample_words
from .times import Time, moment
from .words import Word, encoded, flat


class Ran(NamedTuple):
    """The bytes of the database after a command, and what the command printed.

    If the command changed nothing, `data` is the same object that the caller passed.
    """

    data: bytes
    output: str


class RanBatch(NamedTuple):
    """The bytes of the database after some lines, the output of the lines, and the refused lines."""

    data: Optional[bytes]
    output: str
    refused: Tuple[RefusedLine, ...]


def _failed(answer: Answer) -> Error:
    """Returns the exception for the fault of an answer. In memory, `cannot open` means that there is no database."""
    number = errno.ENOENT if answer.fault == CANNOT_OPEN else 0
    found = error_of(answer.fault, reason_of(answer.fault, answer.output), None, answer.at, number)
    found.system_error = 0
    if answer.fault in EXPLAINED:
        found.detail = answer.explanation.decode(errors="replace")
    return found


def run(data: Optional[bytes], *words: Union[Sample, Word], now: Optional[Time] = None) -> Ran:
    """Runs one command on the bytes of a database, or on none: `run(None, "create", ..)`. Reads and writes no file.

    The samples of an `update` may be tuples, as in `rrdi.update`.

    # Errors
    A subclass of `Error` in `rrdi.errors`.
    """
    given = ["update", *sample_words(words[1:])] if words[:1] == ("update",) else flat(words)  # type: ignore[arg-type]
    answer = the_library().run(data, encoded(given), moment(now))
    if answer.fault != OK:
        raise _failed(answer)
    changed = data if answer.data is None else answer.data
    assert changed is not None, "without a database rrdi accepts `create` alone"
    return Ran(changed, answer.output.decode())


def run_batch(data: Optional[bytes], lines: Union[str, Iterable[str]], *, now: Optional[Time] = None) -> RanBatch:
    """Runs lines as `rrdi batch` reads them on the bytes of a database, or on none.

    # Errors
    A subclass of `Error` in `rrdi.errors` if no line was run. A refused line is in `refused`.
    """
    given = lines_of(lines)
    answer = the_library().batch(data, text_of_lines(given), moment(now))
    if answer.fault != OK:
        raise _failed(answer)
    changed = data if answer.data is None else answer.data
    return RanBatch(changed, answer.output.decode(), refused_lines(given, answer))
