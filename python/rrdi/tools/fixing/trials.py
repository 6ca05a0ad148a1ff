# SPDX-License-Identifier: MIT OR Apache-2.0
"""Runs lines on a copy of a database, so that what they do is known before a file is changed."""

# Without `annotations` of __future__: a named tuple whose types are texts makes a tool start a tenth slower.
import os
import tempfile
from typing import Callable, List, NamedTuple, Optional, Tuple

from ...by_program import ByProgram, NoAnswer
from ...errors import OK, reason_of, reasons_in
from ...limits import LONGEST_LINE
from ...protocol import Answer, Library
from ...words import as_bytes, as_text
from ..command_line import Failure, error_text
from ..program import CommandFailed, not_run

NO_TIME = 0  # what N stands for: no line of these tools has one


class NoCopy(Failure):
    """The system has no room for a copy, or refuses it. Nothing was changed, and a later try may do."""


class AfterTrial(NamedTuple):
    """The database after some lines, as the bytes of its file, what the lines printed, and the numbers of those that were
    refused; the first line is 1."""

    data: bytes
    output: str
    refused: Tuple[int, ...]

    @property
    def refusals(self) -> List[str]:
        return reasons_in(self.output)


Trial = Callable[[bytes, List[str]], AfterTrial]


def text_of(lines: List[str]) -> bytes:
    """Returns the text of a batch.

    # Errors
    `Failure` if a line is longer than a batch takes.
    """
    for line in lines:
        if len(line) > LONGEST_LINE:
            raise Failure(f"a change of {line.count(' ')} samples is too long to be sent again as one change")
    return as_bytes("".join(line + "\n" for line in lines))


def accepted(answer: Answer) -> Answer:
    """Returns an answer.

    # Errors
    `CommandFailed` if it has a fault.
    """
    if answer.fault != OK:
        raise CommandFailed(reason_of(answer.fault, answer.output).split("\n")[0], answer.system_error)
    return answer


def by_library(library: Library) -> Trial:
    """Returns what runs lines in memory."""
    def tried(data: bytes, lines: List[str]) -> AfterTrial:
        answer = accepted(library.batch(data, text_of(lines), NO_TIME))
        return AfterTrial(data if answer.data is None else answer.data, as_text(answer.output), answer.refused)
    return tried


def by_program(program: str, folder: Optional[str] = None) -> Trial:
    """Returns what runs lines by a program, on a copy in a folder for files that do not last."""
    def tried_at(path: str, data: bytes, text: bytes) -> AfterTrial:
        with open(path, "wb") as copy:
            copy.write(data)
        answer = accepted(ByProgram(program).batch_file(os.fsencode(path), text, NO_TIME, 0, False))
        with open(path, "rb") as copy:
            return AfterTrial(copy.read(), as_text(answer.output), answer.refused)

    def tried(data: bytes, lines: List[str]) -> AfterTrial:
        text = text_of(lines)
        try:
            with tempfile.TemporaryDirectory(prefix="rrdi-trial", dir=folder) as place:
                return tried_at(os.path.join(place, "copy.rrdi"), data, text)
        except NoAnswer as none:
            raise not_run(none) from None
        except OSError as error:
            raise NoCopy(f"cannot make a copy to try the change on: {error_text(error)}") from None
    return tried
