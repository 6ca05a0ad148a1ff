# SPDX-License-Identifier: MIT OR Apache-2.0
"""Passes the samples of one file to rrdi, in one batch."""
from __future__ import annotations

from typing import List, NamedTuple, Optional, Protocol, Sequence, Tuple

from ..by_program import NoAnswer
from ..damaged import is_being_made
from ..environment import is_synced, milliseconds
from ..errors import CANNOT_OPEN, EXPLAINED, NO_MEMORY, OK, TRUNCATED, details_in, of_system, reason_of, reasons_in
from ..protocol import DONE, Answer, OnFiles
from ..words import as_text, present


class Reason(str):
    """Why a sample was refused: the reason and, as `detail`, what was wrong, if that is known."""

    detail: str

    def __new__(cls, reason: str, detail: str = "") -> Reason:
        found = super().__new__(cls, reason)
        found.detail = detail
        return found


class Outcome(NamedTuple):
    """The outcome of a batch. At most one of the reasons has a text."""

    again: str = ""  # why feed has to try samples again: rrdi has none of them
    lost: str = ""  # why samples may be lost
    refused: Tuple[Tuple[bytes, str], ...] = ()  # each refused sample, and why: a `Reason` if rrdi refused it
    left: Optional[Tuple[bytes, ...]] = None  # the samples that `again` or `lost` is about, if not all


class Writer(Protocol):
    def write(self, file: bytes, samples: List[bytes]) -> Outcome:
        """Passes the samples of one file to rrdi, each as an update of its own."""

    def create(self, file: bytes, arguments: Sequence[str]) -> str:
        """Creates a database. Returns the reason if that fails, a `Reason` if it is rrdi's, and otherwise nothing."""


STORED = Outcome()
NO_ROOM = "out of memory"
TOO_OLD = "too old"  # begins the reason of a sample that is too late to be put in


def may_be_made(file: bytes) -> bool:
    """Checks whether an empty file may be one that another program is making: one at which the system can't look, too."""
    try:
        return is_being_made(file)
    except OSError:
        return True


def lines_of(samples: List[bytes]) -> bytes:
    """Returns the lines of a batch: an update for each sample."""
    return b"update " + b"\nupdate ".join(samples)


def reason_for(answer: Answer) -> str:
    """Returns the reason of a fault, with that of the system if there is one."""
    reason = reason_of(answer.fault, answer.output)
    return f"{reason}: {of_system(answer.system_error).lower()}" if answer.system_error else reason


def outcome_of(file: bytes, samples: List[bytes], answer: Answer) -> Outcome:
    """Returns the outcome of a batch that had a line for each of these samples."""
    if answer is DONE:
        return STORED
    is_empty = answer.fault == TRUNCATED and answer.at == 0
    if answer.fault in (CANNOT_OPEN, NO_MEMORY) or is_empty and may_be_made(file):
        return Outcome(again=reason_for(answer))
    if answer.fault != OK:
        return Outcome(lost=reason_for(answer))
    reasons, details = reasons_in(as_text(answer.output)), details_in(answer.explanation)
    return Outcome(refused=tuple((samples[number - 1], Reason(why, details.get(number, "")))
                                 for number, why in zip(answer.refused, reasons)))


class BatchWriter:
    """Writes by the library, or by the program in its place."""

    def __init__(self, rrdi: OnFiles):
        self.rrdi = rrdi

    def write(self, file: bytes, samples: List[bytes]) -> Outcome:
        try:
            lines = lines_of(samples)
        except MemoryError:
            return Outcome(again=NO_ROOM)
        try:
            answer = self.rrdi.batch_file(file, lines, present(None), milliseconds(None), is_synced(None))
        except NoAnswer as none:
            return Outcome(lost=str(none)) if none.status else Outcome(again=str(none))
        return outcome_of(file, samples, answer)

    def create(self, file: bytes, arguments: Sequence[str]) -> str:
        words = "\0".join(["create", *arguments]).encode()
        try:
            answer = self.rrdi.run_file(file, words, present(None), milliseconds(None), is_synced(None))
        except NoAnswer as none:
            return str(none)
        if answer.fault == OK:
            return ""
        detail = answer.explanation.decode(errors="replace") if answer.fault in EXPLAINED else ""
        return Reason(reason_for(answer), detail)
