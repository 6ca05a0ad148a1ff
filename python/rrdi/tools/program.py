# SPDX-License-Identifier: MIT OR Apache-2.0
"""Runs commands of rrdi for the tools, which use databases only through this module and the reader."""
from __future__ import annotations

import errno
import os
import re
import time
from contextlib import contextmanager
from typing import TYPE_CHECKING, Callable, Iterable, Iterator, List, Optional

from ..by_program import NoAnswer
from ..choice import chosen, program_path
from ..environment import milliseconds, sync_of_environment
from ..errors import CANNOT_OPEN, EXPLAINED, OK, USAGE, details_in, of_system, reason_of, reasons_in
from ..limits import LONGEST_LINE
from ..printed import Settings, settings_of
from ..words import as_bytes, as_text
from .command_line import Failure

if TYPE_CHECKING:
    from ..protocol import Answer

# A line of a batch has tabs and printable ASCII.
OF_A_LINE = re.compile("[\t -~]*")


class CommandFailed(Failure):
    """rrdi refused a command, or cannot run it; the text is its reason, `system_error` the system's number, or 0, and
    `detail` what was wrong, if that is known."""

    def __init__(self, reason: str, system_error: int = 0, detail: str = ""):
        super().__init__(reason)
        self.system_error, self.detail = system_error, detail

    def of_file(self, file: str, opened: Optional[str] = None) -> str:
        """Returns the reason with the file, and why the system did not open or write it. If the library does not tell, the
        system is asked for the path `opened`, by default that of the file."""
        return f"{file}: {self.with_system(file if opened is None else opened)}"

    def with_system(self, opened: str) -> str:
        """Returns the reason, and why the system did not open or write a file, as `of_file`."""
        why = ""
        if self.system_error:
            why = of_system(self.system_error)
        elif str(self) == "cannot open":
            why = why_not_opened(opened)
        return f"{self}{': ' if why else ''}{why}"


def why_not_opened(path: str) -> str:
    """Returns the system's reason for not opening a file to read it; nothing if it opens the file."""
    try:
        os.close(os.open(path, os.O_RDONLY | os.O_NONBLOCK | os.O_CLOEXEC))
    except OSError as error:
        return error.strerror or str(error)
    return os.strerror(errno.EISDIR) if os.path.isdir(path) else ""


def is_utf_8(path: bytes) -> bool:
    try:
        path.decode()
    except UnicodeDecodeError:
        return False
    return True


def not_run(none: NoAnswer) -> Failure:
    """Returns the failure for a program that gave no answer."""
    if none.status:
        return CommandFailed(f"{none.program} ended with status {none.status}")
    return Failure(f"cannot run {none.program}: {none.reason}")


def answered(call: Callable[..., Answer], file: str, given: bytes) -> Answer:
    """Calls a function of the library, or of the program in its place, for a file.

    # Errors
    - `CommandFailed` if rrdi refuses the command or cannot run it.
    - `Failure` if the program cannot be started, or an argument has a zero byte.
    """
    try:
        answer = call(as_bytes(file), given, int(time.time()), milliseconds(None), sync_of_environment())
    except NoAnswer as none:
        raise not_run(none) from None
    if answer.fault in (USAGE, CANNOT_OPEN) and not is_utf_8(as_bytes(file)):
        raise CommandFailed("the path is not in UTF-8, as rrdi wants it")
    if answer.fault != OK:
        detail = answer.explanation.decode(errors="replace") if answer.fault in EXPLAINED else ""
        raise CommandFailed(reason_of(answer.fault, answer.output).split("\n")[0], answer.system_error, detail)
    return answer


@contextmanager
def naming(file: str) -> Iterator[None]:
    """Adds the file to the reason for which a command failed, and the system's reason if the file can't be opened."""
    try:
        yield
    except CommandFailed as failed:
        raise CommandFailed(failed.of_file(file), detail=failed.detail) from None


def ask(words: List[str]) -> str:
    """Runs a command of rrdi, with its file after its name, and returns its output. The errors are those of `answered`."""
    if any("\0" in word for word in words):
        raise Failure("an argument has a zero byte")
    name, file, *others = words
    return as_text(answered(chosen().run_file, file, as_bytes("\0".join([name, *others]))).output)


def checked(lines: Iterable[str]) -> List[str]:
    """Returns the lines of a batch.

    # Errors
    `Failure` if one is no text of a batch, for example because a line feed in it begins another line.
    """
    given = list(lines)
    for line in given:
        if len(line) > LONGEST_LINE or not OF_A_LINE.fullmatch(line):
            raise Failure(f"a line of a batch has a character that it cannot have, or is too long: {line[:60]!r}")
    return given


def batch_on_new(file: str, lines: Iterable[str]) -> None:
    """Runs lines, of which the first one creates the database, on an empty file that is being made. That one runs alone: a
    batch takes an empty file for a damaged one.

    # Errors
    Those of `batch`.
    """
    first, *others = checked(lines)
    answered(chosen().run_file, file, as_bytes("\0".join(first.split())))
    batch(file, others)


def batch(file: str, lines: Iterable[str]) -> List[str]:
    """Runs the lines of a batch on a file and returns their output.

    # Errors
    Those of `answered` and of `checked`, with the first refusal if a line was refused.
    """
    given = checked(lines)
    answer = answered(chosen().batch_file, file, as_bytes("".join(line + "\n" for line in given)))
    printed = as_text(answer.output)
    refused = reasons_in(printed)
    if refused:
        raise CommandFailed(refused[0], detail=details_in(answer.explanation).get(answer.refused[0], ""))
    return printed.splitlines()


def last(file: str) -> int:
    """Returns the time of the last sample of a file."""
    return int(ask(["last", file]))


def settings(file: str) -> Settings:
    """Returns the settings of a database.

    # Errors
    Those of `answered`, and `Failure` if the output is none of rrdi's.
    """
    text = ask(["info", file])
    try:
        return settings_of(text)
    except ValueError:
        raise Failure(f"cannot read the output of {program_path()} info") from None


def as_millionths(text: str) -> int:
    """Returns a number as rrdi prints it, in whole millionths."""
    whole, _, fraction = text.partition(".")
    return int(whole + fraction.ljust(6, "0"))
