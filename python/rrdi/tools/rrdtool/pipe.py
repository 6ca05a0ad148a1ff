# SPDX-License-Identifier: MIT OR Apache-2.0
"""The pipe mode of RRDtool: a command per line, and an answer to each."""
from __future__ import annotations

import os
import time
from typing import BinaryIO, Callable, Dict, List

from ...words import as_bytes, as_text
from ..command_line import Failure, error_text
from ..rrdtool_output import Printed, guarded, lines_of, one_line, with_lengths


class Quit(Exception):
    """The line `quit`."""


def split(line: str) -> List[str]:
    """Splits a line into arguments as RRDtool does.

    Spaces separate arguments. Quotes of both kinds may be anywhere in an argument; a backslash and a tab are characters
    like others. Control characters and spaces at both ends of the line are dropped.

    # Errors
    `Failure` if a quote is not closed.
    """
    words: List[str] = []
    quote, is_inside = "", False
    for character in line.strip("".join(map(chr, range(33)))):
        if quote:
            if character == quote:
                quote = ""
                continue
        elif character == " ":
            is_inside = False
            continue
        if not is_inside:
            words.append("")
            is_inside = True
        if not quote and character in "\"'":
            quote = character
        else:
            words[-1] += character
    if quote:
        raise Failure("creating arguments")
    return words


class Pipe:
    """Answers lines. `run` takes the name and the arguments of a command, and returns what the command prints.

    An answer has RRDtool's form: the output and a line with OK, or a line with ERROR. With `has_lengths` it has the form
    that `rrdtool_output.with_lengths` describes.
    """

    def __init__(self, run: Callable[[str, List[str]], Printed], usage: str, output: BinaryIO, has_lengths: bool = False):
        self.run_command, self.usage, self.output, self.has_lengths = run, usage, output, has_lengths
        self.begun = time.monotonic()
        self.own: Dict[str, Callable[[List[str]], Printed]] = {
            "quit": self.quit, "cd": self.change_directory, "mkdir": self.make_directory, "ls": self.list_directory,
            "pwd": self.print_directory}

    def answer_all(self, lines: BinaryIO) -> None:
        """Answers lines up to `quit` or the end of the input."""
        for line in iter(lines.readline, b""):
            try:
                self.answer(as_text(line))
            except Quit:
                return

    def answer(self, line: str) -> None:
        try:
            words = split(line)
            answer = self.accepted(self.run(words[0], words[1:]) if words else lines_of(self.usage))
        except Quit:
            raise
        except Failure as failure:
            answer = self.refused(str(failure))
        except OSError as error:
            answer = self.refused(error_text(error))
        except Exception as error:  # a fault of this program; the caller still needs an answer
            answer = self.refused(f"internal error: {error!r}")
        self.output.write(answer)
        self.output.flush()

    def accepted(self, printed: Printed) -> bytes:
        return with_lengths("OK", printed) if self.has_lengths else guarded(printed) + self.times()

    def refused(self, reason: str) -> bytes:
        if self.has_lengths:
            return with_lengths("ERROR", [reason])
        return as_bytes(f"ERROR: {one_line(reason)}\n")

    def times(self) -> bytes:
        """Returns the line after a successful command: seconds in the program, in the system, and since the start."""
        used = os.times()
        return (f"OK u:{used.user + used.children_user:.2f} s:{used.system + used.children_system:.2f} "
                f"r:{time.monotonic() - self.begun:.2f}\n").encode()

    def run(self, name: str, words: List[str]) -> Printed:
        if any("\0" in word for word in (name, *words)):
            raise Failure("an argument has a zero byte")
        if name in self.own:
            if len(words) != (1 if name in ("cd", "mkdir") else 0):
                raise Failure(f"invalid parameter count for {name}")
            return self.own[name](words)
        return self.run_command(name, words)

    @staticmethod
    def quit(_words: List[str]) -> Printed:
        raise Quit

    @staticmethod
    def change_directory(words: List[str]) -> Printed:
        try:
            os.chdir(words[0])
        except OSError as error:
            raise Failure(f"chdir {words[0]} {error.strerror}") from None
        return []

    @staticmethod
    def make_directory(words: List[str]) -> Printed:
        try:
            os.mkdir(words[0])
        except OSError as error:
            raise Failure(f"mkdir {words[0]}: {error.strerror}") from None
        return []

    @staticmethod
    def list_directory(_words: List[str]) -> Printed:
        """Lists directories, and files with names that end in .rrd or .rrdi."""
        lines: Printed = []
        for name in [".", "..", *sorted(os.listdir("."))]:
            if os.path.isdir(name):
                lines.append(f"d {name}")
            elif os.path.isfile(name) and name.endswith((".rrd", ".rrdi")):
                lines.append(f"- {name}")
        return lines

    @staticmethod
    def print_directory(_words: List[str]) -> Printed:
        return [as_text(os.getcwdb())]
