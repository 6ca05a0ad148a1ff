# SPDX-License-Identifier: MIT OR Apache-2.0
"""The program rrdi in the place of the C library: each call is a process."""
from __future__ import annotations

import errno
import os
import re
from typing import Iterator, List, Tuple

from .errors import CANNOT_OPEN, CANNOT_WRITE, ERROR, OK, READ_FAILED, details_in, fault_of
from .protocol import DONE, Answer
from .words import as_bytes, as_text, numbers_in

EXPLAINED = "rrdi: "  # begins the line of an explanation
IN_USE = "in use by another program"  # begins the reason if another program holds the lock
CUT_SHORT = "no space left, or a limit on the size of files"  # the reason if only some bytes were written
OF_THE_SYSTEM = frozenset({CANNOT_OPEN, CANNOT_WRITE, READ_FAILED})  # the faults for which the system has a reason
ONE_NUMBER = frozenset({b"first", b"last"})  # the commands that print a line with nothing but a number


class NoAnswer(Exception):
    """The program did not start, for the system's `reason`, or it ended with a `status` that rrdi does not have."""

    def __init__(self, program: str, reason: str, status: int = 0):
        super().__init__(f"{program} ended with {status}" if status else f"{program}: {reason}")
        self.program, self.reason, self.status = program, reason, status


class ByProgram:
    """The library's functions on files, by runs of a program. The program has its own clock, so `now` is not used.

    # Errors
    `NoAnswer` from each call if the program does not start or is killed.
    """

    def __init__(self, program: str):
        self.program = program

    def run_file(self, path: bytes, words: bytes, now: int, wait: int, syncs: bool) -> Answer:
        name, *others = words.split(b"\0")
        answer = self._ran([name, path, *others], b"", wait, syncs, [0])
        return answer if answer.fault or answer.output else DONE

    def batch_file(self, path: bytes, lines: bytes, now: int, wait: int, syncs: bool) -> Answer:
        # What `last` prints after each line shows which line an output is of.
        given = lines.split(b"\n")
        mixed = b"".join(line + b"\nlast\n" for line in given)
        answer = self._ran([b"batch", path], mixed, wait, syncs, [0, 1])
        if answer.fault != OK:
            return answer
        output, refused = of_lines(given, answer.output)
        return answer._replace(output=output, refused=refused, explanation=of_every_second(answer.explanation))

    def _ran(self, words: List[bytes], given: bytes, wait: int, syncs: bool, ends: List[int]) -> Answer:
        """Runs the program, which ends without a message with one of the statuses `ends`, with a command, FILE and words."""
        import subprocess  # the library needs no process
        name, path, *others = words
        env = {**os.environ, "RRDI_WAIT": str(wait // 1_000), "RRDI_SYNC": "1" if syncs else "0"}
        try:
            # In a session of its own, so that a key that ends a tool does not end a run that writes.
            ran = subprocess.run([os.fsencode(self.program), name, as_argument(path), *others], input=given, env=env,
                                 capture_output=True, start_new_session=True, pass_fds=numbers_in(path))
        except OSError as error:
            raise NoAnswer(self.program, error.strerror or str(error)) from None
        # The first line is that of the fault, if there is one; after an explanation may follow how rrdi is used.
        lines = as_text(ran.stderr).strip().split("\n")
        reason = "" if lines[0].startswith(EXPLAINED) else lines.pop(0).replace(ERROR, "", 1)
        explained = [line[len(EXPLAINED):] for line in lines if line.startswith(EXPLAINED)]
        if not reason:
            if ran.returncode not in ends:
                raise NoAnswer(self.program, "", ran.returncode)
            return Answer(OK, 0, 0, ran.stdout, explanation=as_bytes("\n".join(explained)))
        fault, at = fault_of(reason)
        number = number_of(explained[0]) if fault in OF_THE_SYSTEM and explained else 0
        return Answer(fault, number, at, as_bytes(reason), explanation=as_bytes(explained[0] if explained else ""))


def number_of(explanation: str) -> int:
    """Returns the number of the system's error that the program explains as `FILE: REASON`; 0 if it is not known."""
    reason = explanation.rpartition(": ")[2]
    if reason.startswith(IN_USE):
        return errno.EAGAIN
    if reason == CUT_SHORT:
        return errno.ENOSPC  # as the library
    numbered = re.search(r"\(os error (\d+)\)$", reason, re.ASCII)
    if numbered is not None:
        return int(numbered[1])
    return next((number for number in errno.errorcode if os.strerror(number).lower() == reason.lower()), 0)


def of_every_second(explanation: bytes) -> bytes:
    """Returns what was wrong with the lines of a batch that has a line of `last` after each of them."""
    return b"".join(b"line %d: %s\n" % ((number + 1) // 2, as_bytes(why))
                    for number, why in details_in(explanation).items() if number % 2)


def as_argument(path: bytes) -> bytes:
    """Returns a path as an argument that rrdi does not take for an option."""
    return b"./" + path if path.startswith(b"-") else path


def of_lines(given: List[bytes], printed: bytes) -> Tuple[bytes, Tuple[int, ...]]:
    """Returns the output of the lines of a batch, and the numbers of the refused ones, from an output that has a line of
    `last` after each of theirs."""
    lines, kept, refused = iter(printed.splitlines(True)), [], []
    for number, line in enumerate(given, 1):
        name = (line.split() or [b""])[0]
        found = output_of(name, lines)
        kept += found
        if found and found[0].startswith(ERROR.encode()):
            refused.append(number)
    return b"".join(kept), tuple(refused)


def output_of(name: bytes, lines: Iterator[bytes]) -> List[bytes]:
    """Takes the output of one command, and the line of `last` after it. Such a line has neither a colon nor an equals
    sign, unless it is a refusal; each line of other commands has one of them, and a refused command prints one line."""
    if not name:
        next(lines, b"")
        return []
    first = next(lines, b"ERROR: no result\n")
    if first.startswith(ERROR.encode()) or name in ONE_NUMBER:
        next(lines, b"")
        return [first]
    found = []
    while b":" in first or b"=" in first:
        found.append(first)
        first = next(lines, b"")
    return found
