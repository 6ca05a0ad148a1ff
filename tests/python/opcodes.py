# SPDX-License-Identifier: MIT OR Apache-2.0
"""Runs something in the middle of the package's functions: before each step (bytecode) of Python's, where a handler of
a signal and what the collector runs may come."""
from __future__ import annotations

import sys
from pathlib import Path
from types import FrameType
from typing import Any, Callable, Iterator, Optional

import rrdi

PACKAGE = str(Path(rrdi.__file__).parent)
MOST_STEPS = 5_000


class Interrupt(BaseException):
    """What a handler raises, such as Ctrl-C."""


class _Steps:
    """Counts the steps of the package's functions, and runs `act` before the step of a number, or before each."""

    def __init__(self, act: Callable[[], None], number: Optional[int] = None):
        self.act, self.number, self.count = act, number, 0

    def trace(self, frame: FrameType, event: str, given: Any) -> Any:
        if not frame.f_code.co_filename.startswith(PACKAGE):
            return None
        frame.f_trace_opcodes = True
        if event == "opcode":
            self.count += 1
            if self.number in (None, self.count):
                self.act()
        return self.trace

    def run(self, work: Callable[[], object]) -> object:
        before = sys.gettrace()
        sys.settrace(self.trace)
        try:
            return work()
        finally:
            sys.settrace(before)


def between_all(act: Callable[[], None], work: Callable[[], object]) -> object:
    """Runs `work`, with `act` before each step, and returns the result of `work`."""
    return _Steps(act).run(work)


def between_each(act: Callable[[], None], work: Callable[[], object]) -> Iterator[object]:
    """Runs `work` again and again, with `act` before one step, each time the next. Yields the results of `work`."""
    for number in range(1, MOST_STEPS):
        steps = _Steps(act, number)
        yield steps.run(work)
        if steps.count < number:
            return
    raise AssertionError("the work has no end")


def raised_at_each(work: Callable[[], object], check: Callable[[int], None]) -> int:
    """Runs `work` again and again; each time the next step raises an `Interrupt`. Then `check` gets its number. Returns
    how many steps there are."""
    def interrupt() -> None:
        raise Interrupt
    for number in range(1, MOST_STEPS):
        steps = _Steps(interrupt, number)
        try:
            steps.run(work)
        except Interrupt:
            pass
        check(number)
        if steps.count < number:
            return number - 1
    raise AssertionError("the work has no end")
