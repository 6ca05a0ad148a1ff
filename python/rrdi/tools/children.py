# SPDX-License-Identifier: MIT OR Apache-2.0
"""Does the same work for many things, several at a time, in a few processes: to start one for each thing would cost more than
most of the work."""
from __future__ import annotations

import os
import selectors
import struct
from contextlib import suppress
from typing import Callable, Dict, Generic, Iterator, List, NamedTuple, NoReturn, Optional, Sequence, Tuple, TypeVar

Thing = TypeVar("Thing")

# A process gets the numbers of things, and answers with the length of its answer before each.
NUMBER = struct.Struct("Q")
READ = 1 << 16  # bytes of one read


class ChildAnswer(NamedTuple):
    """What a process says of its work: whether it is done, and a text."""

    is_done: bool
    text: str


class Child:
    """A process, the end of a pipe that takes the numbers of things to it, the end of one from which its answers come, and
    the number of the thing at which it is; None if it waits for one."""

    def __init__(self, process: int, numbers: int, told: int):
        self.process, self.numbers, self.told = process, numbers, told
        self.at: Optional[int] = None
        self.data = bytearray()

    def answer(self) -> Optional[ChildAnswer]:
        """Returns the answer, if it is complete."""
        if len(self.data) < NUMBER.size:
            return None
        end = NUMBER.size + NUMBER.unpack_from(self.data)[0]
        if len(self.data) < end:
            return None
        answer = ChildAnswer(self.data[NUMBER.size] == ord("+"), os.fsdecode(bytes(self.data[NUMBER.size + 1:end])))
        del self.data[:end]
        return answer


def answers(things: Sequence[Thing], work: Callable[[Thing], ChildAnswer], most: int) -> Iterator[Tuple[Thing, ChildAnswer]]:
    """Yields the answers in the order of the things. At most `most` processes run, and fewer if the system has no more. If the
    caller gives up, they end the work at which they are.

    # Errors
    `OSError` if the system has no pipe or process even for one.
    """
    children = Children(things, work, most)
    try:
        for number, thing in enumerate(things):
            yield thing, children.answer_of(number)
    finally:
        children.end()


class Children(Generic[Thing]):
    """The processes, by the ends of the pipes from which their answers come."""

    def __init__(self, things: Sequence[Thing], work: Callable[[Thing], ChildAnswer], most: int):
        self.things, self.work, self.most = things, work, most
        self.running: Dict[int, Child] = {}
        self.given = 0  # things
        self.found: Dict[int, ChildAnswer] = {}
        self.selector = selectors.DefaultSelector()

    def answer_of(self, number: int) -> ChildAnswer:
        """Waits for the answer of a thing, and takes those of others.

        # Errors
        `OSError` if the system has no process for it.
        """
        while number not in self.found:
            self.give()
            for key, _ in self.selector.select():
                self.take(self.running[key.fd])
        return self.found.pop(number)

    def give(self) -> None:
        """Gives things to the processes that wait, and starts processes for others.

        # Errors
        `OSError` if there is no process, and the system has none.
        """
        waiting = [child for child in self.running.values() if child.at is None]
        while self.given < len(self.things):
            child = waiting.pop() if waiting else self.started()
            if child is None:
                return
            with suppress(BrokenPipeError):  # it was ended: its answer tells
                os.write(child.numbers, NUMBER.pack(self.given))
            child.at = self.given
            self.given += 1

    def take(self, child: Child) -> None:
        """Takes what a process says, or its end."""
        data = os.read(child.told, READ)
        child.data += data
        answer = child.answer() if data else self.lose(child)
        if answer is not None and child.at is not None:
            self.found[child.at] = answer
            child.at = None

    def lose(self, child: Child) -> ChildAnswer:
        """Waits for the end of a process, and says what it was."""
        self.selector.unregister(child.told)
        del self.running[child.told]
        os.close(child.told)
        os.close(child.numbers)
        with suppress(ChildProcessError):
            _, status = os.waitpid(child.process, 0)
            if os.WIFSIGNALED(status):
                return ChildAnswer(False, f"the process was ended by signal {os.WTERMSIG(status)}")
        return ChildAnswer(False, "the process ended without an answer")

    def started(self) -> Optional[Child]:
        """Starts a process. Returns None if there are enough, or the system has no pipe or process and another one runs.

        # Errors
        `OSError` if no other one runs.
        """
        if len(self.running) >= self.most:
            return None
        try:
            child = self.forked()
        except OSError:
            if not self.running:
                raise
            return None
        self.running[child.told] = child
        self.selector.register(child.told, selectors.EVENT_READ)
        return child

    def forked(self) -> Child:
        ends: List[int] = []  # of the two pipes
        try:
            ends += os.pipe()
            ends += os.pipe()
            process = os.fork()
        except OSError:
            for end in ends:
                os.close(end)
            raise
        numbers, to_child, told, to_parent = ends
        if process == 0:
            # A process that is given nothing any more ends, so no other one keeps its pipe open.
            for end in (to_child, told, *(child.numbers for child in self.running.values())):
                os.close(end)
            self.do_all(numbers, to_parent)
        os.close(numbers)
        os.close(to_parent)
        return Child(process, to_child, told)

    def do_all(self, numbers: int, told: int) -> NoReturn:
        """Does the work in a process, until there is no more, and ends the process."""
        status = 1
        try:
            while True:
                given = os.read(numbers, NUMBER.size)
                if len(given) < NUMBER.size:
                    break
                answer = self.work(self.things[NUMBER.unpack(given)[0]])
                text = (b"+" if answer.is_done else b"-") + os.fsencode(answer.text)
                rest = memoryview(NUMBER.pack(len(text)) + text)
                while rest:
                    rest = rest[os.write(told, rest):]
            status = 0
        finally:
            os._exit(status)

    def end(self) -> None:
        """Waits for the end of all processes."""
        children = list(self.running.values())
        for child in children:
            self.selector.unregister(child.told)
            os.close(child.numbers)
        for child in children:
            while os.read(child.told, READ):
                pass
            os.close(child.told)
            with suppress(ChildProcessError):
                os.waitpid(child.process, 0)
        self.selector.close()
