# SPDX-License-Identifier: MIT OR Apache-2.0
"""Holds samples by their files, and passes them on."""
from __future__ import annotations

import errno
import os
import re
import selectors
import sys
import time
from contextlib import suppress
from dataclasses import dataclass
from itertools import groupby
from operator import length_hint
from queue import Empty, SimpleQueue
from typing import Callable, Dict, Iterable, Iterator, List, Optional, Set, Tuple

from ..escaping import escaped
from ..limits import LONGEST_LINE
from ..open_files import OpenBounds
from ..words import as_text
from .ordering import further, in_order
from .workers import FIRST, Batch, Workers
from .writers import NO_ROOM, TOO_OLD, Outcome, Reason, Writer

UPDATE = b"update "
SHORT = LONGEST_LINE - len(UPDATE)  # bytes of a line whose sample cannot be too long
FIRST_PAUSE, LONGEST_PAUSE = 0.1, 60.0  # seconds
SAMPLES_OF_A_LINE, FEW = 100, 10  # samples in a line of a message; with few of a file, each has a line of its own
NUMBERS, EXPLAINED_AGAIN = re.compile("[0-9]+"), 60.0  # seconds
READ = 1 << 18  # bytes of one read of the input
LONGEST_GIVEN = 1 << 24  # bytes of a line of the input, which may have many samples
LONGEST_SHOWN = 4_096  # bytes of a bad line in a message
MEMORY_PAUSE, MEMORY_TRIES = 0.01, 10  # seconds until the next try if there is no memory, and the least number of tries


@dataclass
class FeedOptions:
    seconds: int = 60
    jobs: int = 4
    held: int = 1_000_000
    patience: int = 30
    open_files: int = OpenBounds().files
    open_seconds: int = int(OpenBounds().seconds)
    open_memory: int = OpenBounds().memory


@dataclass
class Waiting:
    """Samples that no batch took, the reason, the pause before the next try, and the time of the next try."""

    samples: List[bytes]
    reason: str
    pause: float
    due: float


def line_text(line: "bytes | bytearray") -> str:
    """Returns a line for a message: without its end."""
    return as_text(line[:LONGEST_SHOWN]).strip() + (".." if len(line) > LONGEST_SHOWN else "")


NO_MEMORY_LEFT = Outcome(lost="MemoryError")


def nothing() -> None:
    pass


def selector_of(source: int) -> Optional[selectors.BaseSelector]:
    """Returns what waits for input; None for a plain file, which can always be read."""
    selector = selectors.DefaultSelector()
    try:
        selector.register(source, selectors.EVENT_READ)
    except PermissionError:
        return None
    return selector


class Feeder:
    """Reads lines, each with a FILE and its samples. `name` begins each message.

    An exception at any place leaves each sample that was read where the next call finds it: a list gets its new place
    before it loses the old one.
    """

    def __init__(self, options: FeedOptions, writer: Writer, name: str = "rrdi-feed"):
        self.options, self.writer, self.name = options, writer, name
        # The samples of each file, and the time at which the first of them arrived. Files are in the order of these times.
        self.held: Dict[bytes, List[bytes]] = {}
        self.since: Dict[bytes, float] = {}
        self.waiting: Dict[bytes, Waiting] = {}
        # The files with a running batch, and the batches that have ended: the file, the samples, and their outcome.
        self.running: Set[bytes] = set()
        self.ended: SimpleQueue[Tuple[bytes, List[bytes], Outcome]] = SimpleQueue()
        self.pauses: Dict[bytes, float] = {}
        self.threads = Workers(options.jobs, self.run)
        self.let_go: Callable[[], None] = nothing  # closes the files that stay open, before SIGUSR1 has all samples written
        self.further = further()
        self.count, self.is_ending, self.is_hurried, self.has_failed = 0, False, False, False
        self.bad_lines = self.refused = self.too_old = 0
        self.explained: Dict[str, float] = {}  # when a kind of reason may be explained again
        # What was read and is not yet in lines; the lines, and those of them that are not yet taken.
        self.data = b""
        self.lines: List[bytes] = []
        self.left: Iterator[bytes] = iter(self.lines)
        # The beginning of a line whose end has not arrived. If that line is too long, its end is passed over.
        self.rest, self.is_too_long = bytearray(), False

    # ---- Messages

    def say(self, text: str) -> None:
        """Prints a line, whatever words of others it has."""
        self.has_failed = True
        try:
            print(f"{self.name}: {escaped(text)}", file=sys.stderr, flush=True)
        except (OSError, MemoryError):  # nobody reads the messages, but the samples go on
            pass

    def say_bad(self, reason: str, line: "bytes | bytearray") -> None:
        """Reports a line from which no sample was read."""
        self.bad_lines += 1
        self.say(f"{reason}, got: {line_text(line)}")

    def say_refused(self, file: bytes, refused: Iterable[Tuple[bytes, str]]) -> None:
        """Reports the refused samples of a batch: each in a line or, if many in a row have one reason, many in a line. So
        thousands of late samples bury nothing else, and can all be fed again."""
        for reason, group in groupby(refused, lambda one: one[1]):
            name, samples = as_text(file), [as_text(sample) for sample, _ in group]
            self.refused += len(samples)
            self.too_old += len(samples) * reason.startswith(TOO_OLD)
            in_line = 1 if len(samples) <= FEW else SAMPLES_OF_A_LINE
            for at in range(0, len(samples), in_line):
                self.say(f"{name} {' '.join(samples[at:at + in_line])}: {reason}")
            if isinstance(reason, Reason):
                self.explain(reason)

    def explain(self, reason: Reason) -> None:
        """Says what was wrong, once a minute for reasons that differ by their numbers only."""
        kind, now = NUMBERS.sub("", reason), time.monotonic()
        if reason.detail and now >= self.explained.get(kind, now):
            self.explained[kind] = now + EXPLAINED_AGAIN
            self.say(reason.detail)

    def say_lost(self, file: bytes, reason: str, samples: List[bytes]) -> None:
        """Reports samples that may be lost, in lines that the user can feed again."""
        try:
            name = as_text(file)
            self.say(f"{name}: {reason}; {len(samples)} samples may be lost")
            for at in range(0, len(samples), SAMPLES_OF_A_LINE):
                self.say(f"may be lost: {name} {as_text(b' '.join(samples[at:at + SAMPLES_OF_A_LINE]))}")
        except MemoryError:
            self.say("samples may be lost that there is no memory to show")

    def say_untaken(self) -> None:
        """Reports the lines that were read and not taken."""
        try:
            for line in self.untaken() if self.lines else self.data.split(b"\n"):
                self.say(f"a line may be lost, got: {as_text(line).strip()}")
        except MemoryError:
            self.say("lines may be lost that there is no memory to show")

    # ---- Lines

    def take_data(self, data: bytes) -> None:
        """Takes what was read from the input; no data is the end of the input, where the last line may lack its end."""
        self.data = data or b"\n"
        self.split_data()
        self.take_lines()

    def split_data(self) -> None:
        """Makes lines of what was read. The beginning of the last one waits for its end."""
        *lines, rest = self.data.split(b"\n")
        if lines:
            lines[0] = b"" if self.is_too_long else bytes(self.rest) + lines[0]
            begun, left = bytearray(rest), iter(lines)
            self.lines, self.left = lines, left
            self.rest, self.is_too_long = begun, False
        elif not self.is_too_long:
            self.rest += rest
        self.data = b""
        if len(self.rest) > LONGEST_GIVEN:
            self.say_bad(f"a line has over {LONGEST_GIVEN} bytes", self.rest)
            self.rest, self.is_too_long = bytearray(), True

    def take_lines(self) -> None:
        self.take_all(self.left)
        self.lines = []

    def take_again(self) -> None:
        """Takes what an exception has left of the input. There is more memory by now, or it is reported as lost."""
        try:
            if self.lines:
                self.lines = self.untaken()
                self.left = iter(self.lines)
            else:
                self.split_data()
            self.take_lines()
        except MemoryError:
            self.say_untaken()
            self.lines, self.data = [], b""

    def untaken(self) -> List[bytes]:
        """Returns the lines that were not taken, from the one on at which an exception came."""
        return self.lines[-1 - length_hint(self.left):]

    def take_all(self, lines: Iterable[bytes]) -> None:
        """Takes lines. A short way takes the further samples of held files; `take` takes all other lines."""
        left, line = iter(lines), None
        while True:
            before = length_hint(left)
            line = self.further(self.held, left, SHORT)
            self.count += before - length_hint(left) - (line is not None)
            if line is None:
                return
            self.take(line.split(), line)

    def take(self, words: List[bytes], line: bytes) -> None:
        if words and words[0].upper() == b"UPDATE":
            words = words[1:]
        if not words:
            return
        file, *samples = words
        # A word with a dash would be an option, and a path has no zero byte.
        if not samples or b"\0" in file or any(word.startswith(b"-") for word in words):
            self.say_bad("expected FILE SAMPLE..", line)
            return
        if file.upper() == b"UPDATE":  # a later line may begin with this word, and is then of another FILE
            file = b"./" + file
        now = b"%d" % int(time.time())
        samples = [now + sample[1:] if sample.startswith(b"N:") else sample for sample in samples]
        if any(len(UPDATE + sample) > LONGEST_LINE for sample in samples):
            self.say_bad(f"a sample has over {LONGEST_LINE} bytes", line)
            return
        self.hold(file, samples)

    def hold(self, file: bytes, samples: List[bytes]) -> None:
        if file not in self.held:
            self.since[file] = time.monotonic()  # first: held samples without a time would stay for ever
            self.held[file] = []
        self.held[file] += samples
        self.count += len(samples)

    # ---- Batches

    def run(self, file: bytes, samples: List[bytes]) -> None:
        """Runs one batch, in a thread of its own. Its end is told in any case: `finish` waits for it."""
        samples, outcome = self.write(file, samples)
        while True:
            try:
                self.ended.put((file, samples, outcome))
                return
            except MemoryError:
                time.sleep(MEMORY_PAUSE)

    def run_here(self, file: bytes, samples: List[bytes]) -> None:
        """Runs one batch in the present thread, which alone can make room by what it ends."""
        samples, outcome = self.write(file, samples)
        try:
            self.end_batch(file, samples, outcome)
        except MemoryError:
            self.running.discard(file)
            self.say_lost(file, NO_ROOM, samples)

    def write(self, file: bytes, samples: List[bytes]) -> Tuple[List[bytes], Outcome]:
        """Passes samples on by their times. Returns them so, and the outcome."""
        try:
            samples = in_order(samples)
            return samples, self.writer.write(file, samples)
        except MemoryError:
            return samples, NO_MEMORY_LEFT  # there may be none for another text
        except BaseException as error:  # the samples must survive any exception in the thread
            return samples, Outcome(lost=f"{type(error).__name__}: {error}")

    def end_batches(self, seconds: float = 0) -> None:
        """Takes back the samples that ended batches could not pass to rrdi. Waits some seconds for the first ended batch."""
        try:
            ended = self.ended.get(timeout=seconds) if seconds else self.ended.get_nowait()
            while True:
                try:
                    self.end_batch(*ended)
                except BaseException:
                    self.ended.put(ended)
                    raise
                ended = self.ended.get_nowait()
        except Empty:
            pass

    def end_batch(self, file: bytes, samples: List[bytes], outcome: Outcome) -> None:
        if outcome.left is not None:
            samples = list(outcome.left)
        if outcome.lost:
            self.say_lost(file, outcome.lost, samples)
        self.say_refused(file, outcome.refused)
        if outcome.again:
            pause = self.pauses.get(file, FIRST_PAUSE)
            self.pauses[file] = min(2 * pause, LONGEST_PAUSE)
            self.waiting[file] = Waiting(samples, outcome.again, pause, time.monotonic() + pause)
            self.count += len(samples)
        else:
            self.pauses.pop(file, None)
        self.running.discard(file)

    def start(self, file: bytes) -> None:
        waiting, samples = self.waiting.get(file), self.held.get(file, [])
        left: Optional[Batch] = None
        if waiting:
            samples = waiting.samples + samples
        if samples:
            self.running.add(file)
            try:
                left = self.threads.give((file, samples), len(self.running))
            except MemoryError:  # nothing was given
                self.running.discard(file)
                raise
        self.waiting.pop(file, None)
        self.held.pop(file, None)
        self.since.pop(file, None)
        self.count -= len(samples)
        if left:
            self.run_here(*left)

    def start_due(self) -> None:
        """Starts a batch for each file that is due and has no running batch."""
        self.end_batches()
        now, is_full = time.monotonic(), self.count >= self.options.held
        # A signal may come at any moment, and then counts for the next time.
        is_hurried, self.is_hurried = self.is_hurried, False
        if is_hurried:
            self.let_go()
            # A file with a running batch stays due until that batch has ended.
            self.since = dict.fromkeys(self.since, now - self.options.seconds)
        for file in [file for file, waiting in self.waiting.items() if is_hurried or now >= waiting.due]:
            self.start(file)
        due = []
        for file, since in self.since.items():
            if not (self.is_ending or is_full) and now - since < self.options.seconds:
                break
            due.append(file)
        for file in due:
            if file not in self.running and file not in self.waiting:
                self.start(file)
        if is_full and self.waiting and not self.running:
            # All held samples are for files that cannot be opened.
            self.give_up(max(self.waiting, key=lambda file: len(self.waiting[file].samples)))

    def give_up(self, file: bytes) -> None:
        waiting = self.waiting.pop(file)
        self.count -= len(waiting.samples)
        self.say_lost(file, waiting.reason, waiting.samples)

    # ---- From the first line to the last

    def feed(self) -> int:
        """Reads all lines and passes their samples on, also if the reading fails. Returns the exit status."""
        try:
            self.threads.begin(FIRST)
            self.read()
        except (OSError, MemoryError) as error:
            reason = error.strerror or str(error) if isinstance(error, OSError) else NO_ROOM
            self.say(f"cannot read the input any further: {reason}")
        finally:
            self.finish()
        return 1 if self.has_failed else 0

    def read(self) -> None:
        """Reads lines up to the end of the input, or until a signal comes."""
        if sys.stdin is None:  # it was closed, and another file may have its number
            raise OSError(errno.EBADF, os.strerror(errno.EBADF))
        source = sys.stdin.fileno()
        selector = selector_of(source)
        while not self.is_ending:
            self.start_due()
            # While feed holds too many samples, it reads no lines, and the program that writes them waits.
            if self.count >= self.options.held or len(self.running) > 10_000:
                self.end_batches(0.01)
                continue
            if selector and not selector.select(0.1 if self.waiting else min(self.options.seconds, 0.5)):
                continue
            try:
                data = os.read(source, READ)
            except (BlockingIOError, InterruptedError):  # another program has read it, or made it fail at once
                continue
            self.take_data(data)
            if not data:
                self.is_ending = True

    def finish(self) -> None:
        """Passes on all samples that were read."""
        self.is_ending = True
        self.write_held()
        if self.lines or self.data:
            self.take_again()
            self.write_held()
        if self.rest:  # a signal or a fault has cut the line: a number in it may be another one
            self.say(f"a line without its end may be lost, got: {line_text(self.rest)}")
        try:
            self.threads.shutdown()
        except MemoryError:  # all samples are stored or reported
            pass
        if self.bad_lines:
            self.say(f"bad lines: {self.bad_lines}")
        if self.refused > FEW:
            self.say(f"samples refused: {self.refused}")
        if self.too_old:
            self.say(f"{'of these' if self.refused > FEW else 'samples'} too old: {self.too_old}")

    def write_held(self) -> None:
        """Passes on all held samples, and gives up files that cannot be opened for too long."""
        until, is_over, tries = 0.0, False, 0
        while self.held or self.waiting or self.running:
            try:
                until = until or time.monotonic() + self.options.patience
                is_over = time.monotonic() >= until
                self.start_due()
                for file in list(self.waiting) if is_over else []:
                    self.give_up(file)
                self.end_batches(0.01)
            except MemoryError:  # each batch that ends leaves more
                tries = min(tries + 1, MEMORY_TRIES)
                # A thread may wait for memory to tell the end of its batch.
                self.go_on_without_memory(is_over and tries == MEMORY_TRIES)

    def go_on_without_memory(self, is_over: bool) -> None:
        try:
            if is_over:
                self.give_up_all()
            if self.start_one():
                return
        except MemoryError:  # again: the samples stay
            pass
        time.sleep(MEMORY_PAUSE)

    def start_one(self) -> bool:
        """Starts a batch for one held file: there may be memory for it if there is none for a list of all files."""
        with suppress(MemoryError):
            for file in self.since:
                if file not in self.running and file not in self.waiting:
                    self.start(file)
                    return True
        return False

    def give_up_all(self) -> None:
        for file in self.held:
            self.say_lost(file, NO_ROOM, self.held[file])
        for file, waiting in self.waiting.items():
            self.say_lost(file, NO_ROOM, waiting.samples)
        self.held.clear()
        self.since.clear()
        self.waiting.clear()

    def end(self, *_: object) -> None:
        self.is_ending = True

    def hurry(self, *_: object) -> None:
        self.is_hurried = True
