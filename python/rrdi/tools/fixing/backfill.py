# SPDX-License-Identifier: MIT OR Apache-2.0
"""Puts late samples of a file among those that its journal can take back, for rrdi-feed.

rrdi takes a sample only after the last one. So the newest changes are taken back and sent again with the late samples among
them, all as one change of the file under one lock. A sample that the file has already is passed over: so samples may be fed
again after a kill.
"""
from __future__ import annotations

import os
from typing import Dict, List, NamedTuple, Optional, Sequence, Tuple

from ...errors import Error
from ...feeding.ordering import in_order, seconds_of
from ...feeding.writers import NO_ROOM, TOO_OLD, Outcome, Writer
from ...open_files import OpenFiles
from ...reader.selected import OpenFile
from ..command_line import Failure
from ..program import as_millionths
from .held import HeldFile, NotOpened, NotStored, PartlyStored, held
from .history import SAMPLE, History, OneSample, SentUpdate, history_of, wrong_change
from .trials import NoCopy

NOT_LATER = "not later than "  # begins rrdi's reason for refusing a late sample

Refusals = List[Tuple[bytes, str]]


# ---- The writer

class BackfillWriter:
    """Puts in late samples, and passes the others on to a writer, which may keep its files open meanwhile."""

    def __init__(self, writer: Writer, files: Optional[OpenFiles] = None):
        self.writer, self._files = writer, files

    def create(self, file: bytes, arguments: Sequence[str]) -> str:
        return self.writer.create(file, arguments)

    def write(self, file: bytes, samples: List[bytes]) -> Outcome:
        last = last_of(file)
        late = [sample for sample in samples if seconds_of(sample) <= last and is_sample(sample)]
        newer = [sample for sample in samples if not (seconds_of(sample) <= last and is_sample(sample))]
        first = self._put_in(file, late)
        if first.again and first.left is None:
            return first
        if first.lost:  # the others may lie before some of those that are lost
            return first._replace(left=tuple(in_order([*(first.left or ()), *newer])))
        second = self.writer.write(file, newer) if newer else Outcome()
        if second.again or second.lost:
            second = second._replace(left=tuple(newer))
        outcome = self._put_overtaken(file, second._replace(refused=first.refused + second.refused))
        return with_left(outcome, first) if first.again else outcome

    def _put_in(self, file: bytes, late: List[bytes]) -> Outcome:
        if late and self._files is not None:
            self._files.close(file)
        return put_in(file, late)

    def _put_overtaken(self, file: bytes, outcome: Outcome) -> Outcome:
        """Puts in samples that became late after the look at the file, because another program was faster."""
        overtaken = [sample for sample, why in outcome.refused if why.startswith(NOT_LATER) and is_sample(sample)]
        if not overtaken:
            return outcome
        refused = tuple(one for one in outcome.refused if one[0] not in overtaken)
        put = self._put_in(file, overtaken)
        if put.again or put.lost:
            left = tuple(in_order([*(overtaken if put.again else put.left or ()), *(outcome.left or ())]))
            lost = put.lost or outcome.lost
            return Outcome("" if lost else put.again, lost, refused + put.refused, left=left)
        return outcome._replace(refused=refused + put.refused)


def with_left(outcome: Outcome, late: Outcome) -> Outcome:
    """Returns an outcome with the samples that another one has left to be tried again."""
    left = tuple(in_order([*(late.left or ()), *(outcome.left or ())]))
    return outcome._replace(again="" if outcome.lost else outcome.again or late.again, left=left)


def is_sample(sample: bytes) -> bool:
    return SAMPLE.fullmatch(sample.decode(errors="replace")) is not None


def last_of(file: bytes) -> int:
    """Returns the time of a file's last sample; -1 if it cannot be read: the writer finds out why."""
    try:
        with OpenFile(os.fsdecode(file)) as opened:
            return opened.front.last
    except (Error, OSError):
        return -1


def put_in(file: bytes, late: List[bytes]) -> Outcome:
    """Puts in late samples. If that fails, the file is as it was.

    They can be tried again at any time, since those that are there are passed over. If the outcome has them as `left`, the
    file could be opened, and may take other samples.
    """
    if not late:
        return Outcome()
    path = os.fsdecode(file)
    try:
        with held(path) as opened:
            return put_in_held(opened, late)
    except NotOpened as failed:
        return Outcome(again=without_path(failed, path))
    except (NotStored, NoCopy) as failed:
        return Outcome(again=without_path(failed, path), left=tuple(late))
    except Failure as failed:
        return Outcome(refused=tuple((sample, without_path(failed, path)) for sample in late))
    except MemoryError:
        return Outcome(again=NO_ROOM)


def without_path(failed: Failure, path: str) -> str:
    text, begin = str(failed), f"{path}: "
    return text[len(begin):] if text.startswith(begin) else text


# ---- Under the lock

class LateSample(NamedTuple):
    """A sample, and the word by which it was given; none for a sample that the file has."""

    sample: OneSample
    given: bytes = b""


class Reach(NamedTuple):
    """The changes that can be taken back and sent again, the newest first, and why there are no more."""

    changes: List[SentUpdate]
    last: int  # the time before the oldest of them
    why: str


def put_in_held(file: HeldFile, late: List[bytes]) -> Outcome:
    """Changes a file that is locked.

    # Errors
    `Failure` if it could not be changed, and is as it was.
    """
    samples = [late_sample(given) for given in late]
    earliest = min(one.sample.time for one in samples)
    history = history_of(file, earliest)
    reach = reach_of(file, history, earliest)
    chosen, refused = chosen_samples(samples, history, reach)
    while chosen:
        sent = sent_with(reach, chosen)
        tried = file.tried(file.data, sent.lines)
        if not tried.refused:
            return stored(file, sent, refused)
        wrong = sent.wrong_ones(tried.refused, tried.refusals)
        refused += wrong.items()
        chosen = [one for one in chosen if one.given not in wrong]
    return Outcome(refused=tuple(refused))


def stored(file: HeldFile, sent: Sent, refused: Refusals) -> Outcome:
    """Stores a change. If only a part of it was stored, all samples that were sent may be lost."""
    try:
        file.store(sent.lines)
        return Outcome(refused=tuple(refused))
    except PartlyStored as failed:
        left = tuple(one.sample.word.encode() for one in sent.samples)
        return Outcome(lost=without_path(failed, file.path), refused=tuple(refused), left=left)


def late_sample(given: bytes) -> LateSample:
    time, *values = given.decode().split(":")
    return LateSample(OneSample(int(time), tuple(values)), given)


def reach_of(file: HeldFile, history: History, earliest: int) -> Reach:
    """Returns the changes that were updates of one sample each, as far as `earliest` needs them."""
    why, changes = f"the journal begins after {history.last[-1].time}", []
    for number in range(1, history.reach + 1):
        change = history.change(number)
        if change.until == change.before:
            why = f"a tune or a resize came at {change.until}"
            break
        if change.until - change.before > max(history.seen, 1):
            why = f"no archive tells whether the update up to {change.until} had one sample"
            break
        changes.append(change)
        if change.before < earliest:
            break
    wrong = wrong_change(file, changes) if changes else None
    if wrong is not None:
        changes = changes[:changes.index(wrong)]
        why = f"the update up to {wrong.until} had several samples"
    return Reach(changes, changes[-1].before if changes else history.last[0].time, why)


def is_same(one: OneSample, other: OneSample) -> bool:
    return one.time == other.time and list(map(amount_of, one.values)) == list(map(amount_of, other.values))


def amount_of(text: str) -> Optional[int]:
    return None if text == "U" else as_millionths(text)


def chosen_samples(late: List[LateSample], history: History, reach: Reach) -> Tuple[List[LateSample], Refusals]:
    """Returns the samples that are to be put in, and why others are not. Those that are there already are neither."""
    there: Dict[int, OneSample] = {sample.time: sample for sample in history.last}
    chosen: List[LateSample] = []
    refused: Refusals = []
    for one in late:
        same = there.get(one.sample.time)
        if same is not None and is_same(same, one.sample):
            continue
        if one.sample.time <= reach.last:
            refused.append((one.given, f"{TOO_OLD}: {reach.why}"))
        elif same is not None:
            refused.append((one.given, f"another sample has this time: {same.word}"))
        else:
            there[one.sample.time] = one.sample
            chosen.append(one)
    return chosen, refused


class Sent(NamedTuple):
    """How many changes are taken back, and the samples that are sent after that."""

    reverts: int
    samples: List[LateSample]

    @property
    def lines(self) -> List[str]:
        return ["revert"] * self.reverts + [f"update {one.sample.word}" for one in self.samples]

    def wrong_ones(self, numbers: Sequence[int], reasons: Sequence[str]) -> Dict[bytes, str]:
        """Returns the late samples that a try refused, and those before a sample of the file that it refused."""
        found: Dict[bytes, str] = {}
        for number, reason in zip(numbers, reasons):
            at = number - 1 - self.reverts
            if self.samples[at].given:
                found[self.samples[at].given] = reason
            else:
                before = [one.given for one in self.samples[:at] if one.given]
                found.setdefault(before[-1], f"{self.samples[at].sample.word} would then be refused: {reason}")
        return found


def sent_with(reach: Reach, chosen: List[LateSample]) -> Sent:
    """Returns what puts in the chosen samples by as few reverts as possible."""
    earliest = min(one.sample.time for one in chosen)
    # Another program may have taken back all changes, so that no sample is late any more.
    count = next((number for number, change in enumerate(reach.changes, 1) if change.before < earliest), 0)
    kept = [LateSample(change.samples[0]) for change in reach.changes[:count]]
    return Sent(count, sorted([*kept, *chosen], key=lambda one: one.sample.time))
