# SPDX-License-Identifier: MIT OR Apache-2.0
"""The samples of the changes that a journal can take back, and those that a user gives for them."""

# Without `annotations` of __future__: a named tuple whose types are texts makes a tool start a tenth slower.
import re
from typing import Iterable, List, NamedTuple, Optional, Tuple

from ...amounts import shortened
from ...limits import LATEST
from ...printed import PrintedRows, Settings, printed_rows, settings_of
from ..command_line import Failure
from .held import HeldFile

SAMPLE = re.compile(r"([0-9]{1,10})((?::(?:U|-?[0-9]{1,20}(?:\.[0-9]{1,6})?))+)")


FIRST_LOOK = 50  # changes


class OneSample(NamedTuple):
    """A time, and the value of each source."""

    time: int
    values: Tuple[str, ...]

    @property
    def word(self) -> str:
        return ":".join([str(self.time), *self.values])


class SentUpdate(NamedTuple):
    """An update: the time before it, and its samples. `is_given` says that they are not the journal's."""

    before: int
    samples: List[OneSample]
    is_given: bool = False

    @property
    def until(self) -> int:
        return self.samples[-1].time

    @property
    def line(self) -> str:
        return " ".join(["update", *(sample.word for sample in self.samples)])


class History(NamedTuple):
    """The names of the sources, and the last sample: at present, and before each change that can be taken back, the
    newest first. `seen` is the longest update, in seconds, of which an archive shows what all of its samples were."""

    names: List[str]
    last: List[OneSample]
    seen: int

    @property
    def reach(self) -> int:
        """How many changes can be taken back."""
        return len(self.last) - 1

    def change(self, number: int) -> SentUpdate:
        """Returns a change of one sample; the newest change is 1."""
        return SentUpdate(self.last[number].time, [self.last[number - 1]])


def seen_seconds(settings: Settings) -> int:
    """Returns for how many seconds an archive has a trace of each sample: one with a row for each step, or with
    averages. A MAX of several steps, for example, hides all samples but the greatest."""
    return max((settings.resolution(number) * archive.rows for number, archive in enumerate(settings.archives)
                if archive.steps == 1 or archive.function == "AVERAGE"), default=0)


def history_of(file: HeldFile, before: int = 0) -> History:
    """Takes back changes on a copy, and looks at the last sample before and after each: as many as are needed to come to a
    sample that is earlier than `before`, and all if there is none."""
    settings = settings_of(file.session.ask("info"))
    count = FIRST_LOOK if before else settings.undoable
    while True:
        looks = looked_back(file, min(count, settings.undoable))
        if count >= settings.undoable or looks[-1].times[0] < before:
            break
        count *= 4
    last = [OneSample(look.times[0], tuple(map(shortened, look.words[0]))) for look in looks]
    return History(list(looks[0].names), last, seen_seconds(settings))


def looked_back(file: HeldFile, count: int) -> List[PrintedRows]:
    """Returns the last sample of a file, and that after one revert, two reverts and so on."""
    asked = ["lastupdate", "revert"] * count + ["lastupdate"]
    lines = file.tried(file.data, asked).output.splitlines(True)
    return [printed_rows("".join(lines[at:at + 2])) for at in range(0, len(lines), 2)]


def given_samples(lines: Iterable[str], name: str, sources: int) -> List[OneSample]:
    """Reads the samples that a user gives, one on a line, as `TIME:VALUE..`.

    # Errors
    `Failure` with the first line that is none, or is not later than the one before.
    """
    found: List[OneSample] = []
    for number, line in enumerate(lines, 1):
        text = line.strip()
        match = SAMPLE.fullmatch(text)
        if not text:
            continue
        if match is None or int(match[1]) > LATEST:
            raise Failure(f"{name}: line {number} is not TIME:VALUE..: {text[:60]!r}")
        values = match[2].count(":")
        if values != sources:
            raise Failure(f"{name}: line {number} has {values} value{'s' * (values > 1)}, but the file has {sources} "
                          f"source{'s' * (sources > 1)}")
        sample = OneSample(int(match[1]), tuple(match[2][1:].split(":")))
        if found and sample.time <= found[-1].time:
            raise Failure(f"{name}: line {number} is not later than the line before: {text[:60]!r}")
        found.append(sample)
    return found


def with_given(change: SentUpdate, given: List[OneSample]) -> SentUpdate:
    """Returns a change with the samples that were given for its time, if there are some."""
    samples = [sample for sample in given if change.before < sample.time <= change.until]
    return SentUpdate(change.before, samples, True) if samples else change


def wrong_change(file: HeldFile, changes: List[SentUpdate]) -> Optional[SentUpdate]:
    """Takes changes back and sends them again, on a copy, and returns the newest one of which the samples do not give
    the bytes that it gave; None if all of them do. The newest change is the first."""
    again = ["revert"] * len(changes) + [change.line for change in reversed(changes)]
    if file.tried(file.data, again).data == file.data:
        return None
    after = file.data
    for change in changes:
        before = file.tried(after, ["revert"]).data
        if file.tried(before, [change.line]).data != after:
            return change
        after = before
    return changes[-1]
