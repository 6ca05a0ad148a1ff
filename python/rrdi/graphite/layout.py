# SPDX-License-Identifier: MIT OR Apache-2.0
"""How a metric of Graphite is laid out in a file: the step, the sources and the archives.

A slot of whisper that begins at s is rrdi's step that ends at s + step. So the row of an archive at time t holds what
whisper's slot at t - seconds holds.
"""
from __future__ import annotations

import struct
from typing import Dict, List, NamedTuple, Optional, Sequence, Tuple

from ..amounts import MILLION
from ..limits import LATEST, LONGEST_STEP, MOST_CELLS, MOST_ROWS, MOST_STEPS
from ..reader.selected import Outline, StoredArchive

# The functions of Graphite, and rrdi's archive for each.
METHODS: Dict[str, str] = {"average": "AVERAGE", "sum": "AVERAGE", "avg_zero": "AVERAGE", "last": "LAST", "max": "MAX",
                           "min": "MIN"}
# These have a second source, which is 0 where the first one is unknown.
WITH_ZEROS = frozenset({"sum", "avg_zero"})
ZERO = "zero"
DEFAULT_XFF, DEFAULT_METHOD = 0.5, "average"

Retentions = Sequence[Tuple[int, int]]


def unknown_share(xff: float) -> int:
    """The share of steps that may be unknown, in millionths, for the share that must be known.

    Whisper keeps the share as a float of four bytes, and compares with that float: so does this. A share of 0 asks for
    one known step.
    """
    kept, = struct.unpack(">f", struct.pack(">f", xff))
    return min(max(int((1 - kept) * MILLION), 0), MILLION - 1)


class Template(NamedTuple):
    """What a new file is made of."""

    step: int
    coarsest: int  # the seconds of a row of the coarsest archive
    has_zeros: bool
    words: str  # those of `create` but --start

    def start(self, first: int) -> int:
        """The start of a file whose first slot ends at `first`.

        Zeros are needed from the beginning of a coarse row on, since a sum is a row's average times its steps.
        """
        before = first - self.step
        return before - before % self.coarsest if self.has_zeros else before

    def create(self, start: int) -> str:
        return f"create --start {start} {self.words}"


def template(retentions: Retentions, xff: Optional[float], method: Optional[str], journal: int) -> Template:
    """The template for the retentions, the xFilesFactor and the aggregation method of a metric.

    The first source's name is the method.
    """
    ordered = sorted((int(seconds), int(rows)) for seconds, rows in retentions)
    step, name = ordered[0][0], method or DEFAULT_METHOD
    share = unknown_share(DEFAULT_XFF if xff is None else xff)
    words = [f"--step {step} --journal {journal} DS:{name}:GAUGE:{step}:U:U"]
    if name in WITH_ZEROS:
        words.append(f"DS:{ZERO}:GAUGE:{LATEST}:U:U")
    words += [f"RRA:{METHODS[name]}:0.{share:06}:{seconds // step}:{rows}" for seconds, rows in ordered]
    return Template(step, ordered[-1][0], name in WITH_ZEROS, " ".join(words))


def check_retentions(retentions: Retentions) -> None:
    """Checks a list of retentions: whisper's rules, and rrdi's limits.

    # Errors
    `ValueError` with the first rule that is broken.
    """
    if not retentions:
        raise ValueError("there must be a retention")
    ordered = sorted((int(seconds), int(rows)) for seconds, rows in retentions)
    step = ordered[0][0]
    if not 1 <= step <= LONGEST_STEP:
        raise ValueError(f"the shortest retention must have 1 to {LONGEST_STEP} seconds, not {step}")
    for (seconds, rows), (coarser, more) in zip(ordered, ordered[1:]):
        if coarser % seconds or coarser == seconds:
            raise ValueError(f"{coarser} seconds must be a larger multiple of {seconds} seconds")
        if seconds * rows >= coarser * more:
            raise ValueError(f"{coarser}:{more} must reach farther back than {seconds}:{rows}")
        if rows < coarser // seconds:
            raise ValueError(f"{seconds}:{rows} has too few points for a point of {coarser} seconds")
    if any(not 1 <= rows <= MOST_ROWS or seconds // step > MOST_STEPS for seconds, rows in ordered):
        raise ValueError(f"a retention must have 1 to {MOST_ROWS} points, each of at most {MOST_STEPS} of the shortest")
    # No list is too long: each of its retentions has twice the seconds of the one before at least.
    if 2 * sum(rows for _, rows in ordered) > MOST_CELLS:
        raise ValueError(f"there may be {MOST_CELLS // 2} points at most")


def method_of(outline: Outline) -> str:
    """The aggregation method of a file; of a file that Graphite did not make, the one that fits its first archive."""
    name = outline.sources[0]
    if name in METHODS and (name not in WITH_ZEROS or len(outline.sources) > 1):
        return name
    return outline.archives[0].function.lower()


def archives_of(outline: Outline, method: str) -> List[StoredArchive]:
    """The archives that Graphite reads, the finest first."""
    function = METHODS[method]
    found = [archive for archive in outline.archives if archive.function == function] or list(outline.archives)
    return sorted(found, key=lambda archive: (archive.seconds, -archive.rows))
