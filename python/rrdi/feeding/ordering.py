# SPDX-License-Identifier: MIT OR Apache-2.0
"""Sorts samples by their files, and those of a file by their times: they may have come from several programs, or on several
ways. Where it can, the extension does it, in a tenth of the time."""
from __future__ import annotations

from typing import Callable, Dict, Iterator, List, Optional

from ..extension import the_extension

DIGITS = frozenset(b"0123456789")
USUAL = 10  # digits of each time since 2001
MOST = 20  # digits: no time that rrdi takes has more


def further_by_python(held: Dict[bytes, List[bytes]], lines: Iterator[bytes], longest: int) -> Optional[bytes]:
    """Takes lines, each with a further sample of a held file, up to the first line that is another one, or too long. Returns
    that line; None if there is none. If memory runs out, the last line that was taken out of `lines` is not among the held."""
    samples_of = held.get
    for line in lines:
        words = line.split()
        samples = samples_of(words[0]) if len(words) == 2 and len(line) <= longest else None
        if samples is None or words[1][0] not in DIGITS:
            return line
        samples.append(words[1])
    return None


def further() -> Callable[[Dict[bytes, List[bytes]], Iterator[bytes], int], Optional[bytes]]:
    """Returns the fastest way to do what `further_by_python` does."""
    extension = the_extension()
    return further_by_python if extension is None else extension.further


def in_order(samples: List[bytes]) -> List[bytes]:
    """Returns samples by their times; those of one time stay as they came. A list that is in order is returned itself.

    What has no time is refused wherever it stands.
    """
    extension = the_extension()
    if extension is not None and extension.are_ordered(samples):
        return samples
    words = [sample[:USUAL + 1] for sample in samples]
    if not are_usual(b"".join(words), len(words)):
        words = [sample.partition(b":")[0].rjust(MOST, b"0") for sample in samples]
    if words == sorted(words):
        return samples
    return [samples[at] for at in sorted(range(len(words)), key=words.__getitem__)]


def are_usual(joined: bytes, count: int) -> bool:
    """Checks whether some words, without a space between, are usual times, each with a colon. Takes no step for each."""
    length = USUAL + 1
    are_apart = len(joined) == length * count and joined[USUAL::length] == b":" * count
    return are_apart and joined.count(b":") == count and joined.replace(b":", b"").isdigit()


def seconds_of(sample: bytes) -> int:
    """Returns the time of a sample; -1 if it has none that rrdi takes."""
    word = sample.partition(b":")[0]
    return int(word) if word.isdigit() and len(word) <= MOST else -1
