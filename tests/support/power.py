# SPDX-License-Identifier: MIT OR Apache-2.0
"""What a power failure may leave of a file: a model of a disk below the system's cache.

The cache has every change of a file at once. The disk stores a change at some time, in any order, and has it for sure
only after a sync:

- Of a write the disk stores each page by itself. A part of a page may be torn at each multiple of 512 bytes; in the
  model a tear may lie at any other byte too. Only the first 16 bytes of a file are always stored together.
- A write that lengthens the file changes the length by itself: before its bytes, after them, and first to the end of a
  page in between. Where the bytes were not stored, the file has zeros. The lengths are stored in their order, a
  truncation too, whatever was stored of the bytes.
- After a sync that failed, the system takes the waiting pages for stored: a later sync does not store them. A later
  write to such a page stores the whole page, as the cache has it."""
from __future__ import annotations

import random
from dataclasses import dataclass, field, replace
from itertools import combinations
from typing import Iterator, Mapping, NamedTuple

from support.between import Change

PAGE, SECTOR = 4_096, 512
# The number of bytes at the start of a file that are stored together.
WHOLE = 16
# If more parts or lengths are waiting, not all subsets are tried.
MOST_SUBSETS, MOST_LENGTHS, SOME_SUBSETS = 6, 4, 30


@dataclass(frozen=True)
class Part:
    """Bytes within one page that wait to be stored. If a sync of the page failed, no later sync stores the part."""
    at: int
    data: bytes
    is_lost: bool = False

    @property
    def page(self) -> int:
        return self.at // PAGE

    def tears(self, chance: random.Random, whole: int) -> list[Part]:
        """Returns pieces of this part that the disk may store alone: its beginning or its end, up to a sector or up to
        any byte after the first `whole` bytes of the file."""
        first = whole if self.at < whole else self.at + 1
        end = self.at + len(self.data)
        sectors = list(range(max(first, self.at + 1) // SECTOR * SECTOR + SECTOR, end, SECTOR))
        places = {*sectors[:1], *sectors[-1:], *chance.sample(sectors, min(1, len(sectors)))}
        if first < end:
            places.add(chance.randrange(first, end))
        return [piece for place in sorted(places) for piece in self.torn(place)]

    def torn(self, place: int) -> list[Part]:
        count = place - self.at
        return [Part(self.at, self.data[:count]), Part(place, self.data[count:])]


@dataclass(frozen=True)
class Length:
    """A length of the file that waits to be stored."""
    count: int


class Left(NamedTuple):
    """The bytes that a power failure left, and a description."""
    held: bytes
    what: str


def over(held: bytearray, part: Part) -> None:
    if len(held) < part.at:
        held.extend(bytes(part.at - len(held)))
    held[part.at:part.at + len(part.data)] = part.data


def parts_of(change: Change) -> Iterator[Part]:
    """Splits a write by pages."""
    at, rest = change.at, change.data
    while rest:
        count = min(len(rest), PAGE - at % PAGE)
        yield Part(at, rest[:count])
        at, rest = at + count, rest[count:]


def lengths_of(begun: int, end: int) -> Iterator[Length]:
    """Returns the lengths of a file while a write lengthens it: each end of a page, and the new length."""
    for count in range(begun // PAGE * PAGE + PAGE, end, PAGE):
        yield Length(count)
    if begun < end:
        yield Length(end)


def subsets(count: int, chance: random.Random) -> Iterator[tuple[int, ...]]:
    """Yields sets of `count` things: all of them if the things are few."""
    whole = tuple(range(count))
    if count <= MOST_SUBSETS:
        for size in range(count + 1):
            yield from combinations(whole, size)
        return
    yield whole
    for number in whole:
        yield whole[:number]
        yield whole[:number] + whole[number + 1:]
        yield (number,)
    for _ in range(SOME_SUBSETS):
        yield tuple(number for number in whole if chance.random() < 0.5)


@dataclass
class Disk:
    """A file as the cache has it, as the disk has it for sure, and the changes that the disk may have too, in order."""
    cache: bytes
    stored: bytes
    whole: int = WHOLE
    waiting: list[Part | Length] = field(default_factory=list)

    @classmethod
    def of(cls, held: bytes, whole: int = WHOLE) -> Disk:
        """Returns a file that is wholly on a disk, which stores the first `whole` bytes together."""
        return cls(held, held, whole)

    def apply(self, change: Change) -> None:
        if change.name == "fsync":
            self.sync()
        elif change.name == "unsynced":
            self.waiting = [replace(event, is_lost=True) if isinstance(event, Part) else event
                            for event in self.waiting]
        elif change.name == "ftruncate":
            self.cache = change.over(self.cache)
            self.waiting.append(Length(change.at))
        else:
            self.write(change)

    def write(self, change: Change) -> None:
        begun, self.cache = len(self.cache), change.over(self.cache)
        lost = {event.page for event in self.waiting if isinstance(event, Part) and event.is_lost}
        for part in parts_of(change):
            self.waiting.append(self.page_of(part) if part.page in lost else part)
        self.waiting += lengths_of(begun, change.at + len(change.data))

    def page_of(self, part: Part) -> Part:
        """Returns the whole page of a part, as the cache has it."""
        return Part(part.page * PAGE, self.cache[part.page * PAGE:(part.page + 1) * PAGE])

    def sync(self) -> None:
        """Stores what is waiting, except what a failed sync has lost."""
        sure = {number: [event] for number, event in enumerate(self.waiting) if isinstance(event, Part)
                and not event.is_lost}
        pages = {parts[0].page for parts in sure.values()}
        self.stored = self.left(sure, len(self.waiting))
        end = len(self.stored)
        self.waiting = [event for event in self.waiting if isinstance(event, Part) and event.is_lost
                        and event.page not in pages and event.at < end]

    def left(self, chosen: Mapping[int, list[Part]], reached: int) -> bytes:
        """Returns the file if the disk has stored these pieces of the waiting parts, and the lengths up to an event."""
        held, length = bytearray(self.stored), len(self.stored)
        for number, event in enumerate(self.waiting):
            if isinstance(event, Part):
                for piece in chosen.get(number, ()):
                    over(held, piece)
            elif number < reached:
                if event.count < length:
                    del held[event.count:]
                length = event.count
        return bytes(held[:length]).ljust(length, b"\0")

    def reaches(self, chance: random.Random) -> list[int]:
        """Returns the events up to which the lengths may be stored: none, all, and some in between."""
        numbers = [number + 1 for number, event in enumerate(self.waiting) if isinstance(event, Length)]
        if len(numbers) > MOST_LENGTHS:
            numbers = [numbers[0], *sorted(chance.sample(numbers[1:-1], MOST_LENGTHS - 2)), numbers[-1]]
        return [0, *numbers]

    def files(self, chance: random.Random, torn: int) -> Iterator[Left]:
        """Yields files that a power failure may leave now, `torn` of them with a write that is torn."""
        parts = [(number, event) for number, event in enumerate(self.waiting) if isinstance(event, Part)]
        reaches = self.reaches(chance)
        for kept in subsets(len(parts), chance):
            chosen = {parts[at][0]: [parts[at][1]] for at in kept}
            for reached in reaches:
                held = self.left(chosen, reached)
                yield Left(held, f"writes {list(kept)} of {len(parts)} stored, {len(held)} bytes")
        for _ in range(torn if parts else 0):
            yield self.torn_file(parts, reaches, chance)

    def torn_file(self, parts: list[tuple[int, Part]], reaches: list[int], chance: random.Random) -> Left:
        victim, part = chance.choice(parts)
        pieces = part.tears(chance, self.whole)
        share = chance.choice((0.0, 0.5, 1.0))
        chosen = {number: [other] for number, other in parts if number != victim and chance.random() < share}
        if pieces:
            chosen[victim] = [chance.choice(pieces)]
        held = self.left(chosen, chance.choice(reaches))
        torn = [(piece.at, len(piece.data)) for piece in chosen.get(victim, [])]
        return Left(held, f"{len(chosen)} of {len(parts)} writes stored, {torn} alone of {part.at}, {len(part.data)}")
