# SPDX-License-Identifier: MIT OR Apache-2.0
"""Random files whose change was interrupted, many of them forged in one respect, by docs/file-format.md alone."""
from __future__ import annotations

import random
from typing import Callable

from support import marks
from support.marks import CUT, LOG, PAGE, SIXTEEN, number


# ---- Each way makes a file of an old and a new database.

def any_cut(rng: random.Random, old: bytes, new: bytes) -> bytes:
    """A cut mark, and often bytes after the database: a log without its mark, or a length without its bytes."""
    rest = rng.choice([b"", b"x", bytes(rng.randrange(1, PAGE)), rng.randbytes(rng.randrange(1, 200)), new])
    return rng.choice([marks.cut(old) + rest, marks.uncommitted(old, new), marks.uncut(old, new)])


def any_pieces(rng: random.Random, new: bytes) -> list[marks.Piece]:
    """Pieces of bytes, which may overlap, and mostly make a database: the last one has all of it, or some have parts."""
    cuts = sorted(rng.choices(range(len(new) + 1), k=rng.randrange(4)))
    parts = [(begin, new[begin:end]) for begin, end in zip([0, *cuts], [*cuts, len(new)])]
    rng.shuffle(parts)
    return [(at, rng.randbytes(rng.randrange(9))) for at in rng.choices(range(len(new)), k=rng.randrange(3))
            if at + 8 < len(new)] + parts


def any_log(rng: random.Random, old: bytes, new: bytes) -> bytes:
    """A log of a few changes between two databases, whose pieces are in their places in part."""
    held, count = marks.with_base(old, max(len(old), len(new)) + rng.choice([0, 0, 9])), rng.randrange(4)
    for database in rng.choices([old, new], k=count):
        held = marks.with_change(held, len(database), *any_pieces(rng, database))
    at = rng.randrange(SIXTEEN, len(old))
    placed = rng.choice([b"", new[at:at + rng.randrange(PAGE)], rng.randbytes(8)])[:len(old) - at]
    return held[:at] + placed + held[at + len(placed):] + rng.choice([b"", b"", rng.randbytes(rng.randrange(60))])


def any_change(rng: random.Random, old: bytes, new: bytes) -> bytes:
    """A log of which a change has a wrong number, and mostly a right checksum: mostly not the first one."""
    held = rng.choice([marks.with_base, marks.with_base, marks.begun])(old, max(len(old), len(new)))
    if rng.random() < 0.3:
        held = marks.with_change(held, len(new), (0, new))
    tail, at = int.from_bytes(held[8:SIXTEEN], "big"), len(held)
    start = rng.choice([0, 0, 0, 1, len(new), 2**63, 2**64 - 1])
    body = number(start) + number(rng.choice([len(new), len(new), 0, len(new) + 1, 2**64 - 1])) + new
    size = rng.choice([len(new), len(new), 15, 16, 2**64 - 1])
    numbers = [at, tail, len(body), 1, size]
    numbers[rng.randrange(5)] += rng.choice([-1, 0, 0, 1])
    held += marks.spelled(b"".join(number(value % 2**64) for value in numbers), body) + rng.choice([b"", b"x", new])
    return held if rng.random() < 0.8 else marks.with_change(held, len(new), (0, new))


def any_other(rng: random.Random, old: bytes, new: bytes) -> bytes:
    """A file that is not rrdi's and begins like a mark."""
    mark = rng.choice([CUT, LOG, LOG + number(rng.choice([0, 16, PAGE, 2**63, 2**64 - 1])), b"RRDL", b"RRDc", b"RRDX"])
    return mark + rng.choice([b"", b"ached notes of a user\n", bytes(rng.randrange(40)),
                              rng.randbytes(rng.randrange(200)), old[4:20], old[SIXTEEN:]])


WAYS: tuple[Callable[[random.Random, bytes, bytes], bytes], ...] = (any_cut, any_log, any_change, any_other)


def forged(rng: random.Random, old: bytes, new: bytes) -> bytes:
    """Returns a file with a mark, whole or forged, and now and then with a byte that was changed, or without its
    end."""
    data = rng.choice(WAYS)(rng, old, new)
    way = rng.random()
    if data and way < 0.1:
        at = rng.randrange(len(data))
        return data[:at] + bytes([rng.randrange(256)]) + data[at + 1:]
    return data[:rng.randrange(len(data) + 1)] if way < 0.2 else data
