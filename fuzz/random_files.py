# SPDX-License-Identifier: MIT OR Apache-2.0
"""Random databases as lines of a batch, and files that were damaged at random."""
from __future__ import annotations

import random
import struct

from rrdi import reader

# The rows of archives: of files of one page, and of files of several pages.
SMALL, LARGE = (1, 2, 4, 9), (100, 240, 300, 700)
# The limits of fields, and of amounts.
EDGES = [0, 1, 2, 5, 6, 16, 63, 64, 65, 127, 128, 129, 1_000, 1_001, 100_000, 100_001, 999_999, 10**6, 10**6 + 1,
         9_999_999_999, 10**10, 2**15, 2**16 - 1, 2**31, 2**32 - 1, 2**63 - 1, 2**63, 2**64 - 1]
AMOUNTS = [0, 1, -1, reader.TOP, reader.TOP + 1, -reader.TOP, -reader.TOP - 1, reader.UNKNOWN, reader.UNKNOWN + 1,
           10**24, 10**24 - 1, -(10**24), 2**64, 2**64 - 1, 2**63, 2**63 - 1, -(2**63), -(2**63) - 1,
           2 * reader.TOP, 10**6]
NAME, AMOUNT = 20, 16  # bytes of such a field
Field = tuple[int, int]  # where it begins, and its bytes


class RandomDatabase:
    """A random database with archives of some lengths, and random changes of all kinds, each as a line of a batch."""

    def __init__(self, chance: random.Random, lengths: tuple[int, ...]) -> None:
        self.chance, self.step, sources = chance, chance.choice([1, 7, 10, 60]), chance.randint(1, 3)
        self.last = chance.choice([0, 0, 999, 1_600_000_000])
        self.kinds = [chance.choice(reader.TYPES) for _ in range(sources)]
        self.names = [f"{'abc'[at]}{'x' * chance.choice([0, 3, 18])}" for at in range(sources)]
        kinds = [(function, steps) for function in reader.FUNCTIONS for steps in (1, 2, 5)]
        self.archives = [(*kind, chance.choice(lengths)) for kind in chance.sample(kinds, chance.randint(1, 3))]
        self.rows = [rows for _, _, rows in self.archives]

    def create(self) -> str:
        of = self.chance.choice
        line = f"create --step {self.step} --start {self.last} --journal {of([1, 2, 3, 16, 16, 1000])}"
        for name, kind in zip(self.names, self.kinds):
            least, most = of([("U", "U"), ("0", "U"), ("-5.5", "1000"), ("U", "99999")])
            line += f" DS:{name}:{kind}:{of([self.step * 3, 9_999_999_999])}:{least}:{most}"
        return line + "".join(f" RRA:{function}:{of(['0', '0.5', '0.999999'])}:{steps}:{rows}"
                              for function, steps, rows in self.archives)

    def change(self) -> str:
        way = self.chance.random()
        if way < 0.85:
            return self.update() if way < 0.6 else self.tune()
        return self.archive() if way < 0.92 else self.resize()

    def update(self) -> str:
        return "update " + " ".join([self.sample() for _ in range(self.chance.randint(1, 4))])

    def sample(self) -> str:
        chance, step, values = self.chance, self.step, []
        self.last += chance.choice([1, step // 2 + 1, step, step + 3, 9 * step, 200 * step])
        for kind in self.kinds:
            whole = chance.choice([0, 5, chance.randint(0, 10**6), 2**32 + 7])
            value = {"GAUGE": f"{chance.uniform(-90, 90):.6f}", "COUNTER": str(whole), "ABSOLUTE": f"{whole}.5",
                     "DERIVE": str(whole - 1000)}[kind]
            values.append("U" if chance.random() < 0.1 else value)
        return ":".join([str(self.last), *values])

    def tune(self) -> str:
        chance, names, words = self.chance, self.names, []
        at = chance.randrange(len(names))
        if chance.random() < 0.5:
            words.append(f"--heartbeat {names[at]}:{chance.randint(1, 99)}")
        if chance.random() < 0.5:
            words.append(f"--minimum {chance.choice(names)}:{chance.choice(['U', '-7.25'])}")
        if chance.random() < 0.5 or not words:
            self.kinds[at] = chance.choice(reader.TYPES)
            words.append(f"--data-source-type {names[at]}:{self.kinds[at]}")
        if chance.random() < 0.3:
            new = f"n{chance.randrange(10**6)}"
            words.append(f"--data-source-rename {names[at]}:{new}")
            names[at] = new
        return "tune " + " ".join(words)

    def archive(self) -> str:
        """Adds or removes an archive."""
        chance, rows = self.chance, self.rows
        if len(rows) > 1 and chance.random() < 0.5:
            at = chance.randrange(len(rows))
            del rows[at]
            return f"tune DELRRA:{at}"
        rows.append(chance.choice([1, 2, 4]))
        return f"tune RRA:{chance.choice(reader.FUNCTIONS)}:0.5:{chance.choice([1, 2, 5])}:{rows[-1]}"

    def resize(self) -> str:
        at = self.chance.randrange(len(self.rows))
        if self.rows[at] > 1 and self.chance.random() < 0.5:
            self.rows[at] -= 1
            return f"resize {at} SHRINK 1"
        count = self.chance.choice([1, 3])
        self.rows[at] += count
        return f"resize {at} GROW {count}"


def random_lines(chance: random.Random, lengths: tuple[int, ...]) -> str:
    database = RandomDatabase(chance, lengths)
    return "\n".join([database.create(), *(database.change() for _ in range(chance.randint(0, 6)))])


class FieldReader(reader.Reader):
    """Records the offset and the size of each field of a file."""

    def __init__(self, data: bytes) -> None:
        super().__init__(data)
        self.fields: list[Field] = []

    def take(self, spelling):
        taken, at, number = super().take(spelling), self.piece_at, ""
        # A field is a number or bytes: each character of the format is one field, with the number before the character.
        for character in spelling.lstrip(">"):
            if character.isdigit():
                number += character
                continue
            size = struct.calcsize(">" + number + character)
            self.fields.append((at, size))
            at, number = at + size, ""
        return taken

    def rows(self, count):
        before, rows = self.at, super().rows(count)
        self.fields += [(at, AMOUNT) for at in range(before, self.at, AMOUNT)]
        return rows


def fields_of(data: bytes) -> list[Field]:
    pieces = FieldReader(data)
    pieces.database()
    return pieces.fields


def other_field(chance: random.Random, field: bytes) -> bytes:
    """Returns another value of a field, often one of its limits."""
    size = len(field)
    if size == NAME:
        name = bytearray(field)
        name[chance.choice([0, 0, 1, 2, name[0], 19])] = chance.choice([0, 1, 5, 19, 20, 255, *b"a_-Z9:"])
        return bytes(name)
    value = int.from_bytes(field, "big")
    value = chance.choice([value + 1, value - 1, value * 2, chance.choice(AMOUNTS if size == AMOUNT else EDGES)])
    return (value % 2**(8 * size)).to_bytes(size, "big")


def damaged(chance: random.Random, data: bytes, fields: list[Field], others: list[bytes]) -> bytes:
    """Returns a file in which a byte or a field was changed, or bytes are missing, too many, or of another place."""
    way, (at, size) = chance.random(), chance.choice(fields)
    if way < 0.2:
        at = chance.randrange(len(data))
        return data[:at] + bytes([chance.randrange(256)]) + data[at + 1:]
    if way < 0.65:
        return data[:at] + other_field(chance, data[at:at + size]) + data[at + size:]
    if way < 0.72:
        return data[:chance.randrange(len(data))]
    if way < 0.76:
        return data + chance.randbytes(chance.randint(1, 40))
    if way < 0.84:
        return data[:at] + (data[at + size:] if chance.random() < 0.5 else chance.randbytes(size) + data[at:])
    other, other_size = chance.choice(fields)
    if way < 0.92 and size == other_size:
        return data[:at] + data[other:other + size] + data[at + size:]
    at, donor = chance.randrange(len(data)), chance.choice(others)
    return data[:at] + donor[chance.choice([at, chance.randrange(len(donor))]):]
