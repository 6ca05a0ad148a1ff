# SPDX-License-Identifier: MIT OR Apache-2.0
"""The pixels of pictures in PNG, as gnuplot and RRDtool write them: 8 bits a channel or a palette, not interlaced."""
from __future__ import annotations

import struct
import zlib
from pathlib import Path
from typing import NamedTuple

SIGNATURE = b"\x89PNG\r\n\x1a\n"
PALETTE = 3
# How many bytes a pixel has, by the type of its color.
CHANNELS = {0: 1, 2: 3, PALETTE: 1, 4: 2, 6: 4}


class Picture(NamedTuple):
    """The width and the height of a picture, and its pixels, row by row."""
    width: int
    height: int
    pixels: list[bytes]


def chunks(data: bytes) -> dict[bytes, bytes]:
    """Returns the chunks of a file by their types; those of the same type are joined."""
    if not data.startswith(SIGNATURE):
        raise ValueError("not a picture in PNG")
    found: dict[bytes, bytes] = {}
    at = len(SIGNATURE)
    while at + 8 <= len(data):
        length, kind = struct.unpack(">I4s", data[at:at + 8])
        found[kind] = found.get(kind, b"") + data[at + 8:at + 8 + length]
        at += length + 12
    return found


def paeth(left: int, above: int, corner: int) -> int:
    """Returns the neighbour that is nearest to their common estimate, as the standard of PNG defines it."""
    estimate = left + above - corner
    return min((left, above, corner), key=lambda one: abs(estimate - one))


def unfiltered(kind: int, line: bytes, above: bytes, step: int) -> bytes:
    """Returns a row as it was before its filter, by the row above it. A pixel has `step` bytes."""
    row = bytearray(line)
    for at, byte in enumerate(line):
        left, corner = (row[at - step], above[at - step]) if at >= step else (0, 0)
        row[at] = (byte + (0, left, above[at], (left + above[at]) // 2, paeth(left, above[at], corner))[kind]) & 255
    return bytes(row)


def rows_of(data: bytes, length: int, step: int) -> list[bytes]:
    """Returns the rows of the pixels, of `length` bytes each."""
    rows: list[bytes] = []
    above = bytes(length)
    for at in range(0, len(data), length + 1):
        line = data[at + 1:at + 1 + length]
        above = unfiltered(data[at], line, above, step) if data[at] else line
        rows.append(above)
    return rows


def unpacked(row: bytes, depth: int) -> bytes:
    """Returns a row of a palette with a byte for each pixel."""
    if depth == 8:
        return row
    return bytes(byte >> shift & (1 << depth) - 1 for byte in row for shift in range(8 - depth, -1, -depth))


def picture(path: Path) -> Picture:
    """Returns the picture of a file. Raises `ValueError` if it is none, or of a form that no plot has."""
    found = chunks(path.read_bytes())
    width, height, depth, color, _, _, interlace = struct.unpack(">IIBBBBB", found.get(b"IHDR", bytes(13)))
    if color not in CHANNELS or interlace or depth not in ((1, 2, 4, 8) if color == PALETTE else (8,)):
        raise ValueError(f"{path}: no picture of this form can be compared")
    step = CHANNELS[color]
    rows = rows_of(zlib.decompress(found[b"IDAT"]), (width * step * depth + 7) // 8, step)
    if color == PALETTE:
        colors = found[b"PLTE"]
        indexes = (index for row in rows for index in unpacked(row, depth)[:width])
        return Picture(width, height, [colors[3 * index:3 * index + 3] for index in indexes])
    return Picture(width, height, [row[at:at + step] for row in rows for at in range(0, width * step, step)])


def share_apart(one: Picture, other: Picture) -> float:
    """Returns the share of the pixels that differ; 1 if the sizes do."""
    if one[:2] != other[:2]:
        return 1.0
    pairs: list[tuple[bytes, bytes]] = list(zip(one.pixels, other.pixels))
    return sum(left[:3] != right[:3] for left, right in pairs) / max(len(pairs), 1)
