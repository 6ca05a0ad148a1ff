# SPDX-License-Identifier: MIT OR Apache-2.0
"""Tells by the first bytes of a file of which program it is."""

from .escaping import escaped
from .locks import open_regular

# The first bytes of a file of rrdi: without a change, and during a change.
RRDI_MARKS = (b"RRDI", b"RRDC", b"RRDL")
RRDTOOL_MARK = b"RRD\0"
# A file of whisper begins with the number of a method, 1 to 8; the name tells it from others.
WHISPER_END = ".wsp"


def first_bytes(file: str) -> bytes:
    """Returns the first four bytes of a regular file, or fewer; none if it can't be read."""
    try:
        with open_regular(file) as opened:
            return opened.read(4)
    except OSError:
        return b""


def is_of_rrdi(file: str) -> bool:
    """Checks whether a file is one of rrdi's."""
    return first_bytes(file) in RRDI_MARKS


def owner_of(file: str) -> str:
    """Returns the other program whose file it is: RRDtool, whisper, or nothing."""
    begin = first_bytes(file)
    if begin == RRDTOOL_MARK:
        return "RRDtool"
    is_method = begin[:3] == b"\0\0\0" and 1 <= (begin[3:] or b"\0")[0] <= 8
    return "whisper" if is_method and file.endswith(WHISPER_END) else ""


def why_not_ours(file: str) -> str:
    """Says how to convert a file of another program, as the program does; nothing if it is of no known one."""
    owner = owner_of(file)
    return escaped(f"{file} is a file of {owner}; rrdi-import converts it") if owner else ""
