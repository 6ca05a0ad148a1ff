# SPDX-License-Identifier: MIT OR Apache-2.0
"""What a command of RRDtool prints, and the two forms of an answer in pipe mode: RRDtool's, and one with lengths.

A text of a user, such as the format of a PRINT, can have any characters. In RRDtool's form a line of the output that
reads as the end of an answer gets a space before it, so that the next answers stay those of their commands. In the form
with lengths no text is searched for an end.
"""
from __future__ import annotations

from typing import List, Union

from ..words import as_bytes

# Texts, which are printed as lines, and bytes, which are a picture.
Printed = List[Union[str, bytes]]

# RRDp and others take a line that begins so for the end of an answer.
ENDS = ("OK", "ERROR")


def lines_of(text: str) -> Printed:
    """Returns the lines of a text, which ends with a line feed or is empty."""
    return list(text.split("\n")[:-1])


def plain(printed: Printed) -> bytes:
    """Returns an output as RRDtool prints it."""
    return b"".join(item if isinstance(item, bytes) else as_bytes(item + "\n") for item in printed)


def one_line(text: str) -> str:
    return text.replace("\n", " ")


def guarded(printed: Printed) -> bytes:
    """Returns an output in which no line of a text reads as the end of an answer."""
    return plain([item if isinstance(item, bytes) else "\n".join(map(guarded_line, item.split("\n"))) for item in printed])


def guarded_line(line: str) -> str:
    return " " + line if line.startswith(ENDS) else line


def with_lengths(status: str, printed: Printed) -> bytes:
    """Returns an answer with lengths: a line with the status and the bytes of each text, and then the texts."""
    texts = [item if isinstance(item, bytes) else as_bytes(item) for item in printed]
    head = " ".join([status, *(str(len(text)) for text in texts)])
    return b"".join([head.encode(), b"\n", *texts])
