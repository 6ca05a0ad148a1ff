# SPDX-License-Identifier: MIT OR Apache-2.0
"""Converts the arguments of a Python call to the words of a command."""
from __future__ import annotations

import os
import re
import sys
from time import time as clock
from typing import Iterable, List, Optional, Sequence, Tuple, Union

from .errors import USAGE, Usage
from .limits import LONGEST_LINE

Word = Union[str, int]
Words = Union[Word, Sequence[Word]]
FilePath = Union[str, bytes, os.PathLike]

FILE_SYSTEM = sys.getfilesystemencoding()
# A word of a line. A batch knows no quotes, so a word has no space, no tab and no newline.
_OF_A_LINE = re.compile("[!-~]+")


def encoded_path(path: FilePath) -> bytes:
    """Returns a path in the form that the system takes.

    # Errors
    `ValueError` if the path has a zero byte, as `open` raises it.
    """
    # The same as os.fsencode does with text.
    found = path.encode(FILE_SYSTEM, "surrogateescape") if type(path) is str else os.fsencode(path)
    if b"\0" in found:
        raise ValueError("embedded null byte")
    return found


def numbers_in(path: bytes) -> Tuple[int, ...]:
    """Returns the number of an open file of this process if the path leads to it: another program then needs it too."""
    found = re.fullmatch(rb"/proc/self/fd/([0-9]{1,9})", path)
    return (int(found[1]),) if found and os.path.exists(path) else ()


def as_bytes(text: str) -> bytes:
    """Returns the bytes of a text. Bytes that were no UTF-8 when `as_text` read them are as they were."""
    return text.encode(errors="surrogateescape")


def as_text(data: bytes) -> str:
    return data.decode(errors="surrogateescape")


def flat(words: Iterable[Words]) -> List[str]:
    """Returns the words as text. Each element of a list or tuple is a word, as in Python's module `rrdtool`.

    # Errors
    `TypeError` if a word is neither text nor a whole number, nor a list of these.
    """
    found: List[str] = []
    for word in words:
        if isinstance(word, str):
            found.append(word)
        elif isinstance(word, (list, tuple)):
            found += flat(word)
        elif isinstance(word, int) and not isinstance(word, bool):
            found.append(str(word))
        else:
            raise TypeError(f"a word must be str, int, or a list of these, not {type(word).__name__}")
    return found


def options(**values: Optional[Word]) -> List[str]:
    """Returns the options that have a value, each in one word, so that a value may begin with a minus sign."""
    return [f"--{name}={value}" for name, value in values.items() if value is not None]


def encoded(words: Sequence[str]) -> bytes:
    """Returns the words with a zero byte between two words.

    # Errors
    `Usage` if a word has a zero byte, or cannot be encoded in UTF-8.
    """
    try:
        data = "\0".join(words).encode()
    except UnicodeEncodeError:
        raise Usage("usage", None, USAGE, detail="an argument is not in UTF-8") from None
    if data.count(b"\0") >= max(len(words), 1):
        raise Usage("usage", None, USAGE, detail="a word has a zero byte")
    return data


def is_word(word: str) -> bool:
    """Checks whether a line can have a word: it is not empty, and of printable ASCII without spaces."""
    return _OF_A_LINE.fullmatch(word) is not None


def line_of(words: Sequence[str]) -> str:
    """Returns the words as one line of a batch.

    # Errors
    `Usage` if a word is empty, if a word has a character that a line cannot have, or if the line is too long.
    """
    line = " ".join(words)
    if len(line) > LONGEST_LINE or not all(map(is_word, words)):
        raise Usage("usage", None, USAGE, detail="a line takes words of printable ASCII, none of them empty, and at most "
                                                 f"{LONGEST_LINE} bytes")
    return line


def present(now: Optional[int]) -> int:
    """Returns the time that a command uses as now, in seconds since 1970; 0 if the clock is before 1970."""
    seconds = int(clock()) if now is None else now
    return seconds if seconds > 0 else 0
