# SPDX-License-Identifier: MIT OR Apache-2.0
"""Texts as a terminal or a log may show them: names and words of others may have anything in them."""
from __future__ import annotations

import re

# Control characters, those that Unicode shows as nothing (Default_Ignorable_Code_Point) or that join, separate or turn others,
# and bytes that are no UTF-8. They are those that the program escapes in an explanation.
HIDDEN = re.compile("[\0-\x1f\x7f-\x9f\xad\u034f\u061c\u115f\u1160\u17b4\u17b5\u180b-\u180f\u200b-\u200f\u2028-\u202e"
                    "\u2060-\u206f\u3164\ufe00-\ufe0f\ufeff\uffa0\ufff0-\ufffb\U0001bca0-\U0001bca3"
                    "\U0001d173-\U0001d17a\U000e0000-\U000e0fff\ud800-\udfff]")
SHORT = {"\n": "\\n", "\r": "\\r", "\t": "\\t"}


def escaped(text: str) -> str:
    """Returns a text in one line, with each character that commands a terminal or hides as its code."""
    return HIDDEN.sub(lambda found: code_of(found[0]), text)


def code_of(letter: str) -> str:
    """Returns the code of a character as the program writes it, or of a byte that is no UTF-8."""
    number = ord(letter)
    return f"\\x{number - 0xdc00:02x}" if 0xdc80 <= number <= 0xdcff else SHORT.get(letter, f"\\u{{{number:x}}}")
