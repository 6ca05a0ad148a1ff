# SPDX-License-Identifier: MIT OR Apache-2.0
"""Words that no program expects, for the tests of everything that builds lines and commands from words of others: none of
them may add a line, a command or an option."""
from __future__ import annotations

import re
from typing import List

CREATE = "create --start 0 DS:x:GAUGE:9:U:U RRA:MAX:0:1:1"
CONTROLS = [chr(code) for code in (*range(1, 32), 127, 0x85, 0xA0, 0x2028)]
# A word that is not UTF-8, as Python has it in a text.
NOT_UTF_8 = "\udcff\udc80"
LONG = "x" * 100_000

HOSTILE: List[str] = [
    f"110:1\n{CREATE}", f"110:1\r\n{CREATE}", f"110:1\r{CREATE}", f"110:1\0{CREATE}", "110:1\0--template=x", "110:1\nrevert",
    "110:1 120:2", "110:1\t120:2", " 110:1", "110:1 ", "\n", " ", "", "\0", '"', "'", "110:1'\nrevert'", "\\", "110:1\\", "\\n",
    "--", "-", "--template=x", "--template=x 110:1", "-t", "-tx", "--help", "$(revert)", "`revert`", "110:1;revert", "#", "é",
    "٣:1", NOT_UTF_8, f"110:{NOT_UTF_8}", LONG, *(f"110{letter}:1" for letter in CONTROLS)]

# Each line that the library or the program may be given is one of these, whatever the words were.
LINE = re.compile(r"[ -~]{1,65536}")


def is_one_line(line: str, command: str) -> bool:
    """Checks that a line has one command, of printable ASCII, and no option."""
    words = line.split(" ")
    return (LINE.fullmatch(line) is not None and words[0] == command
            and not any(word.startswith("-") or not word for word in words[1:]))
