# SPDX-License-Identifier: MIT OR Apache-2.0
"""The table of refusals, which the crate tests_of_program tries too: words, and what is said of them at the time 1,000,000."""
from __future__ import annotations

import re
from typing import NamedTuple

from .program import TOP

TABLE = TOP / "crates/tests_of_program/src/explain/table.rt"
NOW = 1_000_000  # the time at which the commands run
HOLDER = re.compile(r'const (\w+): &str =\s*"([^"\\]*)";')
ROWS = re.compile(r'const (\w+): &str = "\\\n(.*?)^";', re.DOTALL | re.MULTILINE)
# The names of the creates that make the databases for some rows; the others run on the first one.
HOLDERS = {"MANY": "NINE_SOURCES", "AHEAD": "FAR_AHEAD", "LATER": "FOUR_FUNCTIONS"}
USUAL = "GAUGE_AND_COUNTER"
# Words whose explanation depends on the clock, which the program cannot be given.
OF_THE_CLOCK = re.compile(r"\bnow\b|-\d+[a-zM]|(?:-s|--start|-e|--end)[ =]-\d|\bN:")


class Row(NamedTuple):
    """A refused command: the words that make its database, its own words, and what is said of them, if anything is."""

    create: list[str]
    words: list[str]
    says: str

    @property
    def has_clock(self) -> bool:
        """Whether the explanation depends on the clock."""
        return OF_THE_CLOCK.search(" ".join(self.words)) is not None


def said(err: str) -> str:
    """Returns what is said of a refused command, in the line after that of the fault."""
    lines = err.split("\n")
    return lines[1][len("rrdi: "):] if lines[0].startswith("ERROR: ") and lines[1].startswith("rrdi: ") else ""


def text_of(quoted: str) -> str:
    """Returns the text of a line in a string of Rust."""
    return re.sub(r"\\(?:u\{([0-9a-f]+)\}|(.))", lambda code: code[2] or chr(int(code[1], 16)), quoted)


def rows() -> list[Row]:
    """Reads the table."""
    text = TABLE.read_text(encoding="utf-8")
    holders = dict(HOLDER.findall(text))
    found = []
    for name, lines in ROWS.findall(text):
        create = holders[HOLDERS.get(name, USUAL)].split(" ")
        for line in lines.splitlines():
            words, says = text_of(line).split(" => ")
            found.append(Row(create, words.split(" "), says))
    return found
