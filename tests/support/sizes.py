# SPDX-License-Identifier: MIT OR Apache-2.0
"""Files of some lengths whose journal is full, and two kinds that RRDtool has too."""
from __future__ import annotations

from pathlib import Path
from typing import List, NamedTuple, Tuple

from support.program import Answer, Program

STEP = 10
CREATE = f"create --step {STEP} --start 0 --journal"
ONE = "DS:g:GAUGE:100:U:U"


class SizedFile(NamedTuple):
    """One kind of file: how the file is created, and the maximum number of bytes that one update may write."""
    name: str
    journal: int
    archives: str
    most: int

    def create(self, program: Program, path: Path) -> Answer:
        """Creates the file and fills its journal."""
        updates = (f"update {STEP * n}:{n}" for n in range(1, self.updates() + 1))
        return program.run(["batch", path], "\n".join([f"{CREATE} {self.journal} {ONE} {self.archives}", *updates])
                           + "\n")

    def updates(self) -> int:
        """Returns the number of updates of a new file."""
        return self.journal + 2

    def sample(self, number: int) -> str:
        """Returns the sample of the update number `number` after the file's creation. The first number is 0."""
        return f"{STEP * (self.updates() + 1 + number)}:{number}"


FILES = [
    SizedFile("480 B", 2, "RRA:LAST:0.5:1:4", 4_096),
    SizedFile("30 KB", 16, "RRA:AVERAGE:0.5:1:1750", 4_096),
    SizedFile("400 KB", 16, "RRA:AVERAGE:0.5:1:25000", 4_096),
    SizedFile("4 MB", 16, "RRA:AVERAGE:0.5:1:250000", 4_096),
    SizedFile("64 MB", 16, " ".join(f"RRA:{name}:0.5:1:1000000" for name in ("AVERAGE", "MIN", "MAX", "LAST")), 8_192),
]


# ---- Files of both programs

START = 1_600_000_000


class Kind(NamedTuple):
    """A kind of file that rrdi and RRDtool have: its sources and archives."""
    name: str
    definitions: Tuple[str, ...]

    @property
    def sources(self) -> int:
        return sum(word.startswith("DS:") for word in self.definitions)

    @property
    def create(self) -> List[str]:
        """Returns the arguments that create the file."""
        return ["--step", str(STEP), "--start", str(START), *self.definitions]

    def sample(self, number: int, more: int = 0) -> str:
        """Returns the sample of step `number`. The values of files with another `more` differ."""
        return ":".join([str(START + STEP * number), *(f"{(number + more + source) % 1000}.5"
                                                       for source in range(self.sources))])


SMALL = Kind("3 KB", ("DS:a:GAUGE:60:U:U", "RRA:AVERAGE:0.5:1:100"))
LARGE = Kind("62 KB", ("DS:a:GAUGE:60:U:U", "DS:b:GAUGE:60:U:U", "RRA:AVERAGE:0.5:1:360", "RRA:AVERAGE:0.5:6:720",
                       "RRA:MAX:0.5:6:720"))
HUGE = Kind("4 MB", ("DS:a:GAUGE:60:U:U", "DS:b:GAUGE:60:U:U", "RRA:AVERAGE:0.5:1:125000"))
