# SPDX-License-Identifier: MIT OR Apache-2.0
"""Builds the library `between.c`, sets which calls fail, and reads the library's log.

It needs Linux with glibc, a program that is linked with the C library as a shared library, and a C compiler `cc`."""
from __future__ import annotations

import subprocess
from dataclasses import dataclass
from pathlib import Path
from typing import Iterable, Iterator

# The calls that move bytes, and those that change a file.
MOVING = frozenset({"read", "write", "pread", "pwrite"})
CHANGING = frozenset({"pwrite", "ftruncate", "fsync", "fdatasync", "rename", "unlink", "link"})


def build(library: Path, only_calls: bool = False) -> str:
    """Builds the library at a path, and returns the value of LD_PRELOAD. With calls only, the library leaves
    allocations alone, also those of a program that has a malloc of its own."""
    source = Path(__file__).resolve().with_name("between.c")
    flags = ["-DCALLS_ONLY"] * only_calls
    subprocess.run(["cc", "-O1", "-shared", "-fPIC", *flags, str(source), "-o", str(library)], check=True)
    return str(library)


def settings(library: str, **values: object) -> dict[str, str]:
    """Returns the environment of a run. A list of numbers is written with commas."""
    told = {name: ",".join(map(str, value)) if isinstance(value, (list, tuple)) else str(value)
            for name, value in values.items()}
    return {"LD_PRELOAD": library, **told}


@dataclass
class Event:
    """A line of the log: `grow`, `pause`, `fork`, `end` or the name of a call, and the other words of the line."""
    kind: str
    words: list[str]

    @property
    def size(self) -> int:
        """Returns the number of bytes that were requested; for `flock` the kind of lock."""
        return int(self.words[0 if self.kind == "grow" else 1])

    @property
    def file(self) -> int:
        return int(self.words[0])

    @property
    def got(self) -> int:
        """Returns the number of bytes that were moved, or the number of the file that was opened."""
        return int(self.words[2])

    @property
    def at(self) -> int:
        """Returns the offset at which bytes were read or written."""
        return int(self.words[3])

    @property
    def is_call(self) -> bool:
        return self.kind not in ("grow", "end", "fork", "pause")

    @property
    def is_refused(self) -> bool:
        return self.kind == "grow" and self.words[1] == "refused"


def events_of(log: str | Path) -> list[Event]:
    """Returns the lines of a log. If a program was killed, the last line may be incomplete."""
    path = Path(log)
    text = path.read_text() if path.exists() else ""
    return [Event(kind, words) for kind, *words in map(str.split, text.splitlines()) if words]


def calls_of(events: Iterable[Event]) -> list[Event]:
    """Returns the calls, in the order of their numbers."""
    return [event for event in events if event.is_call]


def pauses_of(events: Iterable[Event]) -> list[int]:
    """Returns the pauses of a run in nanoseconds."""
    return [int(event.words[0]) for event in events if event.kind == "pause"]


@dataclass(frozen=True)
class Change:
    """A change of a file that succeeded: bytes written at an offset, a new length, or a sync, which has neither; or a
    sync that failed."""
    name: str
    at: int = 0
    data: bytes = b""

    def __post_init__(self) -> None:
        if self.name not in ("pwrite", "ftruncate", "fsync", "unsynced"):
            raise ValueError(self.name)

    def over(self, held: bytes) -> bytes:
        """Returns the bytes of the file after this change."""
        if self.name in ("fsync", "unsynced"):
            return held
        if self.name == "ftruncate":
            return held[:self.at].ljust(self.at, b"\0")
        return held[:self.at].ljust(self.at, b"\0") + self.data + held[self.at + len(self.data):]


def changes_of(record: str | Path) -> Iterator[Change]:
    """Returns the changes of files, in order."""
    data = Path(record).read_bytes()
    at = 0
    while at < len(data):
        end = data.index(b"\n", at)
        name, _, place, size = data[at:end].decode().split()
        at = end + 1 + int(size)
        yield Change(name, int(place), data[end + 1:at])
