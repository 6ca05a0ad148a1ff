# SPDX-License-Identifier: MIT OR Apache-2.0
"""A built program, its runs, and the answers of the runs."""
from __future__ import annotations

import os
import re
import signal
import subprocess
from contextlib import contextmanager
from dataclasses import dataclass
from pathlib import Path
from typing import Any, BinaryIO, Callable, Iterator, Mapping, NamedTuple, Sequence

TOP = Path(__file__).resolve().parent.parent.parent
# The seconds after which a run hangs, also on a busy machine.
PATIENCE = 600
# The status of a run that was killed.
KILLED = -signal.SIGKILL


class Answer(NamedTuple):
    """The status of a run, and what it printed on standard output and on standard error."""
    status: int | str
    out: str = ""
    err: str = ""


def error(text: str) -> str:
    """Returns the line that reports a fault."""
    return f"ERROR: {text}\n"


def status_of(printed: str) -> int:
    """Returns the status of a batch that ran to its end, from what it printed: 1 if a line was refused."""
    return int(any(line.startswith("ERROR: ") for line in printed.splitlines()))


# The faults after which one more line gives the reason.
WITH_REASON = (error("cannot open"), error("cannot write"), error("file: read failed"))
MORE = "rrdi: "


def parted(err: str) -> tuple[str, str]:
    """Returns the specified lines of standard error, and what the line after them says. That line, `rrdi: FILE:
    REASON`, must follow if FILE cannot be opened, read or written; it gives the reason. After any other fault it may
    follow, and gives advice. If it is missing, or another line follows, it says nothing."""
    *lines, last = err.splitlines(keepends=True) or [""]
    if not (lines and lines[-1].startswith(error("")[:-1]) and last.startswith(MORE) and last.endswith("\n")):
        return err, ""
    said = last.rstrip("\n")
    return "".join(lines), said.rpartition(": ")[2] if lines[-1] in WITH_REASON else said[len(MORE):]


OF_A_LINE = re.compile(r"^rrdi: line \d+: .*\n", re.MULTILINE)


def specified(err: str) -> str:
    """Returns standard error without the explanations of refused lines of a batch, which are not specified."""
    return OF_A_LINE.sub("", err)


def waited(seconds: int) -> str:
    """Returns the reason of a run that waited for a lock."""
    return f"in use by another program (waited {seconds} second{'' if seconds == 1 else 's'})"


@contextmanager
def lines_in_memory(lines: str | bytes) -> Iterator[BinaryIO]:
    """Opens lines for a standard input. This is a file, and no pipe, which gives a read fewer bytes on a busy machine:
    then the calls of a run would have other numbers."""
    with open(os.memfd_create("lines"), "w+b", buffering=0) as source:
        source.write(lines if isinstance(lines, bytes) else lines.encode())
        source.seek(0)
        yield source


@dataclass(frozen=True)
class Program:
    path: str

    @classmethod
    def at(cls, path: str | Path) -> Program:
        return cls(str(Path(path).resolve()))

    def run(self, words: Sequence[object], lines: str = "", *, cwd: str | Path | None = None,
            env: Mapping[str, str] | None = None, before: Callable[[], None] | None = None,
            seconds: float = PATIENCE, name: str | None = None, explains: bool = False) -> Answer:
        """Runs the program with arguments and standard input. If a run does not end in time, its answer says so. If
        `explains`, the answer has what is said of refused lines of a batch."""
        told: list[Any] = [name or self.path,
                                   *(word if isinstance(word, bytes) else str(word) for word in words)]
        with lines_in_memory(lines) as source:
            try:
                ran = subprocess.run(told, executable=self.path, stdin=source, capture_output=True, timeout=seconds,
                                     cwd=cwd, env=environment(env), preexec_fn=before)
            except subprocess.TimeoutExpired:
                return Answer(f"no end in {seconds:g} seconds")
        err = ran.stderr.decode(errors="replace")
        return Answer(ran.returncode, ran.stdout.decode(errors="replace"), err if explains else specified(err))


def environment(more: Mapping[str, str] | None) -> dict[str, str]:
    """Returns the environment of a run, without the caller's variables that the program reads."""
    kept = {name: value for name, value in os.environ.items()
            if not name.startswith("RRDI") and name not in ("LD_PRELOAD", "LOG", "RECORD")}
    return {**kept, **(more or {})}


def held(path: str | Path) -> bytes | None:
    """Returns the bytes of a file, if the file exists."""
    path = Path(path)
    return path.read_bytes() if path.is_file() else None


def put(path: str | Path, data: bytes | None) -> None:
    """Replaces a file by a new one with these bytes, or removes the file. A file that is open or linked elsewhere
    stays."""
    path = Path(path)
    path.unlink(missing_ok=True)
    if data is not None:
        path.write_bytes(data)
