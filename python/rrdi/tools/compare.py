# SPDX-License-Identifier: MIT OR Apache-2.0
"""Compares the rows of an RRDtool file with those of the database made from it.

usage: rrdi-compare OLD.rrd NEW.rrdi

example:
  rrdi-import room.rrd room.rrdi && rrdi-compare room.rrd room.rrdi

options:
  -h, --help           show this help and exit
  --version            show the version and exit

For each archive that can be compared, a line counts the cells that agree, those
known in only one of the files and those that differ, and has the time of the
newest row that does not agree. Cells differ if they are farther apart than a
millionth plus a ten-billionth of the value (rrdtool prints eleven digits). A
last line names the data sources that only the old file has. rrdtool must be
installed.

environment:
  RRDI                 the program to run instead of the C library

Exit status: 0 if all cells agree; 1 if one does not, if an archive cannot be
compared, or if a program failed; 2 after wrong arguments.
"""
from __future__ import annotations

import math
import os
import re
from typing import Dict, Iterator, List, NamedTuple, Optional

from ..escaping import escaped
from ..importing.comparing import agree
from ..limits import FUNCTIONS
from ..printed import printed_rows
from . import program, rrdtool_program
from .command_line import Failure, Tool, WrongArguments

OldCells = Dict[int, Dict[str, float]]
EARLIEST = 315_360_001  # seconds: RRDtool has no row before 1980, and reads fewer as an hour or a date


class ArchiveSpan(NamedTuple):
    """The rows of an archive of the old file."""

    function: str
    seconds: int
    begin: int
    end: int


class Counts:
    """The numbers of cells of an archive that agree and that differ."""

    def __init__(self) -> None:
        self.cells = self.agree = self.only_old = self.only_new = self.differ = 0
        self.most = 0.0
        self.newest: Optional[int] = None

    def add(self, time: int, old: float, new: float) -> None:
        self.cells += 1
        if agree(old, new):
            self.agree += 1
            return
        if math.isnan(old):
            self.only_new += 1
        elif math.isnan(new):
            self.only_old += 1
        else:
            self.differ += 1
            self.most = max(self.most, abs(new - old))
        self.newest = time if self.newest is None else max(self.newest, time)

    def text(self) -> str:
        parts = [f"{self.cells} cells, {self.agree} agree"]
        if self.only_old:
            parts.append(f"{self.only_old} only in the old file")
        if self.only_new:
            parts.append(f"{self.only_new} only in the new")
        if self.differ:
            parts.append(f"{self.differ} apart by up to {self.most:.6f}")
        if self.newest is not None:
            parts.append(f"the newest at {self.newest}")
        return ", ".join(parts)

    def is_equal(self) -> bool:
        return self.cells > 0 and self.agree == self.cells


def without_name(info: str, old: str) -> str:
    """Returns the output of `rrdtool info` without the line that names the file: a name may have lines in it that look like
    others."""
    first = f'filename = "{os.fsencode(old).decode(errors="replace")}"\n'
    return info[len(first):] if info.startswith(first) else info


def settings_in(text: str) -> Dict[str, str]:
    """Returns the values of the lines KEY = VALUE."""
    return dict(re.findall(r"^(\S+) = (.*)$", text, re.MULTILINE))


def spans(info: str) -> Iterator[ArchiveSpan]:
    """Yields the rows of each archive that rrdi can have, from the output of `rrdtool info`. The names of sources, which stand
    between the settings of the file and the archives, may have lines in them that look like others.

    # Errors
    `ValueError`, `KeyError` or `ZeroDivisionError` if the output does not tell the rows of an archive.
    """
    found = {**settings_in(info), **settings_in(info.partition("\nds[")[0])}
    for number in range(len(found)):
        function = found.get(f"rra[{number}].cf", "").strip('"')
        if not function:
            return
        if function in FUNCTIONS:
            seconds = int(found["step"]) * int(found[f"rra[{number}].pdp_per_row"])
            end = int(found["last_update"]) // seconds * seconds
            yield ArchiveSpan(function, seconds, max(end - int(found[f"rra[{number}].rows"]) * seconds, 0), end - 1)


def is_like(before: ArchiveSpan, span: ArchiveSpan) -> bool:
    """Checks whether a fetch of all rows of an archive reads one before it, which has as many or more of the same kind."""
    return before[:2] == span[:2] and before.begin <= span.begin


def missing_sources(info: str, new: str) -> List[str]:
    """Returns the data sources of the old file that the new one does not have, each with its type."""
    found = dict(re.findall(r"^ds\[(.+)\]\.type = \"(.*)\"$", info, re.MULTILINE))
    with program.naming(new):
        there = {source.name for source in program.settings(new).sources}
    return [f"{name} ({kind})" for name, kind in found.items() if name not in there]


def old_cells(text: str) -> OldCells:
    """Reads the output of `rrdtool fetch`.

    # Errors
    `ValueError` if a line has something else than a time and numbers.
    """
    lines = text.splitlines()
    names = lines[0].split() if lines else []
    rows = {}
    for line in lines[1:]:
        time, colon, cells = line.partition(":")
        if colon:
            rows[int(time)] = dict(zip(names, map(float, cells.split())))
    return rows


def compare_archive(old: str, new: str, span: ArchiveSpan) -> Counts:
    begin = EARLIEST if span.begin < EARLIEST < span.end else span.begin
    words = [span.function, "-r", str(span.seconds), "-s", str(begin), "-e", str(span.end)]
    try:
        cells = old_cells(rrdtool_program.ask(["fetch", old, *words]))
    except Failure as failure:
        raise Failure(f"rrdtool does not fetch {span.function} from {old}: {failure}") from None
    except ValueError:  # a name of a source may have lines in it
        raise Failure(f"cannot read what rrdtool fetches of {span.function} from {old}") from None
    try:
        text = program.ask(["fetch", new, *words])
    except program.CommandFailed as failed:
        raise Failure(f"rrdi does not fetch {span.function} from {failed.of_file(new)}") from None
    rows = printed_rows(text)
    counts = Counts()
    for time, row in zip(rows.times, rows.words):
        for name, cell in zip(rows.names, row):
            counts.add(time, cells.get(time, {}).get(name, math.nan), float(cell))
    return counts


def compare(words: List[str]) -> int:
    if len(words) != 2 or any(not word or word.startswith("-") for word in words):
        raise WrongArguments
    old, new = words
    if os.path.exists(old) and not os.path.isfile(old):
        raise Failure(f"{old} is no regular file")
    try:
        info = rrdtool_program.ask(["info", old])
    except Failure as failure:
        if str(failure) == rrdtool_program.NOT_INSTALLED:
            raise
        raise Failure(f"rrdtool does not read {old}: {failure}") from None
    info = without_name(info, old)
    try:
        archives = list(spans(info))
    except (ValueError, KeyError, ZeroDivisionError):
        raise Failure(f"rrdtool does not tell which rows {old} has") from None
    if not archives:
        raise Failure(f"{old} has no archive that rrdi can have")
    status = 0
    for place, span in enumerate(archives):
        if any(is_like(before, span) for before in archives[:place]):
            print(f"{span.function} {span.seconds} s: not compared, since fetch reads an archive before it", flush=True)
            status = 1
            continue
        counts = compare_archive(old, new, span)
        print(f"{span.function} {span.seconds} s: {counts.text()}", flush=True)
        if not counts.is_equal():
            status = 1
    missing = missing_sources(info, new)
    if missing:
        print(f"only in the old file: {escaped(', '.join(missing))}")
    return status


TOOL = Tool("rrdi-compare", "OLD.rrd NEW.rrdi", __doc__, compare)
main = TOOL.main
