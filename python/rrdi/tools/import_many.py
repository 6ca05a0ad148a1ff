# SPDX-License-Identifier: MIT OR Apache-2.0
"""Converts many files of RRDtool and of whisper: those that are named, and all below a directory."""
from __future__ import annotations

import os
from typing import Iterator, List, Optional, Tuple

from ..choice import chosen
from ..importing.dump import Refusal
from ..kinds import WHISPER_END, is_of_rrdi
from .children import ChildAnswer
from .command_line import Failure
from .conversion import Conversion, Reading, fill_by_batch, is_left_over, make_or_find, swap_in
from .many_files import (INCOMPLETE, IS_THERE, NOTED, NOTED_THERE, PARTLY_THERE, PASSED_OVER, THERE, WHOLE, Conversions,
                         OldFile, files_of, has)

RRDTOOL_END, NEW_END = ".rrd", ".rrdi"
OLD_ENDS = (RRDTOOL_END, WHISPER_END)


def new_name(name: str) -> str:
    stem, end = os.path.splitext(name)
    return (stem if end in OLD_ENDS else name) + NEW_END


class Importer(Conversions):
    """Makes databases."""

    def __init__(self, files: List[OldFile], into: Optional[str], journal: Optional[str], tool: str):
        super().__init__(files, into, "rrdi", tool)
        self.journal = journal

    def new_of(self, file: OldFile) -> str:
        return os.path.join(self.into or "", new_name(file.name))

    def answers(self, jobs: int) -> Iterator[Tuple[OldFile, ChildAnswer]]:
        """Yields what became of the files. One at a time needs no process of its own, and the bar moves within a file."""
        if min(jobs, len(self.files)) == 1:
            return ((file, self.work_on(file, self.bar.reading)) for file in self.files)
        return super().answers(jobs)

    def converted(self, file: OldFile, reading: Reading) -> str:
        if self.into is None and is_of_rrdi(file.path):
            return f"{PASSED_OVER}\nis a database of rrdi already"
        conversion = Conversion(file.path, self.journal)
        try:
            return (self.in_place if self.into is None else self.into_new)(file, conversion, reading)
        except Refusal as refusal:
            raise Refusal("; ".join([str(refusal), *conversion.notes])) from None

    def into_new(self, file: OldFile, conversion: Conversion, reading: Reading) -> str:
        new = self.names.new(file)
        is_new = make_or_find(new, conversion.lines(reading), conversion.compare)
        whole, noted, incomplete = (WHOLE, NOTED, INCOMPLETE) if is_new else (THERE, NOTED_THERE, PARTLY_THERE)
        said = "" if is_new else f" {IS_THERE}"
        outcome = incomplete if conversion.skipped else noted if conversion.notes else whole
        return f"{outcome}\n{new}{said}{described(conversion)}"

    def in_place(self, file: OldFile, conversion: Conversion, reading: Reading) -> str:
        if file.path.endswith(WHISPER_END):
            raise Failure("a file of whisper is converted with --into")
        path = os.path.realpath(file.path)
        before, kept = os.stat(path), f"{path}.old"
        is_left_over(path, kept)
        lines = list(conversion.lines(reading))
        if not conversion.is_whole:
            raise Failure("; ".join(conversion.notes))
        swap_in(path, kept, before, lambda unfinished: fill_by_batch(unfinished, path, lines, conversion.compare))
        return f"{NOTED if conversion.notes else WHOLE}\nconverted, the old file is {kept}{described(conversion)}"


def described(conversion: Conversion) -> str:
    """Returns what a new database has, and what was left out."""
    return "; ".join([has(conversion.sources, conversion.archives), *conversion.notes])


def import_many(words: List[str], into: Optional[str], journal: Optional[str], jobs: int, tool: str) -> int:
    """Converts files, so many at a time, into a directory or, without one, in place. Returns the status.

    # Errors
    - `Failure` if there is nothing to convert.
    - `OSError` if a directory can't be read.
    """
    files = files_of(words, OLD_ENDS)
    chosen()  # here, because otherwise each process would load it
    return Importer(files, into, journal, tool).run(words, OLD_ENDS, jobs)
