# SPDX-License-Identifier: MIT OR Apache-2.0
"""Converts many databases into files of RRDtool or of whisper: those that are named, and all below a directory."""
from __future__ import annotations

import os
from typing import Callable, List, Optional

from ..importing.dump import Refusal
from ..importing.native import read_old
from ..kinds import RRDTOOL_MARK, WHISPER_END, first_bytes
from ..locks import EXCLUSIVE, SHARED, close, lock, open_locked, open_regular
from ..making import NewFile, flush
from ..reader import Reader, opened
from ..reader.files import patience
from ..reader.pieces import Parts
from ..reader.selected import OpenFile
from ..reader.stored import Stored
from . import rrdtool_program
from .command_line import Failure
from .conversion import Reading, fill_new, is_left_over, swap_in
from .import_many import NEW_END, RRDTOOL_END
from .many_files import (IS_THERE, NOTED, NOTED_THERE, PASSED_OVER, THERE, WHOLE, Conversions, OldFile, counted, files_of,
                         has)
from .restoring import difference, restore_equal
from .whisper_file import bytes_of, copy_of, write_equal

KEPT_END = ".rrdi"  # of a database whose name a file of RRDtool has taken


# ---- One file

def make_new(new: str, fill: Callable[[str], None], makes_folder: bool = False) -> None:
    """Makes a file, which gets its name when it is filled and on the disk, and never that of another file.

    # Errors
    `Failure` if there is a file of this name; `OSError` if the system refuses something; those of `fill`.
    """
    if os.path.lexists(new):
        raise Failure(f"{new} already exists")
    with NewFile(new, makes_folder) as made:
        fill_new(made, fill)
        made.flush()
        if not made.appear():
            raise Failure(f"{new} already exists")
    flush(os.path.dirname(made.path))


def swap_in_place(path: str) -> str:
    """Puts a file of RRDtool in the place of a database, which keeps its content under another name. The file gets the owner
    and the mode of the database. There is no moment without a file of the name, and nobody changes the database meanwhile.

    # Errors
    `Failure` if the database can't be converted or has changed, or there is a file of the other name; `OSError` if the
    system refuses something; `Damaged` if the file is no database.
    """
    path = os.path.realpath(path)
    kept = path + KEPT_END
    if path.endswith(NEW_END):
        raise Failure(f"a file whose name ends in {NEW_END} is converted with --into")
    file = open_locked(path, SHARED, patience())
    try:
        before = os.fstat(file.fileno())
        others = before.st_nlink - 1 - is_left_over(path, kept)
        database = Reader(Stored.of_file(file.fileno())).database()

        def fill(unfinished: str) -> None:
            restore_equal(database, unfinished)
            # Another exporter waits now; or it has put its own file there, which RRDtool may have changed since.
            lock(file, EXCLUSIVE, patience())
        swap_in(path, kept, before, fill)
    finally:
        close(file)
    text = has(len(database["sources"]), len(database["archives"]))
    return f"converted, the database is {kept}{text}{other_names(others)}"


def other_names(count: int) -> str:
    """Returns what is said of a file that had so many further names: hard links."""
    return f"; {counted(count, 'other name')} of the database still {'has' if count == 1 else 'have'} it" if count > 0 else ""


def into_rrd(path: str, new: str) -> str:
    """Makes a file of RRDtool, or finds that there is one with the same content."""
    with opened(path) as stored:
        database = Reader(stored).database()
    text = has(len(database["sources"]), len(database["archives"]))
    if not os.path.lexists(new):
        make_new(new, lambda unfinished: restore_equal(database, unfinished), makes_folder=True)
        return f"{WHOLE}\n{new}{text}"
    different = difference_of(database, new)
    if different:
        raise Failure(f"{new} already exists, and is not equal: {different}")
    return f"{THERE}\n{new} {IS_THERE}{text}"


def difference_of(database: Parts, new: str) -> str:
    try:
        return difference(database, read_old(new, rrdtool_program.found))
    except Refusal as refusal:
        return str(refusal)


def into_whisper(path: str, new: str) -> str:
    """Makes a file of whisper, or finds that there is one with the same content."""
    with OpenFile(path) as file:
        copy = copy_of(file)
    text = "; ".join([has(1, len(copy.file.archives)), *copy.notes])
    if not os.path.lexists(new):
        make_new(new, lambda unfinished: write_equal(copy, unfinished), makes_folder=True)
        return f"{NOTED if copy.notes else WHOLE}\n{new}{text}"
    with open_regular(new) as there:
        if there.readall() != bytes_of(copy.file):
            raise Failure(f"{new} already exists, and is not equal")
    return f"{NOTED_THERE if copy.notes else THERE}\n{new} {IS_THERE}{text}"


# ---- Many files

class Exporter(Conversions):
    """Makes files of RRDtool or of whisper."""

    def __init__(self, files: List[OldFile], into: Optional[str], is_whisper: bool, tool: str):
        self.is_whisper = is_whisper
        super().__init__(files, into, "RRDtool", tool)

    def new_of(self, file: OldFile) -> str:
        stem, end = os.path.splitext(file.name)
        name = stem if end in (NEW_END, RRDTOOL_END) else file.name
        return os.path.join(self.into or "", name + (WHISPER_END if self.is_whisper else RRDTOOL_END))

    def converted(self, file: OldFile, reading: Reading) -> str:
        if first_bytes(file.path) == RRDTOOL_MARK:
            return f"{PASSED_OVER}\nis a file of RRDtool already"
        if self.into is None:
            return f"{WHOLE}\n{swap_in_place(file.path)}"
        new = self.names.new(file)
        return into_whisper(file.path, new) if self.is_whisper else into_rrd(file.path, new)


def export_many(words: List[str], into: Optional[str], is_whisper: bool, jobs: int, tool: str) -> int:
    """Converts files, into a directory or, without one, in place. Returns the status.

    # Errors
    - `Failure` if there is nothing to convert, or rrdtool is needed and not installed.
    - `OSError` if a directory can't be read.
    """
    ends = (RRDTOOL_END,) if into is None else (NEW_END, RRDTOOL_END)
    files = files_of(words, ends)
    if not is_whisper:
        rrdtool_program.found()
    return Exporter(files, into, is_whisper, tool).run(words, ends, jobs)
