# SPDX-License-Identifier: MIT OR Apache-2.0
"""Converts one file of RRDtool or of whisper: reads the old file, and makes the new database."""
from __future__ import annotations

import os
from typing import Callable, Iterable, Iterator, List, Optional

from ..errors import Damaged
from ..escaping import escaped
from ..importing.batch import RrdBatch
from ..importing.comparing import NewArchive
from ..importing.dump import Refusal
from ..importing.native import read_old
from ..importing.whisper import WhisperFile, read_whisper, whisper_batch
from ..kinds import WHISPER_END
from ..locks import open_regular, state_of
from ..making import NewFile, flush
from ..reader.selected import OpenFile
from . import program, rrdtool_program
from .command_line import Failure
from .reading import reporting
from .whisper_file import differing_points

LONGEST_NOTE = 1_000  # characters

# Is told how many bytes of the old file are read, and how many there are.
Reading = Callable[[int, int], None]


def size_of(file: str) -> int:
    """Returns the bytes of a file, or 0 if the system does not say: whoever reads the file reports the error."""
    try:
        return os.path.getsize(file)
    except OSError:
        return 0


class Conversion:
    """The conversion of one file. `notes` has what was left out or changed, each in one line; `skipped` is the number of
    data sources that were left out, `changed` that of those with another type, `skipped_archives` that of the archives that
    were left out; `sources` and `archives` are the numbers of those that the new database has."""

    def __init__(self, old: str, journal: Optional[str], note: Callable[[str], None] = lambda text: None):
        self.old, self.journal, self._note = old, journal, note
        self.notes: List[str] = []
        self.sources = self.archives = self.skipped = self.skipped_archives = self.changed = 0
        self._batch: Optional[RrdBatch] = None
        self._whisper: Optional[WhisperFile] = None

    def note(self, text: str) -> None:
        """Keeps and passes on what cannot be converted, in one line, whatever the old file's texts have in them."""
        note = escaped(text if len(text) <= LONGEST_NOTE else f"{text[:LONGEST_NOTE]}..")
        self.notes.append(note)
        self._note(note)

    def lines(self, reading: Reading = lambda done, size: None) -> Iterator[str]:
        """Reads the old file, and yields the lines of the batch that makes the new database.

        # Errors
        - `Refusal` if the file can't be read, or rrdi can't have such a database.
        - `OSError` if a file of whisper can't be opened or read.
        - `Failure` if rrdtool is needed to read it and not installed.
        """
        if os.path.exists(self.old) and not os.path.isfile(self.old):  # nobody waits for who writes into a FIFO
            raise Refusal("cannot open: not a regular file")
        if self.old.endswith(WHISPER_END):
            self._whisper = read_whisper(self.old)
            lines, there = whisper_batch(self._whisper, self.journal, self.note), 0
        else:
            size = size_of(self.old)
            old = read_old(self.old, rrdtool_program.found, lambda cells: reading(8 * cells, size))
            self._batch = RrdBatch(old, self.journal, self.note)
            lines, there, self.changed = self._batch.noted_lines(), len(old.sources), self._batch.changed
            self.skipped_archives = len(old.archives) - len(self._batch.archives)
        for line in lines:
            if line.startswith("create "):
                words = line.split(" ")
                self.sources = sum(word.startswith("DS:") for word in words)
                self.archives = sum(word.startswith("RRA:") for word in words)
                self.skipped = max(there - self.sources, 0)
            yield line

    @property
    def is_whole(self) -> bool:
        """Whether the new database has all data sources, with their types, and all archives."""
        return not (self.skipped or self.skipped_archives or self.changed)

    def compare(self, new: str) -> None:
        """Notes the archives of the new database that differ from those of the old file.

        # Errors
        `Failure` if the new database cannot be read.
        """
        with reporting(new), OpenFile(new) as opened:
            archives, last = opened.outline().archives, opened.front.last
            if self._batch is not None:
                self._batch.note_differences(lambda place: NewArchive(
                    opened.rows(archives[place], 1, last), archives[place].partial))
            if self._whisper is not None:
                for text in differing_points(self._whisper, opened):
                    self.note(text)


def make(new: str, lines: Iterable[str], look: Callable[[str], None]) -> None:
    """Creates a database with a batch. The database gets its name when it is complete, and never that of another file.
    Before that, `look` gets the name under which it is read.

    # Errors
    - `Failure` if there is a file of this name, or rrdi refuses the batch.
    - `OSError` if the system refuses the name.
    """
    if os.path.lexists(new):
        raise Failure(f"{new} already exists")
    given = list(lines)
    with NewFile(new) as made:
        fill_by_batch(made.unfinished, new, given, look)
        if not made.appear():
            raise Failure(f"{new} already exists")


def make_or_find(new: str, lines: Iterable[str], look: Callable[[str], None]) -> bool:
    """Creates a database as `make` does, and its folder. Returns False if the same database is there already.

    # Errors
    - `Failure` if there is another file of this name, or rrdi refuses the batch.
    - `OSError` if the folder can't be made, or the system refuses the name or does not read the file.
    """
    given = list(lines)
    with NewFile(new, makes_folder=True) as made:
        fill_by_batch(made.unfinished, new, given, look)
        if not os.path.lexists(new) and made.appear():
            return True
        different = difference(new, made.unfinished)
        if different:
            raise Failure(f"{new} already exists, {different}")
        return False


def fill_by_batch(unfinished: str, new: str, lines: Iterable[str], look: Callable[[str], None]) -> None:
    try:
        program.batch_on_new(unfinished, lines)
    except program.CommandFailed as failed:
        raise Failure(failed.of_file(new, os.path.dirname(new) or ".")) from None
    look(unfinished)


def difference(there: str, made: str) -> str:
    """Returns what is said of a file that is not the database that was made; nothing if it is."""
    try:
        with open_regular(there) as file, open_regular(made) as wanted:
            if file.readall() == wanted.readall():
                return ""
        with OpenFile(there) as one, OpenFile(made) as other:
            last, made_last = one.front.last, other.front.last
    except OSError as error:
        return f"and cannot be read: {error.strerror or error}"
    except Damaged:
        return "and is no database"
    return f"with samples up to {last} and not {made_last}" if last != made_last else "with other settings or rows"


def is_left_over(path: str, kept: str) -> bool:
    """Checks whether a file has the name that it keeps already: a run was killed before the new file came.

    # Errors
    `Failure` if another file has that name.
    """
    if not os.path.lexists(kept):
        return False
    if not os.path.samestat(os.stat(path), os.lstat(kept)):  # a link to it would soon lead to the new file
        raise Failure(f"{kept} already exists")
    return True


def fill_new(made: NewFile, fill: Callable[[str], None]) -> None:
    """Fills a new file. A failure has the name that the file gets."""
    try:
        fill(made.unfinished)
    except Failure as failure:
        raise Failure(str(failure).replace(made.unfinished, made.path)) from None


def swap_in(old: str, kept: str, before: os.stat_result, fill: Callable[[str], None]) -> None:
    """Puts a new file in the place of an old one, which keeps its content under the name `kept`. `fill` makes the new file
    under the name that it gets. The file then takes the owner and the mode of the old one, and its name when it is on the
    disk. `before` is the old file's status from before it was read. There is no moment without a file of the name.

    # Errors
    - `Failure` if the file has changed since `before`, or there is another file of the name `kept`; those of `fill`.
    - `OSError` if the system refuses the owner, the mode or a name.
    """
    with NewFile(old, follows=False, mode=0o600) as made:  # nobody else reads it before it has the old mode
        fill_new(made, fill)
        made.take_owner(before, old)
        made.flush()
        if state_of(os.stat(old)) != state_of(before):
            raise Failure("it changed while it was converted; first stop what records into it")
        if not is_left_over(old, kept):
            try:
                os.link(old, kept)
            except FileExistsError:
                raise Failure(f"{kept} already exists") from None
        made.replace()
    flush(os.path.dirname(old))
