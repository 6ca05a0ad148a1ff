# SPDX-License-Identifier: MIT OR Apache-2.0
"""Moves files of RRDtool, or of Graphite's whisper, to rrdi.

usage: rrdi-import [--journal DEPTH] OLD.rrd|OLD.wsp NEW.rrdi
       rrdi-import [--journal DEPTH] OLD.rrd|OLD.wsp > MOVED.batch
       rrdi-import [--journal DEPTH] [--jobs N] --into DIRECTORY OLD|TREE..
       rrdi-import [--journal DEPTH] [--jobs N] --in-place OLD.rrd|TREE..

examples:
  rrdi-import room.rrd room.rrdi && rrdi-compare room.rrd room.rrdi
  rrdi-import --in-place /var/lib/munin

The first form creates NEW.rrdi, which must not exist. The second prints the
batch that does, for `rrdi batch NEW.rrdi`. The other forms convert many files:
those named, and all below the directories TREE whose names end in .rrd or .wsp
(--in-place refuses .wsp). First stop the programs that record into the old
files.

options:
  --journal DEPTH      how many changes the new database can revert
                       (default: 16); you cannot change it later
  --into DIRECTORY     make DIRECTORY/NAME.rrdi of NAME.rrd or NAME.wsp, and
                       keep the subdirectories of a TREE
  --in-place           give the new database the name, owner and mode of the
                       old file, which becomes NAME.rrd.old; a file stays as
                       it is if it cannot be converted whole
  --jobs N             convert N files at a time (default: one per
                       processor)
  -h, --help           show this help and exit
  --version            show the version and exit

No existing file is replaced by another one's database; a stopped run can be
repeated: what is there stays. rrdtool is needed for an OLD.rrd with a COMPUTE
source, a forecast, or another layout. A file whose name ends in .wsp gets the
layout of Graphite's storage over rrdi (docs/graphite.md). What cannot be
converted is listed; docs/moving-files.md says why.

Exit status: 0 if all files are there with all their data sources; 1 and a
reason if not; 2 after wrong arguments.
"""
from __future__ import annotations

import os
import re
from typing import Iterator, List, NamedTuple, Optional

from ..importing.dump import Refusal
from ..kinds import is_of_rrdi
from .command_line import Failure, Progress, Tool, WrongArguments, called_name, say
from .conversion import Conversion, make
from .import_many import import_many

INTO, IN_PLACE = "--into", "--in-place"


class ImportArguments(NamedTuple):
    """The arguments: of one file the new name, of many files the directory, or none if they are converted in place, and how
    many are converted at a time."""

    journal: Optional[str]
    is_many: bool
    old: List[str]
    new: Optional[str]
    jobs: int = 1


def read_arguments(words: List[str]) -> ImportArguments:
    journal: Optional[str] = None
    into: Optional[str] = None
    jobs: Optional[str] = None
    is_in_place = False
    words = list(words)
    while words and words[0].startswith("--"):
        option = words.pop(0)
        if option == "--journal" and journal is None and words and re.fullmatch("[0-9]{1,12}", words[0]):
            journal = words.pop(0)
        elif option == "--jobs" and jobs is None and words and re.fullmatch("0*[1-9][0-9]{0,9}", words[0]):
            jobs = words.pop(0)
        elif option == INTO and into is None and words:
            into = words.pop(0)
        elif option == IN_PLACE and not is_in_place:
            is_in_place = True
        else:
            raise WrongArguments
    if any(not word or word.startswith("-") for word in words) or into is not None and (not into or is_in_place):
        raise WrongArguments
    is_many = is_in_place or into is not None
    if not 1 <= len(words) <= (len(words) if is_many else 2) or jobs is not None and not is_many:
        raise WrongArguments
    if is_many:
        return ImportArguments(journal, True, words, into, int(jobs or len(os.sched_getaffinity(0))))
    return ImportArguments(journal, False, words[:1], words[1] if len(words) == 2 else None)


def counted(lines: Iterator[str]) -> Iterator[str]:
    """Passes on the lines of a batch, and shows how many there were."""
    progress = Progress("converting")
    for count, line in enumerate(lines, 1):
        progress.show(count)
        yield line
    progress.end()


def look_at(old: str) -> None:
    """Looks whether a file can be one of another program.

    # Errors
    `Failure` if it cannot.
    """
    if os.path.isdir(old):
        raise Failure(f"{old} is a directory; {INTO} and {IN_PLACE} convert the files below it")
    if is_of_rrdi(old):
        raise Failure(f"{old} is a file of rrdi already")


def import_one(old: str, new: Optional[str], journal: Optional[str]) -> int:
    """Converts one file, and returns the status."""
    look_at(old)
    conversion = Conversion(old, journal, lambda text: say(called_name(TOOL), f"{old}: {text}"))
    progress = Progress(f"reading {old}")
    lines = ended(conversion.lines(progress.show), progress)
    if new is None:
        for line in lines:
            print(line)
    else:
        make(new, counted(lines), conversion.compare)
    return 1 if conversion.skipped else 0


def ended(lines: Iterator[str], progress: Progress) -> Iterator[str]:
    """Passes on the lines. The first line says that the old file is read, which clears the line of progress."""
    try:
        for line in lines:
            progress.end()
            yield line
    finally:
        progress.end()


def convert(words: List[str]) -> int:
    arguments = read_arguments(words)
    if arguments.is_many:
        return import_many(arguments.old, arguments.new, arguments.journal, arguments.jobs, called_name(TOOL))
    try:
        return import_one(arguments.old[0], arguments.new, arguments.journal)
    except Refusal as refusal:
        old = arguments.old[0]
        reason = str(refusal)
        raise Failure(reason if old in reason else f"{old}: {reason}") from None


TOOL = Tool("rrdi-import", "[--journal DEPTH] OLD.rrd|OLD.wsp [NEW.rrdi]\n"
            "       rrdi-import [--journal DEPTH] [--jobs N] --into DIRECTORY|--in-place OLD|TREE..", __doc__, convert)
main = TOOL.main
