# SPDX-License-Identifier: MIT OR Apache-2.0
"""Turns rrdi databases back into files of RRDtool, or into files of Graphite's whisper.

usage: rrdi-export FILE.rrdi NEW.rrd
       rrdi-export FILE.rrdi > MOVED.xml
       rrdi-export --whisper FILE.rrdi NEW.wsp
       rrdi-export [--whisper] --into DIRECTORY FILE|TREE..
       rrdi-export --in-place FILE.rrd|TREE..

examples:
  rrdi-export room.rrdi room.rrd && rrdtool info room.rrd
  rrdi-export --in-place /var/lib/munin

The first form makes NEW.rrd, which must not exist, with `rrdtool restore`. The
second prints the XML for it, without RRDtool. A new file gets its name when it
is on the disk, was read back, and is equal. The last two forms convert many
files: those named, and all below directories TREE that end in .rrd or with
--into .rrdi. First stop the programs that record into the files.

options, anywhere on the line:
  --into DIRECTORY     make DIRECTORY/NAME.rrd (or NAME.wsp) of NAME.rrdi, and
                       keep the subdirectories of a TREE
  --in-place           give the new file the name, owner and mode of the
                       database NAME.rrd, which becomes NAME.rrd.rrdi
  --whisper            make files of whisper: for a metric of Graphite, or for
                       any database with one data source
  --jobs N             convert N files at a time (default: one per
                       processor)
  -h, --help           show this help and exit
  --version            show the version and exit

FILE may be - for standard input in the first two forms. It is read under a
shared lock. No existing file is replaced; repeat a run that was stopped, and
what is there already stays.

environment:
  RRDI_WAIT            seconds to wait for a program that changes FILE
                       (default: 5)

docs/moving-files.md says what cannot be converted.

Exit status: 0; 1 and a line on standard error if a file cannot be read or
converted; 2 after wrong arguments.
"""
from __future__ import annotations

import os
from typing import List, NamedTuple, Optional

from ..reader.selected import OpenFile
from .command_line import Failure, Progress, Tool, WrongArguments, called_name, say
from .export_many import export_many, make_new
from .options import given_words, number_of
from .reading import read_file, reporting
from .restoring import restore_equal
from .rrdtool_xml import as_xml

WITH_VALUE = {"--into": "into", "--jobs": "jobs"}
IN_PLACE, WHISPER = "--in-place", "--whisper"


class ExportOptions(NamedTuple):
    """The files; of many files the directory of the new ones, or none if they are converted in place."""

    files: List[str]
    is_many: bool
    into: Optional[str]
    is_whisper: bool
    jobs: int


def read_options(words: List[str]) -> ExportOptions:
    given = given_words(words, WITH_VALUE, [IN_PLACE, WHISPER])
    into, is_in_place, is_whisper = given.values.get("into"), IN_PLACE in given.flags, WHISPER in given.flags
    is_many, jobs = is_in_place or into is not None, number_of(given.values, "jobs")
    if not given.others or into == "" or jobs == 0 or jobs is not None and not is_many:
        raise WrongArguments
    if is_in_place and (into is not None or is_whisper):
        raise WrongArguments("give --in-place alone; --whisper is for --into, or for one new file")
    if not is_many and len(given.others) != 2 and (is_whisper or len(given.others) > 2):
        raise WrongArguments
    return ExportOptions(given.others, is_many, into, is_whisper, jobs or len(os.sched_getaffinity(0)))


def make_whisper(file: str, new: str) -> None:
    """Makes a file of whisper of one database."""
    from .whisper_file import copy_of, write_equal  # most exports are for RRDtool
    with reporting(file), OpenFile(file) as opened:
        try:
            copy = copy_of(opened)
        except Failure as failure:
            raise Failure(f"{file}: {failure}") from None
    for note in copy.notes:
        say(called_name(TOOL), f"{file}: {note}")
    make_new(new, lambda unfinished: write_equal(copy, unfinished))


def make_rrd(file: str, new: str) -> None:
    """Makes a file of RRDtool of one database."""
    database, progress = read_file(file), Progress("lines of XML")
    try:
        make_new(new, lambda unfinished: restore_equal(database, unfinished, progress.show))
    finally:
        progress.end()


def print_xml(file: str) -> None:
    progress = Progress("lines of XML")
    for count, line in enumerate(as_xml(read_file(file)), 1):
        print(line)
        progress.show(count)
    progress.end()


def convert(words: List[str]) -> int:
    options = read_options(words)
    if options.is_many:
        return export_many(options.files, options.into, options.is_whisper, options.jobs, called_name(TOOL))
    if len(options.files) == 1:
        print_xml(*options.files)
    elif options.is_whisper:
        make_whisper(*options.files)
    else:
        make_rrd(*options.files)
    return 0


TOOL = Tool("rrdi-export", "FILE.rrdi [NEW.rrd]\n"
            "       rrdi-export --whisper FILE.rrdi NEW.wsp\n"
            "       rrdi-export [--whisper] [--jobs N] --into DIRECTORY|--in-place FILE|TREE..", __doc__, convert)
main = TOOL.main
