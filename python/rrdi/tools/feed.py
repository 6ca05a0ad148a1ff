# SPDX-License-Identifier: MIT OR Apache-2.0
"""Feeds many databases: takes samples as lines, and writes each file once a minute.

usage: rrdi-feed [OPTION..] < LINES

examples:
  echo 'load.rrdi N:0.42' | rrdi-feed
  socat -u UDP4-RECV:2003 STDOUT | rrdi-feed --graphite data --rules feed.rules

A line is FILE TIME:VALUE[:VALUE..].., and UPDATE may precede FILE. TIME N is
when it arrives.

options:
  --seconds SECONDS    hold the samples of a FILE this long (default: 60)
  --jobs JOBS          write this many files at a time (default: 4)
  --held SAMPLES       while this many samples are held, read no more lines;
                       if no file can be opened, drop the fullest one's
                       (default: 1000000)
  --patience SECONDS   at the end, go on for this long trying files that cannot
                       be opened (default: 30)
  --open-files FILES   keep up to this many busy files open (default: 256; 0:
                       none)
  --open-seconds SECONDS
                       keep each open this long; others can read it, but not
                       change it (default: 2)
  --open-memory MEGABYTES
                       use at most this much memory for them (default: 64)
  --backfill           put in samples earlier than the last one of FILE, as far
                       back as its journal reaches
  --graphite DIRECTORY
                       read Graphite's lines, NAME VALUE TIME, for the file
                       DIRECTORY/NAME.rrdi
  --rules RULES        with --graphite: a file that maps names to files, and
                       creates these
  -h, --help           show this help and exit
  --version            show the version and exit

At the end of the input, and after SIGTERM, SIGINT and SIGHUP, it writes all
samples; after SIGUSR1 it does so, closes all files, and goes on.

environment:
  RRDI                 a program to run instead of the C library, five to
                       thirteen times as slow
  RRDI_SYNC            1: flush each change to the disk
  RRDI_WAIT            seconds to wait for FILE's lock (default: 5)

docs/feeding.md has more, and the form of RULES.

Exit status: 0; 1 if a line was bad, a sample was refused or may be lost (all on
standard error), or DIRECTORY or RULES cannot be used; 2 after wrong arguments.
"""
from __future__ import annotations

import os
import re
import signal
import stat
import tempfile
from typing import List, NamedTuple, Optional

from ..choice import chosen, chosen_library
from ..feeding.feeder import Feeder, FeedOptions
from ..feeding.metrics import Creating, MetricFeeder
from ..feeding.opened import OpenWriter
from ..feeding.rules import EACH_NAME, BadRule, Names, Rule, read_rules
from ..feeding.writers import BatchWriter, Reason, Writer
from ..making import is_there
from ..open_files import OpenBounds, OpenFiles
from .command_line import Failure, Tool, WrongArguments, called_name


MAY_BE_0 = ("patience", "open_files")
IN_NAMES = str.maketrans("-_", "_-")


class FeedArguments(NamedTuple):
    options: FeedOptions
    directory: Optional[str]
    rules: Optional[str]
    fills: bool  # puts late samples in


def read_arguments(words: List[str]) -> FeedArguments:
    options, directory, rules, fills = FeedOptions(), None, None, False
    while words:
        if words[0] == "--backfill":
            fills, words = True, words[1:]
            continue
        if len(words) < 2 or not words[0].startswith("--"):
            raise WrongArguments
        name, value = words[0][2:].translate(IN_NAMES), words[1]
        if name == "graphite" and value:
            directory = value
        elif name == "rules" and value:
            rules = value
        elif name in vars(options) and re.fullmatch("[0-9]{1,12}", value) and (int(value) or name in MAY_BE_0):
            setattr(options, name, int(value))
        else:
            raise WrongArguments
        words = words[2:]
    if rules is not None and directory is None:
        raise WrongArguments
    return FeedArguments(options, directory, rules, fills)


def rules_of(path: Optional[str], writer: Writer) -> List[Rule]:
    """Reads the rules, and tries the arguments of create of each rule.

    # Errors
    `Failure` if the rules can't be read, or rrdi refuses arguments.
    """
    try:
        if path is None:
            return read_rules(EACH_NAME)
        with open(path, encoding="utf-8", errors="surrogateescape") as file:
            rules = read_rules(file.read())
    except BadRule as bad:
        raise Failure(f"{path}: {bad}") from None
    if not rules:
        raise Failure(f"{path} has no rule")
    with tempfile.TemporaryDirectory() as folder:
        for number, arguments in enumerate(sorted({rule.arguments for rule in rules if rule.arguments})):
            reason = Creating(writer).create(os.fsencode(f"{folder}/{number}"), arguments)
            if reason:
                failure = Failure(f"{path}: create {' '.join(arguments)}: {reason}")
                failure.detail = reason.detail if isinstance(reason, Reason) else ""
                raise failure
    return rules


def is_directory(path: str) -> bool:
    """Checks whether a path is one of a directory.

    # Errors
    `OSError` if the system can't look at it.
    """
    return is_there(path) and stat.S_ISDIR(os.stat(path).st_mode)


def chosen_writer(files: OpenFiles, fills: bool) -> Writer:
    library = chosen_library()
    writer = OpenWriter(library, files) if library is not None else BatchWriter(chosen())
    if not fills:
        return writer
    from .fixing.backfill import BackfillWriter  # most runs take no old samples
    return BackfillWriter(writer, files)


def feeder_of(arguments: FeedArguments) -> Feeder:
    options = arguments.options
    files = OpenFiles(OpenBounds(options.open_files, options.open_seconds, options.open_memory))
    writer, name = chosen_writer(files, arguments.fills), called_name(TOOL)
    if arguments.directory is None:
        feeder = Feeder(options, writer, name)
    elif is_directory(arguments.directory):
        names = Names(os.fsencode(os.path.abspath(arguments.directory)), rules_of(arguments.rules, writer))
        feeder = MetricFeeder(options, writer, names, name)
    else:
        raise Failure(f"{arguments.directory} is not a directory")
    feeder.let_go = files.close_all
    return feeder


def feed(words: List[str]) -> int:
    feeder = feeder_of(read_arguments(words))
    for number in (signal.SIGTERM, signal.SIGINT, signal.SIGHUP):
        signal.signal(number, feeder.end)
    signal.signal(signal.SIGUSR1, feeder.hurry)
    return feeder.feed()


USAGE = ("[--seconds SECONDS] [--jobs JOBS] [--held SAMPLES] [--patience SECONDS] "
         "[--open-files FILES] [--open-seconds SECONDS] [--open-memory MEGABYTES] [--backfill] "
         "[--graphite DIRECTORY [--rules RULES]]")
TOOL = Tool("rrdi-feed", USAGE, __doc__, feed)
main = TOOL.main
