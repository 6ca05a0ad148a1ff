# SPDX-License-Identifier: MIT OR Apache-2.0
"""Prints a database of rrdi as JSON, CSV or OpenMetrics, without the program.

usage: python3 -m rrdi.reader json|csv|openmetrics|check FILE

example:
  python3 -m rrdi.reader csv load.rrdi > load.csv

formats:
  json                 all of the database, with its journal
  csv, openmetrics     the known rows of all archives
  check                nothing; the status says whether FILE is a database

FILE may be - for standard input. It is read under a shared lock. If a change of
it was interrupted, you get the database that the next command of rrdi would
find.

environment:
  RRDI_WAIT            seconds to wait for a program that changes FILE
                       (default: 5)

docs/export.md also explains how to use the reader as a Python module.

Exit status: 0; 2 after wrong arguments; otherwise 1, with one line on standard
error. If FILE is not a database, this line has the first fault, as rrdi reports
it.
"""
from __future__ import annotations

import sys
from typing import List

from ..tools.command_line import Tool, WrongArguments, run
from ..tools.reading import read_file
from .printing import WAYS


def show(words: List[str]) -> int:
    if len(words) != 2 or words[0] not in WAYS:
        raise WrongArguments
    way, file = words
    for line in WAYS[way](read_file(file), file):
        print(line)
    return 0


def main(name: str = "rrdi.reader") -> int:
    """Runs the command line; `name` is the name of the program in messages."""
    return run(Tool(name, "json|csv|openmetrics|check FILE", __doc__, show))


if __name__ == "__main__":
    sys.exit(main())
