# SPDX-License-Identifier: MIT OR Apache-2.0
"""Draws rrdi's databases, and RRDtool's files, with RRDtool's own grapher.

usage: rrdi-graph PICTURE [OPTION..] DEF:x=FILE:SOURCE:FUNCTION.. LINE1:x#RGB..

example:
  rrdi-graph load.png DEF:a=load.rrdi:load1:AVERAGE AREA:a#88aa00:load

The arguments are those of `rrdtool graph`, as rrdgraph(1) describes them. A DEF
with a file of rrdi gets its rows from rrdi, with step, start, end and reduce.
--start and --end also take 2026-11-25 14:00, 2026-11-25T14:00Z (UTC) and
@1700000000. You get the size of the picture and the texts of PRINT. If PICTURE
is -, the picture goes to standard output. RRDtool's library must be installed
(Debian: librrd8).

options, besides those of rrdtool graph:
  -h, --help           as the first word: show this help and exit
  --version            as the first word: show the version and exit

environment:
  RRDI                 the program to run instead of the C library

Exit status: 0; 1 after a failure; 2 after wrong arguments.
"""
from __future__ import annotations

import re
from typing import List

from .command_line import Tool, WrongArguments, write_output
from .graphing import Grapher
from .rrdtool_output import plain
from .spans import typed_seconds


MOST_OF_A_DATE = 315_360_000  # up to here RRDtool reads digits as an hour or a date
TIME = re.compile("((?:--start|--end)=|-[se])(.+)")


def in_digits(text: str, is_end: bool) -> str:
    """Returns a time in a form that RRDtool's library reads: not `epoch+SECONDS`, of which RRDtool 1.7.2 reads another one.

    # Errors
    `WrongArguments` if `typed_seconds` finds 1979-12-30 or earlier: RRDtool reads these as an hour or date, and draws none.
    """
    seconds = typed_seconds(text, is_end)
    if seconds is not None and seconds <= MOST_OF_A_DATE:
        raise WrongArguments(f"RRDtool draws nothing before 1980: {text!r}")
    return text if seconds is None else str(seconds)


def with_times(words: List[str]) -> List[str]:
    """Returns the words of a graph with the times of --start and --end in RRDtool's form."""
    found, before = [], ""
    for word in words:
        joined = TIME.fullmatch(word)
        if before in ("-s", "-e", "--start", "--end"):
            word = in_digits(word, before in ("-e", "--end"))
        elif joined is not None:
            word = joined[1] + in_digits(joined[2], joined[1] in ("-e", "--end="))
        found.append(word)
        before = word
    return found


def draw(words: List[str]) -> int:
    if len(words) < 2 or not words[0] or words[0].startswith("-") and words[0] != "-":
        raise WrongArguments
    write_output(plain(Grapher().graph(with_times(words))))
    return 0


TOOL = Tool("rrdi-graph", "PICTURE ARGUMENTS OF RRDTOOL GRAPH..", __doc__, draw)
main = TOOL.main
