# SPDX-License-Identifier: MIT OR Apache-2.0
"""Takes RRDtool's commands for rrdi's files, and answers as RRDtool does.

usage: rrdi-rrdtool [--exact | --rrdi | --show] COMMAND ARGUMENT..
       rrdi-rrdtool [--exact] [--lengths] - [DIRECTORY]

examples:
  rrdi-rrdtool fetch room.rrdi AVERAGE -s now-1h
  rrdi-rrdtool --show update room.rrdi 'now@2.05e1'

COMMAND is create, update, updatev, tune, resize, fetch, first, last,
lastupdate, info, graph, graphv or xport, with most options, times such as
now-1h, durations such as 5m, and exponents. graph, graphv and xport need
RRDtool's library (rrdi-graph --help).

With - you get RRDtool's pipe mode, in DIRECTORY: a command per line on standard
input, and after each its output and OK, or ERROR and the reason. It also has
cd, mkdir, ls, pwd and quit.

options:
  --exact              print 17 digits instead of RRDtool's 11
  --rrdi               print what rrdi prints
  --show               print rrdi's commands instead of running them
                       (neither --show nor --rrdi can resize)
  --lengths            begin each answer in pipe mode with the number of bytes
                       of each text that follows, so no text reads as an answer
  -h, --help           show this help and exit
  --version            show the version and exit

environment:
  RRDI                 the program to run instead of the C library

docs/migrate.md has more.

Exit status: 0; 1 and `ERROR: REASON` on standard error if the command is
refused; 2 after wrong arguments. In pipe mode: 0 at the end of the input and
after quit.
"""
from __future__ import annotations

import sys
from functools import lru_cache
from typing import TYPE_CHECKING, List

from ...errors import CANNOT_OPEN, CANNOT_WRITE, READ_FAILED, fault_of
from ...escaping import HIDDEN, escaped
from ...words import as_bytes
from .. import program
from ..command_line import Failure, Tool, WrongArguments, complain, error_text, give_up_output, write_output
from ..exponents import be_exact
from ..rrdtool_output import Printed, lines_of, plain
from .running import Commands, commands_for
from .texts import VERSION

# A command imports what it alone needs, because the imports are most of what a call costs.
if TYPE_CHECKING:
    from ..graphing import Grapher

USAGE = "[--exact | --rrdi | --show] COMMAND ARGUMENT.. | [--exact] [--lengths] - [DIRECTORY]"
HELP = ("usage: rrdi-rrdtool COMMAND ARGUMENT..\n"
        "commands: create, update, updatev, tune, resize, fetch, first, last, lastupdate, info, graph, graphv, xport\n"
        "in pipe mode also: quit, ls, cd, mkdir, pwd\n")


def run_command(commands: Commands, name: str, words: List[str]) -> Printed:
    """Runs a command and returns its output.

    # Errors
    `Failure` if the command is refused.
    """
    if name in ("-v", "--version"):
        return [VERSION]
    if name == "help":
        return lines_of(HELP)
    if name in ("graph", "graphv", "xport"):
        grapher = the_grapher()
        ways = {"graph": grapher.graph, "graphv": grapher.graph_with_sizes, "xport": grapher.xport}
        return ways[name](words)
    return lines_of(commands.run(name, words))


@lru_cache(maxsize=None)
def the_grapher() -> Grapher:
    """Loads RRDtool's grapher at the first use."""
    from ..graphing import Grapher
    return Grapher()


def run_pipe(words: List[str], has_lengths: bool) -> int:
    from .pipe import Pipe
    if len(words) > 1:
        raise WrongArguments
    if words:
        try:
            Pipe.change_directory(words)
        except Failure as failure:
            complain(f"ERROR: {escaped(str(failure))}")
            return 2
    if sys.stdin is None or sys.stdout is None:
        raise Failure("standard input or output is closed")
    commands = Commands()
    pipe = Pipe(lambda name, others: run_command(commands, name, others), HELP, sys.stdout.buffer, has_lengths)
    pipe.answer_all(sys.stdin.buffer)
    return 0


def for_shell(word: str) -> str:
    """Returns a word as a shell reads it. One with a character that commands a terminal or hides, or with bytes that are no
    UTF-8, gets the quotes in which bash, ksh and zsh read codes: octal ones, since ksh has no end of a hexadecimal one."""
    import shlex
    if not HIDDEN.search(word):
        return shlex.quote(word)
    codes = (chr(byte) if byte < 128 and chr(byte).isalnum() else f"\\{byte:03o}" for byte in as_bytes(word))
    return f"$'{''.join(codes)}'"


def run_as_rrdi(name: str, words: List[str], is_shown: bool) -> int:
    """Translates a command to commands of rrdi, and runs them with rrdi's own output, or prints them."""
    for command in commands_for(name, words):
        if name == "resize":
            raise Failure("resize writes resize.rrd; use it without --rrdi and --show, or rrdi resize")
        if is_shown:
            print(" ".join(map(for_shell, ["rrdi", *command])))
        else:
            print(asked(command), end="", flush=True)
    return 0


def asked(command: List[str]) -> str:
    """Runs a command of rrdi, and returns its output.

    # Errors
    `Failure` with rrdi's reason; if that is the system's, with the file and what the system says.
    """
    try:
        return program.ask(command)
    except program.CommandFailed as failed:
        of_the_system = fault_of(str(failed))[0] in (CANNOT_OPEN, CANNOT_WRITE, READ_FAILED)
        raise Failure(failed.of_file(command[1]) if of_the_system else str(failed)) from None


def run_words(words: List[str]) -> int:
    if words[:1] == ["--exact"]:
        be_exact()
        words = words[1:]
    has_lengths = words[:1] == ["--lengths"]
    words = words[has_lengths:]
    mode = words[0] if words[:1] in (["--rrdi"], ["--show"]) else ""
    name, *others = (words[1:] if mode else words) or [""]
    if not name or has_lengths and words[0] != "-":
        raise WrongArguments
    if name == "-" and not mode:
        return run_pipe(others, has_lengths)
    try:
        if mode:
            return run_as_rrdi(name, others, mode == "--show")
        write_output(plain(run_command(Commands(), name, others)))
        return 0
    except Failure as failure:
        complain(f"ERROR: {escaped(str(failure))}")
    except BrokenPipeError:
        give_up_output()
    except OSError as error:
        complain(f"ERROR: {escaped(error_text(error))}")
        give_up_output()
    return 1


TOOL = Tool("rrdi-rrdtool", USAGE, __doc__, run_words, VERSION)
main = TOOL.main
