# SPDX-License-Identifier: MIT OR Apache-2.0
"""The parts that all tools share: help, messages, exit statuses, and reports of progress."""

# Without `annotations` of __future__: a named tuple whose types are texts makes a tool start a tenth slower.
import os
import sys
import time
from typing import Callable, List, NamedTuple, Optional

from .. import __version__
from ..escaping import escaped


class Failure(Exception):
    """The reason why a tool failed; the text is a line for the user, and `detail` a further line, or empty."""

    detail = ""


class WrongArguments(Exception):
    """The arguments are wrong; the text is a line for the user, or empty for the usage line."""


class Tool(NamedTuple):
    """A tool: its installed name, the line of its arguments, its help, the function that runs it, what it prints as its
    version, if that is not rrdi's, and its exit statuses after a failure and after wrong arguments."""

    name: str
    usage: str
    help: Optional[str]
    run: Callable[[List[str]], int]
    version: str = ""
    failed: int = 1
    misused: int = 2

    def main(self) -> int:
        """Runs the tool with the arguments of this process, and returns its exit status."""
        return run(self)


def called_name(tool: Tool) -> str:
    """Returns the name by which a tool was started, so that messages have the name of a link or an old name."""
    name = os.path.basename(sys.argv[0])
    return tool.name if name.endswith(".py") or name in ("", "-c", "-m", "__main__") else escaped(name)


def give_up_output(stream: int = 1) -> None:
    """Discards the rest of a standard stream, so that Python does not report the same error again at its end."""
    try:
        os.dup2(os.open(os.devnull, os.O_WRONLY), stream)
    except OSError:
        pass


def error_text(error: OSError) -> str:
    """Describes an error of the system, with the file if there is one."""
    reason = error.strerror or str(error)
    return f"{error.filename}: {reason}" if error.filename else reason


def flush_output() -> None:
    """Writes what was printed. If standard output was closed before the tool began, nothing was."""
    if sys.stdout is not None:
        sys.stdout.flush()


def write_output(data: bytes) -> None:
    """Writes bytes to standard output. If that was closed before the tool began, nobody misses them, as with `print`."""
    if sys.stdout is not None:
        sys.stdout.buffer.write(data)
        sys.stdout.flush()


def add_line(name: str, hint: str) -> None:
    """Prints a further line, if there is something to say."""
    if hint:
        say(name, hint)


def say(name: str, text: str) -> None:
    """Prints a line on standard error. Names of files and words of others may have anything in them."""
    complain(f"{name}: {escaped(text)}")


def complain(text: str) -> None:
    """Prints a line on standard error, unless that is closed or full: then nobody reads it, and the exit status alone tells."""
    if sys.stderr is None:
        return
    try:
        print(text, file=sys.stderr, flush=True)
    except OSError:
        give_up_output(2)


def print_help(tool: Tool) -> int:
    """Prints the help of a tool, and returns 0."""
    print((tool.help or f"usage: {called_name(tool)} {tool.usage}").strip())  # PYTHONOPTIMIZE=2 leaves no help
    return 0


def print_version(tool: Tool) -> int:
    """Prints the version of a tool, and returns 0."""
    print(tool.version or f"{tool.name} {__version__}")
    return 0


def run_or_help(tool: Tool, words: List[str]) -> int:
    """Runs a tool, or prints its help or version if words that ask for that are refused without a reason."""
    try:
        return tool.run(words)
    except WrongArguments as wrong:
        if not str(wrong) and {"-h", "--help"}.intersection(words):
            return print_help(tool)
        if not str(wrong) and "--version" in words:
            return print_version(tool)
        raise


def run(tool: Tool, words: Optional[List[str]] = None) -> int:
    """Runs a tool and returns its exit status.

    The status is 0 if all went well, and after a failure 1 and after wrong arguments 2, if the tool has no others, with a line
    on standard error. A further line says which option was meant, or that a file is RRDtool's.
    """
    words = sys.argv[1:] if words is None else words
    name, ended = called_name(tool), tool.failed
    try:
        if words[:1] in (["-h"], ["--help"]):
            status = print_help(tool)
        elif words[:1] == ["--version"]:
            status = print_version(tool)
        else:
            status = run_or_help(tool, words)
        flush_output()
        return status
    except WrongArguments as wrong:
        if str(wrong):
            say(name, str(wrong))
        else:
            complain(f"usage: {name} {tool.usage}")
            if tool.help:
                from .hints import option_hint  # few runs fail
                add_line(name, option_hint(words, tool.help))
        ended = tool.misused
    except Failure as failure:
        say(name, str(failure))
        if str(failure).endswith("file: not ours"):
            from .hints import file_hint
            add_line(name, file_hint(words))
        else:
            add_line(name, failure.detail)
    except BrokenPipeError:
        give_up_output()
        return tool.failed
    except KeyboardInterrupt:
        give_up_output()
        return 130
    except OSError as error:
        say(name, error_text(error))
    except MemoryError:
        complain(f"{name}: out of memory")
    except Exception:
        sys.excepthook(*sys.exc_info())  # as Python itself, whose status is 1: that may have another meaning here
    try:
        flush_output()
    except OSError:
        give_up_output()
    return ended


class Progress:
    """Shows the progress of a long move on standard error, if standard error is a terminal.

    Shows nothing in the first second, so short moves print nothing.
    """

    FIRST, NEXT = 1.0, 0.2  # seconds
    BAR = 30  # characters of a bar

    def __init__(self, what: str, clock: Callable[[], float] = time.monotonic, has_bar: bool = False):
        self.what, self.clock, self.has_bar = what, clock, has_bar
        self.is_on = sys.stderr is not None and sys.stderr.isatty()
        self.due = clock() + self.FIRST
        self.is_shown = False

    def show(self, done: int, total: Optional[int] = None) -> None:
        """Shows `done`, or the share of `total` if the total is known."""
        if not self.is_on or self.clock() < self.due:
            return
        self.due = self.clock() + self.NEXT
        share = min(100 * done // total, 100) if total else 0
        count = f"{share} %" if total else f"{done:,}"
        bar = f"[{'#' * (share * self.BAR // 100):<{self.BAR}}] " if total and self.has_bar else ""
        print(f"\r{escaped(self.what)}: {bar}{count}\x1b[K", end="", file=sys.stderr, flush=True)
        self.is_shown = True

    def end(self) -> None:
        """Clears the line."""
        if self.is_shown:
            print("\r\x1b[K", end="", file=sys.stderr, flush=True)
            self.is_shown = False
