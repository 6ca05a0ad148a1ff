# SPDX-License-Identifier: MIT OR Apache-2.0
"""Runs RRDtool's commands on rrdi's files, and returns what RRDtool prints."""
from __future__ import annotations

import os
import re
import time
from contextlib import contextmanager
from typing import Callable, Dict, Iterator, List, Optional, Tuple

from ...compat.at_style import span
from ...compat.resizing import RESIZED, resize_copy
from ...compat.syntax import Untranslatable, read_length, read_options
from ...compat.translate import Command, translate
from ...kinds import owner_of
from ...limits import FUNCTIONS
from ...printed import Settings
from .. import program
from ..command_line import Failure
from ..program import CommandFailed
from ..rows import Rows, fetch, rows_of
from .texts import NewCell, fetch_text, info_text, last_update_text, update_text

ELSEWHERE = {"dump": "rrdi-export prints the XML", "restore": "use rrdtool restore and rrdi-import",
             "list": "use ls", "flushcached": "rrdi has no daemon"}


class FileQuestions:
    """The facts about a file that the translation of some arguments needs."""

    def last(self, file: str) -> int:
        with explaining(file):
            return program.last(file)

    def settings(self, file: str) -> Optional[Settings]:
        try:
            return program.settings(file)
        except CommandFailed:
            return None


def explain(file: str, reason: str) -> str:
    """Returns an error of rrdi in RRDtool's form, if programs look for RRDtool's text."""
    if not os.path.exists(file):
        return f"opening '{file}': No such file or directory"
    if reason == "file: not ours" and owner_of(file) == "RRDtool":
        return f"'{file}' is a file of RRDtool; move it with rrdi-import"
    return f"{file}: {reason}"


@contextmanager
def explaining(file: str) -> Iterator[None]:
    """Reports a refusal of rrdi in RRDtool's form."""
    try:
        yield
    except CommandFailed as failed:
        raise Failure(explain(file, with_detail(file, failed))) from None


def with_detail(file: str, failed: CommandFailed) -> str:
    """Returns the reason of rrdi and what was wrong, if that is known: with a file, what the system says."""
    return f"{failed}: {failed.detail}" if failed.detail else failed.with_system(file)


def explain_update(command: Command, failed: CommandFailed, now: int) -> str:
    """Returns the reason why an update was refused. If a sample is too old, programs look for RRDtool's text."""
    file, reason = command[1], str(failed)
    found = re.fullmatch(r"not later than (\d+)", reason)
    if found is None:
        return explain(file, with_detail(file, failed))
    before = program.last(file)
    for sample in command[2:]:
        text = sample.split(":")[0]
        if text != "N" and not text.isdigit():
            continue
        moment = now if text == "N" else int(text)
        if moment <= before:
            return (f"{file}: illegal attempt to update using time {moment} when last update time is {before} "
                    "(minimum one second step)")
        before = moment
    return explain(file, reason)


def needed(settings: Settings, option: str, value: str) -> bool:
    """Checks whether an option of tune changes something. rrdi itself refuses a source that does not exist."""
    name, _, setting = value.partition(":")
    for source in settings.sources:
        if source.name == name:
            return {"--data-source-type": source.type != setting, "--heartbeat": str(source.heartbeat) != setting,
                    "--minimum": not is_same_bound(source.minimum, setting),
                    "--maximum": not is_same_bound(source.maximum, setting)}.get(option, True)
    return True


def is_same_bound(old: str, new: str) -> bool:
    if "U" in (old, new):
        return old == new
    is_number = re.fullmatch(r"-?[0-9]{1,20}(\.[0-9]{1,6})?", new) is not None
    return is_number and program.as_millionths(old) == program.as_millionths(new)


class Commands:
    """Runs commands. `clock` gives the time now, in seconds since 1970."""

    def __init__(self, clock: Callable[[], float] = time.time):
        self.clock = clock
        self.ways: Dict[str, Callable[[List[str]], str]] = {
            "create": self.create, "update": self.update, "updatev": self.update_with_rows, "tune": self.tune,
            "resize": self.resize, "fetch": self.fetch, "first": self.first, "last": self.last,
            "lastupdate": self.last_update, "info": self.info, "times": self.times, "rows": self.rows}

    def run(self, name: str, words: List[str]) -> str:
        """Runs a command and returns its output.

        # Errors
        `Failure` if the command is refused, with the text that RRDtool prints after `ERROR: `.
        """
        if name in ELSEWHERE:
            raise Failure(f"{name} is not supported: {ELSEWHERE[name]}")
        if name not in self.ways:
            raise Failure(f"unknown function '{name}'")
        try:
            return self.ways[name](words)
        except Untranslatable as reason:
            raise Failure(str(reason)) from None

    def translated(self, name: str, words: List[str]) -> List[Command]:
        return translate(name, words, int(self.clock()), FileQuestions())

    # ---- Changes

    def create(self, words: List[str]) -> str:
        for command in self.translated("create", words):
            try:
                program.ask(command)
            except CommandFailed as failed:
                raise Failure(f"creating '{command[1]}': {with_detail(command[1], failed)}") from None
        return ""

    def update(self, words: List[str]) -> str:
        self.run_updates(self.translated("update", words))
        return ""

    def run_updates(self, commands: List[Command]) -> None:
        for command in commands:
            now = int(self.clock())
            try:
                program.ask(command)
            except CommandFailed as failed:
                raise Failure(explain_update(command, failed, now)) from None

    def update_with_rows(self, words: List[str]) -> str:
        """Updates, and returns the rows that the update finished."""
        commands = self.translated("update", words)
        if not commands:
            return update_text([])
        file = commands[0][1]
        before = FileQuestions().last(file)
        self.run_updates(commands)
        settings = program.settings(file)
        times = [int(sample.split(":")[0]) for command in commands for sample in command[2:]
                 if re.fullmatch(r"\d+:.*", sample)]
        cells, passed = [], before
        for moment in sorted({*times, settings.last}):
            if passed < moment <= settings.last:
                cells += self.new_cells(file, settings, passed, moment)
                passed = moment
        return update_text(cells)

    @staticmethod
    def new_cells(file: str, settings: Settings, before: int, after: int) -> List[NewCell]:
        """Returns the cells of all rows that end after `before` and not after `after`, archive by archive."""
        cells = []
        for number, archive in enumerate(settings.archives):
            seconds = settings.resolution(number)
            newest = after - after % seconds
            oldest = max(before - before % seconds, newest - archive.rows * seconds, settings.start(number), 0)
            if oldest >= newest:
                continue
            rows = rows_of(file, settings, number, oldest, newest - 1)
            for at, row in enumerate(rows.cells, 1):
                cells += [NewCell(rows.start + at * seconds, archive.function, archive.steps, name, cell)
                          for name, cell in zip(rows.names, row)]
        return cells

    def tune(self, words: List[str]) -> str:
        """Tunes. Leaves out options that change nothing, so that they use no journal entry."""
        for command in self.translated("tune", words):
            file, *others = command[1:]
            with explaining(file):
                if others[0].startswith("-"):
                    settings, pairs = program.settings(file), zip(others[::2], others[1::2])
                    others = [word for pair in pairs if needed(settings, *pair) for word in pair]
                if others:
                    program.ask(["tune", file, *others])
        return ""

    def resize(self, words: List[str]) -> str:
        """Leaves the file as it is, and writes the resized database to resize.rrd in this directory."""
        name, file, *others = self.translated("resize", words)[0]
        try:
            resize_copy(file, lambda copy: program.ask([name, copy, *others]))
        except OSError as error:
            raise Failure(f"opening '{error.filename}': {error.strerror}") from None
        except CommandFailed as failed:
            reason = with_detail(file, failed)
            raise Failure(f"{RESIZED}: {reason}" if failed.system_error else explain(file, reason)) from None
        return ""

    # ---- Reading

    def one_file(self, name: str, words: List[str]) -> Tuple[str, List[Tuple[str, str]]]:
        """Returns the file that a command reads, and the options."""
        options, others = read_options(name, words)
        if len(others) != 1:
            raise Failure(f"Usage: rrdtool {name} <file>")
        return others[0], options

    def fetched(self, words: List[str]) -> Rows:
        options, others = read_options("fetch", words)
        if len(others) != 2:
            raise Failure("Usage: rrdtool fetch <file> <CF> [options]")
        file, function = others
        if function not in FUNCTIONS:
            raise Failure(f"unknown consolidation function '{function}'")
        given = dict(options)
        start, end = span(
            given.get("--start", "end-1day"), given.get("--end", "now"), int(self.clock()))
        resolution = int(read_length(given.get("--resolution", "1"), "resolution")) or 1
        if "--align-start" in given:
            start, end = start - start % resolution, end - start % resolution
        with explaining(file):
            return fetch(file, function, start, end, resolution)

    def fetch(self, words: List[str]) -> str:
        return fetch_text(self.fetched(words))

    def rows(self, words: List[str]) -> str:
        """Fetches rows for perl/RRDs.pm: the output begins with the time before the first row and the seconds between rows."""
        rows = self.fetched(words)
        return f"{rows.start} {rows.step}\n" + fetch_text(rows)

    def first(self, words: List[str]) -> str:
        command = self.translated("first", words)[0]
        return self.ask(command[1], command)

    def last(self, words: List[str]) -> str:
        file, _ = self.one_file("last", words)
        return self.ask(file, ["last", file])

    def ask(self, file: str, words: List[str]) -> str:
        with explaining(file):
            return program.ask(words)

    def settings(self, file: str) -> Settings:
        with explaining(file):
            return program.settings(file)

    def last_update(self, words: List[str]) -> str:
        file, _ = self.one_file("lastupdate", words)
        return last_update_text(self.settings(file))

    def info(self, words: List[str]) -> str:
        file, _ = self.one_file("info", words)
        from ..unfinished import read_unfinished
        return info_text(file, self.settings(file), read_unfinished(file))

    def times(self, words: List[str]) -> str:
        """Returns a start and an end in seconds since 1970, as RRDs::times does."""
        if len(words) != 2:
            raise Failure("Usage: times <start> <end>")
        first, second = words
        return "{} {}\n".format(*span(first, second, int(self.clock())))


def commands_for(name: str, words: List[str]) -> List[Command]:
    """Returns the commands of rrdi for a command of RRDtool.

    # Errors
    `Failure` if rrdi does not have the command or a feature in the arguments.
    """
    try:
        return Commands().translated(name, words)
    except Untranslatable as reason:
        raise Failure(str(reason)) from None


