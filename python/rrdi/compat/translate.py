# SPDX-License-Identifier: MIT OR Apache-2.0
"""Commands in RRDtool's syntax, as commands of rrdi."""
from __future__ import annotations

import os
import re
from typing import Callable, Dict, List, Optional, Protocol, Tuple

from ..limits import FUNCTIONS
from ..printed import Settings
from .syntax import OPTIONS, GivenOptions, Untranslatable, read_length, read_number, read_options
from .at_style import Moment, span

# A command's name, FILE, and its other words.
Command = List[str]


class Questions(Protocol):
    """The facts about a file that the translation of some words needs."""

    def last(self, file: str) -> int:
        """Returns the time of the last sample. Without a database, this ends the translation."""

    def settings(self, file: str) -> Optional[Settings]:
        """Returns the settings; None if there is no database, which rrdi reports later."""


def translate(command: str, words: List[str], now: int, questions: Questions) -> List[Command]:
    """Returns the commands of rrdi for a command of RRDtool. `resize` is for the file that is resized.

    # Errors
    `Untranslatable` if rrdi does not have the feature, or a word cannot be read.
    """
    if command not in OPTIONS:
        raise Untranslatable("pipe mode is not supported; use rrdi batch FILE" if command == "-" else
                             f"rrdi has no command {command}")
    options, others = read_options(command, words)
    if not others:
        raise Untranslatable(f"{command} needs a FILE")
    if others[0].startswith("-"):
        others[0] = "./" + others[0]
    return Translation(now, questions).translate(command, options, others)


class Translation:
    """One translation, at one time."""

    def __init__(self, now: int, questions: Questions):
        self.now, self.questions = now, questions

    def translate(self, command: str, options: GivenOptions, words: List[str]) -> List[Command]:
        ways: Dict[str, Callable[[GivenOptions, List[str]], List[Command]]] = {
            "create": self.create, "update": self.update, "fetch": self.fetch, "tune": self.tune}
        if command in ways:
            return ways[command](options, words)
        file, *others = words
        told = [word for name, value in options if name == "--rraindex" for word in (name, value)]
        return [[command, file, *told, *others]]

    def seconds(self, text: str) -> int:
        return Moment(text, self.now).seconds()

    # ---- create

    def create(self, options: GivenOptions, words: List[str]) -> List[Command]:
        file, *definitions = words
        step, told = 300, []
        for name, value in options:
            if name == "--step":
                step = int(read_length(value, "step"))
                told += ["--step", str(step)]
            elif name == "--start":
                told += ["--start", str(self.seconds(value))]
            elif os.path.lexists(file):
                raise Untranslatable(f"{file} already exists")
        return [["create", file, *told, *(self.definition(word, step) for word in definitions)]]

    def definition(self, definition: str, step: int) -> str:
        parts = definition.split(":")
        if parts[0] == "DS" and len(parts) > 2:
            if parts[2] in ("COMPUTE", "DCOUNTER", "DDERIVE"):
                raise Untranslatable(f"rrdi has no type {parts[2]}: {definition}")
            if "=" in parts[1]:
                raise Untranslatable(f"a source cannot be filled from another file: {definition}")
            if len(parts) == 6:
                parts[3:] = [read_length(parts[3], "heartbeat"), read_number(parts[4]), read_number(parts[5])]
        elif parts[0] == "RRA" and len(parts) > 1:
            parts = archive(definition, parts, step)
        return ":".join(parts)

    # ---- update

    def update(self, options: GivenOptions, words: List[str]) -> List[Command]:
        file, *samples = words
        told: List[str] = []
        last: Optional[int] = None
        for name, value in options:
            if name == "--template":
                told += ["--template", value]
            else:
                last = self.questions.last(file)
        taken = []
        for sample in samples:
            moment, values = self.time_and_values(sample, last is not None)
            if last is not None and re.fullmatch("[0-9]{1,20}", moment):  # rrdi refuses any other
                if int(moment) <= last:
                    continue
                last = int(moment)
            taken.append(":".join([moment, *map(read_number, values.split(":"))]))
        return [["update", file, *told, *taken]] if taken or last is None else []

    def time_and_values(self, sample: str, is_skipping: bool) -> Tuple[str, str]:
        """Returns the time of a sample, in seconds since 1970 or unchanged, and the sample's values."""
        if "@" in sample:
            moment, _, values = sample.partition("@")
            return str(self.seconds(moment)), values
        moment, _, values = sample.partition(":")
        if re.fullmatch(r"-?[0-9]{1,12}(\.[0-9]*)?", moment):
            # A time below 0 is relative to now. A fraction of a second is dropped.
            number = int(moment.split(".")[0]) if "." in moment else int(moment)
            return str(number if number >= 0 else max(self.now + number, 0)), values
        return (str(self.now) if moment == "N" and is_skipping else moment), values

    # ---- fetch

    def fetch(self, options: GivenOptions, words: List[str]) -> List[Command]:
        given = dict(options)
        told = []
        if "--resolution" in given:
            told += ["--resolution", read_length(given["--resolution"], "resolution")]
        if any(name in given for name in ("--start", "--end", "--align-start")):
            begin, until = span(given.get("--start", "end-1d"), given.get("--end", "now"), self.now)
            if "--align-start" in given:
                before = begin % int(told[1] if told and told[1] != "0" else 1)
                begin, until = begin - before, until - before
            told += ["--start", str(begin), "--end", str(until)]
        file, *function = words
        return [["fetch", file, *function, *told]]

    # ---- tune

    def tune(self, options: GivenOptions, words: List[str]) -> List[Command]:
        file, *others = words
        if not options and not others:
            raise Untranslatable("tune needs an option or an archive")
        archives = [command for command in (self.tuned_archive(file, word) for word in others) if command]
        tunes: List[Dict[str, str]] = []
        for name, value in options:
            # A name after a rename is the new name, and rrdi takes an option once.
            if not tunes or name in tunes[-1] or "--data-source-rename" in tunes[-1]:
                tunes.append({})
            tunes[-1][name] = setting(name, value)
        return [["tune", file, *(word for pair in tune.items() for word in pair)] for tune in tunes] + archives

    def tuned_archive(self, file: str, word: str) -> Optional[Command]:
        """Returns the command that adds, removes or resizes an archive. rrdi takes one archive per command."""
        parts = word.split(":")
        if word.startswith("RRA#"):
            return self.resized_archive(file, word)
        if parts[0] == "RRA" and len(parts) > 1:
            word = ":".join(archive(word, parts, self.step_of(file)))
        elif parts[0] != "DELRRA":
            raise Untranslatable(f"tune cannot add or remove data sources: {word}")
        return ["tune", file, word]

    def resized_archive(self, file: str, word: str) -> Optional[Command]:
        """Returns the command for rows that are added, removed or set: RRA#0:+10 becomes `resize FILE 0 GROW 10`."""
        found = re.fullmatch("RRA#([0-9]{1,3}):([-+=]?)([0-9]{1,7})", word)
        if not found:
            raise Untranslatable(f"cannot parse the number of rows: {word}")
        number, sign, rows = found[1], found[2], int(found[3])
        if sign in ("", "="):
            before = self.rows_of(file, number)
            # If there is no such archive, rrdi reports the error.
            rows -= before or 0
            if before and rows == 0:
                return None
        else:
            rows *= -1 if sign == "-" else 1
        return ["resize", file, number, "SHRINK" if rows < 0 else "GROW", str(abs(rows))]

    def step_of(self, file: str) -> int:
        """Returns the step of a file. If there is no database, rrdi reports the reason later."""
        settings = self.questions.settings(file)
        return settings.step if settings else 1

    def rows_of(self, file: str, number: str) -> Optional[int]:
        """Returns the number of rows of an archive of a file; None if rrdi reports no such archive."""
        settings = self.questions.settings(file)
        rows = {str(at): archive.rows for at, archive in enumerate(settings.archives)} if settings else {}
        return rows.get(number)


def archive(definition: str, parts: List[str], step: int) -> List[str]:
    """Returns an archive's definition in parts, with its lengths in steps and rows."""
    if parts[1] not in FUNCTIONS:
        raise Untranslatable(f"rrdi has no function {parts[1]}: {definition}")
    if len(parts) != 5:
        return parts
    steps = read_length(parts[3], "steps", step)
    return [*parts[:2], read_number(parts[2]), steps, read_length(parts[4], "rows", step * int(steps))]


def setting(name: str, value: str) -> str:
    """Returns the value that an option of tune sets for a source."""
    source, colon, told = value.partition(":")
    if name == "--heartbeat":
        told = read_length(told, "heartbeat")
    elif name in ("--minimum", "--maximum"):
        told = read_number(told)
    elif name == "--data-source-type" and told in ("COMPUTE", "DCOUNTER", "DDERIVE"):
        raise Untranslatable(f"rrdi has no type {told}")
    return source + colon + told
