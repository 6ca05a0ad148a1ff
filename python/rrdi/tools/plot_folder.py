# SPDX-License-Identifier: MIT OR Apache-2.0
"""Draws all databases below a directory as pages for a browser."""
from __future__ import annotations

import errno
import os
import time
from functools import partial
from typing import Dict, List, NamedTuple, Optional, Set

from ..choice import chosen
from ..kinds import RRDTOOL_MARK, first_bytes
from ..locks import open_regular
from ..making import NewFile, is_there, remove_left_over
from ..printed import Settings
from . import program
from .children import ChildAnswer, answers
from .command_line import Failure, Progress, error_text, say
from .import_many import NEW_END, RRDTOOL_END
from .many_files import OldFile, counted, found_below
from .plotting.asked import PlotOptions
from .plotting.columns import NothingToDraw
from .plotting.composing import pictures_of, span
from .plotting.gnuplot import Picture
from .plotting.pages import BEGIN, INDEX, PAGE_END, NotDrawn, Section, age_text, card, file_page, index_page
from .spans import DAY, time_text, zone_of

LENGTHS = {"Day": DAY, "Week": 7 * DAY, "Month": 31 * DAY, "Year": 366 * DAY}
CARD = {"width": "460", "height": "200"}  # of a picture on the page of all files


class PagesAsked(NamedTuple):
    """What was asked of the pages: the directory, where they go, and the options of their pictures."""

    tree: str
    into: str
    function: Optional[str]
    values: Dict[str, str]
    flags: Set[str]
    jobs: int

    def of_file(self, path: str, others: Dict[str, str]) -> PlotOptions:
        """Returns the options of a picture of a file."""
        return PlotOptions(path, "", self.function, {**self.values, **others}, self.flags)


def pictures(options: PlotOptions, settings: Settings) -> List[Picture]:
    """Returns the pictures of a length of time, or none."""
    try:
        return pictures_of(options, settings)
    except NothingToDraw:
        return []


def section(asked: PagesAsked, path: str, settings: Settings, name: str, until: int, size: Dict[str, str]) -> Section:
    """Draws a length of time of a file. Its settings are read once for all lengths: a file is read whole each time."""
    begin = max(until - LENGTHS[name], 0)
    times = {"start": str(begin), "end": str(until)}
    return Section(name, begin, until, pictures(asked.of_file(path, {**times, **size}), settings))


def check_page(path: str) -> None:
    """Checks that a file is a page, so that another one may take its place.

    # Errors
    `OSError` if it is not, or cannot be read.
    """
    with open_regular(path) as file:
        if file.read(len(BEGIN)) != BEGIN.encode():
            raise FileExistsError(errno.EEXIST, "rrdi-plot has not made this file, which stays as it is", path)


def write_page(path: str, text: str) -> None:
    """Writes a page, which gets its name when it is complete, in place of an older page and of no other file.

    # Errors
    `OSError` if there is another file, or the system refuses the page.
    """
    with NewFile(path, makes_folder=True) as made:
        try:
            with open(made.unfinished, "w", encoding="utf-8") as written:
                written.write(text)
        except OSError as error:
            raise OSError(error.errno, error.strerror, path) from None
        if not made.appear():
            check_page(made.path)
            made.replace()


def draw_file(asked: PagesAsked, file: OldFile) -> str:
    """Writes the page of a file, and returns what the page of all files shows of it."""
    settings = program.settings(file.path)
    _, until = span(settings, asked.of_file(file.path, {}))
    seen = until if "end" in asked.values else int(time.time())
    age = age_text(f"{time_text(settings.last)} {zone_of(settings.last)}", seen - settings.last >= DAY)
    sections = [section(asked, file.path, settings, name, until, {}) for name in LENGTHS]
    page = file_page(file.name, age, sections, asked.values.get("unit", ""))
    write_page(os.path.join(asked.into, file.name + PAGE_END), page)
    return card(file.name, age, section(asked, file.path, settings, "Day", until, CARD))


def drawn_or_reason(asked: PagesAsked, file: OldFile) -> ChildAnswer:
    """Draws a file, and returns what the page of all files shows of it, or why it was not drawn."""
    try:
        return ChildAnswer(True, draw_file(asked, file))
    except program.CommandFailed as failed:
        reason = failed.of_file(file.path)[len(file.path) + 2:]
        return ChildAnswer(False, f"{reason}: {failed.detail}" if failed.detail else reason)
    except OSError as error:
        return ChildAnswer(False, error_text(error))
    except MemoryError:
        return ChildAnswer(False, "out of memory")
    except Failure as failure:
        return ChildAnswer(False, str(failure))


def draw_folder(asked: PagesAsked, tool: str) -> int:
    """Writes the pages of all databases below a directory. Returns the status.

    # Errors
    - `Failure` if there is none.
    - `OSError` if the directory can't be read, or the page of all files can't be written.
    """
    index = os.path.join(asked.into, INDEX)
    if is_there(index):
        check_page(index)
    found = list(found_below(asked.tree, (NEW_END, RRDTOOL_END)))
    files = [file for file in found if file.path.endswith(NEW_END) or first_bytes(file.path) != RRDTOOL_MARK]
    if not files:
        raise Failure(f"{asked.tree}: there is no database below it")
    names = (INDEX, *(file.name for file in files))
    for folder in dict.fromkeys(os.path.dirname(os.path.join(asked.into, name)) for name in names):
        remove_left_over(folder)  # a run that was killed has left it
    chosen()  # here, because otherwise each process would load it
    progress, cards, refused = Progress("drawing"), [], []
    for number, (file, answer) in enumerate(answers(files, partial(drawn_or_reason, asked), asked.jobs), 1):
        if answer.is_done:
            cards.append(answer.text)
        else:
            progress.end()
            refused.append(NotDrawn(file.name, answer.text))
            say(tool, f"{file.path}: not drawn: {answer.text}")
        progress.show(number, len(files))
    progress.end()
    title = asked.values.get("title", os.path.basename(os.path.abspath(asked.tree)))
    write_page(index, index_page(title, cards, refused))
    passed_over = len(found) - len(files)
    print(f"{counted(len(cards), 'file')} drawn" + (f"; {len(refused)} not drawn" if refused else "")
          + (f"; {passed_over} of RRDtool passed over" if passed_over else ""))
    return 1 if refused else 0
