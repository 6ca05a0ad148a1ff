# SPDX-License-Identifier: MIT OR Apache-2.0
"""Shows what is in a database, without the program or the C library.

usage: rrdi-show FILE
       rrdi-show FILE FUNCTION [-s START] [-e END] [-r SECONDS]
       rrdi-show --csv|--json|--openmetrics FILE [FUNCTION ..]
       rrdi-show --journal [--json] FILE

examples:
  rrdi-show load.rrdi
  rrdi-show load.rrdi AVERAGE -s -2h
  rrdi-show load.rrdi MAX -s 'yesterday 08:00' -e 'yesterday 18:00' --csv
  rrdi-show --journal load.rrdi

The first form shows the data sources and the archives; the second rows of the
archive that `rrdi fetch` of these times reads, in your zone. The third form is
for programs, and for FILE alone it prints all archives. --journal shows what
the next reverts would take back.

options, anywhere on the line:
  -s, --start START    show rows after START (default: a day before END)
  -e, --end END        show rows begun before END (default: last update); times
                       are 2026-11-25 14:00, 2026-11-25T14:00Z (UTC),
                       @1700000000, or RRDtool's, such as noon, -2h or -5min
                       (-5m is five months)
  -r, --resolution N   choose the archive whose rows cover about N seconds
  -a, --archive N      choose the archive by its number instead
  --csv                print a line of CSV for each row with a known cell
  --json               print JSON: for FILE alone everything, else rows
  --openmetrics        print OpenMetrics, for Prometheus
  --journal            show the changes that can be reverted, newest first
  -h, --help           show this help and exit
  --version            show the version and exit

RRDI_WAIT sets how many seconds to wait for the file's lock (default: 5). With
just --csv, --json, --openmetrics or --journal, FILE may be - for standard
input. docs/export.md has more.

Exit status: 0; 1 and a line on standard error if FILE cannot be read, is not a
database, or has no such rows; 2 after wrong arguments.
"""
from __future__ import annotations

import io
import sys
from typing import Dict, Iterator, List, NamedTuple, Optional

from ..printed import Archive, Settings
from ..reader.pieces import Parts
from ..reader.printing import WAYS, as_json
from ..reader.selected import Cells, OpenFile, Outline
from .changes import as_parts, journal_of, raw_text, texts
from .command_line import Failure, Tool, WrongArguments
from .options import function_at, given_words, number_of
from .reading import read_file, reporting
from .rows import choose
from .spans import length_text, span_of, time_text, zone_of

WITH_VALUE = {"-s": "start", "--start": "start", "-e": "end", "--end": "end", "-r": "resolution", "--resolution": "resolution",
              "-a": "archive", "--archive": "archive"}
JOURNAL = "--journal"
FLAGS = {"--csv": "csv", "--json": "json", "--openmetrics": "openmetrics"}


class ShowOptions(NamedTuple):
    file: str
    function: Optional[str]
    way: str  # text, csv, json or openmetrics
    is_journal: bool
    values: Dict[str, str]

    @property
    def has_rows(self) -> bool:
        """Whether rows of one archive are wanted."""
        return self.function is not None or bool(self.values)


def read_options(words: List[str]) -> ShowOptions:
    given = given_words(words, WITH_VALUE, [JOURNAL, *FLAGS])
    is_journal = JOURNAL in given.flags
    ways = [FLAGS[flag] for flag in given.flags if flag != JOURNAL]
    if not 1 <= len(given.others) <= 2 or len(ways) > 1:
        raise WrongArguments
    if is_journal and (len(given.others) > 1 or given.values or ways not in ([], ["json"])):
        raise WrongArguments
    return ShowOptions(given.others[0], function_at(given.others, 1), ways[0] if ways else "text", is_journal, given.values)


# ---- Rows of one archive

class ShownRows(NamedTuple):
    """The rows of one archive that rrdi-show prints, by the times at which they end."""

    number: int
    function: str
    steps: int
    step: int
    names: List[str]
    rows: Dict[int, Cells]

    @property
    def seconds(self) -> int:
        return self.step * self.steps

    def as_database(self) -> Parts:
        """Returns the table as a database of which the other archives have no rows."""
        others = {"function": "", "steps": 1, "rows": []}
        mine = {"function": self.function, "steps": self.steps,
                "rows": [{"time": time, "cells": cells} for time, cells in self.rows.items()]}
        return {"step": self.step, "sources": [{"name": name} for name in self.names],
                "archives": [others] * self.number + [mine]}


def archive_number(outline: Outline, options: ShowOptions, begin: int) -> int:
    """Returns the archive that was chosen: by its number, or of the function's archives the one that RRDtool chooses.

    # Errors
    `Failure` if there is none.
    """
    number = number_of(options.values, "archive")
    if number is not None:
        if number >= len(outline.archives):
            raise Failure(f"{options.file}: there is no archive {number}, only 0 to {len(outline.archives) - 1}")
        return number
    function = options.function or outline.archives[0].function
    numbers = [number for number, archive in enumerate(outline.archives) if archive.function == function]
    if not numbers:
        there = ", ".join(dict.fromkeys(archive.function for archive in outline.archives))
        raise Failure(f"{options.file}: no archive has {function}, only {there}")
    settings = Settings(outline.step, outline.last, 0, 0, [], [
        Archive(function, "", outline.archives[number].steps, outline.archives[number].rows) for number in numbers])
    return numbers[choose(settings, function, begin, number_of(options.values, "resolution") or 1)]


def read_table(options: ShowOptions) -> ShownRows:
    """Reads the rows that were asked for."""
    with reporting(options.file), OpenFile(options.file) as file:
        outline = file.outline()
        begin, until = span_of(options.values.get("start"), options.values.get("end"), outline.last)
        number = archive_number(outline, options, begin)
        archive = outline.archives[number]
        rows = file.rows(archive, begin + 1, until + archive.seconds - 1)
    if not rows:
        newest = outline.last - outline.last % archive.seconds
        raise Failure(f"{options.file}: archive {number} has no row from {time_text(begin)} to {time_text(until)}, only from "
                      f"{time_text(max(newest - archive.retention, 0))} to {time_text(newest)}")
    return ShownRows(number, archive.function, archive.steps, outline.step, list(outline.sources), rows)


def table_texts(table: ShownRows) -> Iterator[str]:
    """Yields the table with a line for each row; the columns have as many decimals as their numbers need."""
    columns = [shown_cells([cells[at] for cells in table.rows.values()]) for at in range(len(table.names))]
    widths = [max([len(name), *map(len, column)]) for name, column in zip(table.names, columns)]
    zone = zone_of(*table.rows)
    yield f"{table.function} of {length_text(table.seconds)} (archive {table.number}); a row ends at its time, {zone}"
    yield "  ".join([f"{'time':<19}"] + [f"{name:>{width}}" for name, width in zip(table.names, widths)])
    for at, time in enumerate(table.rows):
        yield "  ".join([time_text(time)] + [f"{column[at]:>{width}}" for column, width in zip(columns, widths)])


def shown_cells(cells: Cells) -> List[str]:
    """Returns the texts of a column, all with the same number of decimals; unknown is a dash."""
    known = [str(cell) for cell in cells if cell is not None]
    needless = min((len(text) - len(text.rstrip("0")) for text in known), default=0)
    cut = needless + 1 if needless >= 6 else needless
    return ["-" if cell is None else str(cell)[:-cut] if cut else str(cell) for cell in cells]


def table_json(table: ShownRows) -> str:
    return as_json({"archive": table.number, "function": table.function, "seconds": table.seconds, "sources": table.names,
                    "rows": [{"time": time, "cells": cells} for time, cells in table.rows.items()]})


def show_rows(options: ShowOptions) -> Iterator[str]:
    table = read_table(options)
    if options.way == "text":
        yield from table_texts(table)
    elif options.way == "json":
        yield table_json(table)
    else:
        yield from WAYS[options.way](table.as_database(), options.file)


# ---- The whole database

def columns(rows: List[List[str]]) -> Iterator[str]:
    """Yields rows of text in columns."""
    widths = [max(len(row[at]) for row in rows) for at in range(len(rows[0]))]
    for row in rows:
        yield "  ".join(f"{text:<{width}}" for text, width in zip(row, widths)).rstrip()


def overview(file: str) -> Iterator[str]:
    """Yields the data sources and the archives."""
    with reporting(file), OpenFile(file) as opened:
        found = opened.settings()
    step, last = found["step"], found["last_time"]
    yield (f"last update {time_text(last)} {zone_of(last)}, step {length_text(step)}, "
           f"{found['entries']} of {found['journal_depth']} changes can be reverted")
    yield ""
    yield from columns([["source", "type", "heartbeat", "min", "max", "last value"]] + [
        [source["name"], source["type"], length_text(source["heartbeat"]), raw_text(source["min"]), raw_text(source["max"]),
         raw_text(source["last_raw"])] for source in found["sources"]])
    yield ""
    yield from columns([["archive", "function", "row", "rows", "from", "to"]] + [
        archive_row(number, archive, step, last) for number, archive in enumerate(found["archives"])])


def archive_row(number: int, archive: Parts, step: int, last: int) -> List[str]:
    seconds = step * archive["steps"]
    newest = last - last % seconds
    return [str(number), archive["function"], length_text(seconds), str(archive["row_count"]),
            time_text(max(newest - seconds * archive["row_count"], 0)), time_text(newest)]


def journal(options: ShowOptions) -> Iterator[str]:
    """Yields the changes that can be reverted."""
    changes, depth = journal_of(read_file(options.file))
    if options.way == "json":
        yield as_json([as_parts(change) for change in changes])
        return
    for change in changes:
        yield from texts(change)
    count = len(changes)
    yield f"{count} of at most {depth} changes can be reverted" + (", from the first line on" if changes else "")


def show(words: List[str]) -> int:
    options = read_options(words)
    if options.is_journal:
        lines = journal(options)
    elif options.has_rows:
        lines = show_rows(options)
    elif options.way == "text":
        lines = overview(options.file)
    else:
        lines = iter(WAYS[options.way](read_file(options.file), options.file))
    if options.way == "openmetrics" and isinstance(sys.stdout, io.TextIOWrapper):
        sys.stdout.reconfigure(encoding="utf-8")  # whatever the locale says
    for line in lines:
        print(line)
    return 0


TOOL = Tool("rrdi-show", "[--csv|--json|--openmetrics] FILE [FUNCTION] [-s START] [-e END] [-r SECONDS] [-a ARCHIVE]\n"
            "       rrdi-show --journal [--json] FILE", __doc__, show)
main = TOOL.main
