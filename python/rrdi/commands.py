# SPDX-License-Identifier: MIT OR Apache-2.0
"""One command, or a batch of lines, on the file at a path.

Like the program, each function opens and locks the file, reads the file once, writes a changed file once, and closes the
file. All functions take these keywords:

- `now`: the present time; by default the clock's time.
- `busy_timeout`: the seconds to wait if another program holds the file's lock. The default is the variable RRDI_WAIT,
  or 5.

Functions that change a file also take `sync`: True flushes the change to the disk. The default is True if the variable
RRDI_SYNC is 1.

A time is in seconds since 1970 or a datetime with a zone, and a span is in seconds or a timedelta.

# Errors
A failed function raises a subclass of `Error` in `rrdi.errors`, and leaves the database as it was, except perhaps after
`CannotWrite`. Without the C library it is `NoLibrary`.
"""
from __future__ import annotations

import datetime
import os
from typing import TYPE_CHECKING, Callable, Iterable, List, NamedTuple, Optional, Tuple, Type, TypeVar, Union, overload

from .environment import is_synced, milliseconds
from .errors import (CANNOT_OPEN, CANNOT_WRITE, EXPLAINED, NOT_OURS, OK, USAGE, Busy, Different, Error, Exists, Usage,
                     details_in, error_of, reason_of, reasons_in)
from .escaping import escaped
from .fetching import fetched
from .library import DONE, Answer, the_library
from .locks import is_open_here
from .results import LastUpdate, Table, Value, info_of, last_update
from .samples import Sample, sample_words
from .times import Span, Time, moment, span_word, time_word
from .words import FilePath, Words, as_bytes, encoded, encoded_path, flat, options

if TYPE_CHECKING:
    from .described import Info

Filled = TypeVar("Filled")
Lines = Union[str, Iterable[str]]
# The commands that only read the file.
READING = frozenset({"fetch", "first", "last", "lastupdate", "info"})


class RefusedLine(NamedTuple):
    """A refused line of a batch: its number (the first line is 1), the line, the reason, and what was wrong, if that is
    known."""

    number: int
    line: str
    reason: str
    detail: str = ""


class Batch(NamedTuple):
    """The output of a batch's lines, with `ERROR: ..` for each refused line, and the refused lines."""

    output: str
    refused: Tuple[RefusedLine, ...]


def failed(answer: Answer, path: FilePath) -> Error:
    """Returns the exception for the fault of an answer."""
    reason = reason_of(answer.fault, answer.output)
    error = error_of(answer.fault, reason, os.fsdecode(path), answer.at, answer.system_error)
    if isinstance(error, Busy):
        error.detail = "this program has it open by rrdi.Database" if is_open_here(encoded_path(path)) else ""
    elif answer.fault in EXPLAINED or answer.fault == NOT_OURS:
        error.detail = answer.explanation.decode(errors="replace")
    elif answer.fault in (CANNOT_OPEN, CANNOT_WRITE):
        error.detail = more_than_the_system(answer, path)
    return error


def more_than_the_system(answer: Answer, path: FilePath) -> str:
    """Returns the reason why a file cannot be opened or written, such as that it is no regular file, if it says more than the
    text of the system's number."""
    name, told = f"{escaped(os.fsdecode(path))}: ", answer.explanation.decode(errors="replace")
    reason = told[len(name):] if told.startswith(name) else ""
    return "" if reason.lower().startswith(os.strerror(answer.system_error).lower()) else reason


def run_on(path: FilePath, words: List[str], now: Optional[Time] = None, busy_timeout: Optional[float] = None,
           sync: Optional[bool] = None) -> str:
    """Runs one command on the file at `path`, and returns its output."""
    name, wait = encoded_path(path), milliseconds(busy_timeout)
    if words[0] not in READING:
        wait = wait_to_change(name, wait)
    answer = the_library().run_file(name, encoded(words), moment(now), wait, is_synced(sync))
    if answer.fault != OK:
        raise failed(answer, path)
    return answer.output.decode()


def wait_to_change(path: bytes, wait: int) -> int:
    """Returns for how many milliseconds a change of a file waits for its lock: not at all if this program has the file open
    by `Database`, since it would wait for itself."""
    return 0 if is_open_here(path) else wait


# ---- Changes

def create(path: FilePath, *definitions: Words, step: Optional[Span] = None, start: Optional[Time] = None,
           journal: Optional[int] = None, overwrite: bool = False, exist_ok: bool = False, now: Optional[Time] = None,
           busy_timeout: Optional[float] = None, sync: Optional[bool] = None) -> None:
    """Creates a database with data sources (`DS:..`) and archives (`RRA:..`), whole or not at all.

    `overwrite` replaces a file that is at `path`, whatever it contains; `revert` does not bring it back. `exist_ok`
    keeps a database that is at `path`, if it has this definition: `start` does not count, and `journal` if it is given.

    # Errors
    - `Exists`, a `FileExistsError`, if there is a file, and neither is True.
    - `Different`, an `Exists`, if `exist_ok` is True, and the file has another definition.
    """
    words = creation(definitions, step, start, journal, overwrite, exist_ok)
    made(path, words, overwrite, exist_ok, now, busy_timeout, sync)


def made(path: FilePath, words: List[str], overwrite: bool, exist_ok: bool, now: Optional[Time],
         busy_timeout: Optional[float], sync: Optional[bool]) -> None:
    """Runs the words of a creation: makes the file, replaces it, or keeps it."""
    if overwrite:
        run_on(path, words, now, busy_timeout, sync)
    elif make_at(path, lambda new: run_on(new, words, now, busy_timeout, sync), sync) is None:
        if not exist_ok:
            raise Exists(os.fsdecode(path))
        check_same(path, words, now, busy_timeout)


def check_same(path: FilePath, words: List[str], now: Optional[Time], busy_timeout: Optional[float]) -> None:
    """Compares the database in a file with one that the words of a creation would make.

    # Errors
    `Different` if their definitions differ, or that of `info` or `create`.
    """
    from .differences import difference  # here, since most calls find no file
    found = run_on(path, ["info"], now, busy_timeout, None)
    made_now = the_library().run(None, encoded(words), moment(now))
    if made_now.fault != OK:
        raise failed(made_now, path)
    wanted = the_library().run(made_now.data, b"info", moment(now)).output.decode()
    why = difference(found, wanted, any(word.startswith("--journal") for word in words))
    if why:
        raise Different(os.fsdecode(path), why)


def creation(definitions: Iterable[Words], step: Optional[Span], start: Optional[Time], journal: Optional[int],
             overwrite: bool, exist_ok: bool) -> List[str]:
    """Returns the words that create a database.

    # Errors
    `ValueError` if a file is both to be replaced and to be kept.
    """
    if overwrite and exist_ok:
        raise ValueError("overwrite=True replaces a file, exist_ok=True keeps it: give one of them")
    return ["create", *options(step=span_word(step), start=time_word(start), journal=journal), *flat(definitions)]


def make_at(path: FilePath, fill: Callable[[str], Filled], sync: Optional[bool]) -> Optional[Filled]:
    """Calls `fill` with another path, gives the whole file its name `path`, and returns what `fill` returned.

    Returns None if there is a file at `path`, which stays as it is. `fill` may leave the file empty: then there is none.
    """
    if os.path.exists(encoded_path(path)):
        return None
    from .making import make  # here, since most calls make no file
    the_library()  # that there is none is no fault of the file
    try:
        return make(path, fill, syncs=is_synced(sync))
    except Error:  # of which some are an OSError
        raise
    except OSError as error:
        raise error_of(CANNOT_WRITE, "cannot write", os.fsdecode(path), 0, error.errno or 0) from None


def update(path: FilePath, *samples: Sample, template: Optional[str] = None, now: Optional[Time] = None,
           busy_timeout: Optional[float] = None, sync: Optional[bool] = None) -> None:
    """Adds samples, all or none: texts `TIME:VALUE..`, or iterables of a time and values, or iterables of these.

    After the time there are the values, or one iterable of them, or a mapping of names of sources to values; a source that
    no sample names is unknown. The time is a time or `"N"`. A value is a number, which is rounded to six decimals (half to
    even): an int, a float, a Decimal, a Fraction, or one of numpy or pandas. None, nan and pandas' NA are unknown, and a
    text is sent as it is.

    # Errors
    `BadSample`, a `ValueError`, if no database can take a time or a value of a tuple. Then nothing is sent.
    """
    fast = the_library().update_file
    if fast is not None and template is None:
        name = encoded_path(path)
        answer = fast(name, samples, moment(now), wait_to_change(name, milliseconds(busy_timeout)), is_synced(sync))
        if answer is DONE:
            return
        if answer is not None:
            raise failed(answer, path)
    words = ["update", *sample_words(samples, path, template=template)]
    run_on(path, words, now, busy_timeout, sync)


def tune(path: FilePath, *words: Words, now: Optional[Time] = None, busy_timeout: Optional[float] = None,
         sync: Optional[bool] = None) -> None:
    """Changes the settings of data sources, or adds or removes an archive."""
    run_on(path, ["tune", *flat(words)], now, busy_timeout, sync)


def resize(path: FilePath, *words: Words, now: Optional[Time] = None, busy_timeout: Optional[float] = None,
           sync: Optional[bool] = None) -> None:
    """Changes the number of rows of an archive in the file at `path`: adds (GROW) or removes (SHRINK) `rows` rows."""
    run_on(path, ["resize", *flat(words)], now, busy_timeout, sync)


def revert(path: FilePath, *, now: Optional[Time] = None, busy_timeout: Optional[float] = None,
           sync: Optional[bool] = None) -> None:
    """Undoes the newest change."""
    run_on(path, ["revert"], now, busy_timeout, sync)


# ---- Questions

def first(path: FilePath, *words: Words, rraindex: Optional[int] = None, now: Optional[Time] = None,
          busy_timeout: Optional[float] = None) -> int:
    """Returns the time of the oldest row of an archive, in seconds since 1970."""
    return int(run_on(path, ["first", *options(rraindex=rraindex), *flat(words)], now, busy_timeout, None))


def last(path: FilePath, *, now: Optional[Time] = None, busy_timeout: Optional[float] = None) -> int:
    """Returns the time of the last sample, or the start, in seconds since 1970."""
    return int(run_on(path, ["last"], now, busy_timeout, None))


@overload
def info(path: FilePath, *, now: Optional[Time] = ..., busy_timeout: Optional[float] = ...) -> Info[float]: ...


@overload
def info(path: FilePath, *, values: Type[Value], now: Optional[Time] = ...,
         busy_timeout: Optional[float] = ...) -> Info[Value]: ...


def info(path: FilePath, *, values: type = float, now: Optional[Time] = None,
         busy_timeout: Optional[float] = None) -> object:
    """Returns the settings, with those of each source by its name, and of each archive.

    `values` is the type of the bounds, of the last raw values and of xff, as in `fetch`.
    """
    return info_of(run_on(path, ["info"], now, busy_timeout, None), os.fsdecode(path), values)


@overload
def lastupdate(path: FilePath, *, tz: Optional[datetime.tzinfo] = ..., now: Optional[Time] = ...,
               busy_timeout: Optional[float] = ...) -> LastUpdate[float]: ...


@overload
def lastupdate(path: FilePath, *, values: Type[Value], tz: Optional[datetime.tzinfo] = ..., now: Optional[Time] = ...,
               busy_timeout: Optional[float] = ...) -> LastUpdate[Value]: ...


def lastupdate(path: FilePath, *, values: type = float, tz: Optional[datetime.tzinfo] = None,
               now: Optional[Time] = None, busy_timeout: Optional[float] = None) -> object:
    """Returns the `date` of the last sample, and its raw `values` by name; an unknown value is None.

    The type `values` is as in `fetch`. The date is in the zone `tz`; without one it is a local time without a zone, as in
    Python's module `rrdtool`.
    """
    return last_update(run_on(path, ["lastupdate"], now, busy_timeout, None), values, tz)


@overload
def fetch(path: FilePath, function: Words, *words: Words, resolution: Optional[Span] = ..., start: Optional[Time] = ...,
          end: Optional[Time] = ..., now: Optional[Time] = ...,
          busy_timeout: Optional[float] = ...) -> Table[float]: ...


@overload
def fetch(path: FilePath, function: Words, *words: Words, values: Type[Value], resolution: Optional[Span] = ...,
          start: Optional[Time] = ..., end: Optional[Time] = ..., now: Optional[Time] = ...,
          busy_timeout: Optional[float] = ...) -> Table[Value]: ...


def fetch(path: FilePath, function: Words, *words: Words, values: type = float, resolution: Optional[Span] = None,
          start: Optional[Time] = None, end: Optional[Time] = None, now: Optional[Time] = None,
          busy_timeout: Optional[float] = None) -> object:
    """Returns rows of one archive: a tuple `((start, end, step), names, rows)` that has these as attributes too.

    Each of the `rows` is a tuple of values, of which an unknown one is None. `records()` yields the rows with their times,
    and values by name; `columns()` returns lists of floats for numpy and pandas. `values` is the type of the values:
    `float`, which rounds, or `decimal.Decimal`, which is exact.
    """
    time = moment(now)
    asked = fetch_words(function, words, resolution, start, end)
    return fetched(lambda line: run_on(path, line, time, busy_timeout, None), asked, time, values)


def fetch_words(function: Words, words: Iterable[Words], resolution: Optional[Span], start: Optional[Time],
                end: Optional[Time]) -> List[str]:
    """Returns the words of a fetch, without its name."""
    named = options(resolution=span_word(resolution), start=time_word(start), end=time_word(end))
    return [*named, *flat([function, *words])]


# ---- Lines

def lines_of(lines: Lines) -> List[str]:
    """Returns the lines without their ends.

    # Errors
    `Usage` if one of several lines has a newline inside, which would change the numbers of the later lines.
    """
    if isinstance(lines, str):
        return lines.split("\n")
    found = [line[:-1] if str.endswith(line, "\n") else line for line in lines]
    if any("\n" in line for line in found):
        raise Usage("usage", None, USAGE, detail="a line has a line feed inside")
    return found


def text_of_lines(lines: List[str]) -> bytes:
    """Returns lines as a batch reads them."""
    return as_bytes("\n".join(lines))


def batch_on_new(path: str, lines: Lines, now: Optional[Time] = None, sync: Optional[bool] = None) -> Batch:
    """Runs lines as `batch` does where there is no file, and puts the database into an empty file that is being made. They
    run in memory: a batch takes an empty file for a damaged one."""
    given = lines_of(lines)
    answer = the_library().batch(None, text_of_lines(given), moment(now))
    found = batch_of(given, answer, path)
    if answer.data is not None:
        with open(path, "wb") as file:
            file.write(answer.data)
            if is_synced(sync):
                file.flush()
                os.fsync(file.fileno())
    return found


def batch_of(lines: List[str], answer: Answer, path: FilePath) -> Batch:
    """Returns the batch of an answer.

    # Errors
    The `Error` of a fault.
    """
    if answer.fault != OK:
        raise failed(answer, path)
    return Batch(answer.output.decode(), refused_lines(lines, answer))


def refused_lines(lines: List[str], answer: Answer) -> Tuple[RefusedLine, ...]:
    """Returns the refused lines of a batch, each of which printed its reason."""
    if not answer.refused:
        return ()
    reasons, details = reasons_in(answer.output.decode(errors="replace")), details_in(answer.explanation)
    return tuple(RefusedLine(number, lines[number - 1], reason, details.get(number, ""))
                 for number, reason in zip(answer.refused, reasons))


def batch(path: FilePath, lines: Lines, *, now: Optional[Time] = None,
          busy_timeout: Optional[float] = None, sync: Optional[bool] = None) -> Batch:
    """Runs lines as `rrdi batch FILE` does: locks the file, reads the file once, and writes the file once.

    A refused line changes nothing, and the batch goes on with the next line. `refused` has the refused lines.
    """
    given = lines_of(lines)
    name = encoded_path(path)
    wait = wait_to_change(name, milliseconds(busy_timeout))
    answer = the_library().batch_file(name, text_of_lines(given), moment(now), wait, is_synced(sync))
    return batch_of(given, answer, path)
