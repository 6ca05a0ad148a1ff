# SPDX-License-Identifier: MIT OR Apache-2.0
"""Python's module `rrdtool` for databases of rrdi: its functions, words, results and exceptions.

    from rrdi.compat import rrdtool

    rrdtool.update("load.rrd", "N:0.42")
    span, names, rows = rrdtool.fetch("load.rrd", "AVERAGE", "-s", "end-1h", "-e", "now")

A program that says `import rrdtool` gets this module if the folder `compat` beside the package is first on its path.
The arguments are in RRDtool's own syntax (docs/differences.md). Every error raises `OperationalError`, as in RRDtool's
module. A function that rrdi does not have, such as `graph`, raises `OperationalError` with the function's name.
"""
from __future__ import annotations

import builtins
import time
from contextlib import contextmanager
from typing import Any, Callable, Dict, Iterator, List, NoReturn, Optional, Tuple, Union

from .. import __version__ as __version__
from .. import commands
from ..amounts import shortened
from ..errors import Error, OperationalError, ProgrammingError
from ..escaping import escaped
from ..printed import Settings, settings_of
from ..results import Row, last_update
from .resizing import RESIZED, resize_copy
from .syntax import Untranslatable
from .translate import Command, translate

Words = Union[str, List[str]]
Info = Dict[str, Union[str, int, float, None]]

__all__ = ["OperationalError", "ProgrammingError", "clear_fetch_cb", "create", "dump", "fetch", "first", "flushcached",
           "graph", "graphv", "info", "last", "lastupdate", "lib_version", "list", "register_fetch_cb", "resize",
           "tune", "update", "updatev", "xport"]


class _ByLibrary:
    """Asks the library."""

    def last(self, file: str) -> int:
        return commands.last(file)

    def settings(self, file: str) -> Optional[Settings]:
        try:
            return settings_of(commands.run_on(file, ["info"]))
        except Error:
            return None


def _flat(given: Tuple[object, ...]) -> List[str]:
    """Returns the words. Each argument is a text or a list of texts."""
    words: List[str] = []
    for number, word in enumerate(given):
        if isinstance(word, str):
            words.append(word)
        elif isinstance(word, builtins.list):
            for at, element in enumerate(word):
                if not isinstance(element, str):
                    raise TypeError(f"Element {at} in argument {number} must be str")
                words.append(element)
        else:
            raise TypeError(f"Argument {number} must be str or a list of str")
    return words


def _translated(command: str, words: Tuple[object, ...]) -> List[Command]:
    try:
        return translate(command, _flat(words), int(time.time()), _ByLibrary())
    except Untranslatable as reason:
        raise OperationalError(escaped(str(reason))) from None


@contextmanager
def _as_rrdtool() -> Iterator[None]:
    """Raises errors as RRDtool's module does."""
    try:
        yield
    except ProgrammingError as error:
        raise OperationalError(error.reason, error.path, error.fault, detail=error.detail) from None


def _change(command: str, words: Tuple[object, ...]) -> None:
    with _as_rrdtool():
        for name, file, *others in _translated(command, words):
            commands.run_on(file, [name, *others])


# ---- Functions that rrdi has

def create(*words: Words) -> None:
    """Creates a database: FILE [-s STEP] [-b START] [-O] DS:.. RRA:.."""
    _change("create", words)


def update(*words: Words) -> None:
    """Adds samples, all or none: FILE [-t NAME[:NAME..]] [-s] TIME:VALUE[:VALUE..].."""
    _change("update", words)


def tune(*words: Words) -> None:
    """Changes settings, archives, or numbers of rows: FILE [-h NAME:SECONDS] [-i NAME:MIN] .. [RRA:..] [RRA#0:+10]"""
    _change("tune", words)


def resize(*words: Words) -> None:
    """Writes FILE with more or fewer rows to resize.rrd in this directory: FILE ARCHIVE GROW|SHRINK ROWS"""
    with _as_rrdtool():
        (name, file, *others), = _translated("resize", words)
        try:
            resize_copy(file, lambda copy: commands.run_on(copy, [name, *others]))
        except Error as error:
            error.path = RESIZED
            raise
        except OSError as error:
            raise OperationalError("cannot open", error.filename, 0, None, error.errno or 0) from None


def fetch(*words: Words) -> Tuple[Tuple[int, int, int], Tuple[str, ...], List[Row[float]]]:
    """Returns rows: FILE FUNCTION [-r SECONDS] [-s START] [-e END] [-a]"""
    with _as_rrdtool():
        (_, file, *others), = _translated("fetch", words)
        if not others:
            raise OperationalError("fetch needs a FUNCTION", file)
        found = commands.fetch(file, *others)
        return (found.start, found.end, found.step), found.names, found.rows


def first(*words: Words) -> int:
    """Returns the time of an archive's oldest row: FILE [--rraindex ARCHIVE]"""
    with _as_rrdtool():
        (_, file, *others), = _translated("first", words)
        return commands.first(file, *others)


def last(*words: Words) -> int:
    """Returns the time of the last sample: FILE"""
    return int(_printed("last", words)[1])


def lastupdate(*words: Words) -> Dict[str, Any]:
    """Returns the last raw values: FILE"""
    if not words:
        raise ProgrammingError("Missing filename argument")
    found = last_update(_printed("lastupdate", words)[1], float)
    return {"date": found.date, "ds": found.values}


def info(*words: Words) -> Info:
    """Returns the settings: FILE"""
    file, text = _printed("info", words)
    return _by_keys(file, settings_of(text))


def _by_keys(file: str, settings: Settings) -> Info:
    """Returns settings by RRDtool's names, and those of the journal by rrdi's own names."""
    found: Info = {"filename": file, "step": settings.step, "last_update": settings.last,
                   "journal": settings.journal, "undoable": settings.undoable}
    for number, source in enumerate(settings.sources):
        bounds = [None if word == "U" else float(word) for word in (source.minimum, source.maximum)]
        key = f"ds[{source.name}]"
        found.update({f"{key}.index": number, f"{key}.type": source.type, f"{key}.minimal_heartbeat": source.heartbeat,
                      f"{key}.min": bounds[0], f"{key}.max": bounds[1], f"{key}.last_ds": shortened(source.last_raw)})
    for number, archive in enumerate(settings.archives):
        key = f"rra[{number}]"
        found.update({f"{key}.cf": archive.function, f"{key}.xff": float(archive.xff),
                      f"{key}.pdp_per_row": archive.steps, f"{key}.rows": archive.rows})
    return found


def _printed(command: str, words: Tuple[object, ...]) -> Tuple[str, str]:
    """Returns FILE, and the output of a command without options on FILE."""
    with _as_rrdtool():
        (name, file, *others), = _translated(command, words)
        return file, commands.run_on(file, [name, *others])


def lib_version() -> str:
    """Returns the version of rrdi."""
    return __version__


# ---- Functions that rrdi does not have

def _lacking(command: str) -> Callable[..., NoReturn]:
    """Returns the function of a command that rrdi does not have."""
    def function(*words: object) -> NoReturn:
        """Raises `OperationalError`."""
        raise OperationalError(f"rrdi has no command {command}")
    function.__name__ = function.__qualname__ = command
    return function


clear_fetch_cb = _lacking("clear_fetch_cb")
dump = _lacking("dump")
flushcached = _lacking("flushcached")
graph = _lacking("graph")
graphv = _lacking("graphv")
list = _lacking("list")
register_fetch_cb = _lacking("register_fetch_cb")
updatev = _lacking("updatev")
xport = _lacking("xport")
