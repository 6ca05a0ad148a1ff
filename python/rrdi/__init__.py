# SPDX-License-Identifier: MIT OR Apache-2.0
"""Round-robin databases of rrdi: runs commands in this process by the C library librrdi, and reads files.

    import rrdi

    rrdi.create("room.rrdi", "DS:temp:GAUGE:60:U:U", "RRA:AVERAGE:0.5:1:360", step=10)
    rrdi.update("room.rrdi", ("N", 21.5))
    for time, values in rrdi.fetch("room.rrdi", "AVERAGE").records():
        print(time, values["temp"])

The functions have the names of Python's module `rrdtool`. docs/python.md lists them. `rrdi.read_file` reads files without
the C library; `rrdi.compat.rrdtool` takes RRDtool's own syntax.
"""
from __future__ import annotations

from typing import TYPE_CHECKING

if TYPE_CHECKING:
    from .commands import (Batch, RefusedLine, batch, create, fetch, first, info, last, lastupdate, resize, revert, tune,
                           update)
    from .database import Database, RefusedLines
    from .described import ArchiveInfo, Info, SourceInfo
    from .errors import (BadSample, Busy, CannotOpen, CannotRead, CannotWrite, Damaged, Different, Error, Exists,
                         MayNotOpen, MayNotWrite, NoDatabase, NoLibrary, OperationalError, OutOfMemory,
                         ProgrammingError, Refused, Unreadable, Usage)
    from .library import library_path, load_library
    from .memory import Ran, RanBatch, run, run_batch
    from .reader import Fault
    from .reader.values import read, read_file
    from .results import LastUpdate, NamedRow, Table
    from .samples import Sample

__version__ = "0.2.0"

__all__ = ["ArchiveInfo", "BadSample", "Batch", "Busy", "CannotOpen", "CannotRead", "CannotWrite", "Damaged",
           "Database", "Different", "Error", "Exists", "Fault", "Info", "LastUpdate", "MayNotOpen", "MayNotWrite",
           "NamedRow", "NoDatabase", "NoLibrary", "OperationalError", "OutOfMemory", "ProgrammingError", "Ran",
           "RanBatch", "Refused", "RefusedLine", "RefusedLines", "Sample", "SourceInfo", "Table", "Unreadable",
           "Usage", "batch", "create", "fetch", "first", "info", "last", "lastupdate", "library_path", "load_library",
           "read", "read_file", "resize", "revert", "run", "run_batch", "tune", "update"]

# The modules and their names. A module is imported when a program first asks for one of its names, so that a tool, or a
# program that only reads, imports what it uses.
_HOMES = {name: module for module, names in {
    "commands": "Batch RefusedLine batch create fetch first info last lastupdate resize revert tune update",
    "database": "Database RefusedLines",
    "described": "ArchiveInfo Info SourceInfo",
    "errors": "BadSample Busy CannotOpen CannotRead CannotWrite Damaged Different Error Exists MayNotOpen MayNotWrite "
              "NoDatabase NoLibrary OperationalError OutOfMemory ProgrammingError Refused Unreadable Usage",
    "library": "library_path load_library",
    "memory": "Ran RanBatch run run_batch",
    "reader": "Fault",
    "reader.values": "read read_file",
    "results": "LastUpdate NamedRow Table",
    "samples": "Sample"}.items() for name in names.split()}


def __getattr__(name: str) -> object:
    """Imports the module of a name, or a module of the package, when a program first asks for it."""
    from importlib import import_module
    if name in _HOMES:
        found: object = getattr(import_module("." + _HOMES[name], __name__), name)
    elif name in _HOMES.values():
        found = import_module("." + name, __name__)
    else:
        raise AttributeError(f"module {__name__!r} has no attribute {name!r}")
    globals()[name] = found
    return found


def __dir__() -> "list[str]":
    return sorted({*globals(), *__all__})
