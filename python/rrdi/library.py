# SPDX-License-Identifier: MIT OR Apache-2.0
"""Finds the C library librrdi, and loads it for the package: by the extension `_rrdi`, if there is one for this Python,
otherwise by ctypes."""
from __future__ import annotations

import os
from typing import Optional

from .errors import NoLibrary
from .escaping import escaped
from .extension import the_extension
from .places import beside_package
from .protocol import DONE as DONE, Answer as Answer, Library as Library

NAMES = ("librrdi.so.0", "librrdi.so")


def library_path() -> Optional[str]:
    """Returns the path or the name of the library that `import rrdi` uses, or None without a library.

    The variable RRDI_LIBRARY names the library. Otherwise the library is beside the package, in the `lib` of the
    package's installation, in the folder in which a build of the repository leaves it, or in a directory in which the
    system looks for libraries.
    """
    found = os.environ.get("RRDI_LIBRARY") or beside_package(NAMES)
    if found:
        return found
    try:
        _load(NAMES[0])
    except (OSError, AttributeError):
        return None
    return NAMES[0]


def _load(path: str) -> Library:
    """Loads the library at a path.

    # Errors
    `OSError`, or `AttributeError`, if it cannot be loaded or lacks a function.
    """
    extension = the_extension()
    if extension is not None:
        from .calls import calls
        return extension.load(path, Answer, DONE, calls.wait)
    from .by_ctypes import loaded_by_ctypes
    return loaded_by_ctypes(path)


class _Loaded:
    """The library that all functions of the package call."""

    def __init__(self) -> None:
        self.library: Optional[Library] = None


_loaded = _Loaded()


def load_library(path: Optional[str] = None) -> Library:
    """Loads the library at `path`, or the library that `library_path` finds, for all functions of this package.

    # Errors
    `NoLibrary` if there is no library, or it cannot be loaded or lacks a function.
    """
    found = path or library_path()
    if found is None:
        raise NoLibrary(f"the C library {NAMES[0]} is not found; install it, or name it by the variable RRDI_LIBRARY")
    try:
        loaded = _load(found)  # two threads may do this at once: each library is good
    except (OSError, AttributeError) as error:
        raise NoLibrary(f"the C library cannot be used: {escaped(str(error))}") from None
    _loaded.library = loaded
    return loaded


def use_library(library: Optional[Library]) -> None:
    """Sets the library that all functions of this package call; None means the library that `load_library` finds."""
    _loaded.library = library


def the_library() -> Library:
    """Returns the library. Loads the library at the first call."""
    return _loaded.library or load_library()
