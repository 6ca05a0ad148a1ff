# SPDX-License-Identifier: MIT OR Apache-2.0
"""Chooses what runs the commands of the tools: the program that the variable RRDI names, otherwise the C library in this
process, or without the library the program rrdi on the PATH."""
from __future__ import annotations

import os
from functools import lru_cache
from typing import TYPE_CHECKING, Optional

if TYPE_CHECKING:
    from .protocol import Library, OnFiles


def program_path() -> str:
    """Returns the program that the variable RRDI names, or rrdi."""
    return os.environ.get("RRDI") or "rrdi"


@lru_cache(maxsize=None)
def loaded_library() -> Optional[Library]:
    """Loads the C library. Returns None if no library can be loaded."""
    from .library import library_path, load_library
    try:
        return load_library() if library_path() is not None else None
    except OSError:  # also `NoLibrary`
        return None


def chosen_library() -> Optional[Library]:
    """Returns the C library; None if a program is to take its place."""
    return None if os.environ.get("RRDI") else loaded_library()


def chosen() -> OnFiles:
    """Returns the C library, or the program in its place."""
    library = chosen_library()
    if library is not None:
        return library
    from .by_program import ByProgram
    return ByProgram(program_path())
