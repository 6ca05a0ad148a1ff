# SPDX-License-Identifier: MIT OR Apache-2.0
"""Finds the extension of Python that calls the C library, `_rrdi.abi3.so`, which is made of _rrdi.c.

It is beside the package, as the library is, or the variable RRDI_EXTENSION names it. It serves each Python from 3.8 on
that takes extensions of the stable interface, and is not used if it is of another version than the package.
"""
from __future__ import annotations

import os
from functools import lru_cache
from importlib.machinery import EXTENSION_SUFFIXES, ExtensionFileLoader, ModuleSpec
from typing import Callable, Dict, Iterator, List, Optional, Protocol, Tuple, Type, cast

from . import __version__
from .calls import Elsewhere, calls
from .places import beside_package
from .protocol import Answer, Library

SUFFIX = ".abi3.so"
NAME = f"_rrdi{SUFFIX}"


class Extension(Elsewhere, Protocol):
    """The module `_rrdi`."""

    version: str

    def load(self, path: str, answer: Type[Answer], done: Answer, wait: Callable[[], bool]) -> Library:
        """Loads the library at a path. Its calls make their answers of the type `answer`, unless the answer is `done`;
        and call `wait` if they have to wait for a fork, until that returns False.

        # Errors
        `OSError` if the library cannot be loaded, or lacks a function.
        """

    def table(self, printed: str) -> Optional[Tuple[Tuple[str, ...], int, int, List[Tuple[Optional[float], ...]]]]:
        """Returns the names, the time of the first row, the seconds to the next and the rows of what `fetch` has printed.
        Returns None if it has another form, or one row."""

    def further(self, held: Dict[bytes, List[bytes]], lines: Iterator[bytes], longest: int) -> Optional[bytes]:
        """Does the same as `further_by_python` of feeding/ordering.py."""

    def are_ordered(self, samples: List[bytes]) -> bool:
        """Checks whether samples have times of ten digits, in their order."""


@lru_cache(maxsize=None)
def the_extension() -> Optional[Extension]:
    """Loads the extension. Returns None if there is none that this Python can use."""
    path = os.environ.get("RRDI_EXTENSION") or beside_package([NAME])
    return loaded(path) if path and SUFFIX in EXTENSION_SUFFIXES else None


def loaded(path: str) -> Optional[Extension]:
    """Loads the extension at a path, whose calls a fork waits for. Returns None if it is no extension of this version."""
    name = f"{__package__}._rrdi"
    loader = ExtensionFileLoader(name, path)
    try:
        module = loader.create_module(ModuleSpec(name, loader, origin=path))
        loader.exec_module(module)
    except (ImportError, SystemError):  # a Python may refuse what it does not know
        return None
    found = cast(Extension, module)
    if getattr(found, "version", None) != __version__:
        return None
    calls.elsewhere.append(found)
    return found
