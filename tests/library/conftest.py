# SPDX-License-Identifier: MIT OR Apache-2.0
"""Fixtures of the tests of the C library: both libraries, and the programs that use them."""
from __future__ import annotations

from pathlib import Path
from typing import Callable

import pytest

from support.library import Library
from support.program import Program


@pytest.fixture(scope="session")
def built(library: Path, needs: Callable[..., None], workshop: Path) -> Library:
    needs("cc", "nm", "objcopy")
    if not library.with_name("librrdi.a").is_file():
        pytest.skip(f"librrdi.a is not beside {library}")
    return Library(library, workshop)


@pytest.fixture(scope="session")
def by_library(built: Library) -> Program:
    """A program that takes the arguments of rrdi and runs the command by the library."""
    return Program(str(built.program("by_library.c")))


@pytest.fixture(scope="session")
def opened(built: Library) -> Program:
    """A program that opens FILE once, and runs each line of standard input on the open file."""
    return Program(str(built.program("opened.c")))
