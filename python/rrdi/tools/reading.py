# SPDX-License-Identifier: MIT OR Apache-2.0
"""Reads databases from their files, by the reader of this package."""
from __future__ import annotations

from contextlib import contextmanager
from typing import Any, Dict, Iterator

from ..errors import Damaged
from ..reader import files
from .command_line import Failure, error_text


@contextmanager
def reporting(file: str) -> Iterator[None]:
    """Reports by a `Failure` that a file cannot be opened, locked or read, or is not a database."""
    try:
        yield
    except OSError as error:
        raise Failure(f"{file}: {error.strerror or error_text(error)}") from None
    except Damaged as fault:
        raise Failure(f"{file}: {fault}") from None


def read_file(file: str) -> Dict[str, Any]:
    """Returns the database in a file, by names; `-` is standard input.

    # Errors
    `Failure` if the file cannot be opened, locked or read, or is not a database.
    """
    with reporting(file):
        return files.read_file(file)
