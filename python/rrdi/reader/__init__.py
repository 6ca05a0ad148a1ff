# SPDX-License-Identifier: MIT OR Apache-2.0
"""Reads a database of rrdi from its file, as docs/file-format.md describes the bytes. The C library is not needed.

Here amounts are whole numbers of millionths, for the tools. `rrdi.read` and `rrdi.read_file` give decimals or floats
(`values`)."""
from __future__ import annotations

from ..amounts import MILLION, Millionths
from ..errors import Damaged
from ..limits import FUNCTIONS, LATEST, TYPES
from .files import opened, read, read_bytes, read_file, settled
from .pieces import TOP, UNKNOWN, VERSIONS, Parts, Reader
from .stored import Stored, checksum

# The reason why bytes are not a database.
Fault = Damaged

__all__ = ["FUNCTIONS", "LATEST", "MILLION", "TOP", "TYPES", "UNKNOWN", "VERSIONS", "Damaged", "Fault", "Millionths",
           "Parts", "Reader", "Stored", "checksum", "opened", "read", "read_bytes", "read_file", "settled"]
