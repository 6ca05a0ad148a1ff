# SPDX-License-Identifier: MIT OR Apache-2.0
"""Passes the samples of one file to the C library, in a file that stays open if the next samples come soon."""
from __future__ import annotations

from typing import List, Optional

from ..open_files import OpenBounds, OpenFiles
from ..protocol import Library
from ..words import present
from .writers import BatchWriter, Outcome, lines_of, outcome_of


class OpenWriter(BatchWriter):
    """Writes by the library, to files that may stay open until their next samples come."""

    def __init__(self, library: Library, files: Optional[OpenFiles] = None):
        super().__init__(library)
        self.files = files or OpenFiles(OpenBounds(files=0))

    def write(self, file: bytes, samples: List[bytes]) -> Outcome:
        with self.files.lend(file) as lent:
            if lent.busy is not None:
                return outcome_of(file, samples, lent.busy)
            if lent.opened is None:
                return super().write(file, samples)
            outcome = outcome_of(file, samples, lent.opened.batch(lines_of(samples), present(None)))
            lent.is_sound = not (outcome.again or outcome.lost)
            return outcome
