# SPDX-License-Identifier: MIT OR Apache-2.0
"""Lets pytest run the tests of the package, with the program and the C library that its options name:

    /usr/bin/python3 -m pytest tests/python --program=PATH --library=PATH"""
from __future__ import annotations

import os
import sys
from pathlib import Path

import pytest

sys.path.insert(0, str(Path(__file__).resolve().parent))


def pytest_configure(config: pytest.Config) -> None:
    """Names the program, the library and the recorder beside it by the variables that the tests read."""
    program = config.getoption("program") or os.path.join(config.getoption("crates"), "rrdi/out/rrdi")
    library = os.path.realpath(config.getoption("library"))
    recorder = os.path.join(os.path.dirname(library), "librrdi-record.so")
    for variable, path in (("RRDI", program), ("RRDI_LIBRARY", library), ("RRDI_RECORD", recorder)):
        if os.path.isfile(path):
            os.environ[variable] = os.path.abspath(path)
    # The extension of this tree calls the library; without a compiler, or Python's headers, ctypes does. The processes of xdist
    # have that of the first one.
    if "RRDI_EXTENSION" not in os.environ:
        from building import extension_path
        os.environ["RRDI_EXTENSION"] = str(extension_path() or "none")
