# SPDX-License-Identifier: MIT OR Apache-2.0
"""Builds the extension of this tree, and libraries of which a test gives the functions; and chooses by what tests call."""
from __future__ import annotations

import atexit
import ctypes
import os
import shutil
import subprocess
import sysconfig
import tempfile
import unittest
from functools import lru_cache
from pathlib import Path
from typing import Any, Dict, List, Optional

from doubles import TOP
from rrdi import extension

# The functions of a library, in the order of stub.c.
FUNCTIONS = ("rrdi_run", "rrdi_batch", "rrdi_run_file", "rrdi_batch_file", "rrdi_open", "rrdi_run_open", "rrdi_batch_open",
             "rrdi_update_open", "rrdi_update_many", "rrdi_fetch_open", "rrdi_close")
WARNINGS = ("-std=c11", "-Wall", "-Wextra", "-Werror", "-O1", "-g")


@lru_cache(maxsize=None)
def workshop() -> Path:
    """Returns a folder for what is built, which is there until the process ends."""
    folder = tempfile.mkdtemp(prefix="rrdi-tests")
    process = os.getpid()

    def remove() -> None:
        if os.getpid() == process:
            shutil.rmtree(folder, ignore_errors=True)
    atexit.register(remove)
    return Path(folder)


def compiled(source: str, name: str, *options: str) -> Optional[Path]:
    """Compiles a shared object. Returns None without a compiler or the headers of Python."""
    made, headers = workshop() / name, sysconfig.get_path("include")
    if not shutil.which("cc") or not os.path.isfile(os.path.join(headers, "Python.h")):
        return None
    subprocess.run(["cc", *WARNINGS, "-fPIC", "-shared", *options, "-I", headers, "-I", TOP / "include", TOP / source, "-o", made],
                   check=True)
    return made


@lru_cache(maxsize=None)
def extension_path() -> Optional[Path]:
    """Returns the extension that RRDI_EXTENSION names, or that of this tree; None if it cannot be built."""
    named = os.environ.get("RRDI_EXTENSION")
    return Path(named) if named else compiled("python/rrdi/_rrdi.c", extension.NAME, "-fvisibility=hidden")


@lru_cache(maxsize=None)
def the_extension() -> Optional[extension.Extension]:
    path = extension_path()
    return None if path is None else extension.loaded(str(path))


@lru_cache(maxsize=None)
def stub_path() -> Path:
    found = compiled("tests/python/stub.c", "stub.so")
    assert found is not None
    return found


_numbers: List[int] = []


def stub_of(functions: Dict[str, Any]) -> str:
    """Returns the path of a library with these functions, which are those of ctypes."""
    _numbers.append(len(_numbers))
    path = str(workshop() / f"stub{_numbers[-1]}.so")
    shutil.copy(stub_path(), path)
    places = (ctypes.c_void_p * len(FUNCTIONS)).in_dll(ctypes.CDLL(path), "stub_functions")
    for at, name in enumerate(FUNCTIONS):
        places[at] = ctypes.cast(functions[name], ctypes.c_void_p).value if name in functions else None
    return path


class Chosen:
    """By what the libraries of tests are called."""

    extension: Optional[extension.Extension] = None


chosen = Chosen()


class ByExtension(unittest.TestCase):
    """Runs the tests of a class by the extension: the other class is a base too."""

    def setUp(self) -> None:
        chosen.extension = the_extension()
        self.addCleanup(setattr, chosen, "extension", None)
        if chosen.extension is None:
            self.skipTest("no compiler, or no Python.h")
        super().setUp()
