# SPDX-License-Identifier: MIT OR Apache-2.0
"""The C library, and programs in C that use it: their sources are in tests/library/c."""
from __future__ import annotations

import os
import re
import shutil
import subprocess
from dataclasses import dataclass
from pathlib import Path
from typing import Sequence

from support.check import Check
from support.program import TOP

SOURCES = TOP / "tests/library/c"
USAGE = TOP / "crates/rrd_store/src/usage.rt"
EXPORTS = frozenset({"rrdi_run", "rrdi_batch", "rrdi_run_file", "rrdi_batch_file", "rrdi_open", "rrdi_run_open",
                     "rrdi_batch_open", "rrdi_update_open", "rrdi_fetch_open", "rrdi_close", "rrdi_create_new",
                     "rrdi_update_many", "rrdi_strerror", "rrdi_libversion", "rrdi_db_open", "rrdi_db_update",
                     "rrdi_db_update_many", "rrdi_db_fetch", "rrdi_db_last", "rrdi_db_error", "rrdi_db_close"})
# The proved functions, below those in plain C.
PROVED = tuple(f"rrdi_c_{name}" for name in ("run", "batch", "run_file", "batch_file", "open", "run_open", "batch_open",
                                             "update_open", "fetch_open", "close"))
COMPILE = ("cc", "-Wall", "-Wextra", "-Werror", "-O1", "-g")
# What precedes the name of a system call that may have a bug.
PLANTED = "planted_"
# The ways in which by_library.c runs a command, with their environment; and those on the file itself.
WAYS: dict[str, dict[str, str]] = {"over a file": {}, "on an open file": {"OPEN": "1"},
                                   "in numbers": {"OPEN": "1", "NUMBERS": "1"}, "in memory": {"IN_MEMORY": "1"}}
ON_FILES = ("over a file", "on an open file")
# The maximum number of bytes of stack that a call may use.
STACK = 65_536
# The seconds after which a program hangs, also on a busy machine and under valgrind.
PATIENCE = 1_800


@dataclass(frozen=True)
class Library:
    """The shared library, which has the static one beside it, and a folder for programs."""
    shared: Path
    folder: Path

    @property
    def static(self) -> Path:
        return self.shared.with_name("librrdi.a")

    def program(self, source: str, *, static: bool = False) -> Path:
        """Builds a program that uses the library. Its usage text is that of rrdi."""
        path = self.folder / f"{Path(source).stem}{'-static' * static}"
        linked = [str(self.static)] if static else [str(self.shared), f"-Wl,-rpath,{self.shared.parent}"]
        subprocess.run([*COMPILE, f"-DUSAGE={usage_text()}", f"-I{TOP / 'include'}", str(SOURCES / source), *linked,
                        "-lpthread", "-o", str(path)], check=True)
        return path

    def sanitized(self, source: str, folder: Path) -> Path:
        """Builds a program, with the part of the library that is plain C, by the compiler's sanitizers of addresses and of
        undefined behaviour. The proved part is that of the static library, as it is."""
        path = folder / f"{Path(source).stem}-sanitized"
        subprocess.run(["objcopy", *(f"--globalize-symbol={name}" for name in PROVED),
                        *(f"--weaken-symbol={name}" for name in EXPORTS), str(self.static), str(folder / "proved.a")], check=True)
        subprocess.run([*COMPILE, "-fsanitize=address,undefined", "-fno-sanitize-recover=all", f"-I{TOP / 'include'}",
                        str(SOURCES / source), *map(str, (TOP / "library/c").glob("*.c")), str(folder / "proved.a"),
                        "-lpthread", "-o", str(path)], check=True)
        return path

    def planted(self, folder: Path) -> Library:
        """Builds a copy of the static library that makes its system calls by planted_calls.c."""
        copy, calls = Library(folder / self.shared.name, folder), folder / "planted_calls.o"
        subprocess.run([*COMPILE, "-c", str(SOURCES / "planted_calls.c"), "-o", str(calls)], check=True)
        has_bugs = {name[len(PLANTED):] for name in names(calls, "--defined-only") if name.startswith(PLANTED)}
        renamed = [f"--redefine-sym={name}={PLANTED}{name}"
                   for name in sorted(has_bugs & names(self.static, "-g", "--undefined-only"))]
        subprocess.run(["objcopy", *renamed, str(self.static), str(copy.static)], check=True)
        subprocess.run(["ar", "rs", str(copy.static), str(calls)], check=True, stderr=subprocess.DEVNULL)
        return copy


def run_checks(words: Sequence[object], folder: Path, check: Check, bug: str = "") -> None:
    """Runs a program in a new folder. Its last line has the number of its checks, and of those that were wrong."""
    folder.mkdir()
    ran = subprocess.run(list(map(str, words)), cwd=folder, capture_output=True, text=True, timeout=PATIENCE,
                         env={**os.environ, "BUG": bug})
    counted = re.search(r"^([1-9]\d*) tests: 0 wrong\n\Z", ran.stdout, re.MULTILINE)
    check.count("checks", int(counted[1]) if counted else 0)
    check(ran.returncode == 0 and counted is not None,
          f"{words[-1]}: status {ran.returncode}\n{ran.stdout}{ran.stderr[-3000:]}")


def as_built(library: Path, folder: Path) -> list[str]:
    """Returns the variables by which `make` takes a copy of a library that was built, in a folder, and does not build
    it again, however old it is: the archive seems to be older."""
    for path in (library, library.with_name("librrdi.a")):
        shutil.copy(path, folder)
    archive = folder / "older.a"
    archive.touch()
    os.utime(archive, (0, 0))
    return [f"ARCHIVE={archive}", f"BUILD={folder}"]


def usage_text() -> str:
    """Returns the usage text as a string of C."""
    found = re.search(r'USAGE: &str = "(.*?)";', USAGE.read_text(), re.DOTALL)
    if not found:
        raise RuntimeError(f"cannot find the usage text in {USAGE}")
    return '"' + found[1].replace("\\\n", "").replace("\n", "\\n") + '"'


def names(path: Path, *options: str) -> set[str]:
    """Returns the names that `nm` lists, without their versions."""
    listed = subprocess.run(["nm", *options, str(path)], capture_output=True, text=True, check=True).stdout
    return {line.split()[-1].split("@")[0] for line in listed.splitlines() if line.strip() and not line.endswith(":")}
