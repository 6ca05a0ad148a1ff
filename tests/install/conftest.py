# SPDX-License-Identifier: MIT OR Apache-2.0
"""Runs `make` in a copy of what is installed and packaged, because `make deb` writes into debian/."""
from __future__ import annotations

import os
import shutil
import subprocess
from pathlib import Path
from typing import Callable, Iterator

import pytest

from support.library import as_built
from support.program import TOP, Program

PARTS = ("Makefile", "VERSION", "*.md", "LICENSE*", "debian", "docs", "examples", "include", "library/c", "librrd", "perl",
         "python", "tools")


def copied(folder: Path) -> Path:
    """Copies the parts of the repository."""
    for path in (path for part in PARTS for path in TOP.glob(part)):
        if path.is_dir():
            shutil.copytree(path, folder / path.relative_to(TOP), ignore=shutil.ignore_patterns("__pycache__", "tests"))
        else:
            shutil.copy(path, folder / path.name)
    return folder


def run_make(top: Path, *words: object, mask: int = 0o022) -> None:
    """Runs `make`. Raises `AssertionError` with its messages if it fails."""
    ran = subprocess.run(["make", "-s", "-C", top, *map(str, words)], capture_output=True, text=True, umask=mask,
                         env={**os.environ, "LC_ALL": "C"})
    assert ran.returncode == 0, (words, ran.stdout[-2000:], ran.stderr[-4000:])


@pytest.fixture
def make(folder: Path, needs: Callable[..., None]) -> Callable[..., None]:
    """Runs `make` with `true` for the program."""
    needs("make")
    top = folder / "top"
    top.mkdir()
    copied(top)
    return lambda *words, **options: run_make(top, *words, f"PROGRAM={shutil.which('true')}", **options)


@pytest.fixture
def stand_in(folder: Path, needs: Callable[..., None]) -> list[str]:
    """The variables of `make` that name a library without functions."""
    needs("cc", "ar", "ld", "objcopy")
    (folder / "nothing.c").write_text("typedef int nothing;\n")
    for words in ("cc -fPIC -c nothing.c", "ar rcs nothing.a nothing.o"):
        subprocess.run(words.split(), cwd=folder, check=True)
    return [f"ARCHIVE={folder}/nothing.a", f"PLAIN={folder}/nothing.c", "OF_KIT="]


@pytest.fixture(scope="session")
def built(program: Program, library: Path, workshop: Path, needs: Callable[..., None]) -> Callable[..., None]:
    """Runs `make` with the program and the library that were built; what it makes is in workshop/out."""
    needs("make", "cc", "ld", "objcopy")
    if not library.with_name("librrdi.a").is_file():
        pytest.skip(f"librrdi.a is not beside {library}")
    (workshop / "out").mkdir()
    top, words = copied(workshop), [*as_built(library, workshop / "out"), f"PROGRAM={program.path}", "LDCONFIG=:"]
    return lambda *more: run_make(top, *more, *words)


@pytest.fixture(scope="session")
def packages(built: Callable[..., None], workshop: Path, needs: Callable[..., None]) -> Iterator[dict[str, Path]]:
    """Debian's packages by their names."""
    needs("dpkg-buildpackage")
    lacks = subprocess.run(["dpkg-checkbuilddeps"], cwd=TOP, capture_output=True, text=True)
    if lacks.returncode:
        pytest.skip(lacks.stderr)
    built("deb")
    yield {path.name.split("_")[0]: path for path in (workshop / "out").glob("*.deb")}
