# SPDX-License-Identifier: MIT OR Apache-2.0
"""Fixtures of the tests of pages: a folder with the program, the tools and the C library, in which commands run."""
from __future__ import annotations

import os
import subprocess
from pathlib import Path

import pytest

from support.library import as_built
from support.program import TOP, Program


def link_tools(bin_folder: Path, program: str) -> None:
    """Puts the program and the tools into a folder of the PATH."""
    bin_folder.mkdir(parents=True)
    for target in (Path(program), *(TOP / "tools").glob("rrdi-*")):
        (bin_folder / ("rrdi" if target == Path(program) else target.name)).symlink_to(target)


@pytest.fixture(scope="session")
def environment(program: Program, workshop: Path) -> dict[str, str]:
    """The environment of commands, which may write only in the folder of the test."""
    link_tools(workshop / "bin", program.path)
    kept = {name: value for name, value in os.environ.items() if not name.startswith(("RRDI", "PYTHON", "XDG_"))}
    return {**kept, "LC_ALL": "C", "TZ": "UTC", "HOME": str(workshop), "PYTHONDONTWRITEBYTECODE": "1",
            "PATH": f"{workshop}/bin:{os.environ['PATH']}"}


@pytest.fixture
def place(folder: Path) -> Path:
    """A folder in which commands find examples/ and docs/."""
    for name in ("examples", "docs"):
        (folder / name).symlink_to(TOP / name)
    return folder


@pytest.fixture(scope="session")
def installed(library: Path, workshop: Path) -> Path:
    """The C library, installed as `make` does."""
    if not library.with_name("librrdi.a").is_file():
        pytest.skip(f"librrdi.a is not beside {library}")
    built, place = workshop / "built", workshop / "installed"
    built.mkdir()
    subprocess.run(["make", "--no-print-directory", "-s", "-C", str(TOP), "install-library", *as_built(library, built),
                    f"PREFIX={place}", "LDCONFIG=:"], check=True)
    return place
