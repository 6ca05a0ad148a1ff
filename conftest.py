# SPDX-License-Identifier: MIT OR Apache-2.0
"""Gives the tests what they try: the program, the C library, and the library between a program and the system.

tests/README.md says how to run them. A test without what it needs is skipped, and the run then fails, unless it has
--lacking: nothing is left out in silence."""
from __future__ import annotations

import os
import shutil
import sys
import tempfile
from pathlib import Path
from typing import Callable, Iterator

sys.dont_write_bytecode = True
os.environ["PYTHONDONTWRITEBYTECODE"] = "1"
for of_make in ("MAKEFLAGS", "MFLAGS", "MAKELEVEL"):  # what a `make` that runs the tests says to those that tests run
    os.environ.pop(of_make, None)

import pytest

from support import between as between_calls
from support.check import Check
from support.counts import Counts
from support.program import TOP, Program

BUILT, LIBRARY = "rrdi/out/rrdi", TOP / "out/librrdi.so.0"


def pytest_addoption(parser: pytest.Parser) -> None:
    group = parser.getgroup("rrdi")
    group.addoption("--crates", default=str(TOP / "crates"), metavar="FOLDER",
                    help="the crates that were built (crates)")
    group.addoption("--program", default="", metavar="PATH", help=f"the program that is tried (of the crates, {BUILT})")
    group.addoption("--library", default=str(LIBRARY), metavar="PATH",
                    help="the C library that is tried (out/librrdi.so.0)")
    group.addoption("--long", action="store_true", help="try everything, also what takes hours")
    group.addoption("--record", action="store_true", help="put what was tried into docs/results.md")
    group.addoption("--lacking", action="store_true", help="pass although something was left out")
    group.addoption("--seeds", default="", metavar="FIRST:COUNT", help="the numbers of the random batches")
    group.addoption("--old-program", default="", metavar="PATH", help="an older program, which begins files")


@pytest.hookimpl(tryfirst=True)
def pytest_cmdline_main(config: pytest.Config) -> None:
    """Keeps tests of one group in one process of xdist."""
    if getattr(config.option, "numprocesses", None) and config.option.dist in ("no", "load"):
        config.option.dist = "loadgroup"


def pytest_configure(config: pytest.Config) -> None:
    if hasattr(config, "workerinput"):
        config.option.loadgroup = True  # a worker of xdist does not know what the first process has chosen
    else:  # the workers report to this process, which judges
        config.pluginmanager.register(Counts(config), "counts")


def pytest_collection_modifyitems(config: pytest.Config, items: list[pytest.Item]) -> None:
    """Takes away the tests that only --long runs."""
    later = [item for item in items if item.get_closest_marker("long") and not config.getoption("long")]
    if later:
        config.hook.pytest_deselected(items=later)
        items[:] = [item for item in items if item not in later]


@pytest.hookimpl(trylast=True)
def pytest_runtest_call(item: pytest.Item) -> None:
    """Ends the check of a test whose body has come to its end."""
    check = getattr(item, "funcargs", {}).get("check")
    if check is not None:
        module = getattr(item, "module", None)
        least = {**getattr(module, "LEAST", {}),
                 **(getattr(module, "LEAST_LONG", {}) if item.config.getoption("long") else {})}
        item.user_properties.append(("tried", (getattr(module, "__name__", ""), dict(check.tried), least)))
        check.end()


# ---- what is tried


@pytest.fixture(scope="session")
def is_long(pytestconfig: pytest.Config) -> bool:
    return bool(pytestconfig.getoption("long"))


def found(path: Path, hint: str) -> Path:
    """Skips a test if a built file is missing. One in this repository must be newer than its sources."""
    if not path.is_file():
        pytest.skip(f"{path} not found; {hint}")
    built, is_own = path.stat().st_mtime, TOP in path.resolve().parents
    if is_own and any(source.stat().st_mtime > built for source in TOP.glob("crates/*/src/**/*.rt")):
        pytest.skip(f"{path} is older than a source; {hint}")
    return path.resolve()


@pytest.fixture(scope="session")
def program(pytestconfig: pytest.Config) -> Program:
    path = Path(pytestconfig.getoption("program") or Path(pytestconfig.getoption("crates"), BUILT))
    return Program.at(found(path, "run make, or name a program: --program=PATH"))


@pytest.fixture(scope="session")
def unit_tests(pytestconfig: pytest.Config) -> Callable[[str], Program]:
    """Returns the built tests of a crate."""
    def of(crate: str) -> Program:
        path = Path(pytestconfig.getoption("crates"), crate, "out", f"{crate}_tests")
        return Program.at(found(path, f"run rt test in crates/{crate}, or name the crates: --crates=FOLDER"))
    return of


@pytest.fixture(scope="session")
def library(pytestconfig: pytest.Config) -> Path:
    return found(Path(pytestconfig.getoption("library")), "run make library, or name a library: --library=PATH")


@pytest.fixture(scope="session")
def needs() -> Callable[..., None]:
    """Skips a test if one of the tools is missing: needs("cc", "strace")."""
    def has(*tools: str) -> None:
        lacks = [tool for tool in tools if not shutil.which(tool)]
        if lacks:
            pytest.skip(f"not installed: {', '.join(lacks)}")
    return has


def open_folder() -> Iterator[Path]:
    with tempfile.TemporaryDirectory(prefix="rrdi-test-") as name:
        os.chmod(name, 0o755)
        yield Path(name)


@pytest.fixture
def folder() -> Iterator[Path]:
    """An empty folder, which other users may read, and which is gone after the test; pytest's tmp_path is neither."""
    yield from open_folder()


@pytest.fixture(scope="session")
def workshop() -> Iterator[Path]:
    """A folder for what is compiled once."""
    yield from open_folder()


@pytest.fixture(scope="session")
def between(needs: Callable[..., None], workshop: Path) -> str:
    """The value of LD_PRELOAD for the library that counts system calls, lets them fail, and kills
    (support/between.c)."""
    needs("cc")
    return between_calls.build(workshop / "between.so", only_calls=True)


@pytest.fixture(scope="session")
def between_all(needs: Callable[..., None], workshop: Path) -> str:
    """The same library, which counts and refuses allocations too."""
    needs("cc")
    return between_calls.build(workshop / "between_all.so")


# ---- what was tried, and what went wrong


@pytest.fixture
def check() -> Iterator[Check]:
    """Counts what a test tries, and notes faults: the test goes on, and fails at its end (support/check.py)."""
    check = Check()
    yield check
    if not check.has_ended:  # an exception ended the test: shows what was noted before
        print(check.text())


@pytest.fixture
def planted(record_property: Callable[[str, object], None]) -> Iterator[Check]:
    """A check that gets wrong answers, and must reject them: assert planted.faults."""
    check = Check()
    yield check
    record_property("rejected", sorted(check.places))
    print(check.text())
