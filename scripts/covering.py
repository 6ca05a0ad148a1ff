# SPDX-License-Identifier: MIT OR Apache-2.0
"""Copies of the repository in which tests run, and which unit tests of tests/python run a line: kept in out/covered.json."""
from __future__ import annotations

import ast
import hashlib
import json
import os
import queue
import re
import shutil
import subprocess
import sys
import tempfile
from collections import defaultdict
from concurrent.futures import ThreadPoolExecutor
from contextlib import contextmanager
from functools import cached_property
from pathlib import Path
from typing import Any, Callable, Iterator, NamedTuple, TypeVar

import covered
from mutants import Mutant, names_set

TOP = Path(__file__).resolve().parent.parent
KEPT = TOP / "out/covered.json"
# What is copied of the repository.
PARTS = ("LICENSE-MIT", "Makefile", "VERSION", "conftest.py", "crates/rrd_store/src/usage.rt",
         "crates/tests_of_program/src/explain/table.rt", "docs", "examples", "include", "library/c",
         "library/rrdi_c/specs/Numbers.antt.in", "librrd", "perl", "pyproject.toml", "python", "tests", "tools")


class Test(NamedTuple):
    """A test: its name, its seconds without a bug, and the lines of each file that it runs."""
    name: str
    seconds: float
    lines: dict[str, set[int]]


# ---- copies


def copied(to: Path) -> Path:
    """Copies what the tests need, with the sources compiled, because the tools never keep that."""
    for part in PARTS:
        (to / part).parent.mkdir(parents=True, exist_ok=True)
        if (TOP / part).is_dir():
            shutil.copytree(TOP / part, to / part, symlinks=True, ignore=shutil.ignore_patterns("__pycache__", "out"))
        else:
            shutil.copy2(TOP / part, to / part)
    subprocess.run([sys.executable, "-m", "compileall", "-q", to / "python", to / "tests"], check=True)
    return to


Kind = TypeVar("Kind")


@contextmanager
def copies(number: int, prepared: Callable[[Path], Kind]) -> "Iterator[queue.Queue[Kind]]":
    """Makes copies of the repository, each for one worker at a time."""
    with tempfile.TemporaryDirectory(prefix="mutate-", ignore_cleanup_errors=True) as folder:
        prepared_copies: "queue.Queue[Kind]" = queue.Queue()
        for each in range(number):
            prepared_copies.put(prepared(copied(Path(folder, str(each)))))
        yield prepared_copies


@contextmanager
def taken(those: "queue.Queue[Kind]") -> Iterator[Kind]:
    """Takes one of them, and puts it back."""
    one = those.get()
    try:
        yield one
    finally:
        those.put(one)


# ---- tests


def sum_of(paths: list[Path]) -> str:
    return hashlib.sha256(b"\0".join(path.read_bytes() if path.is_file() else b"" for path in sorted(paths))).hexdigest()


class Tests:
    """The unit tests, or those of some modules, and what each covers."""

    def __init__(self, variables: dict[str, str], only: "list[str] | None" = None) -> None:
        self.variables, self.only = variables, only
        self.files = [str(path.relative_to(TOP)) for path in sorted((TOP / "python").rglob("*.py"))]
        self.folder = TOP / "tests/python"
        self.kept: dict[str, Any] = json.loads(KEPT.read_text()) if KEPT.exists() else {}

    def sources_of(self, module: str) -> list[Path]:
        """Returns the files whose texts decide what a module of tests covers."""
        found = {name for _, _, _, lines in self.kept.get(module, {}).get("tests", ()) for name in lines}
        helpers = [path for path in self.folder.glob("*.py") if not path.name.startswith("test_")]
        return [self.folder / f"{module}.py", *helpers, *map(Path, self.variables.values()), *(TOP / name for name in found)]

    def cover(self, number: int) -> None:
        """Finds what the tests cover, where a source has changed since that was kept."""
        modules = [path.stem for path in self.folder.glob("test_*.py") if "unittest" in path.read_text()]
        self.kept = {module: self.kept[module] for module in modules if module in self.kept}
        old = [module for module in modules if (self.only is None or module in self.only) and not self.is_kept(module)]
        with copies(min(number, len(old)), self.prepared) as tops, ThreadPoolExecutor(number) as pool:
            for module, out in zip(old, pool.map(lambda module: self.lines_of(module, tops), old)):
                self.kept[module] = {"tests": [json.loads(line) for line in out.splitlines()]}
                self.kept[module]["sum"] = sum_of(self.sources_of(module))
                passed = sum(is_passed for _, is_passed, _, _ in self.kept[module]["tests"])
                print(f"{module}: {passed} of {len(self.kept[module]['tests'])} tests pass", flush=True)
                KEPT.parent.mkdir(exist_ok=True)
                KEPT.write_text(json.dumps(self.kept))

    def is_kept(self, module: str) -> bool:
        return module in self.kept and self.kept[module]["sum"] == sum_of(self.sources_of(module))

    def prepared(self, top: Path) -> Path:
        covered.trace(top, self.files)
        return top

    def lines_of(self, module: str, tops: "queue.Queue[Path]") -> str:
        with taken(tops) as top:
            ran = subprocess.run([sys.executable, TOP / "scripts/covered.py", "--each", module], cwd=top / "tests/python",
                                 env={**os.environ, **self.variables}, stdin=subprocess.DEVNULL, stdout=subprocess.PIPE,
                                 stderr=subprocess.DEVNULL, text=True, errors="replace")
        return ran.stdout

    @cached_property
    def all(self) -> list[Test]:
        """The tests that pass without a bug, the fastest first."""
        return sorted((Test(name, seconds, {file: set(numbers) for file, numbers in lines.items()})
                       for module, it in self.kept.items() if self.only is None or module in self.only
                       for name, is_passed, seconds, lines in it["tests"] if is_passed), key=lambda test: test.seconds)

    @cached_property
    def users(self) -> dict[str, set[tuple[str, int]]]:
        """The lines of functions that have a name, and those that have a name whose value they decide."""
        found: dict[str, set[tuple[str, int]]] = defaultdict(set)
        further: dict[str, set[str]] = defaultdict(set)
        for file in self.files:
            note_users(ast.parse((TOP / file).read_text()).body, file, found, further)
        for _ in range(4):  # a constant that is part of another one, and so on
            for name, others in further.items():
                found[name].update(*(found[other] for other in others))
        return found

    def of_modules(self, names: tuple[str, ...]) -> list[Test]:
        return [test for test in self.all if test.name.split(".")[0] in names]

    def covering(self, mutant: Mutant) -> list[Test]:
        """Returns the tests that run a mutant of a file of Python, the fastest first."""
        places = {(mutant.file, line) for line in mutant.lines}.union(*(self.users[name] for name in mutant.names))
        if mutant.names and not places:
            return [test for test in self.all if mutant.file in test.lines]
        return [test for test in self.all if any(line in test.lines.get(file, ()) for file, line in places)]

    def naming(self, mutant: Mutant) -> list[Test]:
        """Returns the tests of the modules that have a name whose value a mutant decides, the fastest first: they may look at
        the value itself, and run no line that uses it."""
        found = {module for module in self.kept if any(
            re.search(rf"\b{name}\b", (self.folder / f"{module}.py").read_text()) for name in mutant.names)}
        return [test for test in self.all if test.name.split(".")[0] in found]


def note_users(body: list[ast.stmt], file: str, found: dict[str, set[tuple[str, int]]], further: dict[str, set[str]]) -> None:
    """Notes the names in functions with their lines, and those outside with the names that their statement gives a value."""
    for statement in body:
        if isinstance(statement, ast.ClassDef):
            note_users(statement.body, file, found, further)
            continue
        for node in ast.walk(statement):
            name = getattr(node, "id", getattr(node, "attr", ""))
            if name and isinstance(statement, ast.FunctionDef):
                found[name].add((file, node.lineno))
            elif name:
                further[name].update(names_set(statement))
