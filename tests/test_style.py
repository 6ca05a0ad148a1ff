# SPDX-License-Identifier: MIT OR Apache-2.0
"""The files are as .editorconfig, .clang-format and the settings of ruff say, and sources name their license."""
from __future__ import annotations

import subprocess
from pathlib import Path
from typing import Callable, Iterator

from support.program import TOP

LONGEST, LICENSE = 128, "SPDX-License-Identifier: MIT OR Apache-2.0"
# Lines of tests are often tables of cases.
WITHOUT_LIMIT = "tests/"
PYTHON_HEADS = (b"#!/usr/bin/env python3", b"#!/usr/bin/python3")


def files(*patterns: str) -> list[Path]:
    """Returns the files of the repository that match patterns of git."""
    listed = subprocess.run(["git", "-c", "safe.directory=*", "ls-files", "-z", "--", *patterns], cwd=TOP,
                            capture_output=True, text=True, check=True)
    return [Path(name) for name in listed.stdout.split("\0") if name and (TOP / name).is_file()]


def faults(text: str, has_limit: bool) -> Iterator[str]:
    """Yields what is wrong with a text."""
    if text and not text.endswith("\n"):
        yield "no newline at the end"
    for number, line in enumerate(text.split("\n"), 1):
        if line != line.rstrip() or "\t" in line:
            yield f"{number}: a space at the end, or a tab"
        if has_limit and len(line) > LONGEST:
            yield f"{number}: {len(line)} characters"


def test_faults() -> None:
    wrong = ("a", "a \n", "\ta\n", "a\r\n", "a" * 129 + "\n")
    assert [len(list(faults(text, True))) for text in (*wrong, "", "a" * 128 + "\n")] == [1, 1, 1, 1, 1, 0, 0]


def test_python() -> None:
    programs = [path for path in files("tools", "examples", "scripts")
                if path.suffix != ".py" and (TOP / path).read_bytes().startswith(PYTHON_HEADS)]
    found = [f"{path}:{fault}" for path in (*files("*.py"), *programs)
             for fault in faults((TOP / path).read_text(), not str(path).startswith(WITHOUT_LIMIT))]
    assert not found


def test_licenses() -> None:
    """Each source names its license in its first lines, but for those of Rattle, which are proved as they are."""
    sources = files("*.py", "*.c", "*.h", "*.pm", "tools/rrdi-*", "scripts")
    heads = {path: (TOP / path).read_text().split("\n")[:3] for path in sources}
    assert not [path for path, head in heads.items() if any(head) and LICENSE not in "\n".join(head)]


def test_c(needs: Callable[..., None]) -> None:
    needs("clang-format")
    ran = subprocess.run(["clang-format", "--dry-run", "-Werror", *files("*.c", "*.h")], cwd=TOP,
                         capture_output=True, text=True)
    assert ran.returncode == 0, ran.stderr[-4000:]
