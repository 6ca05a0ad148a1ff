# SPDX-License-Identifier: MIT OR Apache-2.0
"""Tests that a name of the package means one thing, and that the package is as docs/ARCHITECTURE.md draws it."""
from __future__ import annotations

import ast
import re
import unittest
from collections import Counter
from pathlib import Path
from typing import Iterator, List

from doubles import TOP

PACKAGE = TOP / "python/rrdi"
# A folder's own module, and RRDtool's module and tool, which have its name.
SHARED = {"__init__", "__main__", "rrdtool"}


def twice(names: List[str]) -> List[str]:
    return sorted(name for name, count in Counter(names).items() if count > 1)


def used_rooms(path: Path) -> Iterator[str]:
    """Yields the packages and the modules at the top of rrdi from which a module of a package imports."""
    for node in ast.walk(ast.parse(path.read_text(encoding="utf-8"))):
        if isinstance(node, ast.ImportFrom) and node.level == len(path.relative_to(PACKAGE).parts):
            yield from [node.module.split(".")[0]] if node.module else [name.name for name in node.names]


class Names(unittest.TestCase):
    def test_names(self) -> None:
        modules: List[str] = []
        classes: List[str] = []
        for path in sorted(PACKAGE.rglob("*.py")):
            modules.append(path.stem)
            classes += [part.name for part in ast.parse(path.read_text(encoding="utf-8")).body if isinstance(part, ast.ClassDef)]
        self.assertGreater(min(len(modules), len(classes)), 90)
        self.assertEqual(twice([name for name in modules if name not in SHARED]), [])
        self.assertEqual(twice(classes), [])


class Rooms(unittest.TestCase):
    """The table of the map has a row for each package. In its last cell, `rrdi` stands for all modules at the top."""

    def test_calls(self) -> None:
        text = (TOP / "docs/ARCHITECTURE.md").read_text(encoding="utf-8")
        rows = re.findall(r"^\| `rrdi\.(\w+)` \|.*\|(.*)\|$", text, re.MULTILINE)
        packages = {path.parent.name for path in PACKAGE.glob("*/__init__.py")}
        self.assertEqual({name for name, _ in rows}, packages)
        for name, cell in rows:
            allowed = {word.split(".")[0] for word in re.findall("`([\\w.]+)`", cell)}
            for path in (PACKAGE / name).rglob("*.py"):
                used = set(used_rooms(path)) - ({"tools"} if path.name == "__main__.py" else set())
                if "rrdi" in allowed:
                    used &= packages
                self.assertTrue(used <= allowed or "all above" in cell, f"{path}: {sorted(used - allowed)}")
