# SPDX-License-Identifier: MIT OR Apache-2.0
"""The manual pages are what scripts/make-manuals writes of the tools' --help and of the reference of the commands, and show
what must stand on a line of its own there."""
from __future__ import annotations

import re
import subprocess
import sys
from pathlib import Path
from typing import Callable

from support.program import TOP


def test_manuals(tmp_path: Path, needs: Callable[..., None]) -> None:
    needs("help2man", "pandoc")
    subprocess.run([TOP / "scripts/make-manuals", tmp_path], check=True, stdin=subprocess.DEVNULL)
    made = {path.name: path.read_text().split("\n", 2)[2] for path in tmp_path.iterdir()}
    there = {path.name: path.read_text().split("\n", 2)[2] for path in (TOP / "docs").glob("rrdi*.1")}
    assert made == there and len(made) > 10


def shown(page: str, columns: int = 400) -> set[str]:
    """Returns the lines of a manual page on a terminal."""
    ran = subprocess.run(["groff", "-man", "-Tascii", "-P-cbou", f"-rLL={columns}n", "-rHY=0"], input=page,
                         capture_output=True, text=True, check=True)
    return {" ".join(line.split()) for line in ran.stdout.splitlines()}


def block(told: str, heading: str) -> set[str]:
    """Returns the forms of a command or the examples in its help, each as one line."""
    whole = re.sub(r" \\\n *|\n {9,}(?=\[)", " ", told)
    found = re.search(rf"^{heading}.*?:(.*?)\n\n", whole, re.MULTILINE | re.DOTALL)
    assert found
    return {" ".join(line.split()) for line in found[1].splitlines() if "rrdi" in line}


def test_forms_and_examples(needs: Callable[..., None]) -> None:
    """Each form of a tool is a line of its manual page, and each example even where a terminal has less room."""
    needs("groff")
    count = 0
    for tool in sorted((TOP / "tools").glob("rrdi-*")):
        told = subprocess.run([sys.executable, "-B", tool, "--help"], capture_output=True, text=True, check=True).stdout
        page, forms, examples = (TOP / f"docs/{tool.name}.1").read_text(), block(told, "usage"), block(told, "example")
        assert (forms - shown(page), examples - shown(page, 60)) == (set(), set())
        count += len(forms) + len(examples)
    assert count > 45


def joined(lines: set[str]) -> list[str]:
    """Returns the lines on which a heading of a table follows another one."""
    return [line for line in lines if re.search(r"\S.* Rate per second: ", line)]


def test_headings_of_tables(needs: Callable[..., None]) -> None:
    """What a table has in two columns is on two lines."""
    needs("groff")
    lines = shown((TOP / "docs/rrdi.1").read_text())
    assert joined(lines) == [] and sum(line.startswith("Rate per second: ") for line in lines) == 4


def test_paths() -> None:
    """An installed page names the pages and examples where they are installed."""
    rule = re.search(r"^manual = sed '(.*?)'", (TOP / "Makefile").read_text(), re.MULTILINE)
    assert rule
    for page in (TOP / "docs").glob("*.[13]"):
        made = subprocess.run(["sed", rule[1].replace("$(PREFIX)", "/usr"), page], capture_output=True, text=True, check=True)
        assert re.findall(r".*(?<!/usr/share/rrdi/)\b(?:docs|examples)/.*", made.stdout) == []


def test_planted_pages(needs: Callable[..., None]) -> None:
    needs("groff")
    told = "Does.\n\nusage: rrdi-a B\n         [C]\n       rrdi-a D\n\nexample:\n  rrdi-a 1 \\\n      2\n\nEnd.\n"
    assert (block(told, "usage"), block(told, "example")) == ({"rrdi-a B [C]", "rrdi-a D"}, {"rrdi-a 1 2"})
    assert {"rrdi-a B rrdi-a D", "rrdi-a 1"} <= shown(".TH A 1\n.SH B\nrrdi\\-a B\nrrdi\\-a D\n.br\nrrdi\\-a 1\n")
    assert "rrdi-a B" not in shown(".TH A 1\n.SH B\nrrdi\\-a B\n", 12)
    assert joined({"Value: 1 Rate per second: 2", "Rate per second: 2"}) == ["Value: 1 Rate per second: 2"]
