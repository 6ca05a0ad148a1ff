# SPDX-License-Identifier: MIT OR Apache-2.0
"""The counts in docs/results.md: for each module of tests the first two things that its last whole run has tried, on which
commit and day."""
from __future__ import annotations

import re
import subprocess
import textwrap
import time
from pathlib import Path
from typing import Mapping

from support.program import TOP

# How many counts of a module the page has; the section of the page that has them, and an item of it.
SHOWN = 2
HEAD, ITEM = "## Counts\n\n", re.compile(r"- `([^`]+)`.*\n(?:  .*\n)*")


def commit() -> str:
    """Returns the commit that is checked out; nothing if a file outside docs differs from it."""
    def git(*words: str) -> str:
        return subprocess.run(["git", "-c", "safe.directory=*", *words], cwd=TOP, capture_output=True, text=True,
                              check=True).stdout.strip()
    return "" if git("status", "--porcelain", "--", ".", ":!docs") else git("rev-parse", "--short=8", "HEAD")


def item(name: str, tried: Mapping[str, int], at: str) -> str:
    counts = ", ".join(f"{number:,} {what}" for what, number in list(tried.items())[:SHOWN])
    text = f"- `{name}` (`{at}`, {time.strftime('%Y-%m-%d', time.gmtime())}): {counts}"
    return textwrap.fill(text, 120, subsequent_indent="  ", break_long_words=False, break_on_hyphens=False) + "\n"


def with_counts(page: str, counts: Mapping[str, Mapping[str, int]], at: str) -> str:
    """Returns the page with the counts of some runs in the place of older ones of the same names."""
    before, _, section = page.partition(HEAD)
    items = {found[1]: found[0] for found in ITEM.finditer(section.partition("\n## ")[0])}
    rest = "".join(section.partition("\n## ")[1:])
    items.update({name: item(name, tried, at) for name, tried in counts.items()})
    return before + HEAD + "".join(items[name] for name in sorted(items)) + rest


def record(counts: Mapping[str, Mapping[str, int]], page: Path = TOP / "docs/results.md") -> str:
    """Puts counts into the page. Returns why nothing was recorded, or nothing."""
    at = commit()
    if not at:
        return "nothing is recorded of files that differ from the commit"
    page.write_text(with_counts(page.read_text(), counts, at))
    return ""
