# SPDX-License-Identifier: MIT OR Apache-2.0
"""No page has more words than its limit, nor have all together: who tells a new fact takes another one out, or its second
telling."""
from __future__ import annotations

from pathlib import Path

from support.program import TOP

# The words that a page may have, as `wc -w` counts them.
LIMITS = {
    "CHANGELOG.md": 650, "CONTRIBUTING.md": 1_025, "README.md": 700, "docs/ARCHITECTURE.md": 1_705,
    "docs/DECISIONS.md": 960, "docs/README.md": 235, "docs/commands.md": 2_550, "docs/concepts.md": 915,
    "docs/cookbook.md": 1_430, "docs/definitions.md": 4_355, "docs/differences.md": 1_125, "docs/embedding.md": 1_425,
    "docs/errors.md": 1_520, "docs/export.md": 770, "docs/feeding.md": 1_105, "docs/file-format.md": 3_345,
    "docs/files.md": 1_550, "docs/glossary.md": 455, "docs/graphite.md": 1_335, "docs/install.md": 1_090,
    "docs/is-rrdi-for-you.md": 535, "docs/migrate.md": 1_115, "docs/moving-files.md": 1_165,
    "docs/performance.md": 780, "docs/plotting.md": 650, "docs/proofs.md": 2_275, "docs/python.md": 1_595,
    "docs/recording.md": 775, "docs/results.md": 700, "docs/testing.md": 1_500, "docs/troubleshooting.md": 840,
    "docs/trust.md": 2_270, "docs/tutorial.md": 685, "tests/README.md": 630, "docs/rrdi-check.1": 350,
    "docs/rrdi-feed.1": 370,
    "docs/rrdi-plot.1": 495, "docs/rrdi-show.1": 335, "docs/rrdi.1": 2_430, "docs/rrdi.3": 2_260,
}
# The words that the manual page of a tool may have, and those of all pages together.
OF_TOOL, TOGETHER = 320, 50_000


def pages(top: Path) -> list[Path]:
    return [*top.glob("*.md"), *top.glob("tests/*.md"), *top.glob("docs/*.md"), *top.glob("docs/*.[13]")]


def words_of(path: Path) -> int:
    return len(path.read_text(encoding="utf-8").split())


def too_long(top: Path) -> list[str]:
    """Returns the pages that have too many words, and those without a limit."""
    found = []
    for path in pages(top):
        name, words = str(path.relative_to(top)), words_of(path)
        limit = LIMITS.get(name, OF_TOOL if path.match("rrdi-*.1") else 0)
        found += [f"{name} has {words} words, and may have {limit}"] if words > limit else []
    return sorted(found)


def too_many(top: Path) -> str:
    """Returns what all pages have together, if that is too much."""
    words = sum(map(words_of, pages(top)))
    return f"all pages have {words} words, and may have {TOGETHER}" if words > TOGETHER else ""


def test_lengths() -> None:
    assert (too_long(TOP), too_many(TOP)) == ([], "")
    assert LIMITS.keys() <= {str(path.relative_to(TOP)) for path in pages(TOP)}


def test_long_pages(folder: Path) -> None:
    (folder / "docs").mkdir()
    for name, words in (("README.md", 700), ("docs/README.md", 236), ("docs/rrdi-fix.1", OF_TOOL), ("docs/new.md", 1)):
        (folder / name).write_text("word " * words)
    assert too_long(folder) == ["docs/README.md has 236 words, and may have 235", "docs/new.md has 1 words, and may have 0"]
    (folder / "docs/new.md").write_text("word " * (TOGETHER - 936 - OF_TOOL))
    assert too_many(folder) == ""
    (folder / "README.md").write_text("word " * 701)
    assert too_many(folder) == "all pages have 50001 words, and may have 50000"
