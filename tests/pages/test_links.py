# SPDX-License-Identifier: MIT OR Apache-2.0
"""The links of the pages lead somewhere, their tables are tables, and the pages name what is in the sources."""
from __future__ import annotations

import re
import subprocess
from pathlib import Path
from typing import Iterator, NamedTuple

import pytest

from support.program import TOP

PAGES = [*sorted(TOP.glob("*.md")), TOP / "tests/README.md", *sorted((TOP / "docs").glob("*.md"))]
LINK = re.compile(r"(!?)\[((?:[^][]|\[[^]]*\])*)\]\(([^()\s]*)\)")
ITEM, HEADING, RULE = re.compile(r"\s*(?:[-*]|\d+\.)\s+"), re.compile(r"(#+)\s+(.*)"), re.compile(r"\|[-:| ]+\|$")
# A link text that is the name of a file, not a phrase.
FILE_NAME = re.compile(r"`?[\w./-]+\.(md|[13])`?$")
# How many words a cell of a table may have, and how many cells of a page may have more.
LONG_CELL, MOST = 25, {"CONTRIBUTING.md": 2, "ARCHITECTURE.md": 4, "definitions.md": 8, "file-format.md": 5}


class Page(NamedTuple):
    """What is counted in a page: links with their texts, headings, cells of tables, tables that are shown as text."""
    links: list[tuple[str, str]]
    headings: list[str]
    cells: list[str]
    broken: list[str]


def blocks(text: str) -> Iterator[list[str]]:
    """Yields the blocks of a page without its code: the lines of each paragraph, table, item or heading."""
    block: list[str] = []
    is_fenced = is_code = False
    for line in [*text.splitlines(), ""]:
        is_fence = line.startswith("```")
        is_fenced = is_fenced != is_fence
        is_code = line.startswith("    ") and (is_code or not block) and not ITEM.match(line)
        is_left_out = not line.strip() or is_fence or is_fenced or is_code
        if block and (is_left_out or ITEM.match(line) or HEADING.match(line)):
            yield block
            block = []
        if not is_left_out:
            block.append(line.strip())


def parsed(text: str) -> Page:
    page = Page([], [], [], [])
    for lines in blocks(text):
        joined = " ".join(lines)
        page.links.extend((words, target) for mark, words, target in LINK.findall(joined) if not mark)
        heading = HEADING.match(joined)
        if heading:
            page.headings.append(heading[2])
        elif lines[0].startswith("|") and not (len(lines) > 1 and RULE.match(lines[1])):
            page.broken.append(joined)
        elif lines[0].startswith("|"):
            page.cells.extend(cell.strip() for line in lines[2:] for cell in re.split(r"(?<!\\)\|", line.strip("|")))
    return page


def anchor(heading: str) -> str:
    """Returns the name by which a link finds a heading."""
    plain = LINK.sub(lambda found: found[2], heading).replace("`", "").strip().lower()
    return re.sub(r"[^\w\- ]", "", plain).replace(" ", "-")


def leads_nowhere(path: Path, target: str) -> bool:
    """Checks whether there is no file, or no heading of it, to which a link of a page leads."""
    name, _, part = target.partition("#")
    place = (path.parent / name).resolve() if name else path
    if re.match(r"[a-z]+:", target) or place.exists() and not part:
        return False
    return not place.exists() or part not in map(anchor, parsed(place.read_text(encoding="utf-8")).headings)


def faults(path: Path) -> list[str]:
    """Returns what is wrong in a page."""
    page = parsed(path.read_text(encoding="utf-8"))
    plain = [re.sub(r"`[^`]+`", "code", LINK.sub(lambda found: found[2], cell)) for cell in page.cells]
    long = [cell for cell in plain if len(re.findall(r"[\w'^]+", cell)) > LONG_CELL]
    return [*(f"the link {target} leads nowhere" for _, target in page.links if leads_nowhere(path, target)),
            *(f"a table is shown as text: {text}" for text in page.broken),
            *(f"the text of a link is a file's name: {text}" for text, _ in page.links if FILE_NAME.match(text)),
            *(f"a long cell: {cell}" for cell in long if len(long) > MOST.get(path.name, 1))]


@pytest.mark.parametrize("path", PAGES, ids=[str(path.relative_to(TOP)) for path in PAGES])
def test_a_page(path: Path) -> None:
    assert faults(path) == []


def test_wrong_pages(folder: Path) -> None:
    right = "# A page\n\nSee [how it works](other.md#how-it-works), and [the page](#a-page).\n"
    row, page = f"| {'word ' * 26}" * 2 + "|\n", (folder / "page.md").resolve()
    (folder / "other.md").write_text("# How it `works`\n")
    for text, count in ((right, 0), (f"{right}\nSee [other.md](other.md).\n", 1), (f"{right}\n[a b](none.md)\n", 1),
                        (right.replace("#a-page", "#b"), 1), (f"{right}\n  | a | b | |---|---| | c\n  | d |\n", 1),
                        (f"{right}\n| a | b |\n|---|---|\n{row}", 2), (f"{right}\n    [a](b)\n```\n[a](c)\n```\n", 0)):
        page.write_text(text)
        assert len(faults(page)) == count, (text, faults(page))


# ---- what the pages about proofs name

SOURCES = [path for folder in ("crates", "library") for path in sorted((TOP / folder).glob("*/src/**/*.rt*"))
           if not path.relative_to(TOP).parts[1].startswith("tests_")]
NAMED = re.compile(r"\[`([\w:]+)`\]\((\.\./(?:crates|library)/[^)#]+)\)")
# The traits whose implementations say what a file has, and of which a false one would prove anything.
IMPLEMENTATION = re.compile(r"^impl\b.*\b(Bytes|Disk|Storage) for (\w+)", re.MULTILINE)
# Words that may lead around the prover, and the lines that have one.
WAY_AROUND = re.compile(r"\b(unsafe|axiom|postulate)\b", re.IGNORECASE)
UNSAFE = {("crates/rrd_disk/src/record.rt", "unsafe impl Send for Record {}"),
          ("library/rrdi_c/src/raw_box.rt.in", "unsafe { Box::from_raw(alloc, address) }")}
# The proofs by hand, which may say of a value what no check of the code sees.
BY_HAND = {f"crates/rrd_disk/proofs/{name}" for name in (
    "begun/Begun/note/Proof.antt", "record/Record/new/Proof.antt", "record/Record/note/Proof.antt",
    "record/Record/TheSendSync/Send.antt")} | {"crates/rrd_ring/proofs/ring/row_mut/Proof.antt"} | {
    f"library/rrdi_c/proofs/{name}/Proof.antt.in" for name in (
        "handle/Handle/into_raw_box", "handle/Handle/none", "handle/Handle/of", "raw_box/RawBox/from_box",
        "raw_box/RawBox/into_box")}
# A call of the system, which the record of the calls sees only in the bodies of `Disk for System`.
SYSTEM_CALL = re.compile(r"\b(?:libc|os)::[a-z]\w*\(")


def missing(page: str) -> list[str]:
    """Returns the names whose linked source has no function, type or trait of that name."""
    found = []
    for name, target in NAMED.findall(page):
        source = TOP / "docs" / target
        text = source.read_text(encoding="utf-8") if source.is_file() else ""
        words = (rf"\b(fn|struct|enum|trait|impl)\b[^\n]*\b{part}\b" for part in name.split("::"))
        found += [] if all(re.search(word, text) for word in words) else [name]
    return found


def test_contracts() -> None:
    """The functions that proofs.md names are in the sources that it links."""
    text = (TOP / "docs/proofs.md").read_text(encoding="utf-8")
    source = "../crates/rrd_base/src/database.rt"
    assert missing(text) == [] and len(NAMED.findall(text)) > 10
    assert missing(f"[`Database::update`]({source}), [`Database::gone`]({source}), [`a`](../crates/none.rt)") == [
        "Database::gone", "a"]


def test_trust() -> None:
    """The page trust.md names all the code that the theorem about FILE rests on, and there is no other."""
    text = re.sub(r"\s+", " ", (TOP / "docs/trust.md").read_text())
    found = {f"{found[1]} for {found[2]}" for path in SOURCES for found in IMPLEMENTATION.finditer(path.read_text())}
    assert set(re.findall(r"`((?:Bytes|Disk|Storage) for \w+)`", text)) == found != set()
    by_hand = {str(path.relative_to(TOP)) for name in ("Proof.antt*", "TheSendSync/*.antt*")
               for folder in ("crates", "library") for path in (TOP / folder).glob(f"*/proofs/**/{name}")}
    assert by_hand == BY_HAND
    searched = [path for folder in ("crates", "library") for part in ("src", "specs", "proofs")
                for path in (TOP / folder).glob(f"*/{part}/**/*") if path.suffix in (".rt", ".antt", ".in")]
    lines = {(str(path.relative_to(TOP)), line.strip()) for path in searched for line in path.read_text().splitlines()
             if WAY_AROUND.search(line.replace("#[unsafe(no_mangle)]", ""))}
    assert lines == UNSAFE and "`unsafe impl Send for Record` and one block in the C library" in text
    calling = {str(path.relative_to(TOP)) for path in SOURCES if SYSTEM_CALL.search(path.read_text())}
    assert calling == {"library/rrdi_c/src/system.rt.in"}


def test_definitions() -> None:
    """The command on the page definitions.md prints each module that one has to believe, and the page names its crate."""
    page = (TOP / "docs/definitions.md").read_text()
    shown = re.search(r"^    (grep .*\bspecs)$", page, re.MULTILINE)
    assert shown
    printed = subprocess.run(shown[1], shell=True, cwd=TOP, capture_output=True, text=True, check=True).stdout
    heads = {str(path.relative_to(TOP)): path.read_text().split("\n", 1)[0] for folder in ("crates", "library")
             for path in (TOP / folder).glob("*/specs/**/*.antt*")}
    defining = {path: head for path, head in heads.items() if head.startswith("-- Definition")}
    assert sorted(printed.splitlines()) == sorted(f"{path}:{head}" for path, head in defining.items()) and len(defining) > 80
    assert {path.split("/")[1] for path in defining} <= set(re.findall(r"`(\w+)(?:/\w+)*`", page))
    kinds = re.compile(r"-- (Definition|Glue|Laws?|Example)\b")
    assert all(kinds.match(head) or head.startswith("pub mod ") for head in heads.values())


def test_modules_without_counts() -> None:
    """docs/results.md names the modules that count, and of which it has no line."""
    before, _, lines = (TOP / "docs/results.md").read_text(encoding="utf-8").partition("## Counts")
    counting = {str(path.relative_to(TOP)) for folder in ("fuzz", "tests") for path in TOP.glob(f"{folder}/**/test_*.py")
                if re.search("^LEAST", path.read_text(encoding="utf-8"), re.MULTILINE)}
    named = {name if name.startswith("fuzz/") else f"tests/{name}" for name in re.findall(r"`(\w+/test_\w+\.py)`", before)}
    if "`surroundings`" in before:
        named |= {name for name in counting if name.startswith("tests/surroundings/")}
    assert named == counting - set(re.findall("^- `([^` ]+)", lines, re.MULTILINE)) and len(counting) > 30
