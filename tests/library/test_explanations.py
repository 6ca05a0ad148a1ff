# SPDX-License-Identifier: MIT OR Apache-2.0
"""The explanation in an answer: of each refusal of the table, over a file, on an open file, in numbers and in memory, and of
each refused line of a batch."""
from __future__ import annotations

import re
from pathlib import Path

from support.changes import FILE
from support.check import Check
from support.library import ON_FILES, WAYS
from support.program import Program, error
from support.refusals import NOW, Row, rows, said

LEAST = {"refusals": 800, "batches": 12, "files": 10}


def create(by_library: Program, folder: Path, row: Row) -> None:
    made = by_library.run(["create", FILE, *row.create[1:]], cwd=folder)
    assert made == (0, "", ""), made


def test_refusals(by_library: Program, check: Check, tmp_path: Path) -> None:
    made: list[str] = []
    for row in rows():
        if row.create != made:
            create(by_library, tmp_path, row)
            made = row.create
        words = [row.words[0], FILE, *row.words[1:]]
        for way, env in WAYS.items():
            if way == "in numbers" and "ahead of the clock" in row.says:
                continue  # numbers come without the present time
            ran = by_library.run(words, cwd=tmp_path, env={**env, "NOW": str(NOW)})
            check.count("refusals")
            check.same((ran.status in (1, 2), ran.out, said(ran.err)), (True, "", row.says), f"{way}: {' '.join(words)[:80]}")


def test_refused_lines(by_library: Program, check: Check, tmp_path: Path) -> None:
    table = [row for row in rows() if all(re.fullmatch("[!-~]+", word) for word in row.words)]
    for made in {tuple(row.create): None for row in table}:
        of_one = [row for row in table if tuple(row.create) == made][:40]
        lines = "".join(f"{' '.join(row.words)}\nlast\n" for row in of_one)
        says = "".join(f"rrdi: line {2 * at + 1}: {row.says}\n" for at, row in enumerate(of_one) if row.says)
        for way, env in WAYS.items():
            create(by_library, tmp_path, of_one[0])
            ran = by_library.run(["batch", FILE], lines, cwd=tmp_path, env={**env, "NOW": str(NOW)}, explains=True)
            check.count("batches")
            check.same((ran.status, ran.err), (1, says), f"{way}: what is said of refused lines")


def test_files(by_library: Program, check: Check, tmp_path: Path) -> None:
    """If the file cannot be opened, read or written, the explanation names it, with characters that command a terminal as their
    codes; if it is one of another program, it names that program."""
    name = "a\x1b\n\u202e.rrdi"
    (tmp_path / "folder").mkdir()
    (tmp_path / "old").write_bytes(b"RRD\x000003")
    (tmp_path / "old.wsp").write_bytes(b"\0\0\0\1" + bytes(100))
    for file, fault, why in ((name, "cannot open", "a\\u{1b}\\n\\u{202e}.rrdi: no such file or directory"),
                             ("folder", "cannot open", "folder: is a directory"),
                             (b"\xff.rrdi", "cannot open", "the path is not in UTF-8"),
                             ("old", "file: not ours", "old is a file of RRDtool; rrdi-import converts it"),
                             ("old.wsp", "file: not ours",
                              "old.wsp is a file of whisper; rrdi-import converts it")):
        for way in ON_FILES:
            ran = by_library.run(["last", file], cwd=tmp_path, env=WAYS[way])
            check.count("files")
            check.same(ran, (1, "", f"{error(fault)}rrdi: {why}\n"), f"{way}: {why}")
