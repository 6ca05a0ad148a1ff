# SPDX-License-Identifier: MIT OR Apache-2.0
"""What the tests know of files and commands without the program: definitions, layout, marks, forms in the manual."""
from __future__ import annotations

import pytest

from support import definitions, layout, manual, marks, random_batches
from support.layout import UNKNOWN, heads, known
from support.sizes import LARGE, SMALL, START


def test_definitions() -> None:
    """A gauge, and its steps."""
    source = definitions.Source("g", "GAUGE", 100, None, None)
    create = definitions.Create(10, 0, 16, [source], [definitions.Archive("LAST", 0, 1, 4)])
    database, told = definitions.run(None, create)
    assert told == []
    database, told = definitions.run(database, definitions.Update(None, [(10, ["1"]), (25, ["7"])]))
    assert (told, database.last) == ([], 25)
    assert [database.step_cell(0, step) for step in (0, 1)] == [10**6, 7 * 10**6]
    assert [definitions.near(*pair) for pair in ((7, 2), (-7, 2), (5, 3))] == [4, -3, 2]
    assert definitions.shown(-1_500_000) == "-1.500000" and definitions.rise(5, 3) == 2**32 - 2
    with pytest.raises(definitions.Refused):
        definitions.admitted("COUNTER", "1.5")


def test_random_batches_are_the_same_each_time() -> None:
    assert random_batches.batch(7) == random_batches.batch(7) != random_batches.batch(8)


# ---- the examples of docs/file-format.md: a gauge of four rows, which gets `update 10:1`

OLD = heads(2, ["g"], [4]) + 4 * UNKNOWN


def test_layout() -> None:
    assert len(OLD) == 224 and OLD[:6] == b"RRDI\0\2"
    first = layout.as_version(1, OLD)
    assert (len(first), first[:6]) == (220, b"RRDI\0\1") and first == heads(1, ["g"], [4]) + 4 * UNKNOWN
    assert layout.as_version(2, first) == OLD
    assert [layout.size_of_header(version) for version in (1, 2)] == [26, 30]
    assert known(1) == bytes(13) + b"\x0f\x42\x40" and layout.resized(5) == b"\3\0\0\0\0\0\5"
    assert (len(layout.source("g")), len(layout.archive(4))) == (97, 33)


def test_marks() -> None:
    """The file of the update, killed after the log mark."""
    updated = layout.settings("g")[:-16] + known(1) + bytes(20)
    new = b"".join([heads(2, ["g"], [4], last=10, entries=1).replace(layout.source("g"), updated), UNKNOWN, known(1),
                    2 * UNKNOWN, b"\1", bytes(8), UNKNOWN, bytes(40), layout.number(1, 4), UNKNOWN])
    held = marks.with_base(OLD, 309)
    assert held[:309] == marks.begun(OLD, 309) == bytes.fromhex("5252444c6f6700000000000000000135") + OLD[16:] + bytes(85)
    assert held[309:].hex() == ("0000000000000135" "0000000000000135" "0000000000000020" "0000000000000001"
                                "00000000000000e0" "2c097dc66912ae8b" "0000000000000000" "0000000000000010"
                                "5252444900020000000a000000000000")
    held = marks.with_change(held, 309, (176, new[176:192]), (0, new[:160]), (224, new[224:]))
    assert len(held) == 746 and held[389:437].hex() == ("0000000000000185" "0000000000000135" "0000000000000135"
                                                        "0000000000000003" "0000000000000135" "cca699fd8b4547b7")
    for made, mark, size in ((marks.cut(OLD), b"RRDC\0\2", 224), (marks.uncommitted(OLD, new), b"RRDC\0\2", 762),
                             (marks.logged(OLD, new), b"RRDLog", 762), (marks.placed(OLD, new), b"RRDLog", 762),
                             (marks.uncut(OLD, new), b"RRDC\0\2", 762)):
        assert (made[:6], len(made)) == (mark, size)
    assert marks.logged(OLD, new)[16:224] == OLD[16:] and marks.placed(OLD, new)[16:309] == new[16:]
    assert marks.uncut(OLD, new)[4:309] == new[4:]
    assert marks.checksum(b"\1") == marks.checksum(b"\1" + bytes(7)) != marks.checksum(b"\2")


# ---- the forms of commands

USAGE = """ERROR: usage
usage: rrdi COMMAND FILE ARGUMENT..
       rrdi batch [FILE]

Runs one
command.

commands:
  create FILE [-s|--step SECONDS] DEFINITION..
         creates it
         a DEFINITION is DS:name
         or RRA:AVERAGE
  tune   FILE [-i NAME:MIN]
         [-a NAME:MAX]
         changes it

FILE is a file.

rrdi 0.2.0
"""
PAGE = """x

## create: makes one

    rrdi create FILE [-s|--step SECONDS] D..

more

    rrdi other FILE

## tune: changes it

    rrdi tune FILE [--a B]
              [-c|--d E]

## batch: runs many

    rrdi batch [FILE]
"""


def test_manual() -> None:
    assert manual.statements_of(USAGE) == "Runs one command. creates it changes it FILE is a file."
    found = manual.in_page(PAGE)
    assert list(found) == ["create", "tune"] and manual.in_page("nothing") == {}
    assert manual.options(found["tune"]) == [("", "a", "B"), ("c", "d", "E")]
    text = "usage\n\ncommands:\n  create FILE [--a B]\n         a DEFINITION is\n  last   FILE\n\nend\n"
    forms = {name: manual.plain(form) for name, form in manual.in_usage(text).items()}
    assert forms == {"create": "CREATE[--AB]", "last": "LAST"}
    assert manual.plain("a [-b|--c D]") != manual.plain("a [-b|--c E]")


def test_sizes() -> None:
    assert (SMALL.sources, LARGE.sources) == (1, 2)
    assert (SMALL.sample(1), LARGE.sample(4, 3)) == (f"{START + 10}:1.5", f"{START + 40}:7.5:8.5")
    assert LARGE.create[:4] == ["--step", "10", "--start", str(START)]
