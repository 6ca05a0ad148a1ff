# SPDX-License-Identifier: MIT OR Apache-2.0
"""An error's `detail` is the explanation of the program: for each refusal of the table, by the C library and by the program."""
from __future__ import annotations

import errno
import os
import unittest
from typing import Any, List, Tuple
from unittest import mock

from cases import needs_library, needs_program, new_folder
from doubles import PROGRAM
from support.refusals import NOW, Row, rows
from tool_case import ToolCase

import rrdi
from rrdi import errors, memory
from rrdi.by_program import ByProgram, number_of
from rrdi.commands import run_on
from rrdi.database import RefusedLines
from rrdi.errors import details_in
from rrdi.escaping import escaped
from rrdi.feeding.writers import BatchWriter, Reason
from rrdi.kept_file import KeptFile
from rrdi.protocol import Answer
from rrdi.words import encoded

IN_USE = "f: in use by another program (waited 5 seconds)"


class Answers(unittest.TestCase):
    def test_reasons_of_the_system(self) -> None:
        for text, number in (("f: no such file or directory", errno.ENOENT), (IN_USE, errno.EAGAIN),
                             ("a: b: permission denied", errno.EACCES), ("f: is a directory", errno.EISDIR),
                             ("f: No locks available (os error 37)", 37), ("f: anything", 0),
                             ("f: no space left, or a limit on the size of files", errno.ENOSPC)):
            self.assertEqual(number_of(text), number)

    def test_refused_samples(self) -> None:
        answer = Answer(0, 0, 0, b"ERROR: bad value\nERROR: no sample\n", (1, 3), None, b"line 3: c\n")
        found = BatchWriter(mock.Mock(batch_file=mock.Mock(return_value=answer))).write(b"f", [b"1:a", b"2:b", b"3:c"]).refused
        self.assertEqual(found, ((b"1:a", "bad value"), (b"3:c", "no sample")))
        details = [reason.detail for _, reason in found if isinstance(reason, Reason)]
        self.assertEqual(details, ["", "c"])


class Refusals(unittest.TestCase):
    """Each refusal of the table."""

    def setUp(self) -> None:
        self.file = str(new_folder(self) / "f.rrdi")
        self.made: List[str] = []

    def create(self, row: Row) -> None:
        if row.create != self.made:
            self.made = row.create
            run_on(self.file, row.create, now=NOW)

    def detail(self, call: Any, *words: Any, **options: Any) -> str:
        with self.assertRaises(rrdi.Error) as raised:
            call(*words, **options)
        self.assertEqual(str(raised.exception).endswith(raised.exception.detail), True)
        return raised.exception.detail

    @needs_library
    def test_by_the_library(self) -> None:
        for row in rows():
            self.create(row)
            with open(self.file, "rb") as file:
                data = file.read()
            kept = KeptFile(self.file)
            for way, found in (("path", self.detail(run_on, self.file, row.words, now=NOW)),
                               ("open", self.detail(kept.run, row.words, now=NOW)),
                               ("memory", self.detail(memory.run, data, *row.words, now=NOW))):
                self.assertEqual(found, row.says, (way, row.words))
            kept.close()

    @needs_library
    def test_lines(self) -> None:
        lines = ["update 10:1,5:2", "last", "update 20:1", "update 30:1:2"]
        self.create(rows()[0])
        says = ["its value 1 is '1,5'; write '1.5', with a point", "sample 1 has 1 value, 2 are wanted: a, b"]
        self.assertEqual([line.detail for line in rrdi.batch(self.file, lines, now=NOW).refused], says)
        with self.assertRaises(RefusedLines) as raised:
            with rrdi.Database(self.file, collect=True, now=NOW) as database:
                database.update("40:1")
                database.update("50:1:x")
        self.assertEqual([line.detail[:10] for line in raised.exception.lines], ["sample 1 h", "its value "])
        self.assertIn(says[1], str(raised.exception))

    @needs_program
    def test_by_the_program(self) -> None:
        by_program = ByProgram(str(PROGRAM))
        for row in rows():
            if row.has_clock:
                continue
            if row.create != self.made:
                self.made = row.create
                self.assertEqual(by_program.run_file(os.fsencode(self.file), encoded(row.create), 0, 0, False).fault, errors.OK)
            answer = by_program.run_file(os.fsencode(self.file), encoded(row.words), 0, 0, False)
            self.assertIn(answer.fault, errors.EXPLAINED)
            self.assertEqual(answer.explanation.decode(), row.says, row.words)
        by_program.run_file(os.fsencode(self.file), encoded(rows()[0].create), 0, 0, False)
        lines = b"update 10:1:2\nupdate 20:1\nlast\nupdate x"
        answer = by_program.batch_file(os.fsencode(self.file), lines, 0, 0, False)
        self.assertEqual((answer.refused, sorted(details_in(answer.explanation))), ((2, 4), [2, 4]))


class Tools(ToolCase):
    def test_characters_of_others(self) -> None:
        """What a tool prints of a file's name or of a word commands no terminal, and stays in its line."""
        name, shown = "a\n\x1b[2J\u202e\u200b\u2028", "a\\n\\u{1b}[2J\\u{202e}\\u{200b}\\u{2028}"
        self.assertIn(shown, self.tool("rrdi-show", name).err)
        for words in ((name,), (name, "x.png", "AVERAGE"), (name, name)):
            for tool in ("rrdi-show", "rrdi-plot", "rrdi-export", "rrdi-import", "rrdi-record", "rrdi-compare", "rrdi-fix",
                         "rrdi-graph", "rrdi-rrdtool"):
                ran = self.tool(tool, *words)
                lines: Tuple[str, ...] = tuple(ran.err.splitlines(True))
                self.assertTrue(all(line.endswith("\n") and escaped(line[:-1]) == line[:-1] for line in lines), (tool, ran.err))


if __name__ == "__main__":
    unittest.main()
