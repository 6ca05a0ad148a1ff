# SPDX-License-Identifier: MIT OR Apache-2.0
"""Tests of what rrdi-rrdtool imports: most of the cost of a call is imports, so a call imports what its command needs."""
from __future__ import annotations

import re
import sys
from typing import Set

from doubles import TOP
from tool_case import ToolCase

# Modules that cost as much as the rest of a call, and that few commands need.
COSTLY = {"asyncio", "dataclasses", "datetime", "decimal", "inspect", "json", "pathlib", "rrdi.commands", "rrdi.database",
          "rrdi.reader", "rrdi.tools.graphing", "rrdi.tools.rrdtool.pipe", "shutil", "tempfile",
          "urllib.parse"}


class Imports(ToolCase):
    def imported(self, *words: str) -> Set[str]:
        """Returns the modules that a call imports. The site's own ones are left out."""
        ran = self.run_command([sys.executable, "-S", "-X", "importtime", str(TOP / "tools/rrdi-rrdtool"), *words])
        self.assertEqual((ran.status, ran.out), (0, "7\n" if words[0] == "last" else ""))
        return set(re.findall(r"\| +(\S+)$", ran.err, re.MULTILINE))

    def test_by_the_program(self) -> None:
        self.env.pop("RRDI_LIBRARY", None)
        self.env["RRDI"] = self.stub("seven", "echo 7")
        for words in (["last", "f"], ["update", "f", "10:1:U", "N:1.5"], ["create", "f", "DS:g:GAUGE:9:0:U", "RRA:MAX:0.5:1:9"]):
            with self.subTest(words=words):
                found = self.imported(*words)
                self.assertIn("rrdi.tools.rrdtool", found)
                self.assertEqual(found & (COSTLY | {"ctypes", "rrdi.library"}), set())
        self.assertIn("decimal", self.imported("update", "f", "10:1e3"))
