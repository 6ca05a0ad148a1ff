# SPDX-License-Identifier: MIT OR Apache-2.0
"""Tests on the file of a database, in a folder of their own."""
from __future__ import annotations

import contextlib
import os
from typing import Any

from cases import new_folder, use_library

import rrdi

LAST = 1_600_000_030
BOTH = ("DS:g:GAUGE:100:-10:U", "DS:c:COUNTER:100:0:50", "RRA:AVERAGE:0.5:1:4", "RRA:MAX:0.25:2:4")


class OfFiles:
    """Tests in a folder of their own. A class of tests adds which library they call."""

    def setUp(self: Any) -> None:
        self.folder = new_folder(self)
        self.file = self.folder / "f.rrdi"
        use_library(self, self.library())

    def create(self: Any, *definitions: str) -> Any:
        rrdi.create(self.file, *(definitions or BOTH), step=10, start=1_600_000_000)
        return self.file

    def fill(self: Any) -> Any:
        self.create()
        rrdi.update(self.file, "1600000010:1.5:5", "1600000020:U:8", "1600000030:-2.25:15")
        return self.file

    @contextlib.contextmanager
    def as_nobody(self: Any) -> Any:
        """Root may open every file, so the calls are made as nobody."""
        if os.geteuid() != 0:
            yield
            return
        self.folder.chmod(0o755)
        os.seteuid(65_534)
        try:
            yield
        finally:
            os.seteuid(0)

    def refuses(self: Any, kind: type, reason: str, call: Any, *words: Any, **options: Any) -> Any:
        """A call raises this exception with this reason, and the file stays as it is."""
        before = self.file.read_bytes() if self.file.exists() else None
        with self.assertRaises(kind) as raised:
            call(*words, **options)
        self.assertIs(type(raised.exception), kind)
        self.assertEqual(raised.exception.reason, reason)
        self.assertEqual(self.file.read_bytes() if self.file.exists() else None, before)
        return raised.exception
