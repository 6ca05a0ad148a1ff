# SPDX-License-Identifier: MIT OR Apache-2.0
"""Tests of what tells the files of rrdi, RRDtool and whisper apart."""
from __future__ import annotations

import os
import unittest

from cases import DataCase
from rrdi.kinds import first_bytes, is_of_rrdi, owner_of, why_not_ours


class Kinds(DataCase):
    def test_first_bytes(self) -> None:
        for number, (data, is_own, other) in enumerate((
                (b"RRDI\0\2", True, ""), (b"RRDC\0", True, ""), (b"RRDLog\0", True, ""), (b"RRDc", False, ""), (b"RRDX", False, ""),
                (b"RRD", False, ""), (b"", False, ""), (b"RRD\0003", False, "RRDtool"), (b"rrdi", False, ""),
                (b"\0\0\0\1", False, "whisper"), (b"\0\0\0\x08more", False, "whisper"), (b"\0\0\0\0", False, ""),
                (b"\0\0\0\x09", False, ""), (b"\0\0\0", False, ""), (b"\1\0\0\1", False, ""), (b"\0\0\1\1", False, ""))):
            file = self.folder / f"{number}.wsp"
            file.write_bytes(data)
            with self.subTest(data=data):
                self.assertEqual((is_of_rrdi(str(file)), owner_of(str(file)), first_bytes(str(file))), (is_own, other, data[:4]))
                file.rename(file.with_suffix(".rrd"))  # the name counts for whisper
                wanted = "" if other == "whisper" else other
                self.assertEqual(owner_of(str(file.with_suffix(".rrd"))), wanted)

    def test_how_to_convert(self) -> None:
        """A line for a file of another program, whatever its name has in it; nothing for others."""
        for name, data, said in (("a.rrd", b"RRD\0003", "{0} is a file of RRDtool; rrdi-import converts it"),
                                 ("b\n.wsp", b"\0\0\0\1", "{0} is a file of whisper; rrdi-import converts it"),
                                 ("c.rrdi", b"RRDI\0\2", ""), ("d", b"text", "")):
            file = self.folder / name
            file.write_bytes(data)
            self.assertEqual(why_not_ours(str(file)), said.format(str(file).replace("\n", "\\n")))

    def test_no_file(self) -> None:
        os.mkfifo(self.folder / "f")
        for file in (self.folder / "none", self.folder, self.folder / "f"):
            self.assertEqual((first_bytes(str(file)), is_of_rrdi(str(file)), owner_of(str(file))), (b"", False, ""))


if __name__ == "__main__":
    unittest.main()
