# SPDX-License-Identifier: MIT OR Apache-2.0
"""Tests that the numbers on the pages are those of the code: each is read from its page."""
from __future__ import annotations

import re
import unittest
from unittest import mock

from doubles import TOP

from rrdi import amounts, collectd, environment, locks
from rrdi.errors import Damaged
from rrdi.graphite.store import StoreOptions
from rrdi.reader import pieces
from rrdi.tools import record


class Pages(unittest.TestCase):
    def number(self, page: str, pattern: str) -> float:
        """The number that stands on a page in the place of ( ), once; 10^18 is a power."""
        text = " ".join((TOP / "docs" / page).read_text(encoding="utf-8").split())
        found = {one if isinstance(one, str) else one[0] for one in re.findall(pattern, text)}
        self.assertEqual(len(found), 1, f"{page}: {pattern}")
        base, _, power = found.pop().replace(",", "").partition("^")
        return float(base) ** (int(power) if power else 1)

    def test_locks(self) -> None:
        with mock.patch.dict("os.environ", clear=True):
            seconds = environment.wait_of_environment() / 1_000
        self.assertEqual(self.number("files.md", r"rrdi tries again for (\d+) seconds"), seconds)
        self.assertEqual(self.number("files.md", r"anything but a whole number below 2\^64 \| (\d+) seconds"), seconds)
        self.assertEqual(self.number("files.md", r"a greater number \| ([\d,]+) seconds"), environment.LONGEST_WAIT)
        self.assertEqual(self.number("files.md", r"pauses that grow from (\d+) to \d+ milliseconds"), 1_000 * locks.FIRST_PAUSE)
        self.assertEqual(self.number("files.md", r"pauses that grow from \d+ to (\d+) milliseconds"), 1_000 * locks.LONGEST_PAUSE)

    def test_values(self) -> None:
        for page, pattern in (("definitions.md", r"absolute value below (10\^\d+)"), ("commands.md", r"\| a number below (10\^\d+) \|"),
                              ("graphite.md", r"infinities, (10\^\d+) and more")):
            self.assertEqual(self.number(page, pattern), amounts.LARGEST, page)
        reading = pieces.Reader(b"")
        below, most = (10**18 * 10**6 - 1).to_bytes(16, "big"), (10**18 * 10**6).to_bytes(16, "big")
        self.assertEqual(reading.raw("GAUGE", below), 10**24 - 1)
        with self.assertRaises(Damaged):
            reading.raw("GAUGE", most)

    def test_recording(self) -> None:
        self.assertEqual(self.number("recording.md", r"timed out after (\d+) seconds"), record.PATIENCE)
        self.assertEqual(self.number("recording.md", r"The heartbeat is (\d+) seconds"), record.HEARTBEAT)
        self.assertEqual(record.HOUR, 3_600)

    def test_many_machines(self) -> None:
        page = "graphite.md"
        self.assertEqual(self.number(page, r"`RRDI_MAX_FUTURE` \((\d+) s\)"), StoreOptions("").most_future)
        self.assertEqual(self.number(page, r"`RRDI_JOURNAL` \((\d+)\) is"), StoreOptions("").journal)
        self.assertEqual(self.number(page, r"`CacheTimeout` \((\d+) seconds\)"), collectd.Configuration().cachetimeout)
        self.assertEqual(self.number(page, r"`Journal` \((\d+)\) sets"), collectd.Configuration().journal)
