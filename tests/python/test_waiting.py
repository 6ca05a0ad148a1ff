# SPDX-License-Identifier: MIT OR Apache-2.0
"""Tests of what waits for files that cannot be written: there are bounds for a file and for all, so that a full disk takes
no memory without end, and what is lost is counted."""
from __future__ import annotations

import unittest
from typing import List
from unittest import mock

import graphite_doubles as graphite
from cases import DataCase, use_library
from rrdi.graphite import store as stores
from rrdi.graphite.layout import template
from rrdi.graphite.losses import Losses
from rrdi.unwritten import MOST_OF_A_FILE, MOST_OF_ALL, newest

NOW = 1_700_000_000


class Newest(unittest.TestCase):
    def test_items(self) -> None:
        for room, kept, lost in ((3, [1, 2, 3], 0), (9, [1, 2, 3], 0), (2, [2, 3], 1), (0, [], 3)):
            self.assertEqual(newest([1, 2, 3], room), (kept, lost))


class OfGraphite(DataCase):
    """Points of many metrics while no file can be written, and afterwards."""

    def setUp(self) -> None:
        super().setUp()
        self.library = graphite.KeepingLibrary()
        use_library(self, self.library)
        self.losses = Losses(lambda line: None)
        self.store = stores.Store(stores.StoreOptions(str(self.folder)), self.losses, lambda: NOW)
        self.lost = 0

    def write(self, number: int, count: int, is_busy: bool = True) -> None:
        name = f"m{number}"
        if not self.store.has(name):
            self.store.create(name, template([(10, 1_000)], 0.5, "average", 16))
        if is_busy:
            self.library.answers = [graphite.BUSY]
        self.store.write(name, [(float(NOW - 10 * at), float(at)) for at in range(count)])
        self.lost += self.losses.take()["failed"]

    def test_bounds(self) -> None:
        self.assertEqual((MOST_OF_A_FILE, MOST_OF_ALL), (10_000, 1_000_000))
        with mock.patch.multiple(stores, MOST_OF_A_FILE=4, MOST_OF_ALL=10):
            waiting: List[int] = []
            for number, count in ((1, 3), (2, 9), (3, 3), (4, 2), (5, 1), (1, 1), (2, 1)):
                self.write(number, count)
                waiting.append(self.store.waiting)
            self.assertEqual(waiting, [3, 7, 10, 10, 10, 10, 10])
            self.assertEqual(self.lost, 20 - 10)
            # When the files can be written, all that waits is written, and then there is room again.
            for number in (1, 2, 3):
                self.write(number, 1, is_busy=False)
            self.assertEqual((self.store.waiting, self.lost), (0, 10))
            self.write(5, 4)
            self.assertEqual((self.store.waiting, self.lost), (4, 10))
