# SPDX-License-Identifier: MIT OR Apache-2.0
"""Tests of the limits of names: the system counts bytes, so letters of one to four bytes reach them at other lengths. The
longest name that is taken can be created, and a longer one is refused before anything waits for it."""
from __future__ import annotations

import os
from typing import Any, Dict, Optional

import graphite_doubles  # noqa: F401
import test_collectd
from cases import DataCase
from rrdi import collectd
from rrdi.feeding.rules import EACH_NAME, BadLine, Names, read_rules
from rrdi.graphite.losses import Losses
from rrdi.graphite.names import LONGEST_PART, LONGEST_PATH, SUFFIX, path_of
from rrdi.graphite.store import Store, StoreOptions

LETTERS = {1: "a", 2: "\u00e4", 3: "\u20ac", 4: "\U0001f600"}


def filled(size: int, letter: str) -> str:
    """Returns a text of so many bytes, with as many of a letter as there is room for."""
    width = len(letter.encode())
    return letter * (size // width) + "x" * (size % width)


class Lengths(DataCase):
    def is_possible(self, path: Optional[str]) -> bool:
        """Checks whether the system takes a path, which may be missing."""
        assert path is not None
        try:
            os.stat(path)
        except FileNotFoundError:
            return True
        return False

    def test_parts_of_metrics(self) -> None:
        most = LONGEST_PART - len(SUFFIX)
        for letter in LETTERS.values():
            path = path_of(str(self.folder), "m." + filled(most, letter))
            self.assertTrue(self.is_possible(path), letter)
            self.assertIsNone(path_of(str(self.folder), "m." + filled(most + 1, letter)), letter)

    def test_paths_of_metrics(self) -> None:
        """A path that is too long as a whole, though each of its parts is short."""
        for letter in LETTERS.values():
            for beyond in (0, 1):
                rest = LONGEST_PATH + beyond - len(os.fsencode(f"{self.folder}/")) - len(SUFFIX)
                parts = [filled(200, letter) for _ in range(rest // 201)]
                left = rest - 201 * len(parts)
                metric = ".".join([*parts, "y" * left]) if left else ".".join(parts) + "y"
                self.assertEqual(len(os.fsencode(metric)), rest)
                path = path_of(str(self.folder), metric)
                self.assertEqual(path is None, bool(beyond), (letter, beyond))
                if path:
                    self.assertTrue(self.is_possible(path), letter)

    def test_points_of_a_long_name(self) -> None:
        """They are lost at once, and wait for nothing."""
        for letter in LETTERS.values():
            losses = Losses(lambda line: None)
            store = Store(StoreOptions(str(self.folder)), losses, lambda: 1_000.0)
            store.write(".".join([filled(200, letter)] * 30), [(990.0, 1.0), (1_000.0, 2.0)])
            self.assertEqual((store.waiting, losses.take()["name"]), (0, 2), letter)

    def test_names_of_collectd(self) -> None:
        most = collectd.LONGEST_NAME
        for letter in LETTERS.values():
            fields: Dict[str, Dict[str, Any]] = {
                "host": {"host": filled(most, letter)}, "plugin": {"plugin": filled(most, letter)},
                "type": {"type": filled(most - len(collectd.SUFFIX), letter)}}
            for name, field in fields.items():
                path = collectd.file_of(str(self.folder), test_collectd.values(1, 1.0, **field))
                self.assertTrue(self.is_possible(path), (name, letter))
                longer = {name: field[name] + "x"}
                self.assertIsNone(collectd.file_of(str(self.folder), test_collectd.values(1, 1.0, **longer)), (name, letter))

    def test_names_of_feeds(self) -> None:
        names = Names(os.fsencode(self.folder), read_rules(EACH_NAME))
        for letter in LETTERS.values():
            most = LONGEST_PART - len(SUFFIX)
            target = names.target(os.fsencode(filled(most, letter)))
            self.assertTrue(self.is_possible(os.fsdecode(target.file)), letter)
            with self.assertRaises(BadLine, msg=letter):
                names.target(os.fsencode(filled(most + 1, letter)))
