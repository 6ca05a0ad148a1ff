# SPDX-License-Identifier: MIT OR Apache-2.0
"""What the writers for collectd and for Graphite do with samples of a file that cannot be written: they wait for the next
ones of that file, and of too many the oldest are lost. `rrdi-feed` can make its input wait instead, so it loses none."""
from __future__ import annotations

from typing import List, Tuple, TypeVar

from .damaged import set_aside
from .errors import Damaged, Error

Item = TypeVar("Item")

# At most so many wait.
MOST_OF_A_FILE, MOST_OF_ALL = 10_000, 1_000_000


def newest(items: List[Item], room: int) -> Tuple[List[Item], int]:
    """Returns the newest items, for which there is room, and how many are lost."""
    lost = max(len(items) - room, 0)
    return items[lost:], lost


def why(path: str, fault: Exception) -> str:
    """Returns why samples of a file wait. A damaged file is renamed, so that the next ones make a new file."""
    if isinstance(fault, Damaged):
        return set_aside(path, fault)
    return str(fault) if isinstance(fault, (Error, OSError)) else f"{type(fault).__name__}: {fault}"
