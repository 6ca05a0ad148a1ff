# SPDX-License-Identifier: MIT OR Apache-2.0
"""The variables RRDI_WAIT and RRDI_SYNC of the environment, which are the defaults of `busy_timeout` and `sync`."""
from __future__ import annotations

import os
from typing import Optional

LONGEST_WAIT = 3_600.0  # seconds
LONGEST_WHOLE = 20  # digits of a number that rrdi reads, zeros in front included


def wait_of_environment() -> int:
    """Returns the milliseconds to wait for a lock: those of RRDI_WAIT, or 5 seconds."""
    text = os.environ.get("RRDI_WAIT", "")
    if not (text.isascii() and text.isdigit()) or len(text) > LONGEST_WHOLE or int(text) >= 1 << 64:
        return 5_000
    return min(int(text), int(LONGEST_WAIT)) * 1_000


def sync_of_environment() -> bool:
    """Returns whether RRDI_SYNC asks that each change is flushed to the disk."""
    return os.environ.get("RRDI_SYNC") == "1"


# The program reads these variables at its start; the package reads them when it is imported.
WAIT, SYNC = wait_of_environment(), sync_of_environment()


def milliseconds(busy_timeout: Optional[float]) -> int:
    """Returns the milliseconds to wait for a lock. For None, the time is that of RRDI_WAIT, or 5 seconds, as in rrdi.

    # Errors
    `ValueError` if the time is negative or not a number.
    """
    if busy_timeout is None:
        return WAIT
    if not busy_timeout >= 0:
        raise ValueError(f"busy_timeout must be 0 or more seconds, not {busy_timeout}")
    return int(min(busy_timeout, LONGEST_WAIT) * 1_000)


def is_synced(sync: Optional[bool]) -> bool:
    """Returns whether each change is flushed to the disk. For None, the answer is whether RRDI_SYNC is 1, as in rrdi."""
    return SYNC if sync is None else sync
