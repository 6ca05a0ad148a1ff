# SPDX-License-Identifier: MIT OR Apache-2.0
"""How a run waits for a lock that another program holds: its tries and its pauses, in a log of `between.c`. The pauses
take no time there, so that no clock is asked."""
from __future__ import annotations

from support.between import Event, calls_of, pauses_of
from support.changes import LOCK_UN

# The values of RRDI_WAIT, and the milliseconds for which a run then waits; and values with which it tries very often.
WAITS = {"0": 0, "1": 1_000, "2": 2_000, "18446744073709551616": 5_000, "x": 5_000, "-1": 5_000, "": 5_000,
         "1.5": 5_000, " 1": 5_000}
LONG_WAITS = {"60": 60_000, "3600": 3_600_000, "3601": 3_600_000, "18446744073709551615": 3_600_000}
# The shortest and the longest pause in milliseconds, and the nanoseconds of a millisecond.
SHORTEST, LONGEST, MILLION = 1, 5, 1_000_000


def tries(events: list[Event]) -> int:
    """Returns how often a run tried to lock a file."""
    return sum(call.kind == "flock" and not call.size & LOCK_UN for call in calls_of(events))


def pauses(count: int, milliseconds: int) -> list[int]:
    """Returns the first pauses of a run that waits for so long: each is twice as long as the one before, up to the
    longest, and the last one ends the time."""
    found: list[int] = []
    pause = SHORTEST
    while milliseconds and len(found) < count:
        found.append(min(pause, milliseconds))
        milliseconds -= found[-1]
        pause = min(2 * pause, LONGEST)
    return found


def faults(events: list[Event], milliseconds: int, refused: int | None = None) -> list[str]:
    """Returns what is wrong with a run that may wait for so long. It gets the lock after so many refused tries, or
    never: then it must use the whole time. After each refusal it pauses and tries again."""
    made = pauses_of(events)
    wanted = [MILLION * pause for pause in pauses(10**9 if refused is None else refused, milliseconds)]
    found = []
    if made != wanted:
        found.append(f"{len(made)} pauses of {sum(made) / MILLION:g} ms, {made[:9]}.., not {len(wanted)} of "
                     f"{sum(wanted) / MILLION:g} ms")
    if tries(events) != len(made) + 1:
        found.append(f"{tries(events)} tries with {len(made)} pauses")
    return found
