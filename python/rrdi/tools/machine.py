# SPDX-License-Identifier: MIT OR Apache-2.0
"""What a machine says of itself: its load, its memory, a file system, and a network interface."""
from __future__ import annotations

import os
import re
from typing import Dict, List, NamedTuple, Optional

from .command_line import Failure

KIB = 1_024  # /proc/meminfo counts these


class Number(NamedTuple):
    """A number of the machine: the name of its source, the source's type, and the value as text."""

    name: str
    type: str
    value: str


def read_proc(name: str) -> "tuple[str, str]":
    """Returns the path and the text of a file of /proc, or of the directory that RRDI_PROC names."""
    path = os.path.join(os.environ.get("RRDI_PROC") or "/proc", name)
    with open(path, encoding="ascii", errors="replace") as file:
        return path, file.read()


def load() -> List[Number]:
    """Returns the load averages of 1, 5 and 15 minutes, as the system prints them.

    # Errors
    - `OSError` if the system's file cannot be read.
    - `Failure` if it has no three averages.
    """
    path = os.environ.get("LOADAVG")
    if path:
        with open(path, encoding="ascii", errors="replace") as file:
            text = file.read()
    else:
        path, text = read_proc("loadavg")
    loads = text.split("\n")[0].split()[:3]
    if len(loads) != 3 or not all(re.fullmatch(r"\d+(\.\d+)?", one) for one in loads):
        raise Failure(f"{path} has no three load averages")
    return [Number(f"load{minutes}", "GAUGE", one) for minutes, one in zip((1, 5, 15), loads)]


def memory() -> List[Number]:
    """Returns the bytes of memory that programs use, that cache files, and that are free, which add up to all; and the bytes
    of swap that are used.

    # Errors
    - `OSError` if the system's file cannot be read.
    - `Failure` if it lacks one of the numbers.
    """
    path, text = read_proc("meminfo")
    found: Dict[str, int] = {name: int(kib) * KIB for name, kib in re.findall(r"^(\w+): +(\d+) kB$", text, re.MULTILINE)}
    try:
        cached = found["Buffers"] + found["Cached"] + found.get("SReclaimable", 0)
        used, swap = found["MemTotal"] - found["MemFree"] - cached, found["SwapTotal"] - found["SwapFree"]
        values = (max(used, 0), cached, found["MemFree"], max(swap, 0))
    except KeyError as missing:
        raise Failure(f"{path} has no {missing.args[0]}") from None
    names = ("mem_used", "mem_cached", "mem_free", "swap_used")
    return [Number(name, "GAUGE", str(value)) for name, value in zip(names, values)]


def disk(path: str) -> List[Number]:
    """Returns the bytes that are used and free in the file system of a directory; free for users other than root.

    # Errors
    `OSError` if there is no such directory.
    """
    found = os.statvfs(path)
    return [Number("disk_used", "GAUGE", str((found.f_blocks - found.f_bfree) * found.f_frsize)),
            Number("disk_free", "GAUGE", str(found.f_bavail * found.f_frsize))]


def network(interface: str) -> List[Number]:
    """Returns the bytes that an interface has received and sent since the machine started.

    # Errors
    - `OSError` if the system's file cannot be read.
    - `Failure` if it has no such interface.
    """
    path, text = read_proc("net/dev")
    parted = (line.rpartition(":") for line in text.splitlines())
    rows = {name.strip(): numbers.split() for name, colon, numbers in parted if colon}
    row: Optional[List[str]] = rows.get(interface)
    if row is None or len(row) < 9:
        raise Failure(f"{path} has no interface {interface}, only {', '.join(sorted(rows))}")
    return [Number("net_in", "DERIVE", row[0]), Number("net_out", "DERIVE", row[8])]
