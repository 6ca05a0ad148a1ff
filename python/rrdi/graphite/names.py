# SPDX-License-Identifier: MIT OR Apache-2.0
"""The file of a metric: below the data folder, whatever the metric's name is."""
from __future__ import annotations

import hashlib
import os
from functools import lru_cache
from typing import Optional

SUFFIX = ".rrdi"
LONGEST_PART, LONGEST_PATH = 255, 4_095  # bytes, as Linux has them
TAGGED = "_tagged"


def encoded(metric: str, is_hashed: bool) -> str:
    """The file's name without its suffix, with a slash between folders, as carbon's `TaggedSeries.encode` makes it."""
    if ";" not in metric:
        return metric.replace(".", "/")
    digest = hashlib.sha256(metric.encode("utf-8", "surrogateescape")).hexdigest()
    name = digest if is_hashed else metric.replace(".", "_DOT_")
    return "/".join([TAGGED, digest[:3], digest[3:6], name])


def is_usable(part: str) -> bool:
    """Whether a part of a metric's name can be the name of a folder, and of a file with the suffix."""
    try:
        size = len(os.fsencode(part + SUFFIX))
    except UnicodeEncodeError:
        return False
    return part not in ("", ".", "..") and "/" not in part and "\0" not in part and size <= LONGEST_PART


@lru_cache(maxsize=100_000)
def path_of(folder: str, metric: str, is_hashed: bool = True) -> Optional[str]:
    """The path of a metric's file; None if the metric has no file.

    A metric has no file if a part of its name is empty, too long, or has a slash or a zero byte: such a file could be
    outside the folder, or be another metric's. (A name with tags is hashed, so it may have any parts.)
    """
    try:
        relative = encoded(metric, is_hashed)
    except UnicodeEncodeError:
        return None
    parts = relative.split("/")
    expected = 4 if ";" in metric else metric.count(".") + 1
    if len(parts) != expected or not all(map(is_usable, parts)) or parts[0] == TAGGED and ";" not in metric:
        return None
    path = os.path.join(folder, relative + SUFFIX)
    return path if len(os.fsencode(path)) <= LONGEST_PATH else None


def metric_of(relative: str) -> str:
    """The metric of a file or a folder, from its path below the data folder."""
    name = relative[:-len(SUFFIX)] if relative.endswith(SUFFIX) else relative
    return name.replace(os.sep, ".")
