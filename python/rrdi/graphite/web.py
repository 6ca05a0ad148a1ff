# SPDX-License-Identifier: MIT OR Apache-2.0
"""Finder and reader of graphite-web for the files that `rrdi.graphite.carbon` writes.

In local_settings.py, with the folder of this package on PYTHONPATH:

    STORAGE_FINDERS = ('rrdi.graphite.web.RrdiFinder',)
    RRDI_DIR = '/var/lib/graphite/whisper'

RRDI_DIR is carbon's LOCAL_DATA_DIR; by default it is WHISPER_DIR.
"""
from __future__ import annotations

import os
import time
from typing import Any, Iterable, Iterator, List, Optional, Sequence, Tuple

from django.conf import settings
from graphite.finders.utils import BaseFinder
from graphite.intervals import Interval, IntervalSet
from graphite.logger import log
from graphite.node import BranchNode, LeafNode
from graphite.readers.utils import BaseReader, merge_with_carbonlink

from ..errors import Error
from ..escaping import escaped
from ..reader.selected import OpenFile
from .finding import TooMuch, find
from .names import metric_of, path_of
from .series import read_series

LONGEST_SHOWN = 300  # characters of a pattern in the log
TimeInfo = Tuple[int, int, int]


class RrdiReader(BaseReader):  # type: ignore[misc]
    """Reads one metric. What can't be read gives a line in the log, and no values."""

    __slots__ = ("path", "metric")

    def __init__(self, path: str, metric: str):
        self.path, self.metric = path, metric

    def get_intervals(self) -> Any:
        """The time from the beginning of the longest archive to the last change of the file."""
        try:
            with OpenFile(self.path) as file:
                longest = max(archive.retention for archive in file.outline().archives)
                changed = os.fstat(file.file).st_mtime
        except (Error, OSError) as fault:
            self.complain(fault)
            return IntervalSet([])
        start = time.time() - longest
        return IntervalSet([Interval(start, max(changed, start))])

    def fetch(self, startTime: float, endTime: float, now: Optional[float] = None,
              requestContext: Any = None) -> Optional[Tuple[TimeInfo, List[Optional[float]]]]:
        try:
            with OpenFile(self.path) as file:
                found = read_series(file, int(startTime), int(endTime), int(now or time.time()))
        except (Error, OSError) as fault:
            self.complain(fault)
            return None
        if found is None:
            return None
        # What carbon has received and not written yet.
        values = merge_with_carbonlink(self.metric, found.start, found.step, found.values, found.method, found.raw_step)
        return (found.start, found.end, found.step), values

    def complain(self, fault: Exception) -> None:
        log.info(escaped(f"rrdi: cannot read {self.path}: {fault}"))


class RrdiFinder(BaseFinder):  # type: ignore[misc]
    """Finds metrics below RRDI_DIR, by patterns and by names with tags."""

    def __init__(self, folders: Optional[Sequence[str]] = None):
        self.folders = folders or [getattr(settings, "RRDI_DIR", None) or settings.WHISPER_DIR]

    def find_nodes(self, query: Any) -> Iterator[Any]:
        pattern = query.pattern
        for folder in self.folders:
            if ";" in pattern and not pattern.startswith("_tagged."):
                yield from self.find_tagged(folder, pattern)
            else:
                yield from self.find_matching(folder, pattern)

    def find_tagged(self, folder: str, metric: str) -> Iterable[Any]:
        """The file of a metric with tags, by its whole name."""
        for is_hashed in (True, False):
            path = path_of(folder, metric, is_hashed)
            if path is not None and os.path.isfile(path):
                yield LeafNode(metric, RrdiReader(path, metric))

    def find_matching(self, folder: str, pattern: str) -> Iterable[Any]:
        try:
            for found in list(find(folder, pattern)):  # all or none
                metric = metric_of(found.relative)
                if found.is_file:
                    yield LeafNode(metric, RrdiReader(os.path.join(folder, found.relative), metric))
                else:
                    yield BranchNode(metric)
        except TooMuch as reason:
            log.info(f"rrdi: {pattern[:LONGEST_SHOWN]!r}: {reason}")
