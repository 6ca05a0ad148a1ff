# SPDX-License-Identifier: MIT OR Apache-2.0
"""The database `rrdi` of carbon: `DATABASE = rrdi` in carbon.conf.

carbon has to import this module before it reads its settings; the program rrdi-carbon-cache does. Settings of
carbon.conf, beside carbon's own:

- RRDI_LIBRARY: the C library, if the package would not find it
- RRDI_JOURNAL: how many slots of a metric can come late (16)
- RRDI_MAX_FUTURE: by how many seconds a point may be ahead of the clock (600)
- RRDI_OPEN_FILES, RRDI_OPEN_SECONDS, RRDI_OPEN_MEMORY: how many files stay open between writes (256; 0 for none), for how
  many seconds (2), and with how many MB of memory (64)
"""
from __future__ import annotations

from typing import Any, Callable, Iterable, Optional

from carbon import instrumentation, log
from carbon.database import TimeSeriesDatabase

from ..library import load_library
from ..limits import MOST_CHANGES
from ..open_files import OpenBounds
from ..reader.selected import OpenFile
from .layout import METHODS, Retentions, check_retentions, method_of, template
from .losses import Losses
from .slots import Point
from .store import StoreOptions, Store


MOST_OPEN = 1_000_000  # files; the system allows fewer


def whole_number(settings: Any, name: str, default: int, most: int, least: int = 1) -> int:
    """A setting that is a whole number from `least` on.

    # Errors
    `SystemExit` with a line for the user, as carbon itself ends on wrong settings.
    """
    value = settings.get(name, default)
    if not isinstance(value, int) or not least <= value <= most:
        raise SystemExit(f"{name} must be a whole number from {least} to {most}, not {value}")
    return value


def bounds_of(settings: Any) -> OpenBounds:
    usual = OpenBounds()
    return OpenBounds(whole_number(settings, "RRDI_OPEN_FILES", usual.files, MOST_OPEN, 0),
                  whole_number(settings, "RRDI_OPEN_SECONDS", int(usual.seconds), 10**9),
                  whole_number(settings, "RRDI_OPEN_MEMORY", usual.memory, 10**9))


def at_end(call: Callable[[], None]) -> None:
    """Calls a function when carbon stops and its writer has ended."""
    from twisted.internet import reactor
    reactor.addSystemEventTrigger("after", "shutdown", call)


def every(seconds: float, call: Callable[[], None]) -> None:
    """Calls a function each so many seconds, once carbon runs."""
    from twisted.internet import reactor
    from twisted.internet.task import LoopingCall

    def start() -> None:
        LoopingCall(call).start(seconds, False)

    reactor.callWhenRunning(start)


class RrdiDatabase(TimeSeriesDatabase):  # type: ignore[misc]
    """Keeps each metric in a file of rrdi."""

    plugin_name = "rrdi"
    aggregationMethods = list(METHODS)

    def __init__(self, settings: Any):
        super().__init__(settings)
        try:
            load_library(settings.get("RRDI_LIBRARY") or None)
        except OSError as error:
            raise SystemExit(f"rrdi: {error}") from None
        self.journal = whole_number(settings, "RRDI_JOURNAL", 16, MOST_CHANGES)
        most_future = whole_number(settings, "RRDI_MAX_FUTURE", 600, 10**9)
        interval = settings.CARBON_METRIC_INTERVAL
        self.losses = Losses(log.msg, interval or 60)
        options = StoreOptions(settings.LOCAL_DATA_DIR, self.journal, most_future, bool(settings.TAG_HASH_FILENAMES),
                               bounds_of(settings))
        self.store = Store(options, self.losses)
        if interval > 0:
            every(interval, self.report)
        at_end(self.store.end)

    # ---- What carbon asks

    def getFilesystemPath(self, metric: str) -> Optional[str]:
        return self.store.path(metric)

    def exists(self, metric: str) -> bool:
        return self.store.has(metric)

    def create(self, metric: str, retentions: Retentions, xfilesfactor: Optional[float],
               aggregation_method: Optional[str]) -> None:
        self.store.create(metric, template(retentions, xfilesfactor, aggregation_method, self.journal))

    def write(self, metric: str, datapoints: Iterable[Point]) -> None:
        self.store.write(metric, datapoints)

    def getMetadata(self, metric: str, key: str) -> str:
        if key != "aggregationMethod":
            raise ValueError(f"Unsupported metadata key \"{key}\"")
        path = self.store.path(metric)
        if path is None:
            raise ValueError(f"no file of {metric}")
        with OpenFile(path) as file:
            return method_of(file.outline())

    def setMetadata(self, metric: str, key: str, value: str) -> None:
        raise ValueError("rrdi cannot change the aggregation method of a file")

    def validateArchiveList(self, archiveList: Retentions) -> None:
        check_retentions(archiveList)

    # ---- carbon's own metrics

    def report(self) -> None:
        """Gives the counts of the interval to carbon's metrics, 0 too."""
        for kind, count in self.losses.take().items():
            instrumentation.cache_record(f"rrdi.{kind}", count)
        instrumentation.cache_record("rrdi.waiting", self.store.waiting)
