# SPDX-License-Identifier: MIT OR Apache-2.0
"""Graphite's packages for the tests: the installed ones, or else doubles of the interfaces that rrdi uses; files as
bytes; and a C library that keeps the lines which it is given."""
from __future__ import annotations

import atexit
import errno
import importlib
import os
import shutil
import struct
import sys
import tempfile
import types
from pathlib import Path
from typing import Any, Dict, List, Mapping, Optional, Sequence, Tuple

from doubles import NothingStaysOpen  # and the package is on the path
from rrdi.errors import CANNOT_OPEN
from rrdi.library import Answer

UNKNOWN = -2**127


def is_installed(name: str) -> bool:
    try:
        importlib.import_module(name)
    except ImportError:
        return False
    return True


HAS_CARBON = is_installed("carbon.database")


def settings_of_graphite() -> None:
    """Settings with which graphite-web's modules can be imported: its log goes to a temporary folder."""
    folder = Path(tempfile.mkdtemp(prefix="rrdi-graphite-web"))
    (folder / "web_of_tests.py").write_text(f"SECRET_KEY = 'x'\nLOG_DIR = STORAGE_DIR = CONF_DIR = '{folder}'\n"
                                            f"WHISPER_DIR = '{folder}'\nLOG_ROTATION = False\nCARBONLINK_HOSTS = []\n")
    sys.path.insert(0, str(folder))
    atexit.register(shutil.rmtree, folder, ignore_errors=True)
    os.environ["DJANGO_SETTINGS_MODULE"] = "graphite.settings"
    os.environ["GRAPHITE_SETTINGS_MODULE"] = "web_of_tests"


HAS_WEB = is_installed("graphite.node") and is_installed("django")
if HAS_WEB:
    settings_of_graphite()


class Double(types.ModuleType):
    """A module with the given names."""

    def __init__(self, name: str, **names: object):
        super().__init__(name)
        vars(self).update(names)
        sys.modules[name] = self
        parent, _, last = name.rpartition(".")
        if parent:
            setattr(sys.modules[parent], last, self)


# ---- carbon

class Settings(Dict[str, Any]):
    """carbon's settings: a dictionary whose keys are attributes too."""

    def __getattr__(self, name: str) -> Any:
        return self[name]


def carbon_settings(folder: str, **more: object) -> Settings:
    usual = {"LOCAL_DATA_DIR": folder, "TAG_HASH_FILENAMES": True, "CARBON_METRIC_INTERVAL": 0, "GRAPHITE_URL": ""}
    return Settings({**usual, **more})


class TimeSeriesDatabase:
    def __init__(self, settings: Any):
        self.graphite_url = settings.GRAPHITE_URL


if not HAS_CARBON:
    Double("carbon")
    Double("carbon.instrumentation", cache_record=lambda metric, value: None)
    Double("carbon.log", msg=lambda text: None)
    Double("carbon.database", TimeSeriesDatabase=TimeSeriesDatabase)


# ---- graphite-web

class Node:
    def __init__(self, path: str):
        self.path, self.is_leaf = path, False


class LeafNode(Node):
    def __init__(self, path: str, reader: Any):
        super().__init__(path)
        self.reader, self.is_leaf = reader, True


class BranchNode(Node):
    pass


class FindQuery:
    def __init__(self, pattern: str, startTime: Optional[float], endTime: Optional[float]):
        self.pattern = pattern


def merge_with_carbonlink(metric: str, start: int, step: int, values: List[Optional[float]], function: Optional[str] = None,
                          raw_step: Optional[int] = None) -> List[Optional[float]]:
    return values


if not HAS_WEB:
    Double("django")
    Double("django.conf", settings=types.SimpleNamespace(WHISPER_DIR="/none"))
    for name in ("graphite", "graphite.finders", "graphite.readers"):
        Double(name)
    Double("graphite.finders.utils", BaseFinder=type("BaseFinder", (), {}), FindQuery=FindQuery)
    Double("graphite.intervals", Interval=lambda start, end: (start, end), IntervalSet=list)
    Double("graphite.logger", log=types.SimpleNamespace(info=lambda text: None))
    Double("graphite.node", LeafNode=LeafNode, BranchNode=BranchNode)
    Double("graphite.readers.utils", BaseReader=type("BaseReader", (), {"__slots__": ()}),
           merge_with_carbonlink=merge_with_carbonlink)


# ---- collectd

class Collectd:
    """collectd's module: keeps what a module registers and reports."""

    DATASETS = {"load": [("shortterm", "gauge", 0.0, 5000.0), ("midterm", "gauge", 0.0, 5000.0),
                         ("longterm", "gauge", 0.0, 5000.0)],
                "derive": [("value", "derive", 0.0, float("nan"))], "gauge": [("value", "gauge", float("nan"), float("nan"))]}

    def __init__(self) -> None:
        self.registered: List[str] = []
        self.lines: List[str] = []

    def __getattr__(self, name: str) -> Any:
        if name.startswith("register_"):
            return lambda callback: self.registered.append(name[len("register_"):])
        if name in ("error", "warning", "notice"):
            return self.lines.append
        raise AttributeError(name)

    def get_dataset(self, name: str) -> Sequence[Tuple[str, str, float, float]]:
        return self.DATASETS[name]


# ---- Files and the library

# The answer if another program holds the lock of a file.
BUSY = Answer(CANNOT_OPEN, errno.EAGAIN, 0, b"cannot open")


class KeepingLibrary(NothingStaysOpen):
    """A C library that keeps the batches, and answers each with the next answer, or that all is well."""

    def __init__(self, *answers: Answer):
        self.batches: List[Tuple[str, List[str]]] = []
        self.answers = list(answers)

    def batch_file(self, path: bytes, lines: bytes, now: int, wait: int, syncs: bool) -> Answer:
        self.batches.append((path.decode(), lines.decode().split("\n")))
        answer = self.answers.pop(0) if self.answers else Answer(0, 0, 0, b"")
        if answer.fault == 0 and 1 not in answer.refused:
            Path(path.decode()).write_bytes(b"a database")
        return answer

    def run_file(self, path: bytes, words: bytes, now: int, wait: int, syncs: bool) -> Answer:
        raise AssertionError("no command is run")

    def run(self, data: Optional[bytes], words: bytes, now: int) -> Answer:
        raise AssertionError("no command is run")

    def batch(self, data: Optional[bytes], lines: bytes, now: int) -> Answer:
        """Makes a database in memory; the batch has no path."""
        self.batches.append(("", lines.decode().split("\n")))
        answer = self.answers.pop(0) if self.answers else Answer(0, 0, 0, b"")
        return answer._replace(data=b"a database" if answer.fault == 0 and 1 not in answer.refused else None)


def amount(value: Optional[float]) -> bytes:
    return (UNKNOWN if value is None else round(value * 1_000_000)).to_bytes(16, "big", signed=True)


def file_bytes(last: int, names: Sequence[str] = ("average",),
               archives: Sequence[Tuple[int, int, Mapping[int, Sequence[Optional[float]]]]] = ((1, 6, {}),),
               partial: Sequence[Tuple[int, float]] = ((0, 0.0),), function: int = 0, step: int = 10, entries: bytes = b"",
               count: int = 0, depth: int = 16, version: int = 2) -> bytes:
    """The bytes of a database. An archive is its steps, its number of rows, and the cells of its known rows by their
    times; `partial` is the unfinished row of each archive, for each source alike."""
    header = struct.pack(">IQIHHI" if version == 2 else ">IQHHHH", step, last, depth, len(names), len(archives), count)
    data = b"RRDI" + struct.pack(">H", version) + header
    for name in names:
        data += bytes([len(name)]) + name.encode().ljust(19, b"\0") + struct.pack(">BQ", 0, 9_999_999_999)
        data += amount(None) * 3 + struct.pack(">I", 0) + amount(0)
    for (steps, rows, _), (known, total) in zip(archives, list(partial) * len(archives)):
        data += struct.pack(">BIII", function, steps, 500_000, rows)
        # Only an archive of several steps has an unfinished row.
        data += (struct.pack(">I", known if steps > 1 else 0) + amount(total if steps > 1 else 0)) * len(names)
    for steps, rows, cells in archives:
        seconds = steps * step
        slots: Dict[int, bytes] = {time // seconds % rows: b"".join(map(amount, row)) for time, row in cells.items()}
        data += b"".join(slots.get(slot, amount(None) * len(names)) for slot in range(rows))
    return data + entries


def update_entry(before: int, archives: int) -> bytes:
    """A journal entry of an update that finished one row of the first archive, of one source."""
    entry = b"\1" + struct.pack(">Q", before) + amount(None) + struct.pack(">I", 0) + amount(0)
    for number in range(archives):
        entry += struct.pack(">I", 0) + amount(0) + struct.pack(">I", number == 0) + amount(None) * (number == 0)
    return entry
