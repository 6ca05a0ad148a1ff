# SPDX-License-Identifier: MIT OR Apache-2.0
"""Reads a file of RRDtool by `rrdtool dump`."""
from __future__ import annotations

import os
import subprocess
import xml.etree.ElementTree as ElementTree
from array import array
from dataclasses import dataclass
from typing import IO, Callable

from ..words import numbers_in


SHORT, PRINTED = 10**6, 20  # bytes of a dump of any file, and bytes for a byte of the file: a row of 8 bytes has about 90


class Refusal(Exception):
    """The reason why a file cannot be converted."""


@dataclass
class RrdSource:
    """A data source of the old file; `column` is the index of its cells in the rows, and `formula` that of a COMPUTE."""

    column: int
    name: str
    kind: str
    heartbeat: int
    minimum: float
    maximum: float
    last_raw: str
    partial_sum: float
    unknown_seconds: int
    formula: str = ""


@dataclass
class RrdArchive:
    """An archive of the old file. The cells are in the order of the rows, the oldest row first."""

    number: int
    function: str
    steps: int
    share: float
    partial: list[float]
    unknown_steps: list[int]
    cells: array[float]
    columns: int
    seconds: int = 0
    begin: int = 0
    end: int = 0

    @property
    def row_count(self) -> int:
        return len(self.cells) // self.columns if self.columns else 0

    def place(self, step: int, last: int) -> None:
        """Sets the time that the rows cover, in seconds since 1970."""
        self.seconds = step * self.steps
        self.end = last - last % self.seconds
        self.begin = max(self.end - self.row_count * self.seconds, 0)

    def has(self, time: int) -> bool:
        """Checks whether the row that ends at `time` is in the archive, or is the unfinished row."""
        return time - self.seconds >= self.begin

    def cell(self, time: int, column: int) -> float:
        """Returns a cell of the finished row that ends at `time`."""
        row = self.row_count - 1 - (self.end - time) // self.seconds
        return float(self.cells[row * self.columns + column])

    def allowed_unknown(self) -> int:
        """Returns how many steps of a row may be unknown. RRDtool multiplies in floating point: 0.29 * 100 is below 29."""
        return int(self.share * self.steps)


@dataclass
class RrdFile:
    """The contents of a file of RRDtool."""

    step: int
    last: int
    sources: list[RrdSource]
    archives: list[RrdArchive]


def text_of(element: ElementTree.Element, name: str, default: str = "") -> str:
    return (element.findtext(name) or default).strip()


def read_source(element: ElementTree.Element, column: int) -> RrdSource:
    return RrdSource(
        column, text_of(element, "name"), text_of(element, "type"), int(text_of(element, "minimal_heartbeat", "1")),
        float(text_of(element, "min", "nan")), float(text_of(element, "max", "nan")), text_of(element, "last_ds", "U"),
        float(text_of(element, "value", "nan")), int(text_of(element, "unknown_sec", "0")),
        text_of(element, "cdef"))


def read_archive(element: ElementTree.Element, number: int, cells: array[float], columns: int) -> RrdArchive:
    parts = element.findall("cdp_prep/ds")
    return RrdArchive(
        number, text_of(element, "cf"), int(text_of(element, "pdp_per_row", "1")),
        float(text_of(element, "params/xff", "0")), [float(text_of(part, "value", "nan")) for part in parts],
        [int(text_of(part, "unknown_datapoints", "0")) for part in parts], cells, columns)


class Bounded:
    """What rrdtool prints of a file. It takes the numbers of rows, and of characters of a history, from the file, and prints
    as many, even if they have no end."""

    def __init__(self, stream: IO[bytes], file: str):
        self.stream, self.file, self.count = stream, file, 0

    def read(self, size: int = -1) -> bytes:
        data = self.stream.read(size)
        self.count += len(data)
        if self.count > SHORT and self.count > PRINTED * os.path.getsize(self.file):
            raise Refusal("rrdtool prints more than the file has")
        return data


def read_dump(stream: IO[bytes] | Bounded, progress: Callable[[int], None] = lambda cells: None) -> RrdFile:
    """Reads the output of `rrdtool dump`, and reports the number of cells to `progress`, every thousand rows.

    # Errors
    - `ElementTree.ParseError` if the text is not complete XML.
    - `ValueError` if what should be a number is none.
    - `Refusal` if a row has another number of cells than the file has data sources, or none.
    """
    step = last = -1
    sources: list[RrdSource] = []
    archives: list[RrdArchive] = []
    cells, total, rows = array("d"), 0, 0
    for _, element in ElementTree.iterparse(stream):
        tag = element.tag
        if tag == "v":
            continue
        if tag == "row":
            if len(element) != len(sources) or not sources:
                raise Refusal(f"a row of archive {len(archives)} has {len(element)} cells")
            cells.extend([float(cell.text or "nan") for cell in element])
            element.clear()
            rows += 1
            if rows % 1_000 == 0:
                progress(total + len(cells))
        elif tag == "database":
            element.clear()
        elif tag == "step":
            step = int(element.text or "")
        elif tag == "lastupdate":
            last = int(element.text or "")
        elif tag == "ds" and element.find("name") is not None:
            sources.append(read_source(element, len(sources)))
        elif tag == "rra":
            archives.append(read_archive(element, len(archives), cells, len(sources)))
            total += len(cells)
            cells = array("d")
            element.clear()
    return RrdFile(step, last, sources, archives)


def read_rrd(rrdtool: str, file: str, progress: Callable[[int], None] = lambda cells: None) -> RrdFile:
    """Reads a file by `rrdtool dump`.

    # Errors
    `Refusal` if rrdtool does not read the file to its end, or prints more than it has, or the file changes meanwhile.
    """
    numbers = numbers_in(os.fsencode(file))
    with subprocess.Popen([rrdtool, "dump", file], stdout=subprocess.PIPE, stderr=subprocess.PIPE, pass_fds=numbers) as dump:
        assert dump.stdout and dump.stderr
        fault = "rrdtool did not read the file to its end"
        try:
            old = read_dump(Bounded(dump.stdout, file), progress)
        except ElementTree.ParseError:
            old = None
        except ValueError:  # rrdtool prints the texts of the file as they are, even tags
            old, fault = None, "what rrdtool prints of the file has something else than a number"
        dump.stdout.close()
        reason = dump.stderr.read().decode(errors="replace").strip()
    if dump.returncode or old is None:
        raise Refusal(reason or fault)
    asked = subprocess.run([rrdtool, "last", file], capture_output=True, text=True, pass_fds=numbers)
    if asked.stdout.strip() != str(old.last):
        raise Refusal("the file changed while it was read")
    return old
