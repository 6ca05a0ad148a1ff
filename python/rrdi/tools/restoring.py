# SPDX-License-Identifier: MIT OR Apache-2.0
"""Makes a file of RRDtool of a database with `rrdtool restore`, and reads it back."""
from __future__ import annotations

import math
import subprocess
from typing import Callable, Iterable, Iterator, Optional, Tuple

from ..amounts import MILLION
from ..importing.dump import Refusal, RrdArchive, RrdFile, RrdSource
from ..importing.native import read_old
from ..reader.pieces import Parts
from . import rrdtool_program
from .command_line import Failure
from .rrdtool_xml import as_xml, number

APART = 1e-10  # the share by which a number may differ: rrdtool prints eleven digits

# Is told how many lines of the XML are written.
Writing = Callable[[int], None]


def restore(lines: Iterable[str], new: str, writing: Writing) -> None:
    """Fills an empty file, as a file of RRDtool, from the lines of its XML.

    # Errors
    `Failure` if rrdtool is not installed, or does not create the file.
    """
    restoring = [rrdtool_program.found(), "restore", "-", "-"]
    with open(new, "wb") as file, subprocess.Popen(restoring, stdin=subprocess.PIPE, stdout=file,
                                                   stderr=subprocess.PIPE) as child:
        assert child.stdin and child.stderr
        try:
            for count, line in enumerate(lines, 1):
                child.stdin.write(line.encode() + b"\n")
                writing(count)
            child.stdin.close()
        except BrokenPipeError:
            pass  # rrdtool reports why it ended
        reason = child.stderr.read().decode(errors="replace").strip()
        child.stdin = None
    if child.returncode != 0:
        raise Failure(reason.replace("'-'", f"'{new}'") or f"rrdtool restore ended with status {child.returncode}")


def restore_equal(database: Parts, new: str, writing: Writing = lambda count: None) -> None:
    """Fills an empty file, as a file of RRDtool, and reads it back.

    # Errors
    `Failure` if rrdtool does not create the file, or what it reads back is not the database.
    """
    restore(as_xml(database), new, writing)
    try:
        different = difference(database, read_old(new, rrdtool_program.found))
    except Refusal as refusal:
        raise Failure(f"what rrdtool restored cannot be read back: {refusal}") from None
    if different:
        raise Failure(f"what rrdtool restored is not equal: {different}")


# ---- What was read back

def difference(database: Parts, found: RrdFile) -> str:
    """Returns which part of a file of RRDtool is not that of the database; nothing if all are equal."""
    step, last = database["step"], database["last_time"]
    if (step, last) != (found.step, found.last):
        return "the step or the last time"
    if len(database["sources"]) != len(found.sources) or len(database["archives"]) != len(found.archives):
        return "the number of data sources or archives"
    for source, read in zip(database["sources"], found.sources):
        if not is_same_source(source, read, last % step):
            return f"the data source {source['name']}"
    for at, (archive, stored) in enumerate(zip(database["archives"], found.archives)):
        if not is_same_archive(archive, stored, last // step % archive["steps"]):
            return f"archive {at}"
    return ""


def is_same_source(source: Parts, found: RrdSource, passed: int) -> bool:
    exact = (source["name"], source["type"], source["heartbeat"], number(source["last_raw"], "U"),
             passed - source["known_seconds"])
    return (exact == (found.name, found.kind, found.heartbeat, found.last_raw, found.unknown_seconds)
            and are_close([(source["min"], found.minimum), (source["max"], found.maximum), (source["sum"], found.partial_sum)]))


def is_same_archive(archive: Parts, found: RrdArchive, passed: int) -> bool:
    parts = archive["preparations"]
    if (archive["function"], archive["steps"], len(archive["rows"])) != (found.function, found.steps, found.row_count):
        return False
    if [passed - part["known_steps"] for part in parts] != found.unknown_steps:
        return False
    partial = zip((part["value"] if part["known_steps"] else None for part in parts), found.partial)
    return are_close([(archive["xff"], found.share), *partial]) and are_close(zip(cells_of(archive), found.cells))


def cells_of(archive: Parts) -> Iterator[Optional[int]]:
    return (cell for row in archive["rows"] for cell in row["cells"])


def are_close(pairs: Iterable[Tuple[Optional[int], float]]) -> bool:
    """Checks whether numbers of RRDtool are these millionths, in the digits that rrdtool prints; None is unknown."""
    return all(math.isnan(found) if wanted is None else abs(found - wanted / MILLION) <= abs(wanted / MILLION) * APART
               for wanted, found in pairs)

