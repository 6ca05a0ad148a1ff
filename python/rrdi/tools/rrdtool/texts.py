# SPDX-License-Identifier: MIT OR Apache-2.0
"""RRDtool's texts: the output of `rrdtool fetch`, `lastupdate`, `info` and `updatev`."""

# Without `annotations` of __future__: a named tuple whose types are texts makes a tool start a tenth slower.
from typing import TYPE_CHECKING, List, NamedTuple, Optional

from ...amounts import shortened
from ...printed import Settings
from ..exponents import exponent
from ..rows import Rows

if TYPE_CHECKING:
    from ..unfinished import Unfinished

VERSION = "RRDtool 1.7.2 (rrdi-rrdtool, on rrdi's files)"


def bound(text: str) -> Optional[float]:
    """Returns a bound or a raw value that `rrdi info` printed; None for U."""
    return None if text == "U" else float(text)


def fetch_text(rows: Rows) -> str:
    lines = ["           " + "".join(f"{name:>20}" for name in rows.names), ""]
    for number, cells in enumerate(rows.cells, 1):
        lines.append(f"{rows.start + number * rows.step:10}: " + " ".join(exponent(cell, "-nan") for cell in cells))
    return "\n".join(lines) + "\n"


def last_update_text(settings: Settings) -> str:
    names = "".join(f" {source.name}" for source in settings.sources)
    values = "".join(f" {shortened(source.last_raw)}" for source in settings.sources)
    return f"{names}\n\n{settings.last:10}:{values}\n"


def source_lines(settings: Settings, unfinished: "Unfinished") -> List[str]:
    lines = []
    for number, (source, part) in enumerate(zip(settings.sources, unfinished.steps)):
        key = f"ds[{source.name}]"
        lines += [f"{key}.index = {number}", f'{key}.type = "{source.type}"',
                  f"{key}.minimal_heartbeat = {source.heartbeat}",
                  f"{key}.min = {exponent(bound(source.minimum), 'NaN')}",
                  f"{key}.max = {exponent(bound(source.maximum), 'NaN')}",
                  f'{key}.last_ds = "{shortened(source.last_raw)}"', f"{key}.value = {exponent(part.value, 'NaN')}",
                  f"{key}.unknown_sec = {part.unknown_seconds}"]
    return lines


def archive_lines(settings: Settings, unfinished: "Unfinished") -> List[str]:
    lines = []
    for number, archive in enumerate(settings.archives):
        key = f"rra[{number}]"
        newest = settings.last // settings.resolution(number) % archive.rows
        lines += [f'{key}.cf = "{archive.function}"', f"{key}.rows = {archive.rows}", f"{key}.cur_row = {newest}",
                  f"{key}.pdp_per_row = {archive.steps}", f"{key}.xff = {exponent(float(archive.xff), 'NaN')}"]
        for column, part in enumerate(unfinished.rows[number]):
            lines += [f"{key}.cdp_prep[{column}].value = {exponent(part.value, 'NaN')}",
                      f"{key}.cdp_prep[{column}].unknown_datapoints = {part.unknown_steps}"]
    return lines


def info_text(file: str, settings: Settings, unfinished: "Unfinished") -> str:
    lines = [f'filename = "{file}"', 'rrd_version = "0003"', f"step = {settings.step}",
             f"last_update = {settings.last}", f"header_size = {unfinished.header_size}",
             *source_lines(settings, unfinished), *archive_lines(settings, unfinished)]
    return "\n".join(lines) + "\n"


class NewCell(NamedTuple):
    """A cell of a row that an update finished."""

    time: int
    function: str
    steps: int
    name: str
    value: Optional[float]


def update_text(cells: List[NewCell]) -> str:
    lines = ["return_value = 0"]
    lines += [f"[{cell.time}]RRA[{cell.function}][{cell.steps}]DS[{cell.name}] = {exponent(cell.value, 'NaN')}"
              for cell in cells]
    return "\n".join(lines) + "\n"
