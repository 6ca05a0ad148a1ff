# SPDX-License-Identifier: MIT OR Apache-2.0
"""Lets RRDtool's own grapher draw rrdi's files: RRDtool gets the rows of each DEF from a callback."""
from __future__ import annotations

import json
import locale
import re
from typing import List

from ..kinds import is_of_rrdi
from .command_line import Failure
from .exponents import exponent
from .librrd import PREFIX, Exported, GraphInfo, Librrd
from .pictures import drawn
from .rows import Rows, fetch
from .rrdtool_output import Printed, lines_of


def rewrite(word: str) -> str:
    """Returns an argument of a graph. If the file of a DEF is rrdi's, the argument names the callback."""
    found = re.fullmatch(r"(DEF:[^=:]+=)((?:[^:\\]|\\.)+)(:.*)", word, re.DOTALL)
    if found is None:
        return word
    file = re.sub(r"\\(.)", r"\1", found[2], flags=re.DOTALL)
    if not is_of_rrdi(file):
        return word
    return found[1] + PREFIX + re.sub(r"([:\\])", r"\\\1", file) + found[3]


def rows_for(file: str, function: str, start: int, end: int, step: int) -> Rows:
    """Returns the rows of a file that RRDtool requests."""
    name = file[len(PREFIX):]
    try:
        return fetch(name, function, start, end, step)
    except Failure as failure:
        raise Failure(f"{name}: {failure}") from None


class Grapher:
    """Runs RRDtool's graph, graphv and xport.

    # Errors
    `Failure` if RRDtool's library is not installed, or with RRDtool's own message if it draws nothing.
    """

    def __init__(self) -> None:
        self.library = Librrd()
        # As rrdtool's own program does; RRDtool reads numbers in its own way.
        try:
            locale.setlocale(locale.LC_ALL, "")
            locale.setlocale(locale.LC_NUMERIC, "C")
        except locale.Error:
            pass

    def draw(self, words: List[str]) -> List[GraphInfo]:
        with drawn(words) as canvas:
            found = self.library.graph([rewrite(word) for word in canvas.words], rows_for)
            canvas.has_size = any(info.key == "image_width" and info.value for info in found)
            return found

    def graph(self, words: List[str]) -> Printed:
        """Draws a picture. Returns its size and the texts of PRINT, or the picture itself if the file is `-`."""
        found = self.draw(words)
        if words[:1] == ["-"]:
            return [info.value for info in found if isinstance(info.value, bytes)]
        sizes = {info.key: info.value for info in found}
        # Without anything to draw there are no sizes.
        return [f"{sizes.get('image_width', 0)}x{sizes.get('image_height', 0)}",
                *(info.value for info in found if info.key.startswith("print[") and isinstance(info.value, str))]

    def graph_with_sizes(self, words: List[str]) -> Printed:
        """Draws a picture. Returns RRDtool's information about the picture, and the picture itself if the file is `-`."""
        return [item for info in self.draw(words) for item in as_items(info)]

    def xport(self, words: List[str]) -> Printed:
        """Returns rows as XML, or as JSON with --json."""
        found = self.library.xport([rewrite(word) for word in words], rows_for)
        has_times = "-t" in words or "--showtime" in words
        return lines_of(as_json(found, has_times) if "--json" in words else
                        as_xml(found, has_times, "--enumds" in words))


def as_items(info: GraphInfo) -> Printed:
    """Returns a line as `rrdtool graphv` prints it, and the bytes of a picture after its line."""
    value = info.value
    if isinstance(value, bytes):
        return [f"{info.key} = BLOB_SIZE:{len(value)}", value]
    if isinstance(value, float):
        shown = exponent(value, "NaN")
    else:
        shown = f'"{value}"' if isinstance(value, str) else str(value)
    return [f"{info.key} = {shown}"]


def as_xml(found: Exported, has_times: bool, is_numbered: bool) -> str:
    """Returns the XML that `rrdtool xport` prints."""
    first = found.start + found.step
    lines = ['<?xml version="1.0" encoding="ISO-8859-1"?>', "", "<xport>", "  <meta>", f"    <start>{first}</start>",
             f"    <end>{found.end}</end>", f"    <step>{found.step}</step>", f"    <rows>{len(found.rows)}</rows>",
             f"    <columns>{len(found.names)}</columns>", "    <legend>",
             *(f"      <entry>{name}</entry>" for name in found.names), "    </legend>", "  </meta>", "  <data>"]
    for at, row in enumerate(found.rows):
        cells = f"<t>{first + at * found.step}</t>" if has_times else ""
        for number, value in enumerate(row):
            tag = f"v{number}" if is_numbered else "v"
            cells += f"<{tag}>{exponent(value, 'NaN')}</{tag}>"
        lines.append(f"    <row>{cells}</row>")
    return "\n".join([*lines, "  </data>", "</xport>", ""])


def as_json(found: Exported, has_times: bool) -> str:
    """Returns the JSON that `rrdtool xport --json` prints, with quotes in legends escaped."""
    first = found.start + found.step
    names = ",\n".join(f"      {json.dumps(name, ensure_ascii=False)}" for name in found.names)
    rows = []
    for at, row in enumerate(found.rows):
        cells = ", ".join(exponent(value, "null") for value in row)
        rows.append(f'    [ "{first + at * found.step}",{cells} ]' if has_times else f"    [ {cells} ]")
    return ('{ "about": "RRDtool graph JSON output",\n  "meta": {\n'
            f'    "start": {first},\n    "end": {found.end},\n    "step": {found.step},\n    "legend": [\n{names}\n'
            '          ]\n     },\n  "data": [\n' + ",\n".join(rows) + "\n  ]\n}\n")
