# SPDX-License-Identifier: MIT OR Apache-2.0
"""Draws a picture by gnuplot."""
from __future__ import annotations

import os
import re
import subprocess
import tempfile
from typing import Iterator, List, NamedTuple, Optional

from ...escaping import escaped
from ..command_line import Failure, complain
from ..pictures import put_picture
from .labels import labels
from .legend import AFTER_SWATCH, SWATCH, Legend
from .look import EDGE, LINE_HEIGHT, ROW_HEIGHT, Look, Size
from .numbers import Axis
from .columns import Columns, Curve, segments
from .spikes import CutMark

TERMINALS = {".png": "pngcairo size {size} font 'sans,10' background rgb '{background}'",
             ".svg": "svg size {size} font 'sans-serif,12' background rgb '{background}'"}
ENDS = {".png": b"IEND\xaeB`\x82", ".svg": b"</svg>"}  # of a whole picture
UNQUOTED = re.compile(r"^'|''|[\0-\x1f\x7f]")  # what single quotes do not keep together
SPECIAL = re.compile(r"[\0-\x1f!-@\[-`{-\x7f]")  # ASCII but letters and spaces: a code takes the digits after it
# The sizes of the title and of the line below it.
FONTS = {".png": (13, 9), ".svg": (17, 12)}


class Picture(NamedTuple):
    """All that gnuplot needs to know."""

    rows: Columns
    series: List[Curve]
    axis: Axis
    title: str
    subtitle: List[str]  # its lines
    style: str  # lines, area or stack
    has_band: bool
    marks: List[CutMark]  # where sources go beyond the axis
    legend: Optional[Legend]
    look: Look
    size: Size

    def color(self, number: int) -> str:
        return self.look.colors[number % len(self.look.colors)]


def quoted(text: str) -> str:
    """Returns a text as a string of gnuplot, in one line. In single quotes only the apostrophe has a meaning; but gnuplot does
    not find the end of such a string if it begins with an apostrophe, or has two in a row. A line feed ends a string and the
    command, and what follows would be the next one. In double quotes each character can have its code."""
    if not UNQUOTED.search(text):
        return "'" + text.replace("'", "''") + "'"
    return '"' + SPECIAL.sub(lambda found: f"\\{ord(found[0]):03o}", text) + '"'


# ---- The commands

def texts(picture: Picture, end: str) -> Iterator[str]:
    """Yields the title, the lines below it and the legend."""
    look, size, (large, small) = picture.look, picture.size, FONTS[end]
    lines = [(picture.title, 22, look.text, large), *((line, 42 + LINE_HEIGHT * at, look.faint, small)
                                                      for at, line in enumerate(picture.subtitle))]
    for text, down, color, font in lines:
        if text:
            yield (f"set label {quoted(text)} at screen {size.across(EDGE)}, screen {size.up(size.height - down)} left front "
                   f"font ',{font}' textcolor rgb '{color}'")
    if picture.legend is not None:
        yield from table(picture, picture.legend)


def table(picture: Picture, legend: Legend) -> Iterator[str]:
    """Yields the legend: the color, the name and the numbers of each source, and the heads of the columns."""
    size, heads = picture.size, picture.size.legend - 12
    for at, (place, name, numbers) in enumerate(zip(legend.places(), legend.names, legend.numbers)):
        if place.line == 1:
            yield from columns(picture, legend, place.left, heads, legend.heads, picture.look.faint)
        up = heads - ROW_HEIGHT * place.line
        yield (f"set object rectangle from screen {size.across(place.left)}, screen {size.up(up - SWATCH / 2)} to screen "
               f"{size.across(place.left + SWATCH)}, screen {size.up(up + SWATCH / 2)} front fillcolor rgb "
               f"'{picture.color(at)}' fillstyle solid 1 noborder")
        left = size.across(place.left + SWATCH + AFTER_SWATCH)
        yield (f"set label {quoted(name)} at screen {left}, screen {size.up(up)} left "
               f"front textcolor rgb '{picture.look.text}'")
        yield from columns(picture, legend, place.left, up, numbers, picture.look.text)


def columns(picture: Picture, legend: Legend, left: int, up: float, given: List[str], color: str) -> Iterator[str]:
    """Yields the columns of numbers, or their heads, of a line whose table begins at `left`."""
    size = picture.size
    for number, text in enumerate(given, 1):
        right = left + legend.name_width + number * legend.column
        yield (f"set label {quoted(text)} at screen {size.across(right)}, screen {size.up(up)} right front "
               f"textcolor rgb '{color}'")


def plots(picture: Picture, folder: str) -> Iterator[str]:
    """Yields what is plotted: bands below areas below lines. The titles are those of an SVG's parts: nothing draws them."""
    look, stack, given = picture.look, picture.style == "stack", quoted(f"{folder}/points")
    for number, one in enumerate(picture.series):
        if picture.has_band:
            yield (f"{given} index {number} using 1:4:5 with filledcurves fillcolor rgb '{picture.color(number)}' "
                   f"fillstyle transparent solid {look.band} noborder title {quoted(one.name)}")
    for number, one in enumerate(picture.series):
        if picture.style != "lines":
            yield (f"{given} index {number} using 1:2:3 with filledcurves fillcolor rgb '{picture.color(number)}' "
                   f"fillstyle transparent solid {0.75 if stack else look.fill} noborder title {quoted(one.name)}")
    for number, one in enumerate(picture.series):
        yield (f"{given} index {number} using 1:3 with lines linewidth 1.5 linecolor rgb '{picture.color(number)}' "
               f"title {quoted(one.name)}")


def arrows(picture: Picture) -> Iterator[str]:
    """Yields the marks at the edges of the plot, where sources go beyond the axis."""
    for mark in picture.marks:
        edge, form = ("graph 1", "9") if mark.is_above else ("graph 0", "11")  # triangles that point up and down
        yield (f"set label '' at first {mark.time:.1f}, {edge} point pointtype {form} pointsize 0.7 linecolor rgb "
               f"'{picture.color(mark.number)}' front")


def commands(folder: str, end: str, picture: Picture) -> str:
    """Returns the commands of gnuplot for a picture whose name has an end."""
    size, look, rows = picture.size, picture.look, picture.rows
    terminal = TERMINALS[end].format(size=f"{size.width},{size.height}", background=look.background)
    times = ", ".join(f'"{text}" {at}' for text, at in labels(rows.begin, rows.end, size.width - size.left - size.right))
    # The text of a mark is a format.
    marks = ", ".join(f"{quoted(text.replace('%', '%%'))} {value!r}"
                      for text, value in zip(picture.axis.texts, picture.axis.values))
    setup = os.environ.get("RRDI_PLOT_SETUP", "")
    titled = picture._replace(title="", subtitle=[]) if "set title" in setup else picture
    return "\n".join([
        "set encoding utf8", f"set terminal {terminal} noenhanced", f"set output {quoted(f'{folder}/picture')}",
        "set xdata time",
        "set timefmt '%s'", "# The format says that a label has two lines.", 'set format x "\\n"', f"set xtics ({times})",
        f"set ytics ({marks})", f"set tics textcolor rgb '{look.faint}' scale 0", f"set title textcolor rgb '{look.text}'",
        f"set ylabel textcolor rgb '{look.faint}'", f"set border 1 back linecolor rgb '{look.grid}' linewidth 1.5", "unset key",
        f"set grid xtics ytics linetype 1 linecolor rgb '{look.grid}' linewidth 1, linetype 1 linecolor rgb '{look.grid}'",
        f"set lmargin at screen {size.across(size.left)}", f"set rmargin at screen {size.across(size.width - size.right)}",
        f"set tmargin at screen {size.up(size.height - size.top)}", f"set bmargin at screen {size.up(size.bottom)}",
        f"set xrange ['{rows.begin}':'{rows.end}']",
        f"set yrange [{picture.axis.low!r}:{picture.axis.high!r}]",
        *texts(titled, end), *arrows(picture), setup, "plot " + ", \\\n     ".join(plots(picture, folder)), ""])


def points(picture: Picture) -> Iterator[str]:
    """Yields the lines of the data: for each source its stretches, each after an empty line. Two empty lines end a source."""
    for one in picture.series:
        yield f"# {one.name}: time, bottom, value, least, greatest"
        for stretch in segments(picture.rows, one):
            yield from (" ".join(f"{number:.17g}" for number in point) for point in stretch)
            yield ""
        yield ""
        yield ""


def draw(file: str, path: str, picture: Picture) -> None:
    """Draws the points by gnuplot, and then writes the picture.

    # Errors
    `Failure` if gnuplot drew nothing, where its message is on standard error, or only a part, or if the picture or what
    gnuplot needs cannot be written.
    """
    end = os.path.splitext(path)[1]
    with tempfile.TemporaryDirectory(prefix="rrdi-plot") as folder:
        try:
            with open(f"{folder}/points", "w", encoding="utf-8") as written:
                written.write("\n".join(points(picture)) + "\n")
            with open(f"{folder}/commands", "w", encoding="utf-8", errors="surrogateescape") as written:
                written.write(commands(folder, end, picture))
        except OSError as error:
            raise Failure(f"{folder}: {error.strerror or error}") from None
        ran = subprocess.run(["gnuplot", f"{folder}/commands"], capture_output=True)
        if ran.returncode != 0:
            for line in ran.stderr.decode(errors="replace").splitlines():
                complain(escaped(line))
            raise Failure(f"gnuplot did not draw {file}")
        if not os.path.exists(f"{folder}/picture"):
            raise Failure(f"gnuplot did not draw {file}")
        with open(f"{folder}/picture", "rb") as drawn:
            data = drawn.read()
    if not data.rstrip(b"\n").endswith(ENDS[end]):  # gnuplot itself does not notice it
        raise Failure(f"gnuplot did not draw {file} to its end; is there space in {os.path.dirname(folder)}?")
    put_picture(path, data)
