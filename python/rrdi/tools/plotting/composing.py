# SPDX-License-Identifier: MIT OR Apache-2.0
"""Makes a picture of the rows of a file: which rows are read, and what is drawn of them."""
from __future__ import annotations

import os
import re
import time
from typing import List, NamedTuple, Optional, Tuple

from ...escaping import escaped
from ...printed import Settings, printed_rows
from .. import program
from ..command_line import Failure
from ..spans import DAY, length_text, span_of, time_text, zone_of
from .asked import PlotOptions, read_bounds, read_size
from .columns import Columns, Curve, NothingToDraw, chosen, columns_of, group_size, grouped, limits, series_of, since_known
from .gnuplot import Picture
from .legend import legend_of
from .look import DARK, EDGE, LEAST_PLOT_HEIGHT, LIGHT, UNTITLED, plot_height, size_of, title_room
from .numbers import Axis, axis, number_text
from .spikes import CutMark, alike, cut_curve, cut_marks, range_of

MOST_BANDS = 4  # more of them hide each other
ROW_WIDTH = 1.75  # points of a row that is chosen for the picture
NARROWEST = 0.5  # points of a row that is drawn by itself
LEAST_ROOM = 8  # points for the rows of a file, on a page of a longer time
SMALL_LETTER, LARGE_LETTER = 6.4, 9.4  # points: the width of a letter below the title, and of the title


# ---- Rows

def as_time(text: Optional[str]) -> Optional[str]:
    """Returns a time for `span_of`. A whole number is seconds since 1970, as `rrdi fetch` takes it."""
    return f"epoch+{text}" if text is not None and re.fullmatch("[0-9]{1,10}", text) else text


def span(settings: Settings, options: PlotOptions) -> Tuple[int, int]:
    """Returns the start and the end of the picture."""
    now = int(time.time())
    end = now if now - settings.last < DAY else settings.last
    return span_of(as_time(options.values.get("start")), as_time(options.values.get("end")), end)


def fetch(options: PlotOptions, function: str, resolution: int, begin: int, until: int) -> Columns:
    """Returns the rows that have seconds between two times."""
    printed = printed_rows(program.ask(["fetch", options.file, function, "--resolution", str(resolution),
                                        "--start", str(begin), "--end", str(until - 1)]))
    return columns_of(list(printed.names), dict(zip(printed.times, printed.words)))


def fetch_for(options: PlotOptions, function: str, width: int, begin: int, until: int) -> Columns:
    """Returns the rows of a picture with this width: without a start, those from the first known row on."""
    def with_resolution(begin: int) -> Columns:
        resolution = int(options.values.get("resolution") or max((until - begin) * ROW_WIDTH // width, 1))
        return fetch(options, function, resolution, begin, until)
    rows = with_resolution(begin)
    if "start" in options.values:
        return rows
    first = since_known(rows).begin
    return since_known(with_resolution(first)) if first > begin else rows


class Drawn(NamedTuple):
    """The rows of a picture, and those with the least and the greatest values of the same times, if there are any."""

    rows: Columns
    low: Optional[Columns]
    high: Optional[Columns]


def drawn(options: PlotOptions, settings: Settings, function: str, rows: Columns, width: int) -> Drawn:
    """Returns what is drawn of rows. Rows of AVERAGE have a band up to those of MAX and down to those of MIN, if the file has
    such rows. If the rows are narrower than half a point, each is one of several, and its band has them."""
    low, high = (extremes(options, settings, one, rows) if function == "AVERAGE" else None for one in ("MIN", "MAX"))
    if "resolution" not in options.values and len(rows.times) * NARROWEST > width:
        size = group_size(rows, int(width / ROW_WIDTH))
        return Drawn(grouped(rows, size, function), grouped(low or rows, size, "MIN"), grouped(high or rows, size, "MAX"))
    return Drawn(rows, (low or rows) if high else low, (high or rows) if low else high)


def extremes(options: PlotOptions, settings: Settings, function: str, rows: Columns) -> Optional[Columns]:
    """Returns the rows of MIN or of MAX that go with rows of AVERAGE, if the file has them."""
    if rows.seconds == settings.step:
        return None
    try:
        found = fetch(options, function, rows.seconds, rows.begin, rows.end)
    except Failure:  # there are none, or they have no known value
        return None
    return found if found.times == rows.times else None


# ---- The picture

def subtitle_of(function: str, rows: Columns, width: int) -> List[str]:
    """Returns which rows are drawn, in one line, or in two if the picture is narrow."""
    first, what = f"{function} of {length_text(rows.seconds)}", f"{short_time(rows.begin)} to {short_time(rows.end)}"
    second = f"{what} {zone_of(rows.begin, rows.end)}"
    line = f"{first}, {second}"
    return [line] if len(line) * SMALL_LETTER <= width - 2 * EDGE else [first, second]


def short_time(at: int) -> str:
    """Returns a time, without seconds if there are none."""
    text = time_text(at)
    return text[:-3] if text.endswith(":00") else text


def title_of(options: PlotOptions, width: int) -> str:
    """Returns the title as far as it fits."""
    text = escaped(options.values.get("title", os.path.splitext(os.path.basename(options.file))[0]))
    most = int((width - 2 * EDGE) / LARGE_LETTER)
    return text if len(text) <= most else f"{text[:most - 1]}\u2026"


class Shown(NamedTuple):
    """The rows that are drawn, and what is drawn of each source."""

    rows: Columns
    series: List[Curve]
    has_band: bool


def oldest_row(settings: Settings, function: str) -> int:
    """Returns the time at which the oldest row of a function begins; 0 if there is no such row."""
    return min((max((settings.last // seconds - archive.rows) * seconds, 0) for seconds, archive in (
        (settings.resolution(number), archive) for number, archive in enumerate(settings.archives))
        if archive.function == function), default=0)


def shown(options: PlotOptions, settings: Settings, function: str, width: int) -> Shown:
    """Reads the rows, and chooses the sources and the band.

    A page has a year of each file, and of a file with rows of seconds this may be millions: only those that the file can have
    are read, and drawn on their part of the width.
    """
    begin, until = span(settings, options)
    if not options.picture:
        first = max(begin, oldest_row(settings, function))
        if first >= until:
            raise NothingToDraw
        begin, width = first, max(width * (until - first) // (until - begin), LEAST_ROOM)
    rows = fetch_for(options, function, width, begin, until)
    names = options.values["source"].split(",") if "source" in options.values else rows.names
    rows, low, high = drawn(options, settings, function, chosen(rows, names), width)
    has_band = low is not None and len(names) <= MOST_BANDS and options.style != "stack" and "--no-band" not in options.flags
    low, high = (chosen(one, names) if one else None for one in (low, high))
    return Shown(rows, series_of(rows, low, high, options.style == "stack"), has_band)


def axis_of(options: PlotOptions, what: Shown, unit: str, height: int) -> Axis:
    """Returns the axis of a plot that is so many points high."""
    bounds = read_bounds(options.values, options.flags)
    least, _ = limits(what.series, what.has_band)
    has_zero = least >= 0 and "--fit" not in options.flags or options.style != "lines"
    found = axis(*range_of(what.series, what.has_band, has_zero, bounds), unit, height)
    return found.ending_at(bounds.least, bounds.greatest) if bounds.is_rigid else found


def cut_text(marks: List[CutMark], what: Shown, unit: str) -> List[str]:
    """Says how far the values go that are beyond the axis, in one text, or in none if there are none."""
    if not marks:
        return []
    least, greatest = (number_text(end, unit) for end in limits(what.series, what.has_band))
    ways = [*([f"down to {least}"] if any(not mark.is_above for mark in marks) else []),
            *([f"up to {greatest}"] if any(mark.is_above for mark in marks) else [])]
    return [f"cut values go {' and '.join(ways)}"]


def picture_of(options: PlotOptions) -> Picture:
    """Reads the settings and the rows of a file, and returns the picture of them."""
    settings = program.settings(options.file)
    function = options.function or settings.archives[0].function
    return composed(options, function, shown(options, settings, function, read_size(options.values)[0]))


def pictures_of(options: PlotOptions, settings: Settings) -> List[Picture]:
    """Reads the rows of a file, and returns the pictures of them for a page: one for sources with values of a size."""
    function = options.function or settings.archives[0].function
    what = shown(options, settings, function, read_size(options.values)[0])
    groups = [what.series] if options.style == "stack" else alike(what.series)
    return [composed(options, function, what._replace(series=group)) for group in groups]


def composed(options: PlotOptions, function: str, what: Shown) -> Picture:
    """Returns the picture of rows."""
    width, height = read_size(options.values)
    unit, subtitle = escaped(options.values.get("unit", "")), subtitle_of(function, what.rows, width)
    top = title_room(len(subtitle)) if options.picture else UNTITLED
    legend = legend_of(width, what.series, unit) if options.picture and "--no-legend" not in options.flags else None
    if legend and plot_height(height, top, legend.height) < LEAST_PLOT_HEIGHT:
        legend = None
    below = legend.height if legend else 0
    marks = axis_of(options, what, unit, plot_height(height, top, below))
    cuts = cut_marks(what.rows, what.series, what.has_band, marks.low, marks.high)
    subtitle += cut_text(cuts, what, unit)
    if options.picture:
        top = title_room(len(subtitle))
    size = size_of(width, height, max(map(len, marks.texts), default=0), top, below)
    return Picture(what.rows, [cut_curve(one, marks.low, marks.high) for one in what.series], marks, title_of(options, width),
                   subtitle, options.style, what.has_band, cuts, legend, DARK if "--dark" in options.flags else LIGHT, size)
