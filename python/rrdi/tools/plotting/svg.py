# SPDX-License-Identifier: MIT OR Apache-2.0
"""Draws a picture as SVG for a page, whose styles give the colors: the same picture is light or dark."""
from __future__ import annotations

from functools import lru_cache
from html import escape
from typing import Iterator, List, NamedTuple, Tuple

from .columns import segments
from .gnuplot import Picture
from .labels import labels
from .look import DARK, LIGHT, LIGHT_COLORS, Look

SHORTEST = 3  # points of a line: one value alone is seen
LETTER_DROP, TIMES_DROP, LINE_DROP = 4, 18, 16  # points by which a text is below its place

Point = Tuple[float, float]
Stretch = List[Tuple[int, float, float, float, float]]  # the points of known rows, as `segments` yields them


class Frame(NamedTuple):
    """The plot within a picture, in points, and the times and values at its edges."""

    left: float
    right: float
    top: float
    bottom: float
    begin: int
    end: int
    low: float
    high: float

    def across(self, time: float) -> float:
        inside = min(max(time, self.begin), self.end)
        return self.left + (inside - self.begin) / (self.end - self.begin) * (self.right - self.left)

    def down(self, value: float) -> float:
        return self.bottom - (value - self.low) / (self.high - self.low) * (self.bottom - self.top)


def frame_of(picture: Picture, begin: int, end: int) -> Frame:
    size = picture.size
    return Frame(size.left, size.width - size.right, size.top, size.height - size.bottom, begin, end, picture.axis.low,
                 picture.axis.high)


@lru_cache(maxsize=8_192)  # a row begins where another one ends, and its line and its band have the same places
def short(number: float) -> str:
    """Returns a number of points with one digit after the point, or none."""
    text = f"{number:.1f}"
    return text[:-2] if text.endswith(".0") else text


def path_of(points: List[Point]) -> str:
    """Returns the path through some points. Most of its parts are level or upright, and take one number."""
    across, down = (short(part) for part in points[0])
    parts = [f"M{across} {down}"]
    for point in points[1:]:
        next_across, next_down = (short(part) for part in point)
        if next_down == down:
            parts.append("" if next_across == across else f"H{next_across}")
        else:
            parts.append(f"V{next_down}" if next_across == across else f"L{next_across} {next_down}")
        across, down = next_across, next_down
    return "".join(parts)


def shape(kind: str, number: int, path: str) -> str:
    return f'<path class="{kind} c{number % len(LIGHT_COLORS)}" d="{path}"/>' if path else ""


def grid(picture: Picture, frame: Frame) -> Iterator[str]:
    """Yields the lines and the texts of the axis and of the times."""
    left, right, lines = short(frame.left), short(frame.right), ""
    for text, value in zip(picture.axis.texts, picture.axis.values):
        down = frame.down(value)
        lines += f"M{left} {short(down)}H{right}"
        yield f'<text class="mark" x="{short(frame.left - 8)}" y="{short(down + LETTER_DROP)}">{escape(text)}</text>'
    for label, at in labels(frame.begin, frame.end, int(frame.right - frame.left)):
        across = short(frame.across(at))
        lines += f"M{across} {short(frame.top)}V{short(frame.bottom)}"
        for line, text in enumerate(label.split("\\n")):
            down = frame.bottom + TIMES_DROP + line * LINE_DROP
            yield f'<text class="time" x="{across}" y="{short(down)}">{escape(text)}</text>'
    yield f'<path class="grid" d="{lines}"/>'


def curves(picture: Picture, frame: Frame) -> Iterator[str]:
    """Yields what is drawn of the sources: bands below areas below lines."""
    for kind in (["band"] if picture.has_band else []) + (["area"] if picture.style != "lines" else []) + ["line"]:
        for number, one in enumerate(picture.series):
            yield shape(kind, number, "".join(outline(kind, frame, stretch) for stretch in segments(picture.rows, one)))


def placed(frame: Frame, stretch: Stretch, part: int) -> List[Point]:
    """Returns where the points of a stretch are, by their times and that one of their other parts."""
    time, value, found = stretch[0][0], stretch[0][part], []
    across, down = frame.across(time), frame.down(value)
    for point in stretch:  # of two neighbours, one part is the same
        if point[0] != time:
            time, across = point[0], frame.across(point[0])
        if point[part] != value:
            value, down = point[part], frame.down(point[part])
        found.append((across, down))
    return found


def widened(points: List[Point]) -> List[Point]:
    """Returns a line that is as long as the shortest one."""
    (begin, first), (end, last) = points[0], points[-1]
    more = (SHORTEST - (end - begin)) / 2
    return [(begin - more, first), *points, (end + more, last)] if more > 0 else points


def outline(kind: str, frame: Frame, stretch: Stretch) -> str:
    """Returns the path of a stretch of known rows: a line, or the outline of an area or of a band."""
    upper = {"band": 4, "area": 2, "line": 2}[kind]
    over = placed(frame, stretch, upper)
    if kind == "line":
        return path_of(widened(over))
    lower = {"band": 3, "area": 1}[kind]
    return path_of(over + placed(frame, stretch, lower)[::-1]) + "z"


def arrows(picture: Picture, frame: Frame) -> Iterator[str]:
    """Yields a triangle where a source goes beyond the axis."""
    for mark in picture.marks:
        edge, way = (frame.top, "l-4 6h8z") if mark.is_above else (frame.bottom, "l-4-6h8z")
        yield shape("cut", mark.number, f"M{short(frame.across(mark.time))} {short(edge)}{way}")


def svg_of(picture: Picture, begin: int, end: int, about: str) -> str:
    """Returns a picture of the time from `begin` to `end`, without title and legend. `about` is for those who don't see it."""
    frame = frame_of(picture, begin, end)
    parts = [*grid(picture, frame), *curves(picture, frame), *arrows(picture, frame)]
    size = f"{picture.size.width} {picture.size.height}"
    return "\n".join([f'<svg class="{picture.style}" viewBox="0 0 {size}" role="img" aria-label="{escape(about)}">',
                      *(part for part in parts if part), "</svg>"])


# ---- Styles

def colors(look: Look) -> str:
    """Returns the styles that give a page its colors."""
    named = ";".join(f"--{name}:{value}" for name, value in (
        ("ground", look.background), ("text", look.text), ("faint", look.faint), ("grid", look.grid), ("fill", look.fill),
        ("band", look.band)))
    return f":root{{{named}}}" + "".join(f".c{at}{{--c:{color}}}" for at, color in enumerate(look.colors))


STYLES = "\n".join([
    ":root{color-scheme:light dark}", colors(LIGHT), f"@media (prefers-color-scheme:dark){{{colors(DARK)}}}",
    "svg{display:block;width:100%;height:auto}", "svg text{font-size:12px;fill:var(--faint)}", ".mark{text-anchor:end}",
    ".time{text-anchor:middle}", ".grid{fill:none;stroke:var(--grid)}", ".line{fill:none;stroke:var(--c);stroke-width:1.5}",
    ".band{fill:var(--c);fill-opacity:var(--band)}", ".area{fill:var(--c);fill-opacity:var(--fill)}",
    ".stack .area{fill-opacity:.75}", ".cut{fill:var(--c)}"])
