# SPDX-License-Identifier: MIT OR Apache-2.0
"""Colors and sizes of a picture, in light and in dark."""
from __future__ import annotations

from typing import NamedTuple, Tuple

LIGHT_COLORS = ("#2f6fd0", "#e8702a", "#2a9d5c", "#d13b5e", "#8a5cd0", "#c99a06", "#0f9fb3", "#e0559c",
                "#6b8e23", "#8c5a34", "#5661d6", "#b8390e", "#5f7d8c", "#1c4f8f", "#f2a65a", "#14724a")
DARK_COLORS = ("#6ea6ff", "#ff9950", "#62d394", "#ff7591", "#bd96ff", "#f2cc4d", "#4fd6e8", "#ff8dc7",
               "#b3d35e", "#d1a37c", "#9aa4ff", "#ff7d5c", "#9fb6c3", "#4b8fe0", "#ffd0a1", "#3fb181")


class Look(NamedTuple):
    background: str
    text: str
    faint: str  # of times and numbers
    grid: str
    colors: Tuple[str, ...]
    fill: float  # the density of an area under a line
    band: float


LIGHT = Look("#ffffff", "#1f2328", "#59636e", "#e4e7eb", LIGHT_COLORS, 0.18, 0.22)
DARK = Look("#181b1f", "#e6e9ee", "#9aa4b2", "#2c3138", DARK_COLORS, 0.22, 0.28)


class Size(NamedTuple):
    """The size of a picture, and of its parts, in points of the picture."""

    width: int
    height: int
    top: int
    left: int
    right: int
    bottom: int  # below the plot, with the labels of times and the legend
    legend: int  # the upper end of the legend, from below

    def across(self, points: float) -> str:
        """Returns a distance from the left as gnuplot's part of the screen."""
        return f"{points / self.width:.5f}"

    def up(self, points: float) -> str:
        """Returns a distance from below as gnuplot's part of the screen."""
        return f"{points / self.height:.5f}"


WIDTH, PLOT_HEIGHT, LEAST_PLOT_HEIGHT, RIGHT, EDGE = 900, 250, 80, 28, 16
TITLE_HEIGHT, LINE_HEIGHT = 50, 16  # above the plot: the title, and each line below it
UNTITLED = 10  # the room above the plot without a title: half of a number is there
TIMES_HEIGHT, ROW_HEIGHT, MARGIN = 44, 21, 14
LETTER = 7.4  # the width of a letter


def title_room(lines: int) -> int:
    """Returns the room above the plot for a title with so many lines below it."""
    return TITLE_HEIGHT + lines * LINE_HEIGHT


def plot_height(height: int, top: int, legend: int) -> int:
    """Returns the height of the plot in a picture of a height, with a room above the plot and a legend of a height.
    A picture without a height gets one for a plot of the usual height."""
    return height - top - TIMES_HEIGHT - legend_room(legend) if height else PLOT_HEIGHT


def legend_room(legend: int) -> int:
    return legend + MARGIN if legend else 0


def plot_left(mark: int) -> int:
    """Returns how far from the left the plot begins, for marks of the axis with at most `mark` letters."""
    return int(mark * LETTER) + 22


def size_of(width: int, height: int, mark: int, top: int, legend: int) -> Size:
    """Returns the sizes for marks of the axis with at most `mark` letters, and what `plot_height` takes."""
    room = legend_room(legend)
    bottom = room + TIMES_HEIGHT
    return Size(width, height or top + PLOT_HEIGHT + bottom, top, plot_left(mark), RIGHT, bottom, room)
