# SPDX-License-Identifier: MIT OR Apache-2.0
"""Draws rows with gnuplot: a line for each source, with gaps where none is known.

usage: rrdi-plot FILE PICTURE [FUNCTION] [options]
       rrdi-plot --html DIR OUT [FUNCTION] [options]

examples:
  rrdi-plot load.rrdi load.png
  rrdi-plot load.rrdi week.svg MAX -s -7d --dark
  rrdi-plot net.rrdi net.png AVERAGE --source in,out --area --unit B/s
  rrdi-plot --html /var/lib/rrdi /var/www/rrdi

PICTURE ends in .png or .svg, and is written at the end, if all went well.
Without FUNCTION you get that of the file's first archive.

The second form writes pages for a browser, without gnuplot: OUT/index.html
shows the last day of each .rrdi or .rrd database below DIR, OUT/NAME.html the
last day, week, month and year of NAME.

options:
  --html DIR           write pages of all databases below DIR; -s, -r, --dark
                       and --no-legend are for one picture
  --jobs N             draw N files at a time (default: as many as there are
                       processors)
  -s, --start START    begin there (default: a day before END, or the first
                       known row since then); times are 2026-11-25 14:00,
                       2026-11-25T14:00Z (UTC), @1700000000, or RRDtool's,
                       such as noon, -7d or -5min (-5m is five months)
  -e, --end END        end there (default: now, or the last update if that is
                       over a day ago)
  -r, --resolution N   choose the archive whose rows cover about N seconds
                       (default: to suit the picture's width)
  --source NAME,..     draw these sources, in this order (default: all)
  --area               fill the area under each line
  --stack              draw the areas on top of each other
  --fit                let the axis of lines begin above 0
  --min N, --max N     let the axis begin at N or below, end at N or above
  --rigid              cut what is beyond --min and --max
  --cut-spikes         let a few values far from all others go beyond
                       the axis
  --keep-spikes        do not cut them on pages
  --no-band            draw no band
  --no-legend          draw no legend
  --dark               light lines on a dark ground
  --unit UNIT          write a unit after the numbers, such as B/s
  --title TEXT         instead of the file's name
  --size WIDTHxHEIGHT  the size of the picture in points (default: 900 wide,
                       and as high as the legend needs); or --width N and
                       --height N
  -h, --help           show this help and exit
  --version            show the version and exit

environment:
  RRDI                 the program to run instead of the C library
  RRDI_PLOT_SETUP      commands that gnuplot runs before it draws
  TZ                   the time zone, if not the machine's

gnuplot must be installed for one picture. docs/plotting.md has pictures.

Exit status: 0; 1 if there is nothing to draw, a file cannot be drawn or a
program failed; 2 after wrong arguments.
"""
from __future__ import annotations

import os
import shutil
from typing import List, Union

from . import program
from .command_line import Failure, Tool, WrongArguments, called_name
from .options import GivenWords, function_at, given_words, number_of
from .plot_folder import PagesAsked, draw_folder
from .plotting.asked import PlotOptions, read_bounds, read_size
from .plotting.composing import picture_of
from .plotting.gnuplot import TERMINALS, draw

VALUES = {"-s": "start", "-e": "end", "-r": "resolution", **{f"--{name}": name for name in (
    "start", "end", "resolution", "source", "unit", "title", "size", "width", "height", "min", "max", "jobs", "html")}}
FLAGS = {f"--{name}" for name in ("area", "stack", "fit", "no-band", "no-legend", "dark", "rigid", "cut-spikes", "keep-spikes")}
# Options that pages do not take, and those that only pages take.
OF_A_PICTURE, OF_PAGES = ("--start", "--resolution", "--dark", "--no-legend"), ("--jobs", "--keep-spikes")


def refuse_others(given: GivenWords) -> None:
    """Refuses options of the other form.

    # Errors
    `WrongArguments` if one was given.
    """
    is_of_pages = "html" in given.values
    for name in OF_A_PICTURE if is_of_pages else OF_PAGES:
        if name in given.flags or name[2:] in given.values:
            raise WrongArguments(f"{name} is for {'one picture' if is_of_pages else '--html'}")


def one_picture(given: GivenWords) -> PlotOptions:
    """Returns what was asked of one picture.

    # Errors
    `WrongArguments` if there is no file, or no name of a picture.
    """
    if not 2 <= len(given.others) <= 3 or os.path.splitext(given.others[1])[1] not in TERMINALS:
        raise WrongArguments
    return PlotOptions(given.others[0], given.others[1], function_at(given.others, 2), given.values, set(given.flags))


def pages(given: GivenWords) -> PagesAsked:
    """Returns what was asked of the pages of a directory.

    # Errors
    `WrongArguments` if there is no directory for them.
    """
    jobs = number_of(given.values, "jobs")
    if not 1 <= len(given.others) <= 2 or not given.values["html"] or jobs == 0:
        raise WrongArguments
    flags = {*given.flags, *([] if "--keep-spikes" in given.flags else ["--cut-spikes"])}
    return PagesAsked(given.values["html"], given.others[0], function_at(given.others, 1), given.values, flags,
                      jobs or len(os.sched_getaffinity(0)))


def read_options(words: List[str]) -> Union[PlotOptions, PagesAsked]:
    given = given_words(words, VALUES, FLAGS)
    options: Union[PlotOptions, PagesAsked] = pages(given) if "html" in given.values else one_picture(given)
    refuse_others(given)
    number_of(given.values, "resolution")
    read_size(given.values)
    read_bounds(given.values, set(given.flags))
    return options


def plot(words: List[str]) -> int:
    options = read_options(words)
    if isinstance(options, PagesAsked):
        return draw_folder(options, called_name(TOOL))
    if shutil.which("gnuplot") is None:
        raise Failure("gnuplot is not installed (Debian: apt install gnuplot-nox)")
    with program.naming(options.file):
        picture = picture_of(options)
    draw(options.file, options.picture, picture)
    return 0


TOOL = Tool("rrdi-plot", "FILE PICTURE.png|PICTURE.svg [FUNCTION] [options]\n"
            "       rrdi-plot --html DIR OUT [FUNCTION] [options]", __doc__, plot)
main = TOOL.main
