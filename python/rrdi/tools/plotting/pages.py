# SPDX-License-Identifier: MIT OR Apache-2.0
"""The pages of rrdi-plot: one for each file, and one for all. They need no script and no other file."""
from __future__ import annotations

import os
from html import escape
from typing import List, NamedTuple, Sequence
from urllib.parse import quote

from ...escaping import escaped
from .gnuplot import Picture
from .legend import HEADS
from .look import LIGHT_COLORS
from .numbers import number_text
from .svg import STYLES, svg_of

PAGE_END, INDEX = ".html", "index.html"
# Begins each page, so that no other file is taken for one.
BEGIN = """<!DOCTYPE html>
<html lang="en"><head><meta charset="utf-8"><meta name="generator" content="rrdi-plot">"""
AGAIN = 300  # seconds after which a browser reads a page again
LAYOUT = """body{margin:0 auto;padding:1.5rem;max-width:60rem;background:var(--ground);color:var(--text);
font:15px/1.45 sans-serif}
body.all{max-width:86rem}h1{font-size:1.5rem;margin:0 0 .2rem}h2{font-size:1.1rem;margin:2rem 0 0}a{color:inherit}
p{margin:.2rem 0 .6rem;color:var(--faint);font-size:.87rem}p.old{color:var(--text);font-weight:bold}
table+p{margin-top:1.2rem}
table{border-collapse:collapse;font-size:.87rem;margin-top:.4rem}
td,th{padding:.1rem 0 .1rem 1.2rem;text-align:right;font-weight:normal}
th{color:var(--faint)}td.name,li{text-align:left;padding-left:0;overflow-wrap:anywhere}
.swatch{display:inline-block;width:.65rem;height:.65rem;margin-right:.5rem;background:var(--c)}
.cards{display:grid;grid-template-columns:repeat(auto-fill,minmax(min(24rem,100%),1fr));gap:1.5rem}
.cards h2{margin:0;overflow-wrap:anywhere}.key{font-size:.87rem;margin-right:1rem;white-space:nowrap}"""
# A page shows what files are called; whatever is in their names, a browser runs nothing and loads nothing.
POLICY = "default-src 'none'; style-src 'unsafe-inline'"


def shown_name(name: str) -> str:
    """Returns a name for a page: in one line, whatever the file is called."""
    return escape(escaped(name))


def link_to(name: str) -> str:
    """Returns the address of a page from that of all files; no letter of a name has a meaning in it."""
    return quote(os.fsencode(name + PAGE_END))


def page(title: str, kind: str, parts: Sequence[str]) -> str:
    return "\n".join([BEGIN,
                      f'<meta http-equiv="Content-Security-Policy" content="{POLICY}">',
                      '<meta name="viewport" content="width=device-width">', f'<meta http-equiv="refresh" content="{AGAIN}">',
                      f"<title>{title}</title><style>", STYLES, LAYOUT, f'</style></head><body class="{kind}">', *parts,
                      "</body></html>", ""])


class Section(NamedTuple):
    """A length of time on a file's page: its name, its times, and its pictures if there is something to draw."""

    name: str
    begin: int
    end: int
    pictures: List[Picture]


def swatch(number: int) -> str:
    return f'<span class="swatch c{number % len(LIGHT_COLORS)}"></span>'


def table(picture: Picture, unit: str) -> List[str]:
    """Returns the legend: the color, the name and the numbers of each source."""
    lines = ["<table><tr><th></th>" + "".join(f"<th>{head}</th>" for head in HEADS) + "</tr>"]
    for number, one in enumerate(picture.series):
        values = one.last, one.least, one.mean, one.greatest
        cells = "".join(f"<td>{escape(number_text(value, unit))}</td>" for value in values)
        lines.append(f'<tr><td class="name">{swatch(number)}{shown_name(one.name)}</td>{cells}</tr>')
    return [*lines, "</table>"]


def section_of(one: Section, name: str, unit: str) -> List[str]:
    """Returns the part of a page for a length of time."""
    head = f"<h2>{one.name}</h2>"
    if not one.pictures:
        return [head, "<p>No value is known in this time, or there are fewer than two rows.</p>"]
    parts = [head]
    for picture in one.pictures:
        parts += [f"<p>{escape('; '.join(picture.subtitle))}</p>",
                  svg_of(picture, one.begin, one.end, about(name, one, picture)), *table(picture, unit)]
    return parts


def about(name: str, one: Section, picture: Picture) -> str:
    """Returns what a picture shows, for those who don't see it."""
    names = ": " + ", ".join(curve.name for curve in picture.series) if len(one.pictures) > 1 else ""
    return escaped(f"{name}, {one.name.lower()}{names}")


def age_text(last: str, is_old: bool) -> str:
    """Returns the line that says when the last sample came, and stands out if that is long ago."""
    return f'<p class="old">No sample since {escape(last)}</p>' if is_old else f"<p>Last sample {escape(last)}</p>"


def file_page(name: str, age: str, sections: Sequence[Section], unit: str) -> str:
    """Returns the page of a file."""
    up = "../" * name.count("/") + INDEX
    parts = [f'<p><a href="{up}">All files</a></p>', f"<h1>{shown_name(name)}</h1>", age]
    for one in sections:
        parts += section_of(one, name, unit)
    return page(shown_name(name), "one", parts)


def card(name: str, age: str, section: Section) -> str:
    """Returns what the page of all files shows of one."""
    head = f'<div><h2><a href="{link_to(name)}">{shown_name(name)}</a></h2>'
    if not section.pictures:
        return "\n".join([head, age, "<p>No value is known in this day.</p></div>"])
    parts = [head, age]
    for picture in section.pictures:
        parts.append(svg_of(picture, section.begin, section.end, about(name, section, picture)))
        parts += [f'<span class="key">{swatch(number)}{shown_name(one.name)}</span>'
                  for number, one in enumerate(picture.series)]
        parts += [f"<p>{escape(picture.subtitle[-1])}</p>"] if picture.marks else []
    return "\n".join([*parts, "</div>"])


class NotDrawn(NamedTuple):
    """A file that was not drawn, and why."""

    name: str
    reason: str


def index_page(title: str, cards: Sequence[str], refused: Sequence[NotDrawn]) -> str:
    """Returns the page of all files."""
    parts = [f"<h1>{shown_name(title)}</h1>", f"<p>{len(cards)} file{'' if len(cards) == 1 else 's'}, each with its last day; "
             "its name leads to its week, month and year.</p>", '<div class="cards">', *cards, "</div>"]
    if refused:
        parts += ["<h2>Not drawn</h2>", "<ul>",
                  *(f"<li>{shown_name(one.name)}: {shown_name(one.reason)}</li>" for one in refused), "</ul>"]
    return page(shown_name(title), "all", parts)
