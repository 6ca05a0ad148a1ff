# SPDX-License-Identifier: MIT OR Apache-2.0
"""What the changes in a journal were: the times, sources and archives before and after each of them."""
from __future__ import annotations

from typing import Iterator, List, NamedTuple, Optional, Tuple

from ..amounts import shortened
from ..reader.pieces import Parts
from .spans import length_text, time_text

SETTINGS = ("name", "type", "heartbeat", "min", "max")


class Difference(NamedTuple):
    """One thing that a change changed: of which source, which setting, and both values as text. Without a source it is a
    thing of the whole database."""

    source: Optional[str]
    what: str
    before: str
    after: str


class Change(NamedTuple):
    """A change, the newest first. `before` and `after` are times of the last sample, equal if no sample came."""

    number: int
    kind: str
    before: int
    after: int
    differences: List[Difference]


class Changes:
    """Goes back through the journal of a database, and knows the settings after each change."""

    def __init__(self, database: Parts):
        self.journal, self.step, self.last = database["journal"], database["step"], database["last_time"]
        self.sources = [dict(source) for source in database["sources"]]
        self.archives = [(archive, len(archive["rows"])) for archive in database["archives"]]

    def changes(self) -> Iterator[Change]:
        ways = {"update": self.update, "tune": self.tune, "resize": self.resize, "addition": self.addition,
                "removal": self.removal}
        for number, entry in enumerate(self.journal, 1):
            after = self.last
            differences = ways[entry["change"]](entry)
            yield Change(number, entry["change"], self.last, after, differences)

    def update(self, entry: Parts) -> List[Difference]:
        found = []
        for source, before in zip(self.sources, entry["sources"]):
            found.append(Difference(source["name"], "last value", raw_text(before["last_raw"]), raw_text(source["last_raw"])))
            source["last_raw"] = before["last_raw"]
        for number, ((archive, _), replaced) in enumerate(zip(self.archives, entry["archives"])):
            if replaced["rows"]:
                found.append(Difference(None, f"{described(archive, self.step)} (archive {number})", "",
                                        f"{len(replaced['rows'])} new row{'s' * (len(replaced['rows']) > 1)}"))
        self.last = entry["last_time"]
        return found

    def tune(self, entry: Parts) -> List[Difference]:
        found = []
        for before in entry["sources"]:
            source = self.sources[before["number"]]
            found += [Difference(source["name"], key, raw_text(before[key]), raw_text(source[key])) for key in SETTINGS
                      if before[key] != source[key]]
            self.sources[before["number"]] = {**source, **before}
        return found

    def resize(self, entry: Parts) -> List[Difference]:
        number, count = entry["archive"], len(entry["rows"])
        archive, now = self.archives[number]
        self.archives[number] = archive, count
        return [Difference(None, f"rows of {described(archive, self.step)} (archive {number})", str(count), str(now))]

    def addition(self, _entry: Parts) -> List[Difference]:
        archive, count = self.archives.pop()
        return [Difference(None, f"archive {len(self.archives)}", "none", of_rows(archive, count, self.step))]

    def removal(self, entry: Parts) -> List[Difference]:
        number = entry["archive"]
        self.archives.insert(number, (entry, len(entry["rows"])))
        return [Difference(None, f"archive {number}", of_rows(entry, len(entry["rows"]), self.step), "none")]


def raw_text(value: object) -> str:
    """Returns a setting or a raw value; none is U."""
    return "U" if value is None else shortened(str(value))


def described(archive: Parts, step: int) -> str:
    return f"{archive['function']} of {length_text(step * archive['steps'])}"


def of_rows(archive: Parts, count: int, step: int) -> str:
    return f"{count} row{'s' * (count > 1)} of {described(archive, step)}"


# ---- As text and as JSON

def texts(change: Change) -> Iterator[str]:
    """Yields the lines that show a change."""
    when = f"{time_text(change.before)} -> {time_text(change.after)}" if change.kind == "update" else time_text(change.after)
    yield f"{change.number:>3}  {change.kind:<8}  {when}"
    rows = [(f"{one.source} {one.what}" if one.source and change.kind != "update" else one.source or one.what,
             f"{one.before} -> {one.after}" if one.before else one.after) for one in change.differences]
    width = max((len(name) for name, _ in rows), default=0)
    for name, value in rows:
        yield f"       {name:<{width}}  {value}"


def as_parts(change: Change) -> Parts:
    """Returns a change by names, for JSON."""
    return {"revert": change.number, "change": change.kind, "time_before": change.before, "time_after": change.after,
            "differences": [one._asdict() for one in change.differences]}


def journal_of(database: Parts) -> Tuple[List[Change], int]:
    """Returns the changes of a journal, the newest first, and how many it can have."""
    return list(Changes(database).changes()), database["journal_depth"]
