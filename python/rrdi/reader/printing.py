# SPDX-License-Identifier: MIT OR Apache-2.0
"""Prints a database as JSON, CSV and OpenMetrics."""
from __future__ import annotations

import json
import os
from typing import Callable, Dict, Iterable, Iterator

from .pieces import Parts


def as_json(value: object) -> str:
    """Returns the JSON of a value. Amounts keep all digits, which a float would lose."""
    if isinstance(value, dict):
        return "{" + ", ".join(f"{json.dumps(name)}: {as_json(part)}" for name, part in value.items()) + "}"
    if isinstance(value, list):
        return "[" + ", ".join(map(as_json, value)) + "]"
    return str(value) if isinstance(value, int) else json.dumps(value)


def as_csv(database: Parts, _file: str) -> Iterator[str]:
    yield ",".join(["archive", "function", "seconds", "time"] + [source["name"] for source in database["sources"]])
    for number, archive in enumerate(database["archives"]):
        for row in archive["rows"]:
            if any(cell is not None for cell in row["cells"]):
                cells = ["" if cell is None else str(cell) for cell in row["cells"]]
                seconds = database["step"] * archive["steps"]
                yield f"{number},{archive['function']},{seconds},{row['time']},{','.join(cells)}"


def as_openmetrics(database: Parts, file: str) -> Iterator[str]:
    name = os.fsencode(file).decode(errors="replace").replace("\\", r"\\").replace('"', r"\"").replace("\n", r"\n")
    yield "# HELP rrdi_row What a source came to in a row, at the time of its end."
    yield "# TYPE rrdi_row gauge"
    for number, archive in enumerate(database["archives"]):
        seconds = database["step"] * archive["steps"]
        labels = f'file="{name}",archive="{number}",function="{archive["function"]}",seconds="{seconds}"'
        for at, source in enumerate(database["sources"]):
            for row in archive["rows"]:
                if row["cells"][at] is not None:
                    yield f'rrdi_row{{source="{source["name"]}",{labels}}} {row["cells"][at]} {row["time"]}'
    yield "# EOF"


WAYS: Dict[str, Callable[[Parts, str], Iterable[str]]] = {
    "json": lambda database, _: [as_json(database)], "csv": as_csv, "openmetrics": as_openmetrics,
    "check": lambda *_: []}
