# SPDX-License-Identifier: MIT OR Apache-2.0
"""The programs of examples/, rrdi-plot and the manual pages: they start, and show what a file has."""
from __future__ import annotations

import ast
import json
import re
import subprocess
from pathlib import Path
from typing import Callable, Mapping

import pytest

from support.program import TOP

EXAMPLES = sorted(path.name for path in (TOP / "examples").iterdir() if path.suffix not in (".batch", ".c"))
MANUALS = sorted(path.name for path in (TOP / "docs").glob("rrdi*.[13]"))
DAY = ("create day.rrdi --step 10 --start 1700000000 DS:in:GAUGE:60:U:U DS:out:COUNTER:60:0:U RRA:AVERAGE:0.5:1:50 "
       "RRA:MAX:0.5:6:20")
PATIENCE = 600


Ran = subprocess.CompletedProcess[str]


def ran(environment: Mapping[str, str], folder: Path, *words: object, given: str = "") -> Ran:
    return subprocess.run(list(map(str, words)), cwd=folder, env=dict(environment), input=given, capture_output=True,
                          text=True, timeout=PATIENCE)


def out(environment: Mapping[str, str], folder: Path, *words: object, given: str = "") -> str:
    """Returns what a command prints that must go well."""
    told = ran(environment, folder, *words, given=given)
    assert (told.returncode, told.stderr) == (0, ""), words
    return told.stdout


@pytest.mark.parametrize("name", EXAMPLES)
def test_an_example_starts(name: str, environment: Mapping[str, str], folder: Path) -> None:
    path = TOP / "examples" / name
    first = path.read_text().partition("\n")[0]
    if name.endswith(".bash"):
        out(environment, folder, "bash", "-n", path)
    elif first.endswith("python3"):
        ast.parse(path.read_text())
        assert out(environment, folder, path, "--help")
    else:
        out(environment, folder, "sh", "-n", path)


@pytest.fixture
def day(environment: Mapping[str, str], folder: Path) -> Path:
    """A file of two sources with some unknown rows, from rrdi's own lines."""
    times = [time for time in range(1700000010, 1700000700, 10) if time % 130]
    samples = [f"update {time}:{time % 97 - 40}.25:{3 * (time - 1700000000)}" for time in times]
    out(environment, folder, "rrdi", "batch", "day.rrdi", given="\n".join([DAY.replace("day.rrdi ", ""), *samples, ""]))
    return folder


def test_the_reader_shows_the_rows_that_fetch_prints(day: Path, environment: Mapping[str, str]) -> None:
    reader = TOP / "examples/rrdi.py"
    assert json.loads(out(environment, day, reader, "json", "day.rrdi"))["step"] == 10
    cells = out(environment, day, reader, "csv", "day.rrdi").splitlines()
    last = out(environment, day, "rrdi", "last", "day.rrdi").strip()
    for number, function, seconds in ((0, "AVERAGE", 10), (1, "MAX", 60)):
        begin = f"{number},{function},{seconds},"
        rows = [cell[len(begin):].replace(",", ": ", 1).replace(",", " ") for cell in cells if cell.startswith(begin)]
        first = int(out(environment, day, "rrdi", "first", "day.rrdi", "--rraindex", number))
        span = ("-r", seconds, "-s", first - seconds, "-e", last)
        fetched = out(environment, day, "rrdi", "fetch", "day.rrdi", function, *span)
        known = [line.replace("nan", "") for line in fetched.splitlines() if re.search(r": .*\d", line)]
        assert rows == known and len(rows) > 10
    assert out(environment, day, reader, "openmetrics", "day.rrdi").count("\nrrdi_row{") > 100


@pytest.mark.parametrize("words, status, text", (
    (("csv",), 2, "usage: rrdi.py"), (("json", "none.rrdi"), 1, "rrdi.py: none.rrdi: No such file")))
def test_the_reader_refuses(words: tuple[str, ...], status: int, text: str, environment: Mapping[str, str], folder: Path
                            ) -> None:
    told = ran(environment, folder, TOP / "examples/rrdi.py", *words)
    assert told.returncode == status and text in told.stderr


@pytest.mark.long
def test_prometheus_takes_the_samples(day: Path, environment: Mapping[str, str], needs: Callable[..., None]) -> None:
    needs("promtool")
    text = out(environment, day, TOP / "examples/rrdi.py", "openmetrics", "day.rrdi")
    (day / "samples").write_text(text)
    out(environment, day, "promtool", "tsdb", "create-blocks-from", "openmetrics", "samples", "blocks")
    listed = out(environment, day, "promtool", "tsdb", "list", "blocks").splitlines()
    taken = sum(int(line.split()[4]) for line in listed if re.match(r"[0-9A-Z]{26} ", line))
    assert taken == len(re.findall("^rrdi_row", text, re.MULTILINE))


def test_a_plot(day: Path, environment: Mapping[str, str], needs: Callable[..., None]) -> None:
    needs("gnuplot")
    span = ("--start", 1700000000, "--end", 1700000700)
    told = ran(environment, day, "rrdi-plot", "day.rrdi", "day.svg", "AVERAGE", *span)
    assert told.returncode == 0 and "</svg>" in (day / "day.svg").read_text(), told
    for words, text in ((("AVERAGE", "--start", 0, "--end", 1000), "rrdi-plot: nothing to draw"),
                        (("LAST", *span), "rrdi-plot: day.rrdi: no archive for this function")):
        told = ran(environment, day, "rrdi-plot", "day.rrdi", "none.svg", *words)
        assert told.returncode == 1 and text in told.stderr and not (day / "none.svg").exists()


def block(page: str, begin: str) -> str:
    """Returns the indented lines of a page that begin so, up to the next line that is not indented."""
    text = (TOP / page).read_text(encoding="utf-8")
    found, = re.findall(f"^    {re.escape(begin)}.*\\n(?:(?:    .*)?\\n)*", text, re.MULTILINE)
    return "".join(line[4:] for line in found.splitlines(True))


def test_a_copy_under_the_lock(environment: Mapping[str, str], folder: Path) -> None:
    out(environment, folder, "rrdi", "create", "load.rrdi", "--start", 1700000000, "DS:l:GAUGE:60:U:U", "RRA:LAST:0:1:9")
    (folder / "load.copy").write_text("an older copy")
    before = (folder / "load.rrdi").read_bytes()
    assert "ds[0].name = l" in out(environment, folder, "sh", "-e", "-c", block("docs/files.md", "flock -s load.rrdi"))
    assert (folder / "load.rrdi").read_bytes() == before == (folder / "load.copy").read_bytes()


def test_a_call_in_words(library: Path, environment: Mapping[str, str], folder: Path, needs: Callable[..., None]) -> None:
    needs("cc")
    out(environment, folder, "rrdi", "create", "temp.rrdi", "--start", 1700000000, "DS:t:GAUGE:600:U:U", "RRA:LAST:0:1:9")
    body = block("docs/embedding.md", "static const char words[]")
    (folder / "call.c").write_text(f"#include <rrdi.h>\n#include <stdio.h>\n#include <time.h>\nint main(void) {{\n{body}\n"
                                   "    return (int)answer.fault;\n}\n")
    out(environment, folder, "cc", "-Wall", "-Wextra", "-Werror", f"-I{TOP}/include", "-o", "call", "call.c", library,
        f"-Wl,-rpath,{library.parent}")
    assert (out(environment, folder, "./call"), out(environment, folder, "rrdi", "last", "temp.rrdi")) == ("", "1700000300\n")


@pytest.mark.long
@pytest.mark.parametrize("name", MANUALS)
def test_a_manual_page_is_well_formed(name: str, needs: Callable[..., None]) -> None:
    needs("mandoc")
    words = ["mandoc", "-T", "lint", "-W", "warning", str(TOP / "docs" / name)]
    told = subprocess.run(words, capture_output=True, text=True)
    assert (told.returncode, told.stdout) == (0, "")
