# SPDX-License-Identifier: MIT OR Apache-2.0
"""The checks of pages reject pages that show something else, and plots that look otherwise."""
from __future__ import annotations

import os
import struct
import zlib
from pathlib import Path

import pytest

from pages import test_sessions as tests
from support import pixels
from support.check import Check
from support.fakes import answering
from support.pixels import Picture, picture, share_apart
from support.program import TOP
from support.sessions import Command, commands_of, count_shown, of_manual, of_program, sessions

# A page with a session, and what it shows in turn.
PAGE = """# A page

    $ rrdi update a \\
          b
    {shown}
    $ cat > it <<'END'
    > a line
    > END
    $ cat it
    a line

    an output that belongs to no command
"""


def test_sessions(folder: Path, planted: Check) -> None:
    """Runs a page that shows what its commands print, and pages that show something else."""
    answering(folder / "rrdi", out="2 words\n")
    environment = {**os.environ, "PATH": f"{folder}:{os.environ['PATH']}"}
    for shown, is_right, count in (("2 words", True, 3), ("2 word", False, 1), ("2 words\n    more", False, 1),
                                   ("", False, 1)):
        planted.faults.clear()
        before = planted.tried["commands"]
        assert tests.run_session("a.md", commands_of(PAGE.format(shown=shown)), folder, environment, planted) == ""
        assert (planted.faults == [], planted.tried["commands"] - before) == (is_right, count), shown


def test_what_is_left_out(folder: Path, planted: Check, monkeypatch: pytest.MonkeyPatch) -> None:
    command = Command("rrdi-import a\n", "", 7)
    monkeypatch.setattr("shutil.which", lambda tool: None)
    told = tests.run_session("a.md", [command, command], folder, dict(os.environ), planted)
    assert told == "a.md: 2 of 2 commands, from line 7 on: rrdtool not installed"
    assert planted.tried["commands"] == 0 and len(tests.other_drawers()) == 2


def test_a_command_that_hangs(folder: Path) -> None:
    assert "no end" in tests.printed_by(Command("exec sleep 50", "", 1), folder, dict(os.environ), 0.1)


def test_commands_of_a_page() -> None:
    first, second, third = commands_of(PAGE.format(shown="output"))
    assert first == Command("rrdi update a \\\n      b\n", "output\n", 3)
    assert second == Command("cat > it <<'END'\na line\nEND\n", "", 6)
    assert third == Command("cat it\n", "a line\n", 9) and count_shown(PAGE) == 3
    assert commands_of("    $ a\n    b\n    > c\n") == [Command("a\n", "b\n> c\n", 1)]


@pytest.mark.parametrize("tools, commands", (
    ("", ("rrdi-rrdtool create a", "import rrdtool\nrrdtool.fetch()", "rrdi-export a.rrdi > b.xml")),
    ("rrdtool", ("rrdtool create a", "xargs rrdtool update a", "rrdi-import --into a b", "rrdi-export a.rrdi b.rrd",
                 "rrdi-graph a.png")),
    ("gnuplot", ("rrdi-plot a b", "gnuplot -e a")), ("cc pkg-config", ("cc -o a a.c $(pkg-config --cflags rrdi)",))))
def test_tools_that_commands_need(tools: str, commands: tuple[str, ...]) -> None:
    assert [Command(text, "", 1).needs() for text in commands] == [tools.split()] * len(commands)


def test_manual_pages() -> None:
    source = ".Sh A\n.Bd -literal\n$ a \\e\n    b\nc\n.Ed\n.Dl $ d\n"
    assert commands_of(of_manual(source)) == [Command("a \\\n    b\n", "c\n", 3)] and count_shown(source) == 2
    begin = ".Bd -literal -offset indent\n"
    program = f"{begin}int o;\n.Ed\n{begin}#include <a.h>\nint b = '\\en';\n.Ed\n"
    first, compiled, *runs = commands_of(of_program(program))
    assert first.text == "cat > room.c <<'END'\n#include <a.h>\nint b = '\\n';\nEND\n"
    assert compiled.text.startswith("cc ") and len(runs) == 3 and of_program(".Bd -literal\n$ a\n.Ed\n") == ""


def test_a_command_in_another_form_is_refused(folder: Path) -> None:
    (folder / "docs").mkdir()
    (folder / "docs/a.md").write_text(PAGE)
    assert list(sessions(folder)) == ["docs/a.md"]
    (folder / "docs/a.md").write_text(f"{PAGE}\n```\n$ four\n```\n")
    with pytest.raises(ValueError):
        sessions(folder)


# ---- plots


def test_plots(folder: Path, planted: Check, monkeypatch: pytest.MonkeyPatch) -> None:
    """Compares plots that are the same, nearly the same, and others; and a plot that is not drawn."""
    load, gap = TOP / "docs/load.png", TOP / "docs/gap.png"
    for drawn, is_right in ((load, True), (gap, False), (folder / "none.png", False)):
        planted.faults.clear()
        tests.compare_plot(load, drawn, planted)
        assert (planted.faults == []) == is_right, drawn
    one = picture(gap)
    for share, is_right in ((0.0009, True), (0.0011, False)):
        count = int(share * len(one.pixels))
        other = one._replace(pixels=[b"\1\2\3"] * count + one.pixels[count:])
        monkeypatch.setattr(pixels, "picture", lambda path: other if path == load else one)
        planted.faults.clear()
        tests.compare_plot(gap, load, planted)
        assert (planted.faults == []) == is_right, share


@pytest.mark.parametrize("version, lacks", (("5.4 patchlevel 4", []), ("6.0 patchlevel 0", ["gnuplot 5.4"])))
def test_drawers(version: str, lacks: list[str], folder: Path, monkeypatch: pytest.MonkeyPatch) -> None:
    answering(folder / "gnuplot", out=f"gnuplot {version}\n")
    answering(folder / "rrdtool", out="RRDtool 1.7.2  Copyright\n")
    monkeypatch.setenv("PATH", str(folder))
    assert tests.other_drawers() == lacks


def png(path: Path, width: int, depth: int, color: int, rows: list[bytes], palette: bytes = b"") -> Picture:
    """Writes a picture with rows that begin with their filters, and reads it."""
    def chunk(kind: bytes, data: bytes) -> bytes:
        return struct.pack(">I4s", len(data), kind) + data + struct.pack(">I", zlib.crc32(kind + data))
    packed = zlib.compress(b"".join(rows))
    head = chunk(b"IHDR", struct.pack(">IIBBBBB", width, len(rows), depth, color, 0, 0, 0))
    data = chunk(b"IDAT", packed[:4]) + chunk(b"IDAT", packed[4:]) + chunk(b"IEND", b"")
    path.write_bytes(pixels.SIGNATURE + head + (chunk(b"PLTE", palette) if palette else b"") + data)
    return picture(path)


def test_pixels(folder: Path) -> None:
    """Reads the same two pixels by each filter (none, left, above, their mean, Paeth's), and those of a palette."""
    path = folder / "a.png"
    rows = [b"\0\1\2\3\5\7\t", b"\1\1\2\3\4\5\6", b"\2\0\0\0\0\0\0", b"\3\1\1\2\2\3\3", b"\4\0\0\0\0\0\0"]
    assert png(path, 2, 8, 2, rows).pixels == [b"\1\2\3", b"\5\7\t"] * 5
    assert png(path, 3, 4, 3, [b"\0\x01\x20"], b"abcdefghi") == Picture(3, 1, [b"abc", b"def", b"ghi"])
    with pytest.raises(ValueError):
        png(path, 1, 16, 2, [b"\0abcdef"])
    path.write_text("text")
    with pytest.raises(ValueError):
        picture(path)
    one = Picture(2, 1, [b"abc\xff", b"def\xff"])
    assert [share_apart(one, one._replace(pixels=[b"abc", b"xyz"])), share_apart(one, one)] == [0.5, 0.0]
    assert share_apart(one, Picture(1, 2, one.pixels)) == 1.0
