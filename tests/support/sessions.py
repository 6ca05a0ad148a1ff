# SPDX-License-Identifier: MIT OR Apache-2.0
"""The sessions that pages show: commands after `$ `, with what they print."""
from __future__ import annotations

import re
from dataclasses import dataclass
from pathlib import Path
from typing import Iterator

INDENT = "    "
COMMAND, INPUT = f"{INDENT}$ ", f"{INDENT}> "
# A line that a reader takes for a command, wherever it stands in a page or a manual.
SHOWN = re.compile(r"\s*(?:\.Dl )?\$ \S")
# The tools that not each machine has, and the commands that need them, by themselves or by a tool of rrdi.
NEEDS = {
    "rrdtool": re.compile(r"(?<![\w-])rrdtool [a-z]|\brrdi-(?:import|compare|graph)\b|\brrdi-export .*\.rrd\b"),
    "gnuplot": re.compile(r"(?<![\w-])gnuplot |\brrdi-plot\b"),
    "cc": re.compile(r"(?<![\w-])cc "),
    "pkg-config": re.compile(r"\bpkg-config\b"),
}
# The last example of rrdi(3) that is a whole program, as its reader would try it: each run adds a sample.
PROGRAM_IN_C = re.compile(r"^\.Bd -literal[^\n]*\n(#include.*?)^\.Ed$", re.MULTILINE | re.DOTALL)
TRIED_IN_C = """
    $ cat > room.c <<'END'
{source}    > END
    $ cc -std=c99 -D_POSIX_C_SOURCE=200809L -Wall -Wextra -Werror -o room room.c $(pkg-config --cflags --libs rrdi)
    $ LD_LIBRARY_PATH=$(pkg-config --variable=libdir rrdi) ./room && rrdi info room.rrdi | grep undoable && sleep 1
    undoable = 1
    $ LD_LIBRARY_PATH=$(pkg-config --variable=libdir rrdi) ./room && rrdi info room.rrdi | grep undoable
    undoable = 2
    $ ls room.rrdi*
    room.rrdi
"""


@dataclass
class Command:
    """A command of a session: what a shell runs, what the page shows after it, and its line in the page."""
    text: str
    shown: str
    line: int

    def needs(self) -> list[str]:
        """Returns the tools that not each machine has and the command needs."""
        return [tool for tool, commands in NEEDS.items() if commands.search(self.text)]


def commands_of(page: str) -> list[Command]:
    """Returns the commands of a page. An indented line that begins with `$` is a command, and a line after a backslash
    continues it. Lines that begin with `>` are its input. The other indented lines after it are what it prints."""
    found: list[Command] = []
    is_command = is_input = is_session = False
    for number, line in enumerate(page.splitlines(), 1):
        if line.startswith(COMMAND):
            found.append(Command("", "", number))
            is_command = is_input = is_session = True
            line = INDENT + line[len(COMMAND):]
        is_session = is_session and line.startswith(INDENT)
        if not is_session:
            continue
        if is_command:
            found[-1].text += line[len(INDENT):] + "\n"
            is_command = line.endswith("\\")
        elif is_input and line.startswith(INPUT):
            found[-1].text += line[len(INPUT):] + "\n"
        else:
            found[-1].shown += line[len(INDENT):] + "\n"
            is_input = False
    return found


def of_manual(source: str) -> str:
    """Returns a manual page with its examples as a page has them: indented, and line by line where they were."""
    lines: list[str] = []
    is_example = False
    for line in source.splitlines():
        is_example = line.startswith(".Bd") or is_example and not line.startswith(".Ed")
        lines.append(INDENT + line.replace("\\e", "\\") if is_example else line)
    return "\n".join(lines) + "\n"


def of_program(source: str) -> str:
    """Returns the session that tries the program in C of a manual page; nothing if the page has none."""
    found = PROGRAM_IN_C.search(source)
    lines = found[1].replace("\\e", "\\").splitlines() if found else []
    return TRIED_IN_C.format(source="".join(f"{INPUT}{line}\n" for line in lines)) if lines else ""


# The manual page that is made of docs/commands.md, whose commands are run there.
MADE = "rrdi.1"


def count_shown(text: str) -> int:
    """Returns how many lines of a page look like commands."""
    return sum(bool(SHOWN.match(line)) for line in text.splitlines())


def pages(top: Path) -> Iterator[Path]:
    """Yields the pages and manual pages of the repository."""
    yield from sorted(top.glob("*.md"))
    yield from sorted(path for path in (top / "docs").iterdir() if path.suffix in (".md", ".1", ".3"))


def sessions(top: Path) -> dict[str, list[Command]]:
    """Returns the commands of each page that shows some, by the page's name from the top of the repository on. Raises
    `ValueError` if a page shows a command in another form, which nobody would run."""
    found: dict[str, list[Command]] = {}
    for path in pages(top):
        if path.name == MADE:
            continue
        text, name = path.read_text(encoding="utf-8"), str(path.relative_to(top))
        commands = commands_of(text if path.suffix == ".md" else of_manual(text))
        if len(commands) != count_shown(text):
            raise ValueError(f"{name} shows {count_shown(text)} commands, and only {len(commands)} of them can be run")
        commands += commands_of(of_program(text)) if path.suffix == ".3" else []
        if commands:
            found[name] = commands
    return found
