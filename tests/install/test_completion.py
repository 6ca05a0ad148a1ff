# SPDX-License-Identifier: MIT OR Apache-2.0
"""What the completions of an installation offer in bash, zsh and fish; and no word that is typed or offered runs.

tests/python/test_completion.py tries the words of bash in full."""
from __future__ import annotations

import os
import subprocess
from pathlib import Path
from typing import Callable, Mapping, Sequence

import pytest

from support.check import Check
from support.program import TOP

# Lines, and the words that are offered. In the folder are room.rrdi, a directory rooms, and a file with an odd name.
ODD = "$(touch run).rrdi"
LINES = {
    "rrdi la": ["last", "lastupdate"], "rrdi info ro": ["room.rrdi", "rooms/"], "rrdi fetch room.rrdi MA": ["MAX"],
    "rrdi create a DS:g:C": ["DS:g:COUNTER:"], "rrdi nothing ": [ODD, "room.rrdi", "rooms/"],
    "rrdi create a DS:$(touch${IFS}run):G": ["DS:$(touch${IFS}run):GAUGE:"], "rrdi-plot r": ["room.rrdi", "rooms/"],
    "rrdi-plot $(touch${IFS}run)": [], "rrdi-feed --j": ["--jobs"], "rrdi-feed --jobs ": [],
    "rrdi-record --v": ["--version"]}
ZSH = """
compset() { [[ $PREFIX != */* ]] || { IPREFIX=${PREFIX%/*}/ PREFIX=${PREFIX##*/} }; }
compadd() { while [[ $1 != -- ]] shift; shift; (( ! $# )) || printf '%s\\n' $IPREFIX$^@; }
fpath=($1); autoload -Uz _rrdi
line=$2; words=(${(s: :)line}); [[ $line != *' ' ]] || words+=('')
CURRENT=${#words}; PREFIX=$words[CURRENT]
_rrdi
"""
# Lines in which bash is asked for completions at each position; a word has no space and none of bash's other separators.
WHOLE = ("rrdi-show room.rrdi LAST --json --start 5", "rrdi-plot room.rrdi p.svg MAX --start 5 --dark", "rrdi-import --into rooms room.rrdi",
         "rrdi-check room.rrdi g --changes room.rrdi", "rrdi-feed --graphite rooms --rules room.rrdi", "rrdi-rrdtool --exact lastupdate room.rrdi",
         "rrdi-carbon-cache --debug start", "rrdi-fix room.rrdi 5 --source g", "rrdi lastupdate room.rrdi", "rrdi fetch room.rrdi MAX --resolution 5",
         "rrdi resize room.rrdi 0 GROW 5")
# Prints what is offered at each position of a line, beside what is offered for the text before it.
EACH = r"""
. {top}/examples/rrdi.bash && . {top}/examples/rrdi-tools.bash
compopt() {{ :; }}
offered() {{ # LINE POINT
    local before=${{1:0:$2}} function=_rrdi_tool
    COMP_LINE=$1 COMP_POINT=$2 COMP_WORDBREAKS=$' \t\n' COMPREPLY=()
    read -ra COMP_WORDS <<<"$before"
    COMP_CWORD=${{#COMP_WORDS[@]}}
    case $before in *' ') ;; *) COMP_CWORD=$((COMP_CWORD - 1)) ;; esac
    read -ra COMP_WORDS <<<"$1"
    ((COMP_CWORD < ${{#COMP_WORDS[@]}})) || COMP_WORDS+=('')
    case $1 in 'rrdi '*) function=_rrdi ;; esac
    "$function"
    printf '%s ' "${{COMPREPLY[@]}}"
}}
for line; do
    name=${{line%% *}}
    for ((point = ${{#name}} + 1; point <= ${{#line}}; point++)); do
        printf '%s|%s\n%s\n%s\n' "${{line:0:point}}" "${{line:point}}" "$(offered "$line" "$point")" "$(offered "${{line:0:point}}" "$point")"
    done
done
"""
PATIENCE, LEAST = 600, {"lines": 11, "positions": 300}
SHELLS: dict[str, Callable[[Path], list[str]]] = {
    "bash": lambda place: [f"{place}/share/rrdi/tools/completion/offers"],
    "zsh": lambda place: ["zsh", "-f", "-c", ZSH, "zsh", f"{place}/share/zsh/site-functions"],
    "fish": lambda place: ["fish", "-c", "complete -C $argv[1]"]}


@pytest.fixture
def place(make: Callable[..., None], folder: Path) -> Path:
    """An installation."""
    make("install", f"PREFIX={folder}/completing", "LDCONFIG=:")
    return folder / "completing"


@pytest.fixture
def rooms(folder: Path, place: Path) -> Path:
    """The folder in which words are completed."""
    rooms = folder / "completion"
    (rooms / "rooms").mkdir(parents=True)
    for name in ("room.rrdi", ODD):
        (rooms / name).touch()
    return rooms


def environment(place: Path, home: Path) -> dict[str, str]:
    return {**os.environ, "PATH": f"{place}/bin:{os.environ['PATH']}", "XDG_DATA_DIRS": f"{place}/share:/usr/share",
            "HOME": str(home), "LC_ALL": "C.UTF-8", "RRDI": "true"}


def check_offers(words: Sequence[str], folder: Path, env: Mapping[str, str], check: Check) -> None:
    """Compares what a shell offers."""
    for line, right in LINES.items():
        ran = subprocess.run([*words, line], cwd=folder, capture_output=True, text=True, timeout=PATIENCE, env=env)
        offered = sorted(row.split("\t")[0] for row in ran.stdout.splitlines()) + ran.stderr.splitlines()
        check.count("lines")
        check.same(offered, right, line)
    check.same((folder / "run").exists(), False, "a word that is typed runs")


@pytest.mark.parametrize("shell", ("bash", *(pytest.param(name, marks=pytest.mark.long) for name in ("zsh", "fish"))))
def test_offers(shell: str, place: Path, rooms: Path, needs: Callable[..., None], check: Check) -> None:
    needs(shell)
    check_offers(SHELLS[shell](place), rooms, environment(place, rooms), check)


def test_offers_below_the_home_directory(place: Path, rooms: Path) -> None:
    """A directory ends in a slash there too, so that a shell adds no space to it."""
    ran = subprocess.run([*SHELLS["bash"](place), "rrdi-plot ~/ro"], cwd="/", capture_output=True, text=True, timeout=PATIENCE,
                         env=environment(place, rooms))
    assert (sorted(ran.stdout.splitlines()), ran.stderr) == (["~/room.rrdi", "~/rooms/"], "")


def test_wrong_offers(folder: Path, planted: Check) -> None:
    check_offers(["sh", "-c", "touch run; echo last"], folder, os.environ, planted)
    assert len(planted.faults) == len(LINES) + 1


def test_each_position(rooms: Path, check: Check) -> None:
    """Bash offers what fits before the cursor, whatever follows it."""
    ran = subprocess.run(["bash", "--norc", "-c", EACH.format(top=TOP), "bash", *WHOLE], cwd=rooms, capture_output=True, text=True, check=True,
                         timeout=PATIENCE, env={**os.environ, "RRDI": "true"})
    lines = ran.stdout.splitlines()
    for line, found, wanted in zip(lines[::3], lines[1::3], lines[2::3]):
        check.count("positions")
        check.same(found, wanted, line)
    assert ran.stderr == "" and {line.split("|")[0] for line in lines[::3]} > set(WHOLE)


def test_bash_knows_each_tool(place: Path) -> None:
    files = sorted((place / "share/bash-completion/completions").iterdir())
    assert {path.name for path in files} == {"rrdi", *(path.name for path in (TOP / "tools").glob("rrdi-*"))}
    for path in files:
        subprocess.run(["bash", "-c", '. "$1" && complete -p "$2"', "bash", path, path.name], check=True)
