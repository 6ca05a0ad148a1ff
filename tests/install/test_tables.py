# SPDX-License-Identifier: MIT OR Apache-2.0
"""Tables are complete against their source: each command and each option is in every manual and completion, each refusal in the
table of refusals, and each unit, path and manual that the page of the services names is there."""
from __future__ import annotations

import re
import subprocess
import sys
from pathlib import Path
from typing import Dict, Iterator, List, NamedTuple, Set

import pytest

from support import manual
from support.check import Check
from support.program import TOP, Program, environment
from support.refusals import rows

sys.path.insert(0, str(TOP / "python"))

from rrdi.tools.rrdtool.running import ELSEWHERE, Commands  # noqa: E402

TOOLS = sorted(path.name for path in (TOP / "tools").glob("rrdi-*"))
# What is an option of RRDtool's grapher or of carbon-cache, whose own help has it.
OF_OTHERS = {"rrdi-graph": {"--start", "--end", "--title", "--vertical-label", "--width", "--height"},
             "rrdi-carbon-cache": {"--version", "--config", "--debug", "--nodaemon", "--pidfile", "--logdir", "--instance"}}
# The values of options for which files or directories are offered.
OF_FILES = {"FILE", "DIR", "DIRECTORY", "STATE", "RULES"}
COMPLETE = r"""
. {top}/examples/{source}.bash
compopt() {{ :; }}
cd "$1" && shift
for line; do
    COMP_LINE=$line COMP_POINT=${{#line}}
    read -ra COMP_WORDS <<<"$line"
    case $line in *[[:space:]]) COMP_WORDS+=('') ;; esac
    COMP_CWORD=$((${{#COMP_WORDS[@]}} - 1))
    {function}
    printf '%s ' "${{COMPREPLY[@]}}"
    echo
done
"""
# Whatever is refused only when memory runs out is in no table.
WITHOUT_ROW = {"out of memory"}
LEAST = {"entries": 250}


def text_of(path: str) -> str:
    return (TOP / path).read_text(encoding="utf-8")


def offers(source: str, function: str, lines: List[str], folder: Path) -> List[List[str]]:
    """Returns what bash offers for each unfinished line."""
    code = COMPLETE.format(top=TOP, source=source, function=function)
    ran = subprocess.run(["bash", "--norc", "-c", code, "bash", folder, *lines], capture_output=True, text=True, check=True,
                         env=environment({"PATH": "/usr/bin:/bin", "RRDI_WAIT": "0"}))
    assert ran.stderr == ""
    return [line.split() for line in ran.stdout.splitlines()]


class Option(NamedTuple):
    """An option of a tool's help: its names, and what its value is called; nothing if it has none."""

    short: str
    name: str
    value: str


def options(help_text: str) -> Iterator[Option]:
    for line in re.findall(r"^ {2}(-.*?)(?: {2,}|$)", help_text, re.MULTILINE):
        for short, name, value in re.findall(r"(?:(-\w), )?(--[a-z][a-z-]*)(?: ([A-Zx][A-Zx,.]*))?", line):
            yield Option(short, name, value)


@pytest.fixture(scope="module")
def helps() -> Dict[str, str]:
    """The help of each tool."""
    return {name: subprocess.run([sys.executable, "-B", TOP / "tools" / name, "--help"], capture_output=True, text=True,
                                 check=True).stdout for name in TOOLS}


# ---- the program's commands


def sections(text: str, head: str) -> Set[str]:
    return set(re.findall(rf"^{head}(\w+): ", text, re.MULTILINE))


def check_commands(commands: Set[str], places: Dict[str, Set[str]], check: Check) -> None:
    for place, found in places.items():
        check.count("entries", len(commands))
        check.same(found, commands, f"the commands of {place}")


def test_commands(program: Program, folder: Path, check: Check) -> None:
    """The commands of the usage text are those of each table; RRDtool's tool has the others of its own."""
    usage = manual.in_usage(program.run([]).err).keys() | {"batch"}
    by_name = re.search(r"(?m)^ *choices=\((batch .*)\)$", text_of("examples/rrdi.bash"))
    assert by_name
    code = text_of("python/rrdi/commands.py") + text_of("python/rrdi/by_program.py")
    check_commands(set(usage), {
        "docs/commands.md": sections(text_of("docs/commands.md"), "## "), "docs/rrdi.1": sections(text_of("docs/rrdi.1"), r"\.SH "),
        "examples/rrdi.bash": set(by_name[1].split()),
        "bash": set(offers("rrdi", "_rrdi", ["rrdi "], folder)[0]),
        "rrdi.commands": {name for name in re.findall(r"(?m)^def (\w+)\(", code) if name in usage},
        "rrdi's module": {name for name in re.findall(r"\w+", text_of("python/rrdi/__init__.py")) if name in usage}}, check)
    of_perl = {name for name in re.findall(r"(?m)^sub ([a-z]\w*)", text_of("perl/RRDs.pm"))} - {"error"}
    check.same(of_perl, (set(Commands().ways) | {"graph", "graphv", "xport"}) - {"rows"}, "the functions of RRDs.pm")
    of_rrdtool = set(Commands().ways) | set(ELSEWHERE)
    check.same(usage - of_rrdtool, {"batch", "revert"}, "commands that rrdi-rrdtool lacks, since RRDtool has none")
    told = " ".join(subprocess.run([sys.executable, "-B", TOP / "tools/rrdi-rrdtool", "--help"], capture_output=True, text=True,
                                   check=True).stdout.split())
    listed = re.search(r"COMMAND is (.*?), with most options", told)
    assert listed
    named = set(re.findall(r"\w+", listed[1])) - {"or"}
    check.same(named, (set(Commands().ways) | {"graph", "graphv", "xport"}) - {"times", "rows"}, "the help of rrdi-rrdtool")
    check.same({word for word in offers("rrdi-tools", "_rrdi_tool", ["rrdi-rrdtool "], folder)[0] if word[0] != "-"}, named,
               "the completion of rrdi-rrdtool")


def test_options_of_commands(program: Program, folder: Path, check: Check) -> None:
    """Bash offers each option of the usage text, and no other one."""
    usage = program.run([]).err
    for command, form in manual.in_usage(usage).items():
        names = {f"--{name}" for _, name, _ in manual.options(form)}
        before = {"fetch": "AVERAGE "}.get(command, "")
        found, = offers("rrdi", "_rrdi", [f"rrdi {command} none.rrdi {before}"], folder)
        check.count("entries", len(names) + 1)
        check.same({word for word in found if word.startswith("-")}, names, f"the options of {command}")


# ---- the tools' options


def named_in(text: str) -> Set[str]:
    """Returns the long options that a help or a manual page names."""
    return set(re.findall(r"(?<![\w-])--[a-z][a-z-]*", re.sub(r"\\f.", "", text.replace("\\-", "-"))))


def check_options(name: str, help_text: str, page: str, offered: Set[str], check: Check) -> None:
    listed, everywhere = {option.name for option in options(help_text)}, {"--help", "--version"}
    check.count("entries", len(listed))
    check.same(listed - everywhere - named_in(page), set(), f"{name}: options that its manual lacks")
    check.same(listed - offered, set(), f"{name}: options that are not offered")
    known = named_in(help_text) | everywhere | OF_OTHERS.get(name, set())
    check.same({word for word in offered if word.startswith("-")} - known, set(), f"{name}: other options that are offered")


def test_options_of_tools(helps: Dict[str, str], folder: Path, check: Check) -> None:
    """Each option of a tool's help is in its manual, and bash offers these and no other ones."""
    for name, help_text in helps.items():
        first, later = offers("rrdi-tools", "_rrdi_tool", [f"{name} -", f"{name} a b c -"], folder)
        check_options(name, help_text, text_of(f"docs/{name}.1"), {*first, *later}, check)


def test_values_of_options(helps: Dict[str, str], folder: Path, check: Check) -> None:
    """After an option with a value, no other option and no function is offered; files only where the value is one."""
    (folder / "directory").mkdir()
    for end in ("rrdi", "rrd", "png", "rules"):
        (folder / f"a.{end}").touch()
    for name, help_text in helps.items():
        asked = [(word, option.value) for option in options(help_text) if option.value
                 for word in (option.name, option.short) if word and word != "--html"]
        found = offers("rrdi-tools", "_rrdi_tool", [f"{name} a.rrdi {word} " for word, _ in asked], folder) if asked else []
        for (word, value), offered in zip(asked, found):
            check.count("entries")
            files = {"a.rrdi", "a.rrd", "a.png", "a.rules", "directory"} if value in OF_FILES else set()
            check.same(set(offered) - files, set(), f"{name} {word} {value}: what is offered")


# ---- refusals


def refusal_texts() -> Set[str]:
    """Returns all texts of refusals; a number that follows is left out."""
    source = text_of("crates/rrd_spec/src/refusal.rt")
    texts = re.findall(r'message\("([^"]+)"', source)
    assert len(texts) == len(re.findall(r"^ {12}Refusal::\w+", source, re.MULTILINE)) > 25
    return {text.strip() for text in texts}


def unreadable_texts() -> Set[str]:
    """Returns what errors.md lists of words that cannot be read."""
    table = text_of("docs/errors.md").partition("A word that cannot be read")[2].partition("\n## ")[0]
    found = set()
    for cell in re.findall(r"^\| (`unreadable .*?) \|", table, re.MULTILINE):
        first, *more = re.findall("`([^`]+)`", cell)
        found |= {first, *(f"unreadable {word}" for word in more)}
    assert len(found) > 15, found
    return {text.replace(" N", "") for text in found}


def test_refusals(program: Program, folder: Path, check: Check) -> None:
    """Each refusal of the definitions, and each word that cannot be read, is in the table of refusals."""
    seen, made, file = set(), [], folder / "f.rrdi"
    for row in rows():
        if row.create != made:
            assert program.run([row.create[0], file, *row.create[1:]]).status == 0
            made = row.create
        answer = program.run([row.words[0], file, *row.words[1:]])
        check.count("entries")
        seen.add(re.sub(r" \d+$", "", answer.err.partition("\n")[0].replace("ERROR: ", "")))
    check.same(refusal_texts() - WITHOUT_ROW - seen, set(), "refusals without a row in the table")
    check.same(unreadable_texts() - seen, set(), "words without a row in the table")
    page = text_of("docs/errors.md")
    check.same({text for text in refusal_texts() if f"`{text}`" not in page and f"`{text} T`" not in page}, set(), "refusals on no page")


# ---- services


def test_services(check: Check) -> None:
    """The units, paths, manuals and accounts that docs/install.md and the units themselves name are there."""
    section = text_of("docs/install.md").partition("\n## Services\n")[2]
    units = {path.name: path.read_text() for path in (TOP / "tools/systemd").iterdir()}
    together = "\n".join(units.values())
    named = set(re.findall(r"\brrdi-\w+\.(?:service|socket|timer)\b", section))
    paths = set(re.findall(r"(/(?:run|etc|var)/[\w./-]*\w)", section)) - {"/etc/rrdi-feed.rules"}
    enabled = {name for line in re.findall(r"systemctl enable --now (.*)", section) for name in line.split()}
    accounts = set(re.findall(r"(?m)^(?:User|SocketUser|SocketGroup)=(.*)$", together))
    others = set(re.findall(r"(?m)^(?:Requires|Also|After)=(rrdi-.*)$", together))
    manuals = {".".join(found) for found in re.findall(r"(?m)^Documentation=man:([\w-]+)\((\d)\)$", together)}
    tools = set(re.findall(r"(?m)^ExecStart=@PREFIX@/bin/(\S+)", together))
    for found in (named, paths, enabled, accounts, others, manuals, tools):
        assert found
        check.count("entries", len(found))
    check.same((named | others) - set(units), set(), "units that are named")
    check.same({path for path in paths if path not in together}, set(), "paths on the page that no unit names")
    check.same({name for name in enabled if "[Install]\n" not in units[name]}, set(), "units that cannot be enabled")
    check.same({name for name in accounts if f"u {name} " not in units["rrdi.sysusers"]}, set(), "accounts")
    check.same({page for page in manuals if not (TOP / "docs" / page).is_file()}, set(), "manuals")
    check.same(tools - set(TOOLS), set(), "tools")


def test_wrong_tables(planted: Check) -> None:
    check_commands({"last"}, {"a page": {"last", "first"}}, planted)
    check_options("rrdi-show", "  --csv  print CSV\n", "no option", {"--help", "--json"}, planted)
    assert len(planted.faults) == 4
