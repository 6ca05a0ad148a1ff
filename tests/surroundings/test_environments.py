# SPDX-License-Identifier: MIT OR Apache-2.0
"""The same commands print the same and leave the same files in each surrounding: where numbers have a comma, in Python's modes,
without a home, with one that cannot be written, and without room for temporary files."""
from __future__ import annotations

import os
import re
import shlex
import shutil
import subprocess
import sys
from pathlib import Path
from typing import Callable, Dict, List, NamedTuple, Sequence

import pytest

from support.check import Check
from support.library import COMPILE
from support.program import PATIENCE, TOP, Answer, Program
from support.tools import Tools

LEAST = {"commands": 220, "checks of C": 20}
COMMA = "de_DE.UTF-8"
AT = 1_700_000_000
# Commands in a folder, and what each is given.
SCRIPT: List[tuple[str, str]] = [
    (f"rrdi create f.rrdi --step 10 --start {AT} DS:in:GAUGE:60:-5.5:U DS:out:COUNTER:60:U:U RRA:AVERAGE:0.25:1:30 RRA:MAX:0.5:3:9", ""),
    ("rrdi-feed", "".join(f"f.rrdi {AT + 10 * at}:{at * 1.25}:{at * 7}\n" for at in range(1, 13)) + "f.rrdi 5:1,5:2\nbad\n"),
    (f"rrdi update f.rrdi {AT + 130}:1,5:3", ""), ("rrdi info f.rrdi", ""),
    ("rrdi-show f.rrdi", ""), ("rrdi-show f.rrdi AVERAGE", ""), ("rrdi-show --openmetrics f.rrdi MAX", ""), ("rrdi-show --json f.rrdi", ""),
    ("rrdi-check f.rrdi in --above 14.25 --below -0.5 --stale 99999d --changes state", ""),
    (f"rrdi-fix f.rrdi {AT + 110} -2.5 --source in", ""), (f"rrdi-fix f.rrdi {AT + 120} 1,5 --source in", ""),
    ("rrdi-export f.rrdi", ""), ("rrdi-export f.rrdi new.rrd", ""), ("rrdi-compare new.rrd f.rrdi", ""),
    ("rrdi-import new.rrd again.rrd", ""), ("rrdi-export --in-place again.rrd", ""), ("rrdi-import --into many new.rrd", ""),
    ("rrdi-plot f.rrdi p.svg AVERAGE --source in --min -2.5", ""), ("rrdi-plot --html many pages", ""),
    (f"rrdi-rrdtool fetch f.rrdi AVERAGE -s {AT} -e {AT + 60}", ""), (f"rrdi-rrdtool update f.rrdi {AT + 140}:2.5e0:90", ""),
    ("rrdi-rrdtool info f.rrdi", ""), ("rrdi-show none.rrdi", ""), ("rrdi-show --csv --json f.rrdi", ""), ("rrdi-plot", "")]
# Parts of texts and files that differ between two runs.
VARYING = re.compile(rb"No sample since [^<]*|'[^']*/rrdi-plot\w+/")


class Ran(NamedTuple):
    """What each command of a script answered, and the files after it."""

    answers: List[tuple[int, str, str]]
    files: Dict[str, bytes]


def run_script(tools: Tools, env: Dict[str, str], before: Sequence[str] = ()) -> Ran:
    """Runs the commands in a new folder, which always has the same path, each behind some words."""
    folder = Path(env["PLACE"])
    shutil.rmtree(folder, ignore_errors=True)
    folder.mkdir()
    answers = []
    for line, given in SCRIPT:
        name, *words = shlex.split(line)
        path = [tools.program.path] if name == "rrdi" else [sys.executable, str(tools.tools / name)]
        ran = subprocess.run([*before, *path, *words], input=given, capture_output=True, text=True, cwd=folder, timeout=PATIENCE,
                             env=env, encoding="utf-8", errors="surrogateescape")
        answers.append((ran.returncode, ran.stdout, ran.stderr))
        tools.check.count("commands")
    # RRDtool puts the first row anywhere.
    files = {str(path.relative_to(folder)): b"" if path.suffix == ".rrd" else VARYING.sub(b"", path.read_bytes())
             for path in sorted(folder.rglob("*")) if path.is_file()}
    return Ran(answers, files)


def compare(found: Ran, wanted: Ran, what: str, check: Check) -> None:
    for (line, _), ours, plain in zip(SCRIPT, found.answers, wanted.answers):
        check.same(ours, plain, f"{what}: {line}")
    check.same(sorted(found.files), sorted(wanted.files), f"{what}: the files")
    for name in found.files.keys() & wanted.files.keys():
        check(found.files[name] == wanted.files[name], f"{what}: {name} differs")


@pytest.fixture(scope="module")
def comma(workshop: Path, needs: Callable[..., None]) -> Dict[str, str]:
    """The variables of a locale with a comma in numbers, which is made for the tests."""
    needs("localedef")
    folder = workshop / "locales"
    folder.mkdir()
    ran = subprocess.run(["localedef", "-i", "de_DE", "-f", "UTF-8", str(folder / COMMA)], capture_output=True, text=True)
    if not (folder / COMMA).is_dir():
        pytest.skip(f"cannot make the locale {COMMA}: {ran.stderr[:200]}")
    return {"LOCPATH": str(folder)}


def tools_in(program: Program, folder: Path, workshop: Path, check: Check) -> Tools:
    made = Tools(program, folder, check)
    for name in ("LC_ALL", "LANG"):
        del made.env[name]
    made.env.update(HOME="/root", LANG="C.UTF-8", PYTHONPATH=str(TOP / "python"), PLACE=str(workshop / "place"))
    return made


@pytest.fixture
def tools(program: Program, folder: Path, workshop: Path, check: Check) -> Tools:
    return tools_in(program, folder, workshop, check)


@pytest.fixture(scope="module")
def plain(program: Program, workshop: Path, needs: Callable[..., None]) -> Ran:
    """What the commands answer in a developer's surrounding."""
    needs("rrdtool", "gnuplot")
    tools = tools_in(program, workshop, workshop, Check())
    ran = run_script(tools, tools.env)
    statuses = [status for status, _, _ in ran.answers]
    wrong = [at for at, status in enumerate(statuses) if status]
    # A line of rrdi-feed, an alarm, the commands with a comma, the missing file, and the usage.
    refused = ["rrdi-feed", "rrdi", "rrdi-check", "rrdi-fix", "rrdi-show", "rrdi-show", "rrdi-plot"]
    assert [SCRIPT[at][0].split()[0] for at in wrong] == refused, ran.answers
    return ran


def test_a_comma(tools: Tools, plain: Ran, comma: Dict[str, str], check: Check) -> None:
    """Numbers have a point everywhere, whatever the locale says."""
    for name in ("LC_ALL", "LC_NUMERIC"):
        compare(run_script(tools, {**tools.env, **comma, name: COMMA}), plain, f"{name}={COMMA}", check)


def modes(tools: Tools) -> Dict[str, Dict[str, str]]:
    without_home = {name: value for name, value in tools.env.items() if name != "HOME"}
    return {"PYTHONOPTIMIZE=2": {**tools.env, "PYTHONOPTIMIZE": "2"},
            "the locale C without UTF-8": {**tools.env, "LC_ALL": "C", "PYTHONUTF8": "0", "PYTHONCOERCECLOCALE": "0"},
            "no HOME": without_home, "a HOME that cannot be written": {**tools.env, "HOME": "/proc/1"},
            "no TMPDIR": {**tools.env, "TMPDIR": "/nowhere"},
            "warnings are errors": {**tools.env, "PYTHONWARNINGS": "error", "PYTHONDEVMODE": "1"}}


@pytest.mark.parametrize("name", modes(Tools(Program(""), Path(), Check())))
def test_modes(name: str, tools: Tools, plain: Ran, check: Check) -> None:
    compare(run_script(tools, modes(tools)[name]), plain, name, check)


FULL = 'mount -t tmpfs -o size=64k none "$0" && head -c 100000 /dev/zero >"$0/rest" 2>/dev/null; exec "$@"'


def test_no_room_for_temporary_files(tools: Tools, plain: Ran, check: Check) -> None:
    """TMPDIR is a full disk of 64 KB."""
    full = tools.folder / "full"
    full.mkdir()
    before = ["unshare", "--mount", *["--map-root-user"] * (os.geteuid() != 0), "sh", "-c", FULL, str(full)]
    tried = subprocess.run([*before, "sh", "-c", 'echo a >"$0/a"', full], capture_output=True, text=True)
    if "mount" in tried.stderr or tried.returncode == 0:
        pytest.skip(f"no mount in a namespace: {tried.stderr}")
    compare(run_script(tools, {**tools.env, "TMPDIR": str(full)}, before), plain, "a full TMPDIR", check)


# ---- programs that choose a locale themselves


def test_a_program_in_c(library: Path, comma: Dict[str, str], folder: Path, needs: Callable[..., None], check: Check) -> None:
    """A program with another decimal point, over the C library and over librrd's functions."""
    needs("cc")
    recorder = library.with_name("librrdi-record.so")
    linked = [str(library), f"-Wl,-rpath,{library.parent}", *[str(recorder)] * recorder.is_file()]
    subprocess.run([*COMPILE, *["-DHAS_RECORDER"] * recorder.is_file(), f"-I{TOP / 'include'}", Path(__file__).parent / "c/comma.c",
                    *linked, "-o", folder / "comma"], check=True)
    ran = subprocess.run([folder / "comma"], cwd=folder, capture_output=True, text=True, timeout=PATIENCE,
                         env={**os.environ, **comma, "LC_ALL": COMMA})
    check.count("checks of C", ran.stdout.count("ok\n"))
    check.same((ran.returncode, ran.stdout.replace("ok\n", ""), ran.stderr), (0, "", ""), "the program in C")


IN_PYTHON = """
import locale, sys
locale.setlocale(locale.LC_ALL, "")
assert locale.str(1.5) == "1,5"
import rrdi
rrdi.create("p.rrdi", "DS:g:GAUGE:60:-1.5:99.5", "RRA:LAST:0.5:1:9", step=10, start=0)
rrdi.update("p.rrdi", (10, 1.5), (20, [2.25]))
rrdi.update("p.rrdi", (30, {"g": -0.75}))
with rrdi.Database("p.rrdi") as opened:
    opened.update((40, 1e1))
for value in ("1,5", "1.5e0"):
    try:
        rrdi.update("p.rrdi", f"50:{value}")
    except rrdi.Error as refused:
        print("write 1.5" in refused.detail.replace("'", ""))
print(rrdi.fetch("p.rrdi", "LAST", start=0, end=39).rows, rrdi.info("p.rrdi").sources["g"].max, rrdi.lastupdate("p.rrdi").values)
"""
FROM_PYTHON = """True
True
[(1.5,), (2.25,), (-0.75,), (10.0,)] 99.5 {'g': 10.0}
"""


def test_a_program_in_python(library: Path, comma: Dict[str, str], tools: Tools, check: Check) -> None:
    ran = tools.run(sys.executable, "-B", "-c", IN_PYTHON, LC_ALL=COMMA, RRDI_LIBRARY=str(library), **comma)
    check.count("commands")
    check.same(ran, Answer(0, FROM_PYTHON), "a program in Python")


IN_PERL = r"""
use strict; use POSIX; use RRDs;
setlocale(LC_ALL, "");
my $file = shift;
sub try { die "$_[0]: " . RRDs::error() if RRDs::error() }
RRDs::create($file, "-s", 10, "-b", 1000000000, "DS:g:GAUGE:60:-1.5:U", "RRA:LAST:0.5:1:9"); try "create";
RRDs::update($file, "1000000010:1.5", "1000000020:2.25"); try "update";
my ($start, $step, $names, $rows) = RRDs::fetch($file, "LAST", "-s", 1000000000, "-e", 1000000019); try "fetch";
my $sum = 0;
$sum += $_->[0] // 0 for @$rows;
printf "%s %d\n", $sum == 3.75 ? "sum" : "not 3.75", RRDs::info($file)->{"ds[g].min"} == -1.5; try "info";
RRDs::update($file, "1000000030:1,5");
print RRDs::error() =~ /'1,5'/ ? "refused\n" : "taken: " . RRDs::error() . "\n";
print -e $file ? "there\n" : "not there\n", "$file\n";
"""


@pytest.mark.parametrize("way", ("a comma", "PERL_UNICODE"))
def test_a_program_in_perl(way: str, comma: Dict[str, str], tools: Tools, needs: Callable[..., None], check: Check) -> None:
    """RRDs.pm where numbers have a comma, and where Perl decodes arguments and encodes what it prints."""
    needs("perl")
    env = {**comma, "LC_ALL": COMMA} if way == "a comma" else {"PERL_UNICODE": "SDA", "LC_ALL": "C.UTF-8"}
    name = "\u00fcbung \u20ac.rrd"
    ran = tools.run("perl", "-e", IN_PERL, name, **env)
    check.count("commands")
    check.same((ran.status, ran.out, ran.err), (0, f"sum 1\nrefused\nthere\n{name}\n", ""), way)
    check.same(os.listdir(os.fsencode(tools.folder)).count(name.encode()), 1, f"{way}: the file's name")


# ---- names beyond ASCII in the locale C

NAMED: List[tuple[str, str]] = [
    ("rrdi create {} --step 10 --start 0 DS:g:GAUGE:60:U:U RRA:LAST:0.5:1:9", ""), ("rrdi-feed", "{} 10:1.5\n{} 20:2\n"),
    ("rrdi-show {}", ""), ("rrdi-show {} LAST", ""), ("rrdi-show --journal {}", ""), ("rrdi-show --openmetrics {}", ""),
    ("rrdi-check {} g --above 0.5 --stale 99999d --changes {}.state", ""), ("rrdi-fix {} 20 3", ""), ("rrdi-export {} {}.rrd", ""),
    ("rrdi-compare {}.rrd {}", ""), ("rrdi-import {}.rrd {}.again", ""), ("rrdi-import --into into {}.rrd", ""),
    ("rrdi-export --into back into", ""), ("rrdi-plot {} {}.svg LAST --title {}", ""), ("rrdi-plot --html into pages --title {}", ""),
    ("rrdi-rrdtool info {}", ""), ("rrdi-rrdtool last {}", ""), ("rrdi-record {}.load", ""), ("rrdi-graph {}.png DEF:a={}:g:LAST LINE1:a", ""),
    ("rrdi-show {}.none", ""), ("rrdi-check {}.none g", ""), ("rrdi-fix {}.none 5", ""), ("rrdi-import {}.none", ""),
    ("rrdi-export {}.none", ""), ("rrdi-compare {}.none {}", "")]
NAMES = {"UTF-8": "\u00fcbung\u20ac\U0001f600".encode(), "bytes": "\u00fc".encode() + b"\xff"}  # rrdi creates no file of the last one


@pytest.mark.parametrize("kind", NAMES)
def test_names_in_the_locale_c(kind: str, tools: Tools, needs: Callable[..., None], check: Check) -> None:
    """Each tool takes a name of any bytes, also where the locale knows ASCII only, and ends without a traceback."""
    needs("rrdtool", "gnuplot")
    name, found = NAMES[kind], {}
    for way, env in (("C", {"LC_ALL": "C", "PYTHONUTF8": "0", "PYTHONCOERCECLOCALE": "0"}), ("UTF-8", {"LC_ALL": "C.UTF-8"})):
        place = tools.folder / way
        place.mkdir()
        statuses = [ran_named(tools, place, name, line, given, env, check) for line, given in NAMED]
        names = sorted(os.fsencode(path.relative_to(place)) for path in place.rglob("*") if path.is_file())
        found[way] = statuses, names
    check.same(found["C"], found["UTF-8"], "statuses and files")
    made = [b"", b".again", b".load", b".load.1", b".load.lock", b".png", b".rrd", b".state", b".svg"]
    lasting = [name + end for end in made] + [b"into/" + name + b".rrdi", b"back/" + name + b".rrd"]
    check.same([path for path in found["C"][1] if b"html" not in path], sorted(lasting if kind == "UTF-8" else [name + end for end in (b".load", b".load.lock", b".state")]), "the files")


def ran_named(tools: Tools, place: Path, name: bytes, line: str, given: str, env: Dict[str, str], check: Check) -> int:
    """Runs a command on a file of this name, and returns its status."""
    tool, *words = line.split()
    path = [tools.program.path] if tool == "rrdi" else [sys.executable, str(tools.tools / tool)]
    ran = subprocess.run([*map(str.encode, path), *(word.encode().replace(b"{}", name) for word in words)], cwd=place, capture_output=True,
                         input=given.encode().replace(b"{}", name), env={**tools.env, **env}, timeout=PATIENCE)
    check.count("commands")
    check(b"Traceback" not in ran.stderr, f"{env}: {line} of {name!r}: {ran.stderr.decode(errors='replace')}")
    return ran.returncode


def test_wrong_answers(planted: Check) -> None:
    compare(Ran([(0, "1,5", "")], {"a": b"1", "b": b""}), Ran([(0, "1.5", "")], {"a": b"2"}), "it", planted)
    assert len(planted.faults) == 3
    place = Path(shutil.which("true") or "").parent
    tools = Tools(Program(str(place / "sh")), Path(), planted)
    ran_named(tools, place, b"-c", "rrdi {} echo${IFS}Traceback>&2", "", {}, planted)
    assert len(planted.faults) == 4
