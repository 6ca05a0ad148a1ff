# SPDX-License-Identifier: MIT OR Apache-2.0
"""The trial of planted bugs: where a bug stands, what counts as refused, and the rounds, by a kit that refuses the word BUG."""
from __future__ import annotations

import importlib.machinery
import importlib.util
import re
import subprocess
import sys
import types
from pathlib import Path
from typing import Any

import pytest

from support.program import TOP

sys.path.insert(0, str(TOP / "scripts"))
from planted import body_at, open_goals, stays_inside

LINES = """/// Doubles.
pub fn twice(x: u8) -> u8
    ensures { result == x + x }
{
    let sum = x + x;
    sum
}

impl low::Show for Pair {
    fn show(&self) -> u8 {
        if self.is_new() {
            return 1;
        }
        2
    }
}

const fn one(
    x: u8,
) -> u8 {
    7
}

pub extern "C" fn called_from_c(x: u8) -> u8 {
    x
}
""".split("\n")


@pytest.mark.parametrize("at, name", [(5, "twice"), (2, ""), (3, ""), (7, ""), (11, "show"), (16, ""), (20, ""),
                                      (24, "called_from_c")])
def test_the_function_of_a_line(at: int, name: str) -> None:
    assert body_at(LINES, at) == name


@pytest.mark.parametrize("old, new, is_inside", [
    ("x + 1", "x", True), ("if a {", "if b {", True), ("if a {", "if b", False), ("x", "x }", False), ("x", "} {", False),
    ("let y = x else {", "if x { return; } let y = x else {", True), ("x", "fn f() {} x", False),
    ("a", "a; const B: u8 = 1;", False)])
def test_a_text_that_stays_in_its_body(old: str, new: str, is_inside: bool) -> None:
    assert stays_inside(old, new) == is_inside


# What the prover said of a crate with bugs: answers that no longer fit, open goals, and functions above a refused one.
SAID = """./proofs/mark/read_mark/Answers.antt:15:5: error: `returns-then`: the two types differ only where one has `Short`
./proofs/mark/finish/Answers.antt:27:75: error: `returns-clause-power`: `search`: no proof of `Never ≡ Ordered`
./proofs/mark/finish/Answers.antt:28:75: error: `returns-clause-ok`: `rw`: no occurrence of the path's left endpoint
fn c::mark::finish: not proved
note: src/mark.rt:69:1: it is not proved that what the function ensures holds when it returns (`returns`)
fn c::mark::undo_mark: no proof: expected answers in ./proofs/mark/undo_mark/Answers.antt; `search` did not prove `returns`
fn c::mark::read_mark: not proved; it calls `c::mark::undo_mark`, which is not proved
fn c::slot::slot_header: no proof: it calls `c::mark::undo_mark`, which is not proved
note: src/slot.rt:68:71: it is not proved that what `slot_sum` requires holds (`slot_sum-requires`)
fn c::slot::read_slot: no proof: expected answers in ./proofs/..; `search` did not prove `slot_sum-requires` and `returns-2`
fn c::slot::slot_sum: proved
logic=not-proved
"""


@pytest.mark.parametrize("function, goals", [
    ("mark::undo_mark", {"returns"}), ("mark::read_mark", set()), ("slot::slot_header", set()),
    ("slot::read_slot", {"slot_sum-requires"}), ("slot::slot_sum", set()), ("slot::other", set()), ("undo_mark", set()),
    ("mark::finish", {"returns-clause-power"})])
def test_the_open_goals_of_a_function(function: str, goals: set[str]) -> None:
    assert open_goals(SAID, f"c::{function}") == goals
    assert not open_goals(SAID + f"fn c::{function}: proved\n", f"c::{function}")


def crate(folder: Path, bugs: dict[str, tuple[str, str]], source: str) -> None:
    """Makes a crate of four functions, of which `b` calls `a`, and its bugs: each the new text of the function that its name
    begins with, and where it must be refused."""
    for part in ("src", "must-fail", "out"):
        (folder / part).mkdir(parents=True)
    (folder / "src/lib.rt").write_text(source)
    for name, (new, where) in bugs.items():
        said = where and f"refused: {where}\n"
        (folder / f"must-fail/{name}.edit").write_text(f"file: src/lib.rt\n{said}old: let {name[0]}_is = 1;\nnew: {new}\n")


CALLS = {"a": "1;", "b": "a();", "c": "1;", "d": "1;"}
SOURCE = "".join(f"fn {name}() {{\n    {call}\n    let {name}_is = 1;\n}}\n" for name, call in CALLS.items())


class Kit:
    """Refuses a function with the word BUG at the goal `returns`, and one with SHAPE for its proof, says of one that calls a
    refused one only that, and cannot read a text with UNREADABLE. It knows the crate `c`."""
    rtlib = types.SimpleNamespace(STALE=re.compile("stale"), guarded=list)
    need, free, processors = staticmethod(lambda it: 1), staticmethod(lambda: 1000), staticmethod(lambda: 2)
    unread = staticmethod(lambda line, texts: "unreadable" in line)

    def __init__(self, folder: Path) -> None:
        self.folder = folder / "crates/c"
        of_c = types.SimpleNamespace(name="c", is_static=False, folder=str(self.folder), below=list, build_rlib=self.build)
        self.rtlib.crates_below = lambda top: [of_c]

    def build(self, flags: list[str], anew: bool) -> int:
        (self.folder / "out/incremental").mkdir()
        (self.folder / "out/incremental/proof").write_text("kept")
        return int("BUG" in (self.folder / "src/lib.rt").read_text())

    def edits_of(self, of_c: Any) -> tuple[list[str], list[str]]:
        files = sorted(map(str, (self.folder / "must-fail").glob("*")))
        return [it for it in files if it.endswith(".edit")], [it for it in files if not it.endswith(".edit")]

    def read_edit(self, edit: str, folder: str) -> tuple[dict[str, str], str | None]:
        text, lines = Path(folder, "src/lib.rt").read_text(), Path(edit).read_text().splitlines()
        old, new = lines[-2][len("old: "):], lines[-1][len("new: "):]
        return {"src/lib.rt": text.replace(old, new)}, None if text.count(old) == 1 else "not once"

    def checked(self, of_c: Any, texts: dict[str, str], flags: list[str], kept: str) -> Any:
        text, said, refused = texts["src/lib.rt"], [], ""
        assert Path(kept, "proof").read_text() == "kept"
        Path(kept, "proof").write_text("spoilt")
        for name, body in re.findall(r"(?m)^fn (\w)\(\) \{\n((?:    .*\n)*)", text):
            if "BUG" in body:
                said += ["note: src/lib.rt:1:1: it is not proved that it is right (`returns`)",
                         f"fn c::{name}: no proof: `search` did not prove `returns`"]
            elif "SHAPE" in body:
                said += [f"./proofs/{name}/Answers.antt:1:1: error: `returns`: types differ", f"fn c::{name}: not proved"]
            elif refused and f"{refused}();" in body:
                said.append(f"fn c::{name}: no proof: it calls `c::{refused}`, which is not proved")
            refused = name if "BUG" in body else refused
        said += ["unreadable"] * ("UNREADABLE" in text) + [f"logic={'not-' if said else ''}proved"]
        return subprocess.CompletedProcess([], int(len(said) > 1), "\n".join(said), "")


AT = {name: (f"{name}_is BUG", f"{name} returns") for name in "abcd"}


@pytest.mark.parametrize("bugs, source, wrong, checks, tells", [
    ({"a": AT["a"], "c": AT["c"], "d": AT["d"]}, SOURCE, 0, 1, "c/a: refused in round 1, in `c::a` at `returns`"),
    ({"a": AT["a"], "a2": AT["a"], "c": AT["c"], "c2": AT["c"]}, SOURCE, 0, 2, "round 2"),
    ({"a": AT["a"], "b": ("2;", "b returns"), "c": AT["c"]}, SOURCE, 1, 2, "c/b was not refused"),
    ({"a": AT["a"], "c": AT["c"], "d": ("SHAPE", "d returns")}, SOURCE, 1, 2, "no goal is open\n    ./proofs/d/Answers.antt"),
    ({"a": AT["a"], "c": ("BUG", "c f-requires")}, SOURCE, 1, 2, "refused: c returns"),
    ({"a": AT["a"], "c": ("BUG", "d returns")}, SOURCE, 1, 2, "c/c was not refused"),
    ({"a": AT["a"], "c": ("BUG", "")}, SOURCE, 1, 2, "refused: c returns"),
    ({"a": AT["a"], "c": ("BUG } fn e() {", "c returns")}, SOURCE, 0, 2, "c/c: refused alone"),
    ({"a": AT["a"], "c": AT["c"], "d": ("UNREADABLE", "d returns")}, SOURCE, 1, 4, "c/d was not refused"),
    ({"a": AT["a"], "e": AT["a"]}, SOURCE, 2, 1, "not tried: c/e"),
    ({"a": AT["a"]}, SOURCE.replace("d_is", "BUG"), 2, 0, "c is not proved without a bug")])
def test_trials(bugs: dict[str, tuple[str, str]], source: str, wrong: int, checks: int, tells: str, tmp_path: Path,
                monkeypatch: pytest.MonkeyPatch, capsys: pytest.CaptureFixture[str]) -> None:
    script = loaded()
    crate(tmp_path / "crates/c", bugs, source)
    monkeypatch.chdir(tmp_path)
    monkeypatch.setattr(script, "kit", lambda: Kit(tmp_path))
    tally = script.Tally()
    script.try_all(tmp_path, script.parser().parse_args([]), tally, script.bugs_of_repository(tmp_path))
    said = capsys.readouterr().out
    assert (tally.wrong, tally.tried["checks"], tells in said) == (wrong, checks, True), said


def loaded() -> Any:
    path = str(TOP / "scripts/try-planted-bugs")
    spec = importlib.util.spec_from_loader("try_planted_bugs", importlib.machinery.SourceFileLoader("try_planted_bugs", path))
    assert spec and spec.loader
    module = importlib.util.module_from_spec(spec)
    sys.modules[spec.name] = module
    spec.loader.exec_module(module)
    return module


def test_the_status_of_a_run(capsys: pytest.CaptureFixture[str]) -> None:
    """A run that has tried no bug is as wrong as one with a bug that was not refused."""
    script = loaded()
    tally = script.Tally()
    assert tally.end() == 1
    tally.count(script.BUGS)
    assert tally.end() == 0
    tally.say("c/a was not refused", False)
    assert (tally.end(), capsys.readouterr().out.splitlines()[-1]) == (1, f"1 {script.BUGS}: 1 wrong")


def test_each_bug_names_its_goal() -> None:
    edits = sorted(TOP.glob("crates/*/must-fail/*.edit")) + sorted(TOP.glob("library/*/must-fail/*.edit"))
    assert len(edits) >= 100
    assert not [str(it) for it in edits if it.read_text().count("\nrefused: ") != 1]
