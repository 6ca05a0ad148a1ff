# SPDX-License-Identifier: MIT OR Apache-2.0
"""Planted bugs: what an edit says of itself, and whether what a check says refuses it where it says.

An edit of `must-fail/` is in the kit's form, with one line more, which names the function and the goal of its proof that
must be open: `refused: number::read_number returns`. The goal tells the clause: `returns` is what the function ensures,
`returns-clause-value` its clause `value`, `f-requires` what the callee `f` requires.

A proof rests on the contracts of the functions that it calls, and not on their bodies. So a check of many bugs, at most
one in each function, has a verdict for each of them."""
from __future__ import annotations

import re
from pathlib import Path
from typing import NamedTuple

FUNCTION = re.compile(r'^(\s*)(?:pub(?:\([^)]*\))?\s+)?(const\s+)?(?:unsafe\s+)?(?:extern\s+"\w+"\s+)?fn\s+(\w+)')
REFUSED = re.compile(r"(?m)^refused: (\S+) (\S+)$")
# The line of a function in what a check says: its name, and the verdict if the function is refused.
LINE = re.compile(r"(?m)^fn (\S+): (.*)$")
OPEN = re.compile(r"did not prove ((?:`[^`]+`(?:, | and )?)+)")
NOTE = re.compile(r"(?m)^note: \S+?:\d+:\d+: (?:it is not proved that .*?|`search` found no proof )\(`([^`]+)`\)")
# What an answer by hand says of a goal if a tactic in it finds no proof. Other errors of answers are of their shape.
NO_PROOF = re.compile(r"(?m)^\./proofs/(\S+)/\w+\.antt:\S+ error: `([^`]+)`: `\w+`: (?:no proof of|the goal does not follow)")
ERROR = re.compile(r"(?m)^(\S+?:\d+:\d+: error: .*)$")


class PlantedBug(NamedTuple):
    """A bug: its file, the function that must be refused, as a check names it, the open goal, and the file that it changes."""
    path: str
    function: str
    goal: str
    file: str
    # Whether all that it changes is in the body of this function.
    is_inside: bool

    @property
    def name(self) -> str:
        return Path(self.path).stem


def body_at(lines: list[str], at: int) -> str:
    """Returns the name of the function whose body has the line `at`, if its layout shows that: rt fmt ends a body with a
    `}` that is indented as the head is. A `const fn` has no such body, because other proofs may use it."""
    head = next((k for k in range(at, -1, -1) if FUNCTION.match(lines[k])), None)
    found = FUNCTION.match(lines[head]) if head is not None else None
    if head is None or found is None or found[2]:
        return ""
    indent = found[1]
    last = next((k for k in range(head, len(lines)) if lines[k].rstrip() == indent + "}"), at)
    opens = next((k for k in range(head, last) if opens_body(lines[k].rstrip(), indent, k == head)), at)
    return found[3] if opens < at < last else ""


def opens_body(line: str, indent: str, is_head: bool) -> bool:
    """Checks whether a body begins with this line: the head itself, the end of the parameters, or a `{` of its own."""
    if is_head:
        return line.endswith("{")
    return line == indent + "{" or line.startswith(indent + ")") and line.endswith("{")


def depths_of(text: str) -> tuple[int, int]:
    """Returns the lowest and the last depth of the braces of a text; the depth before the text is 0."""
    depth = lowest = 0
    for character in text:
        depth += {"{": 1, "}": -1}.get(character, 0)
        lowest = min(lowest, depth)
    return lowest, depth


def stays_inside(old: str, new: str) -> bool:
    """Checks that a new text for a part of a body neither moves the body's end nor begins another item."""
    (lowest, last), (new_lowest, new_last) = depths_of(old), depths_of(new)
    return new_last == last and new_lowest >= lowest and not re.search(r"\b(?:fn|impl|mod|const)\b", new)


def pairs_of(edit: str) -> list[tuple[str, str, str]]:
    """Returns the file, the text and the new text of each change of an edit."""
    pairs, path, old = [], "", ""
    for line in edit.split("\n"):
        word, _, rest = line.partition(": ")
        if word == "file":
            path = rest.strip()
        elif word == "old":
            old = rest
        elif line.startswith("new:"):
            pairs.append((path, old, line[len("new: "):]))
    return pairs


def is_inside(pairs: list[tuple[str, str, str]], folder: Path, function: str) -> bool:
    """Checks whether all that an edit changes is in one file, in the body of a function."""
    for path, old, new in pairs:
        text = (folder / path).read_text()
        name = body_at(text.split("\n"), text[:text.index(old)].count("\n"))
        if path != pairs[0][0] or name != function.split("::")[-1] or not stays_inside(old, new):
            return False
    return True


def bug_of(path: str, folder: Path) -> PlantedBug:
    """Returns the bug of an edit that can be applied. It has no function if the edit does not name one goal."""
    text = Path(path).read_text()
    pairs, found = pairs_of(text), REFUSED.findall(text)
    if len(found) != 1:
        return PlantedBug(path, "", "", pairs[0][0], False)
    function = f"{folder.name}::{found[0][0]}"
    return PlantedBug(path, function, found[0][1], pairs[0][0], is_inside(pairs, folder, function))


def open_goals(said: str, function: str) -> set[str]:
    """Returns the goals of a function that a check reports as not proved, or whose answer by hand has a tactic that finds no
    proof. A goal whose answer no longer fits otherwise is not among them: that says nothing of the contract."""
    lines = [rest for name, rest in LINE.findall(said) if name == function]
    if len(lines) != 1 or not lines[0].startswith(("no proof", "not proved")):
        return set()
    found = OPEN.search(lines[0])
    searched = set(re.findall(r"`([^`]+)`", found[1])) & set(NOTE.findall(said)) if found else set()
    return searched | {goal for path, goal in NO_PROOF.findall(said) if path.split("/") == function.split("::")[1:]}


def told_of(said: str, bug: PlantedBug) -> str:
    """Returns what a check says of a bug that it does not refuse at its goal: the goals that are open in the bug's function,
    or in any if the edit names none, and the first errors in proofs."""
    functions = [bug.function] if bug.function else sorted({name for name, _ in LINE.findall(said)})
    goals = [f"refused: {name.split('::', 1)[1]} {goal}" for name in functions for goal in sorted(open_goals(said, name))]
    return "".join(f"\n    {it[:160]}" for it in (goals or ["no goal is open"]) + ERROR.findall(said)[:3])
