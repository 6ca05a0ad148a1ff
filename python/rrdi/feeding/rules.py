# SPDX-License-Identifier: MIT OR Apache-2.0
"""Maps the names of Graphite's metrics to files: rules, each with a pattern, a FILE and the arguments of create."""
from __future__ import annotations

import os
import re
from typing import List, NamedTuple, Optional, Sequence, Tuple

from ..words import is_word

LONGEST_NAME = 1_024  # bytes of a name
LONGEST_PATH, LONGEST_PART = 4_095, 255  # bytes of a path, and of a file's or directory's name in it
# Parts with points between them. A part has no slash, no space and no control character.
NAME = re.compile(rb"[^\0-\x20\x7f/.]+(\.[^\0-\x20\x7f/.]+)*")
STAR = re.compile(r"\*\*?")
STARS = frozenset({b"*", b"**"})
EACH_NAME = "** **.rrdi"


class BadRule(Exception):
    """Why a rule can't be read; the text is for the user."""


class BadLine(Exception):
    """Why no sample can be read from a line; the text is for the user."""


class Target(NamedTuple):
    """The file of a metric, and the arguments that create the file if it does not exist."""

    file: bytes
    arguments: Tuple[str, ...]


class Rule(NamedTuple):
    name: Tuple[bytes, ...]  # in pieces
    file: Tuple[bytes, ...]
    arguments: Tuple[str, ...]

    def path(self, name: bytes) -> Optional[bytes]:
        """Returns the path below the directory for a name, and None if the name does not match."""
        texts = texts_of_stars(self.name, name)
        if texts is None:
            return None
        found = iter(texts)
        return b"".join(next(found) if piece in STARS else piece for piece in self.file)


def pieces(pattern: str) -> Tuple[bytes, ...]:
    """Splits a pattern into its stars and the texts between them."""
    return tuple(os.fsencode(piece) for piece in re.split(r"(\*\*?)", pattern) if piece)


# ---- Matching. A regular expression would try each way to share a name among its stars, which for many stars doesn't end.

def texts_of_stars(pattern: Sequence[bytes], name: bytes) -> Optional[List[bytes]]:
    """Returns the text of each star of a pattern, and None if the name does not match.

    A star takes one character or more of one part of a name, and two stars take one or more over several parts; each
    takes as many as it can, the first star first. The cost is that of each piece once over the name.
    """
    ends = [bytearray(len(name)) + b"\1"]  # by piece, from the last one: the places at which the rest can begin
    for piece in reversed(pattern):
        ends.append(begins_of(piece, name, ends[-1]))
    if not ends.pop()[0]:
        return None
    texts, at = [], 0
    for piece in pattern:
        after = ends.pop()
        if piece not in STARS:
            at += len(piece)
            continue
        most = name.find(b".", at) if piece == b"*" else -1
        end = after.rfind(1, at + 1, (len(name) if most < 0 else most) + 1)
        texts.append(name[at:end])
        at = end
    return texts


def begins_of(piece: bytes, name: bytes, ends: bytearray) -> bytearray:
    """Returns the places of a name at which a piece can begin to end at one of the places `ends`."""
    begins = bytearray(len(name) + 1)
    if piece in STARS:
        start = 0
        for part in [name] if piece == b"**" else name.split(b"."):
            last = max(ends.rfind(1, start + 1, start + len(part) + 1), start)
            begins[start:last] = b"\1" * (last - start)
            start += len(part) + 1
        return begins
    at = name.find(piece)
    while at >= 0:
        begins[at] = ends[at + len(piece)]
        at = name.find(piece, at + 1)
    return begins


def is_below(path: bytes) -> bool:
    """Checks whether a path, relative to the directory, stays below the directory."""
    return b"\0" not in path and not any(part in (b"", b".", b"..") for part in path.split(b"/"))


def read_rule(line: str) -> Rule:
    pattern, *others = line.split()
    if not others:
        raise BadRule("expected NAME FILE [ARGUMENTS OF create..]")
    file, *arguments = others
    if pattern.count("**") > 1 or "***" in pattern:
        raise BadRule("a NAME has at most one **")
    if len(STAR.findall(pattern)) != len(STAR.findall(file)):
        raise BadRule("NAME and FILE have different numbers of stars")
    if not is_below(os.fsencode(file)):
        raise BadRule(f"FILE must be a path below the directory, not {file}")
    if not all(map(is_word, arguments)):
        raise BadRule("the arguments of create must be words of printable ASCII")
    if arguments and sum(word.startswith("DS:") for word in arguments) != 1:
        raise BadRule("a FILE has one data source: give one DS:..")
    return Rule(pieces(pattern), pieces(file), tuple(arguments))


def read_rules(text: str) -> List[Rule]:
    """Reads rules, one per line; lines that begin with # are comments.

    # Errors
    `BadRule` with the number of the line.
    """
    rules = []
    for number, line in enumerate(text.splitlines(), 1):
        if not line.strip() or line.lstrip().startswith("#"):
            continue
        try:
            rules.append(read_rule(line))
        except BadRule as bad:
            raise BadRule(f"line {number}: {bad}") from None
    return rules


class Names:
    """The files of names, by the first rule that matches."""

    MOST_KEPT = 1_000_000

    def __init__(self, directory: bytes, rules: List[Rule]):
        self.directory, self.rules = directory, rules
        self.kept: "dict[bytes, Target]" = {}

    def target(self, name: bytes) -> Target:
        """Returns the file of a name.

        # Errors
        `BadLine` if the name is bad, no rule matches, or the path is too long or not below the directory.
        """
        found = self.kept.get(name)
        if found is None:
            found = self.find(name)
            if len(self.kept) >= self.MOST_KEPT:
                self.kept.clear()
            self.kept[name] = found
        return found

    def find(self, name: bytes) -> Target:
        if len(name) > LONGEST_NAME:
            raise BadLine(f"the name has over {LONGEST_NAME} bytes")
        if not NAME.fullmatch(name):
            raise BadLine("the name must be parts without slashes, and a point between them")
        for rule in self.rules:
            path = rule.path(name)
            if path is not None:
                break
        else:
            raise BadLine("no rule has this name")
        file = os.path.join(self.directory, path)
        if not is_below(path):
            raise BadLine("the file of this name is not below the directory")
        if len(file) > LONGEST_PATH or any(len(part) > LONGEST_PART for part in path.split(b"/")):
            raise BadLine("the file of this name has too long a name")
        return Target(file, rule.arguments)
