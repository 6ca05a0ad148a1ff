# SPDX-License-Identifier: MIT OR Apache-2.0
"""Finds the files and folders of metrics that a pattern of Graphite matches, below a data folder."""
from __future__ import annotations

import os
import re
from typing import Iterator, List, NamedTuple, Optional, Sequence, Set, Tuple

from .globs import matcher
from .names import SUFFIX, is_usable

BRACES = re.compile(r"\{([^{}]*)\}")
ANY_DEPTH = "**"
# Of a pattern: the characters of the words for which its braces stand, the words with * ? [ among them, and the **.
MOST_LETTERS, MOST_PATTERNS, MOST_DEPTHS = 1_000_000, 1_000, 10
MANY_NAMES = 100  # of which a folder is asked for those that it has, instead of the system for each
# Links to folders that are followed for a pattern. A link to a folder above itself is not followed.
MOST_LINKS = 100_000


class TooMuch(Exception):
    """A pattern stands for more than it may; the text is for the log."""


class MetricEntry(NamedTuple):
    """A file of a metric, or a folder with metrics."""

    relative: str  # the path below the data folder
    is_file: bool


# ---- Patterns

class Limits:
    """What the parts of one pattern stand for so far.

    # Errors
    `TooMuch` from each call after which it is too much.
    """

    def __init__(self) -> None:
        self.letters = self.patterns = self.depths = 0

    def add(self, letters: int = 0, patterns: int = 0, depths: int = 0) -> None:
        self.letters += letters
        self.patterns += patterns
        self.depths += depths
        if self.letters > MOST_LETTERS:
            raise TooMuch("the braces stand for too many names")
        if self.patterns > MOST_PATTERNS:
            raise TooMuch("the braces stand for too many patterns")
        if self.depths > MOST_DEPTHS:
            raise TooMuch("too many **")


def expanded(part: str, limits: Limits) -> List[str]:
    """A part of a pattern without braces: `{a,b}c` is `ac` and `bc`.

    # Errors
    `TooMuch` if these are too many.
    """
    done: List[str] = []
    waiting = [part]
    while waiting:
        word = waiting.pop()
        found = BRACES.search(word)
        if not found:
            done.append(word)
            continue
        before, after, inner = word[:found.start()], word[found.end():], found[1].split(",")
        limits.add(letters=len(inner) * (len(before) + len(after) + 1) + len(found[1]))
        waiting += [before + one + after for one in inner]
    return done


def has_signs(part: str) -> bool:
    return any(sign in part for sign in "*?[")


class Part:
    """One part of a pattern: the names that it has, and the patterns of others.

    # Errors
    `TooMuch` if it stands for too many.
    """

    def __init__(self, text: str, limits: Limits):
        words = expanded(text, limits)
        signs = [word for word in words if has_signs(word)]
        limits.add(patterns=len(signs) if len(words) > 1 else 0)
        self.names = {word for word in words if not has_signs(word) and is_usable(word)}
        self.match = matcher(signs) if signs else None

    def matches(self, folder: str) -> Tuple[Set[str], Set[str]]:
        """The files and the folders in a folder that the part matches."""
        files: Set[str] = set()
        folders: Set[str] = set()
        # A folder that may be entered may be one that can't be listed.
        are_many = len(self.names) > MANY_NAMES and os.access(folder, os.R_OK)
        there = entries(folder) if self.match is not None or are_many else ([], [])
        if self.match is not None:
            files.update(filter(self.match, there[0]))
            folders.update(filter(self.match, there[1]))
        for name in self.names & {*there[0], *there[1]} if are_many else self.names:
            path = os.path.join(folder, name)
            files.update([name] if os.path.isfile(path + SUFFIX) else [])
            folders.update([name] if os.path.isdir(path) else [])
        return files, folders


def entries(folder: str) -> Tuple[List[str], List[str]]:
    """The names of the metrics' files, without the suffix, and of the folders in a folder; none if it can't be read."""
    files: List[str] = []
    folders: List[str] = []
    try:
        with os.scandir(folder) as listed:
            for entry in listed:
                if entry.name.startswith("."):
                    continue
                if entry.is_dir():
                    folders.append(entry.name)
                elif entry.name.endswith(SUFFIX):
                    files.append(entry.name[:-len(SUFFIX)])
    except OSError:
        pass
    return files, folders


def parts_of(pattern: str) -> List[Optional[Part]]:
    """The parts of a pattern; None is any number of folders, which come only once in a row, and never last.

    # Errors
    `TooMuch` if they stand for too much.
    """
    parts: List[Optional[Part]] = []
    limits = Limits()
    for text in pattern.replace("\\", "").split("."):
        if text != ANY_DEPTH:
            parts.append(Part(text, limits))
        elif not parts or parts[-1] is not None:
            parts.append(None)
            limits.add(depths=1)
    return parts if parts[-1] is not None else [*parts, Part("*", limits)]


# ---- Folders

class Walk:
    """Goes through the folders in which the parts of a pattern match, once for each folder and part.

    # Errors
    `TooMuch` if too many links are followed.
    """

    def __init__(self, top: str, parts: Sequence[Optional[Part]]):
        self.top, self.parts, self.links = top, parts, 0
        self.waiting: List[Tuple[str, int]] = [("", 0)]  # folders, with the part that is looked for there
        self.seen: Set[Tuple[str, int]] = set()

    def found(self) -> Iterator[MetricEntry]:
        while self.waiting:
            relative, at = self.waiting.pop()
            if (relative, at) in self.seen:
                continue
            self.seen.add((relative, at))
            part, folder = self.parts[at], os.path.join(self.top, relative)
            if part is None:
                self.enter(relative, entries(folder)[1], at)
                self.waiting.append((relative, at + 1))
                continue
            files, folders = part.matches(folder)
            if at + 1 < len(self.parts):
                self.enter(relative, folders, at + 1)
                continue
            yield from (MetricEntry(os.path.join(relative, name + SUFFIX), True) for name in sorted(files))
            yield from (MetricEntry(os.path.join(relative, name), False) for name in sorted(folders))

    def enter(self, relative: str, names: "Sequence[str] | Set[str]", at: int) -> None:
        """Adds folders to those in which a part is looked for, the first name last."""
        paths = (os.path.join(relative, name) for name in sorted(names, reverse=True))
        self.waiting += [(path, at) for path in paths if self.may_enter(path)]

    def may_enter(self, relative: str) -> bool:
        """Checks that a folder is no link to a folder above it: two of these would lead to folders without an end."""
        if not os.path.islink(os.path.join(self.top, relative)):
            return True
        self.links += 1
        if self.links > MOST_LINKS:
            raise TooMuch("too many links")
        return not self.leads_up(relative)

    def leads_up(self, relative: str) -> bool:
        try:
            target, above = os.stat(os.path.join(self.top, relative)), relative
            while above:
                above = os.path.dirname(above)
                if os.path.samestat(target, os.stat(os.path.join(self.top, above))):
                    return True
        except OSError:
            return True
        return False


def find(top: str, pattern: str) -> Iterator[MetricEntry]:
    """What a pattern matches below a data folder, each once. No part of a pattern leaves the folder.

    # Errors
    `TooMuch` if the pattern stands for too much.
    """
    return Walk(top, parts_of(pattern)).found()
