# SPDX-License-Identifier: MIT OR Apache-2.0
"""Matches names with the words of a pattern, in which * ? and [..] stand for characters as in `fnmatch`.

All words are matched at once, by the bits of a number: a word of n signs has n + 1 bits, and bit k is set if its first k
signs have the characters so far. So the cost is that of the signs once for each character of a name, whatever they are. A
regular expression costs more than that for some patterns, and much to compile. For plain ones, such as `web-*-cpu`, it
costs much less, and then it is taken.
"""
from __future__ import annotations

import re
from bisect import bisect_right
from itertools import count
from typing import Callable, Dict, Iterable, Iterator, List, Sequence, Tuple

from .names import LONGEST_PART

STAR, ANY = "*", "?"
MOST_WEIGHT = 255  # of all signs in a regular expression: it may compare a name with each of them at each place


def signs_of(word: str) -> Iterator[str]:
    """Splits a word into its signs: characters, and sets with their brackets. A bracket without an end is a character."""
    at = 0
    while at < len(word):
        end = at + 1
        if word[at] == "[":
            first = end + (word[end:end + 1] == "!")
            end = word.find("]", first + 1) + 1 or end
        yield word[at:end]
        at = end


def ranges_of(text: str) -> List[Tuple[int, int]]:
    """Returns the first and the last character of each range of a set; a range whose end comes first has none."""
    found, at = [], 0
    while at < len(text):
        is_range = text[at + 1:at + 2] == "-" and at + 2 < len(text)
        last = text[at + 2] if is_range else text[at]
        if text[at] <= last:
            found.append((ord(text[at]), ord(last)))
        at += 3 if is_range else 1
    return found


class Set:
    """The characters of a set, such as [0-9a-f] or [!_]."""

    def __init__(self, sign: str):
        self.is_negated = sign[1] == "!"
        # Where the characters begin to be in the set, and where they end, by turns.
        self.bounds: List[int] = []
        for first, last in sorted(ranges_of(sign[2 if self.is_negated else 1:-1])):
            if self.bounds and first <= self.bounds[-1]:
                self.bounds[-1] = max(self.bounds[-1], last + 1)
            else:
                self.bounds += [first, last + 1]

    def has(self, letter: str) -> bool:
        is_listed = bisect_right(self.bounds, ord(letter)) % 2 == 1
        return is_listed != self.is_negated


def weight_of(sign: str) -> int:
    """Returns how much it costs to compare a character with a sign."""
    return 1 if len(sign) == 1 else 1 + len(Set(sign).bounds)


def expression_of_sign(sign: str) -> str:
    """Returns what matches one character in a regular expression."""
    if len(sign) == 1:
        return "." if sign == ANY else re.escape(sign)
    chosen = Set(sign)
    bounds = iter(chosen.bounds)
    ranges = "".join(f"\\U{first:08x}-\\U{end - 1:08x}" for first, end in zip(bounds, bounds))
    if not ranges:
        return "." if chosen.is_negated else "(?!)"
    return f"[{'^' if chosen.is_negated else ''}{ranges}]"


def expression_of(signs: Iterable[str], groups: Iterator[int]) -> str:
    """Returns the regular expression of a word. A star before another one takes as little as it can and is not tried
    again: in a group of its own, whose text is then repeated."""
    first, *others = parts_between_stars(signs)
    if not others:
        return first
    middle = [f"(?=(?P<g{group}>.*?{part}))(?P=g{group})" for part, group in zip(filter(None, others[:-1]), groups)]
    return "".join([first, *middle, ".*", others[-1]])


def parts_between_stars(signs: Iterable[str]) -> List[str]:
    parts = [""]
    for sign in signs:
        if sign == STAR:
            parts.append("")
        else:
            parts[-1] += expression_of_sign(sign)
    return parts


def matcher(words: Sequence[str]) -> Callable[[str], object]:
    """Returns what checks whether a word matches a whole name."""
    signs = [list(signs_of(word)) for word in words]
    if sum(weight_of(sign) for one in signs for sign in one) > MOST_WEIGHT:
        return Globs(words).match
    groups = count()
    return re.compile("|".join(expression_of(one, groups) for one in signs), re.DOTALL).fullmatch


def bits(places: Iterable[int], size: int) -> int:
    """Returns a number with bits at some places."""
    found = bytearray(size // 8 + 1)
    for place in places:
        found[place >> 3] |= 1 << (place & 7)
    return int.from_bytes(found, "little")


class Globs:
    """Some words, any of which may match a name."""

    def __init__(self, words: Iterable[str]):
        self.size = 0
        starts, stars, ends = [], [], []
        places: Dict[str, List[int]] = {}
        for word in words:
            signs = list(signs_of(word))
            if len(signs) - signs.count(STAR) > LONGEST_PART:  # no name is so long
                continue
            starts.append(self.size)
            for sign in signs:
                if sign == STAR:
                    stars.append(self.size)
                else:
                    places.setdefault(sign, []).append(self.size)
                    self.size += 1
            ends.append(self.size)
            self.size += 1  # the bit of the end
        self.starts, self.stars, self.ends = (bits(found, self.size) for found in (starts, stars, ends))
        self.any = bits(places.pop(ANY, []), self.size)
        self.sets = [(Set(sign), bits(found, self.size)) for sign, found in places.items() if len(sign) > 1]
        self.letters = {sign: found for sign, found in places.items() if len(sign) == 1}
        self.of_letter: Dict[str, int] = {}  # the signs that have a character, of those characters that names had

    def signs_with(self, letter: str) -> int:
        found = self.of_letter.get(letter)
        if found is None:
            found = self.any | bits(self.letters.get(letter, []), self.size)
            for one, where in self.sets:
                if one.has(letter):
                    found |= where
            self.of_letter[letter] = found
        return found

    def match(self, name: str) -> bool:
        """Checks whether a word matches the whole name."""
        states = self.starts
        for letter in name:
            states = (states & self.signs_with(letter)) << 1 | states & self.stars
            if not states:
                return False
        return states & self.ends != 0
