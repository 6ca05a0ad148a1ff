# SPDX-License-Identifier: MIT OR Apache-2.0
"""Tests of the words of Graphite's patterns: they match as in `fnmatch`, by a regular expression and by bits."""
from __future__ import annotations

import unittest
from fnmatch import fnmatchcase
from typing import Tuple

import cases  # noqa: F401  (finds the package)

from rrdi.graphite.globs import Globs, matcher

LETTERS = "!*-?[]^abcdexyz\n\u0101"


class Words(unittest.TestCase):
    def check(self, word: str, name: str, is_wanted: bool) -> None:
        self.assertEqual(fnmatchcase(name, word), is_wanted, (word, name))
        self.assertEqual(Globs([word]).match(name), is_wanted, (word, name))
        self.assertEqual(bool(matcher([word])(name)), is_wanted, (word, name))

    def test_sets(self) -> None:
        """A range may lie in another one, overlap with it, or follow it at once. One whose end is first has nothing."""
        sets: Tuple[Tuple[str, str], ...] = (
            ("abc", "abc"), ("a-c", "abc"), ("a-cx", "abcx"), ("a-cxz", "abcxz"), ("a-cx-z", "abcxyz"),
            ("xa-c", "abcx"), ("b-da-c", "abcd"), ("a-cb-d", "abcd"), ("a-db", "abcd"), ("a-dbx", "abcdx"),
            ("a-cd-e", "abcde"), ("ab", "ab"), ("aab", "ab"), ("c-a", ""), ("c-ax", "x"), ("]a", "]a"), ("a-", "a-"),
            ("-a", "-a"), ("a-c-e", "abc-e"), ("^a", "^a"), ("a!", "a!"), ("*?[", "*?["), ("\u0101", "\u0101"))
        for text, wanted in sets:
            for letter in LETTERS:
                self.check(f"[{text}]", letter, letter in wanted)
                self.check(f"[!{text}]", letter, letter not in wanted)
            for other in ("", "aa", f"[{text}]"):
                self.check(f"[{text}]", other, False)

    def test_brackets_without_an_end(self) -> None:
        for word in ("[", "[!", "[]", "[!]", "[a", "a[", "[!a", "a[]b"):
            for name in (word, "a", "!", "]", "b", "", "x"):
                self.check(word, name, name == word)

    def test_sets_among_others(self) -> None:
        for word, name, is_wanted in (
                ("[!]a]b", "]b", False), ("[!]a]b", "xb", True), ("[]a]b", "]b", True), ("[]a]b", "b", False),
                ("x[!a]", "x", False), ("x[ab]y*", "xby", True), ("x[ab]y*", "xcy", False), ("?[a]?", "xay", True),
                ("*[ab]*[cd]", "xaxbxd", True), ("*[ab]*[cd]", "xdxa", False), ("*[ab]*[cd]", "xdxd", False),
                ("a*b*c*d", "axbxcxd", True), ("a*b*c*d", "axbxd", False), ("a*b*c*d", "axcxd", False), ("a*b*c*d", "acbd", False),
                ("a**d", "ad", True), ("***", "", True), ("*a*", "a", True), ("*a*", "b", False)):
            self.check(word, name, is_wanted)

    def test_long_words(self) -> None:
        """A name has 255 bytes at most: a word with more signs has none, whatever stars it has."""
        for word, name, is_wanted in (
                ("x" * 255, "x" * 255, True), ("x" * 255, "x" * 254, False), ("x" * 200 + "*y", "x" * 200 + "zzy", True), ("*" * 9 + "x" * 255, "x" * 255, True),
                ("[xy]" * 100, "xy" * 50, True), ("[xy]" * 100, "xy" * 49 + "xz", False), ("x" * 100 + "?" * 100, "x" * 200, True)):
            self.check(word, name, is_wanted)
        self.assertFalse(Globs(["x" * 256]).match("x" * 256))
        self.assertTrue(Globs(["x" * 256, "y"]).match("y"))

    def test_words_side_by_side(self) -> None:
        """No word goes on where another one ends."""
        for words in (["ab", "cd"], ["a", "", "b"], ["a*", "b"], ["[ab]", "[cd]"]):
            for name in ("abcd", "ab", "cd", "a", "b", "", "ac", "bb", "cda", "d"):
                wanted = any(fnmatchcase(name, word) for word in words)
                for match in (Globs(words).match, matcher(words)):
                    self.assertEqual(bool(match(name)), wanted, (words, name))

    def test_several_words(self) -> None:
        """A name matches if one of them does, whichever it is."""
        words = ["ab", "a*c", "[xy]", "", "?z"]
        matching, others = ("ab", "abc", "ac", "x", "", "az", "zz"), ("abab", "a", "xy", "b", "aba", "zaz")
        for name, is_wanted in [*((name, True) for name in matching), *((name, False) for name in others)]:
            for match in (Globs(words).match, matcher(words)):
                self.assertEqual(bool(match(name)), is_wanted, name)
