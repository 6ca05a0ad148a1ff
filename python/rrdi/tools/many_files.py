# SPDX-License-Identifier: MIT OR Apache-2.0
"""Converts many files, several at a time: which they are, their new names, and what is said of each and of all."""
from __future__ import annotations

import os
from collections import Counter
from functools import partial
from typing import Callable, Dict, Iterable, Iterator, List, NamedTuple, Optional, Tuple

from ..errors import Damaged
from ..escaping import escaped
from ..importing.dump import Refusal
from ..making import remove_left_over
from .children import ChildAnswer, answers
from .command_line import Failure, Progress, error_text, say
from .conversion import Reading, size_of

Ends = Tuple[str, ...]  # of names
# What became of a file: converted with all its data sources, the same but with notes, or without some; the same file was
# there, with all, the same but with notes, or without some; or the file is one of the other program before.
WHOLE, NOTED, INCOMPLETE = "whole", "noted", "incomplete"
THERE, NOTED_THERE, PARTLY_THERE = "there", "noted there", "partly there"
PASSED_OVER = "passed over"
IS_THERE = "is there already"


class OldFile(NamedTuple):
    """A file that is to be converted, and its path below the directory of the new files."""

    path: str
    name: str


def found_below(tree: str, ends: Ends) -> Iterator[OldFile]:
    """Yields the files below a directory whose names end so, in the order of their names. Links are passed over: what they
    name may be elsewhere, or be in the directory too.

    # Errors
    `OSError` if a directory can't be read.
    """
    def fail(error: OSError) -> None:
        raise error
    for folder, folders, files in os.walk(tree, onerror=fail):
        folders.sort()
        for name in sorted(files):
            path = os.path.join(folder, name)
            if name.endswith(ends) and os.path.isfile(path) and not os.path.islink(path):
                yield OldFile(path, os.path.relpath(path, tree))


def links_below(tree: str, ends: Ends) -> int:
    """Counts the links below a directory that `found_below` passes over: those to directories, and those that have the
    name of an old file."""
    return sum(os.path.islink(os.path.join(folder, name)) for folder, folders, files in os.walk(tree)
               for name in [*folders, *(name for name in files if name.endswith(ends))])


def files_of(words: List[str], ends: Ends) -> List[OldFile]:
    """Returns the files that the arguments name.

    # Errors
    - `Failure` if there is no old file below a directory.
    - `OSError` if a directory can't be read.
    """
    files: List[OldFile] = []
    for word in words:
        below = list(found_below(word, ends)) if os.path.isdir(word) else [OldFile(word, os.path.basename(word))]
        if not below:
            links = ", except links, which are passed over" if links_below(word, ends) else ""
            raise Failure(f"{word}: no file below it has a name that ends in {' or '.join(ends)}{links}")
        files += below
    return files


class NewNames:
    """The names of the new files, each of which is for the first file that would get it: two files may be equal by now, and
    get other samples later."""

    def __init__(self, files: Iterable[OldFile], new_of: Callable[[OldFile], str]):
        self.new_of = new_of
        self.first: Dict[str, str] = {}
        for file in files:
            self.first.setdefault(new_of(file), file.path)

    def new(self, file: OldFile) -> str:
        """Returns the name of a new file.

        # Errors
        `Failure` if it is for another file.
        """
        new = self.new_of(file)
        first = self.first[new]
        if first != file.path and not os.path.samefile(first, file.path):
            raise Failure(f"{new} is made of {first}")
        return new


def tidy(files: Iterable[OldFile], into: Optional[str]) -> None:
    """Removes from the folders of the new files what runs that were killed have left, and says so."""
    paths = (file.path if into is None else os.path.join(into, file.name) for file in files)
    for folder in dict.fromkeys(os.path.dirname(path) for path in paths):
        for path in remove_left_over(folder):
            print(escaped(f"{path}: removed, a run that was killed had left it"), flush=True)


class Bar:
    """The bar of all files, by their bytes."""

    def __init__(self, files: List[OldFile]):
        self.progress, self.total, self.done = Progress("converting", has_bar=True), sum(size_of(one.path) for one in files), 0

    def reading(self, done: int, size: int) -> None:
        """Takes note of how far a file is read."""
        self.progress.show(self.done + min(done, size), self.total)

    def end_file(self, size: int) -> None:
        self.done += size
        self.progress.end()


class Conversions:
    """Converts files, and counts what becomes of them. Without a directory `into` they are converted in place. `other` is
    the program of which the new files are."""

    def __init__(self, files: List[OldFile], into: Optional[str], other: str, tool: str):
        self.files, self.into, self.other, self.tool = files, into, other, tool
        self.names, self.bar = NewNames(files, self.new_of), Bar(files)
        self.counts: Counter[str] = Counter()
        self.refused = 0

    def new_of(self, file: OldFile) -> str:
        """Returns the path of the new file, in the directory."""
        raise NotImplementedError

    def converted(self, file: OldFile, reading: Reading) -> str:
        """Converts a file. Returns a line with what became of it, and then what is said of it.

        # Errors
        `OSError`, `MemoryError`, `Damaged`, `Failure` or `Refusal` if it can't be converted.
        """
        raise NotImplementedError

    def run(self, words: List[str], ends: Ends, jobs: int) -> int:
        """Converts the files that the arguments name, so many at a time, and says what became of them. Returns the status."""
        tidy(self.files, self.into)
        self.convert(jobs)
        print(self.summary(sum(links_below(word, ends) for word in words if os.path.isdir(word))))
        return self.status

    def convert(self, jobs: int) -> None:
        """Converts the files, and reports each in one line.

        # Errors
        `KeyboardInterrupt` if a key stops it, which is reported too.
        """
        try:
            self.convert_each(jobs)
        except KeyboardInterrupt:
            self.bar.progress.end()
            done = sum(self.counts.values()) + self.refused
            say(self.tool, f"stopped after {done} of {counted(len(self.files), 'file')}; to go on, repeat the command")
            raise

    def convert_each(self, jobs: int) -> None:
        sizes = [size_of(file.path) for file in self.files]
        for size, (file, answer) in zip(sizes, self.answers(jobs)):
            self.bar.end_file(size)
            self.report(file, answer)
            self.bar.reading(0, 0)
        self.bar.progress.end()

    def answers(self, jobs: int) -> Iterator[Tuple[OldFile, ChildAnswer]]:
        return answers(self.files, partial(self.work_on, reading=lambda done, size: None), jobs)

    def work_on(self, file: OldFile, reading: Reading) -> ChildAnswer:
        try:
            return ChildAnswer(True, self.converted(file, reading))
        except OSError as error:
            return ChildAnswer(False, error_text(error))
        except MemoryError:
            return ChildAnswer(False, "out of memory")
        except (Damaged, Failure, Refusal) as failure:
            return ChildAnswer(False, str(failure))

    def report(self, file: OldFile, answer: ChildAnswer) -> None:
        if not answer.is_done:
            self.refused += 1
            say(self.tool, f"{file.path}: not converted: {answer.text}")
            return
        outcome, _, report = answer.text.partition("\n")
        self.counts[outcome] += 1
        print(escaped(f"{file.path}: {report}"), flush=True)

    def summary(self, links: int) -> str:
        """Returns the last line. So many links below directories were passed over."""
        counts, total = self.counts, sum(self.counts.values()) + self.refused
        made = counts[WHOLE] + counts[NOTED] + counts[INCOMPLETE]
        parts = [f"{made} converted{of_them(counts[INCOMPLETE], counts[NOTED])}"]
        there = counts[THERE] + counts[NOTED_THERE] + counts[PARTLY_THERE]
        if there:
            parts.append(f"{there} there already{of_them(counts[PARTLY_THERE], counts[NOTED_THERE])}")
        if counts[PASSED_OVER]:
            parts.append(f"{counts[PASSED_OVER]} already of {self.other}")
        if self.refused:
            parts.append(f"{self.refused} not converted")
        if links:
            parts.append(f"{counted(links, 'link')} passed over")
        return f"{counted(total, 'file')}: {'; '.join(parts)}"

    @property
    def status(self) -> int:
        """The exit status: 0 if all files are there with all their data sources."""
        return 1 if self.refused or self.counts[INCOMPLETE] or self.counts[PARTLY_THERE] else 0


def of_them(incomplete: int, noted: int) -> str:
    """Returns how many files have not all data sources, and how many others have notes."""
    parts = [f", {incomplete} of them without all data sources"] if incomplete else []
    if noted:
        parts.append(f", {noted} {'others' if incomplete and noted > 1 else 'other' if incomplete else 'of them'} with notes")
    return "".join(parts)


def has(sources: int, archives: int) -> str:
    """Returns what a new file has."""
    return f" ({counted(sources, 'data source')}, {counted(archives, 'archive')})"


def counted(number: int, what: str) -> str:
    return f"{number} {what}{'' if number == 1 else 's'}"
