# SPDX-License-Identifier: MIT OR Apache-2.0
"""The library does what the program does: random batches, long updates of an open file, and allocations that fail.

On a file, on an open file, there also in numbers, and in memory, the bytes of the file and the texts are those of rrdi,
also what is said of a refusal. The same holds with little room for the output, and with a stack of 64 KiB. An allocation
for what is said of a refusal may fail: then nothing is said, and all else is the same."""
from __future__ import annotations

from dataclasses import dataclass
from itertools import product
from pathlib import Path

import pytest

from support import between
from support.changes import FILE
from support.check import Check
from support.library import STACK, WAYS
from support.program import TOP, Answer, Program, error, held, parted, put, status_of
from support.random_batches import batch, text_of

LEAST = {"commands": 1_500, "openings": 18, "refused allocations": 3_100, "faults of memory": 1_100,
         "calls on a small stack": 206}
LEAST_LONG = {"refused allocations": 5_500}
NO_MEMORY = error("out of memory")
# The results that are right if memory runs out, beside a refused line of a batch: `write failed` is for the memory of
# the output.
FAULTS = {NO_MEMORY, *map(error, ("write failed", "cannot open", "cannot write"))}
WORKED = TOP / "crates/rrdi/cases"
BATCHES, PART = 40, 5

MADE = """\
create --step 10 --start 0 DS:in:GAUGE:100:U:U DS:out:COUNTER:100:0:1000 RRA:AVERAGE:0.5:1:4 RRA:MAX:0.25:3:5
update 10:6:2 20:9:3 95:20:U
tune --heartbeat in:50 -i in:-5 -d out:DERIVE -r out:back
resize 1 GROW 3
"""
LARGE = "create --step 10 --start 0 DS:g:GAUGE:100:U:U RRA:LAST:0.5:1:4000\nupdate 10:1\n"
COMMANDS = ("update 140:3:4", "update -t back 140:3 150:4", "update 5:1:1", "update 140:3", "tune -a in:9",
            "tune RRA:MIN:0.5:3:7", "tune DELRRA:0", "resize 0 GROW 2", "resize 0 SHRINK 1", "revert", "first",
            "fetch AVERAGE -s 0 -e 130", "last", "lastupdate", "info", "nothing",
            "create --step 10 --start 0 DS:g:GAUGE:100:U:U RRA:LAST:0.5:1:4")
LINES = """\
info
update 140:3:4
update 5:1:1
fetch AVERAGE -s 0 -e 130
tune RRA:MIN:0.5:3:7
nothing
resize 0 GROW 2
revert
last
update 200:1:2 250:3:4"""


def make(program: Program, folder: Path, lines: str) -> bytes | None:
    """Creates the file of lines, and returns the bytes of the file."""
    put(folder / FILE, None)
    if lines:
        answer = program.run(["batch", FILE], lines, cwd=folder)
        if answer != Answer(0):
            raise RuntimeError(f"the file was not created: {answer}")
    return held(folder / FILE)


def on_file(line: str) -> list[str]:
    """Returns the words of a command on the file."""
    name, *words = line.split()
    return [name, FILE, *words]


@dataclass(frozen=True)
class Result:
    """The answer of a command on a file, and the file afterwards."""
    answer: Answer
    held: bytes | None

    @classmethod
    def of(cls, program: Program, folder: Path, old: bytes | None, words: list[str], lines: str = "",
           explains: bool = False, **env: str) -> Result:
        put(folder / FILE, old)
        return cls(program.run(words, lines, cwd=folder, env=env, explains=explains), held(folder / FILE))

    def says_less(self, plain: Result) -> bool:
        """Checks whether this is a refusal that only lacks what the plain run says of it."""
        fault, *said = plain.answer.err.splitlines(keepends=True)[:2] or [""]
        left = plain.answer.err.replace("".join(said), "", 1)
        return fault != "" and self == Result(plain.answer._replace(err=left), plain.held)


# ---- random batches


def is_unopened(got: Result, wanted: Result, old: bytes | None, way: str) -> bool:
    """Compares the answers in memory, where the caller creates the file, so that only the bytes may differ."""
    is_new = way == "in memory" and old is None
    return is_new and got.answer == wanted.answer and got.held in (None, wanted.held)


def compare_batch(program: Program, by_library: Program, folder: Path, number: int, check: Check) -> None:
    """Runs a random batch over nothing, then its lines again, and then some of them as commands on the file."""
    lines = batch(number)[0]
    text = text_of(lines)
    old = Result.of(program, folder, None, ["batch", FILE], text).held
    runs: list[tuple[bytes | None, list[str], str]] = [(None, ["batch", FILE], text), (old, ["batch", FILE], text)]
    runs += [(old, on_file(line), "") for line in lines[number % 5::5]]
    for begun, words, given in runs:
        wanted = Result.of(program, folder, begun, words, given, explains=True)
        for way, env in {**WAYS, "with little room": {"ROOM": "7"}}.items():
            got = Result.of(by_library, folder, begun, words, given, explains=True, **env)
            check.count("commands")
            check(got == wanted or is_unopened(got, wanted, begun, way),
                  f"batch {number}, {' '.join(words)[:200]} {way}: {str(got)[:300]}, not {str(wanted)[:300]}")


@pytest.mark.parametrize("first", range(0, BATCHES, PART))
def test_random_batches(first: int, program: Program, by_library: Program, folder: Path, check: Check) -> None:
    for number in range(first, first + PART):
        compare_batch(program, by_library, folder, number, check)


# ---- long updates of an open file, against the program, which compares all pages

# Archives whose rows wrap at different times, over some pages, and a journal of more than one page.
PAGED = ("create --step 10 --start 0 --journal {journal} DS:a:GAUGE:100:U:U DS:b:COUNTER:100:U:U "
         "RRA:AVERAGE:0.5:1:300 RRA:MAX:0.5:7:40 RRA:LAST:0.5:3:900\n")
# How many updates follow one another in one opening. The journal fills in one, and in others it ends on another page.
OPENINGS = (1, 2, 3, 40, 5, 300)
# Lines between two updates that change all bytes, fail, or change none.
BETWEEN = ("tune -i a:-5", "resize 1 GROW 2", "revert", "update 5:1:1", "fetch LAST -s 0 -e 100", "+tune -i a:-9",
           "tune DELRRA:0", "tune RRA:MIN:0.5:2:50")


def paged_lines(first: int, count: int) -> list[str]:
    """Returns updates from a number on: most end a row, some none, some a few, and a few more rows than an archive has.
    After every seventh comes another line."""
    lines = []
    for number in range(first, first + count):
        time = 7 * number + 40 * (number // 9) + 5_000 * (number // 97)
        lines.append(f"update {time}:{number % 11}:{3 * number}")
        if number % 7 == 0:
            lines.append(BETWEEN[number // 7 % len(BETWEEN)])
    return lines


@pytest.mark.parametrize("journal", (1, 16, 400))
def test_updates_of_an_open_file(journal: int, program: Program, opened: Program, folder: Path, check: Check) -> None:
    compare_openings(journal, program, opened, folder, check)


def compare_openings(journal: int, program: Program, opened: Program, folder: Path, check: Check) -> None:
    file = make(program, folder, PAGED.format(journal=journal))
    first = 1
    for count in OPENINGS:
        lines = paged_lines(first, count)
        first += count
        put(folder / FILE, file)
        for line in lines:
            program.run(on_file(line.removeprefix("+")), cwd=folder)
        wanted = held(folder / FILE)
        put(folder / FILE, file)
        opened.run([FILE], text_of(lines), cwd=folder)
        file = held(folder / FILE)
        check.count("openings")
        check(file == wanted, f"{count} updates of an open file with a journal of {journal}")


def test_the_lines_of_openings() -> None:
    lines = paged_lines(1, 400)
    samples = [line for line in lines if line.startswith("update ") and line not in BETWEEN]
    times = [int(line.split()[1].split(":")[0]) for line in samples]
    assert times == sorted(set(times)) and len(times) == 400
    assert {line for line in lines if not line.startswith("update ")} == set(BETWEEN) - {"update 5:1:1"}


# ---- a small stack


def check_stack(by_library: Program, folder: Path, words: list[str], lines: str, env: dict[str, str],
                check: Check) -> Answer:
    """Runs a call on a small stack, and checks that the call has used some of it."""
    used = folder / "used"
    used.unlink(missing_ok=True)
    answer = by_library.run(words, lines, cwd=folder, env={"STACK": str(STACK), "STACK_USED": str(used), **env})
    count = int(used.read_text() or 0) if used.exists() else 0
    check.count("calls on a small stack")
    check(0 < count <= STACK, f"{' '.join(words)} {env}: {count} bytes of stack, {answer.status} {answer.err[:200]}")
    return answer


@pytest.mark.parametrize("way", ("in memory", "over a file"))
def test_worked_batches_on_a_small_stack(way: str, by_library: Program, folder: Path, check: Check) -> None:
    for case in sorted(WORKED.glob("*.stdout")):
        lines, text = case.with_suffix("").read_bytes().decode(), case.read_text()
        put(folder / FILE, None)
        words = ["batch", *([FILE] if way == "over a file" else [])]
        answer = check_stack(by_library, folder, words, lines, {}, check)
        check.same(answer, Answer(status_of(text), text), f"{case.stem} {way} on {STACK} bytes of stack")


def check_commands_on_stack(by_library: Program, folder: Path, check: Check) -> None:
    for line, made, way in product(COMMANDS, (MADE, LARGE), ("over a file", "on an open file", "in numbers")):
        make(by_library, folder, made)
        check_stack(by_library, folder, on_file(line), "", WAYS[way], check)


def test_commands_on_a_small_stack(by_library: Program, folder: Path, check: Check) -> None:
    check_commands_on_stack(by_library, folder, check)


# ---- allocations that fail


@dataclass(frozen=True)
class Growth:
    """A command on a file, each allocation of which is to fail."""
    name: str
    words: list[str]
    lines: str
    made: str


GROWTHS = (
    *(Growth(line, on_file(line), "", MADE) for line in COMMANDS),
    Growth("a large update", ["update", FILE, "20:1"], "", LARGE),
    Growth("a create over no file", on_file(COMMANDS[-1]), "", ""),
    Growth("a batch", ["batch", FILE], LINES, MADE),
    Growth("a batch over a large file", ["batch", FILE], "update 20:1\nlast\nnothing\nrevert\n", LARGE),
    Growth("a batch over no file", ["batch", FILE], f"last\n{MADE}last\n", ""),
)
# Those that are tried without --long have names that begin so.
SHORT = ("update 140:3", "revert", "info", "create", "nothing", "a create", "a batch")


def without_lines(program: Program, folder: Path, task: Growth, old: bytes | None) -> list[tuple[str, bytes | None]]:
    """Returns the output of the batch and the file if each line in turn runs out of memory: the same as without that
    line."""
    rows = task.lines.splitlines(keepends=True)
    found = []
    for at in range(len(rows)):
        before = Result.of(program, folder, old, task.words, "".join(rows[:at])).answer.out
        whole = Result.of(program, folder, old, task.words, "".join(rows[:at] + rows[at + 1:]))
        found.append((before + NO_MEMORY + whole.answer.out[len(before):], whole.held))
    return found


class Growths:
    """Lets allocations of one command fail."""

    def __init__(self, program: Program, by_library: Program, preload: str, folder: Path, task: Growth,
                 way: str) -> None:
        self.program, self.by_library, self.preload = program, by_library, preload
        self.folder, self.task, self.way = folder, task, way
        self.old = make(program, folder, task.made)
        self.shorter = without_lines(program, folder, task, self.old) if task.words[0] == "batch" else []

    def run(self, **env: str) -> tuple[Result, list[between.Event]]:
        log = self.folder / "log"
        log.unlink(missing_ok=True)
        result = Result.of(self.by_library, self.folder, self.old, self.task.words, self.task.lines,
                           LD_PRELOAD=self.preload, LOG=str(log), **WAYS[self.way], **env)
        if result.held and not result.held.startswith(b"RRDI"):
            # The next command brings a change into place that the library could not.
            self.program.run(["batch", FILE], "last\n", cwd=self.folder)
            result = Result(result.answer, held(self.folder / FILE))
        return result, between.events_of(log)

    def is_fault(self, result: Result) -> bool:
        is_kept = result.held == self.old or self.old is None and not result.held
        return result.answer.status == 1 and parted(result.answer.err)[0] in FAULTS and is_kept

    def try_all(self, check: Check) -> None:
        """Lets each allocation fail in turn."""
        plain, events = self.run()
        lost = events[-1].words[0] if events else ""
        for number in range(1, sum(event.kind == "grow" for event in events) + 1):
            result, ended = self.run(REFUSE=str(number))
            answer = result.answer
            size = len(result.held or b"")
            what = f"{self.task.name} {self.way}, allocation {number}: {answer}, a file of {size} bytes"
            check.count("refused allocations")
            is_freed = bool(ended) and ended[-1].kind == "end" and ended[-1].words[0] == lost
            check(is_freed, f"{what}: memory is lost")
            is_line = answer.status == 1 and not answer.err and (answer.out, result.held) in self.shorter
            is_right = result == plain or result.says_less(plain) or is_line or self.is_fault(result)
            check(is_right, f"{what}: wrong result")
            check.count("faults of memory", int(self.is_fault(result)))


@pytest.mark.parametrize("way", WAYS)
@pytest.mark.parametrize("task", [
    pytest.param(task, id=task.name, marks=[pytest.mark.long] * (not task.name.startswith(SHORT))) for task in GROWTHS])
def test_allocations_that_fail(task: Growth, way: str, program: Program, by_library: Program, between_all: str,
                               folder: Path, check: Check) -> None:
    Growths(program, by_library, between_all, folder, task, way).try_all(check)
