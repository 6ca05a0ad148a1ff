# SPDX-License-Identifier: MIT OR Apache-2.0
"""Changes of every kind on files of every size, and the files that are right after a change.

They are for the tests that kill the program at each call, or let each call fail."""
from __future__ import annotations

from dataclasses import dataclass
from pathlib import Path
from typing import Any

from support import between
from support.program import KILLED, Answer, Program, held, put

FILE = "net.rrdi"
READERS = frozenset({"fetch", "last", "info"})
# The numbers of rows of files of one page, of a few pages, and of many pages.
PAGE, PAGES, MANY = 4, 1_000, 4_000
LOCK_SH, LOCK_EX, LOCK_UN = 1, 2, 8
SYNCS = ("fsync", "fdatasync")
LAST_STREAM = 2
# A change of many pages and of the length, which is interrupted before one of its calls that change the file; and the
# number of that call among these.
INTERRUPTED = ("resize", FILE, "0", "GROW", "300")
FORMS = {"a change without its last call": -1, "a change without its last two calls": -2,
         "a change without its last three calls": -3, "a change without its last four calls": -4,
         "a change of two calls": 2}


def create(rows: int, journal: int = 16, value: str = "U") -> str:
    return f"create --step 10 --start 0 --journal {journal} DS:g:GAUGE:100:{value}:U RRA:LAST:0.5:1:{rows}"


def made(rows: int, journal: int = 16) -> str:
    """Returns the lines that create a file with a change in its journal."""
    return f"{create(rows, journal)}\nupdate 10:1\n"


def samples(first: int, count: int) -> str:
    return " ".join(f"{10 * number}:{number}" for number in range(first, first + count))


@dataclass(frozen=True)
class Task:
    """A command or a batch, and the file on which it runs: the file that lines create, fixed bytes, or no file. With a
    form, a later change of the file was interrupted before one of its calls."""
    name: str
    words: tuple[str, ...]
    lines: str = ""
    made: str = ""
    foreign: bytes = b""
    form: str = ""
    is_refused: bool = False

    @property
    def reads(self) -> bool:
        return self.words[0] in READERS

    @property
    def is_batch(self) -> bool:
        return self.words[0] == "batch"

    @property
    def over_database(self) -> bool:
        return bool(self.made)

    @property
    def keeps(self) -> bool:
        """Checks whether the run leaves the database as it is."""
        return self.reads or self.is_refused or self.lines == "last\n"

    def faults(self, answer: Answer, old: bytes | None, new: bytes | None) -> list[str]:
        """Returns what is wrong with a run that no call disturbs: its status, its report, and whether it changes the
        database."""
        has_refused_line = "\nnothing\n" in self.lines
        found = []
        if (answer.status, answer.err != "") != (int(self.is_refused or has_refused_line), self.is_refused):
            found.append(f"it ends with {answer}")
        if (new == old) != self.keeps:
            found.append("it changes the database" if self.keeps else "it changes nothing")
        return found

    def fronts(self) -> list[str]:
        """Returns the prefixes of the batch, one up to each line."""
        lines = self.lines.splitlines(keepends=True)
        return ["".join(lines[:count]) for count in range(len(lines) + 1)]


def single(name: str, line: str, **more: Any) -> Task:
    command, *rest = line.split()
    return Task(name, (command, FILE, *rest), **more)


# What repairs a file, and changes no database. A command that only reads repairs nothing.
REPAIR = Task("a repair", ("batch", FILE), "last\n")


def changes() -> list[Task]:
    """Returns changes of every kind."""
    tasks = []
    for rows in (PAGE, PAGES, MANY):
        tasks.append(single(f"create of {rows} rows over nothing", create(rows)))
    for old, new in ((PAGE, PAGE), (PAGE, MANY), (MANY, PAGE), (PAGES, PAGES), (MANY, MANY), (MANY, PAGES)):
        tasks.append(single(f"create of {new} rows over a database of {old}", create(new, value="0"), made=made(old)))
    for foreign in (b"RRD", b"twelve bytes", b"no database\n" * 500, b"no database\n" * 9_000):
        for rows in (PAGE, PAGES):
            tasks.append(single(f"create of {rows} rows over {len(foreign)} other bytes", create(rows),
                                foreign=foreign))
    for rows in (PAGE, PAGES, MANY):
        full = made(rows, 1)
        tasks += [
            single(f"update that lengthens {rows} rows", "update 20:2", made=made(rows)),
            single(f"update of {rows} rows, the journal full", "update 20:2", made=full),
            single(f"tune of {rows} rows", "tune -i g:5", made=made(rows)),
            single(f"resize up of {rows} rows", "resize 0 GROW 1", made=made(rows)),
            single(f"resize down of {rows} rows", "resize 0 SHRINK 1", made=made(rows)),
            single(f"revert of {rows} rows", "revert", made=made(rows)),
            Task(f"batch over {rows} rows", ("batch", FILE), "last\nupdate 20:2\nnothing\nlast\nupdate 30:1\n",
                 made(rows)),
        ]
    many = samples(2, 900)
    tasks += [
        single("update of many pages", f"update {many}", made=made(MANY)),
        single("update of many pages, the journal full", f"update {samples(902, 900)}",
               made=f"{made(MANY, 1)}update {many}\n"),
        single("revert of many pages", "revert", made=f"{made(MANY)}update {many}\n"),
        single("resize far up", "resize 0 GROW 900", made=made(PAGES)),
        single("resize far down", "resize 0 SHRINK 900", made=made(PAGES)),
        Task("batch over nothing", ("batch", FILE), f"{made(PAGE)}last\n"),
        Task("batch of many pages", ("batch", FILE), f"update {many}\nrevert\nupdate {many}\ntune -i g:5\n",
             made(MANY)),
        Task("batch that changes nothing", ("batch", FILE), "last\n", made(PAGES)),
    ]
    return tasks


def readings() -> list[Task]:
    return [single(f"{line.split()[0]} of {rows} rows", line, made=made(rows))
            for rows in (PAGE, MANY) for line in ("fetch LAST -s 0 -e 19", "last", "info")]


def over_interrupted() -> list[Task]:
    """Returns runs over files whose change was interrupted."""
    tasks = []
    for form in FORMS:
        for rows in (PAGE, PAGES):
            more: dict[str, Any] = {"made": made(rows), "form": form}
            tasks += [single(f"last over {form}, {rows} rows", "last", **more),
                      single(f"update over {form}, {rows} rows", "update 20:2", **more),
                      single(f"a refused update over {form}, {rows} rows", "update 5:1", is_refused=True, **more),
                      single(f"create over {form}, {rows} rows", create(PAGE, value="0"), **more),
                      Task(f"batch over {form}, {rows} rows", ("batch", FILE), "last\nupdate 20:2\n", **more)]
    return tasks


@dataclass
class Ran:
    """A run: its answer, the file directly after the run, and its calls."""
    answer: Answer
    held: bytes | None
    events: list[between.Event]

    @property
    def calls(self) -> list[between.Event]:
        return between.calls_of(self.events)


class Place:
    """A folder with a file, and a program whose calls may fail. Perhaps it tells that a change is over while the file
    stays open."""

    def __init__(self, program: Program, library: str, folder: str | Path, stays_open: bool = False) -> None:
        self.program, self.library, self.folder, self.stays_open = program, library, Path(folder), stays_open
        self.file, self.log = self.folder / FILE, self.folder / "log"
        self.count = 0
        self.interrupted: dict[Task, bytes] = {}

    def plain(self, words: tuple[str, ...], lines: str = "", explains: bool = False, **settings: object) -> Answer:
        self.count += 1
        env = between.settings(self.library, **settings) if settings else {}
        return self.program.run(words, lines, cwd=self.folder, env=env, explains=explains)

    def old(self, task: Task) -> bytes | None:
        """Returns the bytes on which a task runs: the database, if an earlier change was interrupted."""
        if not task.made:
            return task.foreign or None
        put(self.file, None)
        answer = self.plain(("batch", FILE), task.made)
        if answer != Answer(0):
            raise RuntimeError(f"{task.name}: the file was not created: {answer}")
        if task.form:
            self.interrupt(task)
        return held(self.file)

    def interrupt(self, task: Task) -> None:
        """Kills a change of the file, keeps the bytes that are left, and lets the next command recover the file."""
        made = held(self.file)
        self.log.unlink(missing_ok=True)
        self.plain(INTERRUPTED, LOG=self.log)
        calls = between.calls_of(between.events_of(self.log))
        numbers = [number for number, call in enumerate(calls, 1) if call.kind in between.CHANGING]
        put(self.file, made)
        killed = self.plain(INTERRUPTED, KILL=numbers[FORMS[task.form]])
        left = held(self.file)
        answer, recovered = self.after_next()
        if left is None or (killed.status, answer.status) != (KILLED, 0) or recovered == left:
            raise RuntimeError(f"{task.name}: the change was not interrupted: {killed}, {answer}")
        self.interrupted[task] = left

    def begun(self, task: Task, old: bytes | None) -> bytes | None:
        """Returns the bytes of a file that stands for the database on which a task runs."""
        return self.interrupted[task] if task.form else old

    def run(self, task: Task, old: bytes | None, explains: bool = False, **settings: object) -> Ran:
        """Runs a task on the file of its database. If `explains`, the answer has what is said of refused lines."""
        put(self.file, self.begun(task, old))
        self.log.unlink(missing_ok=True)
        answer = self.plain(task.words, task.lines, explains, LOG=self.log, **settings)
        return Ran(answer, held(self.file), between.events_of(self.log))

    def after_next(self, words: tuple[str, ...] = (), lines: str = "", **settings: object
                   ) -> tuple[Answer, bytes | None]:
        """Returns the answer of the next command, and the file afterwards. Without words it is one that repairs the file, and
        changes no database."""
        if not words:
            words, lines = (REPAIR.words, REPAIR.lines) if self.file.exists() else (("last", FILE), "")
        answer = self.plain(words, lines, **settings)
        return answer, held(self.file)


def is_refused(answer: Answer) -> bool:
    """Checks whether a command reported that its file is not a database, or does not exist."""
    return answer.status == 1 and answer.out == "" and answer.err.startswith(("ERROR: file: ", "ERROR: cannot open\n"))


def locks_of(calls: list[between.Event], file: str, changes: bool) -> list[str]:
    """Returns the calls on a file without the necessary lock. Each read needs a shared lock, and each change an
    exclusive lock; a command that changes the file also reads the file under an exclusive lock. A copy of a handle
    shares the handle's lock."""
    faults, handles, kinds = [], {}, {}
    for number, call in enumerate(calls, 1):
        if call.kind == "open" and call.got >= 0 and call.words[4:] == [file]:
            handles[call.got] = call.got
            kinds[call.got] = 0
        elif call.kind == "fcntl" and call.file in handles and call.got > 2:
            handles[call.got] = handles[call.file]
        elif call.kind == "flock" and call.file in handles and call.got == 0:
            kinds[handles[call.file]] = call.size & (LOCK_SH | LOCK_EX)
        elif call.file in handles and call.kind in ("read", "pread", "pwrite", "write", "ftruncate"):
            kind = kinds[handles[call.file]]
            needed = LOCK_EX if changes or call.kind not in ("read", "pread") else LOCK_SH
            if kind == 0 or needed == LOCK_EX and kind != LOCK_EX:
                faults.append(f"call {number}, {call.kind} of {file}, is made under {('no', 'a shared')[kind]} lock")
    return faults


def calls_on_streams(calls: list[between.Event], file: str) -> list[str]:
    """Returns the calls on a file by the number of a standard stream, by which a text for the stream would go into the
    file. After such a number was closed, calls by it fail."""
    low = {call.got for call in calls if call.kind == "open" and call.words[4:] == [file]
           and 0 <= call.got <= LAST_STREAM}
    return [f"{call.kind} {' '.join(call.words)}" for call in calls
            if call.kind in ("flock", "read", "pread", "write", "pwrite", "ftruncate") and call.file in low
            and call.got >= 0]
