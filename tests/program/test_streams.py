# SPDX-License-Identifier: MIT OR Apache-2.0
"""The streams, the clock, the numbers of writes and the memory of the program on files (docs/commands.md)."""
from __future__ import annotations

import os
import shutil
import subprocess
import time
from pathlib import Path
from typing import Mapping, Optional, Sequence

import pytest

from support import layout, marks
from support.between import calls_of, events_of, settings
from support.changes import calls_on_streams
from support.program import PATIENCE, Answer, Program, error, put
from support.runs import CREATE, FILE, RUNS, Runs, refused

LEAST = {RUNS: 280}
Held = Optional[bytes]  # what a file has, if it is there
MISSING = "no such file or directory"
# The standard streams that a run lacks, in every way.
CLOSED = [[stream for stream in (0, 1, 2) if number >> stream & 1] for number in range(1, 8)]
# The length of a file that takes no room on the disk, and the kilobytes of memory that a run on the file may cost.
LONG, MOST_COST = 3 << 30, 2_000
# The kilobytes by which the count of Linux may be wrong: of each of two kinds of pages a processor keeps up to 32 to itself.
MISCOUNTED = 2 * 4 * max(32, 2 * (os.cpu_count() or 1)) * (os.cpu_count() or 1)


def without(t: Runs, closed: Sequence[int], words: Sequence[str], lines: str,
            env: Mapping[str, str] | None = None) -> Answer:
    """Runs the program without some of its standard streams."""
    closing = " ".join(f"{stream}{'<' if stream == 0 else '>'}&-" for stream in closed)
    return Program("/bin/sh").run(["-c", f'exec "$0" "$@" {closing}', t.program.path, *words], lines, cwd=t.folder,
                                  env=env)


def test_numbers_of_streams(t: Runs, between: str) -> None:
    """Checks that the file of a run never has the number of a standard stream that is closed."""
    file, log = "numbers.rrdi", t.folder / "log"
    for words, given in ((["create", file, *CREATE], ""), (["update", file, "10:1"], ""), (["last", file], ""),
                         (["batch", file], "last\n")):
        for closed in CLOSED:
            log.unlink(missing_ok=True)
            without(t, closed, words, given, settings(between, LOG=log))
            calls = calls_of(events_of(log))
            t.check.count(RUNS)
            t.check.same(calls_on_streams(calls, file), [],
                         f"{words} without the streams {closed}: calls by their numbers")
            t.check.same(any(call.kind == "open" and call.words[4:] == [file] for call in calls), True,
                         f"{words}: the file is opened")


def test_closed_streams(t: Runs) -> None:
    """Checks that a run without some of the standard streams leaves the right bytes in FILE: no text of the run, and
    none of FILE's bytes taken for lines."""
    t.run(["create", FILE, *CREATE])
    new = t.held()
    t.run(["update", FILE, "10:1"])
    held = t.held()
    t.run(["update", FILE, "20:2"])
    later = t.held()
    lines = "fetch LAST -s 0 -e 39\nupdate 20:2\nupdate 5:1\n"
    runs = ((["update", FILE, "5:1"], "", held), (["update", FILE, "20:2"], "", later), (["last", FILE], "", held),
            (["fetch", FILE, "LAST", "-s", "0", "-e", "39"], "", held), (["batch", FILE], lines, later),
            (["batch", FILE], "last\n", held),
            (["create", FILE, *CREATE], "", new), (["revert", FILE], "", new))
    begun = {"a file": held, "a file with a cut mark": marks.uncommitted(held, later),
             "a file with a log mark": marks.logged(later, held)}
    for name, left in begun.items():
        for words, given, repaired in runs:
            # A command that reads repairs nothing.
            stays, wanted = (left, left) if words[0] in ("last", "fetch") else (held, repaired)
            t.put(left)
            told = t.told(words, given)
            t.check.same(t.held() == wanted, True, f"{name} after {words}")
            for closed in CLOSED:
                t.put(left)
                answer = without(t, closed, words, given)
                t.check.count(RUNS)
                what = f"{words} on {name}, without the streams {closed}: {answer}"
                t.check.same(is_left_right(closed, words, t.held(), stays, wanted), True,
                             f"{what}: {len(t.held())} bytes, {t.held()[:25]!r}")
                t.check.same(told_without(closed, words, told), tuple(answer), what)
    t.put(new)


def is_left_right(closed: Sequence[int], words: Sequence[str], now: Held, held: Held, wanted: Held) -> bool:
    """Checks the file after a run without some streams. A batch that cannot read its lines changes nothing, and a batch
    that cannot print ends after some line."""
    if words[0] == "batch" and closed and closed[0] < 2:
        return now in (held, wanted) if 0 not in closed else now == held
    return now == wanted


def told_without(closed: Sequence[int], words: Sequence[str], told: Answer) -> tuple[object, str, str]:
    """Returns the answer of a run without some streams, from the answer with all of them."""
    status, out, err = told
    if words[0] == "batch" and 0 in closed:
        status, out, err = 1, "", error("read failed")
    elif out and 1 in closed:
        status, err = 1, error("write failed")
    return status, "" if 1 in closed else out, "" if 2 in closed else err


def test_failing_outputs(net: Runs) -> None:
    t = net
    new = t.held()
    t.run(["last", FILE], 1, err=error("write failed"), to="/dev/full")
    t.check.same(t.held(), new, "the file after output failed")
    t.run(["create", "/dev/full", *CREATE], 1, err=refused("cannot write", "/dev/full", "not a regular file"))
    t.run(["batch", FILE], 1, err=error("write failed"), lines="update 10:1\nlast\nrevert\n", to="/dev/full")
    t.check.same(len(t.held()), 309, "the file after a batch's output failed")


def test_streams(t: Runs) -> None:
    """Checks the stream and the status of each form of a run."""
    made = f"create {' '.join(CREATE)}\n"
    t.run(["create", "kept", *CREATE])
    for words in (["batch"], ["batch", "kept"], ["batch", "made"]):
        first = "" if words == ["batch", "kept"] else made
        t.run(words, 0, "0\n", "", f"{first}last\n")
        t.run(words, 1, "ERROR: usage\n0\n", "", f"nothing\n{first}last\n")
        t.run(words, 1, "ERROR: no such archive\n", "", f"{first}first --rraindex 1\n")
        t.run(words, 1, "", error("write failed"), f"{first}last\n", to="/dev/full")
        folder = os.open(t.folder, os.O_RDONLY)
        t.run(words, 1, "", error("read failed"), stdin=folder)
        os.close(folder)
    os.symlink("nowhere/file", f"{t.folder}/leads-nowhere-too")
    t.run(["batch", "leads-nowhere-too"], 1, "", error("write failed")
          + refused("cannot write", "leads-nowhere-too", MISSING),
          f"{made}last\n", to="/dev/full")


def near_now(t: Runs, words: Sequence[object], less: int = 0, lines: str = "") -> list[int]:
    """Returns the seconds that a run prints, one in each line. The last one is by the system's clock, and must lie
    between the second in which the run began and the second in which the run ended."""
    before = int(time.time())
    status, out, err = t.told(words, lines)
    after = int(time.time())
    seconds = [int(word) for word in out.split() if word.isdigit()]
    is_near = bool(seconds) and before <= seconds[-1] + less <= after
    t.check.same((status, err, is_near), (0, "", True), f"{words}, by the clock: {out!r}")
    return seconds


def test_the_clock(t: Runs) -> None:
    """Compares the present time in each form of a run with the system's clock."""
    new = "create --step 10 DS:g:GAUGE:100:U:U RRA:LAST:0.5:1:4"
    for words in (["batch"], ["batch", "timed"]):
        seconds = near_now(t, words, lines=f"{new}\nlast\nupdate N:1\nlast\n")
        t.check.same([second - seconds[0] for second in seconds], [0, 10], f"{words}, the default start: {seconds}")
    t.run(["create", "timed", *new.split()[1:]])
    near_now(t, ["last", "timed"], 10)
    for _ in range(3):
        t.run(["create", "timed", *new.split()[1:]])
        before = int(time.time())
        t.run(["update", "timed", "N:1"])
        after = int(time.time())
        _, out, _ = t.told(["last", "timed"])
        t.check.same(before <= int(out or 0) <= after, True, f"N is {out!r}, between {before} and {after}")
    # A day of rows, up to the first multiple of ten after now.
    before = int(time.time())
    _, out, _ = t.told(["fetch", "timed", "LAST"])
    after = int(time.time())
    times = [int(row.split(":")[0]) for row in out.splitlines()[1:]]
    is_day = 8640 <= len(times) <= 8642 and before // 10 * 10 + 10 <= times[-1] <= after // 10 * 10 + 10
    t.check.same(is_day, True, f"a fetch by the clock: {len(times)} rows, up to {times[-1:]}")


def test_many_reads(t: Runs) -> None:
    """Tries over a million reads of one byte each: in a pipe of packets one read returns the bytes of one write."""
    source, sink = os.pipe2(os.O_DIRECT | os.O_CLOEXEC)
    t.check.count(RUNS)
    with subprocess.Popen([t.program.path, "batch"], stdin=source, stdout=subprocess.PIPE,
                          stderr=subprocess.PIPE) as ran:
        os.close(source)
        try:
            for _ in range(1_100_000):
                os.write(sink, b"\n")
            for line in (f"create {' '.join(CREATE)}\n", "last\n"):
                os.write(sink, line.encode())
        except BrokenPipeError:
            print("the program ended before its input did")
        os.close(sink)
        told = ran.communicate(timeout=PATIENCE)
    t.check.same((ran.returncode, *told), (0, b"0\n", b""), "1,100,000 reads")


def test_writes(t: Runs, between_all: str) -> None:
    """Counts the writes, which must be few. Each write of output moves 16,384 bytes or more, except the last one. FILE
    gets at most three writes for each page of 4,096 bytes, and a few more."""
    create = "--step 10 --start 0 DS:g:GAUGE:100:U:U RRA:LAST:0.5:1:100000".split()
    for words in (["create", "large", *create], ["update", "large", "10:1"], ["revert", "large"],
                  ["fetch", "large", "LAST", "-s", "0", "-e", "999990"], ["update", "large", "1000000:1"]):
        log = t.folder / "log"
        old = len(t.held("large") or b"")
        status, _, err = t.told(words, LD_PRELOAD=between_all, LOG=str(log))
        events, new = events_of(log), len(t.held("large") or b"")
        printed = [event.size for event in events if event.kind == "write"]
        stored = [event.size for event in events if event.kind == "pwrite"]
        few = all(size >= 16_384 for size in printed[:-1])
        most = 3 * (max(new, old) // 4_096) + 12 if stored else 0
        t.check.same((status, err, new > 0, few, len(stored) <= most), (0, "", True, True, True),
               f"{words}: {len(printed)} writes printed, {len(stored)} of FILE, at most {most}")


@pytest.mark.xdist_group("memory")
def test_sparse_files(t: Runs, between_all: str) -> None:
    """Measures the memory of a run on a file of 3 GB that takes no room on the disk, and begins like one of rrdi's."""
    program, library, log = as_nobody(t, between_all)
    least = touched(program, library, log, layout.heads(2, ["g"], [4]) + 4 * layout.UNKNOWN, 0, True)[1]
    large = layout.heads(2, ["g"], [200_000])
    most = touched(program, library, log, large, LONG, True)[1] - least
    starts = {mark: mark + bytes(12) for mark in (b"RRDI", b"RRDX", b"RRDC", b"RRDc", b"RRD!", marks.LOG, bytes(4))}
    starts[b"RRDC, a header"] = b"RRDC" + large[4:]
    starts[b"a log mark with a position"] = marks.LOG + marks.number(1 << 30)
    for name, begun in starts.items():
        for may_write in (True, False):
            (status, _, err), cost = touched(program, library, log, begun, LONG, may_write)
            t.check.count(RUNS)
            share = most if b"header" in name else 0
            t.check.same(is_cheap(cost - least, share), True,
                         f"a file of 3 GB that begins with {name}, {may_write}: {cost - least} kB, at most {share}")
            t.check.same(status == 0 if b"header" in name else (status, err[:13]) == (1, "ERROR: file: "), True,
                         f"{name}, {may_write}: {status} {err!r}")


def is_cheap(cost: int, share: int) -> bool:
    """Checks the kilobytes for a long file, of which a file that begins like a database costs a share."""
    return -200 - MISCOUNTED < cost <= MOST_COST + share + MISCOUNTED


def as_nobody(t: Runs, between_all: str) -> tuple[Program, str, Path]:
    """Returns the program where a user without rights can run it, a library to measure memory, and the place of its
    log."""
    t.folder.chmod(0o777)
    program, library = (shutil.copy(path, t.folder) for path in (t.program.path, between_all))
    for path in (program, library):
        os.chmod(path, 0o755)
    return Program(program), library, t.folder / "log"


def touched(program: Program, library: str, log: Path, begun: bytes, length: int, may_write: bool) -> tuple[Answer, int]:
    """Returns the answer of a run on a file that begins with these bytes, and the kilobytes that the run touched. The
    run's user may only read the file, or also write it."""
    file = log.with_name("file")
    put(file, begun)
    if length:
        os.truncate(file, length)
    file.chmod(0o666 if may_write else 0o444)
    log.unlink(missing_ok=True)
    become = (lambda: os.setuid(65_534)) if os.getuid() == 0 else None
    answer = program.run(["last", file.name], cwd=file.parent, env=settings(library, LOG=log), before=become)
    ends = [event for event in events_of(log) if event.kind == "end"]
    return answer, int(ends[-1].words[4]) if ends else -1
