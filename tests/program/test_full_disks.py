# SPDX-License-Identifier: MIT OR Apache-2.0
"""Files that cannot be written, on a full disk, under a limit, on a read-only mount, or that are no files: the next
command finds the old file as it was (docs/files.md). A create empties a file that is no database before it writes its
own. A full disk and a read-only mount need root."""
from __future__ import annotations

import os
import resource
import subprocess
from contextlib import contextmanager
from pathlib import Path
from typing import Iterator, Sequence

import pytest

from support import losses as support_losses
from support.losses import CANNOT_OPEN, CANNOT_WRITE, CREATE, FEW, OTHER_BYTES, TRIED, Losses
from support.program import Answer, error, held, parted, put

LEAST = {TRIED: 760}
# So many bytes at the start of a new file are written last.
FIRST = 16
# The reasons on a full disk, and under a limit on the size of files.
PARTLY = "no space left, or a limit on the size of files"
NO_SPACE, TOO_LARGE = ("no space left on device", PARTLY), ("file too large", PARTLY)


def repaired(losses: Losses, file: Path) -> Answer:
    """Has the file repaired by a command that may change it, but is refused; returns the answer of one that reads."""
    losses.run(["update", file, "0:1"])
    return losses.run(["last", file])


def unwritable(losses: Losses, file: Path, words: Sequence[object], lines: str = "", limit: int | None = None,
               may_work: bool = False,
               why: Sequence[str] = TOO_LARGE) -> None:
    """Checks that a run fails with `cannot write`, or is ended by the system under a limit, and that the next command
    finds the old file; in place of one that is no database it may find none. A run that does not need the room may
    succeed."""
    def limited() -> None:
        if limit is not None:
            resource.setrlimit(resource.RLIMIT_FSIZE, (limit, limit))

    before = held(file)
    status, _, err = losses.run(words, lines, before=limited)
    read = repaired(losses, file)
    after = held(file)
    put(file, before)
    losses.check.count(TRIED)
    what = f"{[str(word)[:40] for word in words[:6]]}, limit {limit}: {status} {err!r}"
    if may_work and status == 0:
        losses.check(after != before and read.status == 0, f"{what}, but left the old file")
        return
    is_left = after == before if before != OTHER_BYTES else (after or b"")[:FIRST] in (b"", bytes(FIRST))
    losses.check(is_left, f"{what} left another file, {len(after or b'')} for {len(before or b'')} bytes, {read}")
    first = err.splitlines(keepends=True)[:1]
    losses.check(status != 0 and (not err or first == [CANNOT_WRITE] and parted(err)[1] in why), what)


@contextmanager
def mounted(folder: Path, *ways: Sequence[str]) -> Iterator[None]:
    """Mounts a folder in one or more steps, or skips the test."""
    folder.mkdir()
    try:
        for words in ways:
            if subprocess.run(["mount", *words, str(folder)], capture_output=True).returncode != 0:
                pytest.skip(f"cannot mount: {words}")
        yield
    finally:
        subprocess.run(["umount", str(folder)], stderr=subprocess.DEVNULL)


# ---- a full disk


def fill(file: Path) -> None:
    try:
        file.write_bytes(bytes(1 << 20))
    except OSError:
        pass


def on_full(losses: Losses, file: Path, words: Sequence[object], lines: str, filler: Path) -> None:
    """Makes a change on a full disk. The next command runs while the disk is still full, and another after it has space
    again."""
    before = file.read_bytes()
    status, _, err = losses.run(words, lines)
    read = [repaired(losses, file)]
    full = file.read_bytes()
    filler.unlink(missing_ok=True)
    read.append(repaired(losses, file))
    losses.check.count(TRIED)
    is_told = status == 1 and parted(err)[0] == CANNOT_WRITE and parted(err)[1] in NO_SPACE
    is_right = is_told and full == before == file.read_bytes() and all(answer.status == 0 for answer in read)
    losses.check(is_right, f"{[str(word)[:40] for word in words[:6]]}: {status} {err!r}, then {read}")


def try_full(losses: Losses, small: Path) -> None:
    file, filler = small / "net.rrdi", small / "filler"
    for rows, update in ((3_000, 1_000), (3_000, 3_000), (1_700, 1_700), (300, 300)):
        losses.run(["create", file, *CREATE, f"RRA:LAST:0.5:1:{rows}"])
        assert losses.run(["update", file, *(f"{10 * n}:1" for n in range(1, rows + 1))]).status == 0
        before = file.read_bytes()
        change = f"{10 * rows + 10 * update}:1"
        for words, lines in ((["update", file, change], ""), (["batch", file], f"update {change}\nlast\n"),
                             (["create", file, *CREATE, "RRA:LAST:0.5:1:250000"], ""),
                             (["resize", file, "0", "GROW", "9000"], "")):
            filler.unlink(missing_ok=True)
            file.write_bytes(before)
            fill(filler)
            on_full(losses, file, words, lines, filler)
        filler.unlink(missing_ok=True)
        file.unlink()
    file.write_bytes(OTHER_BYTES)
    fill(filler)
    unwritable(losses, file, ["create", file, *CREATE, "RRA:LAST:0.5:1:3000"], why=NO_SPACE)


def test_a_full_disk(losses: Losses) -> None:
    small = losses.folder / "small"
    with mounted(small, ["-t", "tmpfs", "-o", "size=256k", "tmpfs"]):
        try_full(losses, small)


# ---- limits


@pytest.mark.parametrize("full", [False, True], ids=["", "the journal full"])
@pytest.mark.parametrize("rows", [4, 300, 1_900, 2_100, 10_000])
def test_limits(losses: Losses, rows: int, full: bool) -> None:
    """Limits the size of files for each kind of change, at each offset at which the change writes."""
    file = losses.folder / "limit.rrdi"
    losses.make(file, rows, 1, "--journal 1" if full else "")
    length = file.stat().st_size
    page = (length + 4_095) // 4_096 * 4_096
    changes = [["update", file, f"{10 * rows}:1"], ["update", file, "20:1"], ["revert", file],
               ["resize", file, "0", "GROW", "300"], ["resize", file, "0", "SHRINK", "1"], ["tune", file, "-i", "g:1"]]
    for words in changes:
        for limit in sorted({1, 4, 16, 100, 4_096, 32_768, length - 1, length, length + 1, page, page + 64,
                             page + 4_096}):
            unwritable(losses, file, words, limit=limit, may_work=True)
    unwritable(losses, file, ["create", file, *CREATE, "RRA:LAST:0.5:1:20000"], limit=length)
    unwritable(losses, file, ["batch", file], f"update {10 * rows}:1\nlast\n", limit=length - 1, may_work=True)
    put(file, OTHER_BYTES)
    unwritable(losses, file, ["create", file, *CREATE, "RRA:LAST:0.5:1:3000"], limit=8_192)


# ---- a read-only mount


def try_read_only(losses: Losses, file: Path) -> None:
    before = file.read_bytes()
    for words, lines in ((["update", file, "10:1"], ""), (["create", file, *FEW], ""),
                         (["tune", file, "-i", "g:1"], ""),
                         (["batch", file], "update 10:1\n")):
        answer = losses.run(words, lines)
        losses.check.count(TRIED)
        is_told = parted(answer.err) == (CANNOT_WRITE, "read-only file system")
        losses.check(answer.status == 1 and is_told, f"a read-only mount: {words}: {answer}")
    told = losses.run(["last", file])
    losses.check(told == (0, "0\n", "") and file.read_bytes() == before, f"rrdi does not read a read-only file: {told}")
    is_checked = losses.run(["update", file, "0:1"]).err.startswith(error("not later than 0"))
    losses.check(is_checked, "rrdi does not check a change of a read-only file")


def test_a_read_only_mount(losses: Losses) -> None:
    kept, made = losses.folder / "kept", losses.folder / "net.rrdi"
    losses.run(["create", made, *FEW])
    with mounted(kept, ["--bind", str(losses.folder)], ["-o", "remount,bind,ro"]):
        try_read_only(losses, kept / made.name)


# ---- pipes, folders and devices


def test_what_is_no_file(losses: Losses) -> None:
    file, pipe = losses.folder / "net.rrdi", losses.folder / "pipe"
    losses.run(["create", file, *FEW])
    os.mkfifo(pipe)
    for name in (pipe, "/dev/full", "/dev/null", losses.folder):
        answer = losses.run(["create", name, *FEW])
        losses.check.count(TRIED)
        why = "is a directory" if name == losses.folder else "not a regular file"
        is_told = answer.status == 1 and parted(answer.err) == (CANNOT_WRITE, why)
        losses.check(is_told, f"a create of {name} ended with {answer}")
    for name in (pipe, "/dev/null", "/dev/zero"):
        for words in (["update", name, "10:1"], ["batch", name], ["last", name], ["info", name],
                      ["fetch", name, "LAST"]):
            answer = losses.run(words, seconds=support_losses.HANG)
            losses.check.count(TRIED)
            losses.check(parted(answer.err) == (CANNOT_OPEN, "not a regular file"), f"{words} ended with {answer}")
    with subprocess.Popen(["cat", file], stdout=subprocess.PIPE) as feeder:
        told = subprocess.run([losses.program.path, "last", "/dev/stdin"], stdin=feeder.stdout, capture_output=True,
                              timeout=support_losses.HANG)
    losses.check.count(TRIED)
    losses.check((told.returncode, told.stdout) == (0, b"0\n"), f"the last update in a pipe without a name: {told}")
    losses.check(pipe.is_fifo() and Path("/dev/null").is_char_device(), "a pipe or a device was replaced")
