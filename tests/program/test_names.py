# SPDX-License-Identifier: MIT OR Apache-2.0
"""Links, second names, files that others move or make meanwhile, and copies: a change goes to the file that has the
name (docs/files.md)."""
from __future__ import annotations

import fcntl
import os
import shutil
from pathlib import Path
from typing import Callable

import pytest

from support import losses as support_losses
from support.losses import CANNOT_OPEN, CANNOT_WRITE, FEW, TRIED, Losses, line_of
from support.program import Answer, held, parted, put

LEAST = {TRIED: 36}
SAME = ("st_ino", "st_mode", "st_uid", "st_gid", "st_nlink")


def test_links(losses: Losses) -> None:
    """Checks that a change by a link changes the file that the link names: the same file, with its permissions, its
    owner and its other names."""
    file, link, second = (losses.folder / name for name in ("linked.rrdi", "link.rrdi", "second.rrdi"))
    losses.make(file, 1_000, 1)
    file.chmod(0o640)
    if os.getuid() == 0:
        os.chown(file, 65_534, 65_534)
    link.symlink_to(file.name)
    os.link(file, second)
    before = file.stat()
    for number, name in enumerate((link, second, file), 2):
        for words in (["update", name, f"{10 * number}:1"], ["tune", name, "-i", "g:1"],
                      ["resize", name, "0", "GROW", "300"],
                      ["resize", name, "0", "SHRINK", "300"]):
            answer, now = losses.run(words), file.stat()
            losses.check.count(TRIED)
            same = [getattr(now, field) == getattr(before, field) for field in SAME]
            losses.check(answer == Answer(0) and all(same) and link.is_symlink(),
                         f"{words}: {answer}, the same: {same}")
        losses.check({losses.run(["last", other]).out for other in (file, link, second)} == {f"{10 * number}\n"},
                     f"a change by {name.name} is not visible under each name")
    answer = losses.run(["create", link, *FEW])
    is_right = answer == Answer(0) and link.is_symlink() and losses.run(["last", second]).out == "0\n"
    losses.check(is_right, f"a create by a link: {answer}")
    losses.check([path.name for path in losses.folder.glob("*linked*")] == [file.name],
                 "a change leaves other files in the directory")


def test_a_dangling_link(losses: Losses) -> None:
    """Checks a link to a file that does not exist: a create creates the file, or reports that it cannot; then there is
    no file."""
    link, file = losses.folder / "dangling.rrdi", losses.folder / "target.rrdi"
    link.symlink_to(file.name)
    answer = losses.run(["create", link, *FEW])
    losses.check.count(TRIED)
    is_made = answer == Answer(0) and losses.run(["last", file]).status == 0
    losses.check(link.is_symlink() and (is_made or answer.err.startswith(CANNOT_WRITE)),
                 f"a create by a dangling link: {answer}")


def test_a_file_made_meanwhile(losses: Losses) -> None:
    """Checks that a file stays unchanged that another program creates while a batch runs without a file."""
    file = losses.folder / "meanwhile.rrdi"
    batch = losses.batch(file, f"create {' '.join(FEW)}\nlast\n")
    line_of(batch)
    made = losses.make(file, 9, 1)
    _, err = batch.communicate(timeout=support_losses.HANG)
    losses.check.count(TRIED)
    told = (CANNOT_WRITE, "another program has written the file meanwhile")
    losses.check(parted(err) == told and file.read_bytes() == made, f"a file created meanwhile: {err!r}")


# What another program does with FILE while a run waits for its lock.
def rename_away(file: Path, other: Path) -> None:
    file.rename(file.with_name("away"))


def unlink(file: Path, other: Path) -> None:
    file.unlink()


def replace(file: Path, other: Path) -> None:
    other.rename(file)


def link_other(file: Path, other: Path) -> None:
    file.unlink()
    file.symlink_to(other.name)


Move = Callable[[Path, Path], None]
MOVES: tuple[Move, ...] = (rename_away, unlink, replace, link_other)
COMMANDS = (["update", "40:5"], ["tune", "-i", "g:7"], ["batch"], ["last"], ["create", *FEW])


@pytest.mark.parametrize("words", COMMANDS, ids=lambda words: words[0])
@pytest.mark.parametrize("move", MOVES)
def test_a_file_moved_meanwhile(losses: Losses, move: Move, words: list[str]) -> None:
    """Checks that a run that waited for a lock uses the file that has the name FILE then, and no file that has lost
    it."""
    file, other, kept = (losses.folder / name for name in ("net.rrdi", "other", "second name"))
    old, new = losses.make(file, 1_000, 3), losses.make(other, 300, 2)
    os.link(file, kept)
    lines = "update 40:5\n" if words[0] == "batch" else ""
    with open(file, "rb") as holder:
        fcntl.flock(holder, fcntl.LOCK_EX)
        child = losses.waiting([words[0], file, *words[1:]], losses.folder / "log")
        move(file, other)
    out, err = child.communicate(lines, timeout=support_losses.HANG)
    answer, now = Answer(child.returncode, out, err), held(file)
    losses.check.count(TRIED)
    what = f"{move.__name__} while {words[:2]} waits: {answer}"
    losses.check(held(kept) == old, f"{what}, the file without the name has changed")
    if move in (replace, link_other):
        put(losses.folder / "plain", new)
        wanted = losses.run([words[0], losses.folder / "plain", *words[1:]], lines)
        losses.check((answer, now) == (wanted, held(losses.folder / "plain")),
                     f"{what}, not as on the new file: {wanted}")
    elif words[0] == "create":
        losses.check(answer == Answer(0) and losses.run(["last", file]) == Answer(0, "0\n"), f"{what}, a new file")
    else:
        is_told = answer.status == 1 and (words[0] == "batch" or err.startswith(CANNOT_OPEN))
        losses.check(is_told and now is None, f"{what}, no file")


def test_copies(losses: Losses) -> None:
    """Checks that a file that is moved, copied and moved back is the same database."""
    file, moved = losses.folder / "moved.rrdi", losses.folder / "a folder" / "other name"
    old = losses.make(file, 1_000, 3)
    moved.parent.mkdir()
    shutil.move(file, moved)
    losses.check(losses.run(["update", moved, "40:1"]) == Answer(0), "a moved file cannot be changed")
    is_old = losses.run(["revert", moved]) == Answer(0) and moved.read_bytes() == old
    losses.check(is_old, "a revert does not restore a moved file")
    losses.check(len(list(moved.parent.iterdir())) == 1, "a second file is left")
    losses.check.count(TRIED, 2)
