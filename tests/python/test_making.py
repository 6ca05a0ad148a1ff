# SPDX-License-Identifier: MIT OR Apache-2.0
"""Tests of how files are made, and of what happens to damaged ones: nothing of another program is lost."""
from __future__ import annotations

import errno
import fcntl
import os
import struct
import time
from pathlib import Path
from typing import Any, Callable, Dict, List, Tuple
from unittest import mock

from cases import DataCase, WithLibrary, WithProgram, use_library
from rrdi import commands, damaged, errors, locks, making
from rrdi.making import NewFile, end_of_links, is_there, make, remove_left_over
from rrdi.tools import record
from rrdi.tools.command_line import error_text

DEFINITIONS = ("DS:g:GAUGE:60:U:U", "RRA:LAST:0.5:1:4")


class Making(DataCase):
    def setUp(self) -> None:
        super().setUp()
        self.path = self.folder / "f.rrdi"

    def made(self, text: str = "new") -> bool:
        with NewFile(str(self.path)) as new:
            self.assertEqual((Path(new.unfinished).read_text(), new.is_filled()), ("", False))
            with open(new.unfinished, "w", encoding="ascii") as file:
                file.write(text)
            return new.is_filled() and new.appear()

    def test_a_new_file(self) -> None:
        self.assertTrue(self.made())
        self.assertEqual((self.files(), self.path.read_text()), (["data/f.rrdi"], "new"))

    def test_an_owner_that_is_refused(self) -> None:
        """The message says what could not be done, since nobody knows the file's first name."""
        before = mock.Mock(st_uid=os.geteuid() + 1, st_gid=os.getegid(), st_mode=0o644)
        with mock.patch.object(os, "fchown", side_effect=PermissionError(errno.EPERM, "no", "x")), \
                NewFile(str(self.path)) as new, self.assertRaises(OSError) as raised:
            new.take_owner(before, str(self.folder))
        self.assertEqual((raised.exception.errno, error_text(raised.exception)),
                         (errno.EPERM, "the new file cannot get the owner of the old one: no"))

    def test_what_a_kill_has_left(self) -> None:
        """Files of such names that are older than a day go; no others, and no folder or link."""
        old, other, young = (self.folder / f".rrdi-{name}.new" for name in ("0123456789abcdef", "mine", "00000000deadbeef"))
        for path in (old, other, young):
            path.write_text("")
        (self.folder / ".rrdi-ffffffffffffffff.new").mkdir()
        link = self.folder / ".rrdi-eeeeeeeeeeeeeeee.new"
        link.symlink_to(other)
        for path in (old, other, link, self.folder / ".rrdi-ffffffffffffffff.new"):
            os.utime(path, (time.time() - 90_000,) * 2, follow_symlinks=False)
        self.assertEqual(remove_left_over(str(self.folder)), [str(old)])
        self.assertTrue(link.is_symlink())
        link.unlink()
        self.assertEqual(self.files(), ["data/.rrdi-00000000deadbeef.new", "data/.rrdi-mine.new"])
        self.assertEqual(remove_left_over(str(self.folder / "none")), [])

    def test_how_long_a_file_may_be_filled(self) -> None:
        """A day, to the second."""
        left = self.folder / ".rrdi-0123456789abcdef.new"
        for age, is_left_over in ((86_399, False), (86_400, False), (86_401, True)):
            left.touch()
            os.utime(left, (0, 1_700_000_000))
            with mock.patch.object(time, "time", lambda: 1_700_000_000.0 + age):
                self.assertEqual(remove_left_over(str(self.folder)), [str(left)] if is_left_over else [], age)
            self.assertEqual(left.exists(), not is_left_over)

    def test_a_file_stays(self) -> None:
        self.path.write_text("old")
        self.assertFalse(self.made())
        self.assertEqual((self.files(), self.path.read_text()), (["data/f.rrdi"], "old"))

    def test_a_file_system_without_links(self) -> None:
        with mock.patch("os.link", side_effect=OSError(errno.EPERM, "Operation not permitted")):
            with mock.patch.object(making, "rename_to_new", return_value=errno.ENOSYS):
                self.assertTrue(self.made())
                self.assertFalse(self.made("other"))
                self.path.unlink()
            with mock.patch.object(making, "open_file", side_effect=locks.open_file) as opened:
                self.assertTrue(self.made())  # in one step
                self.assertFalse(self.made("other"))
            self.assertNotIn(str(self.path), [call.args[0] for call in opened.call_args_list])
        self.assertEqual((self.files(), self.path.read_text()), (["data/f.rrdi"], "new"))
        with mock.patch("os.link", side_effect=OSError(errno.ENOSPC, "No space left")), self.assertRaises(OSError):
            self.made()

    def test_a_name_that_another_program_uses(self) -> None:
        """Where there are no links, an empty file takes the name. Another program may find it, and lock, fill or replace it, before
        the new file takes its place: then its file stays."""
        others: List[Any] = []

        def lock_it() -> None:
            others.append(open(self.path, "rb"))
            fcntl.flock(others[-1], fcntl.LOCK_EX | fcntl.LOCK_NB)

        def replace_it() -> None:
            (self.folder / "other").write_text("other")
            (self.folder / "other").rename(self.path)
        for act, wanted in ((lock_it, ""), (lambda: self.path.write_text("other"), "other"), (replace_it, "other")):
            def open_file(path: str, flags: int, mode: int = 0o666) -> Any:
                file = locks.open_file(path, flags, mode)
                if path == str(self.path):
                    act()
                return file
            with mock.patch("os.link", side_effect=OSError(errno.EPERM, "Operation not permitted")), \
                    mock.patch.object(making, "rename_to_new", return_value=errno.EINVAL), \
                    mock.patch.object(making, "open_file", open_file):
                self.assertFalse(self.made())
            self.assertEqual((self.files(), self.path.read_text()), (["data/f.rrdi"], wanted))
            self.path.unlink()
        others[0].close()

    def test_a_link_to_a_missing_file(self) -> None:
        self.path.symlink_to(self.folder / "there.rrdi")
        self.assertTrue(self.made())
        self.assertTrue(self.path.is_symlink())
        self.assertEqual((self.folder / "there.rrdi").read_text(), "new")

    def test_a_link_that_is_not_followed(self) -> None:
        self.path.symlink_to(self.folder / "there.rrdi")
        with NewFile(str(self.path), follows=False) as new:
            Path(new.unfinished).write_text("new")
            new.replace()
        self.assertEqual((self.files(), self.path.is_symlink(), self.path.read_text()), (["data/f.rrdi"], False, "new"))

    def test_a_link_in_place_of_the_other_name(self) -> None:
        """Whoever may write the folder may put it there: what it leads to stays as it is."""
        other = self.folder / "other"
        other.write_text("other")

        def put_link() -> None:
            (found,) = self.folder.glob(".rrdi-*.new")
            found.unlink()
            found.symlink_to(other)
        for is_replaced in (False, True):
            with NewFile(str(self.path)) as new:
                put_link()
                with open(new.unfinished, "w", encoding="ascii") as file:
                    file.write("new")
                new.take_owner(mock.Mock(st_uid=os.geteuid(), st_gid=os.getegid(), st_mode=0o604), str(self.folder))
                new.flush()
                self.assertEqual((new.is_filled(), Path(new.unfinished).read_text()), (True, "new"))
                if is_replaced:
                    new.replace()
                else:
                    new.appear()
            self.assertEqual((other.read_text(), other.stat().st_mode & 0o7), ("other", 0o666 & ~self.mask() & 0o7))
            self.path.unlink()

    def mask(self) -> int:
        mask = os.umask(0)
        os.umask(mask)
        return mask

    def test_a_path_to_an_open_file(self) -> None:
        """The name serves without /proc, and if the library would refuse it."""
        number = os.open(self.folder, os.O_RDONLY)
        self.addCleanup(os.close, number)
        by_number = f"/proc/self/fd/{number}"
        self.assertEqual([making.path_of(number, name) for name in ("name", "n\udcffme", "n\u00e4me")],
                         [by_number, "n\udcffme", by_number])
        with failing("stat", errno.ENOENT):
            self.assertEqual(making.path_of(number, "name"), "name")

    def test_who_may_open_it(self) -> None:
        for mode in (0o666, 0o600):
            with NewFile(str(self.path), mode=mode) as new:
                self.assertEqual(os.stat(new.unfinished).st_mode & 0o7777, mode & ~self.mask())
        with NewFile(str(self.path)) as new:
            number = int(os.path.basename(new.unfinished))
            self.assertEqual((number > 2, os.get_inheritable(number)), (True, False))
        with self.assertRaises(OSError):
            os.fstat(number)

    def test_the_number_of_a_closed_stream(self) -> None:
        """What is written to the stream does not land in the file."""
        lowest = os.open("/dev/null", os.O_RDONLY)
        os.close(lowest)
        with mock.patch.object(making, "STANDARD_ERROR", lowest):
            with NewFile(str(self.path)) as new:
                self.assertEqual(os.path.basename(new.unfinished), str(lowest + 1))
                self.assertRaises(OSError, os.fstat, lowest)
                Path(new.unfinished).write_text("new")
                self.assertTrue(new.is_filled() and new.appear())
        self.assertEqual(self.path.read_text(), "new")

    def test_a_folder_that_is_not_there(self) -> None:
        """The error names the file, and not the other name, which nobody knows."""
        path = str(self.folder / "none/f")
        with self.assertRaises(FileNotFoundError) as raised, NewFile(path):
            pass
        self.assertEqual(raised.exception.filename, path)

    def test_nothing_is_left(self) -> None:
        with self.assertRaises(ValueError), NewFile(str(self.path)) as new:
            with open(new.unfinished, "w", encoding="ascii"):
                raise ValueError
        with NewFile(str(self.folder / "a/b/f"), makes_folder=True):
            self.assertTrue((self.folder / "a/b").is_dir())
        self.assertEqual(self.files(), [])

    def test_replaced(self) -> None:
        self.path.write_text("old")
        with NewFile(os.fsencode(self.path)) as new:
            with open(new.unfinished, "w", encoding="ascii") as file:
                file.write("new")
            new.replace()
        self.assertEqual((self.files(), self.path.read_text()), (["data/f.rrdi"], "new"))


def failing(name: str, number: int, suffix: str = "") -> Any:
    """Replaces a function of `os` by one that fails with an error number for open files and for the paths with a suffix."""
    function = getattr(os, name)

    def fail(path: Any, *more: Any, **named: Any) -> Any:
        if isinstance(path, int) or os.fsdecode(path).endswith(suffix):
            raise OSError(number, os.strerror(number))
        return function(path, *more, **named)
    return mock.patch.object(os, name, fail)


class CannotLook(DataCase):
    """A file at which the system cannot look may be there."""

    ERRORS = (errno.EIO, errno.EACCES, errno.ESTALE, errno.ENOMEM)

    def setUp(self) -> None:
        super().setUp()
        self.path = str(self.folder / "f.rrdi")

    def fill(self, new: str) -> str:
        with open(new, "w", encoding="ascii") as file:
            file.write("new")
        return "filled"

    def test_is_there(self) -> None:
        there, nothing = str(self.folder), str(self.folder / "none")
        (self.folder / "dangling").symlink_to("none")
        (self.folder / "file").write_text("")
        for path, is_file, is_name in ((there, True, True), (nothing, False, False), (str(self.folder / "dangling"), False, True),
                                       (str(self.folder / "file/in it"), False, False)):
            self.assertEqual((is_there(path), is_there(os.fsencode(path)), is_there(path, follows=False)), (is_file, is_file, is_name))
        for number in self.ERRORS:
            with failing("stat", number), self.assertRaises(OSError) as raised:
                is_there(there)
            self.assertEqual(raised.exception.errno, number)

    def test_a_file_that_was_filled(self) -> None:
        """It is not made, and nobody is told that it was."""
        for number in self.ERRORS:
            with failing("fstat", number), self.assertRaises(OSError) as raised:
                make(self.path, self.fill)
            self.assertEqual((raised.exception.errno, self.files()), (number, []))
        self.assertEqual(make(self.path, self.fill), "filled")

    def test_a_link(self) -> None:
        for number in self.ERRORS:
            with failing("readlink", number), self.assertRaises(OSError) as raised:
                make(self.path, self.fill)
            self.assertEqual((raised.exception.errno, self.files()), (number, []))

    def test_links(self) -> None:
        """Links from one to the next, over folders; and those that lead nowhere."""
        (self.folder / "a").mkdir()
        os.symlink("a/second", self.path)
        os.symlink("../third", str(self.folder / "a/second"))
        self.assertEqual((make(self.path, self.fill), (self.folder / "third").read_text()), ("filled", "new"))
        os.symlink("round", str(self.folder / "round"))
        with self.assertRaises(OSError) as raised:
            make(str(self.folder / "round"), self.fill)
        self.assertEqual(raised.exception.errno, errno.ELOOP)
        self.assertFalse(any(name.endswith(".new") for name in self.files()))


    def test_as_many_links_as_the_system_follows(self) -> None:
        for count in (39, 40, 41, 42):
            folder = self.folder / str(count)
            folder.mkdir()
            for at in range(count):
                os.symlink(str(at + 1), folder / str(at))
            try:
                os.close(os.open(folder / "0", os.O_CREAT))
                os.unlink(folder / str(count))
                self.assertEqual(end_of_links(str(folder / "0")), str(folder / str(count)))
            except OSError as error:
                self.assertEqual((error.errno, count > 40), (errno.ELOOP, True))
                with self.assertRaises(OSError) as raised:
                    end_of_links(str(folder / "0"))
                self.assertEqual((raised.exception.errno, raised.exception.filename), (errno.ELOOP, str(folder / "41")))

    def test_errors_name_the_file(self) -> None:
        """And not the other name, which nobody knows."""
        for act in ("appear", "replace"):
            with NewFile(str(self.path)) as new, self.assertRaises(FileNotFoundError) as raised:
                next(self.folder.glob(".rrdi-*.new")).unlink()
                getattr(new, act)()
            self.assertEqual((raised.exception.errno, raised.exception.strerror, raised.exception.filename), (errno.ENOENT, os.strerror(errno.ENOENT), str(self.path)))

    def test_a_damaged_file(self) -> None:
        """It stays, and that is said: who asks keeps its samples."""
        Path(self.path).write_text("RRDI and no more")
        cut = errors.Damaged("file: truncated at 16", self.path, errors.TRUNCATED, 16)
        busy = errors.Busy("cannot open", self.path, errors.CANNOT_OPEN, None, errno.EAGAIN)
        for error in (busy, OSError(errno.EIO, "Input/output error")):
            with mock.patch.object(damaged, "last", side_effect=error):
                text = damaged.set_aside(self.path, cut)
            self.assertRegex(text, "^file: truncated at 16, and the file cannot be renamed: .*(Input/output error|holds its lock)$")
        Path(self.path).write_text("")
        os.utime(self.path, (0, 0))
        empty = errors.Damaged("file: truncated at 0", self.path, errors.TRUNCATED, 0)
        for name in ("stat", "open", "rename"):
            with failing(name, errno.ESTALE), mock.patch.object(damaged, "last", side_effect=empty):
                self.assertRegex(damaged.set_aside(self.path, empty), "cannot be renamed: Stale .*handle$")
        self.assertEqual(self.files(), ["data/f.rrdi"])


class WithoutLinks(DataCase):
    """A file system without links: what holds the name is left only for another program."""

    def setUp(self) -> None:
        super().setUp()
        self.path = self.folder / "f.rrdi"

    def not_made(self, meanwhile: Callable[[], object]) -> None:
        """Makes a file that gets no name. Just before, something else happens."""
        def rename(*paths: str) -> None:
            meanwhile()
            raise OSError(errno.EIO, "Input/output error")
        with mock.patch("os.link", side_effect=OSError(errno.EPERM, "Operation not permitted")), \
                mock.patch.object(making, "rename_to_new", return_value=errno.EINVAL), \
                mock.patch("os.rename", rename), self.assertRaises(OSError) as raised:
            make(str(self.path), lambda new: Path(new).write_text("new"))
        self.assertEqual(raised.exception.errno, errno.EIO)

    def test_no_empty_file_is_left(self) -> None:
        self.not_made(lambda: None)
        self.assertEqual(self.files(), [])

    def test_a_file_of_another_program_stays(self) -> None:
        def replace() -> None:
            self.path.unlink()
            self.path.write_text("")
        for act, text in ((lambda: self.path.write_text("filled"), "filled"), (replace, "")):
            self.not_made(act)
            self.assertEqual((self.files(), self.path.read_text()), (["data/f.rrdi"], text))
            self.path.unlink()

    def test_a_library_of_c_without_the_call(self) -> None:
        with mock.patch("ctypes.CDLL", return_value=None):
            self.assertEqual(making.rename_to_new("a", "b"), errno.ENOSYS)

    def test_nobody_else_locks_it(self) -> None:
        def lock() -> None:
            with self.path.open() as file, self.assertRaises(BlockingIOError):
                fcntl.flock(file, fcntl.LOCK_EX | fcntl.LOCK_NB)
        self.not_made(lock)
        self.assertEqual(self.files(), [])


def access_list(*entries: Tuple[int, ...]) -> bytes:
    """A list as the system keeps it: of a kind, what it may do, and who that is."""
    return struct.pack("<I", 2) + b"".join(struct.pack("<HHI", kind, may, *(who or [2**32 - 1])) for kind, may, *who in entries)


class Owners(DataCase):
    """What takes the owner and the mode of another file."""

    def take(self, old: Path, mode: int = 0o666) -> Path:
        with NewFile(str(self.folder / "new"), mode=mode) as new:
            new.take_owner(old.stat(), str(old))
            new.replace()
        return self.folder / "new"

    def test_the_owner(self) -> None:
        """It is given only where it is another one: not every user may give it."""
        mine = os.geteuid(), os.getegid()
        for owner, count in ((mine, 0), ((mine[0] + 1, mine[1]), 1), ((mine[0], mine[1] + 1), 1)):
            with mock.patch.object(os, "fchown") as given, NewFile(str(self.folder / "new")) as new:
                new.take_owner(mock.Mock(st_uid=owner[0], st_gid=owner[1], st_mode=0o600), str(self.folder))
            self.assertEqual([call.args[1:] for call in given.call_args_list][:1], [owner] * count)

    def test_the_group(self) -> None:
        """A copy that cannot have it gives the folder's group nothing, whatever the list had."""
        old, mine = self.folder / "old", os.getegid()
        old.write_text("text")
        for is_given, wanted in ((True, 0o640), (False, 0o600)):
            refused = None if is_given else PermissionError(errno.EPERM, "no")
            before = mock.Mock(st_gid=mine + 1, st_mode=0o640)
            with NewFile(str(self.folder / "new"), mode=0o600) as new, open(new.unfinished, "rb") as file, \
                    mock.patch.object(os, "fchown", side_effect=refused) as given:
                making.take_mode(file.fileno(), before, str(old))
                self.assertEqual((given.call_args.args[1:], os.fstat(file.fileno()).st_mode & 0o777), ((-1, mine + 1), wanted))

    def test_no_program_that_runs_as_its_owner(self) -> None:
        old = self.folder / "old"
        old.write_text("text")
        old.chmod(0o6755)
        self.assertEqual(self.take(old).stat().st_mode & 0o7777, 0o755)

    def test_access_control_lists(self) -> None:
        """The group has not what is the most for all in the list; and a list of the folder gives nobody more."""
        old, new, folder = self.folder / "old", self.folder / "lists/new", self.folder / "lists"
        folder.mkdir()
        old.write_text("old")
        mine = access_list((1, 6), (2, 6, 1234), (4, 0), (16, 6), (32, 0))
        try:
            os.setxattr(folder, "system.posix_acl_default", access_list((1, 7), (2, 6, 4321), (4, 5), (16, 7), (32, 4)))
        except OSError as error:
            self.skipTest(f"no access control lists: {error}")
        for wanted, mode in ((mine, 0o660), (None, 0o640), (None, 0o600)):
            if wanted is None and making.access_list(str(old)) is not None:
                os.removexattr(old, making.ACCESS_LIST)
            elif wanted is not None:
                os.setxattr(old, making.ACCESS_LIST, wanted)
            old.chmod(mode)
            for first in (0o666, 0o600):
                with mock.patch.object(os, "fchmod", side_effect=os.chmod) as changed, NewFile(str(new), mode=first) as made:
                    self.assertEqual(os.stat(made.unfinished).st_mode & 0o077 == 0, first == 0o600)
                    made.take_owner(old.stat(), str(old))
                    made.take_owner(old.stat(), str(old))
                    made.replace()
                steps = [call.args[1] for call in changed.call_args_list]
                self.assertEqual((making.access_list(str(new)), new.stat().st_mode & 0o7777), (wanted, mode))
                self.assertEqual(steps, [0o600, mode, mode])
        with mock.patch.object(os, "getxattr", side_effect=OSError(errno.EIO, "no")), self.assertRaises(OSError):
            making.access_list(str(old))


class Modes(DataCase):
    """A new file may be read and written by all, except as the umask has it."""

    def test_new_files(self: Any) -> None:
        use_library(self, self.library())
        makers: Dict[str, Callable[[str], object]] = {
            "create": lambda path: commands.create(path, *DEFINITIONS, start=0),
            "a batch": lambda path: commands.batch(path, [f"create --start 0 {' '.join(DEFINITIONS)}"]),
            "made": lambda path: make(path, lambda new: commands.create(new, *DEFINITIONS, start=0, overwrite=True), makes_folder=True),
            "locked": lambda path: self.lock(path)}
        for mask in (0o000, 0o002, 0o022, 0o027, 0o077):
            before = os.umask(mask)
            try:
                for name, maker in makers.items():
                    path = self.folder / f"{mask:o}" / f"{name}.rrdi"
                    path.parent.mkdir(exist_ok=True)
                    maker(str(path))
                    self.assertEqual(path.stat().st_mode & 0o7777, 0o666 & ~mask, (name, oct(mask)))
            finally:
                os.umask(before)

    def lock(self, path: str) -> None:
        """The file that all recorders of a database lock: those of another user too."""
        with record.alone(path):
            pass

    def test_the_mode_of_a_file_stays(self: Any) -> None:
        """What changes or replaces a database keeps its mode."""
        use_library(self, self.library())
        path = self.folder / "f.rrdi"
        commands.create(str(path), *DEFINITIONS, start=0)
        for mode in (0o600, 0o664, 0o640):
            path.chmod(mode)
            commands.update(str(path), f"{commands.last(str(path)) + 300}:1")
            commands.create(str(path), *DEFINITIONS, start=0, overwrite=True)
            self.assertEqual(path.stat().st_mode & 0o7777, mode)


class SetAside(DataCase):
    """What happens to a file that was found damaged."""

    def setUp(self) -> None:
        super().setUp()
        use_library(self, self.library())  # type: ignore[attr-defined]
        self.file = str(self.folder / "f.rrdi")
        commands.create(self.file, *DEFINITIONS, start=0)

    def write(self, data: bytes) -> None:
        with open(self.file, "wb") as file:
            file.write(data)

    def cut(self) -> errors.Damaged:
        """Cuts the file, and returns what rrdi then says."""
        with open(self.file, "r+b") as file:
            file.truncate(100)
        with self.assertRaises(errors.Damaged) as raised:
            commands.last(self.file)
        return raised.exception

    def aside(self) -> List[str]:
        return [name for name in self.files() if ".damaged-" in name]

    def test_a_damaged_file(self: Any) -> None:
        text = damaged.set_aside(self.file, self.cut())
        self.assertRegex(text, f"^file: truncated at 100; the file is now {self.file}[.]damaged-[0-9]+-{os.getpid()}$")
        self.assertEqual((len(self.aside()), len(self.files())), (1, 1))

    def test_a_file_that_is_whole_again(self: Any) -> None:
        """Between the fault and the renaming another program has replaced the file, or made it again in its place."""
        fault = self.cut()
        commands.create(self.file, *DEFINITIONS, start=0, overwrite=True)
        self.assertEqual(damaged.set_aside(self.file, fault), "file: truncated at 100; the file has changed meanwhile")
        self.assertEqual(self.aside(), [])

    def test_a_file_that_changes_at_the_last_moment(self: Any) -> None:
        fault = self.cut()

        def change(path: str) -> bool:
            os.unlink(self.file)
            commands.create(self.file, *DEFINITIONS, start=0)
            return True
        with mock.patch.object(damaged, "is_still_damaged", change):
            self.assertIn("the file has changed meanwhile", damaged.set_aside(self.file, fault))
        self.assertEqual((self.aside(), commands.last(self.file)), ([], 0))

    def test_a_name_that_is_taken(self: Any) -> None:
        """Nothing that has the name for the damaged file goes, not even a link to nothing."""
        fault, now = self.cut(), time.time()
        taken = f"{self.file}.damaged-{int(now)}-{os.getpid()}"
        with mock.patch("time.time", return_value=now):
            os.symlink("nothing", taken)
            self.assertIn("the file has changed meanwhile", damaged.set_aside(self.file, fault))
            self.assertEqual((os.readlink(taken), os.path.getsize(self.file)), ("nothing", 100))
            os.unlink(taken)
            self.assertIn(f"the file is now {taken}", damaged.set_aside(self.file, fault))

    def test_a_file_in_use(self: Any) -> None:
        fault = self.cut()
        with open(self.file, "rb") as other:
            fcntl.flock(other, fcntl.LOCK_SH)
            self.assertIn("another program holds its lock", damaged.set_aside(self.file, fault))
        self.assertEqual(self.aside(), [])

    def test_an_empty_file(self: Any) -> None:
        """An empty file that is new may be one that another program has not yet locked and filled."""
        self.write(b"")
        with self.assertRaises(errors.Damaged) as raised:
            commands.last(self.file)
        self.assertIn("another program may be making the file", damaged.set_aside(self.file, raised.exception))
        self.assertEqual(self.aside(), [])
        # An hour ago, and an hour ahead, after the clock was set back.
        for turn, seconds in enumerate((-3_600, 3_600), 1):
            self.write(b"")
            os.utime(self.file, (time.time() + seconds,) * 2)
            with mock.patch("time.time", return_value=time.time() + turn):  # another name for each
                self.assertIn("the file is now", damaged.set_aside(self.file, raised.exception))
            self.assertEqual(len(self.aside()), turn)
        self.assertTrue(damaged.is_being_made(self.file))  # it is gone, so another one may come

    def test_a_file_of_a_newer_rrdi(self: Any) -> None:
        with open(self.file, "r+b") as file:
            file.seek(4)
            file.write(b"\0\x09")
        with self.assertRaises(errors.Damaged) as raised:
            commands.last(self.file)
        self.assertEqual(damaged.set_aside(self.file, raised.exception), "file: version")
        self.assertEqual(self.aside(), [])


class SetAsideByProgram(WithProgram, SetAside):
    pass


class SetAsideByLibrary(WithLibrary, SetAside):
    pass


class ModesByProgram(WithProgram, Modes):
    pass


class ModesByLibrary(WithLibrary, Modes):
    pass


del SetAside, Modes
