# SPDX-License-Identifier: MIT OR Apache-2.0
"""Makes files, and never in place of another file.

A file is filled under another name in the same folder, and a link gives it its own name when it is whole. A link fails if
there is a file of this name. So nobody sees half a file, and of two programs that make one file the first one counts. Whoever
may write the folder may put a link to any file in place of the other name, so the file is filled by its number.
"""
from __future__ import annotations

import errno
import fcntl
import os
import re
import secrets
import time
from contextlib import suppress
from io import FileIO
from typing import Callable, List, Optional, TypeVar, Union

from .errors import Error
from .locks import EXCLUSIVE, close, lock, open_file
from .words import FilePath

Filled = TypeVar("Filled")

# What link(2) answers if a file system has no links.
NO_LINKS = frozenset({errno.EPERM, errno.EOPNOTSUPP, errno.ENOTSUP, errno.ENOSYS, errno.EMLINK})
# What readlink(2) answers if a path is no symbolic link.
NOT_A_LINK = frozenset({errno.EINVAL, errno.ENOENT, errno.ENOTDIR})
ACCESS_LIST = "system.posix_acl_access"
# What getxattr(2) answers if this file has no list, or no file of the file system.
NO_LIST = frozenset({errno.ENODATA, errno.EOPNOTSUPP, errno.ENOTSUP, errno.ENOSYS, errno.EINVAL})
AT_FDCWD, RENAME_NOREPLACE = -100, 1  # Linux's numbers, for renameat2
UNFINISHED = re.compile(r"\.rrdi-[0-9a-f]{16}\.new")
LEFT_OVER = 86_400  # seconds after which nobody fills such a file any more
STANDARD_ERROR = 2  # the number of the last standard stream
MOST_LINKS = 40  # that lead from one to the next, as Linux follows them


def is_there(path: FilePath, follows: bool = True) -> bool:
    """Checks whether a file has a name. `os.path.exists` says no, too, if the system can't look at the file.

    `follows` looks for the file to which a symbolic link leads, and not for the link.

    # Errors
    `OSError` if the system can't look at the file, which may be there.
    """
    try:
        os.stat(path, follow_symlinks=follows)
    except (FileNotFoundError, NotADirectoryError):
        return False
    return True


def end_of_links(path: str) -> str:
    """Returns the path to which a symbolic link leads, which may have no file; the path itself if it is no link.

    # Errors
    `OSError` if the system can't look at a link, or there are too many.
    """
    for _ in range(MOST_LINKS + 1):  # the last one finds that there is no further link
        try:
            target = os.readlink(path)
        except OSError as error:
            if error.errno in NOT_A_LINK:
                return path
            raise
        path = os.path.join(os.path.dirname(path), target)
    raise OSError(errno.ELOOP, os.strerror(errno.ELOOP), path)


class NewFile:
    """A file that is being made. It is removed at the end if it got no name.

        with NewFile("a/b.rrdi") as new:
            rrdi.create(new.unfinished, .., overwrite=True)
            is_made = new.appear()

    If `path` is a link to a file that does not exist, that file is made, unless `follows` is false. `makes_folder` makes the
    folder too, and `mode` says who may open the file, as far as the umask lets them.

    # Errors
    `OSError` if the file or its folder can't be made, or the system can't look at the path.
    """

    unfinished: str  # a path at which there is an empty file, which is to be filled

    def __init__(self, path: FilePath, makes_folder: bool = False, follows: bool = True, mode: int = 0o666):
        self.path, self._mode = end_of_links(os.fsdecode(path)) if follows else os.fsdecode(path), mode
        folder = os.path.dirname(self.path)
        self._name = os.path.join(folder, f".rrdi-{secrets.token_hex(8)}.new")
        if makes_folder and folder:
            os.makedirs(folder, exist_ok=True)

    def __enter__(self) -> NewFile:
        try:
            self._file = above_streams(open_file(self._name, os.O_RDWR | os.O_CREAT | os.O_EXCL, self._mode))
        except OSError as error:
            raise self._of_name(error) from None
        self.unfinished = path_of(self._file.fileno(), self._name)
        return self

    def __exit__(self, *_: object) -> None:
        with suppress(OSError):  # it has its name, or it stays: what was made counts all the same
            os.unlink(self._name)
        with suppress(OSError):
            self._file.close()

    def is_filled(self) -> bool:
        """Checks whether there is something in the file: a refused `create` leaves it empty."""
        return os.fstat(self._file.fileno()).st_size > 0

    def flush(self) -> None:
        """Waits until the file is on the disk.

        # Errors
        `OSError` if the system says that it is not.
        """
        os.fsync(self._file.fileno())

    def take_owner(self, before: os.stat_result, old: Union[str, int]) -> None:
        """Gives the file the owner and the mode of another one, `old`, a path or the number of an open file, with the status
        `before`.

        # Errors
        `OSError` if the system refuses them.
        """
        found = os.fstat(self._file.fileno())
        if (found.st_uid, found.st_gid) != (before.st_uid, before.st_gid):
            try:
                os.fchown(self._file.fileno(), before.st_uid, before.st_gid)
            except OSError as error:
                raise OSError(error.errno, f"the new file cannot get the owner of the old one: {error.strerror}") from None
        take_mode(self._file.fileno(), before, old)

    def appear(self) -> bool:
        """Gives the file its name. Returns False if a file has that name: that file stays as it is.

        # Errors
        `OSError` if the system refuses the name.
        """
        try:
            os.link(self._name, self.path)
        except FileExistsError:
            return False
        except OSError as error:
            if error.errno not in NO_LINKS:
                raise self._of_name(error) from None
            return self._take_name()
        return True

    def replace(self) -> None:
        """Gives the file its name, in place of a file that has it. The caller holds the lock of that file.

        # Errors
        `OSError` if the system refuses the name, also since another file is mounted there.
        """
        try:
            os.rename(self._name, self.path)
        except OSError as error:
            raise self._of_name(error) from None

    def _of_name(self, error: OSError) -> OSError:
        """Returns an error that names the file, and not the other name, which nobody knows."""
        return OSError(error.errno, error.strerror, self.path)

    def _take_name(self) -> bool:
        """Gives the file its name where there are no links, by a renaming that replaces no file. Where the system has none, an
        empty file takes the name and is replaced, unless another program has begun to fill or has replaced it meanwhile.
        After a kill between these two steps the empty file has the name."""
        renamed = rename_to_new(self._name, self.path)
        if renamed in (0, errno.EEXIST):
            return renamed == 0
        try:
            empty = open_file(self.path, os.O_RDWR | os.O_CREAT | os.O_EXCL)
        except FileExistsError:
            return False
        try:
            with suppress(BlockingIOError):
                lock(empty, EXCLUSIVE, 0)
                if is_empty_at(empty, self.path):
                    os.rename(self._name, self.path)
                    return True
            return False
        except BaseException:
            remove_empty(empty, self.path)
            raise
        finally:
            with suppress(OSError):
                close(empty)


def rename_to_new(before: str, after: str) -> int:
    """Renames a file unless there is a file of the new name, by a call that Python does not have. Returns the system's error,
    or 0."""
    import ctypes  # here, since nearly all file systems have links
    try:
        function = ctypes.CDLL(None, use_errno=True).renameat2
    except AttributeError:
        return errno.ENOSYS
    failed = function(AT_FDCWD, os.fsencode(before), AT_FDCWD, os.fsencode(after), RENAME_NOREPLACE)
    return ctypes.get_errno() if failed else 0


def is_empty_at(file: FileIO, path: str) -> bool:
    """Checks whether an open file is empty, and still has its name."""
    found = os.fstat(file.fileno())
    return found.st_size == 0 and os.path.samestat(found, os.lstat(path))


def above_streams(file: FileIO) -> FileIO:
    """Moves an open file that has the number of a standard stream to a higher one: if the stream is closed, what is written to
    it must not land in the file."""
    if file.fileno() > STANDARD_ERROR:
        return file
    with file:
        return FileIO(fcntl.fcntl(file.fileno(), fcntl.F_DUPFD_CLOEXEC, STANDARD_ERROR + 1), "r+b")


def path_of(number: int, name: str) -> str:
    """Returns a path that leads to an open file, whatever has its name. Without /proc it is the name; so it is where rrdi would
    refuse the name, which is not in UTF-8."""
    by_number = f"/proc/self/fd/{number}"
    try:
        name.encode()
        os.stat(by_number)
    except (OSError, UnicodeEncodeError):
        return name
    return by_number


def take_mode(new: int, before: os.stat_result, old: Union[str, int]) -> None:
    """Gives an open file the group and the mode of another one, and its access control list: with a list, what a mode has for
    the group is the most that anybody in the list may do, and what the group may do is in the list. Without one, the new file
    has none either, also where the folder gives its new files one. A user who may not give the group gives it nothing.

    # Errors
    `OSError` if the system refuses them.
    """
    if os.fstat(new).st_gid != before.st_gid:
        try:
            os.fchown(new, -1, before.st_gid)
        except PermissionError:
            os.fchmod(new, before.st_mode & 0o707)
            return
    listed = access_list(old)
    if listed != access_list(new):
        os.fchmod(new, 0o600)  # nobody gets more meanwhile
        if listed is None:
            os.removexattr(new, ACCESS_LIST)
        else:
            os.setxattr(new, ACCESS_LIST, listed)
    os.fchmod(new, before.st_mode & 0o777)  # no program that runs as its owner, whatever the contents are


def access_list(file: Union[str, int]) -> Optional[bytes]:
    """Returns the access control list of a file, as the system keeps it; None if it has none.

    # Errors
    `OSError` if the system does not say.
    """
    try:
        return os.getxattr(file, ACCESS_LIST)
    except OSError as error:
        if error.errno not in NO_LIST:
            raise
        return None


def flush(path: str) -> None:
    """Waits until a file, or the names in a directory, are on the disk.

    # Errors
    `OSError` if the system says that they are not.
    """
    number = os.open(path or ".", os.O_RDONLY | os.O_CLOEXEC)
    try:
        os.fsync(number)
    finally:
        os.close(number)


def remove_empty(file: FileIO, path: str) -> None:
    """Removes an empty file that is open, unless another program has filled, replaced or locked it meanwhile."""
    with suppress(OSError):
        lock(file, EXCLUSIVE, 0)
        if is_empty_at(file, path):
            os.unlink(path)


def remove_left_over(folder: str) -> List[str]:
    """Removes the unfinished files of a folder that are older than a day, and returns their paths. A program that was
    killed has left them; one that still fills such a file fails, and leaves what it copies as it is."""
    removed: List[str] = []
    with suppress(OSError), os.scandir(folder or ".") as listed:
        for entry in listed:
            if UNFINISHED.fullmatch(entry.name) is None or not entry.is_file(follow_symlinks=False):
                continue
            if time.time() - entry.stat(follow_symlinks=False).st_mtime > LEFT_OVER:
                os.unlink(entry.path)
                removed.append(os.path.join(folder, entry.name))
    return removed


def make(path: FilePath, fill: Callable[[str], Filled], makes_folder: bool = False, syncs: bool = False) -> Optional[Filled]:
    """Calls `fill` with another path, gives the file its name `path` when it is whole, and returns what `fill` returned. With
    `syncs` the name is on the disk then.

    Returns None if there is a file at `path`, which stays as it is. `fill` may leave the file empty: then there is none.

    # Errors
    Those of `fill`, and `OSError` if the file or its folder can't be made, or the system refuses the name.
    """
    with NewFile(path, makes_folder) as new:
        try:
            filled = fill(new.unfinished)
        except Error as error:
            error.path = os.fsdecode(path)
            raise
        if not new.is_filled():
            return filled
        if not new.appear():
            return None
        if syncs:
            flush(os.path.dirname(new.path))
        return filled
