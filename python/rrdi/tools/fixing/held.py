# SPDX-License-Identifier: MIT OR Apache-2.0
"""A file that stays locked from the first look until its change is stored, by the C library or by the program."""
from __future__ import annotations

import fcntl
import os
import re
import shutil
from contextlib import contextmanager
from io import FileIO
from typing import Iterator, List, Optional, Protocol

from ...by_program import as_argument
from ...choice import chosen_library, program_path
from ...environment import milliseconds, sync_of_environment
from ...errors import ERROR, LOCKED, NO_FILE, reasons_in
from ...locks import EXCLUSIVE, NO_LOCKS, Identity, close, flock, identity_at, identity_of, open_regular
from ...protocol import Library, OpenedFile
from ...reader import settled
from ...words import as_bytes, as_text
from ..command_line import Failure, error_text
from ..program import CommandFailed
from ..reading import reporting
from .trials import NO_TIME, Trial, accepted, by_library, by_program, text_of

TRIES = 10  # of an opening, if another file takes the name each time
PIPE_SIZE, SET_PIPE_SIZE = 1032, 1031  # Linux's F_GETPIPE_SZ and F_SETPIPE_SZ, which Python 3.8 does not name
ATOMIC = 4_096  # bytes that a pipe takes whole on every Linux
LAST = re.compile(rb"[0-9]+\n")  # what `last` prints
REFUSED_LAST = f"{ERROR}{NO_FILE}\n".encode()  # what it prints, and all other lines too, if the file is gone
OLD_VERSION = b"RRDI\0\1"
NO_LOCK = "the file system has no locks, and no old sample is changed without one"
MAY_PASS = ("cannot open", "out of memory")  # begin the reasons that another try may not meet


class NotOpened(Failure):
    """The file could not be opened, locked or read as one file. Nothing was changed, and a later try may do."""


class NotStored(Failure):
    """The file could not be written, or has lost its name meanwhile: the file of the name is as it was."""


class PartlyStored(CommandFailed):
    """Memory ran out in the middle of the change, although a copy took all of it: some lines were refused."""


class Session(Protocol):
    """An open file, which this process, or a program that it has started, has locked."""

    def ask(self, name: str) -> str:
        """Runs a command that changes nothing, and returns its output."""

    def store(self, lines: List[str]) -> None:
        """Runs lines and writes the file once.

        # Errors
        `CommandFailed` if the file could not be written.
        """

    def end(self) -> None:
        """Closes the file, and leaves it as it is."""


class LibrarySession:
    """A file that the C library keeps open."""

    def __init__(self, library: Library, path: str):
        answer, opened = library.open(as_bytes(path), milliseconds(None), sync_of_environment())
        if opened is None:
            accepted(answer)
            raise CommandFailed("cannot open")
        self.opened: OpenedFile = opened

    def ask(self, name: str) -> str:
        return as_text(accepted(self.opened.run(as_bytes(name), NO_TIME)).output)

    def store(self, lines: List[str]) -> None:
        answer = accepted(self.opened.batch(text_of(lines), NO_TIME))
        if answer.refused:  # as memory ran out, since the copy took them all
            raise PartlyStored(f"{reasons_in(as_text(answer.output))[0]}; the file has a part of the change only")

    def end(self) -> None:
        self.opened.close()


class ProgramSession:
    """A batch of the program, which has the lock until its input ends, and writes the file then.

    The lines go into the pipe by one write that it takes whole. So if this process is killed, the program has got all
    of them or none, and the end of its input does no harm.
    """

    def __init__(self, path: str):
        import subprocess  # the library needs no process
        argument = as_argument(as_bytes(path))
        self.argument = as_text(argument)
        env = {**os.environ, "RRDI_WAIT": str(milliseconds(None) // 1_000)}
        try:
            # In a session of its own, so that a key that ends the tool does not end a run that writes.
            self.process = subprocess.Popen(
                [program_path(), "batch", argument], bufsize=0, stdin=subprocess.PIPE, stdout=subprocess.PIPE,
                stderr=subprocess.PIPE, env=env, start_new_session=True)
        except OSError as error:
            raise NotOpened(f"cannot run {program_path()}: {error.strerror or error}") from None

    def ask(self, name: str) -> str:
        output = self._sent(as_bytes(name) + b"\nlast\n")
        if output.startswith(ERROR):
            raise CommandFailed(output[len(ERROR):].split("\n")[0])
        return output

    def store(self, lines: List[str]) -> None:
        output = self._sent(text_of([*lines, "last"]))
        if ERROR in output:
            self.end()
            raise CommandFailed(output.partition(ERROR)[2].split("\n")[0])
        assert self.process.stdin
        self.process.stdin.close()
        self._check_end()

    def end(self) -> None:
        self.process.kill()  # at the end of its input it would write the file
        self.process.wait()
        for stream in (self.process.stdin, self.process.stdout, self.process.stderr):
            assert stream
            stream.close()

    def _sent(self, text: bytes) -> str:
        """Sends lines of which the last one is `last`, and returns what the others print."""
        assert self.process.stdin and self.process.stdout
        pipe = self.process.stdin.fileno()
        if not has_room(pipe, len(text)):
            raise Failure(f"{program_path()} cannot take so many lines at once; use the C library")
        try:
            sent = os.write(pipe, text)
        except BrokenPipeError:
            sent = 0
        found: List[bytes] = []
        while sent == len(text):
            found.append(self._line())
            if not found[-1] or LAST.fullmatch(found[-1]):
                break
            if found[-1] == REFUSED_LAST:
                raise CommandFailed(NO_FILE)
        if sent < len(text) or not found[-1]:
            self._check_end()
            raise CommandFailed(f"{program_path()} has ended")
        return as_text(b"".join(found[:-1]))

    def _line(self) -> bytes:
        assert self.process.stdout
        line: bytes = self.process.stdout.readline()
        return line

    def _check_end(self) -> None:
        """Waits for the end of the program.

        # Errors
        `CommandFailed` if it printed a reason, or has a status that a batch without a refused line does not have.
        """
        assert self.process.stderr
        lines = [*as_text(self.process.stderr.read()).split("\n"), ""]
        reason, *others = [line for line in lines if not line.startswith("rrdi: line ")]
        status = self.process.wait()
        begin = f"rrdi: {self.argument}: "  # of the line that says why
        why = "".join(f": {line[len(begin):]}" for line in others[:1] if line.startswith(begin))
        if reason or status:
            raise CommandFailed(reason.replace(ERROR, "", 1) + why or f"{program_path()} ended with status {status}")


def has_room(pipe: int, size: int) -> bool:
    """Checks whether an empty pipe takes so many bytes by one write, and makes it larger if need be."""
    if size <= ATOMIC:
        return True
    try:
        return size <= fcntl.fcntl(pipe, PIPE_SIZE) or size <= fcntl.fcntl(pipe, SET_PIPE_SIZE, size)
    except OSError:
        return False


class HeldFile:
    """A locked file with its bytes. `tried` runs lines on a copy of any bytes."""

    def __init__(self, path: str, session: Session, identity: Identity, data: bytes, tried: Trial):
        self.path, self.session, self.identity, self.data, self.tried = path, session, identity, data, tried

    def check_same(self) -> None:
        """Checks that the locked file has the bytes that were read, as far as its settings and last values tell.

        # Errors
        `Failure` if they differ.
        """
        if any(self.session.ask(name) != self.tried(self.data, [name]).output for name in ("info", "lastupdate")):
            raise NotOpened(f"{self.path}: another file took the name while it was opened; nothing was changed")

    def store(self, lines: List[str]) -> None:
        """Stores a change.

        # Errors
        `PartlyStored` if only a part was stored, and `NotStored` if it could not be written, or if the file has lost its name
        meanwhile.
        """
        try:
            self.session.store(lines)
        except PartlyStored as failed:
            raise PartlyStored(failed.of_file(self.path)) from None
        except CommandFailed as failed:
            raise NotStored(failed.of_file(self.path)) from None
        if identity_at(as_bytes(self.path)) != self.identity:
            raise NotStored(f"{self.path}: another file took the name meanwhile; the file that had it before is changed")


@contextmanager
def held(path: str) -> Iterator[HeldFile]:
    """Opens and locks a database, and reads it under this lock.

    # Errors
    `Failure` if the file cannot be opened, locked or read, is not a database, or loses its name each time.
    """
    session, file = opened(path)
    try:
        library = chosen_library()
        tried = by_library(library) if library is not None else by_program(program_path())
        data = settled(read_all(file, path))
        if data.startswith(OLD_VERSION):
            raise Failure(f"{path}: the layout is that of rrdi 0.1, whose old samples stay as they are; the next update "
                          "makes it new")
        found = HeldFile(path, session, identity_of(os.fstat(file.fileno())), data, tried)
        found.check_same()
        yield found
    finally:
        session.end()
        file.close()


def read_all(file: FileIO, path: str) -> bytes:
    """Returns the bytes of an open file.

    # Errors
    `Failure` if it cannot be read.
    """
    with reporting(path):
        return file.readall()


def opened(path: str) -> "tuple[Session, FileIO]":
    """Returns a locked file, and the same file to read it."""
    for _ in range(TRIES):
        before = identity_of_file(path)
        session = session_at(path)
        try:
            file = read_by(session, path, before)
        except BaseException:
            session.end()
            raise
        if file is not None:
            return session, file
        session.end()
    if not os.access(path, os.W_OK):  # the program takes a lock for readers then
        raise Failure(f"{path}: cannot write: this user may not")
    raise NotOpened(f"{path}: another program keeps replacing the file, or the locks of its file system do not hold")


def identity_of_file(path: str) -> Identity:
    """Returns which file has a name.

    # Errors
    `Failure` if none has, or it is none that rrdi opens.
    """
    with reporting(path), open_regular(path, milliseconds(None) / 1_000) as file:
        return identity_of(os.fstat(file.fileno()))


def session_at(path: str) -> Session:
    """Opens and locks a file, by the program if there is one: the library shares the lock between two calls, and if somebody
    reads at the moment when the change is to be stored, it lets go of the file, and another program may come first.

    # Errors
    `Failure` if it cannot be opened or locked, or is not a database.
    """
    library = None if shutil.which(program_path()) else chosen_library()
    try:
        if library is not None:
            return LibrarySession(library, path)
        session = ProgramSession(path)
        try:
            session.ask("info")
        except BaseException:
            session.end()
            raise
        return session
    except CommandFailed as failed:
        if str(failed) == "cannot open" and failed.system_error in NO_LOCKS:
            raise Failure(f"{path}: {NO_LOCK}") from None
        raise (NotOpened if str(failed).startswith(MAY_PASS) else Failure)(failed.of_file(path)) from None


def read_by(session: Session, path: str, before: Identity) -> Optional[FileIO]:
    """Opens for reading the file that a session has locked; None if another file has taken the name."""
    try:
        file = open_regular(path)
    except FileNotFoundError:
        return None
    except OSError as error:
        raise Failure(f"{path}: {error.strerror or error_text(error)}") from None
    try:
        is_same = identity_of(os.fstat(file.fileno())) == before == identity_at(as_bytes(path))
        if is_same and is_locked(file, path):
            return file
    except BaseException:
        file.close()
        raise
    close(file)
    return None


def is_locked(file: FileIO, path: str) -> bool:
    """Checks whether a file is locked by somebody who opened it otherwise: that is the session, whose lock may be shared.

    # Errors
    `Failure` if the file system has no locks.
    """
    error = flock(file, EXCLUSIVE | fcntl.LOCK_NB)
    if error in NO_LOCKS:
        raise Failure(f"{path}: {NO_LOCK}")
    return error in LOCKED
