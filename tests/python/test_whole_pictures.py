# SPDX-License-Identifier: MIT OR Apache-2.0
"""Tests of how pictures get their places: whole, or not at all. A full disk is a limit on the size of files."""
from __future__ import annotations

import errno
import os
import resource
import subprocess
import sys
import threading
import time
import unittest
from contextlib import contextmanager
from pathlib import Path
from typing import Iterator, List, Tuple
from unittest import mock

from cases import new_folder
from doubles import TOP

from rrdi.tools.command_line import Failure
from rrdi.tools.pictures import drawn, put_picture


@contextmanager
def limited(size: int) -> Iterator[None]:
    """Lets this process write so many bytes to a file at most."""
    limits = resource.getrlimit(resource.RLIMIT_FSIZE)
    resource.setrlimit(resource.RLIMIT_FSIZE, (size, limits[1]))
    try:
        yield
    finally:
        resource.setrlimit(resource.RLIMIT_FSIZE, limits)


class PictureCase(unittest.TestCase):
    def setUp(self) -> None:
        self.folder = new_folder(self)
        self.path = self.folder / "p.png"

    def names(self) -> List[str]:
        return sorted(path.name for path in self.folder.iterdir())


class Placed(PictureCase):
    def test_a_new_picture(self) -> None:
        mask = os.umask(0o027)
        self.addCleanup(os.umask, mask)
        put_picture(str(self.path), b"new")
        self.assertEqual((self.path.read_bytes(), self.path.stat().st_mode & 0o777, self.names()), (b"new", 0o640, ["p.png"]))

    def test_a_picture_from_before(self) -> None:
        """The new one has its owner and its mode, and another file, so that who reads the old one reads it to its end."""
        self.path.write_bytes(b"before")
        self.path.chmod(0o604)
        if os.getuid() == 0:
            os.chown(self.path, 12, 34)
        before = self.path.stat()
        put_picture(str(self.path), b"new")
        after = self.path.stat()
        self.assertEqual((self.path.read_bytes(), after.st_mode, after.st_uid, after.st_gid),
                         (b"new", before.st_mode, before.st_uid, before.st_gid))
        self.assertEqual((after.st_ino == before.st_ino, self.names()), (False, ["p.png"]))

    def test_a_database_stays(self) -> None:
        for name, mark in (("p.png", b"RRDI"), ("p.png", b"RRDC"), ("p.png", b"RRDL"), ("p.png", b"RRD\0"), ("p.wsp", b"\0\0\0\1")):
            path = self.folder / name
            path.write_bytes(mark + bytes(600))
            with self.subTest(mark=mark), self.assertRaises(FileExistsError) as raised:
                put_picture(str(path), b"new")
            self.assertEqual((raised.exception.filename, path.read_bytes()), (str(path), mark + bytes(600)))
        self.assertEqual(self.names(), ["p.png", "p.wsp"])

    def test_a_database_where_rrdtool_itself_draws(self) -> None:
        """RRDtool takes the first word that belongs to no option, wherever it is, and what is open by a number."""
        self.path.write_bytes(b"RRDI" + bytes(600))
        path = str(self.path)
        with open(path, "r+b") as file:
            for words in (["-w", "100", path, "DEF:a=b:c:MAX"], ["--", path], [f"/dev/fd/{file.fileno()}", "-w", "100"]):
                with self.subTest(words=words), self.assertRaises(FileExistsError), drawn(words):
                    self.fail("it is drawn")
        with drawn(["-", "--title", path]) as canvas:
            self.assertEqual(canvas.words, ["-", "--title", path])
        with drawn(["-w", "100", f"{path}.png"]) as canvas:
            self.assertEqual(canvas.words, ["-w", "100", f"{path}.png"])

    def test_a_full_disk(self) -> None:
        for before in (b"before", None):
            if before is not None:
                self.path.write_bytes(before)
            with limited(1_000), self.assertRaises(OSError) as raised:
                put_picture(str(self.path), bytes(2_000))
            self.assertEqual((raised.exception.errno, raised.exception.filename), (errno.EFBIG, str(self.path)))
            self.assertEqual(self.names(), [] if before is None else ["p.png"])
            if before is not None:
                self.assertEqual(self.path.read_bytes(), before)
                self.path.unlink()

    def test_links(self) -> None:
        """A link stays one, also to a missing file."""
        (self.folder / "sub").mkdir()
        self.path.symlink_to("sub/there.png")
        for data in (b"first", b"second"):
            put_picture(str(self.path), data)
            self.assertTrue(self.path.is_symlink())
            self.assertEqual((self.folder / "sub/there.png").read_bytes(), data)
        self.assertEqual(os.listdir(self.folder / "sub"), ["there.png"])

    def test_what_may_not_be_replaced(self) -> None:
        """It is written in place: in a folder of others, or where a file is mounted."""
        self.path.write_bytes(b"before")
        inode = self.path.stat().st_ino
        for number in (errno.EACCES, errno.EPERM, errno.EBUSY):
            error = OSError(number, os.strerror(number))
            with mock.patch("os.rename", side_effect=error):
                put_picture(str(self.path), b"new %d" % number)
            self.assertEqual((self.path.read_bytes(), self.path.stat().st_ino), (b"new %d" % number, inode))
            with mock.patch("os.rename", side_effect=error), self.assertRaises(OSError):
                put_picture(str(self.folder / "other.png"), b"new")
        with mock.patch("os.rename", side_effect=OSError(errno.ENOSPC, "")), self.assertRaises(OSError):
            put_picture(str(self.path), b"more")
        self.assertEqual(self.path.read_bytes(), b"new %d" % errno.EBUSY)
        with mock.patch("os.access", lambda path, mode: mode != os.W_OK):  # the picture is only to be read
            put_picture(str(self.path), b"in place")
        self.assertEqual((self.path.read_bytes(), self.path.stat().st_ino, self.names()), (b"in place", inode, ["p.png"]))

    def test_what_is_no_file(self) -> None:
        """A FIFO and a device are written in place, and so is an open file by the name of its number."""
        pipe, got = self.folder / "pipe.png", []  # type: Tuple[Path, List[bytes]]
        os.mkfifo(pipe)
        reader = threading.Thread(target=lambda: got.append(pipe.read_bytes()))
        reader.start()
        put_picture(str(pipe), b"drawn")
        reader.join()
        self.assertEqual((got, pipe.is_fifo()), ([b"drawn"], True))
        with self.assertRaisesRegex(OSError, "No space left on device"):
            put_picture("/dev/full", b"drawn")
        put_picture("/dev/null", b"drawn")
        self.assertTrue(Path("/dev/null").is_char_device())
        (self.folder / "out.png").symlink_to("/dev/stdout")
        for name in ("/dev/stdout", "/dev/fd/1", "/proc/self/fd/1", str(self.folder / "out.png")):
            self.path.write_bytes(b"")
            inode = self.path.stat().st_ino
            with open(self.path, "wb") as out:
                subprocess.run([sys.executable, "-c", "import sys; from rrdi.tools.pictures import put_picture; "
                                "put_picture(sys.argv[1], b'drawn')", name], stdout=out, check=True,
                               env={**os.environ, "PYTHONPATH": str(TOP / "python")})
            self.assertEqual((self.path.read_bytes(), self.path.stat().st_ino), (b"drawn", inode), name)


class Drawn(PictureCase):
    """What RRDtool's grapher draws: here a write to the name that it gets."""

    def draw(self, words: List[str], data: bytes = b"new") -> str:
        with drawn(words) as canvas:
            canvas.has_size = bool(data)
            if data:
                Path(canvas.words[0]).write_bytes(data)
            self.assertEqual(canvas.words[1:], words[1:])
            return canvas.words[0]

    def test_in_memory(self) -> None:
        for before in (False, True):
            name = self.draw([str(self.path), "LINE1:a"], b"drawn %d" % before)
            self.assertNotEqual(name, str(self.path))
            self.assertEqual((self.path.read_bytes(), self.names()), (b"drawn %d" % before, ["p.png"]))
        self.draw([str(self.path)], b"")  # nothing is drawn
        self.assertEqual(self.path.read_bytes(), b"drawn 1")

    def test_a_picture_that_is_cut(self) -> None:
        """RRDtool does not say that it is: by a limit on the size of files, or since a file for the moment had no space."""
        self.path.write_bytes(b"before")
        for count, least in ((1_001, 1_000), (0, 0)):
            with limited(1_000), self.assertRaisesRegex(Failure, f"^RRDtool did not draw {self.path} to its end"):
                with drawn([str(self.path)]) as canvas:
                    canvas.has_size = True
                    with open(canvas.words[0], "wb", buffering=0) as file:
                        self.assertEqual(file.write(bytes(count)), least)
            self.assertEqual((self.path.read_bytes(), self.names()), (b"before", ["p.png"]))
        with limited(1_000):
            self.draw([str(self.path)], bytes(999))
        self.assertEqual(self.path.read_bytes(), bytes(999))

    def test_names_that_stay(self) -> None:
        """Standard output, options, and what is no file."""
        for name in ("-", "-s", "", "/dev/null"):
            with drawn([name, "x"]) as canvas:
                self.assertEqual(canvas.words, [name, "x"])
        with drawn([]) as canvas:
            self.assertEqual(canvas.words, [])

    def test_errors_name_the_picture(self) -> None:
        with self.assertRaisesRegex(Failure, f"^no '{self.path}'$"), drawn([str(self.path)]) as canvas:
            raise Failure(f"no '{canvas.words[0]}'")
        self.assertEqual(self.names(), [])

    def test_a_picture_that_need_not_be_drawn(self) -> None:
        """With --lazy RRDtool looks at the time and the bytes of the picture from before."""
        self.path.write_bytes(b"before")
        os.utime(self.path, ns=(5 * 10**9, 7 * 10**9 + 1))
        inode = self.path.stat().st_ino
        for option in ("--lazy", "-z", "-Ez"):
            with drawn([str(self.path), option]) as canvas:
                seen = os.stat(canvas.words[0])
                self.assertEqual((seen.st_mtime_ns, Path(canvas.words[0]).read_bytes()), (7 * 10**9 + 1, b"before"))
            self.assertEqual((self.path.stat().st_ino, self.path.stat().st_mtime_ns), (inode, 7 * 10**9 + 1))
        for option in ("--title=z", "-", "z"):
            with drawn([str(self.path), option]) as canvas:
                self.assertEqual(Path(canvas.words[0]).read_bytes(), b"")
        self.draw([str(self.path), "--lazy"], b"BEFORE")
        self.assertEqual((self.path.read_bytes(), time.time() - self.path.stat().st_mtime < 600), (b"BEFORE", True))
        self.path.unlink()
        for _ in range(2):  # there is none, or an empty one, which a full disk may have left
            with drawn([str(self.path), "--lazy"]) as canvas:
                self.assertEqual((Path(canvas.words[0]).read_bytes(), os.stat(canvas.words[0]).st_mtime), (b"", 0))
            self.path.touch()

    def test_the_name_in_a_text(self) -> None:
        """--imginfo may print the last part of the name."""
        for option in ("--imginfo", "--imginfo=%s", "-f"):
            name = self.draw([str(self.path), option], option.encode())
            self.assertEqual((os.path.basename(name), os.path.exists(name), self.path.read_bytes()), ("p.png", False, option.encode()))
