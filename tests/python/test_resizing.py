# SPDX-License-Identifier: MIT OR Apache-2.0
"""Tests of RRDtool's resize, which writes resize.rrd: by rrdi-rrdtool, by rrdtool-words, and by rrdi.compat.rrdtool."""
from __future__ import annotations

import errno
import fcntl
import os
import threading
import unittest
from unittest import mock

from cases import new_folder
from doubles import TOP
from tool_case import ToolCase

from rrdi import environment
from rrdi.compat import rrdtool
from rrdi.compat.resizing import resize_copy
from rrdi.errors import OperationalError


class Copies(unittest.TestCase):
    def setUp(self) -> None:
        self.addCleanup(os.chdir, os.getcwd())
        self.folder = new_folder(self)
        os.chdir(self.folder)
        (self.folder / "f.rrd").write_bytes(b"12345")

    def names(self) -> "list[str]":
        return sorted(path.name for path in self.folder.iterdir())

    def test_a_copy(self) -> None:
        def resize(copy: str) -> None:
            self.assertNotIn(copy, ("f.rrd", "resize.rrd"))
            with open(copy, "ab") as file:
                file.write(b"67")

        resize_copy("f.rrd", resize)
        self.assertEqual((self.names(), (self.folder / "resize.rrd").read_bytes()), (["f.rrd", "resize.rrd"], b"1234567"))
        resize_copy("resize.rrd", resize)
        self.assertEqual((self.folder / "resize.rrd").read_bytes(), b"123456767")

    def test_a_refused_one_leaves_nothing(self) -> None:
        (self.folder / "resize.rrd").write_bytes(b"old")
        with mock.patch("os.replace", side_effect=ValueError("no")):
            for _ in range(2):  # there is an older copy, or none
                with self.assertRaisesRegex(ValueError, "no"):
                    resize_copy("f.rrd", len)
                self.assertEqual(self.names(), ["f.rrd"])

    def test_a_file_of_that_name_stays_if_it_is_refused(self) -> None:
        (self.folder / "resize.rrd").write_bytes(b"mine")
        os.symlink("resize.rrd", "link.rrd")
        for path in ("resize.rrd", "./resize.rrd", str(self.folder / "resize.rrd"), "link.rrd"):
            with self.subTest(path=path), mock.patch("os.replace", side_effect=ValueError("no")):
                self.assertRaisesRegex(ValueError, "no", resize_copy, path, len)
                self.assertEqual((self.names(), (self.folder / "resize.rrd").read_bytes()),
                                 (["f.rrd", "link.rrd", "resize.rrd"], b"mine"))

    def test_a_file_of_that_name_stays_if_the_system_does_not_say_so(self) -> None:
        (self.folder / "resize.rrd").write_bytes(b"mine")

        def fail(_copy: str) -> None:
            patch.start()
            raise ValueError("no")
        patch = mock.patch("os.lstat", side_effect=OSError(errno.EIO, "Input/output error"))
        self.addCleanup(mock.patch.stopall)
        self.assertRaisesRegex(ValueError, "no", resize_copy, "resize.rrd", fail)
        with self.assertRaises(OSError) as raised:
            resize_copy("resize.rrd", len)
        self.assertEqual((raised.exception.filename, (self.folder / "resize.rrd").read_bytes()), ("resize.rrd", b"mine"))

    def test_a_link_of_that_name_goes_if_it_is_refused(self) -> None:
        os.symlink("f.rrd", "resize.rrd")
        with mock.patch("os.replace", side_effect=ValueError("no")):
            self.assertRaisesRegex(ValueError, "no", resize_copy, "f.rrd", len)
        self.assertEqual((self.names(), (self.folder / "f.rrd").read_bytes()), (["f.rrd"], b"12345"))

    def test_what_cannot_be_read(self) -> None:
        with self.assertRaises(OSError) as raised:
            resize_copy("none.rrd", len)
        self.assertEqual((raised.exception.filename, raised.exception.strerror), ("none.rrd", "No such file or directory"))

    def test_an_older_one_goes_if_the_file_cannot_be_read(self) -> None:
        """A script that goes on would move it to the place of the file. A name that is none costs nothing."""
        for path, left in (("f.rrd", ["f.rrd"]), ("none.rrd", ["f.rrd", "resize.rrd"])):
            (self.folder / "resize.rrd").write_bytes(b"old")
            with open("f.rrd", "r+b") as held, mock.patch.object(environment, "WAIT", 0):
                fcntl.flock(held, fcntl.LOCK_EX)
                self.assertRaises(OSError, resize_copy, path, len)
            self.assertEqual(self.names(), left, path)

    def test_it_waits_for_a_change(self) -> None:
        """The copy is of the file after the change that holds the lock."""
        with mock.patch.object(environment, "WAIT", 20_000), open("f.rrd", "r+b") as held:
            fcntl.flock(held, fcntl.LOCK_EX)

            def end() -> None:
                held.write(b"later")
                held.flush()
                fcntl.flock(held, fcntl.LOCK_UN)

            timer = threading.Timer(0.3, end)
            timer.start()
            resize_copy("f.rrd", len)
            timer.join()
        self.assertEqual((self.folder / "resize.rrd").read_bytes(), b"later")


class Locked(ToolCase):
    """Another program holds the lock of the file for longer than RRDI_WAIT."""

    def test_it_is_refused(self) -> None:
        self.write("f.rrd", b"RRDI" + bytes(600))
        resize = ["resize", "f.rrd", "0", "GROW", "5"]
        with open(self.folder / "f.rrd", "ab") as held:
            fcntl.flock(held, fcntl.LOCK_EX)
            for command in ("tools/rrdi-rrdtool", "examples/rrdtool-words"):
                ran = self.run_command([str(TOP / command), *resize])
                self.assertEqual((ran.status, ran.out), (1, ""))
                self.assertIn("another program holds its lock", ran.err)
            self.addCleanup(os.chdir, os.getcwd())
            os.chdir(self.folder)
            with mock.patch.object(environment, "WAIT", 0), self.assertRaises(OperationalError) as raised:
                rrdtool.resize(*resize[1:])
        self.assertEqual(str(raised.exception), "f.rrd: cannot open: another program holds its lock")
        self.assertFalse((self.folder / "resize.rrd").exists())
