# SPDX-License-Identifier: MIT OR Apache-2.0
"""Tests of rrdi-export with many files and in place, beside files that rrdtool itself has made, and with kills and failing
calls."""
from __future__ import annotations

import os
import pwd
import re
import select
import shutil
import subprocess
import sys
import time
import unittest
from pathlib import Path
from typing import Any, Callable, Dict, List, Set, Tuple
from unittest import mock

import graphite_doubles as graphite
from cases import HANG, DataCase, needs_program
from doubles import PROGRAM, TOP
from tool_case import NO_RRDTOOL, RRDTOOL, Ran, ToolCase

from rrdi.making import NewFile
from rrdi.tools import children, conversion, export_many, restoring, rrdtool_program
from rrdi.tools.children import ChildAnswer, answers
from rrdi.tools.command_line import Failure
from rrdi.tools.export_many import make_new, swap_in_place

USAGE = ("FILE.rrdi [NEW.rrd]\n       rrdi-export --whisper FILE.rrdi NEW.wsp\n"
         "       rrdi-export [--whisper] [--jobs N] --into DIRECTORY|--in-place FILE|TREE..")
DEFINITIONS = ("DS:g:GAUGE:600:-40:U", "DS:c:DERIVE:600:0:U", "RRA:AVERAGE:0.5:1:20", "RRA:MAX:0.25:3:10")
START, STEP = 1_700_000_100, 300
HAS_STRACE = shutil.which("strace") is not None


class Words(ToolCase):
    def test_usage(self) -> None:
        self.check_usage("rrdi-export", USAGE, [[], ["a", "b", "c"]])

    def test_nothing_to_convert(self) -> None:
        (self.folder / "tree").mkdir()
        self.write("tree/a.rrdi", "")
        self.assertEqual(self.tool("rrdi-export", "--in-place", "tree").err,
                         "rrdi-export: tree: no file below it has a name that ends in .rrd\n")
        self.assertEqual(self.tool("rrdi-export", "--into", "new", "tree/a.rrdi", env={"PATH": "/nowhere"}).err,
                         "rrdi-export: rrdtool is not installed (Debian: apt install rrdtool)\n")


class NewFiles(ToolCase):
    def test_a_name_that_is_taken(self) -> None:
        """Nothing is converted for it."""
        path, fill = self.write("new.rrd", "another's"), mock.Mock()
        with self.assertRaisesRegex(Failure, f"^{path} already exists$"):
            make_new(path, fill)
        self.assertEqual((self.read("new.rrd"), fill.call_count), (b"another's", 0))

    def test_a_name_that_is_taken_meanwhile(self) -> None:
        """The file of the other program stays, and nothing else."""
        path = self.folder / "new.rrd"

        def fill(unfinished: str) -> None:
            Path(unfinished).write_text("mine")
            path.write_text("another's")
        before = os.listdir(self.folder)
        with self.assertRaisesRegex(Failure, f"^{path} already exists$"):
            make_new(str(path), fill)
        self.assertEqual((path.read_text(), sorted(os.listdir(self.folder))), ("another's", sorted([*before, "new.rrd"])))

    def test_a_failure_names_the_file(self) -> None:
        """By its own name, which rrdtool does not know."""
        path, reason = str(self.folder / "new.rrd"), "a file error occurred while creating '{}': No space left on device"
        broken = self.stub("rrdtool-broken", f"cat >/dev/null; echo \"ERROR: {reason.format('-')}\" >&2; exit 1")

        def fill(unfinished: str) -> None:
            with mock.patch.object(rrdtool_program, "found", lambda: broken):
                restoring.restore(["<rrd/>"], unfinished, lambda count: None)
        with self.assertRaisesRegex(Failure, f"^ERROR: {reason.format(path)}$"):
            make_new(path, fill)
        with NewFile(path) as made, self.assertRaisesRegex(Failure, f"^ERROR: {reason.format(path)}$"):
            conversion.fill_new(made, fill)

    def test_what_is_on_the_disk_and_when(self) -> None:
        """The new file, before it has its name, and then the name in its folder."""
        path = self.folder / "new.rrd"
        flushed: List[Tuple[str, bool]] = []

        def fill(unfinished: str) -> None:
            Path(unfinished).write_text("mine")

        def fsync(number: int) -> None:
            flushed.append(("folder" if os.path.isdir(number) else os.pread(number, 9, 0).decode(), path.exists()))
        with mock.patch("os.fsync", fsync):
            make_new(str(path), fill)
        self.assertEqual(flushed, [("mine", False), ("folder", True)])


class InPlace(DataCase):
    """What becomes of one database; RRDtool's file is given."""

    def setUp(self) -> None:
        super().setUp()
        self.path = self.folder / "f.rrd"
        self.path.write_bytes(graphite.file_bytes(1_000_000_000, ("a", "b"), [(1, 6, {}), (6, 5, {}), (12, 4, {})]))
        self.path.chmod(0o640)
        self.data = self.path.read_bytes()

    def swap(self, fill: Callable[[], object] = lambda: None) -> str:
        def restore(database: Dict[str, Any], new: str) -> None:
            self.assertEqual((len(database["sources"]), Path(os.path.realpath(new)).parent), (2, Path(os.path.realpath(self.folder))))
            self.assertEqual(os.stat(new).st_mode & 0o7777, 0o600)  # nobody else reads it before it has the mode of the old one
            Path(new).write_text("RRD")
            fill()
        before = sorted(os.listdir("/proc/self/fd"))
        try:
            with mock.patch.object(export_many, "restore_equal", restore):
                return export_many.swap_in_place(str(self.path))
        finally:
            self.assertEqual(sorted(os.listdir("/proc/self/fd")), before)

    def test_the_new_file(self) -> None:
        """It has the mode of the database, which has its other name; what is written is on the disk; and nothing stays open."""
        flushed: List[str] = []
        with mock.patch.object(os, "fsync", lambda file: flushed.append(os.readlink(f"/proc/self/fd/{file}"))):
            self.assertEqual(self.swap(), f"converted, the database is {self.path}.rrdi (2 data sources, 3 archives)")
        self.assertEqual((self.path.read_text(), self.path.stat().st_mode & 0o777, Path(f"{self.path}.rrdi").read_bytes()), ("RRD", 0o640, self.data))
        self.assertEqual((flushed[0].startswith(f"{self.folder}/.rrdi-"), flushed[1:], self.files()), (True, [str(self.folder)], ["data/f.rrd", "data/f.rrd.rrdi"]))

    def test_a_link_that_is_there_for_a_moment(self) -> None:
        """Whoever may write the folder may put it there: what it leads to stays as it is."""
        victim, away, before = self.folder / "victim", self.folder / "away", os.stat(self.path)
        victim.write_text("victim")
        self.path.rename(away)
        self.path.symlink_to(victim)

        def fill(new: str) -> None:
            Path(new).write_text("RRD")
            away.replace(self.path)
        conversion.swap_in(str(self.path), f"{self.path}.rrdi", before, fill)
        self.assertEqual((victim.read_text(), self.path.read_text(), Path(f"{self.path}.rrdi").read_bytes()), ("victim", "RRD", self.data))

    def test_other_names(self) -> None:
        for count, text in ((1, "1 other name of the database still has it"), (2, "2 other names of the database still have it")):
            self.path.unlink()
            self.path.write_bytes(self.data)
            for number in range(count):
                os.link(self.path, f"{self.path}.{count}{number}")
            self.assertTrue(self.swap().endswith(f"; {text}"))
            Path(f"{self.path}.rrdi").unlink()

    def test_what_is_refused(self) -> None:
        """The database stays as it is."""
        def taken() -> None:
            Path(f"{self.path}.rrdi").write_text("another's")
        for act, text in ((lambda: os.utime(self.path, (1, 1)), "it changed while it was converted; first stop what records into it"), (taken, f"{self.path}.rrdi already exists")):
            with self.assertRaisesRegex(Failure, f"^{text}$"):
                self.swap(act)
            self.assertEqual(self.path.read_bytes(), self.data)
        Path(f"{self.path}.rrdi").unlink()
        with mock.patch.object(conversion, "is_left_over", return_value=False), self.assertRaisesRegex(Failure, f"^{text}$"):
            self.swap(taken)  # that name is taken at the last moment
        self.assertEqual((self.files(), Path(f"{self.path}.rrdi").read_text()), (["data/f.rrd", "data/f.rrd.rrdi"], "another's"))
        with self.assertRaisesRegex(Failure, "^a file whose name ends in .rrdi is converted with --into$"):
            export_many.swap_in_place(f"{self.path}.rrdi")


class Children(unittest.TestCase):
    def test_a_process_that_is_killed_while_it_waits(self) -> None:
        """The next thing has that answer; the run goes on."""
        several: children.Children[str] = children.Children(["a", "b"], lambda name: ChildAnswer(True, name), 1)
        self.addCleanup(several.end)
        self.assertEqual(several.answer_of(0), ChildAnswer(True, "a"))
        (child,) = several.running.values()
        os.kill(child.process, 9)
        os.waitid(os.P_PID, child.process, os.WEXITED | os.WNOWAIT)
        self.assertEqual(several.answer_of(1), ChildAnswer(False, "the process was ended by signal 9"))

    def test_answers(self) -> None:
        """They come in the order of the things, long ones too; a process that is killed has an answer."""
        def work(number: int) -> ChildAnswer:
            if number == 3:
                os.kill(os.getpid(), 9)
            if number == 4:
                raise ValueError
            return ChildAnswer(number != 2, f"{number}\udcff" * (99_999 if number == 1 else 1))
        for most in (1, 2, 9):
            found = list(answers(range(6), work, most))
            self.assertEqual([number for number, _ in found], list(range(6)))
            self.assertEqual([answer for _, answer in found], [
                ChildAnswer(True, "0\udcff"), ChildAnswer(True, "1\udcff" * 99_999), ChildAnswer(False, "2\udcff"),
                ChildAnswer(False, "the process was ended by signal 9"), ChildAnswer(False, "the process ended without an answer"),
                ChildAnswer(True, "5\udcff")])


    def test_few_processes(self) -> None:
        """If the system has no further process, those that run do it all; if it has none for the next thing, nothing is left
        undone that was answered."""
        def work(number: int) -> ChildAnswer:
            if number == 3:
                os.kill(os.getpid(), 9)
            return ChildAnswer(True, f"{number} {os.getpid()}")
        real = os.fork
        children: Set[int] = set()
        for forks, pids in (([True, False, False, False, True], 2), ([True, True, False, False], 2)):
            left = iter(forks)

            def fork() -> int:
                if not next(left, False):
                    raise BlockingIOError
                children.add(child := real())
                return child
            with mock.patch.object(os, "fork", fork):
                found = list(answers(range(3), work, 3))
                self.assertEqual([answer.text.split()[0] for _, answer in found], ["0", "1", "2"])
                self.assertLessEqual(len({answer.text.split()[1] for _, answer in found}), pids)
        left = iter([True])
        with mock.patch.object(os, "fork", fork):
            one = answers(range(5), work, 1)
            self.assertEqual([next(one)[1].is_done for _ in range(4)], [True, True, True, False])
            self.assertRaises(BlockingIOError, next, one)
        for child in children:
            self.assertRaises(ChildProcessError, os.waitpid, child, os.WNOHANG)

    def test_no_pipe_is_left_open(self) -> None:
        """If the system has no second pipe, or no process, the pipes that were opened are closed."""
        open_before, pipe = os.listdir("/proc/self/fd"), os.pipe
        for count in (0, 1, 2):
            left = iter(range(count))

            def next_pipe() -> Tuple[int, int]:
                if next(left, None) is None:
                    raise BlockingIOError
                return pipe()
            with mock.patch.object(os, "pipe", next_pipe), mock.patch.object(os, "fork", side_effect=BlockingIOError):
                with self.assertRaises(BlockingIOError):
                    list(answers([1], lambda number: ChildAnswer(True, ""), 1))
            self.assertEqual(os.listdir("/proc/self/fd"), open_before)

    def test_one_process_for_many(self) -> None:
        """There are no more processes than were asked for, each with many things, whichever take long; and none is left if the
        caller gives up, nor an open pipe."""
        done, is_done = os.pipe()
        self.addCleanup(os.close, done)
        self.addCleanup(os.close, is_done)

        def work(number: int) -> ChildAnswer:
            for _ in range(99 if number == 0 else 0):  # this one takes as long as all others together
                if not select.select([done], [], [], HANG)[0]:
                    break
                os.read(done, 1)
            os.write(is_done, b"." if number else b"")
            return ChildAnswer(True, str(os.getpid()))
        open_before = os.listdir("/proc/self/fd")
        found = [answer.text for _, answer in answers(range(100), work, 3)]
        self.assertEqual((len(set(found)), found.count(found[0])), (3, 1))
        real, children = os.fork, []  # type: Callable[[], int], List[int]

        def fork() -> int:
            children.append(real())
            return children[-1]
        with mock.patch.object(os, "fork", fork):
            given_up = answers(range(100), work, 3)
            next(given_up)
            given_up.close()  # type: ignore[attr-defined]
        self.assertEqual(len(children), 3)
        for child in children:
            self.assertRaises(ChildProcessError, os.waitpid, child, os.WNOHANG)
        self.assertEqual(os.listdir("/proc/self/fd"), open_before)
        self.assertEqual(list(answers([], work, 3)), [])


class OfTree(ToolCase):
    """A tree with two databases, and beside each a file that rrdtool has made of the same samples."""

    def setUp(self) -> None:
        super().setUp()
        (self.folder / "tree/sub").mkdir(parents=True)
        (self.folder / "wanted").mkdir()
        for number, name in enumerate(("a", "sub/b")):
            samples = [f"{START + 290 * at}:{20 + at % 7 / 4 + number}:{1000 * at + number}" for at in range(1, 30)]
            samples[9] = re.sub(":.*", ":U:U", samples[9])
            self.create(f"tree/{name}.rrd", *DEFINITIONS, start=START, step=STEP)
            self.rrdi("update", f"tree/{name}.rrd", *samples)
            wanted = f"wanted/{name[-1]}.rrd"
            self.rrdtool("create", wanted, "--start", str(START), "--step", str(STEP), *DEFINITIONS)
            self.rrdtool("update", wanted, *samples)

    def rrdtool(self, *words: str) -> str:
        return subprocess.run([str(RRDTOOL), *words], cwd=self.folder, check=True, capture_output=True, text=True).stdout

    def rows(self, name: str) -> List[float]:
        """Returns the times and the cells of both archives; an unknown cell is -1."""
        texts = [self.rrdtool("fetch", name, function, "-s", str(START - 600), "-e", str(START + 12_000), "-r", str(seconds))
                 for function, seconds in (("AVERAGE", STEP), ("MAX", 3 * STEP))]
        return [-1 if "nan" in word else float(word.rstrip(":")) for text in texts for word in text.split()[2:]]

    def same_rows(self, name: str, wanted: List[float]) -> None:
        """rrdi rounds each step to a millionth, so a row may be that much apart."""
        found = self.rows(name)
        self.assertEqual(len(found), len(wanted))
        self.assertEqual([pair for pair in zip(found, wanted) if abs(pair[0] - pair[1]) > 2e-6], [])

    def export(self, *words: str) -> "Tuple[int, List[str], List[str]]":
        ran = self.tool("rrdi-export", *words)
        return ran.status, ran.out.splitlines(), ran.err.splitlines()

    def unfinished(self) -> List[str]:
        return [path.name for path in self.folder.rglob(".rrdi*")]


@needs_program
@unittest.skipUnless(RRDTOOL, NO_RRDTOOL)
class Trees(OfTree):
    def test_in_place(self) -> None:
        before = self.read("tree/a.rrd")
        mine, other = self.folder / "tree/a.rrd", pwd.getpwnam("nobody")
        mine.chmod(0o640)
        if os.geteuid() == 0:
            os.chown(mine, other.pw_uid, other.pw_gid)
        found = mine.stat()
        status, lines, errors = self.export("--in-place", "tree")
        self.assertEqual((status, errors), (0, []))
        self.assertEqual(lines[0], f"tree/a.rrd: converted, the database is {mine}.rrdi (2 data sources, 2 archives)")
        self.assertEqual(lines[2], "2 files: 2 converted")
        now = mine.stat()
        self.assertEqual((now.st_mode, now.st_uid, now.st_gid), (found.st_mode, found.st_uid, found.st_gid))
        self.assertEqual(self.read("tree/a.rrd.rrdi"), before)
        for name, wanted in (("tree/a.rrd", "wanted/a.rrd"), ("tree/sub/b.rrd", "wanted/b.rrd")):
            self.same_rows(name, self.rows(wanted))
            for file in (name, wanted):  # and they go on with the same unfinished step and row
                self.rrdtool("update", file, f"{START + 9_000}:25:30000", f"{START + 9_300}:26:30100")
            self.same_rows(name, self.rows(wanted))
        self.assertEqual(self.export("--in-place", "tree"), (0, [
            "tree/a.rrd: is a file of RRDtool already", "tree/sub/b.rrd: is a file of RRDtool already",
            "2 files: 0 converted; 2 already of RRDtool"], []))
        self.assertEqual(self.unfinished(), [])

    def test_a_secret_database(self) -> None:
        """Nobody else can read the new file, not even before it has its name."""
        (self.folder / "tree/a.rrd").chmod(0o600)
        self.stub("rrdtool", f'{RRDTOOL} "$@"; status=$?; stat -c %a tree/.rrdi*.new >>modes; exit $status')
        self.assertEqual(self.export("--in-place", "tree/a.rrd")[0], 0)
        self.assertEqual(set(self.read("modes").split()), {b"600"})

    def test_without_standard_error(self) -> None:
        """As a daemon may start it: the work is done, and nothing but the lines is printed."""
        self.write("tree/text.rrd", "text")
        ran = self.run_command(["sh", "-c", f"{sys.executable} {TOP}/tools/rrdi-export --in-place tree 2>&-"])
        self.assertEqual((ran.status, ran.out.splitlines()[2:]), (1, ["3 files: 2 converted; 1 not converted"]))

    def test_into_a_directory(self) -> None:
        (self.folder / "tree/a.rrd").rename(self.folder / "tree/a.rrdi")
        os.symlink("sub", self.folder / "tree/link")
        for jobs in ("1", "3"):
            new = f"new{jobs}"
            self.assertEqual(self.export("--into", new, "--jobs", jobs, "tree"), (0, [
                f"tree/a.rrdi: {new}/a.rrd (2 data sources, 2 archives)",
                f"tree/sub/b.rrd: {new}/sub/b.rrd (2 data sources, 2 archives)",
                "2 files: 2 converted; 1 link passed over"], []))
            self.same_rows(f"{new}/a.rrd", self.rows("wanted/a.rrd"))
        self.assertEqual(self.tool("rrdi-export", "tree/a.rrdi", "one.rrd"), Ran(0, "", ""))
        self.same_rows("one.rrd", self.rows("wanted/a.rrd"))

    def test_again(self) -> None:
        """What is there already stays, and so does what is not equal: the line says by what."""
        for name in ("a", "b"):
            self.create(f"tree/{name}.rrdi", *DEFINITIONS, start=START, step=STEP)
            self.rrdi("update", f"tree/{name}.rrdi", f"{START + 900}:2.125:7")
        self.assertEqual(self.export("--into", "new", "tree")[1][-1], "4 files: 3 converted; 1 not converted")
        (self.folder / "new/b.rrd").unlink()
        self.rrdtool("update", "new/sub/b.rrd", f"{START + 9_300}:25:30000")
        before = {name: (self.read(name), os.stat(self.folder / name)) for name in ("new/a.rrd", "new/sub/b.rrd")}
        for jobs, counts in (("1", "1 converted; 1 there already"), ("3", "0 converted; 2 there already")):
            status, lines, errors = self.export("--jobs", jobs, "--into", "new", "tree")
            self.assertEqual((status, lines[-1]), (1, f"4 files: {counts}; 2 not converted"))
            self.assertEqual(errors, ["rrdi-export: tree/a.rrdi: not converted: new/a.rrd is made of tree/a.rrd",
                                      "rrdi-export: tree/sub/b.rrd: not converted: new/sub/b.rrd already exists, and is not equal: "
                                      "the step or the last time"])
            self.assertEqual(lines[0], "tree/a.rrd: new/a.rrd is there already (2 data sources, 2 archives)")
        self.assertEqual({name: (self.read(name), os.stat(self.folder / name)) for name in before}, before)
        self.write("new/b.rrd", "")
        self.assertEqual(self.export("--into", "new", "tree/b.rrdi"), (1, ["1 file: 0 converted; 1 not converted"], [
            "rrdi-export: tree/b.rrdi: not converted: new/b.rrd already exists, and is not equal: "
            + self.run_command([str(RRDTOOL), "dump", "new/b.rrd"]).err.strip()]))
        self.assertEqual((self.export("--into", "new", "tree/a.rrd")[0], self.unfinished()), (0, []))

    def test_two_exporters(self) -> None:
        """One is stopped between its two steps, and the other one can't put its file there meanwhile."""
        before, link, others = self.read("tree/a.rrd"), os.link, []

        def stopped(path: str, kept: str) -> None:
            link(path, kept)
            others.append(self.export("--in-place", "tree/a.rrd"))
            self.assertEqual(self.read("tree/a.rrd"), before)
        self.addCleanup(os.umask, os.umask(0o022))
        with mock.patch("os.link", stopped), mock.patch.dict(os.environ, self.env):
            swap_in_place(str(self.folder / "tree/a.rrd"))
        self.assertEqual(others, [(1, ["1 file: 0 converted; 1 not converted"], [
            "rrdi-export: tree/a.rrd: not converted: cannot open: another program holds its lock"])])
        self.same_rows("tree/a.rrd", self.rows("wanted/a.rrd"))
        self.assertEqual(self.read("tree/a.rrd.rrdi"), before)

    def test_hard_links_and_what_a_kill_has_left(self) -> None:
        os.link(self.folder / "tree/a.rrd", self.folder / "tree/c.rrd")
        left = self.folder / "tree/.rrdi-0123456789abcdef.new"
        left.write_text("")
        os.utime(left, (1_000_000_000, 1_000_000_000))
        status, lines, errors = self.export("--in-place", "tree", "--jobs", "1")
        removed = "tree/.rrdi-0123456789abcdef.new: removed, a run that was killed had left it"
        self.assertEqual((status, errors, lines[0]), (0, [], removed))
        described = ".rrdi (2 data sources, 2 archives)"
        self.assertTrue(lines[1].endswith(f"a.rrd{described}; 1 other name of the database still has it"), lines[1])
        self.assertTrue(lines[2].endswith(f"c.rrd{described}; 1 other name of the database still has it"), lines[2])
        self.assertFalse(left.exists() or (self.folder / "tree/a.rrd").samefile(self.folder / "tree/c.rrd"))

    def test_what_is_left(self) -> None:
        """A damaged file, one that is no database, and one whose other name is taken stay as they are, and have a reason."""
        self.write("tree/cut.rrd", self.read("tree/a.rrd")[:100])
        self.write("tree/text.rrd", "text")
        self.write("tree/a.rrd.rrdi", "other")
        before = {path: path.read_bytes() for path in (self.folder / "tree").glob("*.rrd*")}
        status, lines, errors = self.export("--in-place", "tree", "tree/none.rrd", "tree/a.rrd.rrdi")
        self.assertEqual((status, len(lines), lines[-1]), (1, 2, "6 files: 1 converted; 5 not converted"))
        self.assertEqual(errors, [
            f"rrdi-export: tree/a.rrd: not converted: {self.folder}/tree/a.rrd.rrdi already exists",
            "rrdi-export: tree/cut.rrd: not converted: file: truncated at 100",
            "rrdi-export: tree/text.rrd: not converted: file: not ours",
            f"rrdi-export: tree/none.rrd: not converted: {self.folder}/tree/none.rrd: No such file or directory",
            "rrdi-export: tree/a.rrd.rrdi: not converted: a file whose name ends in .rrdi is converted with --into"])
        self.assertEqual({path: path.read_bytes() for path in before}, before)
        self.assertEqual(self.unfinished(), [])

    def test_a_link_of_the_other_name(self) -> None:
        """It would soon lead to the new file, and the database would have no name."""
        before = self.read("tree/a.rrd")
        (self.folder / "tree/a.rrd.rrdi").symlink_to("a.rrd")
        self.assertEqual(self.export("--in-place", "tree/a.rrd"), (1, ["1 file: 0 converted; 1 not converted"], [
            f"rrdi-export: tree/a.rrd: not converted: {self.folder}/tree/a.rrd.rrdi already exists"]))
        self.assertEqual(self.read("tree/a.rrd"), before)

    def test_a_sample_that_comes_meanwhile(self) -> None:
        """rrdi waits for the lock, and then finds RRDtool's file: the sample is refused, and gets into no other file."""
        before, wanted = self.read("tree/a.rrd"), self.rows("wanted/a.rrd")
        self.stub("rrdtool", f'touch reading; sleep 1; exec {RRDTOOL} "$@"')
        with subprocess.Popen([str(TOP / "tools/rrdi-export"), "--in-place", "tree/a.rrd"], cwd=self.folder, env=self.env,
                              stdout=subprocess.DEVNULL) as running:
            while not (self.folder / "reading").exists() and running.poll() is None:
                time.sleep(0.02)
            ran = self.run_command([str(PROGRAM), "update", "tree/a.rrd", f"{START + 9_000}:1:1"], env={"RRDI_WAIT": "60"})
        self.assertEqual((running.returncode, ran.status, ran.err.splitlines()[0]), (0, 1, "ERROR: file: not ours"))
        self.assertEqual(self.read("tree/a.rrd.rrdi"), before)
        self.same_rows("tree/a.rrd", wanted)

    def test_what_rrdtool_makes_of_it(self) -> None:
        """If rrdtool fails, or does not give back what it got, the database stays."""
        before, unequal = self.read("tree/a.rrd"), "what rrdtool restored is not equal: "
        for case, why in (
                ("restore) echo 'ERROR: no space' >&2; exit 1", "ERROR: no space"),
                ("restore) kill -9 $PPID", "the process was ended by signal 9"),
                ("restore) echo text >$3", "what rrdtool restored cannot be read back: ERROR: "),
                ("restore) sed 's/<step>300/<step>301/' | $real restore - $3", f"{unequal}the step or the last time"),
                ("restore) sed 's/<v>21.[0-9]*/<v>21.1/' | $real restore - $3", f"{unequal}archive 0"),
                ("restore) sed 's/<xff>0.25/<xff>0.5/' | $real restore - $3", f"{unequal}archive 1"),
                ("restore) sed 's/<unknown_datapoints>0/<unknown_datapoints>1/' | $real restore - $3", f"{unequal}archive "),
                ("restore) sed '0,/<row>/{/<row>/d}' | $real restore - $3", f"{unequal}archive 0"),
                ("restore) sed '/MAX/,/<.rra>/d' | $real restore - $3", f"{unequal}the number of data sources or archives"),
                ("restore) sed 's/<type>GAUGE/<type>COUNTER/' | $real restore - $3", f"{unequal}the data source g"),
                ("restore) sed 's/<last_ds>29000/<last_ds>2900/' | $real restore - $3", f"{unequal}the data source c"),
                ("restore) touch -d 2001-01-01 tree/a.rrd; $real restore - $3",
                 "it changed while it was converted; first stop what records into it"),
                ("restore) echo x >>tree/a.rrd.rrdi; $real restore - $3", "{}/tree/a.rrd.rrdi already exists")):
            self.stub("rrdtool", f'real={RRDTOOL}; case $1 in {case} ;; *) exec $real "$@" ;; esac')
            ran = self.export("--in-place", "tree/a.rrd")
            if "already" not in why:
                said = f"rrdi-export: tree/a.rrd: not converted: {why}"
                self.assertEqual([line[:len(said)] for line in ran[2]], [said])
                self.assertEqual(sorted(os.listdir(self.folder / "tree")), ["a.rrd", "sub"] if "signal" not in why else
                                 sorted(["a.rrd", "sub", *self.unfinished()]))
            self.assertEqual(self.read("tree/a.rrd"), before)
            for left in self.unfinished():
                (self.folder / "tree" / left).unlink()


@needs_program
@unittest.skipUnless(RRDTOOL, NO_RRDTOOL)
@unittest.skipUnless(HAS_STRACE, "strace is not installed")
class Disturbed(OfTree):
    """Each call that changes a name, an owner or a mode, or waits for the disk, fails or is the last one."""

    CALLS = ("fsync", "link,linkat", "rename,renameat,renameat2", "fchmod", "unlink,unlinkat", "fchown")

    def disturbed(self, call: str, what: str, when: int) -> int:
        """Runs rrdi-export with a call that fails, or kills the process, and returns the status."""
        return subprocess.run(["strace", "-f", "--seccomp-bpf", "-qq", "-o", "/dev/null", "-e", f"trace={call}", "-e",
                               f"inject={call}:{what}:when={when}", str(TOP / "tools/rrdi-export"), "--in-place", "tree/a.rrd"],
                              cwd=self.folder, env=self.env, capture_output=True, timeout=HANG).returncode

    def is_whole(self, before: bytes, wanted: List[float]) -> None:
        """The database is there by one of its names, and what has its name is the database or the new file, whole."""
        at, kept = self.read("tree/a.rrd"), self.folder / "tree/a.rrd.rrdi"
        if at != before:
            self.assertEqual(kept.read_bytes(), before)
            self.same_rows("tree/a.rrd", wanted)

    def test_each_call(self) -> None:
        wanted, before = self.rows("wanted/a.rrd"), self.read("tree/a.rrd")
        ends, failed = set(), set()
        if os.geteuid() == 0:
            os.chown(self.folder / "tree/a.rrd", 65_534, 65_534)
        kept = self.folder / "tree/a.rrd.rrdi"
        for call in self.CALLS:
            for what in ("error=EIO", "error=ENOSPC", "signal=KILL"):
                for when in (1, 2) if call == "fsync" else (1,):
                    status = self.disturbed(call, what, when)
                    self.is_whole(before, wanted)
                    failed.update([call] if status else [])
                    ends.add(self.read("tree/a.rrd") == before)
                    self.assertEqual(self.export("--in-place", "tree/a.rrd")[0], 0, (call, what, when))
                    self.assertEqual(kept.read_bytes(), before, (call, what, when))
                    self.same_rows("tree/a.rrd", wanted)
                    kept.replace(self.folder / "tree/a.rrd")
                    for left in Path(self.folder, "tree").glob(".rrdi*"):
                        left.unlink()
        self.assertEqual((ends, failed), ({True, False}, set(self.CALLS) - (set() if os.geteuid() == 0 else {self.CALLS[-1]})))


if __name__ == "__main__":
    unittest.main()
