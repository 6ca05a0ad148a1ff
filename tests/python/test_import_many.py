# SPDX-License-Identifier: MIT OR Apache-2.0
"""Tests of rrdi-import with many files. A script replaces RRDtool, except in the test that says otherwise."""
from __future__ import annotations

import os
import re
import signal
import subprocess
import sys
import unittest
from contextlib import redirect_stderr, redirect_stdout, suppress
from io import StringIO
from typing import Iterator, Tuple
from unittest.mock import patch

from cases import needs_program
from doubles import TOP
from test_tools_moving import DUMP
from tool_case import NO_RRDTOOL, RRDTOOL, Ran, ToolCase

from rrdi.importing.dump import Refusal
from rrdi.tools import command_line, importer
from rrdi.tools.children import ChildAnswer
from rrdi.tools.command_line import Failure, Progress
from rrdi.tools.conversion import Reading
from rrdi.tools.many_files import Conversions, OldFile

WHOLE = DUMP.replace("COMPUTE", "GAUGE")
SKIPPED = "skipped data source double: type COMPUTE is not supported; its formula is g,2,*"
FETCH = ("fetch", "AVERAGE", "-s", "1600000000", "-e", "1600000029")
OLD_FORM = b"RRD\0"


class Bars(unittest.TestCase):
    def test_why_a_file_is_not_converted(self) -> None:
        for fault, text in ((OSError(5, "Input/output error"), "Input/output error"), (MemoryError(), "out of memory"),
                            (Failure("it changed"), "it changed"), (Refusal("no file of whisper"), "no file of whisper")):
            class One(Conversions):
                def new_of(self, file: OldFile) -> str:
                    return ""

                def converted(self, file: OldFile, reading: Reading) -> str:
                    raise fault
            files = [OldFile("a", "a")]
            found = One(files, None, "RRDtool", "rrdi-import").work_on(files[0], lambda done, size: None)
            self.assertEqual((found.is_done, found.text.lower()), (False, text.lower()))

    def test_nothing_of_it_stays(self) -> None:
        """At the end the line is empty, also after a key that stops the run."""
        class Two(Conversions):
            def new_of(self, file: OldFile) -> str:
                return file.path + ".new"

            def answers(self, jobs: int) -> Iterator[Tuple[OldFile, ChildAnswer]]:
                for file in self.files[:jobs]:
                    yield file, ChildAnswer(True, "converted\ndone")
                if jobs == 1:
                    raise KeyboardInterrupt
        for jobs, stopped in ((2, ""), (1, "rrdi-import: stopped after 1 of 2 files; to go on, repeat the command\n")):
            with redirect_stderr(StringIO()) as said, redirect_stdout(StringIO()), patch.object(said, "isatty", lambda: True), \
                    patch.object(Progress, "FIRST", 0.0), patch.object(Progress, "NEXT", 0.0), \
                    suppress(KeyboardInterrupt):
                Two([OldFile(name, name) for name in "ab"], None, "RRDtool", "rrdi-import").convert(jobs)
            shown = said.getvalue()
            self.assertTrue(shown.endswith("\r\x1b[K" + stopped), shown)
            self.assertIn("converting", shown)


@needs_program
class Refusals(unittest.TestCase):
    def test_one_line(self) -> None:
        """A reason has texts of the old file, with anything in them."""
        refusal = Refusal("unknown function 'M\n\x1b[2J'")
        with patch.object(importer, "import_one", side_effect=refusal), redirect_stderr(StringIO()) as said:
            self.assertEqual(command_line.run(importer.TOOL, ["a\nb.rrd"]), 1)
        self.assertEqual(said.getvalue().partition(": ")[2], "a\\nb.rrd: unknown function 'M\\n\\u{1b}[2J'\n")


@needs_program
class Many(ToolCase):
    """Each old file begins as RRDtool's do and has the dump after that."""

    def setUp(self) -> None:
        super().setUp()
        self.stub("rrdtool", 'case $1 in dump) tail -c +5 "$2" ;; last) echo 1600000030 ;; esac')
        (self.folder / "tree/sub").mkdir(parents=True)

    def old(self, name: str, dump: str = WHOLE) -> bytes:
        data = OLD_FORM + dump.encode()
        self.write(name, data)
        return data

    def run_import(self, *words: str) -> "tuple[int, str, str]":
        ran = self.tool("rrdi-import", *words)
        return ran.status, ran.out, ran.err

    def cells(self, file: str) -> str:
        return self.rrdi(FETCH[0], file, *FETCH[1:]).splitlines()[1]

    def test_into_a_directory(self) -> None:
        """A tree keeps its subdirectories, other files are passed over, and links too; the last line counts the links."""
        for name in ("tree/a.rrd", "tree/sub/b.rrd", "alone.rrd"):
            self.old(name)
        self.write("tree/notes.txt", "notes")
        (self.folder / "tree/c.rrd").symlink_to("a.rrd")
        status, out, err = self.run_import("--journal", "9", "--into", "new", "tree", "alone.rrd")
        has = "(2 data sources, 1 archive)"
        self.assertEqual((status, err), (0, ""))
        self.assertEqual(out, f"tree/a.rrd: new/a.rrdi {has}\ntree/sub/b.rrd: new/sub/b.rrdi {has}\n"
                              f"alone.rrd: new/alone.rrdi {has}\n3 files: 3 converted; 1 link passed over\n")
        for name in ("a", "sub/b", "alone"):
            self.assertEqual(self.cells(f"new/{name}.rrdi"), "1600000010: 1.000000 2.000000")
        self.assertIn("journal = 9\n", self.rrdi("info", "new/a.rrdi"))
        self.assertEqual(sorted(path.name for path in (self.folder / "new").rglob("*")), ["a.rrdi", "alone.rrdi", "b.rrdi", "sub"])

    def test_a_source_is_left_out(self) -> None:
        self.old("tree/a.rrd", DUMP)
        self.old("tree/b.rrd")
        self.assertEqual(self.run_import("--into", "new", "tree"), (
            1, f"tree/a.rrd: new/a.rrdi (1 data source, 1 archive); {SKIPPED}\ntree/b.rrd: new/b.rrdi (2 data sources, 1 archive)\n"
            "2 files: 2 converted, 1 of them without all data sources\n", ""))

    def test_nothing_is_left(self) -> None:
        """The line says why not even one source, or archive, is left."""
        self.old("tree/a.rrd", DUMP.replace(" g ", " g-0 "))
        self.old("tree/b.rrd", WHOLE.replace("AVERAGE", "HWPREDICT"))
        begin = "rrdi-import: tree/{}.rrd: not converted: no {} can be converted; {}\n"
        said = begin.format("a", "data source", "skipped data source g-0: a name in rrdi has 1 to 19 characters of a-z A-Z 0-9 _; "
                            + SKIPPED) + begin.format("b", "archive", "skipped archive 0, HWPREDICT: this function is not supported")
        for words in (("--in-place",), ("--into", "new"), ("--jobs", "1", "--in-place")):
            self.assertEqual(self.run_import(*words, "tree"), (1, "2 files: 0 converted; 2 not converted\n", said))

    def test_no_file_is_replaced(self) -> None:
        self.old("tree/a.rrd")
        self.old("tree/b.rrd")
        (self.folder / "new").mkdir()
        self.write("new/a.rrdi", "mine")
        status, out, err = self.run_import("--into", "new", "tree")
        self.assertEqual((status, err), (1, "rrdi-import: tree/a.rrd: not converted: new/a.rrdi already exists, and is no "
                                            "database\n"))
        self.assertEqual(out.splitlines()[-1], "2 files: 1 converted; 1 not converted")
        self.assertEqual(self.read("new/a.rrdi"), b"mine")

    def test_several_at_a_time(self) -> None:
        """The lines come in the order of the files, whichever is converted first, and one that is not stops none."""
        self.stub("rrdtool", 'case $1 in dump) case $2 in *a.rrd) sleep .3 ;; esac; tail -c +5 "$2" ;; last) echo 1600000030 ;; esac')
        self.old("tree/a.rrd")
        self.old("tree/b.rrd", WHOLE[:200])
        self.old("tree/c.rrd", DUMP)
        self.old("tree/sub/d.rrd")
        for jobs in ("1", "3"):
            new = f"new{jobs}"
            self.assertEqual(self.run_import("--jobs", jobs, "--into", new, "tree"), (
                1, f"tree/a.rrd: {new}/a.rrdi (2 data sources, 1 archive)\n"
                f"tree/c.rrd: {new}/c.rrdi (1 data source, 1 archive); {SKIPPED}\n"
                f"tree/sub/d.rrd: {new}/sub/d.rrdi (2 data sources, 1 archive)\n"
                "4 files: 3 converted, 1 of them without all data sources; 1 not converted\n",
                "rrdi-import: tree/b.rrd: not converted: rrdtool did not read the file to its end\n"))
        (self.folder / "tree/c.rrd").unlink()
        self.run_import("--jobs", "2", "--in-place", "tree")
        self.assertEqual(self.run_import("--jobs", "2", "--in-place", "tree")[1].splitlines()[-1],
                         "3 files: 0 converted; 2 already of rrdi; 1 not converted")

    def test_two_files_of_one_name(self) -> None:
        self.old("tree/a.rrd")
        self.old("tree/sub/a.rrd", DUMP)
        refused = (1, "rrdi-import: tree/sub/a.rrd: not converted: new/a.rrdi is made of tree/a.rrd\n")
        for jobs in ("1", "2"):
            status, _, err = self.run_import("--jobs", jobs, "--into", "new", "tree/a.rrd", "tree/sub/a.rrd")
            self.assertEqual((status, err), refused)
            self.assertIn("ds[1].name = double\n", self.rrdi("info", "new/a.rrdi"))
        # Even two equal ones: they are two files all the same, and a new database is for one of them.
        self.old("tree/sub/a.rrd")
        status, out, err = self.run_import("--into", "new", "tree/a.rrd", "tree/sub/a.rrd")
        self.assertEqual((status, err, out.splitlines()[-1]), (*refused, "2 files: 0 converted; 1 there already; 1 not converted"))
        self.assertEqual(self.run_import("--into", "new", "tree/a.rrd", "tree/../tree/a.rrd")[0], 0)

    def test_again(self) -> None:
        """What is there already stays, byte for byte and with its time, and so does what differs: the line says by what."""
        names = ("a", "b", "c", "d", "e", "f")
        for name in names:
            self.old(f"tree/{name}.rrd", DUMP if name == "b" else WHOLE)
        self.assertEqual(self.run_import("--into", "new", "tree")[0], 1)
        (self.folder / "new/a.rrdi").unlink()
        self.rrdi("update", "new/c.rrdi", "1600000040:1:1")
        self.rrdi("tune", "new/d.rrdi", "--heartbeat", "g:99")
        self.write("new/e.rrdi", "")
        (self.folder / "new/f.rrdi").unlink()
        (self.folder / "new/f.rrdi").symlink_to("nowhere")
        there = ("b", "c", "d", "e")
        before = {name: (self.read(f"new/{name}.rrdi"), os.stat(self.folder / f"new/{name}.rrdi")) for name in there}
        begin = "rrdi-import: tree/{0}.rrd: not converted: new/{0}.rrdi already exists, "
        for jobs, became in (("1", "new/a.rrdi"), ("3", "new/a.rrdi is there already")):
            counts = "0 converted; 2 there already" if " " in became else "1 converted; 1 there already"
            self.assertEqual(self.run_import("--jobs", jobs, "--into", "new", "tree"), (
                1, f"tree/a.rrd: {became} (2 data sources, 1 archive)\n"
                f"tree/b.rrd: new/b.rrdi is there already (1 data source, 1 archive); {SKIPPED}\n"
                f"6 files: {counts}, 1 of them without all data sources; 4 not converted\n",
                begin.format("c") + "with samples up to 1600000040 and not 1600000030\n"
                + begin.format("d") + "with other settings or rows\n" + begin.format("e") + "and is no database\n"
                + begin.format("f") + "and cannot be read: No such file or directory\n"))
        self.assertEqual({name: (self.read(f"new/{name}.rrdi"), os.stat(self.folder / f"new/{name}.rrdi")) for name in there},
                         before)
        for name, status, incomplete in (("a", 0, ""), ("b", 1, ", 1 of them without all data sources")):
            ran = self.tool("rrdi-import", "--into", "new", f"tree/{name}.rrd")
            self.assertEqual((ran.status, ran.out.splitlines()[-1], ran.err),
                             (status, f"1 file: 0 converted; 1 there already{incomplete}", ""))
        status, _, err = self.run_import("--journal", "9", "--into", "new", "tree/a.rrd")
        self.assertEqual((status, err), (1, begin.format("a") + "with other settings or rows\n"))
        self.assertEqual(sorted(path.name for path in (self.folder / "new").iterdir()), [f"{name}.rrdi" for name in names])

    def test_killed_runs(self) -> None:
        """A run that is ended at any time leaves nothing that a repeat has to be told: it makes what is missing."""
        all_may_end = self.folder / "all may end"  # before that, only five of the files can be read
        self.stub("rrdtool", f"""case $1 in
            dump) case $2 in *0[0-4].rrd) ;; *) until [ -e "{all_may_end}" ]; do sleep .1; done ;; esac; tail -c +5 "$2" ;;
            last) echo 1600000030 ;; esac""")
        for number in range(12):
            self.old(f"tree/{number:02}.rrd")
        for number in (signal.SIGINT, signal.SIGTERM, signal.SIGKILL):
            for jobs in ("1", "2"):
                new = self.folder / f"new-{number}-{jobs}"
                words = [sys.executable, str(TOP / "tools/rrdi-import"), "--jobs", jobs, "--into", str(new), "tree"]
                with subprocess.Popen(words, cwd=self.folder, env=self.env, stdout=subprocess.PIPE, stderr=subprocess.PIPE,
                                      start_new_session=True) as running:
                    assert running.stdout
                    done = [running.stdout.readline() for _ in range(3)]
                    os.killpg(running.pid, number)
                    err = running.communicate()[1].decode()
                is_key = number == signal.SIGINT
                self.assertEqual(running.returncode, 130 if is_key else -number)
                self.assertRegex(err, "^rrdi-import: stopped after [3-5] of 12 files; to go on, repeat the command\n$" if is_key
                                 else "^$")
                made = {path.name: path.read_bytes() for path in new.glob("*.rrdi")}
                self.assertIn(len(made), range(len(done), 6))
                all_may_end.touch()
                status, out, err = self.run_import("--into", str(new), "tree")
                all_may_end.unlink()
                self.assertEqual((status, err, out.splitlines()[-1]), (
                    0, "", f"12 files: {12 - len(made)} converted; {len(made)} there already"))
                self.assertEqual({name: self.read(f"{new}/{name}") for name in made}, made)
                self.assertEqual(len({path.read_bytes() for path in new.glob("*.rrdi")}), 1)

    def test_in_place(self) -> None:
        """The new file has the name, the mode and the owner; the old bytes stay. A second run changes nothing."""
        before = self.old("tree/a.rrd")
        (self.folder / "tree/a.rrd").chmod(0o640)
        self.assertEqual(self.run_import("--in-place", "tree"), (
            0, "tree/a.rrd: converted, the old file is " f"{os.path.realpath(self.folder)}/tree/a.rrd.old"
            " (2 data sources, 1 archive)\n1 file: 1 converted\n", ""))
        self.assertEqual(self.cells("tree/a.rrd"), "1600000010: 1.000000 2.000000")
        self.assertEqual(self.read("tree/a.rrd.old"), before)
        status = os.stat(self.folder / "tree/a.rrd")
        self.assertEqual((status.st_mode & 0o777, status.st_uid, status.st_gid), (0o640, os.getuid(), os.getgid()))
        now = self.read("tree/a.rrd")
        self.assertEqual(self.run_import("--in-place", "tree"), (
            0, "tree/a.rrd: is a database of rrdi already\n1 file: 0 converted; 1 already of rrdi\n", ""))
        self.assertEqual((self.read("tree/a.rrd"), self.read("tree/a.rrd.old")), (now, before))
        self.assertEqual(sorted(path.name for path in (self.folder / "tree").glob(".*")), [])

    def test_in_place_after_a_kill(self) -> None:
        """A run that was killed between its two names has left the old file with both; a link to it is another file, which
        would soon lead to the new one."""
        before = self.old("tree/a.rrd")
        os.link(self.folder / "tree/a.rrd", self.folder / "tree/a.rrd.old")
        self.old("tree/b.rrd")
        (self.folder / "tree/b.rrd.old").symlink_to("b.rrd")
        status, out, err = self.run_import("--in-place", "tree")
        self.assertEqual((status, out.splitlines()[-1]), (1, "2 files: 1 converted; 1 not converted"))
        self.assertEqual(err, "rrdi-import: tree/b.rrd: not converted: "
                              f"{os.path.realpath(self.folder)}/tree/b.rrd.old already exists\n")
        self.assertEqual(self.cells("tree/a.rrd"), "1600000010: 1.000000 2.000000")
        self.assertEqual((self.read("tree/a.rrd.old"), self.read("tree/b.rrd")), (before, before))

    def test_in_place_on_a_full_disk(self) -> None:
        before, path = self.old("a.rrd"), f"{os.path.realpath(self.folder)}/a.rrd"
        ran = self.tool("rrdi-import", "--in-place", "a.rrd", size=50)
        self.assertEqual((ran.status, ran.err),
                         (1, f"rrdi-import: a.rrd: not converted: {path}: cannot write: No space left on device\n"))
        self.assertEqual((self.read("a.rrd"), [name.name for name in self.folder.glob("*.old")]), (before, []))

    @unittest.skipUnless(os.geteuid() == 0, "only root gives files to others")
    def test_in_place_keeps_the_owner(self) -> None:
        self.old("a.rrd")
        os.chown(self.folder / "a.rrd", 12, 34)
        self.assertEqual(self.run_import("--in-place", "a.rrd")[0], 0)
        status = os.stat(self.folder / "a.rrd")
        self.assertEqual((status.st_uid, status.st_gid), (12, 34))

    def test_in_place_leaves_what_cannot_be_whole(self) -> None:
        """A source would be left out; there is an older copy; it is a file of whisper; RRDtool can't read it."""
        files = {"tree/a.rrd": self.old("tree/a.rrd", DUMP), "tree/b.rrd": self.old("tree/b.rrd"), "tree/b.rrd.old": b"mine",
                 "tree/c.wsp": b"\0\0\0\1", "tree/d.rrd": self.old("tree/d.rrd", DUMP[:200])}
        self.write("tree/b.rrd.old", "mine")
        self.write("tree/c.wsp", b"\0\0\0\1")
        status, out, err = self.run_import("--in-place", "tree")
        self.assertEqual((status, out), (1, "4 files: 0 converted; 4 not converted\n"))
        reasons = (SKIPPED, f"{os.path.realpath(self.folder)}/tree/b.rrd.old already exists",
                   "a file of whisper is converted with --into", "rrdtool did not read the file to its end")
        self.assertEqual(err, "".join(f"rrdi-import: tree/{name}: not converted: {reason}\n" for name, reason in zip(
            ("a.rrd", "b.rrd", "c.wsp", "d.rrd"), reasons)))
        self.assertEqual({name: self.read(name) for name in files}, files)
        self.assertEqual(len(list((self.folder / "tree").iterdir())), 6)

    def test_in_place_leaves_what_would_lose_an_archive(self) -> None:
        """An archive of forecasts, and one that has rows of too many steps; into a directory both files come without it."""
        begin, end = WHOLE.split("</rra>")
        archive = begin[begin.index("<rra>"):] + "</rra>"
        files, notes = {}, {"forecast": "skipped archive 1, HWPREDICT: this function is not supported",
                            "long": "skipped archive 1, AVERAGE: a row in rrdi has at most 1,000,000 steps"}
        for name, before, after in (("forecast", "AVERAGE", "HWPREDICT"), ("long", "<pdp_per_row>1<", "<pdp_per_row>1000001<")):
            path = f"tree/{name}.rrd"
            files[path] = self.old(path, f"{begin}</rra>{archive.replace(before, after)}{end}")
        said = "".join(f"rrdi-import: tree/{name}.rrd: not converted: {note}\n" for name, note in notes.items())
        self.assertEqual(self.run_import("--in-place", "tree"), (1, "2 files: 0 converted; 2 not converted\n", said))
        self.assertEqual({name: self.read(name) for name in files}, files)
        self.assertEqual(len(list((self.folder / "tree").glob("*.*"))), 2)
        status, out, err = self.run_import("--into", "new", "tree")
        self.assertEqual((status, err), (0, ""))
        self.assertEqual(out.splitlines(), [*(f"tree/{name}.rrd: new/{name}.rrdi (2 data sources, 1 archive); {note}"
                                              for name, note in notes.items()), "2 files: 2 converted, 2 of them with notes"])
        self.assertEqual(self.run_import("--into", "new", "tree")[1].splitlines()[-1],
                         "2 files: 0 converted; 2 there already, 2 of them with notes")

    def test_in_place_leaves_what_would_change_a_type(self) -> None:
        """A counter of fractions would take whole numbers only; into a directory it comes as one that does."""
        before = self.old("tree/a.rrd", WHOLE.replace("GAUGE", "DDERIVE", 1))
        notes = ("source g: its type DDERIVE becomes DERIVE, which takes whole numbers only; "
                 "source g: cannot convert its last value 3.5; its next rate will be unknown")
        self.assertEqual(self.run_import("--in-place", "tree"), (
            1, "1 file: 0 converted; 1 not converted\n", f"rrdi-import: tree/a.rrd: not converted: {notes}\n"))
        self.assertEqual((self.read("tree/a.rrd"), (self.folder / "tree/a.rrd.old").exists()), (before, False))
        self.assertEqual(self.run_import("--into", "new", "tree"), (
            0, f"tree/a.rrd: new/a.rrdi (2 data sources, 1 archive); {notes}\n1 file: 1 converted, 1 of them with notes\n", ""))

    def test_a_note_in_place(self) -> None:
        """The last line counts it: a heartbeat is too long for rrdi."""
        self.old("tree/a.rrd", WHOLE.replace(">60<", ">10000000000<", 1))
        self.old("tree/b.rrd")
        status, out, err = self.run_import("--in-place", "tree")
        self.assertEqual((status, err, out.splitlines()[-1]), (0, "", "2 files: 2 converted, 1 of them with notes"))
        self.assertIn("; source g: its heartbeat becomes 9999999999, the longest in rrdi", out.splitlines()[0])

    def test_a_file_that_changes_meanwhile(self) -> None:
        """A sample that the old file got during the conversion would be lost, so the old file stays."""
        self.old("a.rrd")
        slow = self.stub("slow", f'printf x >>a.rrd; exec {self.env.get("RRDI", "rrdi")} "$@"')
        ran = self.tool("rrdi-import", "--in-place", "a.rrd", env={"RRDI": slow})
        self.assertEqual(ran, Ran(1, "1 file: 0 converted; 1 not converted\n", "rrdi-import: a.rrd: not converted: "
                                  "it changed while it was converted; first stop what records into it\n"))
        self.assertTrue(self.read("a.rrd").startswith(OLD_FORM))
        self.assertFalse((self.folder / "a.rrd.old").exists())

    def test_a_file_that_changes_while_it_is_read(self) -> None:
        """The old file also stays if it gets a sample after RRDtool has read it."""
        self.old("a.rrd")
        self.stub("rrdtool", 'case $1 in dump) tail -c +5 "$2" ;; last) printf x >>"$2"; echo 1600000030 ;; esac')
        self.assertEqual(self.run_import("--in-place", "a.rrd"), (
            1, "1 file: 0 converted; 1 not converted\n", "rrdi-import: a.rrd: not converted: "
            "it changed while it was converted; first stop what records into it\n"))
        self.assertEqual((self.read("a.rrd")[-1:], (self.folder / "a.rrd.old").exists()), (b"x", False))

    def test_nothing_to_convert(self) -> None:
        self.assertEqual(self.run_import("--into", "new", "tree"), (
            1, "", "rrdi-import: tree: no file below it has a name that ends in .rrd or .wsp\n"))
        self.old("a.rrd")
        self.assertEqual(self.tool("rrdi-import", "--in-place", "a.rrd", env=self.without_rrdtool()),
                         Ran(1, "1 file: 0 converted; 1 not converted\n", "rrdi-import: a.rrd: not converted: rrdtool is not "
                             "installed (Debian: apt install rrdtool)\n"))

    def without_rrdtool(self) -> "dict[str, str]":
        (self.bin / "rrdtool").unlink()
        return self.only_path()

    def test_names_of_others(self) -> None:
        """A line stays a line, whatever a name has in it."""
        name = "tree/a\nb\x1b[2J\udcff.rrd"
        self.old(name)
        status, out, err = self.run_import("--into", "new", "tree")
        self.assertEqual((status, err), (0, ""))
        self.assertEqual(out, "tree/a\\nb\\u{1b}[2J\\xff.rrd: new/a\\nb\\u{1b}[2J\\xff.rrdi (2 data sources, 1 archive)\n"
                              "1 file: 1 converted\n")

    def test_folders_of_others(self) -> None:
        """rrdi opens no file in a folder whose name is not in UTF-8, and the line says so."""
        (self.folder / "tree/d\udce4").mkdir()
        before = self.old("tree/d\udce4/a.rrd")
        for words, new in ((("--into", "new"), "new/d\\xe4/a.rrdi"),
                           (("--in-place",), f"{os.path.realpath(self.folder)}/tree/d\\xe4/a.rrd")):
            self.assertEqual(self.run_import(*words, "tree"), (
                1, "1 file: 0 converted; 1 not converted\n", f"rrdi-import: tree/d\\xe4/a.rrd: not converted: {new}: "
                "the path is not in UTF-8, as rrdi wants it\n"))
        self.assertEqual(self.read("tree/d\udce4/a.rrd"), before)

    def test_the_bar(self) -> None:
        """The bar is of all files, and each line of a file replaces it."""
        rows = "<row><v>1</v><v>1</v></row>" * 2_000
        begin, end = WHOLE.split("<row><v>1</v>")
        self.write("end", end[end.index("</database>"):])
        for name in ("a", "b"):
            self.old(f"{name}.rrd", begin + rows)
        self.stub("rrdtool", 'case $1 in last) echo 1600000030 ;; dump) tail -c +5 "$2"; sleep 1.2; cat end ;; esac')
        words = [sys.executable, str(TOP / "tools/rrdi-import"), "--jobs", "1", "--into", "new", "a.rrd", "b.rrd"]
        status, seen = self.on_terminal(words)
        self.assertEqual(status, 0, seen)
        self.assertRegex(seen, r"^((\rconverting: \[#* *\] \d+ %\x1b\[K)+\r\x1b\[K)+$")
        shares = [int(share) for share in re.findall(r"(\d+) %", seen)]
        self.assertEqual(shares, sorted(shares))
        self.assertTrue(all(len(bar) == 30 for bar in re.findall(r"\[([# ]*)\]", seen)), seen)

    @unittest.skipUnless(RRDTOOL, NO_RRDTOOL)
    def test_rrdtool_itself(self) -> None:
        """Files that RRDtool made, in place; one gets a sample while it is converted, by RRDtool too."""
        assert RRDTOOL
        for name in ("a", "b"):
            subprocess.run([RRDTOOL, "create", f"{name}.rrd", "--step", "10", "--start", "1600000000", "DS:g:GAUGE:60:U:U",
                            "RRA:AVERAGE:0.5:1:3"], cwd=self.folder, check=True)
            subprocess.run([RRDTOOL, "update", f"{name}.rrd", "1600000010:1", "1600000020:2"], cwd=self.folder, check=True)
        env = {"PATH": os.environ["PATH"], "TZ": "UTC"}
        slow = self.stub("slow", f'case $2 in /proc/*) [ -e done ] || {RRDTOOL} update b.rrd 1600000030:3; touch done ;; esac; '
                                 f'exec {self.env.get("RRDI", "rrdi")} "$@"')
        ran = self.tool("rrdi-import", "--in-place", "b.rrd", env={**env, "RRDI": slow})
        self.assertEqual((ran.status, "changed while" in ran.err), (1, True), ran)
        ran = self.tool("rrdi-import", "--in-place", ".", env=env)
        self.assertEqual((ran.status, ran.err, ran.out.splitlines()[-1]), (0, "", "2 files: 2 converted"))
        self.assertEqual([self.rrdi("last", f"{name}.rrd") for name in ("a", "b")], ["1600000020\n", "1600000030\n"])
