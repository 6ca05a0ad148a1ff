# SPDX-License-Identifier: MIT OR Apache-2.0
"""Tests of rrdi.tools.program: what becomes of an answer, and the C library in the process gives what the program gives."""
from __future__ import annotations

import errno
import os
import subprocess
import sys
import time
import unittest
from typing import Any, Callable, List, Optional, Tuple
from unittest import mock

from cases import NO_LIBRARY, needs_program
from doubles import PROGRAM, TOP
from tool_case import ToolCase

from rrdi import choice
from rrdi.by_program import ByProgram, NoAnswer
from rrdi.errors import CANNOT_OPEN, OK, REFUSED, TRUNCATED, USAGE
from rrdi.library import Library, library_path, load_library
from rrdi.protocol import Answer, OnFiles
from rrdi.tools import program
from rrdi.tools.command_line import Failure
from rrdi.tools.program import CommandFailed

NOW = 1_700_000_000  # later than all samples, as the clock that the program asks
LIBRARY: Optional[str] = os.environ.get("RRDI_TOOLS_BY") or library_path()


def library() -> Library:
    assert LIBRARY
    return load_library(LIBRARY)


class Reasons(ToolCase):
    def test_why_a_file_is_not_opened(self) -> None:
        """The system opens a directory to read it, and a file; it opens nothing that is not there."""
        for path, why in ((self.folder, "Is a directory"), (self.folder / "none", "No such file or directory"),
                          (self.write("f", "x"), "")):
            self.assertEqual(program.why_not_opened(str(path)), why)


class Words(ToolCase):
    def test_millionths(self) -> None:
        for text, wanted in (("1.500000", 1_500_000), ("-0.5", -500_000), ("7", 7_000_000), ("-0.000001", -1), ("0", 0)):
            self.assertEqual(program.as_millionths(text), wanted)

    def test_paths_of_others(self) -> None:
        """The program takes no path that is not in UTF-8 for an argument, and the library does not open one."""
        library = mock.Mock()
        for file, fault, output, reason in (("d\udce4/f", USAGE, b"usage", "the path is not in UTF-8, as rrdi wants it"),
                                            ("d\udce4/f", CANNOT_OPEN, b"", "the path is not in UTF-8, as rrdi wants it"),
                                            ("d\xe4/f", USAGE, b"usage", "usage"), ("d\xe4/f", CANNOT_OPEN, b"", "cannot open"),
                                            ("d\udce4/f", REFUSED, b"too large", "too large")):
            library.run_file.return_value = Answer(fault, 0, 0, output)
            with mock.patch("rrdi.tools.program.chosen", return_value=library), self.assertRaises(CommandFailed) as raised:
                program.ask(["last", file])
            self.assertEqual(str(raised.exception), reason)

    def test_the_environment(self) -> None:
        """The library waits and flushes as RRDI_WAIT and RRDI_SYNC tell the program to."""
        library = mock.Mock()
        library.run_file.return_value = library.batch_file.return_value = Answer(0, 0, 0, b"")
        for wait in (5_000, 0, 7_000):
            for sync in ("", "1"):
                with mock.patch.dict(os.environ, {"RRDI_SYNC": sync}), mock.patch("rrdi.environment.WAIT", wait), \
                        mock.patch("rrdi.tools.program.chosen", return_value=library):
                    program.ask(["last", "f.rrdi"])
                    program.batch("f.rrdi", ["last"])
                for call in (library.run_file.call_args, library.batch_file.call_args):
                    self.assertEqual(call[0][3:], (wait, bool(sync)), wait)

    def test_the_environment_of_the_program(self) -> None:
        """The program waits and flushes as a call says, whatever the variables of this process say."""
        shown = self.stub("shown", 'echo "$RRDI_WAIT $RRDI_SYNC $*"')
        with mock.patch.dict(os.environ, {"RRDI_WAIT": "9", "RRDI_SYNC": "0"}):
            for path, wait, syncs, printed in ((b"f", 7_000, True, b"7 1 last f 5\n"), (b"-f", 0, False, b"0 0 last ./-f 5\n")):
                self.assertEqual(ByProgram(shown).run_file(path, b"last\0005", 0, wait, syncs), Answer(0, 0, 0, printed))

    def test_the_wait_is_read_once(self) -> None:
        """Whatever waits for a lock waits as long as RRDI_WAIT told this process to when it began."""
        for text, wait in (("", 5_000), ("0", 0), ("7", 7_000), ("3601", 3_600_000), ("-1", 5_000), ("x", 5_000)):
            asks = "import os; from rrdi import environment; from rrdi.reader.files import patience; " \
                   "os.environ['RRDI_WAIT'] = '9'; print(environment.milliseconds(None), patience())"
            env = {**os.environ, "RRDI_WAIT": text, "PYTHONPATH": str(TOP / "python")}
            ran = subprocess.run([sys.executable, "-B", "-c", asks], env=env, stdout=subprocess.PIPE, text=True)
            self.assertEqual(ran.stdout, f"{wait} {wait / 1_000}\n")

    def test_zero_bytes(self) -> None:
        with self.assertRaisesRegex(Failure, "an argument has a zero byte"):
            program.ask(["update", "f.rrdi", "10:1\0--template=x"])

    def test_no_program(self) -> None:
        with mock.patch.dict(os.environ, {"RRDI": "/nowhere"}), self.assertRaisesRegex(Failure, "cannot run /nowhere: No such"):
            program.ask(["last", "f.rrdi"])


class Answers(unittest.TestCase):
    """What becomes of an answer of the library, or of the program in its place."""

    def answering(self, answer: "Answer | Exception") -> Any:
        call = mock.Mock(side_effect=answer) if isinstance(answer, Exception) else mock.Mock(return_value=answer)
        patch = mock.patch.object(program, "chosen", return_value=mock.Mock(run_file=call, batch_file=call))
        patch.start()
        self.addCleanup(patch.stop)
        return call

    def refused(self, act: Callable[[], object]) -> Tuple[str, int, str]:
        with self.assertRaises(CommandFailed) as raised:
            act()
        return str(raised.exception), raised.exception.system_error, raised.exception.detail

    def test_calls(self) -> None:
        with mock.patch.object(time, "time", lambda: 70.9), mock.patch.multiple(program, milliseconds=lambda none: 250, sync_of_environment=lambda: True):
            call = self.answering(Answer(OK, 0, 0, b"a\nb\xff\n"))
            self.assertEqual(program.ask(["fetch", "f\udcff", "MAX", "\u00e4"]), "a\nb\udcff\n")
            self.assertEqual(program.batch("f", ["last", "", "a\tb"]), ["a", "b\udcff"])
        self.assertEqual(call.mock_calls, [mock.call(b"f\xff", b"fetch\0MAX\0\xc3\xa4", 70, 250, True), mock.call(b"f", b"last\n\na\tb\n", 70, 250, True)])

    def test_faults(self) -> None:
        for answer, found in ((Answer(REFUSED, 0, 0, b"not later than 5\nmore", explanation=b"why\xff"), ("not later than 5", 0, "why\ufffd")), (Answer(CANNOT_OPEN, errno.ENOENT, 0, b"cannot open", explanation=b"no"), ("cannot open", errno.ENOENT, "")),
                              (Answer(TRUNCATED, 0, 7, b"file: truncated at 7"), ("file: truncated at 7", 0, ""))):
            self.answering(answer)
            self.assertEqual(self.refused(lambda: program.ask(["last", "f"])), found)
            self.assertEqual(self.refused(lambda: program.batch("f", ["last"])), found)
            with program.naming("f"):
                pass
            with mock.patch.object(program, "why_not_opened", return_value=""):
                text = f"f: {found[0]}: No such file or directory" if found[1] else f"f: {found[0]}"
                self.assertEqual(self.refused(lambda: self.named("f")), (text, 0, found[2]))
        self.answering(NoAnswer("/x/rrdi", "ended", 3))
        self.assertEqual(self.refused(lambda: program.ask(["last", "f"])), ("/x/rrdi ended with status 3", 0, ""))
        self.answering(NoAnswer("/x/rrdi", "Permission denied"))
        with self.assertRaisesRegex(Failure, "^cannot run /x/rrdi: Permission denied$"):
            program.ask(["last", "f"])

    def named(self, file: str) -> None:
        with program.naming(file):
            program.ask(["last", file])

    def test_refused_lines(self) -> None:
        """The first one counts, with its own explanation."""
        for explanation, detail in ((b"line 2: why\nline 4: other", "why"), (b"line 4: other", ""), (b"", "")):
            self.answering(Answer(OK, 0, 0, b"5\nERROR: a\n5\nERROR: b\n", (2, 4), explanation=explanation))
            self.assertEqual(self.refused(lambda: program.batch("f", ["last"] * 4)), ("a", 0, detail))

    def test_lines_that_are_none(self) -> None:
        call = self.answering(Answer(OK, 0, 0, b""))
        for line in ("a\nb", "\u00e4", "a\0", "x" * 65_537, "\x7f"):
            with self.assertRaisesRegex(Failure, "^a line of a batch has a character that it cannot have, or is too long: "):
                program.batch("f", ["last", line])
        with self.assertRaisesRegex(Failure, "^an argument has a zero byte$"):
            program.ask(["last", "f", "\0"])
        self.assertEqual((program.batch("f", ["x" * 65_536]), call.call_count), ([], 1))


@needs_program
@unittest.skipUnless(LIBRARY, NO_LIBRARY)
class InProcess(ToolCase):
    COMMANDS = ["create {} --step 10 --start 1000000000 DS:g:GAUGE:60:-5:U DS:c:COUNTER:60:0:U RRA:AVERAGE:0.5:1:900 RRA:MAX:0.5:3:4",
                "update {} 1000000010:1.5:100 1000000025:-2:175", "last {}", "info {}", "lastupdate {}", "first {} --rraindex 1",
                "fetch {} AVERAGE -s 1000000000 -e 1000000040", "fetch {} AVERAGE -s 1000000000 -e 1000099999",
                "update {} 5:1:1", "update {} 1000000030:1", "update {} x", "tune {} -a g:1000", "tune {} -a none:1",
                "resize {} 0 GROW 5", "resize {} 9 GROW 5", "revert {}", "revert {}", "revert {}", "revert {}", "info {}",
                "frobnicate {}", "fetch {} AVERAGE --wrong", "update {}", "last none.rrdi", "last cut.rrdi", "update none/f 1:1",
                "create none/f DS:g:GAUGE:9:U:U RRA:MAX:0.5:1:4", "create {} DS:g:GAUGE:9:U:U", "fetch {} FOO", "last {} 5"]

    def both(self, words: List[str], given: Optional[str] = None) -> "tuple[Answer, Answer]":
        """The answers of the program and of the library, each for a file of its own."""
        def answer(rrdi: OnFiles, file: str) -> Answer:
            name, path, *others = [word.replace("{}", file).encode() for word in words]
            if given is not None:
                return rrdi.batch_file(path, given.encode(), NOW, 0, False)
            return rrdi.run_file(path, b"\0".join([name, *others]), NOW, 0, False)
        return answer(ByProgram(PROGRAM or ""), "a.rrdi"), answer(library(), "b.rrdi")

    def setUp(self) -> None:
        super().setUp()
        here = os.getcwd()
        self.addCleanup(os.chdir, here)
        os.chdir(self.folder)
        self.write("cut.rrdi", b"RRDI\0\2")

    def test_commands(self) -> None:
        for command in self.COMMANDS:
            with self.subTest(command=command):
                by_program, by_library = self.both(command.split())
                self.assertEqual(by_library, by_program)
                if os.path.exists("a.rrdi"):
                    self.assertEqual(self.read("a.rrdi"), self.read("b.rrdi"))

    def test_batches(self) -> None:
        """Each refused line has its number, whatever the lines beside it print."""
        self.both(self.COMMANDS[0].split())
        asked = ("first", "last", "info", "lastupdate", "fetch MAX --start 0 --end 9", "frob")
        questions = "\n".join(f"{question}\n" for question in asked)
        for lines in ("update 1000000010:1:1\nlast\n", "update 5:1:1\nupdate 1000000020:1:1\nfrob\nlast\n", "", "last",
                      "".join(f"update {1000000030 + at}:{at}:{at}\n" for at in range(5_000)),
                      "fetch AVERAGE -s 1000000000 -e 1000099999\n" * 3, f"\n \t\n{questions}\r\nupdate 5:1:1\n{questions}",
                      "update 5:1:1\ntune -a g:7\nresize 0 GROW 1\nresize 9 GROW 1\nrevert\nlast\n\n"):
            by_program, by_library = self.both(["batch", "{}"], lines)
            self.assertEqual(by_library, by_program, lines[:90])
            self.assertEqual(self.read("a.rrdi"), self.read("b.rrdi"))
        self.assertEqual(*self.both(["batch", "cut.rrdi"], "last\n"))
        self.assertEqual(*self.both(["batch", "none.rrdi"], f"last\n\nupdate 5:1\ncreate x\n{questions}"))
        lines = "last\n" + self.COMMANDS[0].replace(" {}", "") + "\nlast\n"
        for file in ("/nowhere/f.rrdi", str(self.folder)):
            self.assertEqual(*self.both(["batch", file], lines))
        os.symlink("/nowhere/f.rrdi", "link.rrdi")
        by_program, by_library = self.both(["batch", "link.rrdi"], lines)
        self.assertEqual((by_program.fault, by_program.output), (by_library.fault, b"cannot write"))

    def test_which_one_is_called(self) -> None:
        """RRDI names a program; otherwise the library runs the command."""
        shown = self.stub("shown", "echo 7")
        with mock.patch.dict(os.environ, {"RRDI": shown, "RRDI_LIBRARY": LIBRARY or ""}):
            self.assertEqual(program.ask(["last", "none"]), "7\n")
            os.environ["RRDI"] = ""
            choice.loaded_library.cache_clear()
            with self.assertRaisesRegex(CommandFailed, "^cannot open$"):
                program.ask(["last", "none"])
            os.environ["RRDI_LIBRARY"] = "/nowhere/librrdi.so.0"
            choice.loaded_library.cache_clear()
            os.environ["PATH"] = str(self.bin)
            self.stub("rrdi", "echo 8")
            self.assertEqual(program.ask(["last", "none"]), "8\n")
        choice.loaded_library.cache_clear()
