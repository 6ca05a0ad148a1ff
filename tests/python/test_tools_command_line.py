# SPDX-License-Identifier: MIT OR Apache-2.0
"""Tests of what all tools share: the exit status and the message for each way in which a tool can end."""
from __future__ import annotations

import contextlib
import errno
import importlib
import io
import os
import re
import signal
import subprocess
import sys
import time
import unittest
from typing import List, Optional, Tuple
from unittest import mock

from cases import HANG
from doubles import TOP
from tool_case import Ran, ToolCase

from rrdi.tools import command_line
from rrdi.tools.command_line import Failure, WrongArguments, complain, give_up_output

TOOL = """import errno, sys
sys.path.insert(0, {python!r})
from rrdi.tools.command_line import Failure, Tool, WrongArguments, run
def act(words):
    {act}
sys.argv[0] = "/bin/rrdi-try"
sys.exit(run(Tool("rrdi-try", "FILE", " The help. ", act)))
"""


class Installed(unittest.TestCase):
    def test_pip_installs_each_tool(self) -> None:
        scripts = (TOP / "python/pyproject.toml").read_text().partition("[project.scripts]\n")[2].partition("\n\n")[0]
        modules = {name: re.findall(r"^from (rrdi\.tools[\w.]*) import main", (TOP / "tools" / name).read_text(), re.M)[0]
                   for name in sorted(path.name for path in (TOP / "tools").glob("rrdi-*"))}
        self.assertEqual(scripts.splitlines(), [f'{name} = "{module}:main"' for name, module in modules.items()])

    def test_each_tool_has_its_name_and_help(self) -> None:
        """rrdi-carbon-cache takes its arguments from carbon."""
        for path in sorted((TOP / "tools").glob("rrdi-*")):
            module = importlib.import_module(re.findall(r"^from (rrdi\.tools[\w.]*) import main", path.read_text(), re.M)[0])
            if path.name != "rrdi-carbon-cache":
                tool = module.TOOL
                self.assertEqual((tool.name, tool.help, module.main), (path.name, module.__doc__, tool.main))
                self.assertIn(f"\nusage: {path.name} ", tool.help)

    def test_each_launcher_has_the_same_text(self) -> None:
        """Only the name and the module differ, and carbon is a package of the system's own Python."""
        first, *rest = (TOP / "tools/rrdi-feed").read_text().splitlines(True)
        for path in (TOP / "tools").glob("rrdi-*"):
            module = path.name[len("rrdi-"):].replace("-", "_")
            module = {"export": "exporter", "import": "importer"}.get(module, module)
            wanted = "".join(rest).replace("rrdi-feed", path.name).replace("rrdi.tools.feed", f"rrdi.tools.{module}")
            start = "#!/usr/bin/python3\n" if module == "carbon_cache" else first
            self.assertEqual(path.read_text(), start + wanted)


class Versions(ToolCase):
    def test_each_tool_prints_the_version(self) -> None:
        version = (TOP / "VERSION").read_text().strip()
        for name in sorted(path.name for path in (TOP / "tools").glob("rrdi-*")):
            with self.subTest(name=name):
                # rrdi-rrdtool answers as RRDtool does.
                wanted = "RRDtool 1.7.2 (rrdi-rrdtool, on rrdi's files)" if name == "rrdi-rrdtool" else f"{name} {version}"
                self.assertEqual(self.tool(name, "--version"), Ran(0, f"{wanted}\n", ""))


class Unheard(unittest.TestCase):
    """What a tool does if nobody can read what it says."""

    def test_no_standard_error(self) -> None:
        """Nothing is said where it is closed; where it is full, the rest of it is given up."""
        with mock.patch.object(sys, "stderr", None):
            complain("why")
        full, read = mock.Mock(), io.StringIO()
        full.write.side_effect = OSError(errno.ENOSPC, "No space left on device")
        for stderr, given_up in ((full, [mock.call(2)]), (read, [])):
            with mock.patch.object(sys, "stderr", stderr), \
                    mock.patch.object(command_line, "give_up_output") as give_up:
                complain("why")
            self.assertEqual(give_up.mock_calls, given_up)
        self.assertEqual(read.getvalue(), "why\n")

    def test_no_place_to_give_output_up(self) -> None:
        """A tool that cannot open another file ends with its status all the same."""
        refused = OSError(errno.EMFILE, "Too many open files")
        with mock.patch("os.open", side_effect=refused), mock.patch("os.dup2") as dup2:
            give_up_output()
        self.assertEqual(dup2.mock_calls, [])
        with mock.patch("os.open", return_value=7), mock.patch("os.dup2") as dup2:
            give_up_output(2)
        self.assertEqual(dup2.mock_calls, [mock.call(7, 2)])


class Hints(ToolCase):
    def test_a_further_line(self) -> None:
        """After wrong arguments without a text it says which option was meant; of files that are not ours, whose they are; else
        what the failure knows. A tool without help has no options to name."""
        old = self.write("old.rrd", b"RRD\x000003" + bytes(100))
        known, of_rrdtool = Failure("why"), f"{old} is a file of RRDtool; rrdi-import converts it"
        known.detail = "more\n"
        usage, meant = "usage: rrdi-try FILE", "rrdi-try: there is no option --stat; did you mean --start?"
        cases: List[Tuple[Exception, Optional[str], List[str], List[str], int]] = [
                (WrongArguments(), "--start", ["--stat"], [usage, meant], 4), (WrongArguments(), None, ["--stat"], [usage], 4), (WrongArguments(), "--start", ["f"], [usage], 4), (WrongArguments("a\tb"), "--start", ["--stat"], ["rrdi-try: a\\tb"], 4),
                (Failure("why"), "", [], ["rrdi-try: why"], 3), (known, "", [old], ["rrdi-try: why", "rrdi-try: more\\n"], 3), (Failure("x: file: not ours"), "", ["a", old], ["rrdi-try: x: file: not ours", f"rrdi-try: {of_rrdtool}"], 3),
                (Failure("x: file: not ours"), "", ["a"], ["rrdi-try: x: file: not ours"], 3), (Failure("x: file: version"), "", [old], ["rrdi-try: x: file: version"], 3)]
        for error, help_text, words, lines, status in cases:
            tool = command_line.Tool("rrdi-try", "FILE", help_text, mock.Mock(side_effect=error), failed=3, misused=4)
            with mock.patch.object(sys, "argv", ["rrdi-try"]), contextlib.redirect_stderr(io.StringIO()) as said:
                self.assertEqual(command_line.run(tool, words), status)
            self.assertEqual(said.getvalue().splitlines(), lines)


class Ends(ToolCase):
    def end(self, act: str, *words: str, stdout: "str | None" = None) -> Ran:
        text = TOOL.format(python=str(TOP / "python"), act=act)
        return self.run_command([sys.executable, "-B", "-c", text, *words], stdout=stdout)

    def test_statuses_and_messages(self) -> None:
        for act, wanted in (
                ("print(words); return 0", Ran(0, "['a']\n", "")), ("return 3", Ran(3, "", "")),
                ("raise Failure('no file')", Ran(1, "", "rrdi-try: no file\n")),
                ("raise WrongArguments", Ran(2, "", "usage: rrdi-try FILE\n")),
                ("raise WrongArguments('what is a')", Ran(2, "", "rrdi-try: what is a\n")),
                ("raise KeyboardInterrupt", Ran(130, "", "")), ("raise BrokenPipeError", Ran(1, "", "")),
                ("open('none/f')", Ran(1, "", "rrdi-try: none/f: No such file or directory\n")),
                ("raise OSError(errno.ENOSPC, 'full')", Ran(1, "", "rrdi-try: full\n")),
                ("raise MemoryError", Ran(1, "", "rrdi-try: out of memory\n")),
                ("raise OSError('odd')", Ran(1, "", "rrdi-try: odd\n")),
                ("print('part', end=''); raise Failure('then')", Ran(1, "part", "rrdi-try: then\n"))):
            with self.subTest(act=act):
                self.assertEqual(self.end(act, "a"), wanted)

    def test_a_fault_of_the_tool(self) -> None:
        """It is shown as Python shows it, and its status is that of a failure."""
        ran = self.end("print('part', end=''); raise ValueError('odd')")
        self.assertEqual((ran.status, ran.out), (1, "part"))
        self.assertRegex(ran.err, "^Traceback .*(.|\n)*ValueError: odd\n$")

    def test_help(self) -> None:
        for option in ("-h", "--help"):
            self.assertEqual(self.end("raise Failure('not called')", option), Ran(0, "The help.\n", ""))
            self.assertEqual(self.end("raise WrongArguments", "a", option), Ran(0, "The help.\n", ""))
            self.assertEqual(self.end("raise WrongArguments('what is a')", "a", option), Ran(2, "", "rrdi-try: what is a\n"))
        self.assertEqual(self.end("print(words); return 0", "a", "--help"), Ran(0, "['a', '--help']\n", ""))

    def test_a_full_disk(self) -> None:
        full = "rrdi-try: No space left on device\n"
        self.assertEqual(self.end("print('a'); return 0", stdout="/dev/full"), Ran(1, "", full))
        self.assertEqual(self.end("print('a'); raise Failure('why')", stdout="/dev/full"), Ran(1, "", "rrdi-try: why\n"))
        self.assertEqual(self.end("return 0", "--help", stdout="/dev/full"), Ran(1, "", full))

    def test_a_closed_output(self) -> None:
        """Nobody wants what is printed, and the rest goes on as ever."""
        for act, wanted in (("print('a'); return 0", Ran(0, "", "")), ("raise Failure('why')", Ran(1, "", "rrdi-try: why\n"))):
            self.write("tool.py", TOOL.format(python=str(TOP / "python"), act=act))
            self.assertEqual(self.run_command(["sh", "-c", f"{sys.executable} -B tool.py >&-"]), wanted)

    def test_a_closed_pipe(self) -> None:
        text = TOOL.format(python=str(TOP / "python"), act="[print(at) for at in range(10**6)]; return 0")
        self.write("tool.py", text)
        ran = self.run_command(["sh", "-c", f"{{ {sys.executable} -B tool.py; echo $? >status; }} | head -n 1"])
        self.assertEqual((ran, self.read("status")), (Ran(0, "0\n", ""), b"1\n"))

    def test_a_pipe_that_nobody_reads(self) -> None:
        """What waits to be written is given up, whatever ends the tool: Python does not report it at its end."""
        for act, status, error in (("print('a'); return 0", 1, ""), ("print('a'); raise BrokenPipeError", 1, ""), ("print('a'); raise KeyboardInterrupt", 130, ""),
                                   ("print('a'); raise Failure('why')", 1, "rrdi-try: why\n"), ("print('a'); raise WrongArguments('why')", 2, "rrdi-try: why\n")):
            text = TOOL.format(python=str(TOP / "python"), act=act)
            reader, writer = os.pipe()
            os.close(reader)
            try:
                ran = subprocess.run([sys.executable, "-B", "-c", text], stdout=writer, stderr=subprocess.PIPE, env=self.env, text=True)
            finally:
                os.close(writer)
            self.assertEqual((ran.returncode, ran.stderr), (status, error), act)

    def test_names(self) -> None:
        """A tool has the name by which it was called, unless that is Python's."""
        tool = command_line.Tool("rrdi-try", "", None, lambda words: 0)
        for called, name in (("/bin/rrdi-try", "rrdi-try"), ("/bin/other", "other"), ("other", "other"), ("/x/tool.py", "rrdi-try"), ("tool.py", "rrdi-try"), ("", "rrdi-try"),
                             ("-c", "rrdi-try"), ("-m", "rrdi-try"), ("__main__", "rrdi-try"), ("/x/__main__.py", "rrdi-try"), ("/x/", "rrdi-try"), ("py", "py"), ("tool.pyx", "tool.pyx")):
            with mock.patch.object(sys, "argv", [called]):
                self.assertEqual(command_line.called_name(tool), name, called)

    def test_errors_of_the_system(self) -> None:
        for error, text in ((OSError(errno.ENOENT, "no such"), "no such"), (OSError(errno.ENOENT, "no such", "f"), "f: no such"), (OSError("odd"), "odd"), (OSError(), "")):
            self.assertEqual(command_line.error_text(error), text)

    def test_an_interrupt(self) -> None:
        """Ctrl-C ends a tool without a traceback. The tests may have inherited that SIGINT is ignored, as a shell sets it
        for a command in the background, so the tool sets it again."""
        act = "import signal, time; signal.signal(signal.SIGINT, signal.default_int_handler); " \
              "print('begun', flush=True); time.sleep(60)"
        text = TOOL.format(python=str(TOP / "python"), act=act)
        with subprocess.Popen([sys.executable, "-B", "-c", text], stdout=subprocess.PIPE, stderr=subprocess.PIPE,
                              env=self.env, text=True) as running:
            assert running.stdout and running.stderr
            self.assertEqual(running.stdout.readline(), "begun\n")
            time.sleep(0.1)
            running.send_signal(signal.SIGINT)
            self.assertEqual((running.wait(HANG), running.stderr.read()), (130, ""))
