# SPDX-License-Identifier: MIT OR Apache-2.0
"""Tests of rrdi-feed as a tool: its arguments, its messages, its rules, and how it ends."""
from __future__ import annotations

import fcntl
import os
import re
import signal
import socket
import struct
import subprocess
import sys
import termios
import time
from pathlib import Path
from typing import Dict, List, Optional
from unittest import mock

from cases import needs_program
from doubles import TOP
from tool_case import Ran, ToolCase

from rrdi.feeding.writers import Reason
from rrdi.tools.command_line import Failure
from rrdi.tools.feed import USAGE, rules_of

CREATE = "--step 10 DS:v:GAUGE:60:U:U RRA:AVERAGE:0.5:1:9"
# A program that notes what it is asked for. Its batch accepts all samples.
NOTING = """case $1 in
create) [ -n "${REFUSED-}" ] && { echo "ERROR: $REFUSED" >&2; exit 1; }; echo "$*" >>"$LOG"; echo a >"$2" ;;
batch) while read -r word rest; do case $word in update) echo "$2 $rest" >>"$LOG" ;; last) echo 1 ;; esac; done ;;
esac"""


class WrongOnes(ToolCase):
    def test_usage(self) -> None:
        self.check_usage("rrdi-feed", USAGE, [["--jobs", "0"], ["a.rrdi"]])

    def test_another_name(self) -> None:
        """A link starts the same tool, and its messages begin with the link's name."""
        (self.folder / "feed").symlink_to(TOP / "tools/rrdi-feed")
        ran = self.run_command([sys.executable, str(self.folder / "feed"), "--jobs", "0"])
        self.assertEqual(ran, Ran(2, "", f"usage: feed {USAGE}\n"))

    def test_directory_and_rules(self) -> None:
        rules = self.write("rules", "")
        self.env.update({"RRDI": self.stub("rrdi-noting", NOTING), "LOG": str(self.folder / "log")})
        for words, text, reason in (
                (["--graphite", "none"], "", "none is not a directory"),
                (["--graphite", rules], "", f"{rules} is not a directory"),
                (["--graphite", ".", "--rules", "none"], "", "none: No such file or directory"),
                (["--graphite", ".", "--rules", "."], "", ".: Is a directory"),
                (["--graphite", ".", "--rules", "rules"], "", "rules has no rule"),
                (["--graphite", ".", "--rules", "rules"], "# a\n\n", "rules has no rule"),
                (["--graphite", ".", "--rules", "rules"], "# a\na\n",
                 "rules: line 2: expected NAME FILE [ARGUMENTS OF create..]"),
                (["--graphite", ".", "--rules", "rules"], "a ../a\n",
                 "rules: line 1: FILE must be a path below the directory, not ../a")):
            self.write("rules", text)
            self.assertEqual(self.tool("rrdi-feed", *words, given="a 1 10\n"), Ran(1, "", f"rrdi-feed: {reason}\n"))
        self.write("rules", f"** ** {CREATE}\n")
        ran = self.tool("rrdi-feed", "--graphite", ".", "--rules", "rules", given="a 1 10\n", env={"REFUSED": "bad step"})
        self.assertEqual(ran, Ran(1, "", f"rrdi-feed: rules: create {CREATE}: bad step\n"))
        self.assertFalse((self.folder / "log").exists())

    def test_what_is_wrong_with_a_rule(self) -> None:
        """The failure has the explanation of rrdi, which the tool prints as a second line."""
        rules = self.write("rules", f"a a {CREATE} A\n** ** {CREATE}\nb b {CREATE} B\nc c {CREATE} A\nd d\n")
        for number, more in enumerate(("", " A", " B")):
            for reason, detail in ((Reason("bad step", "its step is 0"), "its step is 0"), ("no room", "")):
                writer = mock.Mock()
                writer.create.side_effect = [*[""] * number, reason]
                with self.assertRaises(Failure) as raised:
                    rules_of(rules, writer)
                self.assertEqual((str(raised.exception), raised.exception.detail), (f"{rules}: create {CREATE}{more}: {reason}", detail))
        writer.create.side_effect = [""] * 3
        self.assertEqual([rule.arguments for rule in rules_of(rules, writer)], [(*CREATE.split(), *more.split()) for more in ("A", "", "B", "A")] + [()])


class Feed(ToolCase):
    """With a program that notes what it is asked for."""

    def setUp(self) -> None:
        super().setUp()
        self.log, self.data = self.folder / "log", self.folder / "data"
        self.data.mkdir()
        self.write("log", "")
        self.env.update({"RRDI": self.stub("rrdi-noting", NOTING), "LOG": str(self.log)})

    def logged(self) -> List[str]:
        return self.log.read_text().replace(str(self.data), "data").splitlines()

    def test_lines(self) -> None:
        ran = self.tool("rrdi-feed", "--jobs", "1", given="a 10:1\nUPDATE b 10:5 20:6\n\nbad\na 20:2")
        self.assertEqual(ran, Ran(1, "", "rrdi-feed: expected FILE SAMPLE.., got: bad\nrrdi-feed: bad lines: 1\n"))
        self.assertEqual(self.logged(), ["a 10:1", "a 20:2", "b 10:5", "b 20:6"])

    def test_graphite(self) -> None:
        self.write("rules", f"# loads\nhosts.*.load */load.rrdi {CREATE}\n** **.rrdi\n")
        given = "hosts.w1.load 0.25 20\nroom 1e1 20.5\n../x 1 20\nroom 2 30\nhosts.w1.load x 30\nhosts.w1.load 0.5 30"
        ran = self.tool("rrdi-feed", "--jobs", "1", "--graphite", "data", "--rules", "rules", given=given)
        self.assertEqual(ran, Ran(1, "", "rrdi-feed: the name must be parts without slashes, and a point between them, "
                                         "got: ../x 1 20\n"
                                         "rrdi-feed: the value must be a number, got: hosts.w1.load x 30\n"
                                         "rrdi-feed: bad lines: 2\n"))
        logged = [line for line in self.logged() if not line.startswith("create")]
        self.assertEqual(logged, ["data/w1/load.rrdi 20:0.25", "data/w1/load.rrdi 30:0.5", "data/room.rrdi 20:10",
                                  "data/room.rrdi 30:2"])
        self.assertTrue((self.data / "w1/load.rrdi").exists())
        created = [line for line in self.logged() if line.startswith("create")]
        self.assertEqual(len(created), 2)  # once when the rules are read
        self.assertTrue(created[1].endswith(f" --start 10 {CREATE}"), created[1])
        self.assertEqual(sorted(path.name for path in self.data.rglob("*")), ["load.rrdi", "w1"])

    def test_no_rules(self) -> None:
        self.assertEqual(self.tool("rrdi-feed", "--graphite", "data", given="a.b 1 20\n"), Ran(0, "", ""))
        self.assertEqual(self.logged(), ["data/a.b.rrdi 20:1"])

    def test_nothing_is_written_elsewhere(self) -> None:
        self.write("rules", f"** ** {CREATE}\n")
        names = ["..", "../up", "/" + str(self.folder)[1:] + "/abs", "a/../../up", "x" * 300, ".", "a..b", ".hidden", "~root"]
        before = {path for path in self.folder.rglob("*")}
        given = "".join(f"{name} 1 20\ngood 1 {20 + at}\n" for at, name in enumerate(names))
        ran = self.tool("rrdi-feed", "--graphite", "data", "--rules", "rules", given=given)
        self.assertEqual((ran.status, ran.err.count(", got: "), ran.err.splitlines()[-1]), (1, 8, "rrdi-feed: bad lines: 8"))
        new = {path for path in self.folder.rglob("*")} - before
        self.assertEqual({str(path.relative_to(self.folder)) for path in new}, {"data/good", "data/~root"})
        good = [line for line in self.logged() if line.startswith("data/good ")]
        self.assertEqual(good, [f"data/good {20 + at}:1" for at in range(len(names))])

    def started(self, *words: str, env: Optional[Dict[str, str]] = None) -> "subprocess.Popen[str]":
        """Starts rrdi-feed, and feeds a line."""
        fed = subprocess.Popen([sys.executable, str(TOP / "tools/rrdi-feed"), *words], cwd=self.folder, text=True,
                               env={**self.env, **(env or {})}, stdin=subprocess.PIPE, stderr=subprocess.PIPE)
        assert fed.stdin and fed.stderr
        self.addCleanup(fed.wait)
        self.addCleanup(fed.stdin.close)
        self.addCleanup(fed.stderr.close)
        self.addCleanup(fed.kill)
        fed.stdin.write("a 10:1\n")
        fed.stdin.flush()
        self.wait_until_read(fed, fed.stdin.fileno())
        return fed

    def started_on(self, source: int) -> "subprocess.Popen[str]":
        """Starts rrdi-feed, which reads an open file."""
        fed = subprocess.Popen([sys.executable, str(TOP / "tools/rrdi-feed"), "--jobs", "1"], cwd=self.folder, text=True,
                               env=self.env, stdin=source, stderr=subprocess.PIPE)
        assert fed.stderr
        self.addCleanup(fed.wait)
        self.addCleanup(fed.stderr.close)
        self.addCleanup(fed.kill)
        return fed

    def wait_until_read(self, fed: "subprocess.Popen[str]", source: int) -> None:
        """Waits until rrdi-feed handles its signals and has read its input."""
        until = time.monotonic() + 60
        while True:
            caught = re.search(r"^SigCgt:\s*(\w+)", Path(f"/proc/{fed.pid}/status").read_text(), re.MULTILINE)
            waiting = struct.unpack("i", fcntl.ioctl(source, termios.FIONREAD, bytes(4)))[0]
            if caught and int(caught[1], 16) >> signal.SIGUSR1 - 1 & 1 and not waiting:
                return
            self.assertLess(time.monotonic(), until)
            time.sleep(0.02)

    def wait_for(self, lines: List[str]) -> None:
        until = time.monotonic() + 60
        while self.logged() != lines:
            self.assertLess(time.monotonic(), until, self.logged())
            time.sleep(0.05)

    def test_signals(self) -> None:
        for number in (signal.SIGTERM, signal.SIGINT, signal.SIGHUP):
            self.write("log", "")
            fed = self.started()
            time.sleep(0.3)
            self.assertEqual((fed.poll(), self.logged()), (None, []))
            fed.send_signal(number)
            self.assertEqual(fed.wait(60), 0)
            self.assertEqual(self.logged(), ["a 10:1"])

    def test_a_connection_that_is_reset(self) -> None:
        """What was read before is stored, but for a line that is cut, which is named."""
        for family in (socket.AF_INET, socket.AF_UNIX):
            self.write("log", "")
            if family == socket.AF_INET:
                with socket.create_server(("127.0.0.1", 0)) as server:
                    sender = socket.create_connection(server.getsockname())
                    source, _ = server.accept()
            else:
                sender, source = socket.socketpair()
            with sender, source:
                fed = self.started_on(source.fileno())
                assert fed.stderr
                sender.sendall(b"a 10:1\nb 20:2\na 20:12")
                self.wait_until_read(fed, source.fileno())
                if family == socket.AF_INET:  # the system then resets the connection
                    sender.setsockopt(socket.SOL_SOCKET, socket.SO_LINGER, struct.pack("ii", 1, 0))
                else:  # what the sender has not read resets it
                    source.sendall(b"unread")
                sender.close()
            self.assertEqual((fed.wait(60), fed.stderr.read()), (
                1, "rrdi-feed: cannot read the input any further: Connection reset by peer\n"
                   "rrdi-feed: a line without its end may be lost, got: a 20:12\n"))
            self.assertEqual(self.logged(), ["a 10:1", "b 20:2"])

    def test_a_pipe_without_an_end(self) -> None:
        """Opened for reading and writing, it never ends: a signal does it."""
        os.mkfifo(self.folder / "pipe")
        pipe = os.open(self.folder / "pipe", os.O_RDWR)
        self.addCleanup(os.close, pipe)
        fed = self.started_on(pipe)
        os.write(pipe, b"a 10:1\n")
        self.wait_until_read(fed, pipe)
        fed.send_signal(signal.SIGTERM)
        self.assertEqual((fed.wait(60), self.logged()), (0, ["a 10:1"]))

    def test_no_input(self) -> None:
        ran = self.run_command(["sh", "-c", f"{sys.executable} {TOP}/tools/rrdi-feed <&-"])
        self.assertEqual(ran, Ran(1, "", "rrdi-feed: cannot read the input any further: Bad file descriptor\n"))

    def test_the_seconds_pass(self) -> None:
        fed = self.started("--seconds", "1")
        self.wait_for(["a 10:1"])
        self.assertIsNone(fed.poll())

    def test_messages_that_nobody_reads(self) -> None:
        """Samples are passed on even if standard error is closed."""
        ran = self.run_command(["sh", "-c", f"printf 'bad\\na 10:1\\n' | {sys.executable} {TOP}/tools/rrdi-feed 2>&-"])
        self.assertEqual((ran.status, self.logged()), (1, ["a 10:1"]))
        ran = self.run_command(["sh", "-c", f"printf 'bad\\na 20:1\\n' | {sys.executable} {TOP}/tools/rrdi-feed 2>/dev/full"])
        self.assertIn(ran.status, (1, 120))  # Python ends with 120 if standard error cannot take the last message
        self.assertEqual(self.logged(), ["a 10:1", "a 20:1"])


@needs_program
class Files(ToolCase):
    """With the program, or the library."""

    def test_graphite(self) -> None:
        (self.folder / "data").mkdir()
        self.write("rules", f"room.* room/*.rrdi {CREATE}\n")
        given = "room.temp 20.5 1600000010\nroom.temp 21.25 1600000020\nroom.temp 9 1600000020\nroom.temp nan 1600000030\n"
        ran = self.tool("rrdi-feed", "--graphite", "data", "--rules", "rules", given=given)
        file = f"{os.path.realpath(self.folder)}/data/room/temp.rrdi"
        self.assertEqual(ran, Ran(1, "", f"rrdi-feed: {file} 1600000020:9: not later than 1600000020\n"
                                         "rrdi-feed: 1600000020 is not later than the last update, 1600000020; the next sample "
                                         "may be at 1600000021 or later\n"))
        self.assertEqual(self.rrdi("fetch", file, "AVERAGE", "-s", "1600000010", "-e", "1600000029"),
                         "time: v\n1600000020: 21.250000\n1600000030: nan\n")

    def test_bad_rules(self) -> None:
        self.write("rules", "** ** --step x DS:v:GAUGE:60:U:U RRA:AVERAGE:0.5:1:9\n")
        ran = self.tool("rrdi-feed", "--graphite", ".", "--rules", "rules")
        self.assertEqual((ran.status, ran.err.count("\n")), (1, 2))
        self.assertRegex(ran.err, "^rrdi-feed: rules: create --step x DS:v.*\nrrdi-feed: it is 'x', not a whole number of seconds\n")

    def test_a_full_disk(self) -> None:
        """A disk that is full for the whole time: no file is left, and the samples are reported."""
        self.write("rules", f"** ** {CREATE}0000\n")
        ran = self.tool("rrdi-feed", "--graphite", ".", "--rules", "rules", "--patience", "0", given="a 1 20\n", size=3_000)
        self.assertEqual(ran.status, 1)
        self.assertFalse((self.folder / "a").exists())
        self.assertEqual([path.name for path in self.folder.glob(".rrdi*")], [])
