# SPDX-License-Identifier: MIT OR Apache-2.0
"""Tests of rrdi-feed as a process: its lines, its times, its batches, and files that cannot be opened."""
from __future__ import annotations

import fcntl
import os
import re
import signal
import struct
import subprocess
import termios
import time
import unittest
from pathlib import Path
from typing import Dict, List, Optional, Tuple

from cases import HANG, NO_LIBRARY, needs_program
from doubles import PROGRAM
from process_case import ProcessCase, locked, path_of, script
from tool_case import Ran


def give(fed: "subprocess.Popen[bytes]", text: str) -> None:
    assert fed.stdin
    fed.stdin.write(text.encode())
    fed.stdin.flush()


class FeedCase(ProcessCase):
    def feeder(self, *words: str, env: Optional[Dict[str, str]] = None) -> "subprocess.Popen[bytes]":
        return self.start(path_of("rrdi-feed"), *words, env=env, stdin=subprocess.PIPE, stderr=subprocess.PIPE)

    def until_read(self, fed: "subprocess.Popen[bytes]") -> None:
        """Waits until feed handles its signals, and has read all its input."""
        assert fed.stdin
        stream = fed.stdin

        def is_read() -> bool:
            caught = re.search(r"^SigCgt:\s*(\w+)", Path(f"/proc/{fed.pid}/status").read_text(), re.MULTILINE)
            waiting = struct.unpack("i", fcntl.ioctl(stream, termios.FIONREAD, bytes(4)))[0]
            return bool(caught and int(caught[1], 16) >> signal.SIGUSR1 - 1 & 1 and not waiting)

        self.until("the lines are read", is_read)

    def check_after_lock(self, fed: "subprocess.Popen[bytes]") -> None:
        """Checks that feed, whose file no other program holds any more, stores all samples in their order, and ends. Checks
        that feed gives up a file that stays locked."""
        self.until("tried again", lambda: self.asked("last", "f.rrdi") in ("20\n", "30\n"))
        assert fed.stdin
        fed.stdin.close()
        self.same("the status", fed.wait(HANG), 0)
        self.same("all samples", self.asked("fetch", "f.rrdi", "AVERAGE", "-s", "0", "-e", "29"),
                   "time: g\n10: 1.000000\n20: 2.000000\n30: 3.000000\n")
        with locked(self.folder / "f.rrdi"):
            self.same("given up", self.ran(path_of("rrdi-feed"), "--patience", "1", given="f.rrdi 40:4 50:5\n"),
                       Ran(1, "", "rrdi-feed: f.rrdi: cannot open: another program holds its lock; 2 samples may be lost\n"
                                  "rrdi-feed: may be lost: f.rrdi 40:4 50:5\n"))


@needs_program
class Lines(FeedCase):
    def test_lines(self) -> None:
        feed = path_of("rrdi-feed")
        for file in ("a.rrdi", "b.rrdi"):
            self.made(file)
        lines = "a.rrdi 10:1\nUPDATE b.rrdi 10:5 20:6\n\na.rrdi 20:2\nupdate b.rrdi 30:6\na.rrdi 30:3"
        self.same("lines, the last one without its end", self.ran(feed, given=lines), Ran(0, "", ""))
        self.same("samples in their order", self.asked("fetch", "a.rrdi", "AVERAGE", "-s", "0", "-e", "29"),
                   "time: g\n10: 1.000000\n20: 2.000000\n30: 3.000000\n")
        self.same("another file", self.asked("last", "b.rrdi"), "30\n")
        self.same("refused samples", self.ran(feed, given="a.rrdi 40:1\na.rrdi 30:9 25:8\na.rrdi x\na.rrdi 50:2\n"),
                   Ran(1, "", "rrdi-feed: a.rrdi x: unreadable sample 1\n"
                              "rrdi-feed: 'x' has no value; write TIME:VALUE\n"
                              "rrdi-feed: a.rrdi 25:8: not later than 30\n"
                              "rrdi-feed: a.rrdi 30:9: not later than 30\n"
                              "rrdi-feed: 25 is not later than the last update, 30; the next sample may be at 31 or later\n"))
        self.same("the others", self.asked("last", "a.rrdi"), "50\n")
        self.same("no database", self.ran(feed, given="none.rrdi 10:1 20:2\n"),
                   Ran(1, "", "rrdi-feed: none.rrdi 10:1: no database\nrrdi-feed: none.rrdi 20:2: no database\n"
                              "rrdi-feed: there is none yet: begin with a create, or check the path of FILE\n"))
        self.same("no sample", self.ran(feed, given="a.rrdi\n"),
                   Ran(1, "", "rrdi-feed: expected FILE SAMPLE.., got: a.rrdi\nrrdi-feed: bad lines: 1\n"))
        (self.folder / "cut").write_bytes(self.read("a.rrdi")[:9])
        self.same("a damaged file", self.ran(feed, given="cut 60:1 70:1\n"),
                   Ran(1, "", "rrdi-feed: cut: file: truncated at 9; 2 samples may be lost\nrrdi-feed: may be lost: cut 60:1 70:1\n"))
        for words in (["--jobs", "0"], ["--seconds"], ["--wrong", "1"]):
            self.same(f"usage {words}", self.ran(feed, *words).status, 2)

    def test_times(self) -> None:
        """Checks the times at which feed passes samples on: not before their seconds, then at once; by signals; and if too
        many are held."""
        for file in ("a.rrdi", "b.rrdi", "c.rrdi", "n.rrdi"):
            self.made(file)
        begin, arrived = time.monotonic(), int(time.time())
        fed = self.feeder("--seconds", "4")
        give(fed, "a.rrdi 10:1\nn.rrdi 5:1\nn.rrdi N:1\n")
        self.until_read(fed)
        time.sleep(0.5)
        held = self.asked("last", "a.rrdi")
        if time.monotonic() - begin < 4:
            self.same("before the seconds", held, "0\n")
        self.until("after the seconds", lambda: self.asked("last", "a.rrdi") == "10\n")
        # While feed has the lock of the file, there is no answer.
        self.until("N", lambda: int(self.asked("last", "n.rrdi") or 0) > 5)
        # It is passed on four seconds later.
        self.same("N is when its line arrived", arrived <= int(self.asked("last", "n.rrdi")) <= int(time.time()) - 3, True)
        fed.kill()
        fed = self.feeder()
        for at in (10, 20):
            give(fed, f"b.rrdi {at}:1\n")
            self.until_read(fed)
            time.sleep(0.3)
            self.same("held for a minute", self.asked("last", "b.rrdi"), f"{at - 10}\n")
            fed.send_signal(signal.SIGUSR1)
            self.until("after SIGUSR1", lambda: self.asked("last", "b.rrdi") == f"{at}\n")
            self.same("feed goes on after it", fed.poll(), None)
        fed.kill()
        for at, number in enumerate((signal.SIGTERM, signal.SIGINT, signal.SIGHUP)):
            fed = self.feeder()
            give(fed, f"c.rrdi {10 + 10 * at}:1\n")
            self.until_read(fed)
            self.same("held for a minute", self.asked("last", "c.rrdi"), f"{10 * at}\n")
            fed.send_signal(number)
            self.same(f"the status after {number.name}", fed.wait(HANG), 0)
            self.same(f"the sample after {number.name}", self.asked("last", "c.rrdi"), f"{10 + 10 * at}\n")
        fed = self.feeder("--held", "2")
        give(fed, "c.rrdi 40:1\na.rrdi 40:1\n")
        self.until("when too many are held", lambda: self.asked("last", "c.rrdi") == "40\n")
        fed.kill()


@needs_program
class Processes(FeedCase):
    """Each batch is a process."""

    def most_at_a_time(self, log: Path) -> Tuple[int, int]:
        """Returns the number of batches in a log, and the number that ran at a time. No two batches run on one file, and
        each runs in a session of its own."""
        running: List[str] = []
        most, batches = 0, 0
        for line in log.read_text().splitlines():
            word, file, *session = line.split()
            if word == "end":
                running.remove(file)
                continue
            self.same(f"another batch on {file}", file in running, False)
            self.same("a session of its own", session[0], session[1])
            running.append(file)
            most, batches = max(most, len(running)), batches + 1
        return batches, most

    def test_batches(self) -> None:
        """Checks that feed runs up to JOBS batches at a time, and never two on one file."""
        log, may_end = self.folder / "log", self.folder / "may end"
        slow = self.stub("slow", f'cat >/dev/null\nread -r a b c d e session rest </proc/$$/stat\n'
                                  f'echo "begin $2 $session $$" >>{log}; until [ -e "{may_end}" ]; do sleep 0.1; done; echo "end $2" >>{log}')
        for jobs, first, wanted in ((2, "a 10:1\nb 10:1\nc 10:1\na 11:1\na 12:1\n", (4, 2)), (4, "a 10:1\n", (2, 1))):
            log.write_text("")
            may_end.unlink(missing_ok=True)
            fed = self.feeder("--jobs", str(jobs), env={"RRDI": slow})
            give(fed, first)
            self.until_read(fed)
            fed.send_signal(signal.SIGUSR1)
            self.until("as many batches as jobs", lambda: log.read_text().count("begin") == wanted[1])
            give(fed, "a 20:1\n")
            self.until_read(fed)
            fed.send_signal(signal.SIGUSR1)
            time.sleep(0.5)  # for a batch that must not begin
            may_end.touch()
            self.until("the batch after it", lambda: log.read_text().count("begin a") == 2)
            assert fed.stdin
            fed.stdin.close()
            fed.wait(HANG)
            self.same("batches, and how many at a time", self.most_at_a_time(log), wanted)

    def test_again(self) -> None:
        """Checks that feed tries samples again whose file cannot be opened, before newer samples."""
        self.made("f.rrdi")
        log = self.folder / "log"
        log.touch()
        logged = self.stub("logged", f'echo try >>{log}; exec {PROGRAM} "$@"')
        with locked(self.folder / "f.rrdi"):
            fed = self.feeder(env={"RRDI": logged})
            give(fed, "f.rrdi 10:1\nf.rrdi 20:2\n")
            self.until_read(fed)
            fed.send_signal(signal.SIGUSR1)
            self.until("some tries", lambda: log.read_text().count("try") >= 3)
            give(fed, "f.rrdi 30:3\n")
            self.until_read(fed)
            before = log.read_text().count("try")
            self.until("more tries", lambda: log.read_text().count("try") >= before + 2)
        self.check_after_lock(fed)
        with locked(self.folder / "f.rrdi"):
            with open(self.folder / "said", "w") as said:
                fed = self.start(path_of("rrdi-feed"), "--held", "2", stdin=subprocess.PIPE, stderr=said)
            give(fed, "f.rrdi 40:4 50:5\n")
            self.until("given up when only such files fill the memory",
                        lambda: "may be lost: f.rrdi 40:4 50:5\n" in (self.folder / "said").read_text())
            fed.kill()
        self.same("no program", self.ran(path_of("rrdi-feed"), "--patience", "0", given="f.rrdi 60:1\n",
                                           env={"RRDI": "/nowhere"}),
                   Ran(1, "", "rrdi-feed: f.rrdi: /nowhere: No such file or directory; 1 samples may be lost\n"
                              "rrdi-feed: may be lost: f.rrdi 60:1\n"))


@needs_program
@unittest.skipUnless("RRDI_TOOLS_BY" in os.environ, NO_LIBRARY)
class InProcess(FeedCase):
    def test_files(self) -> None:
        """Checks that feed keeps samples of a file that another program holds, and passes them on before newer samples."""
        self.made("f.rrdi")
        with locked(self.folder / "f.rrdi"):
            fed = self.feeder()
            give(fed, "f.rrdi 10:1\nf.rrdi 20:2\n")
            self.until_read(fed)
            fed.send_signal(signal.SIGUSR1)
            time.sleep(0.5)
            self.same("nothing is stored", self.ran(script("rrdi.py"), "check", "f.rrdi").status, 1)
            give(fed, "f.rrdi 30:3\n")
            self.until_read(fed)
        self.check_after_lock(fed)
        many = [f"{number}.rrdi" for number in range(30)]
        for file in many:
            self.made(file)
        lines = "".join(f"{file} {10 * at}:{at}\n" for at in range(1, 40) for file in many)
        self.same("many files", self.ran(path_of("rrdi-feed"), given=lines), Ran(0, "", ""))
        self.same("all their samples", {self.asked("last", file) for file in many}, {"390\n"})

    def test_open_files(self) -> None:
        """A file that comes back soon stays open: others read it, and change it after the end, or a kill, of feed."""
        self.made("f.rrdi")
        for first, end in ((10, signal.SIGTERM), (70, signal.SIGKILL)):
            fed = self.feeder("--seconds", "1", "--open-seconds", "600")
            for at in range(first, first + 30, 10):
                give(fed, f"f.rrdi {at}:{at}\n")
                self.until("the sample", lambda: self.asked("last", "f.rrdi") == f"{at}\n")
            assert PROGRAM
            update = [PROGRAM, "update", "f.rrdi", f"{first + 50}:{first + 50}"]
            self.same("nobody changes it", self.ran(*update, env={"RRDI_WAIT": "0"}).status, 1)
            tune = [PROGRAM, "tune", "f.rrdi", "--heartbeat", "g:100"]
            fed.send_signal(signal.SIGUSR1)
            self.until("feed lets go of it", lambda: self.ran(*tune, env={"RRDI_WAIT": "0"}).status == 0)
            for at in (first + 30, first + 40):
                give(fed, f"f.rrdi {at}:{at}\n")
                self.until("the sample", lambda: self.asked("last", "f.rrdi") == f"{at}\n")
            fed.send_signal(end)
            fed.wait(HANG)
            self.same("then others do", self.ran(*update), Ran(0, "", ""))
        rows = "".join(f"{at}: {at}.000000\n" for at in range(10, 130, 10))
        self.same("all samples", self.asked("fetch", "f.rrdi", "AVERAGE", "-s", "0", "-e", "119"), f"time: g\n{rows}")
