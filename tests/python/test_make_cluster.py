# SPDX-License-Identifier: MIT OR Apache-2.0
"""Tests of examples/make-cluster: which processes of a member `start` starts. Small servers take the place of Graphite's."""
from __future__ import annotations

import contextlib
import importlib.machinery
import importlib.util
import io
import os
import signal
import socket
import subprocess
import sys
import time
import unittest
from pathlib import Path
from typing import Any, Dict, Iterator, List
from unittest import mock

from cases import HANG, new_folder
from doubles import TOP

# Answers on ports and leaves its id in a file, as a daemon does. Its arguments name the folder of its member.
SERVER = """import os, socket, sys, time
id_file, *ports = sys.argv[1:]
if os.fork() == 0:
    kept = [socket.create_server(("127.0.0.1", int(port))) for port in ports]
    with open(id_file, "w") as file:
        file.write(str(os.getpid()))
    time.sleep(600)
"""


def make_cluster() -> Any:
    loader = importlib.machinery.SourceFileLoader("make_cluster", str(TOP / "examples/make-cluster"))
    spec = importlib.util.spec_from_loader("make_cluster", loader)
    assert spec
    module = importlib.util.module_from_spec(spec)
    sys.modules["make_cluster"] = module  # its named tuples look for their module
    loader.exec_module(module)
    return module


def free_ports() -> int:
    """Returns a port such that it and the next twenty are free."""
    for _ in range(50):
        with socket.create_server(("127.0.0.1", 0)) as server:
            port = int(server.getsockname()[1])
        try:
            for at in range(port, port + 20):
                socket.create_server(("127.0.0.1", at)).close()
        except (OSError, OverflowError):
            continue
        return port
    raise unittest.SkipTest("no free ports")


class Starting(unittest.TestCase):
    def setUp(self) -> None:
        self.module = make_cluster()
        folder = new_folder(self)
        for name in ("node1", "relay", "front"):
            for part in ("pid", "log"):
                (folder / name / part).mkdir(parents=True)
        self.cluster = self.module.Cluster(folder, 1, free_ports(), "rrdi")
        patched = mock.patch.object(self.module, "commands", self.commands)
        patched.start()
        self.addCleanup(patched.stop)
        self.addCleanup(self.end)
        self.started: List[int] = []

    def test_ports_of_many_nodes(self) -> None:
        """Each node has its own, and none is the relay's or the front's."""
        cluster = self.module.Cluster(self.cluster.folder, 20, 12_000, "rrdi")
        found = [port for name in cluster.names if name != "front" for port in cluster.ports(name)]
        self.assertEqual(len(set(found)), 4 * 21)

    def commands(self, cluster: Any, name: str, what: str, python: str) -> Iterator[List[str]]:
        ports = map(str, self.module.ports_of(cluster, name)[what])
        yield [sys.executable, "-c", SERVER, f"{cluster.folder / name}/pid/{what}", *ports]

    def ids(self, name: str) -> Dict[str, int]:
        """The ids of a member's processes, each written after its ports answer."""
        until = time.monotonic() + HANG
        while time.monotonic() < until:
            found: Dict[str, int] = self.module.process_ids(self.cluster, name)
            if len(found) == len(self.module.ports_of(self.cluster, name)):
                self.started += found.values()
                return found
            time.sleep(0.02)
        raise AssertionError(found)

    def end(self) -> None:
        for number in self.started:
            try:
                if os.fsencode(f"{self.cluster.folder}/") in Path(f"/proc/{number}/cmdline").read_bytes():
                    os.kill(number, signal.SIGKILL)
            except OSError:
                pass

    def start(self, name: str) -> Dict[str, int]:
        self.module.start(self.cluster, name, sys.executable)
        return self.ids(name)

    def kill(self, name: str, *numbers: int) -> None:
        for number in numbers:
            os.kill(number, signal.SIGKILL)
        until = time.monotonic() + HANG
        while set(self.module.process_ids(self.cluster, name).values()) & set(numbers) and time.monotonic() < until:
            time.sleep(0.02)

    def test_members(self) -> None:
        """A node has a carbon-cache and a page, the relay has no page, the front nothing else."""
        ports = {name: self.module.ports_of(self.cluster, name) for name in ("node1", "relay", "front")}
        self.assertEqual({name: {what: len(found) for what, found in those.items()} for name, those in ports.items()},
                         {"node1": {"carbon": 3, "web": 1}, "relay": {"carbon": 2}, "front": {"web": 1}})

    def test_settings(self) -> None:
        """Graphite's own settings come first, and the front alone serves the scripts and pictures itself."""
        self.module.write_settings(self.cluster)
        texts = {name: (self.cluster.folder / name / f"web_{name}.py").read_text() for name in ("node1", "front")}
        self.assertTrue(texts["front"].startswith("from graphite.app_settings import *\n"), texts["front"])
        self.assertIn("ROOT_URLCONF = 'front_pages'\n", texts["front"])
        self.assertNotIn("front_pages", texts["node1"])
        self.assertEqual([(self.cluster.folder / name / "front_pages.py").exists() for name in ("node1", "front")], [False, True])
        for text in (*texts.values(), (self.cluster.folder / "front/front_pages.py").read_text()):
            compile(text, "settings", "exec")

    def test_folders_that_settings_cannot_name(self) -> None:
        """A quote or a line feed in the name would be code or a setting."""
        for name in ("it's", 'a"b', "a\\b", "a:b", "a\nENABLE_UDP_LISTENER = True\n", "\x1b[31m", "\udcff"):
            path = self.cluster.folder / name
            with mock.patch.object(sys, "argv", ["make-cluster", "up", str(path)]), contextlib.redirect_stderr(io.StringIO()) as said:
                self.assertEqual(self.module.main(), 1)
            self.assertFalse(path.exists())
            self.assertTrue(said.getvalue()[:-1].isprintable() and "must have no quotes" in said.getvalue(), ascii(said.getvalue()))

    def test_a_cluster_of_another_program(self) -> None:
        for text in ("", "[]", "{}", "[" * 100_000, *(f'{{"nodes": {number}, "port": 1, "database": "rrdi"}}' for number in ('"x"', "Infinity"))):
            (self.cluster.folder / "cluster.json").write_text(text)
            with self.assertRaisesRegex(self.module.Failure, "was not made by make-cluster"):
                self.module.read_cluster(self.cluster.folder)

    def test_the_status(self) -> None:
        """It says whether all was done."""
        self.module.write_settings(self.cluster)
        for words, status in (("status", 0), ("stop node1", 0), ("stop node9", 1)):
            command, _, names = words.partition(" ")
            ran = subprocess.run([sys.executable, "-B", TOP / "examples/make-cluster", command, self.cluster.folder, *names.split()],
                                 capture_output=True, text=True, timeout=HANG)
            self.assertEqual((ran.returncode, bool(ran.stderr)), (status, status > 0), ran)

    def test_what_was_killed(self) -> None:
        """Only what does not run is started, whether one process was killed or both."""
        first = self.start("node1")
        with self.assertRaisesRegex(self.module.Failure, "already running: node1, node1;"):
            self.module.start_all(self.cluster, ["node1", "node1"], sys.executable)
        self.kill("node1", first["carbon"])
        second = self.start("node1")
        self.assertEqual(second["web"], first["web"])
        self.assertNotEqual(second["carbon"], first["carbon"])
        self.kill("node1", *second.values())
        third = self.start("node1")
        self.assertFalse(set(third.values()) & set(second.values()))

    def test_several_members(self) -> None:
        """Those that run are passed over."""
        first = self.start("node1")
        self.module.start_all(self.cluster, ["node1", "relay"], sys.executable)
        self.assertEqual((self.ids("node1"), list(self.ids("relay"))), (first, ["carbon"]))

    def test_a_port_of_another_program(self) -> None:
        with socket.create_server(("127.0.0.1", self.cluster.ports("front").web)), \
                mock.patch.object(self.module, "MOMENT", 0.1), \
                self.assertRaisesRegex(self.module.Failure, "another program uses port"):
            self.module.start(self.cluster, "front", sys.executable)
