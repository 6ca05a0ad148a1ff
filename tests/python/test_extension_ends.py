# SPDX-License-Identifier: MIT OR Apache-2.0
"""Tests of how a process or a sub-interpreter ends that has used the extension `_rrdi`: open databases are closed."""
from __future__ import annotations

import os
import subprocess
import sys
from importlib.util import find_spec
from typing import List

from building import ByExtension, extension_path, stub_path
from cases import HANG, DataCase
from doubles import TOP

SCRIPT = """import sys
sys.path[:0] = [{package!r}]
import rrdi
from rrdi import library
library.load_library({stub!r})
def use(*more):
    kept = rrdi.Database({file!r}).open()
    for sample in ((10, 1), (20, 1), (30, 1), *more):
        kept.update(sample)
    return kept
kept = use()
"""
# What a program does before it ends with an open database, and whether that is closed then.
ENDINGS = {"": True, "import os; os._exit(0)": False, "sys.exit()": True, "rrdi.kept_by_the_package = kept": True,
           "cycle = [kept]; cycle.append(cycle); del kept": True,
           "import threading; threading.Thread(target=lambda: [kept.update((10, 1)) for _ in iter(int, 1)], daemon=True).start()": False,
           "kept.close(); import atexit; atexit.register(use)": True}
INTERPRETERS = """
import {name} as interpreters
for _ in range(3):
    one = interpreters.create({isolated})
    failed = interpreters.run_string(one, {script!r})
    assert not failed, failed
    interpreters.destroy(one)
print("the outer one", library.the_library().__class__.__name__, flush=True)
kept.update((40, 1))
"""


class Ends(ByExtension, DataCase):
    """Programs that end. Their library is one in C, which says when it closes a file."""

    def script(self, text: str, **others: object) -> str:
        file = self.folder / "f.rrdi"
        file.write_bytes(b"a database")
        return text.format(package=str(TOP / "python"), file=str(file), stub=str(stub_path()), **others)

    def ran(self, script: str) -> List[str]:
        env = {**os.environ, "RRDI_EXTENSION": str(extension_path())}
        ran = subprocess.run([sys.executable, "-B", "-c", script], stdout=subprocess.PIPE, stderr=subprocess.PIPE,
                             universal_newlines=True, timeout=HANG, env=env)
        self.assertEqual((ran.returncode, ran.stderr), (0, ""))
        return ran.stdout.splitlines()

    def test_open_databases_at_the_end(self) -> None:
        for ending, is_closed in ENDINGS.items():
            with self.subTest(ending=ending):
                closed = ["closed"] * (is_closed + ending.startswith("kept.close"))
                self.assertEqual(self.ran(self.script(SCRIPT) + ending), closed)

    def test_sub_interpreters(self) -> None:
        """Each has its own calls and files."""
        name = next((name for name in ("_interpreters", "_xxsubinterpreters") if find_spec(name)), None)
        if name is None:
            self.skipTest("no sub-interpreters")
        inner = self.script(SCRIPT) + "print(library.the_library().__class__.__name__, flush=True)\n"
        shared = "isolated=False" if name == "_xxsubinterpreters" else "'legacy'"  # the interpreter's lock, from 3.12 on
        for isolated in ("", shared) if sys.version_info >= (3, 9) else ("",):
            said = self.ran(self.script(SCRIPT) + self.script(INTERPRETERS, name=name, isolated=isolated, script=inner))
            self.assertEqual(said, ["Library", "closed"] * 3 + ["the outer one Library", "closed"], isolated)
