# SPDX-License-Identifier: MIT OR Apache-2.0
"""Finds and runs RRDtool's own program."""
from __future__ import annotations

import os
import subprocess
from typing import List, Optional

from .command_line import Failure

# A file that has one of these texts in its first bytes is rrdi's own rrdtool.
OWN = (b"rrdtool-words", b"rrdi-rrdtool", b"rrdi.tools")
NOT_INSTALLED = "rrdtool is not installed (Debian: apt install rrdtool)"


def find() -> Optional[str]:
    """Finds rrdtool on the PATH. Passes over a link of this name to rrdi's own rrdi-rrdtool."""
    for folder in os.get_exec_path():
        path = os.path.join(folder, "rrdtool")
        if os.path.isfile(path) and os.access(path, os.X_OK):
            with open(path, "rb") as file:
                first = file.read(4096)
            if not any(own in first for own in OWN):
                return path
    return None


def found() -> str:
    """Returns the path of rrdtool.

    # Errors
    `Failure` if rrdtool is not installed.
    """
    path = find()
    if path is None:
        raise Failure(NOT_INSTALLED)
    return path


def ask(words: List[str]) -> str:
    """Runs rrdtool and returns its output.

    # Errors
    `Failure` with rrdtool's own message if rrdtool fails or is not installed.
    """
    # Where numbers have a comma, so have those that `rrdtool fetch` prints. LC_ALL would overrule LC_NUMERIC.
    env = {**os.environ, "LC_NUMERIC": "C"}
    if "LC_ALL" in env:
        env["LANG"] = env.pop("LC_ALL")
    ran = subprocess.run([found(), *words], capture_output=True, env=env)
    if ran.returncode != 0:
        text = ran.stderr.decode(errors="replace").strip()
        raise Failure(text or f"rrdtool ended with status {ran.returncode}")
    return ran.stdout.decode(errors="replace")
