# SPDX-License-Identifier: MIT OR Apache-2.0
"""Runs collectd: its plugin rrdtool records this machine's load in files of RRDtool."""
from __future__ import annotations

import os
import subprocess
from pathlib import Path
from typing import Mapping

import pytest

from support.program import TOP, Answer

PROGRAM = "/usr/sbin/collectd"
SECONDS = 20  # of a run
PATIENCE = 300  # seconds in which collectd has to write what it holds, and end


def skip_without(*files: str) -> None:
    """Skips a test if collectd, its plugin rrdtool or one of the files is missing."""
    lacking = [path for path in (PROGRAM, "/usr/lib/collectd/rrdtool.so", *files) if not os.path.exists(path)]
    if lacking:
        pytest.skip(f"there is no {', '.join(lacking)}")


def record(folder: Path, more: str = "", env: Mapping[str, str] | None = None, program: str = PROGRAM,
           seconds: float = SECONDS) -> Answer:
    """Runs collectd in a folder, and then ends it. The files of the plugin rrdtool are in `rrdtool` below it. `more` is
    added to the settings. The answer has both streams in one."""
    folder.mkdir(parents=True, exist_ok=True)
    settings = folder / "collectd.conf"
    usual = (TOP / "tests/interop/settings/collectd.conf").read_text()
    settings.write_text((usual + more).replace("FOLDER", str(folder)))
    with subprocess.Popen([program, "-f", "-C", settings], env=env, stdin=subprocess.DEVNULL, stdout=subprocess.PIPE,
                          stderr=subprocess.STDOUT, text=True) as running:
        try:
            out, _ = running.communicate(timeout=seconds)
        except subprocess.TimeoutExpired:
            running.terminate()
            out, _ = running.communicate(timeout=PATIENCE)
    return Answer(running.returncode, out)
