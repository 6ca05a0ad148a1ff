# SPDX-License-Identifier: MIT OR Apache-2.0
"""The version is the same everywhere; pip installs each tool, and shells complete each; the units start what is there."""
from __future__ import annotations

import os
import re
import shutil
import subprocess
from pathlib import Path
from typing import Callable

from support.program import TOP

PC = """prefix=/opt
includedir=${{prefix}}/include
libdir=${{prefix}}/lib/sub

Name: rrdi
Description: Round-robin databases in the process
Version: {version}
Cflags: -I${{includedir}}
Libs: -L${{libdir}} -lrrdi
"""
MOST_EXPOSED = 39  # of the services: tenths of what systemd-analyze rates
# What docs/install.md promises of the units: lines that each has.
PROMISED = {
    "rrdi-feed.socket": ("ListenFIFO=/run/rrdi-feed", "SocketUser=rrdi", "SocketGroup=rrdi", "SocketMode=0620"),
    "rrdi-feed.service": ("EnvironmentFile=-/etc/default/rrdi-feed", "StandardInput=socket", "StandardError=journal",
                          "SuccessExitStatus=1", "Restart=always", "User=rrdi", "WorkingDirectory=/var/lib/rrdi"),
    "rrdi-record.timer": ("OnCalendar=minutely", "WantedBy=timers.target"),
    "rrdi-record.service": ("Type=oneshot", "User=rrdi", "StateDirectory=rrdi"),
}


def test_versions() -> None:
    ran = subprocess.run([TOP / "scripts/set-version", "--check"], capture_output=True, text=True)
    assert (ran.returncode, ran.stdout) == (0, "")


def test_another_version(folder: Path) -> None:
    """A file with another one is named, until the script has written the version into it."""
    (folder / "scripts").mkdir()
    script = shutil.copy(TOP / "scripts/set-version", folder / "scripts")
    for name, text in (("VERSION", "1.2.3\n"), ("README.md", "Version 1.2.2 (changes)\n"), ("CHANGELOG.md", "## 1.2.3 - today\n")):
        (folder / name).write_text(text)
    for words, status, printed in ((["--check"], 1, "README.md\n"), ([], 0, "README.md\n"), (["--check"], 0, "")):
        ran = subprocess.run([script, *words], capture_output=True, text=True)
        assert (ran.returncode, ran.stdout) == (status, printed), words
    assert (folder / "README.md").read_text() == "Version 1.2.3 (changes)\n"


def test_tools() -> None:
    table = (TOP / "python/pyproject.toml").read_text().partition("[project.scripts]\n")[2]
    scripts = dict(re.findall(r'^([\w-]+) = "([\w.]+):main"$', table, re.MULTILINE))
    starts = {path.name: path.read_text() for path in (TOP / "tools").glob("rrdi-*")}
    assert scripts.keys() == starts.keys()
    for name, module in scripts.items():
        assert f"from {module} import main" in starts[name]
    for path, pattern in (("tools/completion/_rrdi", r"^#compdef rrdi (.*)$"),
                          ("examples/rrdi-tools.bash", r"^complete -F _rrdi_tool (.*)$")):
        completed, = re.findall(pattern, (TOP / path).read_text(), re.MULTILINE)
        assert set(completed.split()) == starts.keys(), path


def test_settings_for_pkg_config(make: Callable[..., None], stand_in: list[str], folder: Path) -> None:
    make("install", f"DESTDIR={folder}/new", "PREFIX=/opt", "LIBDIR=lib/sub", *stand_in)
    version = (TOP / "VERSION").read_text().strip()
    assert (folder / "new/opt/lib/sub/pkgconfig/rrdi.pc").read_text() == PC.format(version=version)


def test_units(make: Callable[..., None], folder: Path, needs: Callable[..., None]) -> None:
    needs("systemd-analyze")
    make("install", f"PREFIX={folder}/new", "LDCONFIG=:")
    units = {path.name: path for path in (folder / "new/lib/systemd/system").iterdir()}
    assert units.keys() == PROMISED.keys()
    for name, path in units.items():
        text = path.read_text()
        assert not set(PROMISED[name]) - set(text.splitlines()) and "@PREFIX@" not in text, name
        assert all(os.access(program, os.X_OK) for program in re.findall(r"^ExecStart=(\S+)", text, re.MULTILINE)), name
    assert " RRDI_SYNC=1 " in units["rrdi-feed.service"].read_text()
    ran = subprocess.run(["systemd-analyze", "verify", "--man=no", *units.values()], capture_output=True, text=True)
    # It says what it thinks of other packages' units too.
    of_ours = [line for line in ran.stderr.splitlines() if "rrdi" in line or not line.startswith(("/lib/", "/usr/lib/"))]
    assert (ran.returncode, of_ours) == (0, [])
    services = [path for name, path in units.items() if name.endswith(".service")]
    rated = [subprocess.run(["systemd-analyze", "security", "--offline=true", "--no-pager", f"--threshold={MOST_EXPOSED}", path],
                            capture_output=True, text=True) for path in services]
    assert [(ran.returncode, "exposure level" in ran.stdout) for ran in rated] == [(0, True)] * 2
