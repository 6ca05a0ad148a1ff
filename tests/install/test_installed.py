# SPDX-License-Identifier: MIT OR Apache-2.0
"""The program, the library and the tools run from an installation, from the packages and from the wheel."""
from __future__ import annotations

import gzip
import os
import re
import shutil
import subprocess
import sys
from pathlib import Path
from typing import Callable

import pytest

from support.program import TOP

CREATE = ("create", "net.rrdi", "--start", "0", "--step", "10", "DS:g:GAUGE:99:U:U", "RRA:MAX:0.5:1:3")
SHOW = 'import rrdi; print(rrdi.info("net.rrdi").step, rrdi.load_library() is not None)'
PATIENCE = 600


def told(folder: Path, *words: object, status: int = 0, **env: object) -> str:
    """Runs a command without the caller's settings, and returns what it prints."""
    kept = {name: value for name, value in os.environ.items() if not name.startswith(("RRDI", "PYTHON"))}
    ran = subprocess.run(list(map(str, words)), cwd=folder, capture_output=True, text=True, timeout=PATIENCE,
                         env={**kept, **{name: str(value) for name, value in env.items()}})
    assert ran.returncode == status, (words, ran)
    return ran.stdout + ran.stderr


def test_an_installation(built: Callable[..., None], folder: Path) -> None:
    local = folder / "local"
    built("install", f"PREFIX={local}")
    told(folder, local / "bin/rrdi", *CREATE)
    assert '"step": 10' in told(folder, local / "share/rrdi/examples/rrdi.py", "json", "net.rrdi")
    modules, library = local / "lib/python3/dist-packages", local / "lib/librrdi.so.0"
    assert told(folder, sys.executable, "-B", "-c", SHOW, PYTHONPATH=modules, RRDI_LIBRARY=library) == "10 True\n"
    compat = told(folder, sys.executable, "-B", "-c", "import rrdtool; print(rrdtool.fetch.__module__)",
                  PYTHONPATH=local / "share/rrdi/python/compat", RRDI_LIBRARY=library)
    assert compat == "rrdi.compat.rrdtool\n"
    path = f"{local}/bin:/usr/bin:/bin"
    assert "<cf>MAX</cf>" in told(folder, "rrdi-export", "net.rrdi", PATH=path)
    assert "rrdi-import: ERROR: " in told(folder, "rrdi-import", "none.rrd", status=1, PATH=path)
    for tool in sorted((TOP / "tools").glob("rrdi-*")):
        assert "Exit status:" in told(folder, tool.name, "--help", PATH=path)
    for page in [*local.glob("share/man/man1/*.gz"), local / "share/man/man3/rrdi.3.gz"]:
        text = gzip.decompress(page.read_bytes()).decode()
        assert not re.search(r"(?m)(^|[ <])(docs|examples)/", text), f"{page.name} names a file that is elsewhere"


def test_no_program(folder: Path, needs: Callable[..., None]) -> None:
    needs("make")
    for goal in ("install", "deb"):
        words = ("make", "-s", "-C", TOP, goal, "PROGRAM=nowhere", f"DESTDIR={folder}")
        assert "nowhere not found; run make first" in told(folder, *words, status=2)


def test_packages_of_a_fresh_tree(make: Callable[..., None], folder: Path) -> None:
    """`make deb` makes the folder of the packages, also for the program alone."""
    stub = folder / "bin/dpkg-buildpackage"
    stub.parent.mkdir()
    stub.write_text('#!/bin/sh\ntest -d "$DEBS" && touch "$DEBS/made"\n')
    stub.chmod(0o755)
    make("deb", f"PATH={stub.parent}:{os.environ['PATH']}")
    assert (folder / "top/out/made").exists()


def test_no_kit(folder: Path, needs: Callable[..., None]) -> None:
    """An archive that was built elsewhere is linked with the kit, which is found by its rt."""
    needs("make")
    (folder / "built.a").touch()
    words = ("make", "-s", "-C", TOP, "link-library", f"ARCHIVE={folder}/built.a", f"BUILD={folder}/out", "KIT=/nowhere")
    assert "/nowhere/c/libos_c.a not found; the library is linked with the Rattle kit" in told(folder, *words, status=2)
    assert not (folder / "out").exists()


@pytest.mark.xdist_group("packages")
def test_packages(packages: dict[str, Path], needs: Callable[..., None], folder: Path) -> None:
    needs("perl")
    usr = folder / "unpacked/usr"
    for package in packages.values():
        told(folder, "dpkg-deb", "-x", package, "unpacked")
    told(folder, usr / "bin/rrdi", *CREATE)
    assert "step = 10" in told(folder, usr / "bin/rrdi", "info", "net.rrdi")
    library, = usr.glob("lib/*/librrdi.so.0")
    assert told(folder, sys.executable, "-B", "-c", SHOW, PYTHONPATH=usr / "lib/python3/dist-packages",
                RRDI_LIBRARY=library) == "10 True\n"
    times = 'print join " ", RRDs::times("epoch+1", "epoch+2")'
    assert told(folder, "perl", "-T", f"-I{usr}/share/rrdi/perl", "-MRRDs", "-e", times) == "1 2"


def test_the_library_of_a_wheel(library: Path, folder: Path) -> None:
    tree = folder / "wheel/python"
    shutil.copytree(TOP / "python", tree, ignore=shutil.ignore_patterns("__pycache__", "tests"))
    code = f"import build_backend; print(build_backend.build_wheel({str(folder)!r}))"
    told(tree, sys.executable, "-c", code, PYTHONPATH=".", RRDI_LIBRARY=library)
    wheel, = folder.glob("*manylinux*.whl")
    shutil.unpack_archive(wheel, folder / "site", "zip")
    show = "import rrdi; print(rrdi.library_path(), rrdi.load_library() is not None)"
    assert told(folder / "site", sys.executable, "-B", "-c", show) == f"{folder}/site/rrdi/librrdi.so.0 True\n"
