# SPDX-License-Identifier: MIT OR Apache-2.0
"""The list of what is installed, installed.txt, and what a folder or a package of Debian has."""
from __future__ import annotations

import io
import re
import subprocess
import sysconfig
import tarfile
from pathlib import Path
from typing import Iterator

from support.program import TOP

LIST = Path(__file__).with_name("installed.txt")
# What is not there without Python's headers.
EXTENSION, HEADER = "_rrdi.abi3.so", Path(sysconfig.get_path("include"), "Python.h")
FUNCTION = re.compile(r"^(?:static inline )?\w[\w ]*[ *](rrdi_\w*[a-z])\(", re.MULTILINE)


def functions() -> set[str]:
    """Returns the functions of the headers."""
    return {name for path in TOP.glob("include/*.h") for name in FUNCTION.findall(path.read_text())}


def filled(line: str, **places: str) -> Iterator[str]:
    """Yields the lines for which one with braces stands."""
    found = re.search(r"\{(.+?)\}", line)
    if not found:
        yield line
        return
    named = {"TOOL": [path.name for path in TOP.glob("tools/rrdi-*")], "FUNCTION": functions(),
             **{name: [value] for name, value in places.items()}}
    values = named.get(found[1]) or [path.relative_to(TOP).as_posix() for path in TOP.glob(found[1])]
    for value in values:
        yield from filled(line.replace(found[0], value), **places)


def listed(*sections: str, LIBDIR: str = "lib", ZSHDIR: str = "share/zsh/site-functions") -> set[str]:
    """Returns the files of some sections of the list, with their modes."""
    found = dict(re.findall(r"^\[(.*)\]\n((?:.+\n)*)", LIST.read_text(), re.MULTILINE))
    return {" ".join(one.split()) for section in sections for line in found[section].splitlines()
            for one in filled(line, LIBDIR=LIBDIR, ZSHDIR=ZSHDIR) if EXTENSION not in one or HEADER.is_file()}


def in_folder(folder: Path) -> set[str]:
    """Returns the files below a folder with their modes, and the directories with another mode than 755."""
    found = set()
    for path in folder.rglob("*"):
        mode = "link" if path.is_symlink() else f"{path.stat().st_mode & 0o7777:o}"
        if mode != "755" or not path.is_dir():
            found.add(f"{mode} {path.relative_to(folder).as_posix()}")
    return found


def in_package(package: Path) -> set[str]:
    """Returns the files of a package, without those of its own documents. Not everything is below /usr."""
    packed = subprocess.run(["dpkg-deb", "--fsys-tarfile", package], capture_output=True, check=True).stdout
    found = set()
    with tarfile.open(fileobj=io.BytesIO(packed)) as archive:
        for member in archive:
            mode = "link" if member.issym() else f"{member.mode:o}"
            assert (member.uname, member.gname) == ("root", "root")
            if mode != "755" or not member.isdir():
                found.add(f"{mode} {re.sub('^[.]/(usr/)?', '', member.name)}")
    return {file for file in found if "share/doc/" not in file and not file.endswith(".rtupdate")}
