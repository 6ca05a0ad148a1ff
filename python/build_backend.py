# SPDX-License-Identifier: MIT OR Apache-2.0
"""Builds the wheel and the source archive of this package for pip, by the functions that PEP 517 and PEP 660 name.

If librrdi was built (`make library` leaves out/librrdi.so.0 in the repository), or the variable RRDI_LIBRARY names it,
wheel and archive have it beside the modules, and the wheel's tag names the systems on which the library runs. Without
the library the wheel runs anywhere, has only the modules, and its summary says so.

The extension that calls the library, out/_rrdi.abi3.so, is beside the library if it was built and is for the same
processor. The tag names no version of Python even then: where the extension does not run, ctypes takes its place.

Setuptools would need the network in pip's own environment, leave folders in the tree, and take a library for a module of
one version of Python.
"""
from __future__ import annotations

import ast
import base64
import gzip
import hashlib
import importlib.util
import io
import os
import re
import sys
import tarfile
import zipfile
from pathlib import Path
from typing import Any, Dict, Optional

HERE = Path(__file__).resolve().parent
# The repository, or the source archive: what is above a folder to which that was unpacked, such as /tmp, is anybody's.
TOP = HERE if (HERE / "PKG-INFO").is_file() else HERE.parent
LIBRARY, EXTENSION = "rrdi/librrdi.so.0", "rrdi/_rrdi.abi3.so"
SUMMARY = "Round-robin time-series databases with RRDtool's commands and exact undo"
LICENSE = "MIT OR Apache-2.0"
WITHOUT = " (without the C library librrdi)"
# The processors of the numbers in an ELF file.
PROCESSORS = {62: "x86_64", 183: "aarch64"}
# The oldest version of glibc's that such tags name, and the files' time: the first that a zip can hold.
OLDEST_GLIBC, LONG_AGO = 17, (1980, 1, 1, 0, 0, 0)
Settings = Optional[Dict[str, Any]]


def build_wheel(wheel_directory: str, config_settings: Settings = None, metadata_directory: Optional[str] = None) -> str:
    """Builds a wheel, and returns its name."""
    return write_wheel(Path(wheel_directory), modules(), find_compiled("wheel"))


def build_editable(wheel_directory: str, config_settings: Settings = None, metadata_directory: Optional[str] = None) -> str:
    """Builds a wheel that makes Python import the modules from this tree, and returns its name."""
    return write_wheel(Path(wheel_directory), {"rrdi.pth": f"{HERE}\n".encode()}, {})


def build_sdist(sdist_directory: str, config_settings: Settings = None) -> str:
    """Builds a source archive, and returns its name. Wheels of the archive are those of the tree."""
    project, compiled = read_project(), find_compiled("source archive")
    files = {**modules(), **licenses(), **{name: (HERE / name).read_bytes() for name in ("pyproject.toml", "build_backend.py")}}
    files.update({"PKG-INFO": metadata_of(project, LIBRARY in compiled), **compiled})
    stem = f"{project['name']}-{project['version']}"
    packed = io.BytesIO()
    with tarfile.open(fileobj=packed, mode="w", format=tarfile.PAX_FORMAT) as archive:
        for name, data in sorted(files.items()):
            info = tarfile.TarInfo(f"{stem}/{name}")
            info.size, info.mode = len(data), 0o644
            archive.addfile(info, io.BytesIO(data))
    Path(sdist_directory, f"{stem}.tar.gz").write_bytes(gzip.compress(packed.getvalue(), mtime=0))
    return f"{stem}.tar.gz"


# ---- What is in the tree

def read_project() -> Dict[str, Any]:
    """Returns the tables `project` and `project.scripts` of pyproject.toml. Python before 3.11 has no reader of TOML, but there
    each value is on one line, and is written as in Python: a text, or a list of texts."""
    text = (HERE / "pyproject.toml").read_text(encoding="utf-8")
    tables = dict(re.findall(r"^\[([\w.]+)\]\n((?:(?!\[).*\n)*)", text, re.MULTILINE))
    def values(table: str) -> Dict[str, Any]:
        return {name: ast.literal_eval(value) for name, value in re.findall(r"^([\w-]+) = (.+)$", tables[table], re.MULTILINE)}
    return {**values("project"), "scripts": values("project.scripts")}


def modules() -> Dict[str, bytes]:
    """Returns the modules of the package, and the mark that they are typed."""
    paths = [*HERE.glob("rrdi/**/*.py"), HERE / "rrdi/py.typed"]
    return {path.relative_to(HERE).as_posix(): path.read_bytes() for path in paths}


def find_compiled(what: str) -> Dict[str, bytes]:
    """Returns the library that RRDI_LIBRARY names, or else the one in the source archive, or that was built in the
    repository; with it, the extension of the archive or the repository. If there is no library, says that `what` is
    built without it.

    # Errors
    `OSError` if RRDI_LIBRARY names no file.
    """
    named = os.environ.get("RRDI_LIBRARY")
    library = Path(named).read_bytes() if named else found_at(HERE / LIBRARY, TOP / "out/librrdi.so.0")
    if library is None:
        print(f"rrdi: no librrdi.so.0, so the {what} has no C library; `make library` builds it, RRDI_LIBRARY names it",
              file=sys.stderr)
        return {}
    extension = found_at(HERE / EXTENSION, TOP / "out/_rrdi.abi3.so")
    if extension is None or processor_of(extension) != processor_of(library):
        print(f"rrdi: no extension for Python, so the {what} has the slower ctypes; `make extension` builds it with Python.h",
              file=sys.stderr)
        return {LIBRARY: library}
    return {LIBRARY: library, EXTENSION: extension}


def found_at(*paths: Path) -> Optional[bytes]:
    """Returns what the first file has that is there."""
    return next((path.read_bytes() for path in paths if path.is_file()), None)


def licenses() -> Dict[str, bytes]:
    return {path.name: path.read_bytes() for path in TOP.glob("LICENSE*")}


# ---- What a wheel says of itself

def metadata_of(project: Dict[str, Any], has_library: bool) -> bytes:
    lines = ["Metadata-Version: 2.1", f"Name: {project['name']}", f"Version: {project['version']}",
             f"Summary: {SUMMARY}{'' if has_library else WITHOUT}", f"License: {LICENSE}",
             f"Requires-Python: {project['requires-python']}", *(f"Classifier: {name}" for name in project["classifiers"])]
    return "".join(f"{line}\n" for line in lines).encode()


def processor_of(data: bytes) -> int:
    """Returns the number of the processor of a library; 0 if it is none of the system's."""
    return int.from_bytes(data[18:20], "little") if data[:4] == b"\x7fELF" else 0


def tag_of(compiled: Dict[str, bytes]) -> str:
    """Returns the tag of the systems on which a wheel runs: with a library they are of its processor, and have the version
    of glibc that is needed.

    # Errors
    `ValueError` if the library is of another processor than those of `PROCESSORS`.
    """
    if not compiled:
        return "py3-none-any"
    processor = processor_of(compiled[LIBRARY])
    if processor not in PROCESSORS:
        raise ValueError(f"librrdi.so.0 is for an unknown processor ({processor})")
    versions = (minor for data in compiled.values() for minor in re.findall(rb"GLIBC_2\.(\d+)", data))
    return f"py3-none-manylinux_2_{max([OLDEST_GLIBC, *map(int, versions)])}_{PROCESSORS[processor]}"


def write_wheel(folder: Path, files: Dict[str, bytes], compiled: Dict[str, bytes]) -> str:
    project, tag = read_project(), tag_of(compiled)
    stem = f"{project['name']}-{project['version']}"
    info = f"{stem}.dist-info"
    scripts = "".join(f"{name} = {function}\n" for name, function in project["scripts"].items())
    files = {**files, **compiled,
             **{f"{info}/licenses/{name}": data for name, data in licenses().items()},
             f"{info}/METADATA": metadata_of(project, bool(compiled) or "rrdi.pth" in files),
             f"{info}/WHEEL": (f"Wheel-Version: 1.0\nGenerator: rrdi\nRoot-Is-Purelib: {str(not compiled).lower()}\n"
                               f"Tag: {tag}\n").encode(),
             f"{info}/entry_points.txt": f"[console_scripts]\n{scripts}".encode()}
    files[f"{info}/RECORD"] = record_of(files, f"{info}/RECORD")
    with zipfile.ZipFile(folder / f"{stem}-{tag}.whl", "w") as wheel:
        for name, data in files.items():
            entry = zipfile.ZipInfo(name, LONG_AGO)
            entry.external_attr, entry.compress_type = 0o100644 << 16, zipfile.ZIP_DEFLATED
            wheel.writestr(entry, data)
    return f"{stem}-{tag}.whl"


def record_of(files: Dict[str, bytes], own_name: str) -> bytes:
    """Returns the list of a wheel's files with their checksums; the list itself has none."""
    def digest(data: bytes) -> str:
        return base64.urlsafe_b64encode(hashlib.sha256(data).digest()).rstrip(b"=").decode()
    lines = [f"{name},sha256={digest(data)},{len(data)}\n" for name, data in files.items()]
    return "".join([*lines, f"{own_name},,\n"]).encode()


def remove_compiled() -> None:
    """Removes the compiled form of this module, which Python leaves in the tree when pip imports it."""
    compiled = Path(importlib.util.cache_from_source(__file__))
    try:
        compiled.unlink()
        compiled.parent.rmdir()
    except OSError:  # there is none, or the folder has other modules
        pass


remove_compiled()
