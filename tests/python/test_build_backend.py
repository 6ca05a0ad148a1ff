# SPDX-License-Identifier: MIT OR Apache-2.0
"""Tests of the wheel and of the source archive: their files, the tag, and what the summary says of the library."""
from __future__ import annotations

import importlib.util
import shutil
import struct
import subprocess
import sys
import tarfile
import unittest
import zipfile
from pathlib import Path
from typing import Any, Dict, List

from cases import new_folder
from doubles import TOP

VERSION = (TOP / "VERSION").read_text().strip()
# The beginning of a library for a processor, and the versions of glibc that it names.
ELF = b"\x7fELF" + bytes(14)


def library(processor: int, *versions: str) -> bytes:
    return ELF + struct.pack("<H", processor) + b"".join(b"\0GLIBC_" + version.encode() for version in versions) + b"\0"


class Building(unittest.TestCase):
    def setUp(self) -> None:
        self.folder = new_folder(self)
        self.tree, self.made = self.folder / "tree", self.folder / "made"
        ignored = shutil.ignore_patterns("__pycache__", "tests")
        shutil.copytree(TOP / "python", self.tree / "python", ignore=ignored)
        shutil.copy(TOP / "LICENSE-MIT", self.tree)
        self.made.mkdir()

    def put_library(self, data: bytes) -> None:
        (self.tree / "out").mkdir()
        (self.tree / "out/librrdi.so.0").write_bytes(data)

    def run_hook(self, hook: str, tree: "Path | None" = None, **env: str) -> "subprocess.CompletedProcess[str]":
        """Calls a function of the backend as pip does, in a process that may write compiled modules."""
        code = f"import build_backend; print(build_backend.{hook}({str(self.made)!r}))"
        return subprocess.run([sys.executable, "-c", code], cwd=tree or self.tree / "python", capture_output=True, text=True,
                              env={"PYTHONPATH": ".", **env})

    def build(self, hook: str, tree: "Path | None" = None, **env: str) -> Path:
        ran = self.run_hook(hook, tree, **env)
        self.assertEqual(ran.returncode, 0, ran.stderr)
        return self.made / ran.stdout.strip()

    def unpack(self, archive: Path) -> Path:
        with tarfile.open(archive) as opened:
            opened.extractall(self.folder)
        return self.folder / f"rrdi-{VERSION}"

    def names(self) -> List[str]:
        return sorted(str(path) for path in self.tree.rglob("*"))

    def metadata(self, wheel: Path, name: str) -> str:
        with zipfile.ZipFile(wheel) as archive:
            return archive.read(f"rrdi-{VERSION}.dist-info/{name}").decode()

    def test_a_wheel_without_the_library(self) -> None:
        before = self.names()
        wheel = self.build("build_wheel")
        self.assertEqual(wheel.name, f"rrdi-{VERSION}-py3-none-any.whl")
        self.assertEqual(self.names(), before)
        self.assertIn("exact undo (without the C library librrdi)\n", self.metadata(wheel, "METADATA"))
        self.assertIn("Root-Is-Purelib: true\nTag: py3-none-any\n", self.metadata(wheel, "WHEEL"))

    def test_a_wheel_with_the_library(self) -> None:
        data = library(62, "2.2.5", "2.34", "2.4")
        self.put_library(data)
        wheel = self.build("build_wheel")
        self.assertEqual(wheel.name, f"rrdi-{VERSION}-py3-none-manylinux_2_34_x86_64.whl")
        self.assertIn("exact undo\n", self.metadata(wheel, "METADATA"))
        self.assertIn("Root-Is-Purelib: false\nTag: py3-none-manylinux_2_34_x86_64\n", self.metadata(wheel, "WHEEL"))
        with zipfile.ZipFile(wheel) as archive:
            self.assertEqual(archive.read("rrdi/librrdi.so.0"), data)
            modules = {path.relative_to(self.tree / "python").as_posix() for path in self.tree.glob("python/rrdi/**/*.py")}
            others = {name for name in archive.namelist() if ".dist-info/" not in name} - modules
            self.assertEqual(others, {"rrdi/py.typed", "rrdi/librrdi.so.0"})
            self.assertEqual(modules - set(archive.namelist()), set())

    def test_a_wheel_with_the_extension(self) -> None:
        """The tag is of both, and of any Python. An extension without a library, or for another processor, is left out."""
        self.put_library(library(62, "2.17"))
        for data, glibc in ((library(62, "2.34"), 34), (library(62), 17)):
            (self.tree / "out/_rrdi.abi3.so").write_bytes(data)
            wheel = self.build("build_wheel")
            self.assertEqual(wheel.name, f"rrdi-{VERSION}-py3-none-manylinux_2_{glibc}_x86_64.whl")
            with zipfile.ZipFile(wheel) as archive:
                self.assertEqual(archive.read("rrdi/_rrdi.abi3.so"), data)
        again = self.build("build_wheel", self.unpack(self.build("build_sdist")))
        self.assertEqual(again.read_bytes(), wheel.read_bytes())
        for lacking in ("_rrdi.abi3.so", "librrdi.so.0"):
            (self.tree / "out" / lacking).write_bytes(library(183))
            with zipfile.ZipFile(self.build("build_wheel")) as archive:
                self.assertNotIn("rrdi/_rrdi.abi3.so", archive.namelist())
            self.assertIn("so the wheel has the slower ctypes; ", self.run_hook("build_wheel").stderr)
            (self.tree / "out" / lacking).unlink()
            (self.tree / "out/_rrdi.abi3.so").write_bytes(library(62))

    def test_a_wheel_of_the_source_archive(self) -> None:
        self.put_library(library(183, "2.17"))
        wheel = self.build("build_wheel").read_bytes()
        again = self.build("build_wheel", self.unpack(self.build("build_sdist")))
        self.assertEqual((again.name, again.read_bytes()), (f"rrdi-{VERSION}-py3-none-manylinux_2_17_aarch64.whl", wheel))

    def test_what_is_beside_the_source_archive(self) -> None:
        """pip unpacks an archive in a folder of /tmp. No file of /tmp is in the wheel."""
        source = self.unpack(self.build("build_sdist"))
        (self.folder / "out").mkdir()
        (self.folder / "out/librrdi.so.0").write_bytes(library(62))
        (self.folder / "LICENSE-OTHER").write_text("")
        wheel = self.build("build_wheel", source)
        self.assertEqual(wheel.name, f"rrdi-{VERSION}-py3-none-any.whl")
        with zipfile.ZipFile(wheel) as archive:
            self.assertEqual([name for name in archive.namelist() if "LICENSE" in name],
                             [f"rrdi-{VERSION}.dist-info/licenses/LICENSE-MIT"])

    def test_a_library_that_a_variable_names(self) -> None:
        self.put_library(library(62, "2.17"))
        named = self.folder / "librrdi.so.0"
        named.write_bytes(library(62, "2.40"))
        wheel = self.build("build_wheel", RRDI_LIBRARY=str(named))
        self.assertEqual(wheel.name, f"rrdi-{VERSION}-py3-none-manylinux_2_40_x86_64.whl")
        with zipfile.ZipFile(wheel) as archive:
            self.assertEqual(archive.read("rrdi/librrdi.so.0"), named.read_bytes())
        source = self.unpack(self.build("build_sdist", RRDI_LIBRARY=str(named)))
        self.assertEqual(self.build("build_wheel", source).name, wheel.name)
        ran = self.run_hook("build_wheel", RRDI_LIBRARY=f"{named}.none")
        self.assertIn("No such file or directory: ", ran.stderr)

    def test_no_library(self) -> None:
        for hook, what in (("build_wheel", "wheel"), ("build_sdist", "source archive")):
            self.assertIn(f"so the {what} has no C library; ", self.run_hook(hook).stderr)

    def test_an_editable_wheel(self) -> None:
        with zipfile.ZipFile(self.build("build_editable")) as archive:
            self.assertEqual(archive.read("rrdi.pth").decode(), f"{self.tree.resolve()}/python\n")

    def test_libraries_that_no_tag_names(self) -> None:
        backend = self.backend()
        for data in (library(3, "2.17"), b"!<arch>\n" + bytes(20), b""):
            with self.subTest(data=data), self.assertRaises(ValueError):
                backend.tag_of({backend.LIBRARY: data})
        self.assertEqual(backend.tag_of({backend.LIBRARY: library(62)}), "py3-none-manylinux_2_17_x86_64")

    @unittest.skipIf(sys.version_info < (3, 11), "Python before 3.11 has no reader of TOML")
    def test_the_project_is_read_as_toml(self) -> None:
        tables: Dict[str, Any] = importlib.import_module("tomllib").loads((TOP / "python/pyproject.toml").read_text())
        self.assertEqual(self.backend().read_project(), tables["project"])

    def backend(self) -> Any:
        spec = importlib.util.spec_from_file_location("build_backend", self.tree / "python/build_backend.py")
        assert spec and spec.loader
        module = importlib.util.module_from_spec(spec)
        spec.loader.exec_module(module)
        return module
