# SPDX-License-Identifier: MIT OR Apache-2.0
"""`make install` and the packages of Debian have the files of the list installed.txt, with their modes, and no others.

`make uninstall` leaves what was there before, and a package that is purged leaves the databases."""
from __future__ import annotations

import os
import re
import shutil
import subprocess
from dataclasses import dataclass
from pathlib import Path
from typing import Callable

import pytest

from install.listed import in_folder, in_package, listed
from pages.test_links import leads_nowhere, parsed
from support.program import TOP

WITH_LIBRARY = ("rrdi with the library", "librrdi0", "librrdi-dev")
DEBIAN = {"LIBDIR": "lib/x86_64-linux-gnu", "ZSHDIR": "share/zsh/vendor-completions"}


# ---- make install, make uninstall


@dataclass(frozen=True)
class Way:
    """A way to install, and what is there before. Directories end in a slash; files of an earlier version do not stay."""
    prefix: str = "/usr/local"
    destination: str = ""
    has_library: bool = True
    mask: int = 0o022
    places: tuple[tuple[str, str], ...] = ()
    before: tuple[str, ...] = ()
    replaced: tuple[str, ...] = ()

    def words(self, place: Path) -> list[str]:
        """Returns the variables of `make`, for an installation whose root or prefix is a place."""
        named = [f"PREFIX={self.prefix}", f"DESTDIR={place}"] if self.destination else [f"PREFIX={place}"]
        return [*named, *(f"{name}={value}" for name, value in self.places)]


WAYS = {
    "DESTDIR": Way(destination="a folder/new", mask=0o077),
    "LIBDIR": Way("/usr", "there/", places=tuple(DEBIAN.items()),
                  before=("usr/share/man/man1/other.1", "usr/lib/python3/", "etc/a")),
    "PREFIX": Way("local", mask=0o077, before=("bin/other", "lib/pkgconfig/", "share/rrdi-other/file", "share/rrdi/room.rrdi", "lib/rrdi/own"),
                  replaced=("share/man/man1/rrdi.1", "share/man/man3/rrdi.3", "share/man/man3/rrdi_run.3")),
    "no library": Way("opt", has_library=False),
}


def prepare(way: Way, place: Path) -> None:
    """Puts what is there before into the place."""
    for name in (*way.before, *way.replaced):
        path = place / name
        (path if name.endswith("/") else path.parent).mkdir(parents=True, exist_ok=True)
        if not name.endswith("/"):
            path.write_text("other\n")


def directories(place: Path) -> set[Path]:
    return {path for path in place.rglob("*") if path.is_dir()}


@pytest.mark.parametrize("name", WAYS)
def test_install(name: str, make: Callable[..., None], stand_in: list[str], folder: Path) -> None:
    way, called = WAYS[name], folder / "ldconfig.calls"
    place = folder / (way.destination or way.prefix)
    prepare(way, place)
    before = directories(place)
    words = [*way.words(place), f"LDCONFIG=echo called >> {called}", *(stand_in if way.has_library else [])]
    make("install", *words, mask=way.mask)
    files = listed("rrdi", "python3-rrdi", "no package", *WITH_LIBRARY * way.has_library, **dict(way.places))
    start = way.prefix.strip("/") + "/" if way.destination else ""
    own = {f"644 {path}" for path in way.before if not path.endswith("/")}
    found = {file for file in in_folder(place) if way.destination or not re.match("644 .*/__pycache__/", file)}
    assert found == {file.replace(" ", f" {start}", 1) for file in files} | own
    later = place / start / "share/man/man1/later.1"
    later.touch()
    make("uninstall", *words)
    assert in_folder(place) == own | {f"644 {later.relative_to(place)}"}
    assert called.exists() == (os.geteuid() == 0 and not way.destination)
    assert directories(place) == before | {path for path in later.parents if place in path.parents}


def test_a_wrong_installation(make: Callable[..., None], folder: Path) -> None:
    place = folder / "place"
    make("install", f"DESTDIR={place}", "PREFIX=/")
    (place / "share/man/man1/rrdi.1.gz").unlink()
    (place / "bin/rrdi").chmod(0o700)
    (place / "bin").chmod(0o700)
    assert in_folder(place) ^ listed("rrdi", "python3-rrdi", "no package") == {
        "644 share/man/man1/rrdi.1.gz", "700 bin/rrdi", "755 bin/rrdi", "700 bin"}


def dead_links(place: Path) -> set[str]:
    """Returns the links of the pages below a place that lead nowhere."""
    pages = list(place.rglob("*.md"))
    assert len(pages) > 20
    return {f"{path.name}: {target}" for path in pages for _, target in parsed(path.read_text(encoding="utf-8")).links
            if leads_nowhere(path, target)}


def test_links_of_pages(make: Callable[..., None], folder: Path) -> None:
    make("install", f"DESTDIR={folder}/new")
    assert dead_links(folder / "new") == set()
    (folder / "new/usr/local/share/rrdi/LICENSE").unlink()
    assert dead_links(folder / "new") == {"README.md: LICENSE"}


def missing_paths(place: Path) -> set[str]:
    """Returns the paths below /usr/local that pages of the repository name, and an installation in this place lacks."""
    pages = [TOP / "README.md", *(path for path in (TOP / "docs").iterdir() if path.suffix in (".md", ".1", ".3"))]
    named = {path for page in pages for path in re.findall(r"/usr/local/[\w./-]*\w", page.read_text(encoding="utf-8"))}
    assert len(named) > 10
    return {path for path in named if not (place / path.lstrip("/")).exists()}


def test_paths_in_pages(make: Callable[..., None], stand_in: list[str], folder: Path) -> None:
    make("install", f"DESTDIR={folder}/new", *stand_in)
    assert missing_paths(folder / "new") == set()
    (folder / "new/usr/local/share/rrdi/perl/RRDs.pm").unlink()
    assert missing_paths(folder / "new") == {"/usr/local/share/rrdi/perl/RRDs.pm"}


# ---- packages of Debian


def fields_of(package: Path) -> dict[str, str]:
    text = subprocess.run(["dpkg-deb", "-f", package], capture_output=True, text=True, check=True).stdout
    return dict(re.findall(r"^([\w-]+): (.*)$", text, re.MULTILINE))


@pytest.mark.xdist_group("packages")
def test_files_of_packages(packages: dict[str, Path]) -> None:
    assert packages.keys() == {"rrdi", "librrdi0", "librrdi-dev", "python3-rrdi", "librrds-perl-rrdi"}
    for name, package in packages.items():
        sections = ("rrdi", "rrdi with the library") if name == "rrdi" else (name,)
        assert in_package(package) == listed(*sections, **DEBIAN), name


@pytest.mark.xdist_group("packages")
def test_links_of_packages(packages: dict[str, Path], folder: Path) -> None:
    subprocess.run(["dpkg-deb", "-x", packages["rrdi"], folder / "new"], check=True)
    assert dead_links(folder / "new") == set()
    assert "(/usr/share/doc/rrdi/copyright)" in (folder / "new/usr/share/rrdi/README.md").read_text()


@pytest.mark.xdist_group("packages")
def test_fields_of_packages(packages: dict[str, Path]) -> None:
    """No other package goes when one of rrdi's goes: none stands for another, or pushes one out."""
    version = (TOP / "VERSION").read_text().strip()
    fields = {name: fields_of(package) for name, package in packages.items()}
    for name, found in fields.items():
        assert found["Version"] == version, name
        assert not found.keys() & {"Provides", "Conflicts", "Breaks", "Replaces"}, name
        assert found.get("Multi-Arch") == ("same" if name.startswith("librrdi") else None), name
    assert "librr" not in fields["rrdi"]["Depends"] and fields["rrdi"]["Recommends"] == "librrdi0"
    assert fields["librrdi-dev"]["Depends"] == f"librrdi0 (= {version})"
    assert "librrds-perl" not in fields["librrds-perl-rrdi"]["Depends"]
    for name, needed in (("python3-rrdi", "librrdi0"), ("python3-rrdi", "rrdi"), ("librrds-perl-rrdi", "rrdi")):
        assert f"{needed} (>= {version})" in fields[name]["Depends"].split(", "), (name, needed)


@pytest.mark.xdist_group("packages")
def test_packages_by_lintian(packages: dict[str, Path], needs: Callable[..., None]) -> None:
    needs("lintian")
    ran = subprocess.run(["lintian", "--fail-on", "error,warning", "--allow-root", *packages.values()],
                         capture_output=True, text=True)
    assert ran.returncode == 0, ran.stdout + ran.stderr


# What runs in a root of its own, as root: the packages come and go over the files of this machine, which stay as they are.
IN_ROOT = r"""
set -e
mount -t tmpfs none "$1"
mkdir "$1/new" "$1/work" "$1/root"
mount -t overlay -o "lowerdir=/,upperdir=$1/new,workdir=$1/work" none "$1/root"
mount --bind /proc "$1/root/proc"
chroot "$1/root" sh -ec '
    dpkg --install "$@" >&2
    stat -c "%U %F" /var/lib/rrdi
    rrdi-feed --version
    perl -T -MRRDs -e "print \$INC{q(RRDs.pm)}, qq(\n)"
    touch /var/lib/rrdi/load.rrdi
    dpkg --purge rrdi librrdi0 librrdi-dev python3-rrdi librrds-perl-rrdi >&2
    cd /usr/share && ls -d /var/lib/rrdi/load.rrdi rrdi /etc/perl/RRDs.pm /usr/bin/rrdi /usr/bin/rrdi-* 2>/dev/null || :
' sh $2
"""


@pytest.mark.xdist_group("packages")
@pytest.mark.long
def test_packages_in_a_root(packages: dict[str, Path], folder: Path, needs: Callable[..., None]) -> None:
    needs("unshare", "systemd-sysusers", "systemd-tmpfiles", "perl")
    if os.geteuid() != 0 or shutil.which("rrdi"):
        pytest.skip("only root can try, where rrdi is not installed")
    ran = subprocess.run(["unshare", "--mount", "sh", "-c", IN_ROOT, "sh", folder, " ".join(map(str, packages.values()))],
                         capture_output=True, text=True)
    version = (TOP / "VERSION").read_text().strip()
    assert ran.stdout == f"rrdi directory\nrrdi-feed {version}\n/etc/perl/RRDs.pm\n/var/lib/rrdi/load.rrdi\n", ran.stderr
