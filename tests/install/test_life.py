# SPDX-License-Identifier: MIT OR Apache-2.0
"""The life of Debian's packages in a root of their own: they are installed, upgraded and downgraded with data and enabled units,
removed, installed again and purged, by dpkg and the scripts of the packages. Data and the administrator's settings stay, and all
else goes."""
from __future__ import annotations

import os
import re
import shutil
import subprocess
from pathlib import Path
from typing import Callable, Dict, List

import pytest

from support.check import Check
from support.program import PATIENCE, TOP

FORMER = "0.1.99"
ENABLED = ("rrdi-feed.service", "rrdi-feed.socket", "rrdi-record.timer")
STARTED = "--quiet --system restart rrdi-feed.service rrdi-feed.socket rrdi-record.timer"
STOPPED = "stop rrdi-feed.service rrdi-feed.socket rrdi-record.service rrdi-record.timer"
LEAST = {"states": 8}


def former(package: Path, folder: Path) -> Path:
    """Makes the package of an earlier version, which has a file more and a file less."""
    unpacked = folder / package.stem
    subprocess.run(["dpkg-deb", "--raw-extract", package, unpacked], check=True)
    control = unpacked / "DEBIAN/control"
    version = (TOP / "VERSION").read_text().strip()
    control.write_text(control.read_text().replace(version, FORMER))
    if package.name.startswith("rrdi_"):
        (unpacked / "usr/share/rrdi/former").write_text("of an earlier version\n")
        (unpacked / "usr/share/rrdi/docs/plotting.md").unlink()
    subprocess.run(["dpkg-deb", "--root-owner-group", "--build", "-Znone", unpacked, f"{unpacked}.deb"], check=True, stdout=subprocess.DEVNULL)
    return Path(f"{unpacked}.deb")


def states(text: str) -> Dict[str, List[str]]:
    """Returns what was there after each step."""
    return {found[1]: found[2].splitlines() for found in re.finditer(r"^== (\w+)\n((?:(?!== ).*\n)*)", text, re.MULTILINE)}


def lines(state: List[str], *begins: str) -> List[str]:
    return [line for line in state if line.startswith(begins)]


def check_installed(state: List[str], version: str, names: List[str], check: Check) -> None:
    """All packages are there in this version, with their files, their account and their folder."""
    check.same([line for line in state if line.endswith(" installed")], sorted(f"{name} {version} installed" for name in names), version)
    there = {line.split()[1] for line in lines(state, "there ")}
    has_python = "python3-rrdi" in names
    check.same(there, {"/usr/bin/rrdi", "/usr/bin/rrdi-show", "/usr/share/rrdi", "/etc/perl/RRDs.pm", "/lib/systemd/system/rrdi-feed.service",
                       "/usr/share/rrdi/former" if version == FORMER else "/usr/share/rrdi/docs/plotting.md",
                       *["/usr/lib/python3/dist-packages/rrdi"] * has_python}, f"{version}: files")
    check.same(lines(state, "folder", "account", "compiled"),
               ["compiled", "folder rrdi:rrdi 755", "account rrdi /var/lib/rrdi /usr/sbin/nologin"], f"{version}: the account")


def check_gone(state: List[str], check: Check) -> None:
    check.same(lines(state, "there ", "compiled") + [line for line in state if line.endswith(" installed")], [], "what is left")


def check_life(text: str, version: str, names: List[str], check: Check) -> None:
    """Checks each step: what was there before stays, and what the administrator has done."""
    found = states(text)
    check.same(list(found), ["before", "installed", "enabled", "upgraded", "downgraded", "removed", "returned", "purged"], "the steps")
    check.count("states", len(found))
    check.same(found["before"], [], "what was there before")
    for step, of_step in (("installed", FORMER), ("upgraded", version), ("downgraded", FORMER), ("returned", version)):
        check_installed(found[step], of_step, names, check)
    links, kept = lines(found["enabled"], "link "), [line for line in found["enabled"] if re.match(r"\d+ \d+ /", line)]
    check.same(sorted(line.rpartition("/")[2] for line in links if "/etc/" in line), sorted(ENABLED), "units that were enabled")
    check.same(len(kept), 3, "data and settings")
    for step in ("upgraded", "downgraded", "removed", "returned", "purged"):
        check.same([line for line in found[step] if re.match(r"\d+ \d+ /", line)], kept, f"{step}: data and settings")
        check.same(lines(found[step], "account", "folder"), lines(found["enabled"], "account", "folder"), f"{step}: the account")
    for step in ("upgraded", "downgraded", "removed", "returned"):
        check.same([line for line in lines(found[step], "link ") if "/etc/" in line], [line for line in links if "/etc/" in line],
                   f"{step}: enabled units")
    check.same(lines(found["installed"], "link "), [], "a unit is enabled by itself")
    check.same(lines(found["purged"], "link "), [], "links of units after all")
    for step in ("removed", "purged"):
        check_gone(found[step], check)
    told = {step: [line[5:] for line in lines(state, "told ") if "daemon-reload" not in line] for step, state in found.items()}
    check.same(told, {"before": [], "installed": [], "enabled": [], "upgraded": [STARTED], "downgraded": [STARTED], "removed": [STOPPED],
                      "returned": [STARTED], "purged": [STOPPED]}, "what systemd was told")
    again = {step for step, state in found.items() if "told --system daemon-reload" in state}
    check.same(again, set(found) - {"before", "enabled"}, "when systemd reads the units again")


@pytest.mark.xdist_group("packages")
def test_life(packages: Dict[str, Path], folder: Path, needs: Callable[..., None], check: Check) -> None:
    needs("unshare", "systemd-sysusers", "systemd-tmpfiles", "systemctl", "perl", "py3compile", "deb-systemd-invoke")
    if os.geteuid() != 0 or shutil.which("rrdi"):
        pytest.skip("only root can try, where rrdi is not installed")
    place, version = folder / "place", (TOP / "VERSION").read_text().strip()
    place.mkdir()
    old = [former(package, folder) for package in packages.values()]
    ran = subprocess.run(["unshare", "--mount", "sh", Path(__file__).with_name("life.sh"), place, *old, "--", *packages.values()],
                         capture_output=True, text=True, timeout=PATIENCE)
    if ran.returncode == 77:
        pytest.skip(f"no root of its own: {ran.stderr}")
    assert ran.returncode == 0, (ran.stdout[-3000:], ran.stderr[-3000:])
    check_life(ran.stdout, version, sorted(packages), check)
    used = [f"rrdi-show {version}", "perl /etc/perl/RRDs.pm"]
    check.same([line for line in ran.stdout.splitlines() if line in used], used, "what runs after the upgrade")


def right_life(names: List[str]) -> str:
    """Returns what a right life looks like."""
    account = ["folder rrdi:rrdi 755", "account rrdi /var/lib/rrdi /usr/sbin/nologin"]
    kept = [f"{number} 9 /{name}" for number, name in enumerate(("etc/default/rrdi-feed", "etc/own.conf", "var/lib/rrdi/load.rrdi"))]
    links = [f"link /etc/systemd/system/x.wants/{unit}" for unit in ENABLED]
    there = ["/usr/bin/rrdi", "/usr/bin/rrdi-show", "/usr/share/rrdi", "/etc/perl/RRDs.pm", "/lib/systemd/system/rrdi-feed.service",
             "/usr/lib/python3/dist-packages/rrdi"]

    def whole(version: str, more: str) -> List[str]:
        installed = [f"{name} {version} installed" for name in names]
        return [*installed, *(f"there {path}" for path in [*there, f"/usr/share/rrdi/{more}"]), "compiled", *account]
    old, new, again = whole(FORMER, "former"), whole("9", "docs/plotting.md"), "told --system daemon-reload"
    restarted, stopped = [*kept, *links, again, f"told {STARTED}"], [*kept, again, f"told {STOPPED}"]
    steps = {"before": [], "installed": [*old, again], "enabled": [*old, *kept, *links], "upgraded": [*new, *restarted],
             "downgraded": [*old, *restarted], "removed": [*account, *links, *stopped], "returned": [*new, *restarted],
             "purged": [*account, *stopped]}
    return "".join(f"== {step}\n" + "".join(f"{line}\n" for line in lines) for step, lines in steps.items())


def test_wrong_lives(planted: Check) -> None:
    """A right life is accepted, and each fault of it is found."""
    names, check = ["librrdi0", "python3-rrdi", "rrdi"], Check()
    text = right_life(names)
    check_life(text, "9", names, check)
    assert not check.faults, check.text()
    for what, other in (("== purged\n", "== purged\nthere /usr/bin/rrdi\n"), ("== removed\n", "== removed\ncompiled\n"),
                        ("2 9 /var", "3 9 /var"), (f"told {STARTED}\n", ""), ("folder rrdi:rrdi 755", "folder root:root 755"),
                        ("there /usr/share/rrdi/docs/plotting.md\n", ""), ("told --system daemon-reload\n", ""),
                        ("link /etc/systemd/system/x.wants/rrdi-feed.socket\n", ""), ("== purged\n", "== purged\nlink /etc/systemd/x\n")):
        before = len(planted.faults)
        assert what in text
        check_life(text.replace(what, other, 1), "9", names, planted)
        assert len(planted.faults) > before, (what, other)
