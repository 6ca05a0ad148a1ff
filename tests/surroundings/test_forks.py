# SPDX-License-Identifier: MIT OR Apache-2.0
"""Processes that fork with open files: in C with threads, while no call runs, and in Python by multiprocessing."""
from __future__ import annotations

import subprocess
import sys
from pathlib import Path
from typing import Callable

import pytest

from support.check import Check
from support.library import COMPILE
from support.program import PATIENCE, TOP, Answer, Program, environment

LEAST = {"changes": 500, "calls": 8}
THREADS, FORKS = 4, 40


def test_threads(program: Program, library: Path, folder: Path, needs: Callable[..., None], check: Check) -> None:
    """Each change is in its file, however many children were forked between two calls, and no child keeps a lock."""
    needs("cc")
    subprocess.run([*COMPILE, f"-I{TOP / 'include'}", Path(__file__).parent / "c/threads.c", library, f"-Wl,-rpath,{library.parent}",
                    "-lpthread", "-o", folder / "threads"], check=True)
    ran = subprocess.run([folder / "threads", str(THREADS), str(FORKS)], cwd=folder, capture_output=True, text=True, timeout=PATIENCE)
    check.same((ran.returncode, ran.stderr, len(ran.stdout.split())), (0, "", THREADS), "a program with threads that forks")
    for number, count in enumerate(ran.stdout.split()):
        check.count("changes", int(count))
        told = program.run(["lastupdate", folder / f"t{number}.rrdi"])
        check.same(told, Answer(0, f"time: g\n{count}: {count}.000000\n"), f"file {number}")


# What children of multiprocessing make of databases: two that their parent has open, and one that it has closed.
SCRIPT = """
import multiprocessing, os, pickle, subprocess, sys
import rrdi

def told(call, *words):
    try:
        return call(*words)
    except (rrdi.Error, TypeError, ValueError, pickle.PicklingError) as error:
        return type(error).__name__

def in_child(number):
    inherited, path = DATABASES[number] if DATABASES else None, f"{number}.rrdi"
    found = [told(inherited.update, (number + 20, 1)) if inherited else "none", told(rrdi.update, path, (number + 30, 2)), told(rrdi.last, path)]
    if inherited:
        with inherited:
            found.append(told(inherited.last))
    return found

def use(database):
    database.update((60, 6))
    return database.last()

DATABASES = []
if __name__ == "__main__":
    way = sys.argv[1]
    for number in range(3):
        rrdi.create(f"{number}.rrdi", "DS:g:GAUGE:99:U:U", "RRA:LAST:0.5:1:99", step=1, start=0)
        DATABASES.append(rrdi.Database(f"{number}.rrdi", busy_timeout=0).open())
        DATABASES[-1].update((10, number))
    DATABASES[1].close()
    with multiprocessing.get_context(way).Pool(3) as pool:
        print(pool.map(in_child, range(3), 1))
    # The parent has what it had: its files are open, whatever the children did.
    print([told(DATABASES[0].update, (40, 4)), told(DATABASES[2].update, (50, 5)), DATABASES[0].last(), DATABASES[2].last()])
    process = multiprocessing.get_context(way).Process(target=use, args=(DATABASES[1],))
    print(told(process.start))
    if process.pid:
        process.join()
        print(process.exitcode)
    for database in DATABASES:
        database.close()
    print(rrdi.last("0.rrdi"), rrdi.last("1.rrdi"), rrdi.last("2.rrdi"))
"""


# A fork closes a file in both processes, so the child may open it; one that is spawned finds it open elsewhere.
IN_CHILDREN = {"fork": "[[None, 'Busy', 20, 20], [None, None, 31, 31], [None, 'Busy', 22, 22]]",
               "spawn": "[['none', 'Busy', 10], ['none', None, 31], ['none', 'Busy', 10]]"}


@pytest.mark.parametrize("way", IN_CHILDREN)
def test_multiprocessing(way: str, library: Path, folder: Path, check: Check) -> None:
    """A child uses what its parent had open when it forked, if the parent does not; a database that is given to another process
    is opened there. The parent goes on, whatever its children did."""
    (folder / "it.py").write_text(SCRIPT)
    env = environment({"RRDI_LIBRARY": str(library), "PYTHONPATH": str(TOP / "python"), "RRDI_WAIT": "0"})
    ran = subprocess.run([sys.executable, "-B", "it.py", way], cwd=folder, capture_output=True, text=True, env=env, timeout=PATIENCE)
    check.count("calls", 4)
    wanted = [IN_CHILDREN[way], "[None, None, 40, 50]", "None", "0", "40 60 50"]
    check.same((ran.returncode, ran.stderr, ran.stdout.splitlines()), (0, "", wanted), way)
