# SPDX-License-Identifier: MIT OR Apache-2.0
"""The mutator: which bugs it plants, what tests cover a line, how it tells killed from surviving; and its list of survivors."""
from __future__ import annotations

import ast
import importlib.machinery
import importlib.util
import sys
from pathlib import Path
from typing import Any

import pytest

from support.program import TOP

sys.path.insert(0, str(TOP / "scripts"))
import covering
from mutants import mutants_of

LISTED = TOP / "scripts/survivors"


def planted(text: str, name: str = "a.py") -> list[str]:
    """Returns the texts of all mutants, without those of `pass` in place of the whole text."""
    data = text.encode()
    return [mutant.planted(data).decode() for mutant in mutants_of(name, data)]


@pytest.mark.parametrize("text, wanted", [
    ("a < b", ["a <= b"]), ("(a)  not  in b", ["(a)  in b"]), ("a is not b", ["a is b"]), ("a == b != c", ["a != b != c", "a == b == c"]),
    ("a and (b or c)", ["a or (b or c)", "a and (b and c)"]), ("x = not a", ["x =  a"]), ("x[0]", ["x[1]"]), ("x[5]", ["x[4]", "x[6]"]),
    ("x = True", ["x = False"]), ("y = f(a, *b)", []), ("y = f(a, b, c)", ["y = f(b, a, c)", "y = f(a, c, b)"]),
    ("y = max(a, b)", []), ("f(a)", ["pass"]), ("raise a", ["pass"]), ("y = a if b < c else d", ["y = d if b < c else a", "y = a if b <= c else d"]),
    ("if a: b", ["if not (a): b"]), ("x = a + (b - c)", ["x = a - (b - c)", "x = a + (b + c)"]), ("x = a + 'b' + f'{c}'", []),
    ("def f(a, b='c', *, d='', e):\n    return None", ["def f(a, b=\"\", *, d='', e):\n    return None"]), ("x: Literal[1] = a", []), ("y = f'{1}'", []), ("a = 'ü'; b = c < d", ["a = 'ü'; b = c <= d"]),
    ("for a in b:\n    c = a", ["for a in b:\n    c = a\n    break"]), ("for a in b:\n    continue", []),
    ("def f():\n    a = b\n    c = d", ["def f():\n    a = b\n    return"]), ("def f():\n    return a", ["def f():\n    return None"]),
    ("def f():\n    return None", []), ("def f():\n    return False", ["def f():\n    return True"]), ("if TYPE_CHECKING: a = b", []),
    ("@lru_cache(maxsize=5)\ndef f():\n    pass", []), ("try:\n    a = b\nexcept E:\n    c = d", ["try:\n    a = b\nexcept E:\n    raise"])])
def test_mutants_of_python(text: str, wanted: list[str]) -> None:
    found = planted(text)
    assert sorted(found) == sorted(wanted)
    for one in found:
        ast.parse(one)


@pytest.mark.parametrize("text, wanted", [
    ("if (a < b && c->d >= 2) x(y);", ["if (a <= b && c->d >= 2) x(y);", "if (a < b || c->d >= 2) x(y);", "if (a < b && c->d > 2) x(y);",
                                       "if (a < b && c->d >= 3) x(y);",
                                       "if (a < b && c->d >= 1) x(y);"]),
    ("    free(a);\n", ["    ;\n"]), ("    *a->b[c] += d;\n", ["    ;\n"]), ("    int a = b;\n", []), ("    continue;\n", ["    ;\n"]),
    ("return a + b;", ["return 0;", "return a - b;"]), ("return 0;", ["return 1;"]), ("return false;", []), ("if (!a) b;", ["if (a) b;"]),
    ('x = "a < b"; /* 5\n 6 */ // 7', []), ("#if X > 5\n#define A 3 \\\n 4\n", []), ("x = '\"' == a;", ["x = '\"' != a;"])])
def test_mutants_of_c(text: str, wanted: list[str]) -> None:
    assert sorted(planted(text, "a.c")) == sorted(wanted)


def test_rows() -> None:
    """What names a mutant stays when lines before it come or go."""
    data = b"a = 1\nfor b in c:\n    d(b)\n"
    rows = {mutant.row(data) for mutant in mutants_of("f.py", data)}
    later = b"\n\n" + data
    assert rows == {mutant.row(later) for mutant in mutants_of("f.py", later)}
    assert ("f.py", "d(b)", "d(b) break") in rows and ("f.py", "a = 1", "a = 2") in rows
    data = b"a = b | c - d;"
    assert [mutant.row(data) for mutant in mutants_of("f.c", data)] == [("f.c", "a = b|c - d;", "a = b|c + d;")]


def test_the_list_of_survivors() -> None:
    """Each is a mutant that there is, with a reason."""
    rows = [line.split(" | ") for line in LISTED.read_text().splitlines() if not line.startswith("#")]
    assert rows == sorted(rows) and len({tuple(row[:3]) for row in rows}) == len(rows)
    files = {file: (TOP / file).read_bytes() for file, *_ in rows}
    there = {mutant.row(data) for file, data in files.items() for mutant in mutants_of(file, data)}
    for *change, reason in rows:
        assert tuple(change) in there, change
        assert len(reason) > 10


# ---- a small repository

SOURCE = """from __future__ import annotations

LIMIT = 5


def is_large(value: int) -> bool:
    return value >= LIMIT


def unused(value: int) -> bool:
    return value == 7
"""
TESTS = """import sys
import unittest
sys.path.insert(0, "../../python")
import rrdi.parts


class Large(unittest.TestCase):
    def test_values(self):
        self.assertTrue(rrdi.parts.is_large(5) and not rrdi.parts.is_large(3))

    def test_wrong(self):
        self.assertTrue(rrdi.parts.is_large(1))
"""
MAKEFILE = """made: out/limit
out/limit: library/limit.c
\t$(CC) -o $@ $<
"""
# The status is whether 5 is the limit.
IN_C = """int main(void) {
    int limit = 5;
    if (limit < 7 && limit == 5) return 0;
    return limit;
}
"""
OF_C = """import subprocess
def test_limit():
    assert subprocess.run(["out/limit"]).returncode == 0
"""
CONFTEST = """def pytest_addoption(parser):
    for name in ("--lacking", "--program", "--library"):
        parser.addoption(name, nargs="?")
"""
FILES = {"python/rrdi/__init__.py": "from __future__ import annotations\n", "python/rrdi/parts.py": SOURCE, "Makefile": MAKEFILE,
         "tests/python/test_parts.py": TESTS, "tests/test_limit.py": OF_C, "tests/conftest.py": CONFTEST, "library/limit.c": IN_C,
         "scripts/covered.py": (TOP / "scripts/covered.py").read_text()}


@pytest.fixture
def mutate(folder: Path, monkeypatch: pytest.MonkeyPatch) -> Any:
    """The script, for a repository of one module, one program in C, and a test module of each."""
    loader = importlib.machinery.SourceFileLoader("mutate", str(TOP / "scripts/mutate"))
    spec = importlib.util.spec_from_loader("mutate", loader)
    assert spec
    module = importlib.util.module_from_spec(spec)
    loader.exec_module(module)
    for name, text in FILES.items():
        (folder / name).parent.mkdir(parents=True, exist_ok=True)
        (folder / name).write_text(text)
    for place, name, value in ((module, "TOP", folder), (module, "LISTED", folder / "survivors"), (covering, "TOP", folder),
                               (covering, "KEPT", folder / "out/covered.json"),
                               (covering, "PARTS", ("Makefile", "library", "python", "tests")),
                               (module, "USES", {"library/limit.c": module.Use(("made",), (), ("tests/test_limit.py",))})):
        monkeypatch.setattr(place, name, value)
    return module


def test_a_small_repository(mutate: Any, capsys: pytest.CaptureFixture[str]) -> None:
    """A constant is tried by the tests of the function that uses it. A test that fails without a bug finds none."""
    options = mutate.parser().parse_args([str(mutate.TOP / "python/rrdi/parts.py"), "--jobs=1"])
    assert mutate.main(options) == 1
    said = capsys.readouterr().out
    assert "test_parts: 1 of 2 tests pass\n" in said
    assert "survives 3: python/rrdi/parts.py | LIMIT = 5 | LIMIT = 4\n" in said and "LIMIT = 6" not in said
    assert said.count("not reached 11: ") == 4
    assert said.endswith("".join(f"{name}: 3/8 killed (37.5 %); 3 killed, 4 not reached, 1 survives\n"
                                 for name in ("python/rrdi/parts.py", "all")))
    lines = [line.partition(": ")[2] + " | it is only here" for line in said.splitlines() if "surv" in line[:9] or "not r" in line]
    mutate.LISTED.write_text("# list\n" + "\n".join(lines) + "\n")
    assert mutate.main(options) == 0  # and nothing is covered anew
    assert "tests pass" not in capsys.readouterr().out
    assert mutate.TOP.joinpath("python/rrdi/parts.py").read_text() == SOURCE


def test_a_test_of_a_constant(mutate: Any, capsys: pytest.CaptureFixture[str]) -> None:
    """It runs no line that uses the constant, and has its name."""
    text = TESTS[:TESTS.index("    def test_values")] + "    def test_limit(self):\n        self.assertEqual(rrdi.parts.LIMIT, 5)\n"
    (mutate.TOP / "tests/python/test_constants.py").write_text(text)
    assert mutate.main(mutate.parser().parse_args([str(mutate.TOP / "python/rrdi/parts.py"), "--jobs=1"])) == 1
    said = capsys.readouterr().out
    assert "LIMIT = 4" not in said and said.endswith("all: 4/8 killed (50.0 %); 4 killed, 4 not reached\n")


def test_a_program_in_c(mutate: Any, capsys: pytest.CaptureFixture[str]) -> None:
    """It is made anew for each mutant, and its tests must pass without one."""
    options = mutate.parser().parse_args([str(mutate.TOP / "library"), "--jobs=2"])
    assert mutate.main(options) == 1
    said = capsys.readouterr().out
    found = [line.rpartition(" | ")[2] for line in said.splitlines() if line.startswith("survives")]
    assert sorted(found) == ["if (limit < 6 && limit == 5) return 0;", "if (limit < 7 || limit == 5) return 0;",
                             "if (limit < 8 && limit == 5) return 0;", "if (limit <= 7 && limit == 5) return 0;", "return 0;"]
    (mutate.TOP / "tests/test_limit.py").write_text(OF_C.replace("== 0", "== 1"))
    assert mutate.main(options) == 2


def test_samples(mutate: Any, capsys: pytest.CaptureFixture[str]) -> None:
    """A sample is that of its seed, and has no mutant twice."""
    def listed(*words: str) -> list[str]:
        assert mutate.main(mutate.parser().parse_args([str(mutate.TOP / "python"), "--list", *words])) == 0
        return capsys.readouterr().out.splitlines()
    of_all, samples = listed(), [listed("--sample=4", f"--seed={seed}") for seed in (1, 2, 1)]
    assert samples[0] == samples[2] != samples[1] and {len(set(sample)) for sample in samples} == {4}
    assert set(samples[0] + samples[1]) <= set(of_all) and sorted(listed("--sample=99")) == sorted(of_all)


def test_how_tests_end(mutate: Any) -> None:
    """One process runs tests after others, each from the sources as they are then."""
    tests = TESTS + "\n    def test_hangs(self):\n        while True:\n            pass\n\n    def test_stops(self):\n        import os\n" \
        "        os._exit(0)\n"
    (mutate.TOP / "tests/python/test_hangs.py").write_text(tests)
    worker = mutate.Worker(mutate.TOP, {})
    mutate.PATIENCE = 60
    ends = [worker.end_of([mutate.Test(f"test_hangs.Large.test_{name}", 0, {}) for name in names])
            for names in (["values"], ["wrong"], ["values", "wrong"], ["values", "values"], ["stops"])]
    assert ends == ["survives", "killed", "killed", "survives", "killed"]
    (mutate.TOP / "python/rrdi/parts.py").write_text(SOURCE.replace("= 5", "= 1"))
    assert worker.end_of([mutate.Test("test_hangs.Large.test_wrong", 0, {})]) == "survives"
    mutate.PATIENCE = 1
    assert worker.end_of([mutate.Test("test_hangs.Large.test_hangs", 0, {})]) == "no end"
    worker.close()
    assert worker.process.returncode == 0
