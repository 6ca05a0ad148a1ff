# SPDX-License-Identifier: MIT OR Apache-2.0
"""The counts of a whole run, over all its processes: whether enough was tried, and nothing left out.

A module may have the dictionary LEAST (and LEAST_LONG for --long): how much all its tests together must try. A
judgement, `check(..)`, must reject a planted answer if another one in its file does: one that never rejects may be
blind."""
from __future__ import annotations

import re
from collections import Counter, defaultdict
from typing import Any

import pytest

from support import results
from support.program import TOP

# A line with a judgement.
JUDGES = re.compile(r"^(?!\s*def ).*\b(?:check|want)\([^)]")
# How the reason of a test begins that is left out since memory is short: no verdict depends on that.
MEMORY = "too little free memory:"


class Counts:
    def __init__(self, config: pytest.Config) -> None:
        options = ("keyword", "markexpr", "maxfail", "deselect", "collectonly", "seeds")
        chosen = any("::" in word for word in config.args) or any(config.getoption(name, None) for name in options)
        self.is_whole, self.may_lack = not chosen, config.getoption("lacking")
        self.records, self.more = self.is_whole and config.getoption("record"), " --long" * config.getoption("long")
        self.tried: dict[str, Counter[str]] = defaultdict(Counter)
        self.least: dict[str, dict[str, int]] = {}
        self.rejected: set[str] = set()
        self.left_out = 0
        # The modules of which a test was left out.
        self.partial: set[str] = set()

    def pytest_runtest_logreport(self, report: pytest.TestReport) -> None:
        if report.skipped and MEMORY not in str(report.longrepr):
            self.left_out += 1
            self.partial.add(report.nodeid.partition(".py::")[0].replace("/", "."))
        value: Any
        for name, value in report.user_properties:
            if name == "tried" and report.when == "call":
                module, tried, least = value
                self.tried[module].update(tried)
                self.least[module] = least
            elif name == "rejected":
                self.rejected |= set(value)

    def blind(self) -> list[str]:
        """Returns the judgements that rejected no planted answer, though another one in their file did."""
        if self.may_lack and any("test_planted" in module for module in self.partial):
            return []
        names = {place.partition(":")[0] for place in self.rejected}
        paths = [path for folder in ("tests", "fuzz") for path in sorted(TOP.glob(f"{folder}/**/*.py"))
                 if path.name in names]
        return [f"{path.name}:{number} rejects no planted answer: {line.strip()}"
                for path in paths if not path.name.startswith("test_planted")
                for number, line in enumerate(path.read_text().splitlines(), 1)
                if JUDGES.search(line) and f"{path.name}:{number}" not in self.rejected]

    def faults(self) -> list[str]:
        found = [f"{module} tried {self.tried[module][name]} {name}, but must try at least {least}"
                 for module, wanted in self.least.items() if not (self.may_lack and module in self.partial)
                 for name, least in wanted.items() if self.tried[module][name] < least]
        left_out = [f"{self.left_out} tests were left out, see above; --lacking allows it"]
        return (found + self.blind()) * self.is_whole + left_out * (self.left_out > 0 and not self.may_lack)

    @pytest.hookimpl(trylast=True)
    def pytest_sessionfinish(self, session: pytest.Session, exitstatus: int) -> None:
        if exitstatus == 0 and self.faults():
            session.exitstatus = pytest.ExitCode.TESTS_FAILED
        self.records = self.records and session.exitstatus == 0

    def pytest_terminal_summary(self, terminalreporter: Any) -> None:
        for module, tried in sorted(self.tried.items()):
            terminalreporter.line(f"{module}: " + ", ".join(f"{number} {name}" for name, number in tried.items()))
        whole = {module.replace(".", "/") + ".py" + self.more: tried for module, tried in self.tried.items()
                 if module not in self.partial}
        why = results.record(whole) if self.records and whole else ""
        for fault in self.faults() + [why] * bool(why):
            terminalreporter.line(fault, red=True)
