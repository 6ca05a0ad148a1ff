# SPDX-License-Identifier: MIT OR Apache-2.0
"""What the tools make of local times, in a process of the zone that TZ names: questions come as a line of JSON, and answers go
as one.

    {"texts": {"T": [seconds, ..]}, "typed": ["2023-10-29 02:30:00", ..], "spans": [[start, end, now], ..],
     "labels": [[begin, end, width], ..]}"""
from __future__ import annotations

import json
import sys
from pathlib import Path
from typing import Any, Callable

sys.path.insert(0, str(Path(__file__).resolve().parent.parent.parent / "python"))

from rrdi.compat.at_style import span  # noqa: E402
from rrdi.compat.syntax import Untranslatable  # noqa: E402
from rrdi.tools.command_line import WrongArguments  # noqa: E402
from rrdi.tools.fix import times_of  # noqa: E402
from rrdi.tools.plotting.labels import labels  # noqa: E402
from rrdi.tools.spans import span_of, time_text, zone_of  # noqa: E402


def tried(call: Callable[[], Any]) -> Any:
    """Returns what a call returns; None if it refuses its arguments."""
    try:
        return call()
    except (WrongArguments, Untranslatable):
        return None


def answers(asked: dict[str, list[Any]]) -> dict[str, list[Any]]:
    """Returns an answer to each question."""
    return {"texts": [time_text(at) for at in asked["texts"]],
            "zones": [zone_of(*times) for times in asked["zones"]],
            "fixed": [tried(lambda: sorted(times_of(text))) for text in asked["typed"]],
            "shown": [tried(lambda: span_of(text, "@4000000000", 0)[0]) for text in asked["typed"]],
            "ended": [tried(lambda: span_of("@0", text, 0)[1]) for text in asked["typed"]],
            "spans": [tried(lambda: list(span(*three))) for three in asked["spans"]],
            "labels": [labels(*three) for three in asked["labels"]]}


if __name__ == "__main__":
    print(json.dumps(answers(json.load(sys.stdin))))
