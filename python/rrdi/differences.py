# SPDX-License-Identifier: MIT OR Apache-2.0
"""What differs between the definitions of two databases."""
from __future__ import annotations

from itertools import zip_longest
from typing import List

from .amounts import shortened
from .printed import Settings, settings_of


def difference(found: str, wanted: str, is_journal_given: bool) -> str:
    """Returns the first difference between two outputs of `info`: of a file, and of what a creation would make; nothing
    if there is none."""
    has, wants = _definition(settings_of(found), is_journal_given), _definition(settings_of(wanted), is_journal_given)
    for one, other in zip_longest(has, wants):
        if one != other:
            return f"the file lacks {other}" if one is None else f"the file has {one}" + (f", not {other}" if other else "")
    return ""


def _definition(settings: Settings, has_journal: bool) -> List[str]:
    """Returns the settings as the words of a creation."""
    sources = [f"DS:{one.name}:{one.type}:{one.heartbeat}:{shortened(one.minimum)}:{shortened(one.maximum)}"
               for one in settings.sources]
    archives = [f"RRA:{one.function}:{shortened(one.xff)}:{one.steps}:{one.rows}" for one in settings.archives]
    journal = [f"journal={settings.journal}"] if has_journal else []
    return [f"step={settings.step}", *journal, *sources, *archives]
