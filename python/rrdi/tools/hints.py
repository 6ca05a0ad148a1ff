# SPDX-License-Identifier: MIT OR Apache-2.0
"""What a further line on standard error says: which option or word was meant, and which tool reads a file of another kind.

Few runs need this module, so it is imported when a run has failed."""
from __future__ import annotations

import difflib
import re
from typing import List, Optional, Sequence

from ..kinds import why_not_ours

OPTION = re.compile(r"(?<![\w-])(--?[a-zA-Z][\w-]*)")


def nearest(word: str, words: Sequence[str]) -> Optional[str]:
    """Returns the word that is most like another one; none if no word is like it."""
    found = difflib.get_close_matches(word, words, 1, 0.6)
    return found[0] if found else None


def option_hint(words: List[str], help_text: str) -> str:
    """Returns which of a tool's words is no option, and which option is like it; nothing if all are options. The help has
    all options."""
    known = list(dict.fromkeys(OPTION.findall(help_text)))
    for word in words:
        name = word.partition("=")[0]
        if OPTION.fullmatch(name) and name not in known:
            meant = nearest(name, [option for option in known if option.startswith("--") == name.startswith("--")])
            return f"there is no option {name}" + (f"; did you mean {meant}?" if meant else "")
    return ""


def file_hint(words: List[str]) -> str:
    """Returns which of a tool's files rrdi-import can convert; nothing if it can convert none."""
    for word in words:
        why = why_not_ours(word)
        if why:
            return why
    return ""
