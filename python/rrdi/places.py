# SPDX-License-Identifier: MIT OR Apache-2.0
"""Where the compiled parts of the package are, the C library and the extension of Python that calls it, and its pages."""
from __future__ import annotations

import os
from typing import List, Optional, Sequence


def beside_package(names: Sequence[str]) -> Optional[str]:
    """Returns the path of the first file with one of the names that is near this package, or None."""
    for folder in _folders():
        for name in names:
            path = os.path.join(folder, name)
            if os.path.isfile(path):
                return path
    return None


def _folders() -> List[str]:
    """Returns folders near this package: in a wheel, a repository, an installation (PREFIX/share/rrdi/python)."""
    package = os.path.dirname(os.path.realpath(__file__))
    above, name = os.path.split(os.path.dirname(package))
    folders = [package, os.path.join(above, "out")]
    if name == "python" and above.endswith("/share/rrdi"):
        lib = os.path.join(os.path.dirname(os.path.dirname(above)), "lib")
        folders += [lib, os.path.join(lib, "rrdi")]
    return folders


def page(name: str) -> str:
    """Returns the path of a page of the documentation in a repository or an installation; without one, as the pages name it."""
    package = os.path.dirname(os.path.realpath(__file__))
    path = os.path.join(os.path.dirname(os.path.dirname(package)), "docs", name)
    return path if os.path.isfile(path) else f"docs/{name}"
