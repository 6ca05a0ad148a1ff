# SPDX-License-Identifier: MIT OR Apache-2.0
"""`import rrdtool` for a program that was written for RRDtool's module: put this folder first on its path.

    PYTHONPATH=/usr/local/share/rrdi/python/compat python3 program.py

docs/python.md lists the functions that rrdi supports, and the differences.
"""
import os
import sys

try:
    import rrdi.compat.rrdtool
except ImportError:
    # The package is in the folder above.
    sys.path.append(os.path.dirname(os.path.dirname(os.path.realpath(__file__))))

from rrdi.compat.rrdtool import *  # noqa: E402, F401, F403
from rrdi.compat.rrdtool import __version__  # noqa: E402, F401
