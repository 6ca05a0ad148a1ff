#!/usr/bin/env python3
# SPDX-License-Identifier: MIT OR Apache-2.0
"""Reads a database of rrdi from its file and prints it: `examples/rrdi.py --help` says more, and docs/export.md.

The script starts `python3 -m rrdi.reader`, whose code is in python/rrdi/reader. If a program finds this folder first on
its path and says `import rrdi`, the program gets the package in python/rrdi.
"""
import importlib
import os
import sys

sys.path.insert(0, os.path.join(os.path.dirname(os.path.dirname(os.path.realpath(__file__))), "python"))

if __name__ == "__main__":
    sys.dont_write_bytecode = True
    from rrdi.reader.__main__ import main
    sys.exit(main("rrdi.py"))

# Remove this file's module, so that the name means the package.
del sys.modules[__name__]
importlib.import_module(__name__)
