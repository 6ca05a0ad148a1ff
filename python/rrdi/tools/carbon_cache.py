# SPDX-License-Identifier: MIT OR Apache-2.0
"""Runs Graphite's carbon-cache with rrdi's files instead of whisper's.

usage: rrdi-carbon-cache [OPTION..] start|stop|status

example:
  rrdi-carbon-cache --config=/etc/carbon/carbon.conf start

The options are those of carbon-cache, which `carbon-cache --help` lists.
carbon.conf needs the line `DATABASE = rrdi`.

options:
  -h, --help           show this help and exit

settings of carbon.conf, beside carbon's own:
  RRDI_LIBRARY         the C library, if the package would not find it
  RRDI_JOURNAL         how many slots of a metric can come late (default: 16)
  RRDI_MAX_FUTURE      how many seconds a point may be ahead of the clock
                       (default: 600)
  RRDI_OPEN_FILES      how many files stay open between writes (default: 256)
  RRDI_OPEN_SECONDS    for how many seconds (default: 2)
  RRDI_OPEN_MEMORY     with how many megabytes of memory (default: 64)

environment:
  RRDI_SYNC            1: flush each change to the disk

docs/graphite.md has more.

Exit status: that of carbon-cache; 1 and a line on standard error if carbon or
the C library is not installed.
"""
from __future__ import annotations

import importlib
import shutil
import sys
from typing import List

from .command_line import Failure, Tool, WrongArguments

# Debian's path, if carbon-cache is not on the PATH.
CARBON_CACHE = "/usr/bin/carbon-cache"


def start() -> None:
    """Imports the class, and runs carbon as its own script does: carbon takes the service from the script's name, and
    its default folders from the script's folder."""
    importlib.import_module("rrdi.graphite.carbon")
    util, exceptions = importlib.import_module("carbon.util"), importlib.import_module("carbon.exceptions")
    try:
        util.run_twistd_plugin(shutil.which("carbon-cache") or CARBON_CACHE)
    except exceptions.CarbonConfigException as fault:
        raise SystemExit(str(fault)) from None


def run(words: List[str]) -> int:
    if {"-h", "--help"}.intersection(words):
        raise WrongArguments
    try:
        start()
    except ImportError as error:
        raise Failure(f"{error}; {sys.executable} needs carbon (Debian: graphite-carbon)") from None
    return 0


TOOL = Tool("rrdi-carbon-cache", "[OPTION..] start|stop|status", __doc__, run)
main = TOOL.main


if __name__ == "__main__":
    sys.exit(main())
