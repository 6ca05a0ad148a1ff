#!/usr/bin/python3
# SPDX-License-Identifier: MIT OR Apache-2.0
"""Measures rrdi beside RRDtool and others: the same work by turns, and the medians of the rounds.

    make bench [OPTIONS="[--rounds N] [WORK ..]"]
    benches/bench.py [OPTIONS] [WORK ..]

| WORK | What is measured |
|---|---|
| update, fetch | a process of rrdi and of rrdtool, in files of some lengths |
| writes | the calls of an update that write, and their bytes: the most of all rounds |
| batch | the processor's instructions for a line, a sample or a row of `rrdi batch`, without those of the system |
| call | the instructions of a call of rrdi-rrdtool; also of Python alone |
| c, python | an update and a fetch by the C library and by librrd; an update by the modules rrdi and rrdtool |
| feed | rrdi-feed and rrdcached with the same lines |
| carbon, writer | carbon-cache, and its writer alone, on rrdi and on whisper |

Without WORK all are measured, which takes half an hour. The ratio is that of rrdi to its peer in one round, and the median
of all rounds. Compare only numbers of one row; a busy machine changes the times, and much less the ratios.

Needed are the program and the C library that `make` and `make library` leave, cc and rrdtool, for batch and call valgrind,
for carbon and writer graphite-carbon, graphite-web, gunicorn and python3-whisper. Without librrd-dev, python3-rrdtool or
rrdcached that peer is missing. What cannot be measured is named."""
from __future__ import annotations

import argparse
import os
import sys
from pathlib import Path
from typing import List

sys.dont_write_bytecode = True
from harness import HEAD, TOP, Bench, LeftOut, measure

import libraries
import processes
import recorders

WORKS = [*processes.WORKS, *libraries.WORKS, *recorders.WORKS]
NAMES = list(dict.fromkeys(work.name for work in WORKS))
BUSY = 8  # the load from which on even ratios say little


def parsed(words: List[str]) -> argparse.Namespace:
    parser = argparse.ArgumentParser(description=__doc__, formatter_class=argparse.RawDescriptionHelpFormatter)
    parser.add_argument("works", nargs="*", metavar="WORK", help="what is measured (all)")
    parser.add_argument("--rounds", type=int, default=5, help="how many rounds (5)")
    parser.add_argument("--quick", action="store_true", help="try the benches: a fiftieth of the work")
    parser.add_argument("--program", default=TOP / "crates/rrdi/out/rrdi", metavar="PATH", help="the program")
    parser.add_argument("--library", default=TOP / "out/librrdi.so.0", metavar="PATH", help="the C library")
    options = parser.parse_args(words)
    unknown = set(options.works) - set(NAMES)
    if unknown or options.rounds < 1:
        parser.error(f"there is no work {', '.join(unknown)}" if unknown else "there must be a round")
    return options


def main(words: List[str]) -> int:
    options = parsed(words)
    bench = Bench(str(Path(options.program).resolve()), Path(options.library).resolve(), options.rounds, options.quick)
    loads = [os.getloadavg()[0]]
    print(HEAD, flush=True)
    for work in (work for work in WORKS if not options.works or work.name in options.works):
        try:
            print(*measure(work, bench), sep="\n", flush=True)
        except LeftOut as why:
            print(f"{work.title:44} left out: without {why}", flush=True)
        loads.append(os.getloadavg()[0])
    if bench.lacks:
        print(f"left out: {', '.join(sorted(bench.lacks))}")
    print(f"{options.rounds} rounds, load {min(loads):.1f} to {max(loads):.1f}")
    if max(loads) > BUSY:
        print(f"warning: with a load over {BUSY}, times say nothing and ratios little")
    return 0


if __name__ == "__main__":
    sys.exit(main(sys.argv[1:]))
