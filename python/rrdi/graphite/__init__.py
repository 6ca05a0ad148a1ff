# SPDX-License-Identifier: MIT OR Apache-2.0
"""Graphite's storage in files of rrdi: `rrdi.graphite.carbon` writes for carbon, `rrdi.graphite.web` reads for graphite-web.

docs/graphite.md says how to set them up, and how they differ from whisper. Only these two modules import
Graphite's own packages.

A point of carbon-cache, a metric `a.b` with a value and a time, goes into `a/b.rrdi` like this:

1. `tools.carbon_cache` imports `carbon` and starts carbon, which calls `RrdiDatabase.exists`, `create` for a new metric
   (`layout` makes the step, sources and archives of its retentions; nothing is written yet), and `write` with its points.
2. `store` finds the path (`names`) and adds points that wait. It knows the file's step and last time from its last batch;
   otherwise `reader.selected` reads them.
3. `slots` sorts the points into steps and writes an update for each of the newest ones. If one is not later than the last
   time, `late` finds how many updates to revert and which points to give again.
4. `commands.batch` gives the lines to the library: one opening, one lock. Those of a new file begin with `create`, and
   `making` gives the file its name; those of late points begin with `revert`; otherwise the first line asks for the last
   time. If another program has taken samples back, or refuses a line by its own sample, the points are tried again as late.
5. If the file cannot be written, the points wait in `store`: `unwritten` says how many may, and has `damaged` rename a
   damaged file. Of too many the oldest are lost; `losses` counts and logs them, and carbon gets the counts as metrics.

graphite-web reads the same file by `web`, `finding` (patterns), `series` (rows as whisper gives them) and
`reader.selected`, under a shared lock.
"""
