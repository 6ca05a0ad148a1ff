# SPDX-License-Identifier: MIT OR Apache-2.0
"""Converts files of RRDtool into batches for rrdi.

The old rows are sent once more: rows become samples, rates of gauges at the times of the rows, from which rrdi computes
its archives. The sources first get no bounds and the longest heartbeat, so that each rate is taken unchanged; at the end
a `tune` for each gives back its heartbeat, bounds and type. Which samples a row becomes depends on what the file knows:

- As far back as an archive of one step per row reaches, the steps themselves are known.
- Older rows come from the finest `AVERAGE` archive that reaches that far back, as steps with the row's average. If
  archives of `MIN`, `MAX` or `LAST` have the same resolution, the first step is the minimum, the second the maximum, the
  final one the last rate, and the steps between make the average right: four steps with the average 6, the minimum 4, the
  maximum 9 and the last value 5 become 4, 9, 6 and 5.
- Where a finer archive starts inside a coarser row, the row's beginning gets what the finer rows leave of its total, and
  its minimum and maximum if no finer row explains them.
- If steps of a row were unknown, the next coarser `AVERAGE` differs from the average of the finer rows. One row, or two
  at the ends of an outage, in which unknown steps would explain the difference get them. Failing that, the unknown rows
  get a few known steps, too few to make a row known: as many as the `AVERAGE` archive two levels coarser tells.
- Where no coarser `AVERAGE` consists of whole rows, as of 70 seconds below 500, the next coarser one tells how a row that
  its end cuts is divided, and whether an unknown row had known steps.
- If no `AVERAGE` archive reaches that far back, the rows of the other functions are converted in the same way.
- The unfinished row and step get first their unknown seconds and then the known ones at their mean rate.
- The last raw value of each COUNTER and DERIVE is sent after the tunes, in a sample of one second: the rate of that second
  is unknown, that of the next sample known.
"""
