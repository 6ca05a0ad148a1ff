# SPDX-License-Identifier: MIT OR Apache-2.0
"""Random files of RRDtool: their definitions and their samples. The number of a file is the seed of all its values.

Its kind says which cells must agree after a move to rrdi:

- whole: no step is unknown. All archives have the same functions, and each row length divides the next one.
- steps: steps are unknown because of U, gaps and bounds, and an archive of single steps has the whole time. All
  functions but LAST.
- reach: as steps, but the archive of single steps is short: the rows that it covers.
- munin: Munin's layout, with a DERIVE in bursts."""
from __future__ import annotations

import math
import random
from dataclasses import dataclass, field

KINDS = ("whole", "steps", "munin", "whole", "reach")
FUNCTION_SETS = ("AVERAGE", "AVERAGE MIN MAX", "AVERAGE MIN MAX", "AVERAGE MAX", "AVERAGE MIN", "AVERAGE MIN MAX LAST",
                 "AVERAGE LAST", "MAX", "MIN", "MIN MAX")
DAY = 86_400


@dataclass
class Case:
    kind: str
    step: int
    start: int
    definitions: list[str]
    samples: list[str]
    # Samples that are added after the move: of gauges with a sample in each step.
    later: list[str] = field(default_factory=list)


def rates_of(chance: random.Random, source: str, count: int, may_be_negative: bool) -> list[float]:
    """Returns rates in bursts, walks, waves or steps. Only small rates have both signs: their eleven digits reach a
    millionth."""
    way = chance.choice(["burst", "burst", "walk", "wave", "constant", "noise"])
    height = chance.choice([1, 37.5, 1000, 8999.25] if may_be_negative else [1, 100, 894976, 1e9])
    low = -height if may_be_negative and chance.random() < 0.5 and source == "GAUGE" else 0
    period, level = chance.randint(2, 40), chance.uniform(low, height)
    rates = []
    for number in range(count):
        rate = level
        if way == "burst":
            rate = height * (chance.random() if period % 2 else 1) if number % period == 1 else low
        elif way == "walk":
            rate = level = min(max(level + chance.uniform(-1, 1) * height / 20, low), height)
        elif way == "wave":
            rate = low + (height - low) * (1 + math.sin(number / period)) / 2
        elif way == "noise":
            rate = chance.uniform(low, height)
        rates.append(round(rate, chance.choice([0, 2, 6]) if period % 3 else 3))
    return rates


def times_of(chance: random.Random, step: int, start: int, end: int, is_even: bool) -> list[int]:
    """Returns the times of samples: each step, or with jitter, several in a step, or one in a few steps."""
    pace = step * chance.choice([1, 1, 1, 2]) if is_even else max(1, int(step * chance.choice([0.4, 1, 1, 1.7])))
    jitter = 0 if is_even else pace // 3
    found, time = [], start
    while (time := time + max(1, pace + chance.randint(-jitter, jitter))) <= end:
        found.append(time)
    return found


def layout_of(chance: random.Random, is_fine: bool) -> list[tuple[int, int]]:
    """Returns row lengths in steps, each of which divides the next one, and the number of rows of each length."""
    length, lengths = 1 if is_fine or chance.random() < 0.7 else chance.choice([2, 3, 5]), []
    for _ in range(chance.choice([1, 2, 2, 3, 3, 4])):
        lengths.append((length, chance.randint(2, 40)))
        length *= chance.choice([2, 3, 3, 4, 6, 12])
    return lengths


def samples_of(chance: random.Random, sources: list[str], times: list[int], start: int, holes: bool, negative: bool
               ) -> list[str]:
    columns = []
    for source in sources:
        total, before, column = 0, start, []
        for time, rate in zip(times, rates_of(chance, source, len(times), negative)):
            total += int(rate) * (time - before)
            before = time
            if holes and chance.random() < 0.03:
                column.append("U")
            elif source in ("COUNTER", "DERIVE"):
                column.append(str(total % 2**32 if source == "COUNTER" else total))
            else:
                column.append(str(int(rate)) if source == "ABSOLUTE" else f"{rate:.6f}".rstrip("0").rstrip("."))
        columns.append(column)
    return [":".join(row) for row in zip(map(str, times), *columns)]


def munin_case(chance: random.Random) -> Case:
    """Returns Munin's layout, from its own rrdtool create."""
    step, start = 300, 1_700_000_000 - 1_700_000_000 % DAY + 300 * chance.randint(0, 287)
    definitions = [f"DS:42:DERIVE:600:{chance.choice('0U')}:U"]
    definitions += [f"RRA:{function}:0.5:{steps}:{rows}" for steps, rows in ((1, 576), (6, 432), (24, 540), (288, 450))
                    for function in ("AVERAGE", "MIN", "MAX")]
    end = start + chance.randint(1, 20) * DAY + chance.randint(0, DAY)
    # Munin gives an update the time at which it asked the plugin: a few seconds after the full five minutes.
    late = chance.choice([0, 3, 17])
    height, period, total, samples = chance.choice([1e3, 894976, 1e8]), chance.randint(2, 30), 0, []
    for number, time in enumerate(range(start + step, end, step)):
        total += int(height * chance.random() * step) if number % period == 1 else 0
        samples.append(f"{time + late}:{total}")
    return Case("munin", step, start, definitions, samples)


def with_gaps(chance: random.Random, times: list[int], longest: int) -> list[int]:
    """Returns times of which some in a row are missing."""
    times, at = list(times), 0
    while at < len(times):
        if chance.random() < 0.01:
            del times[at:at + chance.randint(1, max(1, min(longest, 12)))]
        at += 1
    return times


def random_case(number: int) -> Case:
    chance, kind = random.Random(number), KINDS[number % len(KINDS)]
    if kind == "munin":
        return munin_case(chance)
    step, is_whole = chance.choice([1, 7, 10, 60, 300]), kind == "whole"
    lengths = layout_of(chance, not is_whole)
    if kind == "steps":
        lengths[0] = (1, 2000)
    functions = chance.choice(FUNCTION_SETS).split()
    coarsest = step * lengths[-1][0]
    start = 1_600_000_000 // coarsest * coarsest
    is_gauge = is_whole and chance.random() < 0.7
    types = ["GAUGE"] if is_gauge else ["GAUGE", "COUNTER", "DERIVE", "ABSOLUTE"]
    sources = [chance.choice(types) for _ in range(chance.randint(1, 3))]
    spans = [steps * rows for steps, rows in lengths]
    span = step * chance.randint(2, 1500)
    if is_whole and not is_gauge:
        # The first steps of counters are unknown. No archive has these steps any more.
        span = max(spans) * step + 3 * coarsest + step * chance.randint(2, 100)
    is_even = is_whole and chance.random() < 0.6
    times = times_of(chance, step, start, start + span, is_even)[:4000]
    if is_whole and times[-1] < start + (0 if is_gauge else max(spans) * step + 2 * coarsest):
        return random_case(number + 1_000_000)
    later = times_of(chance, step, times[-1], times[-1] + step * 40, True) if is_even else []
    heartbeat = step * 1000 if is_whole else step * chance.choice([2, 3])
    if not is_whole:
        times = with_gaps(chance, times, min(spans) // 2)  # no gap is as long as an archive
    drawn = samples_of(chance, sources, times + later, start, not is_whole, chance.random() < 0.4)
    definitions = [f"DS:s{at}:{source}:{heartbeat}:U:U" for at, source in enumerate(sources)]
    for steps, rows in lengths:
        share = chance.choice(["0.5", "0.5", "0.3", "0.99"])
        definitions += [f"RRA:{function}:{share}:{steps}:{rows}" for function in functions]
    has_later = is_even and all(source == "GAUGE" for source in sources)
    return Case(kind, step, start, definitions, drawn[:len(times)], drawn[len(times):] if has_later else [])


# ---- files of every kind, of which not every row can be moved

ODD_TYPES = ("GAUGE", "COUNTER", "DERIVE", "ABSOLUTE", "DCOUNTER", "DDERIVE")


def odd_samples(chance: random.Random, types: list[str], times: list[int]) -> list[str]:
    """Returns samples of sources of all types, with U, restarts and negative rates."""
    totals, lines, before = [0.0] * len(types), [], times[0]
    for time in times:
        words = []
        for at, kind in enumerate(types):
            sign = chance.choice([1, -1]) if kind in ("GAUGE", "DERIVE", "DDERIVE") else 1
            rate = sign * chance.choice([0, 1, 40, 1e6]) * chance.random()
            totals[at] = 0.0 if chance.random() < 0.02 else totals[at] + rate * (time - before)
            value = totals[at] if kind not in ("GAUGE", "ABSOLUTE") else rate
            is_whole = kind in ("COUNTER", "DERIVE", "ABSOLUTE")
            words.append("U" if chance.random() < 0.03 else str(int(value)) if is_whole else f"{value:.3f}")
        before = time
        lines.append(":".join([str(time), *words]))
    return lines


def odd_case(number: int) -> Case:
    """Returns a file of any types and functions, with gaps longer than archives and rows that don't divide each other."""
    chance = random.Random(number)
    step, start = chance.choice([1, 10, 60, 300]), 1_600_000_000 - chance.randint(0, 10_000)
    types = [chance.choice(ODD_TYPES) for _ in range(chance.randint(1, 4))]
    definitions = [f"DS:s{at}:{kind}:{step * chance.choice([1, 2, 5])}:U:U" for at, kind in enumerate(types)]
    if chance.random() < 0.3:
        definitions.append("DS:twice:COMPUTE:s0,2,*")
    for _ in range(chance.randint(1, 5)):
        function = chance.choice(["AVERAGE", "AVERAGE", "MIN", "MAX", "LAST"])
        share, rows = chance.choice(["0", "0.5", "0.99"]), chance.randint(1, 60)
        steps = chance.choice([1, 1, 2, 3, 5, 7, 12, 60])
        definitions.append(f"RRA:{function}:{share}:{steps}:{rows}")
    if chance.random() < 0.1:
        definitions.append("RRA:HWPREDICT:30:0.1:0.1:10")
    pace, time, times = max(1, int(step * chance.choice([0.4, 1, 1, 2.2]))), start, []
    for _ in range(chance.randint(1, 700)):
        time += chance.randint(pace, pace + pace // 3) + (step * chance.randint(1, 300) if chance.random() < 0.01 else 0)
        times.append(time)
    return Case("odd", step, start, definitions, odd_samples(chance, types, times))
