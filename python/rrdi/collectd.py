# SPDX-License-Identifier: MIT OR Apache-2.0
"""A writer for collectd's python plugin. The files have the layout of collectd's own plugin rrdtool.

    LoadPlugin python
    <Plugin python>
        ModulePath "/usr/local/share/rrdi/python"
        Import "rrdi.collectd"
        <Module "rrdi.collectd">
            DataDir "/var/lib/collectd/rrdi"
        </Module>
    </Plugin>

Options: those of the plugin rrdtool with the same names (DataDir, StepSize, HeartBeat, RRARows, RRATimespan, which may
come several times, XFF and CacheTimeout), Journal (16), which sets how many changes a file can revert, OpenFiles, OpenSeconds
and OpenMemory, how many files stay open between their writes (256; 0 for none), for how many seconds (2), and with how
many MB of memory (64), and Library, the C library, if the package would not find it.

Samples of a file are held for CacheTimeout seconds (60) after the first one, and then taken in at once. A flush and the
end of collectd take in all that is held.
"""
from __future__ import annotations

import math
import os
import sys
import threading
import time
from collections import Counter
from typing import Any, Callable, Dict, List, NamedTuple, Optional, Protocol, Sequence, Tuple, cast

from .amounts import gauge_text
from .commands import RefusedLine, batch_on_new
from .environment import is_synced
from .errors import NO_FILE, Damaged, Usage
from .escaping import escaped
from .library import load_library
from .making import is_there, make
from .open_files import OpenBounds, OpenFiles
from .unwritten import MOST_OF_A_FILE, newest, why
from .words import as_bytes, line_of

FUNCTIONS = ("AVERAGE", "MIN", "MAX")
SUFFIX, LONGEST_NAME = ".rrdi", 255
LONGEST_SHOWN = 300  # characters of a name in a message


class Values(Protocol):
    """A value list of collectd."""

    host: str
    plugin: str
    plugin_instance: str
    type: str
    type_instance: str
    time: float
    interval: float
    values: Sequence[float]


class Host(Protocol):
    """The module `collectd` that the python plugin gives to its modules."""

    def register_config(self, callback: Callable[[Any], None]) -> object: ...

    def register_init(self, callback: Callable[[], None]) -> object: ...

    def register_write(self, callback: Callable[[Values], None]) -> object: ...

    def register_flush(self, callback: Callable[..., None]) -> object: ...

    def register_shutdown(self, callback: Callable[[], None]) -> object: ...

    def get_dataset(self, name: str) -> Sequence[Tuple[str, str, float, float]]: ...

    def error(self, text: str) -> object: ...

    def warning(self, text: str) -> object: ...

    def notice(self, text: str) -> object: ...


class Configuration:
    """The settings of the module, by collectd's names in small letters."""

    def __init__(self) -> None:
        self.datadir = "/var/lib/collectd/rrdi"
        self.stepsize = self.heartbeat = 0  # 0: by the interval of the values
        self.rrarows = 1_200
        self.rratimespan: List[int] = []
        self.xff = 0.1
        self.cachetimeout = 60.0
        self.journal = 16
        self.openfiles, self.openseconds, self.openmemory = OpenBounds()
        self.library = ""

    SPANS = (3_600, 86_400, 7 * 86_400, 31 * 86_400, 366 * 86_400)

    def set(self, name: str, value: object) -> None:
        """Sets an option from its name and its value in collectd's configuration.

        # Errors
        `ValueError` with a line for the user.
        """
        key = name.lower()
        old = vars(self).get(key)
        if old is None:
            raise ValueError(f"unknown option {name}")
        kind: Any = int if isinstance(old, list) else type(old)
        try:
            new = kind(value)
        except (TypeError, ValueError, OverflowError):
            raise ValueError(f"{name} must be {'a text' if kind is str else 'a number'}, not {value!r}") from None
        least, below = (1 if key in ("rrarows", "journal", "rratimespan") else 0), (1 if key == "xff" else 10**9)
        if kind is not str and not least <= new < below:
            raise ValueError(f"{name} is out of range: {value!r}")
        if isinstance(old, list):
            old.append(new)
        else:
            setattr(self, key, new)

    @property
    def spans(self) -> Sequence[int]:
        return self.rratimespan or self.SPANS


# ---- Names and definitions

def safe_part(text: str) -> str:
    """A part of an identifier as a name of a file or a folder, which never leaves the data folder."""
    part = text.replace("/", "_").replace("\0", "_")
    return "_" * max(len(part), 1) if part in ("", ".", "..") else part


def file_of(folder: str, values: Values) -> Optional[str]:
    """The path of the file of a value list; None if a part of its name is too long."""
    plugin = values.plugin + ("-" + values.plugin_instance if values.plugin_instance else "")
    kind = values.type + ("-" + values.type_instance if values.type_instance else "")
    parts = [safe_part(values.host), safe_part(plugin), safe_part(kind) + SUFFIX]
    is_short = all(len(as_bytes(part)) <= LONGEST_NAME for part in parts)
    return os.path.join(folder, *parts) if is_short else None


def name_of(values: Values) -> str:
    """What a message calls a value list."""
    return f"{values.host}/{values.plugin}/{values.type}"[:LONGEST_SHOWN]


def bound(value: Optional[float]) -> str:
    return "U" if value is None or not math.isfinite(value) else gauge_text(value) or "U"


def archives(options: Configuration, step: int) -> List[str]:
    """The archives that the plugin rrdtool makes: for each span rows of whole steps, at least `RRARows` of them."""
    words, steps = [], 0
    xff = min(max(round(options.xff * 1_000_000), 0), 999_999)
    for span in options.spans:
        span = max(span, step * options.rrarows)
        steps = 1 if steps == 0 else span // (options.rrarows * step)
        rows = math.ceil(span / (steps * step))
        words += [f"RRA:{function}:0.{xff:06}:{steps}:{rows}" for function in FUNCTIONS]
    return words


def definition(options: Configuration, values: Values, dataset: Sequence[Tuple[str, str, float, float]], first: int) -> str:
    """The line that creates a file whose first sample is at `first`. The file starts a second before, as collectd has it.

    # Errors
    `Usage` if the name of a source has a character that no line can have.
    """
    step = options.stepsize or max(int(values.interval + 0.5), 1)
    heartbeat = options.heartbeat or 2 * step
    words = ["create", "--step", str(step), "--start", str(max(first - 1, 0)), "--journal", str(options.journal)]
    words += [f"DS:{name}:{kind.upper()}:{heartbeat}:{bound(least)}:{bound(greatest)}"
              for name, kind, least, greatest in dataset]
    return line_of(words + archives(options, step))


def raw_text(value: float) -> str:
    """A value of a sample: whole numbers as they are, since COUNTER and DERIVE take no others; U if rrdi takes none."""
    return str(value) if isinstance(value, int) else gauge_text(value) or "U"


class Unusable(Exception):
    """Why a sample cannot be held; the text is for the user."""


class Held(NamedTuple):
    """Samples of a file that wait, since when, and the line that creates the file if it is not there."""

    since: float
    create: str
    lines: List[str]


class Plugin:
    """Holds samples by their files, and gives them to the C library. Several threads may call."""

    def __init__(self, collectd: Host, clock: Callable[[], float] = time.monotonic):
        self.collectd, self.options, self._clock = collectd, Configuration(), clock
        self.counts: Counter[str] = Counter()
        self._held: Dict[str, Held] = {}
        self._guard = threading.Lock()  # of what is held, and of the counts
        self._turn = threading.Lock()  # of writing files: one thread at a time
        self._files = OpenFiles()

    def register(self) -> None:
        self.collectd.register_config(self.configure)
        self.collectd.register_init(self.start)
        self.collectd.register_write(self.write)
        self.collectd.register_flush(self.flush)
        self.collectd.register_shutdown(self.end)

    # ---- What collectd calls

    def configure(self, config: Any) -> None:
        for child in config.children:
            for value in child.values:
                try:
                    self.options.set(child.key, value)
                except ValueError as error:
                    self.collectd.error(f"rrdi: {error}")

    def start(self) -> None:
        try:
            load_library(self.options.library or None)
        except OSError as error:
            self.collectd.error(f"rrdi: {error}")
        options = self.options
        self._files = OpenFiles(OpenBounds(options.openfiles, options.openseconds, options.openmemory), clock=self._clock)

    def write(self, values: Values) -> None:
        try:
            held = self.hold(values)
        except Exception as fault:  # such as a type that collectd does not know: the sample is counted at least
            self.lose(name_of(values), 1, str(fault) if isinstance(fault, Unusable) else f"{type(fault).__name__}: {fault}")
            return
        if self._clock() - held.since >= self.options.cachetimeout:
            self.take_in(self.options.cachetimeout, is_patient=False)

    def hold(self, values: Values) -> Held:
        """Holds a sample until its file is written.

        # Errors
        `Unusable` if the sample has no file, or no line.
        """
        path = file_of(self.options.datadir, values)
        if path is None or not math.isfinite(values.time) or values.time < 0:
            raise Unusable("its name or its time cannot be used")
        when = int(values.time + 0.5)
        line = "update " + ":".join([str(when), *map(raw_text, values.values)])
        with self._guard:
            held = self._held.get(path)
            if held is None:
                try:
                    create = definition(self.options, values, self.collectd.get_dataset(values.type), when)
                except Usage:
                    raise Unusable("the names of its sources cannot be used") from None
                held = self._held[path] = Held(self._clock(), create, [])
            held.lines.append(line)
        return held

    def flush(self, timeout: float, plugin: Optional[str] = None, identifier: Optional[str] = None) -> None:
        self.take_in(max(timeout, 0))

    def end(self) -> None:
        self.take_in(0)
        self._files.close_all()
        with self._guard:
            waiting = sum(len(held.lines) for held in self._held.values())
            self._held.clear()
        if waiting:
            self.lose("", waiting, "their files could not be written before the end")
        self.collectd.notice(f"rrdi: {self.counts['taken']} samples taken in, {self.counts['lost']} lost")

    # ---- Files

    def take_in(self, seconds: float, is_patient: bool = True) -> None:
        """Writes each file whose samples were held for some seconds. If another thread writes, waits for it, or leaves
        the work to it."""
        if not self._turn.acquire(blocking=is_patient):
            return
        try:
            now = self._clock()
            with self._guard:
                due = [path for path, held in self._held.items() if now - held.since >= seconds]
            for path in due:
                with self._guard:
                    held = self._held.pop(path, None)
                if held is not None:
                    self.write_file(path, held)
        finally:
            self._turn.release()

    def write_file(self, path: str, held: Held) -> None:
        """Runs one batch. If the file can't be written, its samples wait for the next time."""
        try:
            refused = None if is_there(path) else self.begin(path, held)
            if refused is None:
                refused = self._files.batch(path, held.lines).refused
        except Exception as fault:  # the samples must survive any exception
            reason = why(path, fault)
            self.keep(path, held, f"{path}: {reason}" if isinstance(fault, Damaged) else reason)
            return
        if refused and refused[0].reason == NO_FILE:
            self.keep(path, held, f"{path}: {NO_FILE}")  # another program has taken the file away meanwhile
            return
        with self._guard:
            self.counts["taken"] += len(held.lines) - len(refused)
        if refused:
            self.lose(path, len(refused), f"the first: {refused[0].line[:200]}: {refused[0].reason}")

    def begin(self, path: str, held: Held) -> Optional[Sequence[RefusedLine]]:
        """Makes a file with its first samples. Returns the refused ones, which are all if `create` is refused; None if
        another program has made the file."""
        refused = make(path, lambda new: batch_on_new(new, [held.create, *held.lines]).refused, makes_folder=True,
                       syncs=is_synced(None))
        return [refused[0]] * len(held.lines) if refused and refused[0].number == 1 else refused

    def keep(self, path: str, held: Held, reason: str) -> None:
        with self._guard:
            later = self._held.get(path)
            lines, lost = newest(held.lines + (later.lines if later else []), MOST_OF_A_FILE)
            self._held[path] = Held(self._clock(), held.create, lines)
        if lost:
            self.lose(path, lost, reason)
        else:
            self.warn(f"rrdi: {reason}; {len(lines)} samples wait")

    def lose(self, path: str, count: int, reason: str) -> None:
        with self._guard:
            self.counts["lost"] += count
        self.warn(f"rrdi: {path}: {count} samples lost: {reason}")

    def warn(self, text: str) -> None:
        self.collectd.warning(escaped(text))


# The python plugin of collectd puts its module there before it imports this one.
if "collectd" in sys.modules:
    Plugin(cast(Host, sys.modules["collectd"])).register()
