"""The figures of one run, and facts about the machine and the programs. The file has lines of facts, then tab-separated values."""
from __future__ import annotations

import collections
import contextlib
import datetime
import functools
import glob
import importlib.machinery
import importlib.util
import os
import platform
import subprocess
import sys
import time
from typing import Callable, Iterable, Iterator, NamedTuple

BENCH = os.path.dirname(os.path.dirname(os.path.abspath(__file__)))
COLUMNS = "chart\tby\twhat\tbytes\tdepth\tvalue\tunit"


@functools.cache
def loaded(path: str):
    """A program of bench/ as a module."""
    name = path.replace("/", "_")
    loader = importlib.machinery.SourceFileLoader(name, os.path.join(BENCH, path))
    module = importlib.util.module_from_spec(importlib.util.spec_from_loader(name, loader))
    loader.exec_module(module)
    return module


class Figure(NamedTuple):
    """A value of a chart: the program or library, what was measured, the bytes a call, and the requests in flight."""
    chart: str
    by: str
    what: str
    bytes: int
    depth: int
    value: float
    unit: str


class Figures:
    """Facts and figures, in the order in which they were added."""

    def __init__(self) -> None:
        self.facts: list[tuple[str, str]] = []
        self.found: list[Figure] = []

    def say(self, name: str, fact: str) -> None:
        self.facts.append((name, fact))
        print(f"{name}: {fact}", file=sys.stderr, flush=True)

    def add(self, figure: Figure) -> None:
        self.found.append(figure)

    def of(self, chart: str) -> list[Figure]:
        return [figure for figure in self.found if figure.chart == chart]

    def write(self, path: str) -> None:
        with open(path, "w", encoding="utf-8") as file:
            for name, fact in self.facts:
                file.write(f"# {name}: {fact}\n")
            file.write(COLUMNS + "\n")
            for figure in self.found:
                value = f"{figure.value:.4g}" if figure.value < 1000 else f"{figure.value:.0f}"
                file.write("\t".join(map(str, figure._replace(value=value))) + "\n")


def table(found: list[Figure], column: Callable[[Figure], str], scale: float) -> Iterator[str]:
    """Rows of a table in Markdown: what was measured, and its values by a column."""
    columns = list(dict.fromkeys(column(figure) for figure in found))
    yield "| | " + " | ".join(columns) + " |"
    yield "|---|" + "---:|" * len(columns)
    for what in dict.fromkeys(figure.what for figure in found):
        values = {column(figure): f"{figure.value / scale:.3g}" for figure in found if figure.what == what}
        yield f"| {what} | " + " | ".join(values.get(name, "") for name in columns) + " |"


def read(path: str) -> Figures:
    """What `write` wrote."""
    figures = Figures()
    with open(path, encoding="utf-8") as file:
        for line in file.read().splitlines():
            if line.startswith("# "):
                name, fact = line[2:].split(": ", 1)
                figures.facts.append((name, fact))
            elif line != COLUMNS:
                chart, by, what, size, depth, value, unit = line.split("\t")
                figures.add(Figure(chart, by, what, int(size), int(depth), float(value), unit))
    return figures


def first_value(path: str, name: str) -> str:
    """The value after a name in a file of /proc."""
    with open(path) as file:
        lines = (line.split(":", 1) for line in file if ":" in line)
        return next((value.strip() for key, value in lines if key.strip() == name), "unknown")


def commit() -> str:
    """The commit of the tree, and whether it has changes."""
    def git(*words: str) -> str:
        return subprocess.run(["git", "-C", BENCH, *words], stdout=subprocess.PIPE, stderr=subprocess.DEVNULL, text=True).stdout.strip()

    return (git("rev-parse", "--short=12", "HEAD") or "unknown") + (" with changes" if git("status", "--porcelain", "-uno") else "")


def build(programs: Iterable[str]) -> str:
    """Which build is measured, by the paths of its programs."""
    if all(os.path.dirname(path).endswith("/out") and "/crates/" in path for path in programs):
        return "proved, for every x86-64 processor"
    return "built without proofs" if any("/out/unproved/" in path for path in programs) else "a build of unknown kind"


def describe(figures: Figures, programs: list[str]) -> None:
    """Adds the machine, the date, the commit and the programs that are measured."""
    memory = int(first_value("/proc/meminfo", "MemTotal").split()[0]) / 2 ** 20
    figures.say("machine", f"{first_value('/proc/cpuinfo', 'model name')}, {os.cpu_count()} processors, {memory:.0f} GiB")
    figures.say("system", f"{platform.freedesktop_os_release()['PRETTY_NAME']}, Linux {platform.release()}")
    figures.say("date", datetime.datetime.now(datetime.timezone.utc).strftime("%Y-%m-%d %H:%M UTC"))
    figures.say("commit", commit())
    figures.say("build", build(programs))
    for program in programs:
        figures.say("program", f"{os.path.relpath(program, os.path.dirname(BENCH))}, {os.path.getsize(program)} bytes")


def processes() -> dict[tuple[int, str], float]:
    """The processor seconds that each process of the machine has used."""
    found, ticks = {}, os.sysconf("SC_CLK_TCK")
    for path in glob.glob("/proc/[0-9]*/stat"):
        with contextlib.suppress(OSError), open(path) as file:
            number, rest = file.read().split(" (", 1)
            name, rest = rest.rsplit(") ", 1)
            user, system = rest.split()[11:13]
            found[int(number), name] = (int(user) + int(system)) / ticks
    return found


def processors() -> tuple[float, float]:
    """The seconds of all processors since the machine started, and how many of these were busy or taken by the host."""
    with open("/proc/stat") as file:
        user, nice, system, idle, wait, irq, soft, stolen = map(int, file.readline().split()[1:9])
    ticks, busy = os.sysconf("SC_CLK_TCK"), user + nice + system + irq + soft + stolen
    return (busy + idle + wait) / ticks, busy / ticks


class Beside:
    """Watches what else the machine does from now on."""

    def __init__(self) -> None:
        self.all, self.busy = processors()
        self.own, self.processes, self.start = sum(os.times()[:4]), processes(), time.monotonic()

    def told(self) -> str:
        """The share of the processors that other processes used, and the names of those that used most and still run."""
        total, busy = processors()
        others = (busy - self.busy) - (sum(os.times()[:4]) - self.own)
        spent: collections.Counter[str] = collections.Counter()
        for (number, name), seconds in processes().items():
            if number != os.getpid():
                spent[name] += seconds - self.processes.get((number, name), 0.0)
        names = ", ".join(f"{name} {seconds:.0f} s" for name, seconds in spent.most_common(3) if seconds >= 1)
        share = f"other work had {max(0.0, others) / max(total - self.all, 0.01):.0%} of the processors, in {time.monotonic() - self.start:.0f} s"
        return f"{share}: {names}" if names else share
