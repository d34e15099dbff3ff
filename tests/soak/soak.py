#!/usr/bin/python3
"""soak.py [PROGRAM] [--minutes M] [--drains D] [--out FOLDER]: runs a gateway's day in M minutes on `iconvd listen`, with good and bad clients.

Every reply is compared with Python's codecs. The metrics are read each second. D times another server takes the listener, and the one before is
drained: its clients go on with other streams. It writes the figures over time as tables and as a chart (FOLDER/soak.csv, metrics.csv and
soak.svg), and ends with `N passed, N failed`: no wrong reply, memory within its limit and level, times level. No figure is judged by itself:
memory is compared with earlier memory of the same run, and times with those of an echo at the same moments.
"""

from __future__ import annotations

import argparse
import asyncio
import csv
import os
import signal
import subprocess
import sys
import time
from typing import List, NamedTuple, Sequence, Tuple

HERE = os.path.dirname(os.path.abspath(__file__))
TOP = os.path.dirname(os.path.dirname(HERE))
sys.path.insert(0, os.path.join(TOP, "clients", "python"))

from chart import draw
from corpus import Corpus
from day import Day
from probes import Probes, Window
from scrape import Sample, Scraper
from service import Service
from verdict import bounded, memory_level, scraped, times_level


class Run(NamedTuple):
    """All parts of a run, and the time of its start."""

    day: Day
    probes: Probes
    scraper: Scraper
    service: Service
    begin: float


def start(words: List[str], log: str) -> Tuple["subprocess.Popen[str]", int]:
    """Starts a server, and reads its port from its first line. Its standard error is written to `log`."""
    with open(log, "w", encoding="utf-8") as errors:
        process = subprocess.Popen(words, stdout=subprocess.PIPE, stderr=errors, text=True)
    assert process.stdout is not None
    line = process.stdout.readline()
    if not line:
        sys.exit(f"soak: {words[0]} does not listen")
    return process, int(line.rsplit(":", 1)[-1])


async def replace_at(service: Service, moments: List[float]) -> None:
    """Replaces the server at these times."""
    for moment in moments:
        await asyncio.sleep(max(0.0, moment - time.monotonic()))
        await service.replace()


async def soak(service: Service, echo_port: int, minutes: float, drains: int) -> Run:
    """Runs the day, the probes and the scraper for `minutes`, and replaces the server meanwhile."""
    corpus = Corpus(1)
    if corpus.without:
        print(f"without charmaps that this system lacks: {', '.join(corpus.without)}")
    begin = time.monotonic()
    run = Run(Day(service, corpus), Probes(service, echo_port), Scraper(service), service, begin)
    tasks = [asyncio.create_task(run.day.run()), asyncio.create_task(run.probes.run(begin, lambda: run.day.counts["replies"]))]
    tasks.append(asyncio.create_task(run.scraper.run(begin)))
    moments = [begin + 60 * minutes * (number + 1) / (drains + 1) for number in range(drains)]
    replacing = asyncio.create_task(replace_at(service, moments))
    end = begin + minutes * 60
    while time.monotonic() < end and not any(task.done() for task in tasks):
        await asyncio.sleep(0.5)
    await replacing
    run.day.is_over = run.probes.is_over = run.scraper.is_over = True
    for ended in await asyncio.gather(*tasks, return_exceptions=True):
        if isinstance(ended, BaseException):
            run.day.wrong.append(f"the probes: {ended!r}")
    return run


def write_table(rows: Sequence[Tuple[float, ...]], names: Tuple[str, ...], path: str) -> None:
    with open(path, "w", encoding="ascii", newline="") as file:
        table = csv.writer(file)
        table.writerow(names)
        table.writerows([[round(figure, 1) for figure in row] for row in rows])


def judge(run: Run, drains: int) -> List[bool]:
    """Prints each part of the verdict."""
    day, windows, samples = run.day, run.probes.windows, run.scraper.samples
    counts = ", ".join(f"{count:,} {name}" for name, count in sorted(day.counts.items()))
    parts = [
        (run.service.lives(), "the server lives", ""),
        (not day.wrong and day.counts["replies"] > 0, "each reply is right", f"{counts}{''.join(f'; {text}' for text in day.wrong[:5])}"),
        (not run.service.wrong and len(run.service.drains) == drains, "each drain ends its server", f"{drains}; {run.service.wrong}"),
        scraped(run.scraper),
        bounded(samples),
        (run.scraper.refused_memory == 0, "no request is refused memory", f"{run.scraper.refused_memory} were"),
        ((len(windows) >= 9), "there are windows enough for a verdict", f"{len(windows)}"),
    ]
    if len(windows) >= 9:
        parts.append((memory_level(windows)[0], "memory is level", memory_level(windows)[1]))
        parts.append((times_level(windows)[0], "times are level", times_level(windows)[1]))
    for holds, what, why in parts:
        print(f"{'ok' if holds else 'FAILED'}: {what}: {why}")
    return [holds for holds, _, _ in parts]


def main() -> int:
    options = argparse.ArgumentParser(description=__doc__, formatter_class=argparse.RawDescriptionHelpFormatter)
    options.add_argument("program", nargs="?", default=os.path.join(TOP, "crates/iconvd/out/iconvd"))
    options.add_argument("--minutes", type=float, default=10)
    options.add_argument("--drains", type=int, default=2, help="how often the server is replaced by another, and drained")
    options.add_argument("--out", default=os.path.join(HERE, "out"))
    said = options.parse_args()
    os.makedirs(said.out, exist_ok=True)
    # So that SIGTERM, too, ends the processes that are started here.
    signal.signal(signal.SIGTERM, signal.default_int_handler)
    echo, echo_port = start([sys.executable, os.path.join(HERE, "echo.py")], os.path.join(said.out, "echo.log"))
    service = Service(said.program, said.out)
    try:
        run = asyncio.run(soak(service, echo_port, said.minutes, said.drains))
        parts = judge(run, said.drains)
    finally:
        service.kill()
        echo.kill()
    write_table(run.probes.windows, Window._fields, os.path.join(said.out, "soak.csv"))
    write_table(run.scraper.samples, Sample._fields, os.path.join(said.out, "metrics.csv"))
    chart = os.path.join(said.out, "soak.svg")
    drains = [(drain.begin - run.begin, drain.end - run.begin) for drain in service.drains]
    drawn = draw(run.probes.windows, run.scraper.samples, drains, chart, f"iconvd under a gateway's day of {said.minutes:g} minutes")
    print(f"chart: {chart}" if drawn else "no chart: there is no matplotlib (python3-matplotlib)")
    print(f"{sum(parts)} passed, {len(parts) - sum(parts)} failed")
    return not all(parts)


if __name__ == "__main__":
    sys.exit(main())
