#!/usr/bin/python3
"""picture.py [PROGRAM] [--seconds S] [--out FILE.png]: draws the dashboard of two servers under a mixed load.

A Prometheus of its own scrapes the servers, and answers the queries of each panel. It asserts nothing: look at the picture. One server is full
now and then and closes new streams, allows a stream few callers, and is drained and started again. It needs prometheus and
python3-matplotlib.
"""

from __future__ import annotations

import argparse
import asyncio
import contextlib
import os
import signal
import socket
import subprocess
import sys
import tempfile
import time
from pathlib import Path
from typing import Awaitable, Callable, List

HERE = Path(__file__).resolve().parent
TOP = HERE.parent.parent
sys.path.insert(0, str(TOP / "clients" / "python"))
sys.path.insert(0, str(TOP / "tests" / "soak"))

# ruff: noqa: E402
from corpus import Corpus
from crowd import misbehave
from day import Day
from drawing import Source, draw
from stream import Stream

from iconvd import frames
from iconvd.errors import ServerLost

#: Seconds between two scrapes.
SCRAPE = 2


def free_port() -> int:
    with socket.socket() as probe:
        probe.bind(("127.0.0.1", 0))
        return int(probe.getsockname()[1])


class Server:
    """`iconvd listen` at ports that stay the same."""

    def __init__(self, program: str, options: List[str]) -> None:
        self._program = program
        self.port, self.admin_port = free_port(), free_port()
        self._words = [program, "listen", f"127.0.0.1:{self.port}", "--admin", f"127.0.0.1:{self.admin_port}", *options]
        self.start()

    def start(self) -> None:
        self._process = subprocess.Popen(self._words, stdout=subprocess.PIPE, stderr=subprocess.DEVNULL)
        assert self._process.stdout
        self._process.stdout.readline()

    def restart(self) -> None:
        """Drains it, and starts it again."""
        subprocess.run([self._program, "admin", f"127.0.0.1:{self.admin_port}", "drain"], stdout=subprocess.DEVNULL, check=False)
        self._process.wait()
        time.sleep(2 * SCRAPE)
        self.start()

    def may_end(self, _begun: float) -> bool:
        """Whether a stream may be lost. Here it always may, since nothing is judged."""
        return True

    def end(self) -> None:
        self._process.kill()
        self._process.wait()


async def until(end: float, act: Callable[[], Awaitable[object]]) -> None:
    """Repeats an action until `end`. It may fail, since a server is full or gone."""
    while time.monotonic() < end:
        with contextlib.suppress(OSError, ServerLost):
            await asyncio.wait_for(act(), 30)
        await asyncio.sleep(0.2)


async def load(one: Server, two: Server, seconds: float) -> None:
    """A gateway's day at the first server, and hostile clients at the second."""
    end = time.monotonic() + seconds
    day = Day(one, Corpus(1))

    async def callers() -> None:
        """Each request by a caller of its own, more than a stream may have."""
        stream = await Stream.open(two.port)
        for caller in range(40):
            await stream.ask([frames.open_request(caller, b"UTF-8", b"UTF-16")])
            await asyncio.sleep(0.02)
        stream.close()

    async def sitting() -> None:
        """Connects, and sends nothing."""
        stream = await Stream.open(two.port)
        await stream.ask([frames.open_request(1, b"UTF-8", b"UTF-16")])
        await asyncio.sleep(8)
        stream.close()

    tasks = [asyncio.create_task(day.run()), asyncio.create_task(until(end, callers))]
    tasks += [asyncio.create_task(until(end, sitting)) for _ in range(12)]
    bad = [asyncio.create_task(misbehave(two.port, number, end)) for number in range(4)]
    await asyncio.sleep(seconds * 0.7)
    await asyncio.to_thread(two.restart)
    await asyncio.sleep(max(0.0, end - time.monotonic()))
    day.is_over = True
    await asyncio.gather(*tasks, *bad, return_exceptions=True)


class Prometheus:
    """A Prometheus of its own, with the shipped alerts."""

    def __init__(self, servers: List[Server], folder: str) -> None:
        targets = ", ".join(f"127.0.0.1:{server.admin_port}" for server in servers)
        text = (
            f"global: {{scrape_interval: {SCRAPE}s, evaluation_interval: {SCRAPE}s}}\n"
            f"rule_files: [{TOP}/contrib/prometheus/iconvd.rules.yml]\n"
            f"scrape_configs: [{{job_name: iconvd, static_configs: [{{targets: [{targets}]}}]}}]\n"
        )
        Path(folder, "prometheus.yml").write_text(text, encoding="ascii")
        self.port = free_port()
        words = ["prometheus", f"--config.file={folder}/prometheus.yml", f"--storage.tsdb.path={folder}/data"]
        words += [f"--web.listen-address=127.0.0.1:{self.port}"]
        self._process = subprocess.Popen(words, stderr=subprocess.DEVNULL)

    def end(self) -> None:
        self._process.terminate()
        self._process.wait()


def main() -> int:
    options = argparse.ArgumentParser(description=__doc__, formatter_class=argparse.RawDescriptionHelpFormatter)
    options.add_argument("program", nargs="?", default=str(TOP / "crates" / "iconvd" / "out" / "iconvd"))
    options.add_argument("--seconds", type=float, default=120)
    options.add_argument("--out", default=str(TOP / "out" / "dashboard.png"))
    said = options.parse_args()
    signal.signal(signal.SIGTERM, signal.default_int_handler)
    os.makedirs(os.path.dirname(os.path.abspath(said.out)), exist_ok=True)
    with tempfile.TemporaryDirectory() as folder:
        servers = [Server(said.program, ["--at-once", "32", "--idle", "60", "--stream-memory", "6M"])]
        servers.append(Server(said.program, ["--at-once", "14", "--idle", "5", "--when-full", "close", "--callers", "20", "--drain", "5"]))
        prometheus = Prometheus(servers, folder)
        begin = time.time()
        try:
            asyncio.run(load(servers[0], servers[1], said.seconds))
            text = (TOP / "contrib" / "prometheus" / "iconvd.dashboard.json").read_text(encoding="utf-8")
            empty = draw(text, Source(prometheus.port, begin, time.time(), SCRAPE), said.out)
        finally:
            prometheus.end()
            for server in servers:
                server.end()
    print(f"picture: {said.out}", *(f"empty: {title}" for title in empty), sep="\n")
    return 0


if __name__ == "__main__":
    sys.exit(main())
