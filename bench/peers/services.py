"""Requests a second of iconvd, of a plain echo and of Redis's ECHO, with one client each, over TCP on this machine."""
from __future__ import annotations

import contextlib
import os
import shutil
import subprocess
import sys
from typing import Callable, NamedTuple

sys.path.insert(0, os.path.dirname(os.path.dirname(os.path.abspath(__file__))))

from figures import Figure, Figures, loaded  # noqa: E402
from processes import echo, free_port, prepare, redis_server, running, wait_for  # noqa: E402

# 64 bytes; a text repeats this line.
LINE = "Zwölf Boxkämpfer jagen Viktor quer über den großen Deich. Ja".encode()
# redis-benchmark reports an infinite rate if its clock is too coarse for it.
MOST_RATE = 5_000_000.0
# How many bytes a request converts or echoes, and how many requests are in flight.
DEPTHS = {64: [1, 4, 16, 64, 256, 1024], 65536: [1, 4, 16, 64]}


class Measured(NamedTuple):
    """A server and a way to load it. `ask` returns requests a second for a text and a depth."""
    name: str
    ask: Callable[[bytes, int], float]


def echoed(port: int, text: bytes, depth: int, seconds: float) -> float:
    """Requests a second of ECHO by redis-benchmark, with one client that sends `depth` at a time."""
    count, rate = 16 * depth + 1000, 0.0
    for _ in ("to learn how many fit the time", "to measure"):
        rate = min(echo(port, text, 1, depth, count).rate, MOST_RATE)
        count = max(count, int(rate * seconds))
    return rate


def asked(words: list[str], text: bytes, depth: int, seconds: float) -> float:
    """Requests a second of a server of frames, by iconvd-benchmark with `depth` in flight."""
    network = loaded("network/run")
    asking = [*network.ONE_STREAM, "-d", str(depth), "-s", str(seconds), "-b", str(len(text)), "-x", "latin", "-t", "UTF-8"]
    return network.by_tcp(words, asking).rate


def servers(program: str, port: int | None, seconds: float) -> list[Measured]:
    plain, ours = [loaded("network/run").ECHO, "1", "listen"], [program, "listen", "127.0.0.1:0"]
    found = [
        Measured("iconvd", lambda text, depth: asked(ours, text, depth, seconds)),
        Measured("echo in C", lambda text, depth: asked(plain, text, depth, seconds)),
    ]
    if port is not None:
        found.append(Measured("Redis ECHO", lambda text, depth: echoed(port, text, depth, seconds)))
    return found


def redis_port(figures: Figures, stack: contextlib.ExitStack, folder: str) -> int | None:
    """The port of a Redis server that runs meanwhile, if Redis is installed."""
    if not shutil.which("redis-server") or not shutil.which("redis-benchmark"):
        figures.say("left out", "Redis: there is no redis-server or redis-benchmark, which Debian's redis-server and redis-tools have")
        return None
    figures.say("library", subprocess.run(["redis-server", "--version"], stdout=subprocess.PIPE, text=True).stdout.split(" sha")[0])
    port = free_port()
    stack.enter_context(running(redis_server(port, folder)))
    wait_for(port)
    return port


def best_rates(measured: list[Measured], text: bytes, depth: int, rounds: int) -> dict[str, float]:
    """The most requests a second of each server, of several rounds in turn."""
    found = [[server.ask(text, depth) for server in measured] for _ in range(rounds)]
    return {server.name: max(rates) for server, rates in zip(measured, zip(*found))}


def measure(figures: Figures, program: str, rounds: int, seconds: float, folder: str) -> None:
    """Adds the requests a second of each server by size and depth."""
    prepare()
    loaded("network/run").build_echo()
    with contextlib.ExitStack() as stack:
        measured = servers(program, redis_port(figures, stack, folder), seconds)
        for size, depth in ((size, depth) for size, depths in DEPTHS.items() for depth in depths):
            for name, rate in best_rates(measured, LINE * (size // len(LINE)), depth, rounds).items():
                figures.add(Figure("requests", name, "UTF-8 to UTF-8, latin", size, depth, rate, "requests/s"))
            print(f"requests: {size} bytes, {depth} in flight", file=sys.stderr, flush=True)
