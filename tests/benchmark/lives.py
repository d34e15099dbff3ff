"""Servers that are full, don't answer, or end: the program ends, says why, and counts the time that the server lived."""

from __future__ import annotations

import csv
import itertools
import json
import os
import socket
import tempfile
import threading
import time
from typing import List, Optional

from runs import Benchmark
from servers import OK, ToldServer, listening


def full_servers(benchmark: Benchmark, program: str) -> None:
    """Streams that the system accepts and nobody answers."""
    with tempfile.TemporaryDirectory() as folder:
        path = os.path.join(folder, "socket")
        with listening(program, path, "--at-once", "8"):
            for words in (["-c", "50"], ["-c", "50", "-m", "ping", "--threads", "3"], ["-c", "9", "-m", "upload", "--keep", "1"]):
                done = benchmark.run(["--timeout", "1", *words], f"unix:{path}", 30)
                named = f"8 of {words[1]} streams are open" in done.stderr and "all places of the server are taken" in done.stderr
                named = named and "not answered for 1 s" in done.stderr
                benchmark.check(done.returncode == 1 and named and not done.stdout, f"8 places, {' '.join(words)}: it ends and names it")
        with socket.socket(socket.AF_UNIX) as listener:
            listener.bind(path + "2")
            listener.listen(1)
            done = benchmark.run(["--timeout", "1", "-c", "1"], f"unix:{path}2", 30)
            named = "0 of 1 streams are open" in done.stderr and done.returncode == 1
            benchmark.check(named, "a server that takes nobody: it ends and names it")
            done = benchmark.run(["--timeout", "1", "-c", "9"], f"unix:{path}2", 30)
            benchmark.check("queue of connections is full" in done.stderr and done.returncode == 1, "a full queue: it ends and names it")
    done = benchmark.run(["-c", "300"], "exec:/bin/true", 30)
    benchmark.check(done.returncode == 1 and "ends its streams before it answers" in done.stderr, "300 streams that end: it names that")
    server = ToldServer(lambda stream, asked, op: None)
    begun = time.monotonic()
    done = benchmark.run(["--timeout", "1", "-c", "5"], server.where, 30)
    waited = time.monotonic() - begun
    named = f"{server.where}: the server closes new connections (full or draining)" in done.stderr
    benchmark.check(done.returncode == 1 and named and waited >= 1, "a full server that ends every stream: it waits, and names it")
    server = ToldServer(lambda stream, asked, op: OK if stream < 2 else None)
    done = benchmark.run(["--timeout", "1", "-c", "5"], server.where, 30)
    named = "2 of 5 streams are open; the others were ended before they were answered for 1 s" in done.stderr
    named = named and "the server closes new connections (full or draining)" in done.stderr
    benchmark.check(done.returncode == 1 and named, "a full server that ends what it can't serve: it ends and names it")


def lost_servers(benchmark: Benchmark) -> None:
    """Servers that end during a run and don't return, one that hangs, and the lines about them."""

    def end_all(stream: int, asked: int, op: int) -> Optional[int]:
        if asked < 50:
            return OK
        if not ended.is_set():
            ended.set()
            server.take_no_more()
        return None

    words = ["-s", "100", "--timeout", "1.5"]
    for form in ("", "--csv", "--json"):
        ended = threading.Event()
        server = ToldServer(end_all)
        begun = time.monotonic()
        done = benchmark.run([*words, "-c", "3", *([form] if form else [])], server.where, 60)
        waited = time.monotonic() - begun
        benchmark.check(done.returncode == 3, f"a server that ends in the middle {form}: the status is 3")
        said = done.stderr if form else done.stdout
        benchmark.check("the server was lost after " in said, "and a line says so")
    figures = json.loads(done.stdout or "{}")
    counted = figures.get("seconds", 0) > 0 and waited - figures["seconds"] >= 1.5 and figures.get("server_lost") is True
    benchmark.check(counted, "the time that it waited for the server does not count")
    # The seconds are printed in microseconds, of which a short run has few.
    least, most = (figures["all"]["requests"] / max(figures["seconds"] + rounded, 1e-6) if counted else -1 for rounded in (1e-6, -1e-6))
    benchmark.check(least - 1 < figures["all"]["requests_per_second"] < most + 1, "and the rate is of the time that does")
    hanging_servers(benchmark, words)


def hanging_servers(benchmark: Benchmark, words: List[str]) -> None:
    """A server that answers some requests of all its streams, and then none. Of several streams some may be replaced before the server counts as
    lost, and then the first requests of the new ones are not answered either."""
    for streams, most in ((["-c", "1", "-d", "3"], 3), (["-c", "3"], 1000)):
        hanging = threading.Event()
        requests = itertools.count()
        server = ToldServer(lambda stream, asked, op: OK if next(requests) < 150 or hanging.wait() else None)
        done = benchmark.run(["--csv", *words, *streams], server.where, 60)
        rows = list(csv.DictReader(done.stdout.splitlines()))[-1:]
        named = [(one["server_lost"], one["lost"], 3 <= int(one["unanswered"]) <= most) for one in rows] == [("1", "0", True)]
        named = named and done.returncode == 3
        benchmark.check(named, f"a server that hangs in the middle {' '.join(streams)}: likewise, and what is not answered is counted")
        hanging.set()


def servers_that_come_back(benchmark: Benchmark) -> None:
    def end_once(stream: int, asked: int, op: int) -> Optional[int]:
        if asked < 50:
            return OK
        if not ended.is_set():
            ended.set()
            server.take_no_more()
            again.start()
        return None

    ended = threading.Event()
    server = ToldServer(end_once)
    again = threading.Timer(0.5, lambda: ToldServer(lambda stream, asked, op: OK, server.server_address[1]))
    done = benchmark.run(["--json", "-n", "500", "-c", "2", "--timeout", "60"], server.where)
    figures = json.loads(done.stdout or "{}")
    returned = figures.get("seconds_away", 0) >= 0.5 and not figures["server_lost"] and done.returncode == 1
    benchmark.check(returned, "a server that comes back: its absence does not count")
    # Requests in flight are lost, and are not asked again.
    benchmark.check(figures["all"]["requests"] in (498, 499), "and all requests were asked")


def single_streams(benchmark: Benchmark) -> None:
    """One stream that is lost or silent while another is served."""

    def end_one(stream: int, asked: int, op: int) -> Optional[int]:
        if stream == 0:
            # The run lasts a second, so that the lost stream is tried again several times before the last request.
            time.sleep(0.0005)
        if stream == 0 or asked < 20:
            return OK
        server.take_no_more()
        return None

    for threads in ("1", "2"):
        server = ToldServer(end_one)
        figures = benchmark.figures(["-n", "2000", "-c", "2", "--timeout", "60", "--threads", threads], server.where)
        whole = figures["all"]["requests"] + figures["errors"]["lost"] == 2000 and not figures.get("server_lost", True)
        whole = whole and figures["errors"]["unreachable"] > 0
        benchmark.check(whole, f"a stream that can't be replaced: the other one goes on meanwhile, {threads} threads")

    def hang_one(stream: int, asked: int, op: int) -> Optional[int]:
        time.sleep(0.001)
        return OK if stream != 0 or asked < 20 or hanging.wait() else None

    hanging = threading.Event()
    done = benchmark.run(["--json", "-s", "2", "-c", "2", "--timeout", "0.5"], ToldServer(hang_one).where, 60)
    figures = json.loads(done.stdout or "{}")
    counted = bool(figures) and figures["errors"]["unanswered"] == 1 and figures["streams_opened"] == 3 and not figures["server_lost"]
    benchmark.check(counted and done.returncode == 1, "a stream that is not answered is counted and replaced")
    hanging.set()


def cases(benchmark: Benchmark, program: str) -> None:
    full_servers(benchmark, program)
    lost_servers(benchmark)
    servers_that_come_back(benchmark)
    single_streams(benchmark)
