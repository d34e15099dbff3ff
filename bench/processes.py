"""The programs of the benches: servers, HAProxy with the shipped configuration, Redis, and the loads on them."""

from __future__ import annotations

import contextlib
import csv
import json
import os
import re
import signal
import socket
import subprocess
import sys
import time
from typing import Iterator, List, NamedTuple, Optional, Sequence

TOP = os.path.dirname(os.path.dirname(os.path.abspath(__file__)))
PROGRAM = os.path.join(TOP, "crates", "iconvd", "out", "iconvd")
BENCHMARK = os.path.join(TOP, "clients", "c", "out", "iconvd-benchmark")
_SHIPPED = os.path.join(TOP, "contrib", "haproxy", "haproxy.cfg")
_TICK = os.sysconf("SC_CLK_TCK")
_PAGE = os.sysconf("SC_PAGE_SIZE")
AT_ONCE = 1000


class Process:
    """A program that was started here, on these processors or on any."""

    def __init__(self, words: Sequence[str], processors: Optional[Sequence[int]] = None) -> None:
        self._process = subprocess.Popen(words, stdout=subprocess.PIPE, stderr=subprocess.DEVNULL, text=True)
        if processors:
            os.sched_setaffinity(self._process.pid, processors)

    def first_line(self) -> str:
        assert self._process.stdout is not None
        return self._process.stdout.readline()

    def port(self) -> int:
        """The port that a server prints."""
        return int(self.first_line().rsplit(":", 1)[1])

    def processor_seconds(self) -> float:
        with open(f"/proc/{self._process.pid}/stat", encoding="ascii") as file:
            numbers = file.read().rsplit(")", 1)[1].split()
        return (int(numbers[11]) + int(numbers[12])) / _TICK

    def memory(self) -> int:
        with open(f"/proc/{self._process.pid}/statm", encoding="ascii") as file:
            return int(file.read().split()[1]) * _PAGE

    def wait_for_threads(self, count: int) -> None:
        """Waits until `count` threads run."""
        while len(os.listdir(f"/proc/{self._process.pid}/task")) < count:
            time.sleep(0.05)

    def end(self) -> None:
        self._process.kill()
        self._process.wait()
        assert self._process.stdout is not None
        self._process.stdout.close()


@contextlib.contextmanager
def running(words: Sequence[str], processors: Optional[Sequence[int]] = None) -> Iterator[Process]:
    """A program that runs meanwhile."""
    process = Process(words, processors)
    try:
        yield process
    finally:
        process.end()


class Load(NamedTuple):
    """The result of a load. The median and the 99th percentile of a request's time are in microseconds."""

    rate: float
    p50: float
    p99: float
    requests: int


def load(where: str, words: Sequence[str], processors: Optional[Sequence[int]] = None) -> Load:
    """Runs iconvd-benchmark, which must report no errors."""
    command = [BENCHMARK, "--json", *words, where]
    if processors:
        command = ["taskset", "-c", ",".join(map(str, processors)), *command]
    found = json.loads(subprocess.run(command, check=True, stdout=subprocess.PIPE).stdout)["all"]
    return Load(found["requests_per_second"], found["microseconds"]["p50"], found["microseconds"]["p99"], found["requests"])


def echo(port: int, text: bytes, streams: int, depth: int, requests: int) -> Load:
    """Runs redis-benchmark's ECHO of a text."""
    words = ["redis-benchmark", "-p", str(port), "-c", str(streams), "-P", str(depth), "-n", str(requests), "--csv", "-x", "ECHO"]
    said = subprocess.run(words, input=text, stdout=subprocess.PIPE, stderr=subprocess.DEVNULL, check=True).stdout.decode(errors="replace")
    # The last row begins with the text, which may have commas; after it are the rate and six times in milliseconds.
    numbers = next(csv.reader([said.rstrip().splitlines()[-1]]))[-7:]
    return Load(float(numbers[0]), float(numbers[3]) * 1e3, float(numbers[5]) * 1e3, requests)


def free_port() -> int:
    """A port of this machine at which nothing listens."""
    with socket.socket() as free:
        free.bind(("127.0.0.1", 0))
        return int(free.getsockname()[1])


def redis_server(port: int, folder: str) -> List[str]:
    """The command of a Redis server that keeps nothing."""
    return ["redis-server", "--port", str(port), "--bind", "127.0.0.1", "--save", "", "--appendonly", "no", "--dir", folder]


def configuration(folder: str, ports: Sequence[int], port: int) -> str:
    """Writes the shipped configuration with these servers, and returns its file."""
    with open(_SHIPPED, encoding="utf-8") as file:
        text = file.read()
    text = re.sub(r"^    (user|group|chroot|log /dev/log|stats socket)\b.*\n", "", text, flags=re.MULTILINE)
    # The servers have no admin address: a connection is their check.
    text = re.sub(r"^    (option httpchk|http-check)\b.*\n", "", text, flags=re.MULTILINE).replace(" check port 9879 ", " check ")
    text = re.sub(r"^    bind unix@.*\n", "", text, flags=re.MULTILINE)
    text = re.sub(r"^    bind 127\.0\.0\.1:7879$", f"    bind 127.0.0.1:{port}", text, flags=re.MULTILINE)
    text = re.sub(r"^frontend statistics\n(    .*\n)*", "", text, flags=re.MULTILINE)
    text = re.sub(r"\bmaxconn 120\b", f"maxconn {AT_ONCE - 10}", text)
    servers = "".join(f"    server s{one} 127.0.0.1:{one}\n" for one in ports)
    text = re.sub(r"^(    server \w+ .*\n)+", servers, text, flags=re.MULTILINE)
    path = os.path.join(folder, f"haproxy-{len(ports)}.cfg")
    with open(path, "w", encoding="utf-8") as file:
        file.write(text)
    return path


def wait_for(port: int) -> None:
    """Waits until something listens."""
    for _ in range(300):
        try:
            socket.create_connection(("127.0.0.1", port)).close()
            return
        except ConnectionRefusedError:
            time.sleep(0.1)
    sys.exit(f"nothing listens at port {port}")


def hold(port: int, count: int) -> List[socket.socket]:
    """Opens streams, and converts one text on each: to US-ASCII from ISO-8859-1, as in iconvd-protocol(5)."""
    asked = bytes.fromhex("0000001d00000007000000010308 55532d4153434949 0a 49534f2d383835392d31 00000014000000070000000204000000000000000841e942")
    answered = bytes.fromhex("0000000d000000070000000100 00000000 0000001400000007000000020000000000 00000001413f42")
    streams = []
    for _ in range(count):
        stream = socket.create_connection(("127.0.0.1", port))
        stream.sendall(asked)
        said = stream.recv(len(answered), socket.MSG_WAITALL)
        if said != answered:
            sys.exit(f"a wrong reply: {said.hex()}")
        streams.append(stream)
    return streams


def prepare() -> None:
    """Builds the load generator, and makes SIGTERM end this program as SIGINT does, so that the processes that it started end too."""
    signal.signal(signal.SIGTERM, signal.default_int_handler)
    subprocess.run(["make", "-s", "-C", os.path.join(TOP, "clients", "c"), "out/iconvd-benchmark"], check=True)
