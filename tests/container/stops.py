"""stops.py PROGRAM [--stops N] -- WORDS: starts `tini -- serve` by WORDS as process 1, and stops it while clients send requests (see check)."""

from __future__ import annotations

import argparse
import asyncio
import os
import signal
import subprocess
import sys
import tempfile
import time
from pathlib import Path
from typing import Any, Callable, Coroutine, Iterator, List, Tuple

TOP = Path(__file__).resolve().parent.parent.parent
sys.path.insert(0, str(TOP / "clients" / "python"))

# ruff: noqa: E402
from clients import Client

SERVE = TOP / "contrib" / "container" / "serve"
CLIENTS = 24
#: How many seconds a drain waits for streams at most. All requests here are answered long before.
DRAIN = 60
#: The check fails if a process takes longer than this many seconds to end by itself.
PATIENCE = 180

Check = Tuple[str, bool]


class Container:
    """The processes of a container: tini, `serve` and the server."""

    def __init__(self, program: str, words: List[str], folder: str, options: List[str]) -> None:
        os.makedirs(f"{folder}/bin", exist_ok=True)
        if not os.path.exists(f"{folder}/bin/iconvd"):
            os.symlink(program, f"{folder}/bin/iconvd")
        self.admin = f"unix:{folder}/admin"
        environment = {**os.environ, "PATH": f"{folder}/bin:{os.environ['PATH']}", "ICONVD_ADMIN": self.admin}
        whole = [*words, "tini", "--", str(SERVE), "127.0.0.1:0", *options]
        self._process = subprocess.Popen(whole, stdout=subprocess.PIPE, stderr=subprocess.PIPE, text=True, env=environment)

    def address(self) -> Tuple[str, int]:
        """The address at which it listens, once it does."""
        assert self._process.stdout
        lines = [self._process.stdout.readline(), self._process.stdout.readline()]
        if lines[1] != f"admin {self.admin}\n":
            sys.exit(f"check-container: it does not listen: {lines}")
        host, _colon, port = lines[0].split()[1].rpartition(":")
        return host, int(port)

    def tini(self) -> int:
        """The number of process 1 outside of the namespace."""
        return only_child(self._process.pid)

    def stop(self) -> None:
        """SIGTERM to process 1, as `podman stop` sends it."""
        os.kill(self.tini(), signal.SIGTERM)

    def wait(self) -> Tuple[int, str]:
        """The exit status, and the standard error."""
        try:
            return self._process.wait(PATIENCE), self._process.communicate()[1]
        except subprocess.TimeoutExpired:
            self.kill()
            return -1, "it does not end"

    def kill(self) -> None:
        self._process.kill()
        self._process.communicate()


def children(process: int) -> List[int]:
    with open(f"/proc/{process}/task/{process}/children", encoding="ascii") as file:
        return [int(word) for word in file.read().split()]


def until(holds: Callable[[], bool]) -> bool:
    """Waits until a condition holds. False: it did not within a time that is far longer than it takes."""
    for _ in range(100 * PATIENCE):
        if holds():
            return True
        time.sleep(0.01)
    return holds()


def only_child(process: int) -> int:
    """The child of a process, once it has one."""
    if not until(lambda: bool(children(process))):
        raise RuntimeError(f"process {process} has no child")
    return children(process)[0]


def run_within(talking: Coroutine[Any, Any, bool]) -> bool:
    """Runs clients. False: their servers did not answer them and end their streams in time."""
    try:
        return asyncio.run(asyncio.wait_for(talking, PATIENCE))
    except asyncio.TimeoutError:
        return False


async def until_answered(clients: List[Client], tasks: List["asyncio.Task[None]"], replies: int) -> None:
    """Waits until each client has `replies` replies, or has ended."""
    while not all(client.answered > replies or task.done() for client, task in zip(clients, tasks)):
        await asyncio.sleep(0.05)


async def talk(container: Container, clients: List[Client]) -> bool:
    """Runs the clients, stops the container twice meanwhile, and makes them silent. Returns whether a later client was refused."""
    address = container.address()
    is_silent = False
    tasks = [asyncio.create_task(client.run(address, lambda: is_silent)) for client in clients]
    await until_answered(clients, tasks, 50)
    container.stop()
    await asyncio.sleep(0.3)
    container.stop()
    refused = await is_refused(address)
    await asyncio.sleep(0.5)
    is_silent = True
    await asyncio.gather(*tasks)
    return refused


async def is_refused(address: Tuple[str, int]) -> bool:
    """Connects until that is refused, for at most half of a drain's time. Returns whether it was."""
    for _ in range(5 * DRAIN):
        try:
            _reader, writer = await asyncio.open_connection(*address)
            writer.close()
        except OSError:
            return True
        await asyncio.sleep(0.1)
    return False


def stopped(program: str, words: List[str], number: int) -> Iterator[Check]:
    """A stop, and another one while it drains."""
    with tempfile.TemporaryDirectory() as folder:
        container = Container(program, words, folder, ["--at-once", "64", "--drain", str(DRAIN)])
        clients = [Client(CLIENTS * number + place) for place in range(CLIENTS)]
        begun = time.monotonic()
        try:
            refused = run_within(talk(container, clients))
            status, log = container.wait()
        finally:
            container.kill()
    for client in clients:
        for text in client.wrong + client.lost:
            yield f"stop {number}: {text}", False
    answered, unread = sum(client.answered for client in clients), sum(client.unread for client in clients)
    print(f"stop {number}: {answered} replies to {CLIENTS} clients are right, {unread} requests came after an end, {time.monotonic() - begun:.1f} s")
    yield f"stop {number}: each client was answered", all(client.answered > 50 for client in clients)
    yield f"stop {number}: a client that comes later is refused, and each stream is ended", refused
    yield f"stop {number}: the exit status is 0: {status}", status == 0
    yield f"stop {number}: the log says how many it served: {log!r}", log.startswith("iconvd: drained in ") and log.count("\n") == 1


def cut(program: str, words: List[str]) -> Iterator[Check]:
    """Clients that are never silent: their streams are ended when the drain's time is over."""
    with tempfile.TemporaryDirectory() as folder:
        container = Container(program, words, folder, ["--at-once", "64", "--drain", "2"])
        clients = [Client(place) for place in range(8)]

        async def never_silent() -> bool:
            address = container.address()
            tasks = [asyncio.create_task(client.run(address, lambda: False)) for client in clients]
            await until_answered(clients, tasks, 0)
            container.stop()
            await asyncio.gather(*tasks)
            return True

        try:
            are_ended = run_within(never_silent())
            status, log = container.wait()
        finally:
            container.kill()
    wrong = [text for client in clients for text in client.wrong]
    yield "cut: each stream is ended", are_ended
    yield f"cut: each reply that came is right: {wrong[:3]}", not wrong
    yield f"cut: the exit status is 0: {status}", status == 0
    yield f"cut: the log says how many: {log!r}", " s: 8 served, " in log


def early(program: str, words: List[str]) -> Iterator[Check]:
    """A stop at each moment of the start."""
    for number in range(20):
        with tempfile.TemporaryDirectory() as folder:
            container = Container(program, words, folder, [])
            # Process 1 ignores signals before it has a child.
            only_child(container.tini())
            time.sleep(number * 0.005)
            container.stop()
            status, log = container.wait()
        yield f"stopped at the start: its exit status is 0 or 143: {status}, {log!r}", status in (0, 143)


def faulty(program: str, words: List[str]) -> Iterator[Check]:
    """Arguments that `listen` refuses."""
    for options, wanted in ((["--at-once", "many"], 2), (["--admin", "127.0.0.1:0"], 2)):
        with tempfile.TemporaryDirectory() as folder:
            status, log = Container(program, words, folder, options).wait()
        yield f"{options}: its exit status is that of iconvd: {status}, {log!r}", status == wanted


def reaped(program: str, words: List[str]) -> Iterator[Check]:
    """A process whose parent has ended, such as one of a health check, becomes a child of process 1, which reaps it."""
    with tempfile.TemporaryDirectory() as folder:
        leaving = Path(folder, "leaving")
        leaving.write_text(f'#!/bin/sh\n(sleep 5 &)\nexec {program} "$@"\n', encoding="ascii")
        leaving.chmod(0o755)
        container = Container(str(leaving), words, folder, [])
        try:
            container.address()
            tini = container.tini()
            yield "an orphan is a child of process 1", until(lambda: len(children(tini)) == 2)
            yield "it is taken in when it ends", until(lambda: len(children(tini)) == 1)
            container.stop()
            yield "a stop leaves another, and the exit status is 0", container.wait()[0] == 0
        finally:
            container.kill()


def cases(program: str, words: List[str], stops: int) -> Iterator[Check]:
    yield from early(program, words)
    yield from faulty(program, words)
    yield from reaped(program, words)
    yield from cut(program, words)
    for number in range(stops):
        yield from stopped(program, words, number)


def main() -> int:
    at = sys.argv.index("--")
    parser = argparse.ArgumentParser(description=__doc__)
    parser.add_argument("program")
    parser.add_argument("--stops", type=int, default=5, help="how often it is stopped under load")
    said = parser.parse_args(sys.argv[1:at])
    passed = failed = 0
    for name, is_right in cases(said.program, sys.argv[at + 1 :], said.stops):
        passed, failed = passed + is_right, failed + (not is_right)
        if not is_right:
            print(f"FAILED {name}", flush=True)
    print(f"{passed} passed, {failed} failed")
    return failed > 0


if __name__ == "__main__":
    sys.exit(main())
