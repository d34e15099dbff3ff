#!/usr/bin/python3
"""crowd.py [PROGRAM] [--streams N] [--bad PERCENT] [--seconds S]: runs many streams at once on `iconvd listen`, some of them bad.

Each good client has a stream of its own, on which it sends mails, one caller each, until the time is over. Each bad client resets its stream
within a frame, sends half a frame and stays, asks and never reads, or sends random bytes; then it connects again. Every reply to a good client is
compared with Python's codecs, no good stream may end before its client closes it, and each must get replies. The last lines are the times of
their requests, which are not judged, and `N passed, N failed`.
"""

from __future__ import annotations

import argparse
import asyncio
import os
import resource
import signal
import sys
import tempfile
import time
from typing import List, Sequence

HERE = os.path.dirname(os.path.abspath(__file__))
TOP = os.path.dirname(os.path.dirname(HERE))
sys.path.insert(0, os.path.join(TOP, "clients", "python"))

from iconvd import frames
from iconvd.errors import ServerLost
from iconvd.frames import Op, Request, Status

from corpus import Corpus, Part
from soak import start
from stream import Stream

TARGET = b"UTF-8"
#: A silent stream ends after this many seconds.
IDLE = 5
PARTS = 200


class Good:
    """A client that converts parts of mails on one stream. It keeps the time of each request, and the faults."""

    def __init__(self, port: int, number: int, parts: Sequence[Part]) -> None:
        self._port = port
        self._number = number
        self._parts = parts
        self.times: List[float] = []
        self.wrong: List[str] = []

    async def run(self, end: float) -> None:
        try:
            stream = await Stream.open(self._port)
            caller = 0
            while time.monotonic() < end:
                caller += 1
                await self._mail(stream, caller)
                await asyncio.sleep(0.2)
            stream.close()
        except (OSError, ServerLost) as error:
            self.wrong.append(f"client {self._number}: {error!r}")

    async def _mail(self, stream: Stream, caller: int) -> None:
        """OPEN, CONV and BYE of one part."""
        part = self._parts[(self._number * 31 + caller) % len(self._parts)]
        asked = time.perf_counter()
        opened, converted, bye = await stream.ask([frames.open_request(caller, TARGET, part.charset),
                                                   frames.convert_request(caller, 0, frames.MAX_ROOM, part.data),
                                                   Request(caller, Op.BYE)])  # fmt: skip
        self.times.append(time.perf_counter() - asked)
        seen = frames.read_converted(converted, len(part.data))
        right = (opened.status, opened.number(), bye.status) == (Status.OK, 0, Status.OK)
        if not right or (seen.status, seen.left, seen.output) != (part.status, part.left, part.output):
            self.wrong.append(f"client {self._number}, {part.charset!r}, {len(part.data)} bytes: {seen.status}, {seen.left} left")


async def misbehave(port: int, number: int, end: float) -> int:
    """A bad client, which connects again in another way each time. Returns the number of its streams."""
    convert = frames.convert_request(1, 0, 100_000, b"x" * 50_000).frame(0)
    streams = number
    while time.monotonic() < end:
        streams += 1
        try:
            stream = await Stream.open(port)
            if streams % 4 == 0:  # resets within a frame
                stream.writer.write(convert[:1000])
                await asyncio.sleep(0.1)
                stream.reset()
            elif streams % 4 == 1:  # sends half a frame, and stays until the server ends the stream
                stream.writer.write(convert[:1000])
                await asyncio.sleep(IDLE + 1)
                stream.close()
            elif streams % 4 == 2:  # asks, and never reads
                stream.writer.transport.pause_reading()  # type: ignore[attr-defined]
                stream.writer.write(frames.open_request(1, TARGET, TARGET).frame(0) + 20 * convert)
                await asyncio.sleep(IDLE / 2)
                stream.reset()
            else:  # rubbish
                stream.writer.write(b"GET / HTTP/1.1\r\n\r\n" + bytes(range(256)))
                await asyncio.sleep(0.1)
                stream.close()
        except OSError:
            await asyncio.sleep(0.05)
    return streams - number


async def crowd(port: int, good: Sequence[Good], bad: int, seconds: float) -> int:
    """Runs all clients for `seconds`. Returns how many streams the bad ones had."""
    end = time.monotonic() + seconds
    clients = [asyncio.create_task(one.run(end)) for one in good]
    others = [asyncio.create_task(misbehave(port, number, end)) for number in range(bad)]
    await asyncio.gather(*clients)
    return sum(await asyncio.gather(*others))


def descriptors() -> int:
    """Raises the limit of descriptors for this process and the server that it starts. Returns the limit."""
    most = resource.getrlimit(resource.RLIMIT_NOFILE)[1]
    wanted = 8192 if most == resource.RLIM_INFINITY else min(most, 8192)
    resource.setrlimit(resource.RLIMIT_NOFILE, (wanted, most))
    return wanted


def judge(good: Sequence[Good], server_lives: bool) -> List[bool]:
    """Prints each part of the verdict, and the times."""
    wrong = [text for one in good for text in one.wrong]
    times = sorted(time for one in good for time in one.times)
    fewest = min(len(one.times) for one in good)
    parts = [
        (server_lives, "the server lives", ""),
        (not wrong, "each reply to a good client is right, and none of their streams ended", "".join(f"; {text}" for text in wrong[:5])),
        (fewest > 0, "each good client had replies", f": {len(times):,} mails, the fewest of a client {fewest}"),
    ]
    for holds, what, why in parts:
        print(f"{'ok' if holds else 'FAILED'}: {what}{why}")
    if times:
        shares = {"p50": 0.5, "p99": 0.99, "p99.9": 0.999, "maximum": 1.0}
        told = ", ".join(f"{name} {times[min(len(times) - 1, int(share * len(times)))] * 1e3:.1f}" for name, share in shares.items())
        print(f"milliseconds of a mail of a good client: {told}")
    return [holds for holds, _, _ in parts]


def main() -> int:
    options = argparse.ArgumentParser(description=__doc__, formatter_class=argparse.RawDescriptionHelpFormatter)
    options.add_argument("program", nargs="?", default=os.path.join(TOP, "crates/iconvd/out/iconvd"))
    options.add_argument("--streams", type=int, default=1000)
    options.add_argument("--bad", type=int, default=5, help="how many in a hundred are bad")
    options.add_argument("--seconds", type=float, default=60)
    said = options.parse_args()
    signal.signal(signal.SIGTERM, signal.default_int_handler)
    streams = min(said.streams, descriptors() - 100)
    if streams < said.streams:
        print(f"only {streams} streams: a process may have no more descriptors here (ulimit -Hn)")
    corpus = Corpus(1)
    parts = [part for part in (corpus.part() for _ in range(8 * PARTS)) if part.charset not in corpus.charmaps and len(part.data) < 60_000][:PARTS]
    bad = streams * said.bad // 100
    with tempfile.TemporaryDirectory() as folder:
        words = [said.program, "listen", "127.0.0.1:0", "--at-once", str(streams), "--idle", str(IDLE)]
        server, port = start(words, os.path.join(folder, "server.log"))
        good = [Good(port, number, parts) for number in range(streams - bad)]
        try:
            bad_streams = asyncio.run(crowd(port, good, bad, said.seconds))
            lives = server.poll() is None
        finally:
            server.kill()
            server.wait()
    print(f"{len(good)} good clients and {bad} bad ones, which had {bad_streams:,} streams, in {said.seconds:g} s")
    held = judge(good, lives)
    print(f"{sum(held)} passed, {len(held) - sum(held)} failed")
    return not all(held)


if __name__ == "__main__":
    sys.exit(main())
