"""Measures the time of a small request, that of an echo of as many bytes at the same moments, and the server's memory."""

from __future__ import annotations

import asyncio
import os
import time
from typing import Callable, List, NamedTuple, Tuple

from iconvd import frames
from iconvd.errors import ServerLost
from service import Service
from stream import Stream

PERIOD = 0.02
#: The length of a window of the figures, in seconds.
WINDOW = 2.0
_TEXT = b"The quick brown fox jumps over the lazy dog, and then some more."
_CONVERT = frames.convert_request(1, 0, 200, _TEXT)
_FRAME = _CONVERT.frame(0)


class Window(NamedTuple):
    """Figures of a few seconds: microseconds, bytes, and replies to the day's actors."""

    at: float
    p50: float
    p99: float
    echo_p50: float
    echo_p99: float
    memory: int
    replies: int


def _quantile(times: List[float], share: float) -> float:
    ordered = sorted(times)
    return ordered[min(len(ordered) - 1, int(share * len(ordered)))] * 1e6 if ordered else 0.0


def memory_of(process: int) -> int:
    """The resident memory of a process, in bytes."""
    with open(f"/proc/{process}/statm", encoding="ascii") as file:
        return int(file.read().split()[1]) * os.sysconf("SC_PAGE_SIZE")


class Probes:
    """Two streams: one to the server, one to the echo."""

    def __init__(self, service: Service, echo_port: int) -> None:
        self._service = service
        self._echo_port = echo_port
        self.is_over = False
        self.windows: List[Window] = []

    async def _connect(self) -> None:
        """Opens the stream to the server, with a descriptor."""
        self._begun = time.monotonic()
        self._stream = await Stream.open(self._service.port)
        await self._stream.ask([frames.open_request(1, b"UTF-8", b"UTF-8")])

    async def run(self, begin: float, replies: Callable[[], int]) -> None:
        """Asks both, one after the other, until the end."""
        await self._connect()
        self._reader, self._writer = await asyncio.open_connection("127.0.0.1", self._echo_port)
        while not self.is_over:
            times, echo_times = await self._window()
            memory = memory_of(self._service.process)
            at = time.monotonic() - begin
            p50, p99 = _quantile(times, 0.5), _quantile(times, 0.99)
            echo_p50, echo_p99 = _quantile(echo_times, 0.5), _quantile(echo_times, 0.99)
            self.windows.append(Window(at, p50, p99, echo_p50, echo_p99, memory, replies()))
        self._stream.close()
        self._writer.close()

    async def _ask(self) -> None:
        """Asks the server. If a drain ends the stream, it opens another."""
        try:
            await self._stream.ask([_CONVERT])
        except (OSError, ServerLost):
            if not self._service.may_end(self._begun):
                raise
            self._stream.close()
            await self._connect()

    async def _echo(self) -> None:
        self._writer.write(_FRAME)
        await self._reader.readexactly(len(_FRAME))

    async def _window(self) -> Tuple[List[float], List[float]]:
        times: List[float] = []
        echo_times: List[float] = []
        end = time.monotonic() + WINDOW
        while time.monotonic() < end and not self.is_over:
            for action, found in ((self._ask, times), (self._echo, echo_times)):
                begin = time.monotonic()
                await action()
                found.append(time.monotonic() - begin)
            await asyncio.sleep(PERIOD)
        return times, echo_times
