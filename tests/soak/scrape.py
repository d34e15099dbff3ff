"""Reads the service's metrics each second, as Prometheus does."""

from __future__ import annotations

import asyncio
import re
import time
from typing import Dict, List, NamedTuple

from probes import memory_of
from service import Server, Service

PERIOD = 1.0


class Sample(NamedTuple):
    """The metrics of all servers together: bytes, and requests answered a second."""

    at: float
    streams: int
    memory: int
    stream_memory: int
    limit: int
    requests: float


def total(page: str, name: str) -> int:
    """The sum of a metric over its labels."""
    return sum(int(value) for value in re.findall(rf"^{name}(?:{{.*}})? (\d+)$", page, re.MULTILINE))


class Scraper:
    """The samples of a run, and why a serving server did not return its page."""

    def __init__(self, service: Service) -> None:
        self._service = service
        self._answered: Dict[int, int] = {}
        self._refused: Dict[int, int] = {}
        self.is_over = False
        self.samples: List[Sample] = []
        self.failures: List[str] = []

    @property
    def refused_memory(self) -> int:
        """How many requests the servers answered with ENOMEM."""
        return sum(self._refused.values())

    async def run(self, begin: float) -> None:
        """Reads all pages each second, until the end."""
        last = time.monotonic()
        while not self.is_over:
            await asyncio.sleep(PERIOD)
            now = time.monotonic()
            failed, sums = len(self.failures), [0, 0, 0, 0, 0]
            for server in list(self._service.servers):
                for place, value in enumerate(await self._read(server)):
                    sums[place] += value
            if len(self.failures) > failed:
                continue
            streams, memory, stream_memory, limit, answered = sums
            self.samples.append(Sample(now - begin, streams, memory, stream_memory, limit, answered / (now - last)))
            last = now

    async def _read(self, server: Server) -> List[int]:
        """Streams, memory, memory of streams, its limit, and requests since the last sample. Empty for a server that ends meanwhile."""
        try:
            memory = memory_of(server.process)
            page = await server.ask("metrics")
        except (OSError, IndexError) as error:
            if server is self._service.servers[-1]:
                self.failures.append(str(error))
            return []
        answered = total(page, "iconvd_requests_total")
        before, self._answered[server.process] = self._answered.get(server.process, 0), answered
        limit = total(page, "iconvd_stream_memory_limit_bytes") * total(page, "iconvd_places")
        self._refused[server.process] = total(page, "iconvd_memory_refused_total")
        return [total(page, "iconvd_streams_active"), memory, total(page, "iconvd_stream_memory_bytes"), limit, answered - before]
