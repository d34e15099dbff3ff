"""Many streams at once: each repeats a recorded conversation. If a stream is lost, a new one begins the conversation again."""

from __future__ import annotations

import asyncio
import random
import time
from typing import Callable, List, Optional, Sequence

from conversation import Exchange
from iconvd.errors import ServerLost
from iconvd.frames import ReplyReader


#: A drain ends a stream whose client was silent for this long. A request that came sooner after the one before it was read.
SILENCE = 1.0


class Stream:
    """One client. Each reply is compared with the recorded one."""

    def __init__(self, number: int, exchanges: Sequence[Exchange]) -> None:
        self._dice = random.Random(number)
        self._exchanges = exchanges
        self._writer: Optional[asyncio.StreamWriter] = None
        self.port = 0
        self.replies = 0
        self.losses = 0
        #: How many requests were read and not answered. A stream without any reply was never served.
        self.unanswered = 0
        #: Whether it sends no more requests on its stream, and waits for its end.
        self.is_silent = False
        self.wrong: List[str] = []
        self.ended = 0
        self._is_moving = False
        self._is_served = False
        #: When the last batch began to be sent.
        self._sent = 0.0

    async def run(self, host: str, port: int, is_over: Callable[[], bool]) -> None:
        """Sends requests until the check is over."""
        while not is_over():
            try:
                await self._talk(host, port, is_over)
            except (OSError, ServerLost, asyncio.IncompleteReadError):
                self.losses += not self._is_moving
                self._is_moving = self.is_silent = False
                self.port = 0
                await asyncio.sleep(0.1 + self._dice.random() / 5)
            finally:
                if self._writer is not None:
                    self._writer.close()

    async def _talk(self, host: str, port: int, is_over: Callable[[], bool]) -> None:
        reader, self._writer = await asyncio.open_connection(host, port)
        replies = ReplyReader()
        self._is_served = False
        while not is_over():
            at = 0
            while at < len(self._exchanges) and not is_over():
                batch = self._exchanges[at : at + self._dice.randint(1, 4)]
                await self._exchange(reader, replies, batch)
                self.port = self._writer.get_extra_info("sockname")[1]
                at += len(batch)
                await asyncio.sleep(0.05 + self._dice.random() / 5)
                if self.is_silent:
                    await self._wait_for_end(reader)
            self.ended += at == len(self._exchanges)

    def move(self) -> None:
        """Closes the stream from this side, and goes on with another. This does not count as a loss."""
        self._is_moving = True
        self.port = 0
        if self._writer is not None:
            self._writer.close()

    async def _wait_for_end(self, reader: asyncio.StreamReader) -> None:
        """No request is pending, so only the end may come."""
        if said := await reader.read(1 << 16):
            self.wrong.append(f"{said!r} in place of the end")
        raise ServerLost("the stream ended")

    async def _exchange(self, reader: asyncio.StreamReader, replies: ReplyReader, batch: Sequence[Exchange]) -> None:
        assert self._writer is not None
        before, self._sent = self._sent, time.monotonic()
        self._writer.write(b"".join(exchange.request for exchange in batch))
        await self._writer.drain()
        silence = time.monotonic() - before
        answered = 0
        try:
            while answered < len(batch):
                data = await reader.read(65536)
                if not data:
                    raise ServerLost("the stream ended")
                for reply in replies.feed(data):
                    if answered == len(batch) or reply != batch[answered].reply:
                        self.wrong.append(f"{reply} in place of {batch[min(answered, len(batch) - 1)].reply}")
                    answered += 1
                    self.replies += 1
                    self._is_served = True
        finally:
            if self._is_served and silence < SILENCE:
                self.unanswered += max(0, len(batch) - answered)


class Crowd:
    """All streams of the check."""

    def __init__(self, conversations: Sequence[Sequence[Exchange]], count: int) -> None:
        self.streams = [Stream(number, conversations[number % len(conversations)]) for number in range(count)]
        self._is_over = False
        self._tasks: List["asyncio.Task[None]"] = []

    def start(self, host: str, port: int) -> None:
        self._tasks = [asyncio.create_task(stream.run(host, port, lambda: self._is_over)) for stream in self.streams]

    async def end(self) -> None:
        self._is_over = True
        await asyncio.gather(*self._tasks)

    def wrong(self) -> List[str]:
        return [text for stream in self.streams for text in stream.wrong]

    def replies(self) -> int:
        return sum(stream.replies for stream in self.streams)

    def unanswered(self) -> int:
        return sum(stream.unanswered for stream in self.streams)


async def until(holds: Callable[[], bool], seconds: float = 60) -> bool:
    """Waits until a condition holds. False: it did not within a time that is far longer than it takes."""
    for _ in range(int(seconds * 10)):
        if holds():
            return True
        await asyncio.sleep(0.1)
    return holds()
