"""A gateway's day: the requests of its good and bad programs."""

from __future__ import annotations

import asyncio
import time
from collections import Counter
from typing import Awaitable, Callable, List, Protocol

from iconvd import frames
from iconvd.errors import ServerLost
from iconvd.frames import Op, Reply, Request, Status

from corpus import HOSTILE_NAMES, Corpus, Part
from stream import Stream

TARGET = b"UTF-8"
#: Requests after which a long stream is closed. A million reads would last far longer than a soak.
LONG = 20_000


class Service(Protocol):
    """The service that they use."""

    port: int

    def may_end(self, begun: float) -> bool:
        """Whether a stream that was opened after this time may be lost."""


class Day:
    """All actors, and their results."""

    def __init__(self, service: Service, corpus: Corpus) -> None:
        self._service = service
        self._port = service.port
        self._corpus = corpus
        self.is_over = False
        self.counts: "Counter[str]" = Counter()
        self.wrong: List[str] = []

    async def run(self) -> None:
        """Runs all actors until the end."""
        actors = [self._morning, *[self._gateway] * 3, *[self._letters] * 3, self._uploads, self._dying, self._deaf]
        await asyncio.gather(*(self._act(actor) for actor in actors))

    async def _act(self, actor: Callable[[], Awaitable[None]]) -> None:
        """Runs an actor again and again. If its stream is lost, that is counted, and it goes on. Only a drain may end a stream."""
        while not self.is_over:
            begun = time.monotonic()
            try:
                await actor()
            except (OSError, ServerLost) as error:
                if self._service.may_end(begun):
                    self.counts["streams that a drain ended"] += 1
                    continue
                self._expect(False, f"{actor.__name__}: {error}")
                await asyncio.sleep(1)

    def _expect(self, holds: bool, what: str) -> None:
        self.counts["replies"] += 1
        if not holds:
            self.wrong.append(what)

    def _expect_status(self, reply: Reply, status: Status, what: str) -> None:
        self._expect(reply.status == status, f"{what}: status {reply.status} in place of {status}")

    # ---- a mail

    async def _convert(self, stream: Stream, caller: int, part: Part) -> None:
        """Uploads the part's charmap, if it has one, opens a descriptor, converts and closes."""
        charmap = self._corpus.charmaps.get(part.charset)
        if charmap is not None:
            (reply,) = await stream.ask([Request(caller, Op.PUT, charmap.text)])
            self._expect(reply.status in (Status.OK, Status.EXISTS), f"PUT of {part.charset!r}: status {reply.status}")
            self.counts["uploads"] += 1
        (reply,) = await stream.ask([frames.open_request(caller, TARGET, part.charset)])
        self._expect_status(reply, Status.OK, f"OPEN of {part.charset!r}")
        descriptor = reply.number()
        convert = frames.convert_request(caller, descriptor, frames.MAX_ROOM, part.data)
        converted, closed = await stream.ask([convert, frames.close_request(caller, descriptor)])
        seen = frames.read_converted(converted, len(part.data))
        right = (seen.status, seen.left, seen.output) == (part.status, part.left, part.output)
        self._expect(right, f"{part.charset!r}, {len(part.data)} bytes: status {seen.status}, {seen.left} left, {len(seen.output)} bytes")
        self._expect_status(closed, Status.OK, "CLOSE")
        self.counts["bytes"] += len(part.data)

    async def _mail(self, stream: Stream, caller: int) -> None:
        """A mail of some parts, then BYE. Some ask for unknown charsets."""
        for _ in range(1 + self._corpus.choice(6)):
            await self._convert(stream, caller, self._corpus.part())
        name = HOSTILE_NAMES[self._corpus.choice(len(HOSTILE_NAMES))]
        unknown, bad_map, bye = await stream.ask([frames.open_request(caller, TARGET, name), Request(caller, Op.PUT, b"CHARMAP\n<A"),
                                                  Request(caller, Op.BYE)])  # fmt: skip
        self._expect_status(unknown, Status.UNSUPPORTED, f"OPEN of {name!r}")
        self._expect_status(bad_map, Status.BADMAP, "PUT of no charmap")
        self._expect_status(bye, Status.OK, "BYE")
        self.counts["mails"] += 1

    # ---- the actors; each does a piece of work, and is then run again

    async def _morning(self) -> None:
        """Once: many streams at the same time with the largest parts, so that each thread gets one. Then it waits."""
        streams = [await Stream.open(self._port) for _ in range(14)]
        parts = [self._corpus.part(100_000) for _ in streams]
        await asyncio.gather(*(self._convert(stream, 1, part) for stream, part in zip(streams, parts)))
        for stream in streams:
            stream.close()
        while not self.is_over:
            await asyncio.sleep(0.2)

    async def _gateway(self) -> None:
        """A long stream, on which each mail is a caller of its own."""
        stream = await Stream.open(self._port)
        self.counts["streams"] += 1
        for caller in range(1, LONG):
            if self.is_over:
                break
            await self._mail(stream, caller)
            await asyncio.sleep(self._corpus.pause(0.1))
        stream.close()

    async def _letters(self) -> None:
        """A short stream: one mail."""
        stream = await Stream.open(self._port)
        self.counts["streams"] += 1
        await self._mail(stream, 1)
        stream.close()
        await asyncio.sleep(self._corpus.pause(0.15))

    async def _uploads(self) -> None:
        """A program with charmaps of its own, all of them new."""
        stream = await Stream.open(self._port)
        text = self._corpus.own_charmap()
        cut = self._corpus.choice(len(text))
        for _ in range(10):
            part, put, opened, drop = await stream.ask([Request(7, Op.PART, text[:cut]), Request(7, Op.PUT, text[cut:]),
                                                        frames.open_request(7, b"OWN", b"UTF-8"), Request(7, Op.DROP, b"\3OWN")])  # fmt: skip
            self._expect(part.number() == cut and put.number() == 201, "PART and PUT of an own charmap")
            self._expect_status(opened, Status.OK, "OPEN of an own charmap")
            self._expect_status(drop, Status.BUSY, "DROP of a charmap in use")
            (bye,) = await stream.ask([Request(7, Op.BYE)])
            self._expect_status(bye, Status.OK, "BYE")
            self.counts["uploads"] += 1
            text = self._corpus.own_charmap()
            cut = self._corpus.choice(len(text))
            await asyncio.sleep(self._corpus.pause(0.1))
        stream.close()

    async def _dying(self) -> None:
        """Clients that send other protocols, or that end within a frame."""
        stream = await Stream.open(self._port)
        convert = frames.convert_request(1, 0, 1000, b"x" * 5000).frame(0)
        ways = [b"", b"GET / HTTP/1.1\r\n\r\n", b"\xff" * 100, b"\0\0\0\0", convert[:7], convert[:1000], convert * 20]
        stream.writer.write(ways[self._corpus.choice(len(ways))])
        await asyncio.sleep(self._corpus.pause(0.1))
        if self._corpus.choice(2):
            stream.reset()
        else:
            stream.close()
        self.counts["clients that died"] += 1

    async def _deaf(self) -> None:
        """A client that asks for much, reads nothing for a while, and goes."""
        stream = await Stream.open(self._port)
        stream.writer.transport.pause_reading()  # type: ignore[attr-defined]
        stream.writer.write(frames.open_request(1, TARGET, TARGET).frame(0))
        request = frames.convert_request(1, 0, frames.MAX_ROOM, b"y" * 60_000).frame(1)
        for _ in range(20):
            stream.writer.write(request)
        await asyncio.sleep(1 + self._corpus.pause(0.5))
        stream.reset()
        self.counts["clients that died"] += 1
