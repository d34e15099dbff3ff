"""Clients of a server that is stopped: the replies to each, and how its stream ended."""

from __future__ import annotations

import asyncio
import random
import time
from typing import Callable, List, Optional, Tuple

from iconvd import frames
from iconvd.errors import ServerLost
from iconvd.frames import Reply, ReplyReader, Request, Status

#: A drain ends a stream whose client was silent for this long. A request that followed the one before it within this time was read.
SILENCE = 1.0
#: How many seconds a client waits for the end of its stream.
PATIENCE = 120
SHORT = b"gr\xfc\xdfe "
#: Its request and its reply take several reads and writes.
LONG = SHORT * 50_000
#: How many bytes of replies asyncio reads while a client sends.
HELD = 1 << 22
#: The first bytes of a CONV's reply: nothing is left, nothing was replaced.
WHOLE = bytes(8)


class Client:
    """A stream of conversions. It sends batches until it has to be silent, and compares each reply."""

    def __init__(self, number: int) -> None:
        self._dice = random.Random(number)
        self._replies = ReplyReader()
        self._tag = 0
        #: The replies that it waits for.
        self._awaited: List[Reply] = []
        #: When it began to send the last batch, and how long it had sent nothing when all of the batch was sent.
        self._sent = time.monotonic()
        self._silence = 0.0
        #: Wrong replies, and other faults that a drained stream may not have.
        self.wrong: List[str] = []
        self.lost: List[str] = []
        self.answered = 0
        #: Requests that were not read, since they came after a silence that ended the stream.
        self.unread = 0

    async def run(self, address: Tuple[str, int], is_silent: Callable[[], bool]) -> None:
        """Sends requests, is silent, and waits for the end of the stream."""
        writer: Optional[asyncio.StreamWriter] = None
        try:
            reader, writer = await asyncio.open_connection(*address, limit=HELD)
            writer.transport.set_write_buffer_limits(0)
            await self._send(writer, [(frames.open_request(1, b"UTF-8", b"ISO-8859-1"), bytes(4))])
            while not is_silent():
                await self._batch(writer)
                if self._dice.randrange(4):
                    await self._read(reader, lambda: not self._awaited)
                await asyncio.sleep(self._dice.random() / 5)
            await asyncio.wait_for(self._read(reader, lambda: False), PATIENCE)
        except (OSError, ServerLost, asyncio.TimeoutError) as error:
            self._end(error)
        finally:
            if writer is not None:
                writer.close()

    async def _batch(self, writer: asyncio.StreamWriter) -> None:
        """Sends some requests together, of which one may be long."""
        texts = [SHORT * (1 + self._dice.randrange(50)) for _ in range(1 + self._dice.randrange(40))]
        if not self._dice.randrange(8):
            texts.append(LONG)
        outputs = [text.decode("latin-1").encode() for text in texts]
        await self._send(writer, [(frames.convert_request(1, 0, frames.MAX_ROOM, text), WHOLE + output) for text, output in zip(texts, outputs)])

    async def _send(self, writer: asyncio.StreamWriter, batch: List[Tuple[Request, bytes]]) -> None:
        """Sends requests, each with the right body of its reply."""
        before, self._sent = self._sent, time.monotonic()
        for _, body in batch:
            self._awaited.append(Reply(1, self._tag, Status.OK, body))
            self._tag += 1
        first = self._tag - len(batch)
        writer.write(b"".join(request.frame(first + place) for place, (request, _) in enumerate(batch)))
        try:
            await writer.drain()
        finally:
            self._silence = time.monotonic() - before

    async def _read(self, reader: asyncio.StreamReader, is_enough: Callable[[], bool]) -> None:
        """Reads replies until `is_enough`, or the end of the stream."""
        while not is_enough():
            data = await reader.read(1 << 18)
            if not data:
                raise ServerLost("the end")
            for reply in self._replies.feed(data):
                if not self._awaited or reply != self._awaited.pop(0):
                    self.wrong.append(f"reply {reply.tag} is wrong: status {reply.status}, {len(reply.body)} bytes")
                self.answered += 1

    def _end(self, how: Exception) -> None:
        """The stream has ended. Requests without a reply have to be ones that the server did not read."""
        if not self._replies.is_between_frames:
            self.lost.append(f"the stream ended within a reply: {how!r}")
        if self._awaited and self._silence < SILENCE:
            self.lost.append(f"{len(self._awaited)} requests were not answered: {how!r}")
        elif self._awaited:
            self.unread += len(self._awaited)
        elif not isinstance(how, ServerLost):
            self.lost.append(f"the stream did not end by an end: {how!r}")
