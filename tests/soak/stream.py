"""A stream to the server, for asyncio, which returns the replies to requests."""

from __future__ import annotations

import asyncio
import socket
import struct
from typing import List, Sequence

from iconvd.errors import ServerLost
from iconvd.frames import Reply, ReplyReader, Request


class Stream:
    """Sends requests together, and reads their replies while it sends."""

    def __init__(self, reader: asyncio.StreamReader, writer: asyncio.StreamWriter) -> None:
        self._reader = reader
        self.writer = writer
        self._replies = ReplyReader()
        self._tag = 0

    @classmethod
    async def open(cls, port: int) -> Stream:
        stream = cls(*await asyncio.open_connection("127.0.0.1", port))
        stream.writer.get_extra_info("socket").setsockopt(socket.IPPROTO_TCP, socket.TCP_NODELAY, 1)
        return stream

    async def ask(self, requests: Sequence[Request]) -> List[Reply]:
        first, self._tag = self._tag, self._tag + len(requests)
        self.writer.write(b"".join(request.frame(first + number) for number, request in enumerate(requests)))
        replies: List[Reply] = []
        while len(replies) < len(requests):
            data = await self._reader.read(1 << 18)
            if not data:
                raise ServerLost("the stream ended")
            replies += self._replies.feed(data)
        if [reply.tag for reply in replies] != list(range(first, self._tag)):
            raise ServerLost("replies in another order")
        return replies

    def close(self) -> None:
        self.writer.close()

    def reset(self) -> None:
        """Ends the stream as a machine does that crashes and starts again."""
        self.writer.get_extra_info("socket").setsockopt(socket.SOL_SOCKET, socket.SO_LINGER, struct.pack("ii", 1, 0))
        self.writer.transport.abort()
