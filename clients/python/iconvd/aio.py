"""An asyncio client: any number of conversions in flight on one stream."""

from __future__ import annotations

import asyncio
import socket
import subprocess
from collections import deque
from types import TracebackType
from typing import Awaitable, Callable, Deque, List, NamedTuple, Optional, Sequence, Type, TypeVar, Union, overload

from . import marks, steps, transport
from .charmaps import Charmap
from .conversion import WholeConversion
from .errors import ServerLost, TimedOut
from .frames import Reply, ReplyReader, Request, Status
from .library import Library
from .names import is_direct
from .order import ends
from .session import UTF_8, Pair, Session, Steps
from .set_text import codec_of, decoder_of
from .tries import Tries, again, concerns_all

T = TypeVar("T")
_READ_SIZE = 262_144


class _Waiting(NamedTuple):
    """An exchange that waits for replies."""

    requests: Sequence[Request]
    first_tag: int
    replies: List[Reply]
    done: "asyncio.Future[List[Reply]]"


class _Connection:
    """A stream. Requests are sent at once, and replies go to the waiting exchanges, in order."""

    def __init__(
        self, where: transport.Address, reader: asyncio.StreamReader, writer: asyncio.StreamWriter, library: Library
    ) -> None:
        self.session = Session(library)
        #: Whether the server has sent anything on this stream.
        self.is_served = False
        self._where = where
        self.opening = asyncio.Lock()
        self.child: Optional["subprocess.Popen[bytes]"] = None
        self._reader = reader
        self._writer = writer
        self._waiting: Deque[_Waiting] = deque()
        self._tag = 0
        self.fault: Optional[ServerLost] = None
        self._reading = asyncio.ensure_future(self._read_replies())

    async def exchange(self, requests: Sequence[Request], timeout: Optional[float]) -> List[Reply]:
        """Sends requests, with no others between them, and returns their replies."""
        if self.fault is not None:
            raise again(self.fault)
        done: "asyncio.Future[List[Reply]]" = asyncio.get_running_loop().create_future()
        self._waiting.append(_Waiting(requests, self._tag, [], done))
        frames = [request.frame((self._tag + n) & 0xFFFFFFFF) for n, request in enumerate(requests)]
        self._tag = (self._tag + len(requests)) & 0xFFFFFFFF
        try:
            self._writer.write(b"".join(frames))
            await self._writer.drain()
            return await asyncio.wait_for(done, timeout)
        except ServerLost as error:
            self.fail(error)
        except asyncio.TimeoutError:
            self.fail(transport.timed_out(self._where, self.is_served, timeout))
        except OSError as error:
            self.fail(transport.stream_lost(self._where, self.is_served, error))
        raise again(self.fault or ServerLost("the stream failed"))

    async def _read_replies(self) -> None:
        reader = ReplyReader()
        try:
            while True:
                data = await self._reader.read(_READ_SIZE)
                if not data:
                    raise transport.stream_lost(self._where, self.is_served)
                self.is_served = True
                for reply in reader.feed(data):
                    self._take(reply)
        except OSError as error:
            self.fail(error if isinstance(error, ServerLost) else transport.stream_lost(self._where, self.is_served, error))

    def _take(self, reply: Reply) -> None:
        if not self._waiting:
            raise ServerLost("the server answered what was not asked")
        waiting = self._waiting[0]
        number = len(waiting.replies)
        asked = waiting.requests[number]
        if reply.tag != (waiting.first_tag + number) & 0xFFFFFFFF or reply.caller != asked.caller:
            raise ServerLost("the server answered what was not asked")
        waiting.replies.append(reply)
        if len(waiting.replies) == len(waiting.requests):
            self._waiting.popleft()
            if not waiting.done.done():
                waiting.done.set_result(waiting.replies)

    def fail(self, fault: ServerLost) -> None:
        """Ends the stream. All waiting exchanges get the fault."""
        if self.fault is None:
            self.fault = fault
        self._reading.cancel()
        self._writer.close()
        while self._waiting:
            waiting = self._waiting.popleft()
            if not waiting.done.done():
                waiting.done.set_exception(again(self.fault))
                waiting.done.exception()

    async def close(self) -> None:
        """Ends the stream, and waits for a server that was started for it. After a second that is killed."""
        is_silent = isinstance(self.fault, TimedOut)
        self.fail(ServerLost("the client was closed"))
        child, self.child = self.child, None
        if child is not None:
            await asyncio.get_running_loop().run_in_executor(None, transport.end, child, is_silent)


async def _connect(where: transport.Address, library: Library, timeout: Optional[float]) -> _Connection:
    try:
        if where.kind == "tcp":
            host, port = transport.host_and_port(where.rest)
            reader, writer = await asyncio.wait_for(asyncio.open_connection(host, port, limit=_READ_SIZE), timeout)
            writer.get_extra_info("socket").setsockopt(socket.IPPROTO_TCP, socket.TCP_NODELAY, 1)
            return _Connection(where, reader, writer, library)
        if where.kind == "unix":
            reader, writer = await asyncio.wait_for(asyncio.open_unix_connection(where.rest, limit=_READ_SIZE), timeout)
            return _Connection(where, reader, writer, library)
        ours, child_end = socket.socketpair()
        try:
            child = transport.start(where.rest, child_end)
        except OSError:
            ours.close()
            raise
        finally:
            child_end.close()
        reader, writer = await asyncio.open_connection(sock=ours, limit=_READ_SIZE)
    except asyncio.TimeoutError as error:
        raise transport.timed_out(where, False, timeout) from error
    except OSError as error:
        raise transport.not_connected(where, error) from error
    connection = _Connection(where, reader, writer, library)
    connection.child = child
    return connection


class AsyncClient:
    """One stream to a server, opened when it is first needed, for one event loop.

    Requests of several conversions are sent one after the other, and none waits for another's reply. Requests that a lost server
    did not answer are sent again on a new stream, at most twice. A server that accepts no stream is tried again until the time
    limit is up. Requests that were not answered in time are not sent again.
    """

    def __init__(self, where: Optional[str] = None, timeout: Optional[float] = None) -> None:
        """See iconvd.Client."""
        self._address = transport.address(where)
        self._timeout = transport.time_limit(timeout)
        self._was_served = False
        # The last fault that others who waited for a stream meanwhile get too, and its time.
        self._fault: Optional[ServerLost] = None
        self._fault_at = 0.0
        self.library = Library()
        self._connection: Optional[_Connection] = None
        self._connecting: Optional[asyncio.Lock] = None

    async def __aenter__(self) -> AsyncClient:
        await self._connected()
        return self

    async def __aexit__(
        self, kind: Optional[Type[BaseException]], error: Optional[BaseException], trace: Optional[TracebackType]
    ) -> None:
        await self.close()

    async def close(self) -> None:
        """Closes the stream. The next call opens another."""
        connection, self._connection = self._connection, None
        if connection is not None:
            await connection.close()

    @overload
    def convert(self, data: bytes, *, to: str, source: str, errors: str = "strict") -> Awaitable[bytes]: ...

    @overload
    def convert(self, data: bytes, to: str, source: str, errors: str = "strict", /) -> Awaitable[bytes]: ...

    def convert(self, data: bytes, *by_place: str, to: str = "", source: str = "", errors: str = "strict") -> Awaitable[bytes]:
        """Converts bytes of `source` to bytes of `to`. See Client.convert."""
        asked = ends(by_place, to, source, errors)
        conversion = WholeConversion(self.library, asked, data)
        return self._run(conversion.first_pair, conversion.run)

    async def decode(self, data: bytes, source: str, errors: str = "strict") -> str:
        """Decodes bytes as `bytes.decode` does."""
        origin, begin = marks.without_mark(self.library.find(source), data)
        codec = decoder_of(source, origin, self.library)
        pair = Pair(UTF_8, origin) if is_direct(origin) else None
        return (await self._run(pair, lambda session: codec.decode(session, data, errors, True, begin))).text

    async def encode(self, characters: str, target: str, errors: str = "strict") -> bytes:
        """Encodes a text as `str.encode` does."""
        ordered, mark = marks.mark_of(self.library.find(target))
        codec = codec_of(target, ordered, self.library)
        pair = Pair(ordered, UTF_8) if is_direct(ordered) else None
        return mark + await self._run(pair, lambda session: codec.encode(session, characters, errors)) + codec.finish()

    async def upload(self, charmap: Union[bytes, str]) -> Charmap:
        """Adds a charmap of the caller's own. See Client.upload."""
        encoding, is_added = self.library.uploaded(charmap)
        pair = Pair(UTF_8, encoding)
        try:
            await self._run(pair, lambda session: session.descriptor(pair, is_whole=True))
        except BaseException:
            if is_added:
                self.library.remove(encoding)
            raise
        return self.library.get(encoding.name)

    async def _run(self, pair: Optional[Pair], make: Callable[[Session], Steps[T]]) -> T:
        tries = Tries(self._timeout, self._connection is not None and self._connection.fault is None)
        while True:
            try:
                return await self._run_once(pair, make)
            except ServerLost as error:
                pause = tries.pause(error, asyncio.get_running_loop().time(), self._was_served)
                if pause is None:
                    raise
            await asyncio.sleep(pause)

    async def _run_once(self, pair: Optional[Pair], make: Callable[[Session], Steps[T]]) -> T:
        connection = await self._connected()
        try:
            async with connection.opening:
                descriptor = await self._drive(connection, connection.session.descriptor(pair)) if pair else None
                if descriptor is not None and descriptor.has_state:
                    return await self._drive(connection, make(connection.session))
            return await self._drive(connection, make(connection.session))
        except ServerLost:
            self._note_served(connection)
            if self._connection is connection:
                self._connection = None
            await connection.close()
            raise

    def _note_served(self, connection: Optional[_Connection]) -> None:
        self._was_served |= connection is not None and connection.is_served

    async def _drive(self, connection: _Connection, running: Steps[T]) -> T:
        try:
            requests = next(running)
            while True:
                requests = running.send(await connection.exchange(requests, self._timeout))
        except StopIteration as ended:
            result: T = ended.value
            return result
        finally:
            running.close()

    async def _connected(self) -> _Connection:
        """Returns the stream, and opens it if there is none. Calls that waited while it could not be opened do not wait again."""
        loop = asyncio.get_running_loop()
        asked = loop.time()
        if self._connecting is None:
            self._connecting = asyncio.Lock()
        async with self._connecting:
            if self._fault is not None and self._fault_at > asked:
                raise again(self._fault)
            if self._connection is None or self._connection.fault is not None:
                self._note_served(self._connection)
                try:
                    self._connection = await _connect(self._address, self.library, self._timeout)
                except ServerLost as error:
                    if concerns_all(error):
                        self._fault, self._fault_at = error, loop.time()
                    raise
            return self._connection
