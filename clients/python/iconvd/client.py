"""A blocking client. It is safe for threads, and survives fork(2) and a lost server."""

from __future__ import annotations

import os
import threading
import time
from types import TracebackType
from typing import BinaryIO, Callable, Iterator, List, Optional, Type, TypeVar, Union, overload

from . import steps
from .charmaps import Charmap
from .conversion import WholeConversion
from .errors import NotStarted, ServerLost, TimedOut, UnknownEncoding
from .frames import Op, Request, Status
from .library import Library
from .names import Encoding
from .order import ends
from .pieces import Conversion, Decoder, Encoder
from .session import NO_CALLER, UTF_8, Pair, Session, Steps
from .transport import ENDING, Stream, address, time_limit
from .tries import Tries, again, concerns_all

T = TypeVar("T")
_READ_SIZE = 262_144


class Client:
    """One stream to a server, opened when it is first needed.

    Any thread may call any method; calls take turns on the stream. After fork(2) the child opens a stream of its own. A request
    that a lost server did not answer is sent again on a new stream, at most twice: no descriptor keeps anything between two
    calls, so nothing is converted twice. A server that accepts no stream is tried again until the time limit is up (see
    tries.py). A request that was not answered in time is not sent again.
    """

    def __init__(self, where: Optional[str] = None, timeout: Optional[float] = None) -> None:
        """`where` names the server: `exec:COMMAND`, `unix:PATH` or `tcp:HOST:PORT`. By default it is the environment variable
        ICONVD, and without that `exec:iconvd pipe`. `timeout` is how many seconds a reply may take; by default it is
        ICONVD_TIMEOUT, and without that 10. Infinity is no limit."""
        self._address = address(where)
        self._timeout = time_limit(timeout)
        self.library = Library()
        self._lock = threading.RLock()
        self._lock_owner = os.getpid()
        self._stream: Optional[Stream] = None
        self._session = Session(self.library)
        self._closings = 0
        self._was_served = False
        # The last fault that calls which waited for their turn meanwhile get too, and its time.
        self._fault: Optional[ServerLost] = None
        self._fault_at = 0.0

    # ---- the stream

    def run(self, make: Callable[[Session], Steps[T]]) -> T:
        """Runs steps (see session.py) to their end, and again on a new stream if one is lost."""
        self._check_fork()
        began, closings = time.monotonic(), self._closings
        with self._lock:
            if self._fault is not None and self._fault_at > began:
                raise again(self._fault)
            tries = Tries(self._timeout, self._stream is not None)
            while self._closings == closings:
                try:
                    return self._run_once(make)
                except ServerLost as error:
                    self._drop(at_once=isinstance(error, (TimedOut, NotStarted)))
                    pause = tries.pause(error, time.monotonic(), self._was_served)
                    if pause is None:
                        self._note_fault(error)
                        raise
                time.sleep(pause)
        raise ServerLost("the client was closed")

    def _note_fault(self, fault: ServerLost) -> None:
        if concerns_all(fault):
            self._fault, self._fault_at = fault, time.monotonic()

    def _run_once(self, make: Callable[[Session], Steps[T]]) -> T:
        if self._stream is not None and self._stream.process_id != os.getpid():
            self._drop()
        if self._stream is None:
            self._stream = Stream(self._address, self._timeout)
            self._session = Session(self.library)
        running = make(self._session)
        try:
            requests = next(running)
            while True:
                requests = running.send(self._stream.exchange(requests))
        except StopIteration as ended:
            result: T = ended.value
            return result
        except BaseException:
            # Replies of this exchange may still arrive, so the next one needs another stream.
            if not self._is_idle():
                self._drop(at_once=True)
            raise
        finally:
            running.close()

    def _is_idle(self) -> bool:
        return self._stream is None or self._stream.is_idle

    def _drop(self, at_once: bool = False) -> None:
        stream, self._stream = self._stream, None
        if stream is not None:
            self._was_served |= stream.is_served
            stream.close(at_once)

    def _check_fork(self) -> None:
        if self._lock_owner != os.getpid():
            self._lock, self._lock_owner = threading.RLock(), os.getpid()

    def close(self) -> None:
        """Closes the stream. The next call opens another. A call of another thread fails if it has no reply after a second."""
        self._check_fork()
        if not self._lock.acquire(timeout=ENDING):
            self._closings += 1
            stream = self._stream
            if stream is not None:
                stream.shut()
            self._lock.acquire()
        try:
            self._drop()
        finally:
            self._lock.release()

    def __enter__(self) -> Client:
        return self

    def __exit__(
        self, kind: Optional[Type[BaseException]], error: Optional[BaseException], trace: Optional[TracebackType]
    ) -> None:
        self.close()

    # ---- conversions

    def ping(self) -> None:
        """Asks the server for a reply. Raises ServerLost if none comes."""

        def make(_session: Session) -> Steps[None]:
            (reply,) = yield [Request(NO_CALLER, Op.BYE)]
            if reply.status != Status.OK:
                raise ServerLost(f"the server answered a ping by status {reply.status}")

        self.run(make)

    def supports(self, name: str) -> bool:
        """Whether this client converts an encoding of that name, also one of the caller's own. Nothing is sent."""
        return self.library.supports(name)

    def decode(self, data: bytes, source: str, errors: str = "strict") -> str:
        """Decodes bytes as `bytes.decode` does, also marks of UTF-16 and UTF-32."""
        return self.decoder(source, source).decode(data, errors, True)[0]

    def encode(self, characters: str, target: str, errors: str = "strict") -> bytes:
        """Encodes a text as `str.encode` does."""
        return self.encoder(target, target).encode(characters, errors, True)

    @overload
    def convert(self, data: bytes, *, to: str, source: str, errors: str = "strict") -> bytes: ...

    @overload
    def convert(self, data: bytes, to: str, source: str, errors: str = "strict", /) -> bytes: ...

    def convert(self, data: bytes, *by_place: str, to: str = "", source: str = "", errors: str = "strict") -> bytes:
        """Converts bytes of `source` to bytes of `to`. `errors` names any of Python's error handlers, for both sides."""
        asked = ends(by_place, to, source, errors)
        return self.run(WholeConversion(self.library, asked, data).run)

    def open(self, to: str, source: str) -> Conversion:
        """Opens a conversion of a text in pieces."""
        return Conversion(self, to, source)

    def convert_file(self, file: BinaryIO, to: str, source: str, errors: str = "strict") -> Iterator[bytes]:
        """Converts a file piece by piece."""
        decoder, encoder = self.decoder(source, source), self.encoder(to, to)
        held = b""
        while True:
            piece = file.read(_READ_SIZE)
            decoded, used = decoder.decode(held + piece, errors, not piece)
            held = (held + piece)[used:]
            if decoded:
                yield encoder.encode(decoded, errors)
            if not piece:
                ending = encoder.finish()
                if ending:
                    yield ending
                return

    def decoder(self, name: str, source: str) -> Decoder:
        """Returns a decoder for one text, which exceptions call `name`."""
        return Decoder(self, name, self.library.find(source))

    def encoder(self, name: str, target: str) -> Encoder:
        """Returns an encoder for one text, which exceptions call `name`."""
        return Encoder(self, name, self.library.find(target))

    def upload(self, text: Union[bytes, str]) -> Charmap:
        """Adds a charmap of the caller's own to this client: an encoding by the name in its `<code_set_name>`. A text of one word
        is the name of a charmap file of the system, which is uploaded. Raises CharmapRefused, with the line and the cause, if the
        name is taken or the server refuses the text."""
        encoding, is_added = self.library.uploaded(text)
        try:
            self.run(lambda session: session.descriptor(Pair(UTF_8, encoding), is_whole=True))
        except BaseException:
            if is_added:
                self.library.remove(encoding)
            raise
        return self.library.get(encoding.name)


_default: List[Client] = []
_default_lock = threading.Lock()


def default() -> Client:
    """Returns the client that `convert` and the codecs share."""
    with _default_lock:
        if not _default:
            _default.append(Client())
        return _default[0]


def use(client: Client) -> None:
    """Makes `convert` and the codecs use this client."""
    with _default_lock:
        _default[:] = [client]


def _library() -> Library:
    """Returns the library of the default client, which is not made for that."""
    with _default_lock:
        return _default[0].library if _default else Library()


def find(name: str) -> Encoding:
    """Returns the encoding of that name, also one that was added to the default client. Raises UnknownEncoding."""
    return _library().find(name)


def supports(name: str) -> bool:
    """Whether the default client converts an encoding of that name. See Client.supports."""
    return _library().supports(name)


@overload
def convert(data: bytes, *, to: str, source: str, errors: str = "strict") -> bytes: ...


@overload
def convert(data: bytes, to: str, source: str, errors: str = "strict", /) -> bytes: ...


def convert(data: bytes, *by_place: str, to: str = "", source: str = "", errors: str = "strict") -> bytes:
    """Converts bytes by the default client. See Client.convert."""
    asked = ends(by_place, to, source, errors)
    return default().convert(data, to=asked.to, source=asked.source, errors=asked.errors)
