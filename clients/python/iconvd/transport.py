"""Streams to a server: connecting, and exchanging requests for replies with a time limit."""

from __future__ import annotations

import errno
import math
import os
import select
import shlex
import socket
import subprocess
import time
from typing import List, NamedTuple, Optional, Sequence, Tuple

from .errors import NotReached, NotStarted, ServerBusy, ServerLost, TimedOut
from .frames import Reply, ReplyReader, Request

#: The server, if neither the program nor ICONVD names one.
DEFAULT_SERVER = "exec:iconvd pipe"
#: How many seconds a reply may take, if neither the program nor ICONVD_TIMEOUT says.
DEFAULT_TIMEOUT = 10.0
#: How many seconds a server that was started here may take to end, once its stream is closed. Then it is killed.
ENDING = 1.0


def not_connected(where: "Address", error: OSError) -> ServerLost:
    """Returns the exception for a server that can't be reached. For a program that can't be started it has the name."""
    if isinstance(error, TimeoutError):
        return TimedOut(f"can't connect to {where}: {error}")
    if where.kind == "exec" and error.filename is not None:
        return NotStarted(f"can't start the program {os.fsdecode(error.filename)}: {error.strerror}")
    if isinstance(error, BlockingIOError):
        # The queue of a Unix socket is full.
        return ServerBusy(f"{where}: the server takes no new connection (all places may be taken)")
    return NotReached(f"can't connect to {where}: {error}")


def stream_lost(where: "Address", is_served: bool, error: Optional[OSError] = None) -> ServerLost:
    """Returns the exception for a stream that the server ended or that failed. A full server ends it before the first reply."""
    if not is_served and where.kind != "exec" and (error is None or isinstance(error, (BrokenPipeError, ConnectionResetError))):
        return ServerBusy(f"{where}: the server closes new connections (full or draining)")
    return ServerLost("the server ended the stream" if error is None else f"the stream failed: {error}")


def timed_out(where: "Address", is_served: bool, limit: Optional[float]) -> TimedOut:
    """Returns the exception for a server that is silent. A full server is silent from the first request on."""
    if is_served or where.kind == "exec":
        return TimedOut(f"the server did not answer within {limit:g} seconds")
    return TimedOut(f"{where}: no reply within {limit:g} s (all places may be taken)")


class Address(NamedTuple):
    """Where a server is: `kind` is exec, unix or tcp."""

    kind: str
    rest: str

    def __str__(self) -> str:
        return f"{self.kind}:{self.rest}"


def address(where: Optional[str] = None) -> Address:
    """Reads `exec:COMMAND`, `unix:PATH` or `tcp:HOST:PORT`. Raises ValueError for anything else."""
    text = where or os.environ.get("ICONVD") or DEFAULT_SERVER
    kind, _, rest = text.partition(":")
    if kind not in ("exec", "unix", "tcp") or not rest:
        raise ValueError(f"not exec:COMMAND, unix:PATH or tcp:HOST:PORT: {text!r}")
    if kind == "tcp":
        host_and_port(rest)
    return Address(kind, rest)


def host_and_port(text: str) -> Tuple[str, int]:
    """Reads `HOST:PORT`, with an IPv6 address in square brackets."""
    host, _, port = text.rpartition(":")
    if not host or not port.isdigit() or int(port) > 65535:
        raise ValueError(f"not HOST:PORT: {text!r}")
    return host[1:-1] if host.startswith("[") and host.endswith("]") else host, int(port)


def time_limit(seconds: Optional[float] = None) -> Optional[float]:
    """Returns how many seconds a reply may take: the given number, or ICONVD_TIMEOUT, or 10. For infinity it is None: no limit.
    Raises ValueError for a number that is not above 0."""
    if seconds is None:
        said = os.environ.get("ICONVD_TIMEOUT")
        try:
            seconds = float(said) if said else DEFAULT_TIMEOUT
        except ValueError:
            seconds = 0.0
        seconds = seconds if seconds > 0 else DEFAULT_TIMEOUT
    if not seconds > 0:
        raise ValueError(f"not a number of seconds above 0: {seconds}")
    return None if math.isinf(seconds) else seconds


def _program(word: str) -> str:
    """Returns the path of a program. Relative elements of PATH are ignored, since they depend on the current folder."""
    if "/" in word:
        return word
    for folder in os.environ.get("PATH", os.defpath).split(os.pathsep):
        path = os.path.join(folder, word)
        if os.path.isabs(folder) and os.path.isfile(path) and os.access(path, os.X_OK):
            return path
    raise FileNotFoundError(errno.ENOENT, "no folder of PATH has this program", word)


def start(command: str, child_end: socket.socket) -> "subprocess.Popen[bytes]":
    """Starts a server that has a socket as its standard input and output. It ends when the socket is closed."""
    environment = {name: value for name, value in os.environ.items() if name != "LD_PRELOAD"}
    words = shlex.split(command) or [command]
    return subprocess.Popen(
        [_program(words[0]), *words[1:]],
        stdin=child_end.fileno(),
        stdout=child_end.fileno(),
        env=environment,
        start_new_session=True,
    )


def end(child: "subprocess.Popen[bytes]", at_once: bool = False) -> None:
    """Waits for a server whose stream is closed, and kills it after a second or, with `at_once`, now."""
    try:
        child.wait(0 if at_once else ENDING)
    except subprocess.TimeoutExpired:
        child.kill()
        try:
            child.wait(ENDING)
        except subprocess.TimeoutExpired:
            pass


class Stream:
    """A stream to a server. Not safe for threads: the client locks it."""

    def __init__(self, where: Address, timeout: Optional[float]) -> None:
        self.process_id = os.getpid()
        #: Whether the server has sent anything on this stream.
        self.is_served = False
        self._where = where
        self._timeout = timeout
        self._reader = ReplyReader()
        self._tag = 0
        self._awaited = 0
        self._child: Optional["subprocess.Popen[bytes]"] = None
        try:
            self._socket = self._connect(where)
        except OSError as error:
            raise not_connected(where, error) from error
        self._socket.setblocking(False)

    def _connect(self, where: Address) -> socket.socket:
        if where.kind == "tcp":
            stream = socket.create_connection(host_and_port(where.rest), self._timeout)
            stream.setsockopt(socket.IPPROTO_TCP, socket.TCP_NODELAY, 1)
            return stream
        if where.kind == "unix":
            stream = socket.socket(socket.AF_UNIX, socket.SOCK_STREAM)
            stream.settimeout(self._timeout)
            try:
                stream.connect(where.rest)
            except BaseException:
                stream.close()
                raise
            return stream
        stream, child_end = socket.socketpair()
        try:
            self._child = start(where.rest, child_end)
        except BaseException:
            stream.close()
            raise
        finally:
            child_end.close()
        return stream

    def exchange(self, requests: Sequence[Request]) -> List[Reply]:
        """Sends requests and returns their replies. Replies are read while requests are sent, so neither side can block."""
        first = self._tag
        self._tag = (first + len(requests)) & 0xFFFFFFFF
        sending = memoryview(b"".join(request.frame((first + n) & 0xFFFFFFFF) for n, request in enumerate(requests)))
        replies: List[Reply] = []
        self._awaited = len(requests)
        deadline = None if self._timeout is None else time.monotonic() + self._timeout
        try:
            while len(replies) < len(requests):
                if sending:
                    sending = sending[self._send(sending) :]
                self._wait(bool(sending), deadline)
                for reply in self._reader.feed(self._receive()):
                    self._check(reply, requests, first, len(replies))
                    replies.append(reply)
                    self._awaited -= 1
        except OSError as error:
            if isinstance(error, ServerLost):
                raise
            raise stream_lost(self._where, self.is_served, error) from error
        return replies

    @property
    def is_idle(self) -> bool:
        """Whether every request that was sent is answered."""
        return self._awaited == 0 and self._reader.is_between_frames

    def _send(self, data: memoryview) -> int:
        try:
            return self._socket.send(data)
        except (BlockingIOError, InterruptedError):
            return 0

    def _wait(self, is_sending: bool, deadline: Optional[float]) -> None:
        poll = select.poll()
        poll.register(self._socket, select.POLLIN | (select.POLLOUT if is_sending else 0))
        left = None if deadline is None else max(0.0, deadline - time.monotonic())
        if not poll.poll(None if left is None else left * 1000):
            raise timed_out(self._where, self.is_served, self._timeout)

    def _receive(self) -> bytes:
        try:
            data = self._socket.recv(1 << 18)
        except (BlockingIOError, InterruptedError):
            return b""
        if not data:
            raise stream_lost(self._where, self.is_served)
        self.is_served = True
        return data

    @staticmethod
    def _check(reply: Reply, requests: Sequence[Request], first: int, number: int) -> None:
        if number >= len(requests) or reply.tag != (first + number) & 0xFFFFFFFF or reply.caller != requests[number].caller:
            raise ServerLost("the server answered what was not asked")

    def shut(self) -> None:
        """Makes an exchange of another thread fail now."""
        try:
            self._socket.shutdown(socket.SHUT_RDWR)
        except OSError:
            pass

    def close(self, at_once: bool = False) -> None:
        """Closes the stream. A server that was started for it ends then, or is killed."""
        self._socket.close()
        child, self._child = self._child, None
        if child is None:
            return
        if self.process_id != os.getpid():
            child.returncode = 0  # the parent waits for it
            return
        end(child, at_once)
