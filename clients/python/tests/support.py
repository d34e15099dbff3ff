"""What the tests share."""

from __future__ import annotations

import os
import socket
import sys
import threading
import unittest
from typing import Callable, Iterator, List, Optional

HERE = os.path.dirname(os.path.abspath(__file__))
sys.path.insert(0, os.path.dirname(HERE))

import iconvd  # noqa: E402

PROGRAM = os.environ.get("ICONVD_PROGRAM", "")
SERVER = f"exec:{PROGRAM} pipe"
os.environ["ICONVD"] = SERVER


class ClientTest(unittest.TestCase):
    """A test with a client of its own."""

    def setUp(self) -> None:
        self.client = iconvd.Client(SERVER, timeout=30)
        self.addCleanup(self.client.close)


class FakeServer:
    """Listens on a Unix socket, and handles each stream by a function, one after the other."""

    def __init__(self, folder: str, handle: Callable[[socket.socket], None]) -> None:
        self.path = os.path.join(folder, "server")
        self.where = "unix:" + self.path
        self.streams = 0
        self._handle = handle
        self._listener = socket.socket(socket.AF_UNIX)
        self._listener.bind(self.path)
        self._listener.listen(16)
        self._thread = threading.Thread(target=self._serve, daemon=True)
        self._thread.start()

    def _serve(self) -> None:
        while True:
            try:
                stream, _ = self._listener.accept()
            except OSError:
                return
            self.streams += 1
            with stream:
                try:
                    self._handle(stream)
                except OSError:
                    pass

    def close(self) -> None:
        """Takes no further stream. A second call does nothing."""
        if self._listener.fileno() < 0:
            return
        self._listener.shutdown(socket.SHUT_RDWR)
        self._listener.close()
        self._thread.join(5)


def requests_of(stream: socket.socket) -> Iterator[bytes]:
    """Gives the request frames that come."""
    held = b""
    while True:
        while len(held) >= 4 and len(held) >= 4 + int.from_bytes(held[:4], "big"):
            end = 4 + int.from_bytes(held[:4], "big")
            yield held[:end]
            held = held[end:]
        data = stream.recv(65536)
        if not data:
            return
        held += data


def outcome(call: Callable[[], object]) -> List[Optional[object]]:
    """Returns what a call gives, or the exception with its fields."""
    try:
        return ["gives", call()]
    except UnicodeError as error:
        fields = [getattr(error, name, None) for name in ("start", "end", "object", "reason")]
        return [type(error).__name__, *fields]
    except Exception as error:
        return [type(error).__name__, str(error)]
