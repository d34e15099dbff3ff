"""Servers for the check of iconvd-benchmark: one whose replies are changed on the way, and one that answers as it is told."""

from __future__ import annotations

import contextlib
import socketserver
import struct
import subprocess
import threading
from typing import IO, Callable, Iterator, Optional

PUT, DROP, OPEN, CONV, CLOSE, PART = 1, 2, 3, 4, 6, 8
OK, ENOMEM, BADMAP, NONAME, ENOCHAR = 0, 6, 9, 11, 15


class Server(socketserver.ThreadingTCPServer):
    """Listens at a free port of this machine, as `where` says."""

    daemon_threads = True
    block_on_close = False
    allow_reuse_address = True
    request_queue_size = 128

    def __init__(self, handler: type[socketserver.BaseRequestHandler], port: int = 0) -> None:
        super().__init__(("127.0.0.1", port), handler)
        self.where = f"tcp:127.0.0.1:{self.server_address[1]}"
        threading.Thread(target=self.serve_forever, kwargs={"poll_interval": 0.05}, daemon=True).start()

    def handle_error(self, request: object, client_address: object) -> None:
        """A client that has gone does not fail the check."""

    def take_no_more(self) -> None:
        """Closes the listener. The streams go on."""
        self.shutdown()
        self.server_close()


class Relay(socketserver.BaseRequestHandler):
    """A stream to `iconvd pipe`, whose replies go through the server's `change`."""

    def handle(self) -> None:
        assert isinstance(self.server, WrongServer)
        pipe = subprocess.PIPE
        with subprocess.Popen([self.server.program, "pipe"], stdin=pipe, stdout=pipe, stderr=subprocess.DEVNULL, bufsize=0) as service:
            assert service.stdin is not None and service.stdout is not None
            threading.Thread(target=self._pass_requests, args=(service.stdin,), daemon=True).start()
            passed = 0
            while data := service.stdout.read(65536):
                changed = self.server.change(data, passed)
                passed += len(data)
                if not changed:
                    break
                self.request.sendall(changed)
            service.kill()

    def _pass_requests(self, service: IO[bytes]) -> None:
        try:
            while data := self.request.recv(65536):
                service.write(data)
            service.close()
        except (OSError, ValueError):
            pass


class WrongServer(Server):
    """Serves streams whose replies are changed."""

    def __init__(self, program: str, change: Callable[[bytes, int], bytes]) -> None:
        super().__init__(Relay)
        self.program = program
        self.change = change


class Asked(socketserver.StreamRequestHandler):
    """A stream whose requests the server's `answer` answers."""

    def handle(self) -> None:
        assert isinstance(self.server, ToldServer)
        number = self.server.next_stream()
        for asked, (caller, tag, op) in enumerate(self._requests()):
            status = self.server.answer(number, asked, op)
            if status is None:
                break
            body = bytes(8) if op == CONV and status in (OK, ENOCHAR) else bytes(4) if op in (PUT, OPEN) and status == OK else b""
            self.wfile.write(struct.pack(">IIIB", 9 + len(body), caller, tag, status) + body)

    def _requests(self) -> Iterator[tuple[int, int, int]]:
        """The caller, the tag and the op of each request."""
        while len(head := self.rfile.read(13)) == 13:
            length, caller, tag, op = struct.unpack(">IIIB", head)
            self.rfile.read(length - 9)
            yield caller, tag, op


class ToldServer(Server):
    """`answer` takes the number of the stream, the number of the request on it, and the request's op. It returns the status of the reply, or
    None to end the stream. It may wait."""

    def __init__(self, answer: Callable[[int, int, int], Optional[int]], port: int = 0) -> None:
        self.answer = answer
        self._streams = 0
        self._lock = threading.Lock()
        super().__init__(Asked, port)

    def next_stream(self) -> int:
        with self._lock:
            self._streams += 1
            return self._streams - 1


@contextlib.contextmanager
def listening(program: str, path: str, *words: str) -> Iterator[subprocess.Popen[str]]:
    """`iconvd listen` at a Unix socket. It is killed at the end."""
    command = [program, "listen", f"unix:{path}", *words]
    with subprocess.Popen(command, stdout=subprocess.PIPE, stderr=subprocess.DEVNULL, text=True) as server:
        assert server.stdout is not None
        server.stdout.readline()
        try:
            yield server
        finally:
            server.kill()
