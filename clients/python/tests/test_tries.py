"""A server that went away, one that is full, and one that is not there: what a call waits, and what it says then."""

from __future__ import annotations

import asyncio
import os
import socket
import subprocess
import tempfile
import threading
import time
import unittest
from typing import Callable, List, Type

from support import PROGRAM, FakeServer, requests_of

import iconvd
from iconvd.errors import NotReached, ServerBusy, ServerLost, TimedOut

#: Seconds after which a test has hung.
HANG = 60
FULL = "unix:%s: the server closes new connections (full or draining)"
SILENT = "unix:%s: no reply within %s s (all places may be taken)"


def answering(stream: socket.socket) -> None:
    """Answers each request by OK, with a descriptor or an empty output."""
    for request in requests_of(stream):
        stream.sendall((17).to_bytes(4, "big") + request[4:12] + b"\0" + bytes(8))


def closing(_stream: socket.socket) -> None:
    """Ends a stream at once, as a full server does."""


def silent(stream: socket.socket) -> None:
    for _ in requests_of(stream):
        pass


def by_thread(where: str, limit: float) -> None:
    with iconvd.Client(where, timeout=limit) as client:
        client.ping()


def by_asyncio(where: str, limit: float) -> None:
    async def ask() -> None:
        client = iconvd.AsyncClient(where, timeout=limit)
        try:
            await client.convert(b"", to="UTF-8", source="ASCII")
        finally:
            await client.close()

    asyncio.run(asyncio.wait_for(ask(), HANG))


CLIENTS = (by_thread, by_asyncio)


class WithServer(unittest.TestCase):
    """A test with a fake server in a folder of its own."""

    def setUp(self) -> None:
        folder = tempfile.TemporaryDirectory()
        self.addCleanup(folder.cleanup)
        self.folder = folder.name
        self.path = os.path.join(self.folder, "server")

    def serve(self, handle: Callable[[socket.socket], None]) -> FakeServer:
        if os.path.exists(self.path):
            os.unlink(self.path)
        server = FakeServer(self.folder, handle)
        self.addCleanup(server.close)
        return server

    def lost(self, fault: Type[ServerLost], least: float, most: float, call: Callable[[], object]) -> str:
        """Returns the text of the fault that a call ends by, which takes some seconds."""
        began = time.monotonic()
        with self.assertRaises(fault) as raised:
            call()
        took = time.monotonic() - began
        self.assertGreaterEqual(took, least)
        self.assertLess(took, most)
        self.assertIs(type(raised.exception), fault)
        return str(raised.exception)


class Full(WithServer):
    def test_closed_at_once(self) -> None:
        for client in CLIENTS:
            server = self.serve(closing)
            text = self.lost(ServerBusy, 1.0, 3.0, lambda: client(server.where, 1.0))
            self.assertEqual(text, FULL % self.path)
            # At 0, 0.05, 0.15, 0.35, 0.75 and 1 second.
            self.assertLessEqual(4, server.streams)
            self.assertLessEqual(server.streams, 6)

    def test_closed_with_requests_unread(self) -> None:
        """By TCP the client's requests then are answered by a reset."""
        with socket.create_server(("127.0.0.1", 0)) as listener:
            where = f"tcp:127.0.0.1:{listener.getsockname()[1]}"

            def close_all() -> None:
                while True:
                    try:
                        stream, _ = listener.accept()
                    except OSError:
                        return
                    time.sleep(0.02)
                    stream.close()

            thread = threading.Thread(target=close_all, daemon=True)
            thread.start()
            for client in CLIENTS:
                text = self.lost(ServerBusy, 0.3, 2.0, lambda: client(where, 0.3))
                self.assertEqual(text, f"{where}: the server closes new connections (full or draining)")
            listener.shutdown(socket.SHUT_RDWR)
            thread.join(HANG)

    def test_a_place_becomes_free(self) -> None:
        for client in CLIENTS:
            closed: List[object] = []

            def handle(stream: socket.socket, closed: List[object] = closed) -> None:
                if len(closed) < 5:
                    closed.append(stream)
                else:
                    answering(stream)

            began = time.monotonic()
            client(self.serve(handle).where, 10)
            # The pauses before the sixth stream.
            self.assertGreaterEqual(time.monotonic() - began, 0.05 + 0.1 + 0.2 + 0.4 + 0.8)
            self.assertEqual(len(closed), 5)

    def test_no_reply(self) -> None:
        for client in CLIENTS:
            server = self.serve(silent)
            text = self.lost(TimedOut, 0.5, 3.0, lambda: client(server.where, 0.5))
            self.assertEqual(text, SILENT % (self.path, "0.5"))
            self.assertEqual(server.streams, 1)

    def test_no_reply_to_a_later_request(self) -> None:
        """Then the stream has a place, and the text is as before."""

        def handle(stream: socket.socket) -> None:
            requests = requests_of(stream)
            stream.sendall((9).to_bytes(4, "big") + next(requests)[4:12] + b"\0")
            silent(stream)

        with iconvd.Client(self.serve(handle).where, timeout=0.3) as client:
            client.ping()
            self.assertEqual(self.lost(TimedOut, 0.3, 3.0, client.ping), "the server did not answer within 0.3 seconds")

    def test_a_queue_that_is_full(self) -> None:
        """A Unix socket refuses what its queue has no room for."""
        with socket.socket(socket.AF_UNIX) as listener, socket.socket(socket.AF_UNIX) as first:
            listener.bind(self.path)
            listener.listen(0)
            first.connect(self.path)
            text = self.lost(ServerBusy, 0.3, 3.0, lambda: by_thread("unix:" + self.path, 0.3))
        self.assertEqual(text, f"unix:{self.path}: the server takes no new connection (all places may be taken)")

    def test_threads_wait_once(self) -> None:
        server = self.serve(closing)
        client = iconvd.Client(server.where, timeout=0.5)
        texts: List[str] = []

        def work() -> None:
            try:
                client.ping()
            except ServerBusy as error:
                texts.append(str(error))

        began = time.monotonic()
        threads = [threading.Thread(target=work) for _ in range(8)]
        for thread in threads:
            thread.start()
        for thread in threads:
            thread.join(HANG)
        self.assertLess(time.monotonic() - began, 2.0)
        self.assertEqual(texts, [FULL % self.path] * 8)


class Gone(WithServer):
    def test_never_there(self) -> None:
        for client in CLIENTS:
            text = self.lost(NotReached, 0.15, 3.0, lambda: client("unix:" + self.path, 10))
            self.assertIn(f"can't connect to unix:{self.path}: ", text)

    def test_gone_for_good(self) -> None:
        server = self.serve(answering)
        with iconvd.Client(server.where, timeout=0.5) as client:
            client.ping()
            assert client._stream is not None
            client._stream.shut()
            server.close()
            self.assertIn("can't connect to", self.lost(NotReached, 0.5, 3.0, client.ping))

    def test_it_comes_back(self) -> None:
        server = self.serve(answering)
        with iconvd.Client(server.where, timeout=30) as client:
            client.ping()
            assert client._stream is not None
            client._stream.shut()
            server.close()
            later = threading.Timer(0.6, self.serve, (answering,))
            later.start()
            client.ping()
            later.join(HANG)

    def test_it_comes_back_for_asyncio(self) -> None:
        server = self.serve(answering)

        async def ask() -> None:
            async with iconvd.AsyncClient(server.where, timeout=30) as client:
                calls = [client.convert(b"", to="UTF-8", source="ASCII") for _ in range(20)]
                await asyncio.gather(*calls)
                assert client._connection is not None
                client._connection.fail(ServerLost("cut off by the test"))
                await asyncio.get_running_loop().run_in_executor(None, server.close)
                later = threading.Timer(0.6, self.serve, (answering,))
                later.start()
                await asyncio.gather(*(client.convert(b"", to="UTF-8", source="ASCII") for _ in range(20)))
                later.join(HANG)

        asyncio.run(asyncio.wait_for(ask(), HANG))

    def test_close_meanwhile(self) -> None:
        """A call that waits between tries ends when the client is closed."""
        client = iconvd.Client(self.serve(closing).where, timeout=HANG)
        texts: List[str] = []

        def work() -> None:
            try:
                client.ping()
            except ServerLost as error:
                texts.append(str(error))

        thread = threading.Thread(target=work)
        thread.start()
        time.sleep(0.3)
        client.close()
        thread.join(HANG / 2)
        self.assertEqual(texts, ["the client was closed"])


class Listening(WithServer):
    """The real server, with one place."""

    def test_two_clients(self) -> None:
        where = "unix:" + self.path
        command = [PROGRAM, "listen", where, "--at-once", "1", "--streams", "9"]
        server = subprocess.Popen(command, stdout=subprocess.PIPE, stderr=subprocess.DEVNULL)
        try:
            assert server.stdout is not None
            self.assertIn(b"listening", server.stdout.readline())
            with iconvd.Client(where, timeout=HANG) as first, iconvd.Client(where, timeout=0.5) as second:
                self.assertEqual(first.decode(b"a", "KOI8-R"), "a")
                text = self.lost(TimedOut, 0.5, 5.0, lambda: second.decode(b"a", "KOI8-R"))
                self.assertEqual(text, SILENT % (self.path, "0.5"))
            with iconvd.Client(where, timeout=HANG) as third:
                self.assertEqual(third.decode(b"a", "KOI8-R"), "a")
        finally:
            server.kill()
            server.communicate()


if __name__ == "__main__":
    unittest.main()
