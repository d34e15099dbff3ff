"""Time limits: a server that is silent, a program that does not end, one that is not there."""

from __future__ import annotations

import asyncio
import os
import signal
import socket
import subprocess
import tempfile
import threading
import time
import unittest
from typing import Callable, List, Optional
from unittest import mock

from support import SERVER, FakeServer, requests_of

import iconvd
from iconvd import transport
from iconvd.errors import ServerLost

#: Seconds after which a test has hung.
HANG = 60


def silent(stream: socket.socket) -> None:
    for _ in requests_of(stream):
        pass


class Limit(unittest.TestCase):
    def test_default(self) -> None:
        with mock.patch.dict(os.environ):
            os.environ.pop("ICONVD_TIMEOUT", None)
            self.assertEqual(transport.time_limit(), 10)
            os.environ["ICONVD_TIMEOUT"] = "2.5"
            self.assertEqual(transport.time_limit(), 2.5)
            self.assertEqual(transport.time_limit(0.25), 0.25)
            for wrong in ("soon", "0", "-1", ""):
                os.environ["ICONVD_TIMEOUT"] = wrong
                self.assertEqual(transport.time_limit(), 10, wrong)
        self.assertIsNone(transport.time_limit(float("inf")))
        with self.assertRaises(ValueError):
            iconvd.Client(SERVER, timeout=0)

    def test_a_silent_server_is_asked_once(self) -> None:
        calls: List[Callable[[iconvd.Client], object]] = [
            lambda client: client.ping(),
            lambda client: client.convert(b"a", to="UTF-8", source="ASCII"),
            lambda client: client.decode(b"a", "UTF-7"),
        ]
        for number, call in enumerate(calls):
            with tempfile.TemporaryDirectory() as folder, self.subTest(number=number):
                server = FakeServer(folder, silent)
                with iconvd.Client(server.where, timeout=0.3) as client:
                    with self.assertRaises(iconvd.TimedOut) as raised:
                        call(client)
                self.assertIsInstance(raised.exception, (ServerLost, TimeoutError))
                server.close()
                self.assertEqual(server.streams, 1)

    def test_threads_wait_once(self) -> None:
        with tempfile.TemporaryDirectory() as folder:
            server = FakeServer(folder, silent)
            client = iconvd.Client(server.where, timeout=1)
            ends: List[object] = []
            ready = threading.Barrier(8)

            def work() -> None:
                ready.wait()
                try:
                    ends.append(client.convert(b"a", to="UTF-8", source="ASCII"))
                except ServerLost as error:
                    ends.append(type(error))

            threads = [threading.Thread(target=work) for _ in range(8)]
            for thread in threads:
                thread.start()
            for thread in threads:
                thread.join(HANG)
            client.close()
            server.close()
        self.assertEqual(ends, [iconvd.TimedOut] * 8)
        self.assertEqual(server.streams, 1)

    def test_a_stopped_server_is_replaced(self) -> None:
        with iconvd.Client(SERVER, timeout=0.5) as client:
            client.ping()
            stream = client._stream
            assert stream is not None and stream._child is not None
            os.kill(stream._child.pid, signal.SIGSTOP)
            with self.assertRaises(iconvd.TimedOut):
                client.ping()
        with iconvd.Client(SERVER, timeout=30) as client:
            self.assertEqual(client.decode(b"a", "KOI8-R"), "a")

    def test_asyncio(self) -> None:
        async def ask() -> List[object]:
            client = iconvd.AsyncClient(server.where, timeout=0.5)
            calls = [client.convert(b"a", to="UTF-8", source="ASCII") for _ in range(5)]
            calls += [client.convert(b"a", to="UTF-7", source="ASCII") for _ in range(5)]
            ends = await asyncio.gather(*calls, return_exceptions=True)
            await client.close()
            return [type(end) for end in ends]

        with tempfile.TemporaryDirectory() as folder:
            server = FakeServer(folder, silent)
            self.assertEqual(asyncio.run(asyncio.wait_for(ask(), HANG)), [iconvd.TimedOut] * 10)
            server.close()
            self.assertEqual(server.streams, 1)


class Ending(unittest.TestCase):
    """A child that does not end by itself is waited for a second at most, and killed."""

    def setUp(self) -> None:
        self.waits: List[Optional[float]] = []
        plain = subprocess.Popen.wait

        def wait(child: "subprocess.Popen[bytes]", timeout: Optional[float] = None) -> int:
            self.waits.append(timeout)
            return plain(child, min(timeout or 5.0, 5.0))

        patched = mock.patch("subprocess.Popen.wait", wait)
        patched.start()
        self.addCleanup(patched.stop)

    def check(self, child: "subprocess.Popen[bytes]") -> None:
        self.assertEqual(child.returncode, -signal.SIGKILL)
        self.assertTrue(self.waits)
        self.assertLessEqual(max(9.0 if wait is None else wait for wait in self.waits), 1.0)

    def test_close(self) -> None:
        client = iconvd.Client(SERVER, timeout=30)
        client.ping()
        stream = client._stream
        assert stream is not None and stream._child is not None
        child = stream._child
        os.kill(child.pid, signal.SIGSTOP)
        client.close()
        self.check(child)

    def test_asyncio_close(self) -> None:
        async def start_and_close() -> "subprocess.Popen[bytes]":
            client = iconvd.AsyncClient(SERVER, timeout=30)
            await client.decode(b"a", "KOI8-R")
            assert client._connection is not None and client._connection.child is not None
            child = client._connection.child
            os.kill(child.pid, signal.SIGSTOP)
            await asyncio.wait_for(client.close(), HANG)
            return child

        self.check(asyncio.run(start_and_close()))

    def test_close_while_a_thread_waits(self) -> None:
        client = iconvd.Client(SERVER, timeout=HANG)
        client.ping()
        stream = client._stream
        assert stream is not None and stream._child is not None
        os.kill(stream._child.pid, signal.SIGSTOP)
        ends: List[object] = []

        def work() -> None:
            try:
                client.ping()
            except ServerLost as error:
                ends.append(str(error))

        thread = threading.Thread(target=work)
        thread.start()
        while stream.is_idle:
            time.sleep(0.01)
        client.close()
        thread.join(HANG / 2)
        self.assertEqual(ends, ["the client was closed"])


class NotThere(unittest.TestCase):
    def test_the_program_is_named(self) -> None:
        for where, name in (("exec:no-such-program pipe", "no-such-program"), ("exec:/nowhere/at/all pipe", "/nowhere/at/all")):
            with self.assertRaises(ServerLost) as raised:
                iconvd.Client(where).ping()
            self.assertIn(f"can't start the program {name}", str(raised.exception))

    def test_relative_elements_of_the_path(self) -> None:
        """A program of the folder that one is in is not started."""
        with tempfile.TemporaryDirectory() as folder:
            program = os.path.join(folder, "iconvd")
            with open(program, "w") as file:
                file.write(f"#!/bin/sh\ntouch {folder}/started\n")
            os.chmod(program, 0o755)
            before = os.getcwd()
            os.chdir(folder)
            try:
                for path in ("", ".", ":/nowhere", "/nowhere:"):
                    with mock.patch.dict(os.environ, {"PATH": path}), self.assertRaises(ServerLost):
                        iconvd.Client("exec:iconvd pipe", timeout=2).ping()
            finally:
                os.chdir(before)
            self.assertFalse(os.path.exists(folder + "/started"))


if __name__ == "__main__":
    unittest.main()
