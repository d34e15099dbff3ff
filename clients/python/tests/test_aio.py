"""The asyncio client: many conversions under way, a lost server, a hostile one."""

from __future__ import annotations

import asyncio
import os
import signal
import socket
import tempfile
import unittest

from support import SERVER, FakeServer, requests_of

import iconvd


class Aio(unittest.IsolatedAsyncioTestCase):
    async def test_a_thousand_on_one_stream(self) -> None:
        async with iconvd.AsyncClient(SERVER) as client:
            texts = [f"текст {n}" for n in range(1000)]
            outputs = await asyncio.gather(*(client.convert(t.encode("koi8-r"), "UTF-8", "KOI8-R") for t in texts))
            self.assertEqual([output.decode() for output in outputs], texts)

    async def test_all_kinds_at_once(self) -> None:
        async with iconvd.AsyncClient(SERVER) as client:
            names = ["KOI8-R", "UTF-7", "UTF-16", "EUC-KR", "UTF-32", "CP1251"]
            texts = [f"text {n}" for n in range(120)]
            encoded = await asyncio.gather(*(client.encode(t, names[n % 6]) for n, t in enumerate(texts)))
            decoded = await asyncio.gather(*(client.decode(b, names[n % 6]) for n, b in enumerate(encoded)))
            self.assertEqual(decoded, texts)

    async def test_errors(self) -> None:
        async with iconvd.AsyncClient(SERVER) as client:
            with self.assertRaises(UnicodeEncodeError):
                await client.encode("中", "KOI8-R")
            self.assertEqual(await client.encode("a中b", "KOI8-R", "xmlcharrefreplace"), b"a&#20013;b")
            with self.assertRaises(iconvd.UnknownEncoding):
                await client.decode(b"", "no such")

    async def test_a_server_that_is_killed(self) -> None:
        async with iconvd.AsyncClient(SERVER) as client:
            for _ in range(3):
                self.assertEqual(await client.convert(b"\xc1", "UTF-8", "KOI8-R"), "а".encode())
                connection = client._connection
                assert connection is not None and connection.child is not None
                os.kill(connection.child.pid, signal.SIGKILL)

    async def test_a_server_that_does_not_answer(self) -> None:
        def silent(stream: socket.socket) -> None:
            for _ in requests_of(stream):
                pass

        with tempfile.TemporaryDirectory() as folder:
            server = FakeServer(folder, silent)
            client = iconvd.AsyncClient(server.where, timeout=0.3)
            with self.assertRaises(iconvd.ServerLost):
                await client.convert(b"a", "UTF-8", "ASCII")
            await client.close()
            await asyncio.to_thread(server.close)

    async def test_a_server_that_sends_rubbish(self) -> None:
        with tempfile.TemporaryDirectory() as folder:
            server = FakeServer(folder, lambda stream: stream.sendall(b"\xff" * 64))
            client = iconvd.AsyncClient(server.where, timeout=2)
            calls = [client.convert(b"a", "UTF-8", "ASCII") for _ in range(10)]
            for result in await asyncio.gather(*calls, return_exceptions=True):
                self.assertIsInstance(result, iconvd.ServerLost)
            await client.close()
            await asyncio.to_thread(server.close)


if __name__ == "__main__":
    unittest.main()
