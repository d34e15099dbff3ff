"""The blocking client: threads, fork, a lost server, a hostile one."""

from __future__ import annotations

import os
import signal
import socket
import tempfile
import threading
import time
import unittest
from typing import Callable, List

from support import SERVER, ClientTest, FakeServer, requests_of

import iconvd
from iconvd import frames
from iconvd.errors import ServerLost


class Conversions(ClientTest):
    def test_convert(self) -> None:
        self.assertEqual(self.client.convert(b"\xc1\xc2", "UTF-8", "KOI8-R"), "аб".encode())
        self.assertEqual(self.client.convert("аб".encode(), "KOI8-R", "UTF-8"), b"\xc1\xc2")
        self.assertEqual(self.client.convert(b"ab", "UTF-16", "ASCII"), "ab".encode("utf-16"))
        self.assertEqual(self.client.convert("ab".encode("utf-16"), "latin1", "UTF-16"), b"ab")
        self.assertEqual(self.client.convert(b"", "UTF-16", "ASCII"), b"")

    def test_every_builtin_pair(self) -> None:
        builtin = ["US-ASCII", "ISO-8859-1", "UTF-8", "UTF-16", "UTF-16BE", "UTF-16LE", "UTF-32", "UTF-32BE", "UTF-32LE", "UTF-7"]
        for source in builtin:
            for target in builtin:
                narrow = "US-ASCII" in (source, target)
                text = "plain" if narrow else "naïve" if "ISO-8859-1" in (source, target) else "naïve ☃ 😀"
                with self.subTest(source=source, target=target):
                    output = self.client.convert(text.encode(source), target, source)
                    self.assertEqual(output.decode(target), text)
                    if target != "UTF-7":
                        self.assertEqual(output, text.encode(target))

    def test_errors(self) -> None:
        with self.assertRaises(UnicodeEncodeError) as lacking:
            self.client.convert("a中b".encode(), "KOI8-R", "UTF-8")
        self.assertEqual((lacking.exception.start, lacking.exception.end), (1, 2))
        with self.assertRaises(UnicodeDecodeError) as illegal:
            self.client.convert(b"ab\xff", "KOI8-R", "UTF-8")
        self.assertEqual(illegal.exception.start, 2)
        self.assertEqual(self.client.convert("a中b".encode() + b"\xff", "KOI8-R", "UTF-8", "ignore"), b"ab")
        self.assertEqual(self.client.convert("a中b".encode(), "ASCII", "UTF-8", "xmlcharrefreplace"), b"a&#20013;b")
        with self.assertRaises(iconvd.UnknownEncoding):
            self.client.convert(b"", "UTF-8", "no such")

    def test_long_texts(self) -> None:
        text = "Long texts, длинные тексты 長い\n" * 40_000
        for name in ("UTF-16LE", "UTF-7", "UTF-32"):
            data = self.client.encode(text, name)
            self.assertEqual(data.decode(name.lower()), text, name)
            self.assertEqual(self.client.decode(data, name), text, name)

    def test_pieces(self) -> None:
        data = "раз-два-три".encode("utf-16")
        with self.client.open("KOI8-R", "UTF-16") as conversion:
            pieces = [conversion.convert(data[n : n + 1]) for n in range(len(data))]
            pieces.append(conversion.reset())
        self.assertEqual(b"".join(pieces), "раз-два-три".encode("koi8-r"))
        with self.client.open("KOI8-R", "UTF-8") as conversion:
            conversion.convert("р".encode()[:1])
            with self.assertRaises(iconvd.ConversionError):
                conversion.reset()

    def test_files(self) -> None:
        text = "строка\n" * 100_000
        with tempfile.TemporaryFile() as file:
            file.write(text.encode("koi8-r"))
            file.seek(0)
            pieces = list(self.client.convert_file(file, "UTF-16", "KOI8-R"))
        self.assertEqual(b"".join(pieces), text.encode("utf-16"))

    def test_many_pairs(self) -> None:
        """More pairs than a caller has descriptors, and more charmaps."""
        sources = ["KOI8-R", "KOI8-U", "CP1250", "CP1251", "CP1252", "CP1253", "CP1254", "CP1257", "CP866", "ISO-8859-2", "ISO-8859-5", "EUC-KR"]
        for source in sources:
            for target in sources:
                self.assertEqual(self.client.convert(b"ab", target, source), b"ab", (source, target))

    def test_a_charmap_above_one_frame(self) -> None:
        self.assertEqual(self.client.convert(b"\xb0\xa1", "UTF-8", "GB18030"), b"\xb0\xa1".decode("gb18030").encode())


class Life(ClientTest):
    def test_threads(self) -> None:
        faults: List[str] = []

        def work(number: int) -> None:
            for turn in range(20):
                text = f"нить {number}, ход {turn}"
                if self.client.convert(text.encode("koi8-r"), "UTF-8", "KOI8-R").decode() != text:
                    faults.append(text)
                if self.client.encode(text, "UTF-7").decode("utf-7") != text:
                    faults.append(text)

        threads = [threading.Thread(target=work, args=(n,)) for n in range(100)]
        for thread in threads:
            thread.start()
        for thread in threads:
            thread.join()
        self.assertEqual(faults, [])

    def test_fork(self) -> None:
        self.assertEqual(self.client.convert(b"\xc1", "UTF-8", "KOI8-R"), "а".encode())
        children = []
        for number in range(8):
            child = os.fork()
            if child == 0:
                status = 1
                try:
                    text = f"дитя {number}" * 50
                    right = all(self.client.convert(text.encode("koi8-r"), "UTF-8", "KOI8-R").decode() == text for _ in range(20))
                    status = 0 if right else 1
                    self.client.close()
                finally:
                    os._exit(status)
            children.append(child)
        for _ in range(200):
            self.assertEqual(self.client.convert(b"\xc1\xc2", "UTF-8", "KOI8-R"), "аб".encode())
        self.assertEqual([os.waitstatus_to_exitcode(os.waitpid(child, 0)[1]) for child in children], [0] * 8)

    def test_a_server_that_is_killed(self) -> None:
        for _ in range(3):
            self.assertEqual(self.client.convert(b"\xc1\xc2", "UTF-8", "KOI8-R"), "аб".encode())
            stream = self.client._stream
            assert stream is not None and stream._child is not None
            os.kill(stream._child.pid, signal.SIGKILL)
            stream._child.wait()
        self.assertEqual(self.client.convert(b"\xc1\xc2", "UTF-8", "KOI8-R"), "аб".encode())

    def test_no_server(self) -> None:
        for where in ("unix:/nowhere/at/all", "tcp:127.0.0.1:1", "exec:/nowhere/at/all"):
            with self.assertRaises(ServerLost, msg=where):
                iconvd.Client(where).ping()
        for where in ("", "http:x", "tcp:1", "tcp:host:99999", "exec:"):
            if where:
                with self.assertRaises(ValueError, msg=where):
                    iconvd.Client(where)


def _reply(request: bytes, status: int = 0, body: bytes = b"") -> bytes:
    return (9 + len(body)).to_bytes(4, "big") + request[4:12] + bytes((status,)) + body


def _conv_body(left: int, output: bytes) -> bytes:
    return left.to_bytes(4, "big") + bytes(4) + output


class Hostile(unittest.TestCase):
    """Each answer wrong in one way: the client raises, and hands out nothing that was not converted."""

    def _try(self, handle: Callable[[socket.socket], None]) -> int:
        with tempfile.TemporaryDirectory() as folder:
            server = FakeServer(folder, handle)
            try:
                with iconvd.Client(server.where, timeout=1.0) as client, self.assertRaises(iconvd.IconvdError):
                    client.convert(b"abc", "UTF-8", "ISO-8859-1")
            finally:
                server.close()
            return server.streams

    def _answers(self, conv: Callable[[bytes], bytes]) -> Callable[[socket.socket], None]:
        def handle(stream: socket.socket) -> None:
            for request in requests_of(stream):
                op = request[12]
                stream.sendall(_reply(request, 0, bytes(4)) if op == frames.Op.OPEN else conv(request))

        return handle

    def test_wrong_answers(self) -> None:
        wrong: List[Callable[[bytes], bytes]] = [
            lambda r: _reply(r, 0, b""),
            lambda r: _reply(r, 0, _conv_body(4, b"")),
            lambda r: _reply(r, 77, _conv_body(0, b"abc")),
            lambda r: _reply(r, 4, b""),
            lambda r: b"\xff\xff\xff\xff",
            lambda r: b"\0\0\0\x05abcde",
            lambda r: _reply(r[:8] + b"\x99\x99\x99\x99" + r[12:], 0, _conv_body(0, b"abc")),
            lambda r: _reply(r[:4] + b"\x99\x99\x99\x99" + r[8:], 0, _conv_body(0, b"abc")),
            lambda r: b"",
            lambda r: _reply(r, 1, _conv_body(3, b"")),
        ]
        for number, answer in enumerate(wrong):
            with self.subTest(number=number):
                self._try(self._answers(answer))

    def test_two_answers_to_one_request(self) -> None:
        """The second is no answer to what is asked next."""
        good = self._answers(lambda r: _reply(r, 0, _conv_body(0, b"abc")) * 2)
        with tempfile.TemporaryDirectory() as folder:
            server = FakeServer(folder, good)
            try:
                with iconvd.Client(server.where, timeout=1.0) as client:
                    try:
                        self.assertEqual(client.convert(b"abc", "UTF-8", "ISO-8859-1"), b"abc")
                    except ServerLost:
                        pass
            finally:
                server.close()

    def test_closed_at_each_byte_of_the_reply(self) -> None:
        for cut in range(24):

            def handle(stream: socket.socket, cut: int = cut) -> None:
                for request in requests_of(stream):
                    if request[12] == frames.Op.OPEN:
                        stream.sendall(_reply(request, 0, bytes(4)))
                    else:
                        stream.sendall(_reply(request, 0, _conv_body(0, b"abc"))[:cut])
                        return

            self.assertEqual(self._try(handle), 3, cut)

    def test_bytes_that_are_no_frames(self) -> None:
        self._try(lambda stream: stream.sendall(b"HTTP/1.1 400 Bad Request\r\n\r\n"))

    def test_no_answer(self) -> None:
        started = time.monotonic()
        self._try(lambda stream: time.sleep(1.5))
        self.assertGreater(time.monotonic() - started, 1.0)

    def test_a_program_that_is_no_server(self) -> None:
        with self.assertRaises(ServerLost):
            iconvd.Client("exec:/bin/true").ping()
        with self.assertRaises(iconvd.IconvdError):
            iconvd.Client("exec:/bin/cat", timeout=1.0).convert(b"a", "UTF-8", "ASCII")


class Commands(unittest.TestCase):
    def test_commands(self) -> None:
        import subprocess
        import sys

        from support import HERE

        def run(*words: str, data: bytes = b"") -> "subprocess.CompletedProcess[bytes]":
            return subprocess.run(
                [sys.executable, "-m", "iconvd", "--server", SERVER, *words],
                input=data,
                capture_output=True,
                cwd=os.path.dirname(HERE),
                check=False,
            )

        self.assertEqual(run("ping").stdout, b"OK\n")
        self.assertEqual(run("convert", "-f", "KOI8-R", "-t", "UTF-8", data=b"\xc1\xc2").stdout, "аб".encode())
        failed = run("convert", "-f", "UTF-8", "-t", "KOI8-R", data=b"a\xff")
        self.assertEqual((failed.returncode, failed.stdout[:1]), (1, b"") if not failed.stdout else (1, b"a"))
        self.assertIn(b"iconvd: ", failed.stderr)
        self.assertEqual(run("convert", "-f", "nothing", "-t", "UTF-8").returncode, 1)
        self.assertEqual(run("nothing").returncode, 2)


if __name__ == "__main__":
    unittest.main()
