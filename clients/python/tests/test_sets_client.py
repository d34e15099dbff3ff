"""Encodings with escapes and shifts by the client's own calls, and those that CPython has not."""

from __future__ import annotations

import asyncio
import io
import os
import unittest
from typing import Iterator, Tuple
from unittest import mock

from meter import OF_EACH_SET
from support import SERVER, ClientTest

import iconvd
from iconvd import names

JAPANESE = ["ISO-2022-JP", "ISO-2022-JP-1", "ISO-2022-JP-2", "ISO-2022-JP-3", "ISO-2022-JP-2004", "ISO-2022-JP-EXT", "CP50221"]
ENCODINGS = [*JAPANESE, "ISO-2022-KR", "HZ"]


class Calls(ClientTest):
    def test_names(self) -> None:
        for name, encoding in (
            ("iso2022_jp", "ISO-2022-JP"),
            ("csISO2022JP", "ISO-2022-JP"),
            ("ISO-2022-JP-1", "ISO-2022-JP-1"),
            ("iso2022jp2", "ISO-2022-JP-2"),
            ("iso2022_jp_ext", "ISO-2022-JP-EXT"),
            ("iso-2022-kr", "ISO-2022-KR"),
            ("hz-gb-2312", "HZ"),
            ("cp50221", "CP50221"),
        ):
            self.assertEqual(names.find(name), names.Encoding(False, encoding), name)

    def texts(self) -> Iterator[Tuple[str, str, bytes]]:
        for name in ENCODINGS:
            text = self.client.decode(self.client.encode(OF_EACH_SET + "ab\\\n" + OF_EACH_SET, name, "ignore"), name)
            self.assertGreater(len(text), 6, name)
            yield name, text, self.client.encode(text, name)

    def test_convert(self) -> None:
        for name, text, data in self.texts():
            for other in ("UTF-8", "UTF-16", "UTF-7", "GB18030"):
                self.assertEqual(self.client.convert(data, to=other, source=name), self.client.encode(text, other), (name, other))
                self.assertEqual(self.client.convert(self.client.encode(text, other), to=name, source=other), data, (name, other))
            self.assertEqual(self.client.convert(data, to=name, source=name), data, name)
            self.assertEqual(self.client.convert(b"a\xff", to=name, source="ASCII", errors="ignore"), b"a")
            with self.assertRaises(UnicodeDecodeError):
                self.client.convert(b"a\xff", to="UTF-8", source=name)

    def test_pieces_end_with_the_escape_to_ascii(self) -> None:
        for name, text, data in self.texts():
            with self.client.open(name, "UTF-8") as conversion:
                whole = text.encode()
                written = b"".join(conversion.convert(whole[at : at + 1]) for at in range(len(whole)))
                self.assertEqual(written + conversion.reset(), data, name)
                self.assertEqual(conversion.convert(whole, final=True), data, name)
            with self.client.open("UTF-8", name) as conversion:
                read = b"".join(conversion.convert(data[at : at + 1]) for at in range(len(data)))
                self.assertEqual(read + conversion.convert(b"", final=True), whole, name)
            self.assertEqual(b"".join(self.client.convert_file(io.BytesIO(whole), name, "UTF-8")), data, name)
            self.assertEqual(b"".join(self.client.convert_file(io.BytesIO(data), "UTF-8", name)), whole, name)

    def test_many_at_once_on_one_stream(self) -> None:
        rows = list(self.texts())

        async def run() -> None:
            async with iconvd.AsyncClient(SERVER, timeout=60) as client:
                encoded = await asyncio.gather(*(client.encode(text, name) for name, text, _ in rows))
                decoded = await asyncio.gather(*(client.decode(data, name) for name, _, data in rows))
                converted = await asyncio.gather(*(client.convert(data, to="UTF-7", source=name) for name, _, data in rows))
            self.assertEqual(encoded, [data for _, _, data in rows])
            self.assertEqual(decoded, [text for _, text, _ in rows])
            self.assertEqual(converted, [self.client.encode(text, "UTF-7") for _, text, _ in rows])

        asyncio.run(run())

    def test_ascii_needs_no_charmap(self) -> None:
        with mock.patch.dict(os.environ, {"ICONVD_CHARMAPS": "/no/such/folder"}):
            for name in ENCODINGS:
                self.assertEqual(self.client.encode("a\n", name), b"a\n")
                self.assertEqual(self.client.decode(b"a\n", name), "a\n")
                with self.assertRaises(iconvd.CharmapRefused):
                    self.client.encode("日", name)

    def test_bytes_of_another_kind(self) -> None:
        for name, text, data in self.texts():
            self.assertEqual(self.client.decode(bytearray(data), name), text)

    def test_a_long_text(self) -> None:
        """More than one window, whose end is within a run of codes."""
        for name, text, _ in self.texts():
            for whole in (text[:1] * 300_001 + text[-1], ("b" + text) * 15_000):
                data = self.client.encode(whole, name)
                self.assertEqual(self.client.decode(data, name), whole, name)
                cut = self.client.decode(data[:-7] + b"\xff", name, "ignore")
                self.assertEqual(cut, self.client.decode(data[:-7], name, "ignore"), name)
                self.assertTrue(whole.startswith(cut) and len(whole) - len(cut) < 9, name)

    def test_what_cpython_does_not_read(self) -> None:
        """Where CPython raises a RuntimeError, a set without single shifts is a fault; and a long escape may be cut."""
        self.assertEqual(self.client.decode(b"\x1b.J\x1bNab", "ISO-2022-JP-2", "replace"), "\ufffdb")
        decoder = iconvd.codecs.info("jp", names.find("ISO-2022-JP"), self.client).incrementaldecoder("replace")
        self.assertEqual(decoder.decode(b"a\x1b((((((((((("), "a")
        self.assertEqual(decoder.decode(b"B"), "\ufffd")


class Windows(ClientTest):
    """CP50221: ISO-2022-JP with the rows of code page 932, which CPython has as cp932."""

    def test_all_codes(self) -> None:
        for row in range(94):
            for cell in range(94):
                first = row // 2 + (0x81 if row < 62 else 0xC1)
                second = cell + 0x9F if row & 1 else cell + (0x40 if cell < 63 else 0x41)
                try:
                    wanted = bytes((first, second)).decode("cp932")
                except UnicodeDecodeError:
                    wanted = "\ufffd"
                with self.subTest(row=row, cell=cell):
                    data = b"\x1b$B" + bytes((row + 0x21, cell + 0x21))
                    self.rows.append((data + b"\x1b(B", wanted))
        text = self.client.decode(b"".join(data for data, _ in self.rows), "CP50221", "replace")
        self.assertEqual(text, "".join(wanted for _, wanted in self.rows))
        for _, character in self.rows:
            if character != "\ufffd":
                self.assertEqual(self.client.decode(self.client.encode(character, "CP50221"), "CP50221"), character)

    def setUp(self) -> None:
        super().setUp()
        self.rows = []  # type: ignore[var-annotated]

    def test_characters_of_ibm_are_written_in_the_rows_of_nec(self) -> None:
        text = "ⅰ纊①ｱ～∥－"
        self.assertEqual(self.client.encode(text, "CP50221"), b"\x1b$B|qy!-!\x1b(I1\x1b$B!A!B!]\x1b(B")
        self.assertEqual(self.client.decode(self.client.encode(text, "CP50221"), "CP50221"), text)


if __name__ == "__main__":
    unittest.main()
