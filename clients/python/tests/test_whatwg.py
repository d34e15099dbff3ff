"""The encodings of WHATWG's Encoding standard: all are names, and what no other has of them."""

from __future__ import annotations

import asyncio
import codecs
import email
import io
import os
import sys
import unittest
from typing import Tuple

from support import HERE, SERVER, ClientTest

import iconvd
import iconvd.email

sys.path.insert(0, os.path.join(os.path.dirname(os.path.dirname(HERE)), "names"))

import labels  # noqa: E402

#: The names of the standard's section 4.2, each of which is a label too.
ENCODINGS = (
    "UTF-8 IBM866 ISO-8859-2 ISO-8859-3 ISO-8859-4 ISO-8859-5 ISO-8859-6 ISO-8859-7 ISO-8859-8 ISO-8859-8-I ISO-8859-10 ISO-8859-13 "
    "ISO-8859-14 ISO-8859-15 ISO-8859-16 KOI8-R KOI8-U macintosh windows-874 windows-1250 windows-1251 windows-1252 windows-1253 "
    "windows-1254 windows-1255 windows-1256 windows-1257 windows-1258 x-mac-cyrillic GBK gb18030 Big5 EUC-JP ISO-2022-JP Shift_JIS "
    "EUC-KR replacement UTF-16BE UTF-16LE x-user-defined"
).split()


class Whatwg(ClientTest):
    def test_encodings(self) -> None:
        self.assertEqual(len(ENCODINGS), 40)
        whatwg = {label.name for label in labels.read() if label.source == "whatwg"}
        self.assertEqual(len(whatwg), 228)
        self.assertLessEqual({name.lower() for name in ENCODINGS}, whatwg)
        for name in [*ENCODINGS, *whatwg]:
            self.assertTrue(self.client.supports(name), name)
            self.assertEqual(self.client.decode(b"", name), "", name)

    def test_x_user_defined(self) -> None:
        data = bytes(range(256))
        text = "".join(map(chr, [*range(0x80), *range(0xF780, 0xF800)]))
        self.assertEqual(self.client.decode(data, "x-user-defined"), text)
        self.assertEqual(self.client.encode(text, "x-user-defined"), data)
        self.assertEqual(self.client.encode("\x80ÿ\uf77f\uf800a", "x-user-defined", "replace"), b"????a")
        self.assertEqual(self.client.convert(data, to="UTF-8", source="x-user-defined"), text.encode())

    def test_unicode(self) -> None:
        self.assertEqual(self.client.decode("a\U0001f600".encode("utf-16-le"), "ucs-2"), "a\U0001f600")
        self.assertEqual(self.client.decode("a\U0001f600".encode("utf-16"), "unicode"), "a\U0001f600")

    def test_replacement(self) -> None:
        """A text is one fault, in any number of pieces and with any error handler. What is written is UTF-8."""
        for name in ("replacement", "ISO-2022-CN", "csISO2022CN", "ISO-2022-CN-EXT"):
            for data in (b"a", b"\xe4\x1b$A" * 100):
                self.assertEqual(self.client.decode(data, name, "replace"), "\ufffd")
                self.assertEqual(self.client.decode(data, name, "ignore"), "")
                self.assertEqual(self.client.convert(data, to="UTF-16LE", source=name, errors="replace"), b"\xfd\xff")
                self.assertEqual(self.client.convert(data, to="ISO-2022-JP", source=name, errors="ignore"), b"")
                for call in (self.client.decode, lambda data, name: self.client.convert(data, to="UTF-8", source=name)):
                    with self.assertRaises(UnicodeDecodeError) as caught:
                        call(data, name)
                    error = caught.exception
                    self.assertEqual((error.encoding, error.object, error.start, error.end), (name, data, 0, len(data)))
        self.assertEqual(self.client.encode("aé\U0001f600", "replacement"), "aé\U0001f600".encode())
        self.assertEqual(self.client.convert("é".encode("latin-1"), to="replacement", source="latin1"), "é".encode())

    def test_replacement_in_pieces(self) -> None:
        iconvd.register()
        decoder = codecs.getincrementaldecoder("iconvd-replacement")("replace")
        self.assertEqual([decoder.decode(piece) for piece in (b"", b"a", b"b", b"")], ["", "\ufffd", "", ""])
        state = decoder.getstate()
        decoder.reset()
        self.assertEqual(decoder.decode(b"a", True), "\ufffd")
        decoder.reset()
        decoder.setstate(state)
        self.assertEqual(decoder.decode(b"a", True), "")
        with self.client.open("UTF-8", "replacement") as conversion:
            self.assertEqual([conversion.convert(piece, "replace") for piece in (b"a", b"b")], ["\ufffd".encode(), b""])
            conversion.reset()
            self.assertRaises(UnicodeDecodeError, conversion.convert, b"c")
        reader = codecs.getreader("iconvd-replacement")(io.BytesIO(b"one\ntwo\n"), "replace")
        self.assertEqual(reader.read(), "\ufffd")
        encoder = codecs.getincrementalencoder("iconvd-replacement")()
        self.assertEqual(encoder.encode("é") + encoder.encode("é", True), "éé".encode())

    def test_replacement_is_not_written_by_another_name(self) -> None:
        """Nobody who writes to ISO-2022-CN expects UTF-8."""
        for name in ("ISO-2022-CN", "iso-2022-cn-ext"):
            self.assertRaises(iconvd.UnknownEncoding, self.client.encode, "a", name)
            with self.assertRaises(iconvd.UnknownEncoding):
                self.client.convert(b"a", to=name, source="UTF-8")

    def test_replacement_elsewhere(self) -> None:
        async def convert() -> Tuple[str, bytes]:
            async with iconvd.AsyncClient(SERVER) as client:
                return await client.decode(b"ab", "replacement", "replace"), await client.encode("é", "replacement")

        self.assertEqual(asyncio.run(convert()), ("\ufffd", "é".encode()))
        message = email.message_from_bytes(
            b"Subject: =?replacement?q?a?= b\nContent-Type: text/plain; charset=replacement\n\ntext\n",
            policy=iconvd.email.ServicePolicy(self.client),
        )
        self.assertEqual((message["Subject"], message.get_content()), ("\ufffd b", "\ufffd"))  # type: ignore[attr-defined]

    def test_made_from_other_charmaps(self) -> None:
        """The euro sign is in the place of the currency sign in IBM1140, which CPython has."""
        data = bytes(range(256))
        self.assertEqual(self.client.decode(data, "cp1140"), data.decode("cp1140"))
        self.assertEqual(self.client.convert(b"\x9f", to="IBM037", source="IBM1140", errors="replace"), b"\x6f")
        self.assertEqual(self.client.encode("\u03d5\u00b7\u0387", "IBM4971"), b"\xbd\xdd\xdd")
        self.assertEqual(self.client.decode(b"\xbd\xdd", "IBM4971"), "\u03c6\u0387")
        iconvd.register()
        self.assertEqual("€".encode("iconvd-ibm1149"), b"\x9f")


if __name__ == "__main__":
    unittest.main()
