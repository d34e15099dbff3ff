"""Charmaps: those of the caller's own, other folders of them, and those that are not there."""

from __future__ import annotations

import asyncio
import gzip
import os
import tempfile
import unittest
from unittest import mock

from support import SERVER, ClientTest

import iconvd
from iconvd import charmaps, names

TOY = r"""<code_set_name> TOY
<mb_cur_max> 2
<comment_char> %
<escape_char> /
CHARMAP
<A> /x41
<question-mark> /x3F
<U0100>...<U0103> /d129/d254 carried into the first byte
% a comment
<U0030>..<U0039> /60
END CHARMAP
"""


class Own(ClientTest):
    def test_upload(self) -> None:
        charmap = self.client.upload(TOY)
        self.assertEqual(charmap.name, b"TOY")
        self.assertEqual(self.client.decode(b"A\x81\xfe\x82\x001", "toy"), "A\u0100\u01021")
        self.assertEqual(self.client.encode("A\u0103?", "TOY"), b"A\x82\x01?")
        self.assertEqual(self.client.decode(b"A\xff\x81\xffA\x81", "TOY", "replace"), "A\ufffd\u0101A\ufffd")
        self.assertEqual(self.client.encode("A\u0401\u0100é", "TOY", "replace"), b"A?\x81\xfe?")
        self.assertEqual(self.client.convert(b"\x81\xff", to="UTF-8", source="TOY"), "\u0101".encode())

    def test_another_stream(self) -> None:
        self.client.upload(TOY.encode())
        self.client.close()
        self.assertEqual(self.client.decode(b"\x81\xfe", "TOY"), "\u0100")

    def test_refused(self) -> None:
        with self.assertRaises(iconvd.CharmapRefused) as refused:
            self.client.upload(TOY.replace("/d129/d254", "/d129/d999"))
        self.assertEqual((refused.exception.line, refused.exception.why), (8, "Constant"))
        with self.assertRaises(iconvd.UnknownEncoding):
            self.client.decode(b"A", "TOY")
        self.client.upload(TOY)
        for name in ("TOY", "toy", "LATIN1", "UTF-8", "KOI8-R"):
            with self.assertRaises(iconvd.CharmapRefused, msg=name):
                self.client.upload(TOY.replace("TOY", name))
        for text in ("", "x\n", "CHARMAP\nEND CHARMAP\n"):
            with self.assertRaises(LookupError, msg=text):
                self.client.upload(text)
        self.assertEqual(self.client.decode(b"A", "TOY"), "A")

    def test_a_file_of_the_system(self) -> None:
        self.assertEqual(self.client.upload("KOI8-R").mappings, 256)

    def test_asyncio(self) -> None:
        async def ask() -> str:
            async with iconvd.AsyncClient(SERVER, timeout=30) as client:
                await client.upload(TOY)
                with self.assertRaises(iconvd.CharmapRefused):
                    await client.upload(TOY)
                return await client.decode(b"\x81\xfe\xff", "TOY", "replace")

        self.assertEqual(asyncio.run(ask()), "\u0100\ufffd")

    def test_codecs(self) -> None:
        before = iconvd.default()
        iconvd.use(self.client)
        self.addCleanup(iconvd.use, before)
        iconvd.register()
        self.client.upload(TOY.replace("TOY", "TOY2"))
        self.assertEqual(b"\x81\xfe".decode("iconvd-toy2"), "\u0100")


class Folders(ClientTest):
    def test_another_folder(self) -> None:
        text = charmaps.read_file("KOI8-R").replace(b"<U0430>", b"<U0101>")
        with tempfile.TemporaryDirectory() as folder:
            with gzip.open(os.path.join(folder, "KOI8-R.gz"), "wb") as file:
                file.write(text)
            with mock.patch.dict(os.environ, {"ICONVD_CHARMAPS": folder}):
                self.assertEqual(self.client.decode(b"\xc1\xc2", "KOI8-R"), "\u0101б")
                with self.assertRaises(LookupError) as missing:
                    self.client.decode(b"\xc1", "KOI8-U")
        self.assertIn("KOI8-U.gz", str(missing.exception))

    def test_no_folder(self) -> None:
        with mock.patch.dict(os.environ, {"ICONVD_CHARMAPS": "/nowhere/charmaps"}):
            with self.assertRaises(LookupError) as missing:
                self.client.encode("a", "KOI8-R")
        self.assertIsInstance(missing.exception, iconvd.CharmapRefused)
        self.assertIn("there is no charmap folder /nowhere/charmaps", str(missing.exception))
        self.assertIn("package locales", str(missing.exception))

    def test_each_charmap_that_is_offered_is_taken(self) -> None:
        for file, _ in names.charmaps():
            self.assertGreater(self.client.upload(file).mappings, 0, file)
        for name in ("INIS", "ARABIC7", "ASMO_449", "BRF", "T.101-G2", "KATAKANA"):
            with self.assertRaises(iconvd.UnknownEncoding, msg=name):
                names.find(name)


if __name__ == "__main__":
    unittest.main()
