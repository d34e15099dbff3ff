"""UTF-8-SIG beside CPython's utf-8-sig: the mark is written, and skipped, wherever a text is cut."""

from __future__ import annotations

import codecs
import io
import os
import tempfile
import unittest

from support import ClientTest, outcome

import iconvd

OURS, THEIRS = "iconvd-utf-8-sig", "utf-8-sig"
MARK = codecs.BOM_UTF8
TEXTS = ["", "a", "naïve ☃ 😀\n", "\ufeffa\ufeff", "a\ud800b"]
SAMPLES = [b"", MARK, MARK[:1], MARK[:2], MARK + b"a", MARK + MARK + b"a", b"a" + MARK, MARK + b"a\xff\xe2\x82", b"\xef\xbb\xbe", b"\xffa"]
ERRORS = ["strict", "ignore", "replace", "backslashreplace", "surrogateescape"]


def setUpModule() -> None:
    iconvd.register()


def pieces(name: str, data: bytes, cut: int, errors: str) -> str:
    decoder = codecs.getincrementaldecoder(name)(errors)
    return decoder.decode(data[:cut]) + "|" + decoder.decode(data[cut:], True)


class Signed(ClientTest):
    def test_whole_texts(self) -> None:
        for errors in ERRORS:
            for text in TEXTS:
                self.assertEqual(outcome(lambda: text.encode(OURS, errors)), outcome(lambda: text.encode(THEIRS, errors)), (text, errors))
            for data in SAMPLES:
                self.assertEqual(outcome(lambda: data.decode(OURS, errors)), outcome(lambda: data.decode(THEIRS, errors)), (data, errors))

    def test_pieces(self) -> None:
        for errors in ERRORS:
            for data in SAMPLES:
                for cut in range(len(data) + 1):
                    wanted = outcome(lambda: pieces(THEIRS, data, cut, errors))
                    self.assertEqual(outcome(lambda: pieces(OURS, data, cut, errors)), wanted, (data, cut, errors))
        ours, theirs = (codecs.getincrementalencoder(name)() for name in (OURS, THEIRS))
        for piece in ("", "a", "é", ""):
            self.assertEqual(ours.encode(piece), theirs.encode(piece), piece)

    def test_files(self) -> None:
        lines = [f"строка {number} \ufeff\n" for number in range(500)]
        with tempfile.TemporaryDirectory() as folder:
            path = os.path.join(folder, "text")
            with open(path, "w", encoding=OURS, newline="") as file:
                file.writelines(lines)
            with open(path, "rb") as raw:
                self.assertEqual(raw.read(), "".join(lines).encode(THEIRS))
            with open(path, encoding=OURS, newline="") as file:
                self.assertEqual(file.readline(), lines[0])
                place = file.tell()
                self.assertEqual(file.read(), "".join(lines[1:]))
                file.seek(place)
                self.assertEqual(file.readline(), lines[1])
                file.seek(0)
                self.assertEqual(file.readline(), lines[0])

    def test_streams(self) -> None:
        raw = io.BytesIO()
        writer = codecs.getwriter(OURS)(raw)
        writer.write("раз\n")
        writer.write("два\n")
        self.assertEqual(raw.getvalue(), "раз\nдва\n".encode(THEIRS))
        self.assertEqual(codecs.getreader(OURS)(io.BytesIO(raw.getvalue())).readlines(), ["раз\n", "два\n"])

    def test_conversions(self) -> None:
        self.assertEqual(self.client.convert(MARK + "é".encode(), to="ISO-8859-1", source="utf-8-sig"), b"\xe9")
        self.assertEqual(self.client.convert(b"\xe9", to="UTF_8_SIG", source="ISO-8859-1"), MARK + "é".encode())
        self.assertEqual(self.client.decode(MARK + b"a", "utf8-sig"), "a")


if __name__ == "__main__":
    unittest.main()
