"""Codecs by name beside CPython's own: results, and the exceptions' start, end, object and reason."""

from __future__ import annotations

import codecs
import io
import os
import random
import tempfile
import unittest
from typing import Dict, List, Tuple

from meter import metered
from support import SERVER, ClientTest, outcome

import iconvd

#: Encodings whose tables CPython and the system's charmaps agree on, by CPython's name.
UNICODE = ["utf-8", "utf-16", "utf-16-le", "utf-16-be", "utf-32", "utf-32-le", "utf-32-be"]
SINGLE = """ascii latin-1 koi8-r koi8-u cp1250 cp1251 cp1252 cp1253 cp1254 cp1256 cp1257 cp437 cp850 cp852 cp855 cp866
    iso8859-2 iso8859-4 iso8859-5 iso8859-9 iso8859-10 iso8859-13 iso8859-15""".split()
DOUBLE = ["shift_jis", "gbk"]
#: Characters on which CPython's table and the system's charmap differ; texts of this test have none of them.
DIFFERENT: Dict[str, str] = {
    "gbk": "\u20ac",
    "shift_jis": "\\~\u203e\xa5",
}
ENCODING_ERRORS = ["strict", "ignore", "replace", "xmlcharrefreplace", "backslashreplace", "namereplace", "surrogateescape", "surrogatepass"]
DECODING_ERRORS = ["strict", "ignore", "replace", "backslashreplace", "surrogateescape", "surrogatepass"]
TEXTS = [
    "",
    "plain",
    "Привет, мир",
    "naïve café",
    "中文 and 日本語",
    "a\ud800b",
    "\udc81\udcff",
    "x\U0001f600\U0001f601y",
    "é\u0301ж" * 3,
    "Ελληνικά " * 40,
]
SAMPLES = [
    b"",
    b"plain",
    b"\x81\x8d\x8f",
    b"\xff\xfea\x00",
    b"\xfe\xff\x00a",
    b"\x00\xd8a\x00",
    b"\xd8\x3d\xde\x00\xd8",
    b"\xc3\xa9\xc3",
    b"\xe0\x80a",
    b"\xed\xa0\x80",
    b"\xf0\x9f\x98",
    b"a\x00\x00\x00\xff\xff\x11\x00",
]


def setUpModule() -> None:
    iconvd.register()


def text_for(name: str, text: str) -> str:
    return "".join(c for c in text if c not in DIFFERENT.get(name, ""))


class AgainstCPython(unittest.TestCase):
    def test_encoding(self) -> None:
        for name in UNICODE + SINGLE + DOUBLE:
            for errors in ENCODING_ERRORS:
                if name == "shift_jis" and errors in ("backslashreplace", "namereplace"):
                    continue  # the charmap has a yen sign in the place of the backslash
                for text in TEXTS:
                    text = text_for(name, text)
                    with self.subTest(name=name, errors=errors, text=text):
                        wanted = outcome(lambda: text.encode(name, errors))
                        self.assertEqual(outcome(lambda: text.encode("iconvd-" + name, errors)), wanted)

    def test_decoding(self) -> None:
        for name in UNICODE + SINGLE:
            for errors in DECODING_ERRORS:
                for data in SAMPLES:
                    with self.subTest(name=name, errors=errors, data=data):
                        wanted = outcome(lambda: data.decode(name, errors))
                        self.assertEqual(outcome(lambda: data.decode("iconvd-" + name, errors)), wanted)

    def test_whole_repertoire(self) -> None:
        """Every byte of encodings of one byte a character."""
        for name in SINGLE:
            data = bytes(range(256))
            with self.subTest(name=name):
                self.assertEqual(data.decode("iconvd-" + name, "replace"), data.decode(name, "replace"))
                text = data.decode(name, "ignore")
                self.assertEqual(text.encode("iconvd-" + name), text.encode(name))

    def test_random_bytes(self) -> None:
        chance = random.Random(1)
        for name in UNICODE:
            for _ in range(150):
                data = bytes(chance.choice((0, 0x41, 0x80, 0xBF, 0xC3, 0xD8, 0xDC, 0xE4, 0xED, 0xF0, 0xF4, 0xFF)) for _ in range(chance.randrange(24)))
                for errors in ("strict", "replace"):
                    with self.subTest(name=name, data=data, errors=errors):
                        wanted = outcome(lambda: data.decode(name, errors))
                        self.assertEqual(outcome(lambda: data.decode("iconvd-" + name, errors)), wanted)

    def test_handlers_of_the_program(self) -> None:
        """A handler that goes back, one that skips ahead, and one that gives bytes."""

        def skip(error: UnicodeError) -> Tuple[str, int]:
            assert isinstance(error, (UnicodeDecodeError, UnicodeEncodeError))
            return "", min(error.end + 2, len(error.object))

        def raw(error: UnicodeError) -> Tuple[bytes, int]:
            assert isinstance(error, UnicodeEncodeError)
            return b"<?>", error.end

        def negative(error: UnicodeError) -> Tuple[str, int]:
            return "!", -1

        codecs.register_error("test.skip", skip)
        codecs.register_error("test.raw", raw)
        codecs.register_error("test.negative", negative)
        for name in ("ascii", "koi8-r", "utf-8", "cp1252"):
            for handler in ("test.skip", "test.negative"):
                data = b"ab\x81\xffcd\x81\xffef"
                wanted = outcome(lambda: data.decode(name, handler))
                self.assertEqual(outcome(lambda: data.decode("iconvd-" + name, handler)), wanted, (name, handler))
            for handler in ("test.skip", "test.raw", "test.negative"):
                text = "ab中中cdefg文h"
                wanted = outcome(lambda: text.encode(name, handler))
                self.assertEqual(outcome(lambda: text.encode("iconvd-" + name, handler)), wanted, (name, handler))


class Pieces(unittest.TestCase):
    def test_incremental_decoding_cut_at_each_byte(self) -> None:
        texts = {"utf-8": "aé€😀", "utf-16": "aé😀", "utf-32": "a😀", "utf-16-le": "😀x", "shift_jis": "日本x語", "euc-kr": "한국", "utf-7": "aé+日本-b"}
        for name, text in texts.items():
            data = text.encode(name)
            for cut in range(len(data) + 1):
                decoder = codecs.getincrementaldecoder("iconvd-" + name)()
                with self.subTest(name=name, cut=cut):
                    self.assertEqual(decoder.decode(data[:cut]) + decoder.decode(data[cut:], True), text)

    def test_incremental_decoding_byte_by_byte(self) -> None:
        for name in UNICODE + ["shift_jis", "gbk", "koi8-r", "utf-7"]:
            text = "Привет мир 123" if name not in ("shift_jis", "gbk") else "日本 123"
            data = text.encode(name)
            decoder = codecs.getincrementaldecoder("iconvd-" + name)()
            pieces = [decoder.decode(data[n : n + 1]) for n in range(len(data))] + [decoder.decode(b"", True)]
            self.assertEqual("".join(pieces), text, name)

    def test_incomplete_at_the_end(self) -> None:
        for name, data in (("utf-8", b"a\xe2\x82"), ("utf-16-le", b"a\0b"), ("shift_jis", b"a\x82")):
            decoder = codecs.getincrementaldecoder("iconvd-" + name)()
            self.assertEqual(decoder.decode(data), "a")
            with self.assertRaises(UnicodeDecodeError):
                decoder.decode(b"", True)

    def test_one_mark_a_text(self) -> None:
        for name in ("utf-16", "utf-32"):
            ours = codecs.getincrementalencoder("iconvd-" + name)()
            theirs = codecs.getincrementalencoder(name)()
            for piece in ("", "a", "b", "😀"):
                self.assertEqual(ours.encode(piece), theirs.encode(piece), (name, piece))

    def test_files(self) -> None:
        with tempfile.TemporaryDirectory() as folder:
            path = os.path.join(folder, "text")
            lines = [f"строка {n}\n" for n in range(5000)]
            for name in ("koi8-r", "utf-16", "shift_jis"):
                with open(path, "w", encoding="iconvd-" + name, newline="") as file:
                    file.writelines(lines)
                with open(path, "rb") as raw:
                    self.assertEqual(raw.read().decode(name), "".join(lines), name)
                with open(path, encoding="iconvd-" + name, newline="") as file:
                    file.readline()
                    place = file.tell()
                    rest = file.read()
                    self.assertEqual(rest, "".join(lines[1:]), name)
                    file.seek(place)
                    self.assertEqual(file.readline(), lines[1], name)

    def test_stream_reader_and_writer(self) -> None:
        raw = io.BytesIO()
        writer = codecs.getwriter("iconvd-utf-16")(raw)
        writer.write("раз\n")
        writer.write("два\n")
        self.assertEqual(raw.getvalue(), "раз\nдва\n".encode("utf-16"))
        reader = codecs.getreader("iconvd-utf-16")(io.BytesIO(raw.getvalue()))
        self.assertEqual(reader.readline(), "раз\n")
        self.assertEqual(reader.read(), "два\n")


    def test_positions_behind_a_mark(self) -> None:
        for name in ("utf-16", "utf-32"):
            for mark in (b"\xff\xfe", b"\xfe\xff", b"\xff\xfe\0\0", b"\0\0\xfe\xff"):
                for rest in (b"a\0\0\xd8b\0", b"\0a\xd8\0\0b", b"\0\0\x11\0a", b"\xff" * 5, b"a", b"\0\xd8"):
                    data = mark + rest
                    for errors in ("strict", "replace", "backslashreplace"):
                        wanted = outcome(lambda: data.decode(name, errors))
                        self.assertEqual(outcome(lambda: data.decode("iconvd-" + name, errors)), wanted, (name, data, errors))

    def test_writes_are_gathered(self) -> None:
        """A text file takes the bytes of each line at once; they cost no round trip for each line."""
        with tempfile.TemporaryDirectory() as folder, metered() as meter, iconvd.Client(SERVER, timeout=30) as client:
            before = iconvd.default()
            iconvd.use(client)
            self.addCleanup(iconvd.use, before)
            korean, russian, mixed = "한국어 문장", "строка", "naïve ☃ 😀"
            texts = {"euc-kr": korean, "johab": korean, "cp949": korean, "shift_jis": "日本語の行", "euc-jp": "日本語の行", "gb18030": "中文"}
            texts.update({"big5": "中文", "koi8-r": russian, "cp1252": "Größe, naïve", "iso8859-15": "café 5 €", "utf-16": mixed})
            for name, line in {**texts, "utf-8": mixed, "utf-7": "é+è-\t", "utf-32": mixed}.items():
                lines = [f"{line} {number}\n" for number in range(5000)]
                meter.reset()
                path = os.path.join(folder, name)
                with open(path, "w", encoding="iconvd-" + name, newline="") as file:
                    for text in lines:
                        file.write(text)
                with open(path, "rb") as raw:
                    self.assertEqual(raw.read().decode(name), "".join(lines), name)
                self.assertLess(meter.trips, 40, name)

    def test_writes_of_lines_that_lack_characters_are_gathered(self) -> None:
        cases = {
            "cp1252": ("ignore", "replace", "xmlcharrefreplace", "backslashreplace", "namereplace"),
            "euc-kr": ("ignore", "replace", "xmlcharrefreplace", "backslashreplace"),
            "utf-8": ("replace", "surrogateescape"),
            "utf-16": ("replace", "backslashreplace"),
        }
        with metered() as meter, iconvd.Client(SERVER, timeout=30) as client:
            before = iconvd.default()
            iconvd.use(client)
            self.addCleanup(iconvd.use, before)
            for name, policies in cases.items():
                for errors in policies:
                    lines = [f"naive ☃☃ {number} \udc81\n" if errors != "ignore" else f"ツ中 {number}☃\n" for number in range(1000)]
                    ours = codecs.getincrementalencoder("iconvd-" + name)(errors)
                    theirs = codecs.getincrementalencoder(name)(errors)
                    meter.reset()
                    self.assertEqual([ours.encode(line) for line in lines], [theirs.encode(line) for line in lines], (name, errors))
                    self.assertLess(meter.trips, 40, (name, errors))

    def test_writes_with_lacking_characters(self) -> None:
        for errors in ENCODING_ERRORS:
            ours = codecs.getincrementalencoder("iconvd-koi8-r")(errors)
            theirs = codecs.getincrementalencoder("koi8-r")(errors)
            for piece in ("a", "да\n", "中да", "да\n", "é", "да中", "\udc81", "да\n"):
                self.assertEqual(outcome(lambda: ours.encode(piece)), outcome(lambda: theirs.encode(piece)), (errors, piece))


class Faulty(ClientTest):
    def test_many_faults_cost_few_requests(self) -> None:
        exchanges: List[int] = []
        self.client.ping()
        stream = self.client._stream
        assert stream is not None
        plain = stream.exchange
        stream.exchange = lambda requests: exchanges.append(len(requests)) or plain(requests)  # type: ignore[method-assign, assignment, func-returns-value]
        self.assertEqual(self.client.decode(b"a\x81" * 30_000, "CP1252", "replace"), "a\ufffd" * 30_000)
        self.assertEqual(self.client.encode("a中" * 30_000, "KOI8-R", "replace"), b"a?" * 30_000)
        self.assertLess(len(exchanges), 40)

    def test_unknown_names(self) -> None:
        for name in ("iconvd-", "iconvd-nothing", "iconvd", "iconvd-INIS", "iconvd-utf-8//TRANSLIT", "iconvd-" + "x" * 5000, "iconvd-é"):
            with self.assertRaises(LookupError, msg=name):
                codecs.lookup(name)


if __name__ == "__main__":
    unittest.main()
