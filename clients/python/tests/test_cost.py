"""What hostile text costs: bytes and round trips, in each encoding that the client knows."""

from __future__ import annotations

import codecs
import random
import unittest
from typing import Callable, List, Tuple

from meter import OF_EACH_SET, every_encoding, metered, use_each_set
from support import SERVER

import iconvd

SIZE = 81_920
SCRIPTS = "Grüße, café; Привет; Ελλάδα; עברית; العربية; ไทย; 한국어; 日本語; 中文; € ☃ 😀\n"


def marked(error: UnicodeError) -> Tuple[str, int]:
    """A handler of a program, which tells each fault."""
    assert isinstance(error, (UnicodeDecodeError, UnicodeEncodeError))
    return f"<{error.start}>" if isinstance(error, UnicodeDecodeError) else "?", error.end


def skipping(error: UnicodeError) -> Tuple[str, int]:
    """A handler of a program, which goes on after the bytes that follow the fault."""
    assert isinstance(error, (UnicodeDecodeError, UnicodeEncodeError))
    return "", min(error.end + 2, len(error.object))


def setUpModule() -> None:
    codecs.register_error("test.marked", marked)
    codecs.register_error("test.skipping", skipping)


def repeated(data: bytes) -> bytes:
    return (data * (SIZE // max(1, len(data)) + 1))[:SIZE]


def texts(client: iconvd.Client, name: str) -> List[Tuple[str, bytes]]:
    """Random bytes, text of other encodings, text of this one with each hundredth byte damaged, and clean text with a fault."""
    good = repeated(client.encode(SCRIPTS, name, "ignore") or b"\0")
    # The charmap for reading may be another one.
    client.decode(good[:8], name, "ignore")
    damaged = bytearray(good)
    for at in range(0, len(damaged), 100):
        damaged[at] = (damaged[at] * 7 + at // 100 + 0x80) & 0xFF
    return [
        ("random", random.Random(name).randbytes(SIZE)),
        ("German in ISO-8859-1", repeated("Größe und schöne Grüße aus Köln. ".encode("latin-1"))),
        ("French in CP1252", repeated("Déjà l’été où l’on goûte “çà”. ".encode("cp1252"))),
        ("damaged", bytes(damaged)),
        ("a fault at the beginning", b"\xff" + good[:-1]),
        ("characters above U+FFFF", repeated(client.encode("a\U0001f600", name, "ignore") or b"\0")),
    ]


PAIRS = (
    ("EUC-KR", "KOI8-R"),
    ("UTF-8", "EUC-JP"),
    ("TIS-620", "CP874"),
    ("UTF-16", "UTF-7"),
    ("CP1251", "UTF-16"),
    ("UTF-8", "GB18030"),
    ("UTF-16", "GB18030"),
    ("GB18030", "KOI8-R"),
    ("GB18030", "UTF-16"),
    ("ISO-2022-JP-2", "EUC-KR"),
    ("EUC-JP", "CP50221"),
    ("EUC-JIS-2004", "BIG5-HKSCS"),
    ("UTF-8", "SHIFT_JISX0213"),
    ("SHIFT_JIS-2004", "UTF-16"),
)


class Cost(unittest.TestCase):
    def setUp(self) -> None:
        patched = metered()
        self.meter = patched.__enter__()
        self.addCleanup(patched.__exit__, None, None, None)
        self.client = iconvd.Client(SERVER, timeout=60)
        self.addCleanup(self.client.close)
        # Charmaps are no part of a text's cost. Of this one a text with rare characters would have the rest sent.
        self.client.upload("GB18030")

    def measured(self, size: int, label: object, call: object) -> None:
        self.meter.reset()
        call()  # type: ignore[operator]
        self.assertEqual(self.meter.excess(size), [], label)

    def test_decoding(self) -> None:
        policies = "replace ignore test.marked backslashreplace test.skipping replace surrogateescape".split()
        for number, name in enumerate(every_encoding()):
            use_each_set(self.client, name)
            for turn, (kind, data) in enumerate(texts(self.client, name)):
                errors = policies[(number + turn) % len(policies)]
                self.measured(len(data), (name, kind, errors), lambda: self.decoded(data, name, errors))

    def decoded(self, data: bytes, name: str, errors: str) -> None:
        try:
            self.client.decode(data, name, errors)
        except UnicodeDecodeError:
            self.assertEqual(errors, "surrogateescape")

    def test_encoding(self) -> None:
        policies = "replace ignore xmlcharrefreplace backslashreplace namereplace test.marked test.skipping".split()
        chance = random.Random(5)
        strange = "".join(chr(chance.choice((chance.randrange(0x250), chance.randrange(0xD800), 0xDC80))) for _ in range(15_000))
        for number, name in enumerate(every_encoding()):
            use_each_set(self.client, name)
            for turn, text in enumerate((SCRIPTS * 400, strange)):
                errors = policies[(number + turn) % len(policies)]
                size = len(text.encode("utf-8", "surrogatepass"))
                self.client.encode("a", name, "replace")
                self.measured(size, (name, turn, errors), lambda: self.encoded(text, name, errors))

    def encoded(self, text: str, name: str, errors: str) -> None:
        try:
            self.client.encode(text, name, errors)
        except UnicodeEncodeError:
            # SHIFT_JIS and others have no backslash, and none of what is put in place of a character may be lacking.
            self.assertIn(errors, ("backslashreplace", "namereplace", "xmlcharrefreplace"), name)

    def test_converting(self) -> None:
        for source, target in PAIRS:
            for end in (source, target):
                use_each_set(self.client, end)
            # The charmaps of encodings with codes of two characters are needed from and to UTF-8.
            self.client.encode(self.client.decode(b"a\0", source, "replace"), target, "replace")
            for kind, data in texts(self.client, source):
                self.client.convert(b"", to=target, source=source)
                label = (source, target, kind)
                self.measured(len(data), label, lambda: self.client.convert(data, to=target, source=source, errors="replace"))

    def loop(self, data: bytes, call: Callable[[bytes], object]) -> int:
        """Goes on with all that is left after each fault. Returns how many calls that took."""
        calls, at = 1, 0
        while True:
            try:
                call(data[at:])
                return calls
            except UnicodeDecodeError as error:
                at += error.start + 1
                calls += 1

    def test_loops_of_strict_calls(self) -> None:
        """A program that skips a byte after each fault: one request a call, and bytes by what is decoded."""
        iconvd.register()
        before = iconvd.default()
        iconvd.use(self.client)
        self.addCleanup(iconvd.use, before)
        for name in ("EUC-KR", "UTF-8", "GB18030", "UTF-16LE", "CP1253", "ISO-2022-JP-2", "HZ", "EUC-JIS-2004"):
            use_each_set(self.client, name)
            whole = dict(texts(self.client, name))
            for kind, data in (("damaged", whole["damaged"]), ("random", whole["random"][:8000])):
                ways: List[Callable[[bytes], object]] = [
                    lambda left: left.decode("iconvd-" + name),
                    lambda left: codecs.getincrementaldecoder("iconvd-" + name)().decode(left, True),
                    lambda left: self.client.convert(left, to="UTF-16LE", source=name),
                ]
                for number, call in enumerate(ways):
                    self.client.convert(b"a", to="UTF-16LE", source=name) if name != "UTF-16LE" else None
                    self.meter.reset()
                    calls = self.loop(data, call)
                    label = (name, kind, number, calls, self.meter.sent, self.meter.trips)
                    self.assertLessEqual(self.meter.sent, 4 * len(data) + 65_536 + 300 * calls, label)
                    self.assertLessEqual(self.meter.trips, (2.2 if number == 2 else 1.2) * calls + 40, label)

    def test_a_handler_that_skips_a_byte(self) -> None:
        codecs.register_error("test.byte", lambda error: ("?", getattr(error, "start") + 1))
        for name in ("EUC-KR", "UTF-8", "GB18030", "UTF-16LE", "CP1253", "ISO-2022-KR", "SHIFT_JISX0213"):
            use_each_set(self.client, name)
            for kind, data in texts(self.client, name):
                self.measured(len(data), (name, kind), lambda: self.client.decode(data, name, "test.byte"))

    def test_long_codes(self) -> None:
        """A separator of eight bytes is not sent for each fault, nor one of four for each lacking character."""
        for length, first in ((4, 0), (8, 0), (4, 0x10000)):
            name = f"LONG{length}X{first:X}"
            head = "/x91" + "/x40" * (length - 2)
            lines = [f"<U{first + code:08X}> {head}/x{code:02x}" for code in range(0x20, 0xA0)]
            lines += ["<question-mark> /x92" + "/x40" * 7] if first else []
            declared = f"<code_set_name> {name}\n<mb_cur_max> 8\n<escape_char> /\nCHARMAP\n"
            self.client.upload(declared + "\n".join(lines) + "\nEND CHARMAP\n")
            good = "".join(chr(first + code) for code in range(0x20, 0xA0))
            encoded = self.client.encode(good, name)
            self.assertEqual(self.client.decode(encoded, name), good)
            chance = random.Random(name)
            strange = b"".join(chance.randbytes(500) + encoded[-length:] for _ in range(SIZE // 500))
            for errors in ("replace", "ignore", "backslashreplace", "test.marked"):
                self.measured(len(strange), (name, errors), lambda: self.client.decode(strange, name, errors))
            text = (good + "\t" * 10_000) * (SIZE // 10_000)
            size = len(text.encode())
            self.measured(size, (name, "ignore"), lambda: self.client.encode(text, name, "ignore"))
            self.assertEqual(self.client.decode(self.client.encode(text, name, "ignore"), name), good * (SIZE // 10_000))

    def test_texts_that_change_sets_often(self) -> None:
        """Each character in another set than the one before, and escapes and shifts without characters."""
        for name in ("ISO-2022-JP-2", "ISO-2022-JP-EXT", "ISO-2022-KR", "HZ", "CP50221"):
            use_each_set(self.client, name)
            text = (OF_EACH_SET + "a\n") * 8000
            size = len(text.encode())
            self.measured(size, name, lambda: self.client.encode(text, name, "ignore"))
            data = self.client.encode(text, name, "ignore")
            self.measured(len(data), name, lambda: self.client.decode(data, name))
            self.assertEqual(self.client.encode(self.client.decode(data, name), name), data)
            for kind in (b"\x1b$B\x1b(B", b"\x1b$B0!\xff", b"\x1b", b"\x1b(", b"\x0e\x0f", b"~{~}", b"~{0!~", b"\x1bN", b"\n\x1b$)C\x0e0!"):
                hostile = repeated(kind)
                for errors in ("replace", "ignore", "test.marked"):
                    self.measured(len(hostile), (name, kind, errors), lambda: self.decoded(hostile, name, errors))

    def test_surrogateescape(self) -> None:
        for name in ("UTF-8", "US-ASCII", "CP1253", "EUC-KR"):
            data = repeated(b"a\xff\xfe")
            self.client.decode(b"a", name)
            self.measured(len(data), name, lambda: self.client.decode(data, name, "surrogateescape"))
            text = self.client.decode(data, name, "surrogateescape")
            self.client.encode("a", name)
            size = len(text.encode("utf-8", "surrogatepass"))
            self.measured(size, name, lambda: self.client.encode(text, name, "surrogateescape"))
            self.assertEqual(self.client.encode(text, name, "surrogateescape"), data, name)


if __name__ == "__main__":
    unittest.main()
