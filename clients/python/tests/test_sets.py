"""Encodings with escapes and shifts, beside CPython's codecs: bytes, characters, positions, reasons and states."""

from __future__ import annotations

import codecs
import io
import random
import unittest
from typing import Callable, List, Tuple

from support import SERVER, outcome

import iconvd

#: The encodings that CPython has too.
NAMES = ["iso2022_jp", "iso2022_jp_1", "iso2022_jp_2", "iso2022_jp_3", "iso2022_jp_2004", "iso2022_jp_ext", "iso2022_kr", "hz"]
PIECES = [
    b"\x1b$B", b"\x1b$@", b"\x1b(B", b"\x1b(J", b"\x1b(I", b"\x1b$(D", b"\x1b$(C", b"\x1b$A", b"\x1b$(A", b"\x1b$)C",
    b"\x1b.A", b"\x1b.F", b"\x1bN", b"\x1b&@\x1b$B", b"\x1b$", b"\x1b(", b"\x1b", b"\x1b[0m", b"\x1b((((((((((((((((",
    b"\x1b)J", b"\x1b(A", b"\x1b(((\x1b$B", b"&@", b"\x0e", b"\x0f", b"\n", b"\t", b"\0", b" ", b"\x7f", b"~{", b"~}",
    b"~~", b"~\n", b"~", b"a", b"Zz", b"0!", b"F|K\\", b"\"7", b"\"h", b"\"f", b"5Y", b"+1", b"\x1b$(O", b"\x1b$(P",
    b"\x1b$(Q", b"$w", b"+D", b"}{;", b"\x7e\x7e", b"\xff", b"\x80\xa1", b"$", b"*", b"!", b"\\", b"@", b"1", b"x",
]  # fmt: skip
#: CPython's decoders of pieces hold at most eight bytes, and raise this without a position for a longer escape.
TOO_LONG: List[object] = ["UnicodeError", None, None, None, None]
#: CPython's sets of JIS X 0213 have codes of two characters, which the encoders of Debian 12's version do not write.
PAIRED = ("iso2022_jp_3", "iso2022_jp_2004")
WRITES_PAIRS = outcome(lambda: codecs.encode("か\u309a", "iso2022_jp_3"))[0] == "gives"
CHARACTERS = "aZ~\\\n\t\0\x1b\x0e¥‾ｱﾟ日本語〜～−é丂ｶ가힣똠啊囧Αж€①かか\u309aæ\u0300æ˩˥˩ㇷ゚鬜⦅俱🀀\U00020b9f\x80\xa0\u378f\ue000\U00020001\ud800\udcff"


def marked(error: UnicodeError) -> Tuple[str, int]:
    """A handler that gives what every set has, and skips a byte or a character."""
    assert isinstance(error, (UnicodeDecodeError, UnicodeEncodeError))
    return f"<{error.start}>", min(error.start + 1, len(error.object))


def putting_in(error: UnicodeError) -> Tuple[str, int]:
    """A handler that gives a character of another set."""
    assert isinstance(error, (UnicodeDecodeError, UnicodeEncodeError))
    return "日¥", error.end


def damaged(error: UnicodeError) -> Tuple[str, int]:
    """A handler that gives what no set has."""
    assert isinstance(error, (UnicodeDecodeError, UnicodeEncodeError))
    return "a\ud800", error.end


ERRORS = "strict ignore replace backslashreplace xmlcharrefreplace surrogateescape sets.marked sets.putting sets.damaged".split()


def setUpModule() -> None:
    codecs.register_error("sets.marked", marked)
    codecs.register_error("sets.putting", putting_in)
    codecs.register_error("sets.damaged", damaged)


class Sets(unittest.TestCase):
    def setUp(self) -> None:
        client = iconvd.Client(SERVER, timeout=60)
        before = iconvd.default()
        iconvd.use(client)
        iconvd.register()
        self.addCleanup(client.close)
        self.addCleanup(iconvd.use, before)
        self.chance = random.Random(61)

    def data(self) -> bytes:
        return b"".join(self.chance.choice(PIECES) for _ in range(self.chance.randrange(9)))

    def text(self, name: str, errors: str) -> str:
        """Random characters, without those that CPython's codecs lose: U+0000 after a character that may have one code together with the
        next one, and in HZ the second tilde where a buffer ends, which may be after what a handler gave."""
        text = "".join(self.chance.choice(CHARACTERS) for _ in range(self.chance.randrange(9)))
        if name == "hz" and errors not in ("strict", "ignore", "replace"):
            return text.replace("~", "")
        if name not in PAIRED:
            return text
        return "".join(each for each in text if each not in "\0" + ("" if WRITES_PAIRS else "かæ˩˥ㇷ"))

    def same(self, name: str, call: Callable[[str], object], label: object) -> None:
        wanted = outcome(lambda: call(name))
        if not (isinstance(wanted[1], list) and TOO_LONG in wanted[1]):
            self.assertEqual(outcome(lambda: call("iconvd-" + name.replace("_", "-"))), wanted, (name, label))

    def test_decoding(self) -> None:
        for name in NAMES:
            for _ in range(1500):
                data, errors = self.data(), self.chance.choice(ERRORS)
                if is_faulty_in_cpython(data):
                    continue
                self.same(name, lambda codec: codecs.lookup(codec).decode(data, errors), (data, errors))

    def test_encoding(self) -> None:
        for name in NAMES:
            for _ in range(1000):
                errors = self.chance.choice(ERRORS)
                text = self.text(name, errors)
                self.same(name, lambda codec: codecs.lookup(codec).encode(text, errors), (text, errors))


    def test_all_pairs(self) -> None:
        """Each two bytes while each set is in use."""
        every = [bytes((first, second)) for first in range(0x82) for second in range(0x82)]
        for name in NAMES:
            mine, theirs = codecs.lookup("iconvd-" + name.replace("_", "-")), codecs.lookup(name)
            for before in (b"", b"~{", b"\x1b$)C\x0e", *DESIGNATED):
                if before and outcome(lambda: theirs.decode(before)) != ["gives", ("", len(before))]:
                    continue
                text = b"".join(before + pair + b"\x1b(B\x0f~}\n" for pair in every)
                self.assertEqual(mine.decode(text, "replace"), theirs.decode(text, "replace"), (name, before))

    def test_all_characters(self) -> None:
        for name in NAMES:
            mine, theirs = codecs.lookup("iconvd-" + name.replace("_", "-")), codecs.lookup(name)
            text = "".join(map(chr, range(0x30000)))
            for each in (text, "\n".join(text)):
                self.assertEqual(mine.encode(each, "ignore"), theirs.encode(each, "ignore"), name)

    def test_codes_of_two_characters(self) -> None:
        """A first character alone, in pairs, and at the end of a piece."""
        for text, data in (
            ("か\u309aか", b"\x1b$(O$w\x1b$B$+\x1b(B"),
            ("æ\u0300\u0300æ", b"\x1b$(O+D+\\)\\\x1b(B"),
            ("ææ\u0300", b"\x1b$(O)\\+D\x1b(B"),
            ("˩˥˩", b"\x1b$(O+e+d\x1b(B"),
            ("ㇷ\u309aa", b"\x1b$(O&x\x1b(Ba"),
        ):
            self.assertEqual(text.encode("iconvd-iso2022-jp-3"), data, text)
            self.assertEqual(text.encode("iconvd-iso2022-jp-2004"), data.replace(b"(O", b"(Q"), text)
            self.assertEqual(data.decode("iconvd-iso2022-jp-3"), text)
            encoder = codecs.getincrementalencoder("iconvd-iso2022-jp-3")()
            self.assertEqual(b"".join(encoder.encode(each) for each in text) + encoder.encode("", True), data, text)
            # A handler that goes on at the end of the piece leaves nothing to hold.
            codecs.register_error("sets.end", lambda error: ("", len(getattr(error, "object"))))
            encoder = codecs.getincrementalencoder("iconvd-iso2022-jp-3")("sets.end")
            self.assertEqual(encoder.encode("\ud800æ") + encoder.encode("\u0300", True), b"\x1b$(O+\\\x1b(B")
            file = io.BytesIO()
            writer = codecs.getwriter("iconvd-iso2022-jp-3")(file)
            for each in text:
                writer.write(each)
            writer.reset()
            self.assertEqual(file.getvalue().removesuffix(b"\x1b(B"), data.removesuffix(b"\x1b(B"), text)

    def test_decoding_in_pieces(self) -> None:
        for name in NAMES:
            for _ in range(700):
                data, errors = self.data() + self.data(), self.chance.choice(ERRORS)
                if is_faulty_in_cpython(data):
                    continue
                cuts = sorted(self.chance.randrange(len(data) + 1) for _ in range(4))
                pieces = [data[begin:end] for begin, end in zip([0, *cuts], [*cuts, len(data)])]
                kinds = [self.chance.choice("dddddfrs") for _ in pieces]
                ways = list(zip(pieces, kinds))
                self.same(name, lambda codec: decoded_in_pieces(codec, errors, ways), (ways, errors))

    def test_encoding_in_pieces(self) -> None:
        for name in NAMES:
            for _ in range(700):
                errors = self.chance.choice(ERRORS)
                ways = [(self.text(name, errors), self.chance.choice("eeeefrs")) for _ in range(5)]
                self.same(name, lambda codec: encoded_in_pieces(codec, errors, ways), (ways, errors))

    def test_streams(self) -> None:
        for name in NAMES:
            for _ in range(200):
                data, errors = self.data() + self.data(), self.chance.choice(("strict", "replace", "ignore", "sets.marked"))
                if is_faulty_in_cpython(data):
                    continue
                methods, sizes = ("read", "readline", "readlines"), (None, -1, 1, 2, 5, 9)
                asked = [(self.chance.choice(methods), self.chance.choice(sizes)) for _ in range(6)]
                self.same(name, lambda codec: read_in_pieces(codec, data, errors, asked), (data, errors, asked))
                lines = [self.text(name, errors) for _ in range(4)]
                self.same(name, lambda codec: written_in_pieces(codec, lines, errors), (lines, errors))


DESIGNATED = [piece for piece in PIECES if len(piece) > 2 and piece[:1] == b"\x1b" and 0x40 <= piece[-1] <= 0x5A]


def decoded_in_pieces(codec: str, errors: str, ways: List[Tuple[bytes, str]]) -> List[object]:
    """Decodes pieces, and notes each text or fault and the state after it. Some are the last one, and others come after a reset or in
    another decoder that goes on with the state."""
    decoder = codecs.getincrementaldecoder(codec)(errors)
    noted: List[object] = []
    for piece, kind in ways:
        if kind == "r":
            decoder.reset()
        if kind == "s":
            state = decoder.getstate()
            decoder = codecs.getincrementaldecoder(codec)(errors)
            decoder.setstate(state)
        noted += [outcome(lambda: decoder.decode(piece, kind == "f")), decoder.getstate()]
    return noted


def encoded_in_pieces(codec: str, errors: str, ways: List[Tuple[str, str]]) -> List[object]:
    """Encodes pieces as `decoded_in_pieces` decodes them."""
    encoder = codecs.getincrementalencoder(codec)(errors)
    noted: List[object] = []
    for piece, kind in ways:
        if kind == "r":
            encoder.reset()
        if kind == "s":
            state = encoder.getstate()
            encoder = codecs.getincrementalencoder(codec)(errors)
            encoder.setstate(state)
        noted += [outcome(lambda: encoder.encode(piece, kind == "f")), encoder.getstate()]
    return noted


def read_in_pieces(codec: str, data: bytes, errors: str, asked: List[Tuple[str, object]]) -> List[object]:
    """Reads a stream by several calls, and then the rest."""
    reader = codecs.getreader(codec)(io.BytesIO(data), errors)
    return [outcome(lambda: getattr(reader, method)(size)) for method, size in asked] + [outcome(reader.read)]


def written_in_pieces(codec: str, lines: List[str], errors: str) -> List[object]:
    """Writes lines, with a reset between them."""
    file = io.BytesIO()
    writer = codecs.getwriter(codec)(file, errors)
    noted: List[object] = []
    for line in lines:
        noted += [outcome(lambda: writer.write(line)), outcome(lambda: writer.writelines([line, "a"])), outcome(writer.reset)]
    return [*noted, file.getvalue()]


def is_faulty_in_cpython(data: bytes) -> bool:
    """Whether CPython's codec may raise a RuntimeError: after ESC N, if a set without single shifts is designated as G2."""
    return b"\x1bN" in data and b"\x1b." in data


if __name__ == "__main__":
    unittest.main()
