"""Encodings of which some codes are a letter and a mark each, beside CPython's codecs; and the plain tables of CP1255 and CP1258.

The texts have neither U+0000 nor characters above U+FFFF after a letter that a mark may follow. CPython 3.11 takes the lowest 16 bits
of what follows: of the encodings of JIS X 0213 it loses such a character if these are 0 or those of the mark.
"""

from __future__ import annotations

import asyncio
import codecs
import io
import os
import random
import unittest
from typing import Any, Callable, Iterator, List

from support import SERVER

import iconvd
from iconvd import joined
from iconvd.library import Library

_BIG5 = "a\u00ca\u00ea\u0304\u030c\u0304\u4e00\ufdd0\u20ac\u0301\u00e9\n"
_JAPANESE = "a\u304b\u309a\u304d\u309a\u309a\u30ab\u31f7\u00e6\u0300\u0301\u0254\u0259\u02e9\u02e5\u02e9\u4e00\ufdd0\u20ac\u00e9\u2014\\\n"
#: Characters of texts, by codec.
_LETTERS = {
    "big5hkscs": _BIG5,
    "euc_jisx0213": _JAPANESE,
    "euc_jis_2004": _JAPANESE,
    "shift_jisx0213": _JAPANESE,
    "shift_jis_2004": _JAPANESE,
}
_EUC = (b"a", b"\xa4\xf7", b"\xa4\xab", b"\xab\xc4", b"\xab\xe5", b"\xab\xe6", b"\x8e\xb1", b"\x8f\xa2\xaf", b"\x8f\xfd\xbb", b"\xae\xa1", b"\x8fa", b"\xffa", b"\x80", b"\xab")
_SHIFT_JIS = (b"a", b"\x82\xf5", b"\x82\xa9", b"\x86\x63", b"\x86\x85", b"\x86\x86", b"\xb1", b"\x81\x5f", b"\xfc\x5a", b"\x87\x9f", b"\x80a", b"\xffa", b"\x86", b"\xfc\xfb")
#: Codes, of which the last ones are none.
_CODES = {
    "big5hkscs": (b"a", b"\x88\x62", b"\x88\x64", b"\x88\xa3", b"\x88\xa5", b"\x88\x66", b"\xa1\xfe", b"\x87\x7a", b"\x80a", b"\xffa", b"\x80"),
    "euc_jisx0213": _EUC,
    "euc_jis_2004": _EUC,
    "shift_jisx0213": _SHIFT_JIS,
    "shift_jis_2004": _SHIFT_JIS,
}
_ERRORS = ("strict", "replace", "ignore", "backslashreplace", "test_joined")


def _told(call: Callable[[], Any]) -> Any:
    """Returns what a call returns, or what its exception says."""
    try:
        return call()
    except (UnicodeDecodeError, UnicodeEncodeError) as error:
        return error.object, error.start, error.end, error.reason


def _handle(error: UnicodeError) -> Any:
    """An error handler whose text may be the first half of a code."""
    assert isinstance(error, (UnicodeDecodeError, UnicodeEncodeError))
    return "\u304b" if isinstance(error, UnicodeEncodeError) and error.object[error.start] != "\u20ac" else "?", error.end


def _pieces(numbers: random.Random, whole: Any) -> Iterator[Any]:
    """Yields the pieces of a text, cut at random places."""
    cuts = sorted(numbers.randrange(len(whole) + 1) for _ in range(numbers.randrange(4)))
    return (whole[begin:end] for begin, end in zip([0, *cuts], [*cuts, len(whole)]))


class Joined(unittest.TestCase):
    @classmethod
    def setUpClass(cls) -> None:
        os.environ["ICONVD"] = SERVER
        iconvd.register()
        codecs.register_error("test_joined", _handle)

    def _text(self, numbers: random.Random, name: str) -> str:
        return "".join(numbers.choice(_LETTERS[name]) for _ in range(numbers.randrange(1, 12)))

    def _data(self, numbers: random.Random, name: str) -> bytes:
        return b"".join(numbers.choice(_CODES[name]) for _ in range(numbers.randrange(1, 9)))

    def _in_pieces(self, make: Callable[[str], Any], name: str, errors: str, pieces: List[Any]) -> List[Any]:
        """Returns what a coder says of each piece, and its state then."""
        coder = make(name)(errors)
        method = coder.encode if isinstance(pieces[0], str) else coder.decode
        last = len(pieces) - 1
        return [(_told(lambda: method(piece, number == last)), coder.getstate()) for number, piece in enumerate(pieces)]

    def test_encoding(self) -> None:
        for name in _LETTERS:
            numbers = random.Random(1)
            for _ in range(200):
                text, errors = self._text(numbers, name), numbers.choice((*_ERRORS, "xmlcharrefreplace"))
                theirs, ours = (_told(lambda: text.encode(each, errors)) for each in (name, "iconvd-" + name))
                self.assertEqual(theirs, ours, (name, text, errors))
                pieces = list(_pieces(numbers, text))
                both = [self._in_pieces(codecs.getincrementalencoder, each, errors, pieces) for each in (name, "iconvd-" + name)]
                self.assertEqual(both[0], both[1], (name, pieces, errors))

    def test_decoding(self) -> None:
        for name in _CODES:
            numbers = random.Random(2)
            for _ in range(200):
                data, errors = self._data(numbers, name), numbers.choice(_ERRORS)
                theirs, ours = (_told(lambda: data.decode(each, errors)) for each in (name, "iconvd-" + name))
                self.assertEqual(theirs, ours, (name, data, errors))
                pieces = list(_pieces(numbers, data))
                both = [self._in_pieces(codecs.getincrementaldecoder, each, errors, pieces) for each in (name, "iconvd-" + name)]
                self.assertEqual(both[0], both[1], (name, pieces, errors))

    def test_each_code(self) -> None:
        """Each pair is one code, whose halves are others. A second mark stands alone."""
        for name in _LETTERS:
            pairs = joined.pairs_of(Library().find(name))
            assert pairs is not None
            self.assertEqual(len(pairs.written), 4 if name == "big5hkscs" else 25)
            for letter, mark in pairs.written:
                for text in (letter + mark, letter, mark, letter + mark + mark, letter + letter + mark):
                    self.assertEqual(_told(lambda: text.encode(name)), _told(lambda: text.encode("iconvd-" + name)), (name, text))
                self.assertEqual((letter + mark).encode(name).decode("iconvd-" + name), letter + mark)

    def test_long(self) -> None:
        for name, pair, letter in (("big5hkscs", "\u00ca\u0304", "\u00ea"), ("euc_jis_2004", "\u304b\u309a", "\u304d")):
            text = (pair + "x" + letter) * 40_000
            for many in (text, text[1:], pair * 70_000):
                self.assertEqual(many.encode(name, "ignore"), many.encode("iconvd-" + name, "ignore"))
            self.assertEqual(text.encode("iconvd-" + name).decode("iconvd-" + name), text)

    def test_convert(self) -> None:
        """Bytes to bytes, by calls, by files, and by one stream for many tasks."""
        text = "\u304b\u309aa\u304b"
        for name, other in (("euc_jis_2004", "shift_jis_2004"), ("shift_jisx0213", "utf-16-le"), ("utf-8", "euc_jisx0213")):
            wanted = text.encode(other)
            self.assertEqual(iconvd.convert(text.encode(name), to=other, source=name), wanted)
            with iconvd.Client() as client, client.open(other, name) as conversion:
                pieces = [conversion.convert(bytes((byte,))) for byte in text.encode(name)]
                self.assertEqual(b"".join([*pieces, conversion.convert(b"", final=True)]), wanted)

        async def convert() -> bytes:
            async with iconvd.AsyncClient() as client:
                return await client.convert(text.encode(), to="euc_jis_2004", source="utf-8")

        self.assertEqual(asyncio.run(convert()), text.encode("euc_jis_2004"))

    def test_files(self) -> None:
        """A code is cut where a piece of a file ends."""
        text = "a" * 131_071 + "\u304b\u309a" * 3 + "\u304b"
        with iconvd.Client() as client:
            pieces = client.convert_file(io.BytesIO(text.encode("utf-16-le")), "euc_jis_2004", "utf-16-le")
            self.assertEqual(b"".join(pieces), text.encode("euc_jis_2004"))
        for name in _LETTERS:
            both = [io.BytesIO(), io.BytesIO()]
            for file, codec in zip(both, (name, "iconvd-" + name)):
                writer = codecs.getwriter(codec)(file)
                writer.writelines(["\u00ca", "\u0304\u00ca"] if name == "big5hkscs" else ["\u304b", "\u309a\u304b"])
                writer.reset()
            self.assertEqual(both[0].getvalue(), both[1].getvalue(), name)

    def test_handler_with_a_pair(self) -> None:
        """What an error handler returns is a text of its own."""
        codecs.register_error("test_joined.pair", lambda error: ("\u304b\u309a\u304b", error.end))
        for name in ("euc_jis_2004", "shift_jisx0213"):
            both = ["a\u0e01\u309ab".encode(each, "test_joined.pair") for each in (name, "iconvd-" + name)]
            self.assertEqual(both[0], both[1], name)

    def test_faults_of_cpython(self) -> None:
        """What CPython 3.11 loses is not lost."""
        for name, code in (("euc_jis_2004", b"\xa4\xab"), ("shift_jis_2004", b"\x82\xa9")):
            self.assertEqual("\u304b\0".encode("iconvd-" + name), code + b"\0")
            self.assertEqual("\u304b\U0002000b".encode("iconvd-" + name), code + "\U0002000b".encode(name))
            with self.assertRaises(UnicodeEncodeError):
                "\u304b\U0001309a".encode("iconvd-" + name)

    def test_plain(self) -> None:
        for name in ("cp1255", "cp1258"):
            self.assertEqual("a\u0301".encode("iconvd-" + name, "ignore"), "a\u0301".encode(name, "ignore"))
            self.assertEqual(b"e\xec\xf9\xd1\xcc".decode("iconvd-" + name), b"e\xec\xf9\xd1\xcc".decode(name))
        with self.assertRaises(LookupError):
            codecs.lookup("iconvd-tcvn")


if __name__ == "__main__":
    unittest.main()
