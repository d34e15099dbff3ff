"""Texts in pieces, in encodings that have a charmap, beside CPython's codecs: what each piece gives, and the state after it."""

from __future__ import annotations

import codecs
import io
import os
import random
import unittest
from typing import Any, Callable, List, Tuple

from support import SERVER

import iconvd

_NAMES = (
    "big5 big5hkscs cp932 cp949 cp950 euc_jp euc_kr gb2312 gbk gb18030 johab shift_jis euc_jisx0213 euc_jis_2004 shift_jisx0213 "
    "shift_jis_2004 koi8_r cp1140 mac_romanian"
).split()
_CHARACTERS = "aZ\n\0あ一가뢨か\u309aæ\u0300ÊŠ§€ｱ\\~¥‾丂—\u0e01\U0001f600\ud800\udc80"
#: CPython's encoders of pairs lose U+0000 and others; see test_joined.py.
_WRITTEN = _CHARACTERS.replace("\0", "").replace("\U0001f600", "")
_ERRORS = ("strict", "replace", "ignore", "backslashreplace", "surrogateescape")
_ROUNDS = 120


def _told(call: Callable[[], Any]) -> Any:
    """Returns what a call returns, or what its exception says."""
    try:
        return call()
    except (UnicodeDecodeError, UnicodeEncodeError) as error:
        return error.object, error.start, error.end, error.reason


class Pieces(unittest.TestCase):
    @classmethod
    def setUpClass(cls) -> None:
        os.environ["ICONVD"] = SERVER
        iconvd.register()

    def setUp(self) -> None:
        self.numbers = random.Random(1)

    def _data(self, codes: List[bytes]) -> bytes:
        """Returns codes, single bytes, and codes that are cut."""
        kinds = [
            lambda: self.numbers.choice(codes),
            lambda: self.numbers.choice(codes),
            lambda: bytes((self.numbers.randrange(256),)),
            lambda: bytes((self.numbers.randrange(128, 256),)),
            lambda: self.numbers.choice(codes)[: self.numbers.randrange(8)],
        ]
        return b"".join(self.numbers.choice(kinds)() for _ in range(self.numbers.randrange(1, 8)))

    def _same(self, whole: Any, make: Callable[[str, str], Any], name: str, errors: str) -> None:
        """Compares what coders say of a text that is cut at random places."""
        cuts = sorted(self.numbers.randrange(len(whole) + 1) for _ in range(self.numbers.randrange(4)))
        pieces = [whole[begin:end] for begin, end in zip([0, *cuts], [*cuts, len(whole)])]
        found: List[List[Tuple[Any, Any]]] = []
        for codec in (name, "iconvd-" + name):
            coder = make(codec, errors)
            method = coder.encode if isinstance(whole, str) else coder.decode
            last = len(pieces) - 1
            found.append([(_told(lambda: method(piece, number == last)), coder.getstate()) for number, piece in enumerate(pieces)])
        self.assertEqual(found[0], found[1], (name, errors, pieces))

    def test_decoding(self) -> None:
        for name in _NAMES:
            codes = [code for code in (each.encode(name, "ignore") for each in _CHARACTERS) if code]
            for _ in range(_ROUNDS):
                data = self._data(codes)
                self._same(data, lambda codec, errors: codecs.getincrementaldecoder(codec)(errors), name, self.numbers.choice(_ERRORS))

    def test_encoding(self) -> None:
        for name in _NAMES:
            for _ in range(_ROUNDS):
                text = "".join(self.numbers.choice(_WRITTEN) for _ in range(self.numbers.randrange(1, 8)))
                errors = self.numbers.choice((*_ERRORS, "xmlcharrefreplace", "namereplace"))
                self._same(text, lambda codec, errors: codecs.getincrementalencoder(codec)(errors), name, errors)

    def test_files(self) -> None:
        """Files are read by bytes, by lines, and up to the end."""
        calls = [("read", -1), ("read", 0), ("read", 1), ("read", 3), ("readline", 2), ("readline", -1), ("readlines", -1), ("reset",)]
        for name in _NAMES:
            codes = [code for code in (each.encode(name, "ignore") for each in _CHARACTERS) if code]
            for _ in range(_ROUNDS // 2):
                data, errors = self._data(codes), self.numbers.choice(_ERRORS)
                some = [self.numbers.choice(calls) for _ in range(self.numbers.randrange(1, 6))]
                found = []
                for codec in (name, "iconvd-" + name):
                    reader = codecs.getreader(codec)(io.BytesIO(data), errors)
                    found.append([_told(lambda: getattr(reader, call[0])(*call[1:])) for call in some])
                self.assertEqual(found[0], found[1], (name, errors, data, some))


if __name__ == "__main__":
    unittest.main()
