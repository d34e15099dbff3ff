"""Each character and each sequence of up to two bytes, by CPython's codecs of text and by ours of the same names."""

from __future__ import annotations

import codecs
import encodings
import os
import pkgutil
import unittest
from typing import Dict, Iterator, List, Tuple, Union

from support import SERVER

import iconvd
from iconvd import names

_NEAR = "most of its codes above 7F differ from each charmap of Debian"
#: Codecs that we lack, with the reason.
LEFT_OUT: Dict[str, str] = {"cp1006": _NEAR, "mac_arabic": _NEAR, "mac_farsi": _NEAR, "mac_greek": _NEAR}
#: Codecs that differ, with the reason.
EXCEPTIONS: Dict[str, str] = {
    "utf_7": "CPython has lone surrogates, and writes some characters as themselves that are optional",
}
#: CPython's codecs of text that are no encodings.
_NO_ENCODINGS = frozenset("idna punycode unicode_escape raw_unicode_escape undefined charmap mbcs oem".split())
_CHARACTERS = "".join(chr(point) for point in range(0x110000) if not 0xD800 <= point < 0xE000)
#: The planes 0 to 2. CPython's tables have no others.
_MOST = _CHARACTERS[: 0x30000 - 0x800]
#: Characters whose faults are compared one by one.
_SOME = _CHARACTERS[:0x3200] + _CHARACTERS[0x3200::61]
#: Encodings of Unicode, which need no charmap.
_WHOLE = ("utf", "gb18030")
#: The first bytes of codes of three and four bytes.
_LONG = {"euc_kr": b"\xa4", "euc_jp": b"\x8e\x8f", "euc_jisx0213": b"\x8e\x8f", "euc_jis_2004": b"\x8e\x8f", "gb18030": b"\x80\x81\x84\x8f\x90\xe3\xe4\xfe\xff"}
_Faults = List[Tuple[int, int, str]]


def codec_names() -> List[str]:
    """Returns CPython's codecs of text."""
    found = []
    for module in pkgutil.iter_modules(encodings.__path__):
        try:
            if codecs.lookup(module.name)._is_text_encoding and module.name not in _NO_ENCODINGS:  # type: ignore[attr-defined]
                found.append(module.name)
        except LookupError:
            continue
    return found


def _is_long(name: str) -> bool:
    """Whether an encoding has characters of several bytes."""
    return any(len(character.encode(name, "ignore")) > 1 for character in "\u3042\u4e00\uac00")


def _sequences(name: str) -> Iterator[bytes]:
    """Yields all sequences of up to two bytes, each with a line feed after it."""
    feed = "\n".encode(name)
    for first in range(256):
        yield bytes((first,)) + feed
    for first in range(256 if _is_long(name) else 0):
        for second in range(256):
            yield bytes((first, second)) + feed


class _Noting:
    """An error handler that notes what it is told."""

    def __init__(self) -> None:
        self.faults: _Faults = []
        codecs.register_error("test_tables", self._handle)

    def _handle(self, error: UnicodeError) -> Tuple[str, int]:
        assert isinstance(error, (UnicodeDecodeError, UnicodeEncodeError))
        self.faults.append((error.start, error.end, error.reason))
        return "?", error.end

    def told(self, text: Union[str, bytes], name: str) -> Tuple[Union[str, bytes], _Faults]:
        """Returns what a text is in or of an encoding, and the faults."""
        self.faults = []
        result = text.encode(name, "test_tables") if isinstance(text, str) else text.decode(name, "test_tables")
        return result, self.faults


def _end(data: bytes, name: str) -> object:
    """Returns what the end of a text is."""
    try:
        return data.decode(name)
    except UnicodeDecodeError as error:
        return error.start, error.end, error.reason


def _piece(data: bytes, name: str) -> object:
    """Returns what bytes are of which more may follow."""
    try:
        return codecs.getincrementaldecoder(name)("strict").decode(data)
    except UnicodeDecodeError as error:
        return error.start, error.end, error.reason


def _first(theirs: object, ours: object) -> str:
    """Returns the first items that differ."""
    if isinstance(theirs, tuple) and isinstance(ours, tuple):
        return next((_first(*both) for both in zip(theirs, ours) if both[0] != both[1]), "length")
    if isinstance(theirs, (str, bytes, list)) and isinstance(ours, (str, bytes, list)):
        at = next((at for at, both in enumerate(zip(theirs, ours)) if both[0] != both[1]), min(len(theirs), len(ours)))
        return ascii((at, theirs[at : at + 4], ours[at : at + 4]))
    return ascii((theirs, ours))


class Tables(unittest.TestCase):
    @classmethod
    def setUpClass(cls) -> None:
        os.environ["ICONVD"] = SERVER
        iconvd.register()

    def _differences(self, name: str) -> Iterator[str]:
        ours = "iconvd-" + name
        noting = _Noting()
        data = b"".join(_sequences(name))
        both = [noting.told(data, each) for each in (name, ours)]
        if both[0] != both[1]:
            yield "reading: " + _first(*both)
        for errors in ("backslashreplace", "replace", "ignore"):
            if data.decode(name, errors) != data.decode(ours, errors):
                yield "reading by " + errors
        ends = [bytes((byte,)) for byte in range(256)]
        ends += [bytes((first, second)) for first in _LONG.get(name, b"") for second in range(256)]
        for end in ends:
            for told in (_end, _piece):
                if told(end, name) != told(end, ours):
                    yield "reading an end: " + ascii((end, told(end, name), told(end, ours)))
        characters = _CHARACTERS if name.startswith(_WHOLE) else _MOST
        for begin in range(0, len(characters), 0x8000):
            text = characters[begin : begin + 0x8000]
            if text.encode(name, "xmlcharrefreplace") != text.encode(ours, "xmlcharrefreplace"):
                yield "writing from U+%04X" % ord(text[0])
        both = [noting.told(_SOME, each) for each in (name, ours)]
        if both[0] != both[1]:
            yield "writing: " + _first(*both)

    def test_equal(self) -> None:
        for name in codec_names():
            if name in LEFT_OUT:
                continue
            differences = list(self._differences(name))
            with self.subTest(name):
                self.assertEqual(bool(differences), name in EXCEPTIONS, differences[:3])

    def test_names(self) -> None:
        """Each codec of CPython has a name here, or a reason."""
        found = codec_names()
        self.assertEqual([name for name in found if not iconvd.supports(name)], sorted(LEFT_OUT))
        self.assertGreaterEqual(len(found) - len(LEFT_OUT), 101)

    def test_each_line(self) -> None:
        """Each line of repairs names a codec that CPython has, the C library's, or an encoding of its own."""
        path = os.path.join(os.path.dirname(iconvd.__file__), "data", "repairs.tsv")
        with open(path, encoding="utf-8") as file:
            rows = [line.rstrip("\n").split("\t") for line in file if not line.startswith("#")]
        for row in rows:
            self.assertEqual(len(row), 7, row)
            if row[1].isupper():
                self.assertEqual(names.find(row[1]).name, f"{row[0]}/{row[1]}", row)
            else:
                self.assertTrue(row[1] == "glibc" or codecs.lookup(row[1]), row)
            self.assertTrue(row[6], row)


if __name__ == "__main__":
    unittest.main()
