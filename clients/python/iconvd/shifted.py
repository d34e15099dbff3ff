"""The form of UTF-7: characters as themselves, and shifted sequences of base64 digits (RFC 2152)."""

from __future__ import annotations

import base64
import re
from typing import List, NamedTuple, Optional, Tuple

from .forms import Form, Found

#: Bytes that are themselves, except the tab, which is the separator; and `+-`.
_DIRECT = re.compile(rb"(?:[A-Za-z0-9'(),\-./:?!\"#$%&*;<=>@\[\]^_`{|} \r\n]+|\+-)*")
_SHIFTED = re.compile(rb"\+([A-Za-z0-9+/]*)")
#: All characters between two that are written as themselves.
_SHIFTED_RUN = re.compile("[^A-Za-z0-9'(),\\-./:? \t\r\n]+")
_OPEN = re.compile(rb"\+[A-Za-z0-9+/]*\Z")
_SURROGATE = re.compile("[\ud800-\udfff]")
_LONG = 65_536
_ILL_FORMED = "ill-formed sequence"


def open_at(data: bytes) -> int:
    """Returns the place of a shifted sequence that is still open at the end of the text, or the length of the text."""
    found = _OPEN.search(data)
    return found.start() if found else len(data)


class _Sequence(NamedTuple):
    """The meaning of the digits of a shifted sequence."""

    text: str
    reason: str


def _read(digits: bytes) -> _Sequence:
    """Reads digits up to the first fault."""
    bits = 6 * len(digits)
    left = bits % 16
    whole = base64.b64decode(digits + b"A" * (-len(digits) % 4))
    units, rest = whole[: bits // 16 * 2], whole[bits // 16 * 2 :]
    text = units.decode("utf-16-be", "surrogatepass")
    bits_over = int.from_bytes(rest, "big") >> (8 * len(rest) - left)
    if bits_over and "\ud800" <= text[-1:] <= "\udbff":
        text = text[:-1]
    lone = _SURROGATE.search(text)
    if lone:
        return _Sequence(text[: lone.start()], _ILL_FORMED)
    if bits_over:
        return _Sequence(text, "partial character in shift sequence" if left >= 6 else "non-zero padding bits in shift sequence")
    return _Sequence(text, "")


class Utf7Form(Form):
    """The form of UTF-7. A shifted sequence with a fault is read here up to the fault."""

    runs = _SHIFTED_RUN

    def __init__(self) -> None:
        super().__init__(b"\t", "\t", False)

    def find(self, data: bytes, at: int, end: int) -> Found:
        good: List[bytes] = []
        begin = at
        while True:
            found = _DIRECT.match(data, at, end)
            assert found is not None, "it matches the empty text"
            good.append(found[0])
            at = found.end()
            if at == end or at - begin > _LONG:
                return Found(b"".join(good), at, at)
            shifted = _SHIFTED.match(data, at, end)
            item = self._sequence(data, shifted[1], shifted.span(), end) if shifted else self._single(data, at)
            if item.reason or item.text or item.is_cut:
                return item._replace(good=b"".join(good))
            good.append(data[at : item.end])
            at = item.end

    @staticmethod
    def _single(data: bytes, at: int) -> Found:
        if data[at] == ord("\t"):
            return Found(b"", at, at + 1, text="\t")
        return Found(b"", at, at + 1, "unexpected special character")

    @staticmethod
    def _sequence(data: bytes, digits: bytes, span: Tuple[int, int], end: int) -> Found:
        """Returns a shifted sequence: with its text if it has a fault or the mark, without it if the server can read it."""
        at, stop = span
        is_open = stop == end
        if not digits and not is_open:
            return Found(b"", at, stop + 1, _ILL_FORMED)
        text, reason = _read(digits)
        ends = stop + 1 if stop < end and data[stop] == ord("-") else stop
        if is_open:
            return Found(b"", at, end, reason and "unterminated shift sequence", text, True)
        if reason:
            return Found(b"", at, ends if reason == _ILL_FORMED else stop + 1, reason, text)
        return Found(b"", at, ends, text=text if "\t" in text else "")

    def find_all(self, data: bytes, at: int, end: int) -> Optional[Tuple[List[bytes], List[bytes]]]:
        return None

    def split(self, data: bytes, count: int) -> List[bytes]:
        return data.split(self.separator)

    def is_cut(self, item: bytes) -> bool:
        return False

    def reason(self, item: bytes, is_cut: bool) -> str:
        return "illegal sequence"
