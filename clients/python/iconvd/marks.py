"""The marks at the beginning of texts in UTF-16, UTF-32 and UTF-8-SIG, which the client writes and reads itself."""

from __future__ import annotations

import codecs
import sys
from typing import Dict, NamedTuple, Tuple

from .errors import UnknownEncoding
from .names import REPLACEMENT, UTF_8_SIG, Encoding, is_replaced

_ENDS = ("LE", "BE") if sys.byteorder == "little" else ("BE", "LE")


class Marked(NamedTuple):
    """The encodings of what follows the mark, each with its mark. The first is written."""

    encodings: Tuple[Encoding, ...]
    marks: Tuple[bytes, ...]
    #: Whether CPython's streams refuse a text without a mark.
    is_needed: bool


def _ordered(name: str, little: bytes, big: bytes) -> Marked:
    marks = {"LE": little, "BE": big}
    return Marked(tuple(Encoding(False, name + end) for end in _ENDS), tuple(marks[end] for end in _ENDS), True)


_MARKED: Dict[Encoding, Marked] = {
    Encoding(False, "UTF-16"): _ordered("UTF-16", codecs.BOM_UTF16_LE, codecs.BOM_UTF16_BE),
    Encoding(False, "UTF-32"): _ordered("UTF-32", codecs.BOM_UTF32_LE, codecs.BOM_UTF32_BE),
    Encoding(False, UTF_8_SIG): Marked((Encoding(False, "UTF-8"),), (codecs.BOM_UTF8,), False),
}


def without_mark(encoding: Encoding, data: bytes) -> Tuple[Encoding, int]:
    """Returns the encoding of what follows the mark, and the size of the mark. Without a mark UTF-16 and UTF-32 have the machine's
    order."""
    marked = _MARKED.get(encoding)
    if marked is None:
        return encoding, 0
    for ordered, mark in zip(marked.encodings, marked.marks):
        if data.startswith(mark):
            return ordered, len(mark)
    return marked.encodings[0], 0


def mark_of(encoding: Encoding) -> Tuple[Encoding, bytes]:
    """Returns the encoding of what follows the mark, and the mark that is written. Raises UnknownEncoding for an encoding that is only
    read."""
    if is_replaced(encoding):
        if encoding.name != REPLACEMENT:
            raise UnknownEncoding(encoding.name)
        return Encoding(False, "UTF-8"), b""
    marked = _MARKED.get(encoding)
    return (encoding, b"") if marked is None else (marked.encodings[0], marked.marks[0])


def waits(encoding: Encoding, data: bytes) -> bool:
    """Whether more bytes decide if a text begins with a mark."""
    marked = _MARKED.get(encoding)
    if marked is None or len(data) >= len(marked.marks[0]):
        return False
    return marked.is_needed or marked.marks[0].startswith(data)


def is_needed(encoding: Encoding) -> bool:
    """Whether CPython's streams refuse a text without a mark."""
    marked = _MARKED.get(encoding)
    return marked is not None and marked.is_needed


def state_of(encoding: Encoding, found: Encoding) -> int:
    """Returns a number for the encoding that the mark of a text said: 1 for UTF-8 and for the lowest byte first, 2 for the highest, and 0
    if the encoding has no mark."""
    marked = _MARKED.get(encoding)
    if marked is None or found not in marked.encodings:
        return 0
    return 2 if found.name.endswith("BE") else 1


def encoding_of(encoding: Encoding, state: int) -> Encoding:
    """Returns the encoding that such a number means: the one that has the mark if it means none."""
    marked = _MARKED.get(encoding)
    found = [each for each in marked.encodings if state_of(encoding, each) == state] if marked else []
    return found[0] if found else encoding
