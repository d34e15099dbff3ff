"""Encoded words of mail headers (RFC 2047)."""

from __future__ import annotations

import base64
import binascii
import re
from typing import Callable, List, Optional, Union

from .together import Encoded

#: A word as Python's email package takes it: it is less strict than RFC 2047.
_WORD = re.compile(r"=\?([^?]*)\?([qQbB])\?([^?]*)\?=")
_ESCAPED = re.compile(rb"=([0-9A-Fa-f]{2})")


def _from_base64(data: bytes) -> bytes:
    """Returns the bytes of digits of base64, also of a damaged text, as Python's email package reads it."""
    try:
        return base64.b64decode(data + b"==="[: -len(data) % 4], validate=True)
    except binascii.Error:
        pass
    for padding in (b"", b"=="):
        try:
            return base64.b64decode(data + padding)
        except binascii.Error:
            continue
    return data


def _data(way: str, text: str) -> Optional[bytes]:
    """Returns the bytes of a word, or None if it has characters that are no bytes."""
    try:
        data = text.encode("ascii", "surrogateescape")
    except UnicodeEncodeError:
        return None
    if way in "bB":
        return _from_base64(data)
    return _ESCAPED.sub(lambda found: bytes((int(found[1], 16),)), data.replace(b"_", b" "))


def split(value: str, may_join: Callable[[str], bool]) -> List[Union[str, Encoded]]:
    """Returns the encoded words of a header, and what is between them. Words that follow each other and have the same charset are one if
    that `may_join`: a character may begin in one and end in the next."""
    pieces: List[Union[str, Encoded]] = []
    run: List[bytes] = []
    charset, at = "", 0
    for found in _WORD.finditer(value):
        data = _data(found[2], found[3])
        if data is None:
            continue
        between, own = value[at : found.start()], found[1].partition("*")[0].lower()
        if run and (own != charset or between.strip() or not may_join(own)):
            pieces.append(Encoded(charset, b"".join(run)))
            run = []
        if not run:
            pieces.append(between)
        run.append(data)
        charset, at = own, found.end()
    if run:
        pieces.append(Encoded(charset, b"".join(run)))
    return [*pieces, value[at:]]


def written(text: str) -> str:
    """Returns a text as an encoded word of UTF-8, however long it is."""
    return f"=?utf-8?b?{base64.b64encode(text.encode('utf-8', 'replace')).decode('ascii')}?="
