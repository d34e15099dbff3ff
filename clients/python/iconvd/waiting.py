"""What CPython's codecs of several bytes take for the beginning of a character at the end of a text.

They look at a byte only when they have as many as its character may need. So a byte from 80 on that begins no character is incomplete
at the end of a text, and a fault where another byte follows.
"""

from __future__ import annotations

from typing import Dict

from . import repairs
from .names import Encoding

_ANY = rb"[\x80-\xff]"
_EUC_JP = rb"\x8f.|" + _ANY
_SHIFT_JIS = rb"[\x81-\x9f\xe0-\xea]"
_LONGER_SHIFT_JIS = rb"[\x81-\x9f\xe0-\xfc]"

#: The patterns by the charmap's file, of all that CPython has a codec of several bytes for.
_PATTERNS: Dict[str, bytes] = {
    "BIG5": _ANY,
    "BIG5-HKSCS": _ANY,
    "CP949": _ANY,
    "EUC-JISX0213": _EUC_JP,
    "EUC-JP": _EUC_JP,
    "EUC-KR": rb"\xa4\xd4.{0,5}|" + _ANY,
    "GB18030": _ANY + rb"(?:[0-9].?)?",
    "GB2312": _ANY,
    "GBK": _ANY,
    "JOHAB": _ANY,
    "SHIFT_JIS": _SHIFT_JIS,
    "SHIFT_JISX0213": _LONGER_SHIFT_JIS,
    "WINDOWS-31J": _LONGER_SHIFT_JIS,
}


def pattern_of(encoding: Encoding) -> bytes:
    """Returns the pattern of what is incomplete, or nothing if CPython has no codec of several bytes for the encoding's charmap."""
    return _PATTERNS.get(repairs.of(encoding.name)[0], b"") if encoding.is_charmap else b""
