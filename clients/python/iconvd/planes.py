"""The characters of GB18030 above U+FFFF, whose codes of four bytes are computed.

No charmap has room for them. The server gets a placeholder for each, the code of U+FFFF, and the characters are put back into what it
wrote. U+FFFF itself is put back too, so the placeholder tells nothing else.
"""

from __future__ import annotations

import re
from typing import List, Match, NamedTuple, Optional

#: U+FFFF, by its code and in UTF-8.
_MARK = b"\x84\x31\xa4\x39"
_MARK_UTF_8 = "\uffff".encode("utf-8")
#: A code of four bytes, or what a decoder reads up to the next one, also after faults. A pattern keeps what it needs to go back for each
#: item of a repetition, so that has a limit.
_FOUR = rb"[\x81-\xfe][0-9][\x81-\xfe][0-9]"
_ITEMS = re.compile(rb"(?s)(%s)|(?:(?!%s)[\x81-\xfe].?|[^\x81-\xfe]+){1,4096}" % (_FOUR, _FOUR))
#: Bytes that look like a computed code, wherever characters begin.
_CODE = re.compile(rb"[\x90-\xe3][0-9][\x81-\xfe][0-9]")
#: The beginning of a computed code.
_BEGINNING = re.compile(rb"(?:[\x90-\xe2][0-9][\x81-\xfe]?|\xe3(?:[01][\x81-\xfe]?|2[\x81-\x9a]?))\Z")
_WIDE = re.compile(rb"[\xf0-\xf4][\x80-\xbf]{3}|\xef\xbf\xbf")
_ROWS = 126
_FIRST = 0x10000


def character_of(code: bytes) -> Optional[str]:
    """Returns the character of four bytes, or None if it is not computed."""
    number = (((code[0] - 0x90) * 10 + code[1] - 0x30) * _ROWS + code[2] - 0x81) * 10 + code[3] - 0x30
    return chr(_FIRST + number) if 0 <= number <= 0xFFFFF else None


def code_of(character: str) -> bytes:
    """Returns the four bytes of a character."""
    number, last = divmod(ord(character) - _FIRST, 10)
    number, third = divmod(number, _ROWS)
    first, second = divmod(number, 10)
    return bytes((0x90 + first, 0x30 + second, 0x81 + third, 0x30 + last))


def may_be_in(data: bytes) -> bool:
    """Whether bytes may have a computed code."""
    return _CODE.search(data) is not None


def may_begin(rest: bytes) -> bool:
    """Whether the end of a text may be the beginning of a computed code."""
    return _BEGINNING.match(rest) is not None


class Marked(NamedTuple):
    """A text with placeholders, and what is meant by each, in the target's bytes."""

    data: bytes
    meant: List[bytes]


def marked_codes(data: bytes) -> Marked:
    """Puts placeholders of as many bytes into GB18030. What is meant is in UTF-8."""
    meant: List[bytes] = []

    def marked(found: Match[bytes]) -> bytes:
        code = found[1]
        character = None if code is None else "\uffff" if code == _MARK else character_of(code)
        if character is None:
            return found[0]
        meant.append(character.encode("utf-8"))
        return _MARK

    return Marked(_ITEMS.sub(marked, data), meant)


def characters_put_back(output: bytes, meant: List[bytes]) -> bytes:
    """Puts what is meant into UTF-8 that the server wrote for the beginning of a text."""
    pieces = output.split(_MARK_UTF_8)
    return b"".join(each for pair in zip(pieces, [*meant[: len(pieces) - 1], b""]) for each in pair)


def marked_characters(data: bytes) -> Marked:
    """Puts placeholders into UTF-8. What is meant is in GB18030. The placeholder of a computed character has one byte less."""
    meant: List[bytes] = []

    def marked(found: Match[bytes]) -> bytes:
        try:
            character = found[0].decode("utf-8")
        except UnicodeDecodeError:
            return found[0]
        meant.append(_MARK if character == "\uffff" else code_of(character))
        return _MARK_UTF_8

    return Marked(_WIDE.sub(marked, data), meant)


class PutBack(NamedTuple):
    """Codes that were put back, and by how many bytes the text for them was longer than its placeholders."""

    output: bytes
    longer: int


def codes_put_back(output: bytes, meant: List[bytes]) -> PutBack:
    """Puts what is meant into GB18030 that the server wrote for the beginning of a text."""
    codes = iter(meant)
    used: List[bytes] = []

    def put_back(found: Match[bytes]) -> bytes:
        if found[1] != _MARK:
            return found[0]
        used.append(next(codes))
        return used[-1]

    return PutBack(_ITEMS.sub(put_back, output), sum(code != _MARK for code in used))
