"""Codes that are a letter and a mark each: in BIG5-HKSCS, and in the encodings of JIS X 0213 without escapes.

No charmap can say so. The table of repairs gives their bytes to characters that no text has, which stand for the pairs;
`clients/names/composing.py` says which.
"""

from __future__ import annotations

import functools
import re
from typing import Container, Dict, FrozenSet, Iterator, NamedTuple, Optional, Pattern

from . import repairs
from .names import Encoding
from .tables import read_rows

_KIND = "pairs"
#: The most bytes that CPython's coders hold.
MAX_HELD = 8


class Joined(NamedTuple):
    """The pairs of one encoding."""

    #: The pair for each character that stands for one, and the pattern of these.
    read: Dict[str, str]
    standing: Pattern[str]
    #: The bytes of each pair.
    written: Dict[str, bytes]
    #: Any pair.
    pattern: Pattern[str]
    #: The letters that a mark may follow.
    letters: FrozenSet[str]

    def held(self, text: str) -> int:
        """Returns how many characters at the end of a text may have a code together with the next one: none or the last one, unless
        it has one together with that before it."""
        return held(text, self.letters, self.written)

    def restored(self, text: str) -> str:
        """Returns a text with the pairs in the places of what stands for them."""
        return self.standing.sub(lambda found: self.read[found[0]], text)

    def parts(self, text: str) -> Iterator[str]:
        """Yields the pairs of a text, and what is between them."""
        at = 0
        for found in self.pattern.finditer(text):
            yield text[at : found.start()]
            yield found[0]
            at = found.end()
        yield text[at:]


def held(text: str, letters: Container[str], pairs: Container[str]) -> int:
    """See Joined.held. A letter of a pair may be the mark of another one."""
    at = len(text)
    while at and text[at - 1] in letters:
        at -= 1
    while len(text) - at > 1:
        at += 2 if text[at : at + 2] in pairs else 1
    return len(text) - at


def number_of(held: str) -> int:
    """Returns the number by which CPython's encoders tell a held character: how many bytes it has in UTF-8, and these bytes."""
    data = held.encode("utf-8")
    return int.from_bytes(data, "little") << 8 | len(data)


def held_of(number: int) -> str:
    """Returns the held character of such a number, of which only the lowest bytes are looked at. Raises UnicodeError."""
    size = number & 0xFF
    if size > MAX_HELD:
        raise UnicodeError("more bytes are held than a character has")
    return (number >> 8 & (1 << 8 * size) - 1).to_bytes(size, "little").decode("utf-8")


@functools.lru_cache(maxsize=None)
def _tables() -> Dict[str, Dict[str, str]]:
    """Returns the pairs by the charmap's file."""
    rows = read_rows("composing.tsv")
    found: Dict[str, Dict[str, str]] = {row[0]: {} for row in rows if row[4] == _KIND}
    for charmap, point, letter, mark, kind in rows:
        if charmap in found and kind != _KIND:
            found[charmap][chr(int(point, 16))] = chr(int(letter, 16)) + chr(int(mark, 16))
    return found


@functools.lru_cache(maxsize=None)
def pairs_of(encoding: Encoding) -> Optional[Joined]:
    """Returns the pairs of an encoding, if it has any."""
    file, repaired = repairs.of(encoding.name)
    read = _tables().get(file) if encoding.is_charmap else None
    if not read or repaired is None:
        return None
    written = {read[chr(each.point)]: each.code for each in [*repaired.both, *repaired.read] if chr(each.point) in read}
    standing = re.compile(f"[{''.join(read)}]")
    return Joined(read, standing, written, re.compile("|".join(map(re.escape, written))), frozenset(pair[0] for pair in written))
