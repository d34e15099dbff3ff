"""Finds all faults of a piece of text at once, in an encoding of one or more bytes a character.

No byte is examined by itself. A translation gives each byte its classes as bits, the pieces of text become long numbers, and a
few operations on these find where a character of each length can begin. So it takes the same time for any text.
"""

from __future__ import annotations

from itertools import compress
from typing import Container, Iterable, List, Mapping, NamedTuple, Optional, Pattern, Sequence, Tuple

#: For each place in a character, the possible bytes, as bits. All combinations of these are characters.
Box = Tuple[int, ...]
_ALL = (1 << 256) - 1


class Faults(NamedTuple):
    """The faults of a text, as numbers with a byte of 255 for each byte."""

    #: Bytes that are in no character.
    bytes: int
    #: Those of them that continue a fault.
    following: int
    #: The separators that are characters.
    separators: int
    #: Where the text is cut within a character, or its length.
    tail: int

    def cut_short(self) -> Faults:
        """Returns the faults of the text without its tail."""
        whole = (1 << 8 * self.tail) - 1
        return Faults(self.bytes & whole, self.following & whole, self.separators & whole, self.tail)


def table(some: int) -> bytes:
    """Returns a translation of some bytes to 255, and of all others to 0."""
    return bytes(255 if some >> byte & 1 else 0 for byte in range(256))


class Strings(NamedTuple):
    """The strings of a charmap."""

    #: The last bytes, as bits, by the bytes before them.
    last: Mapping[bytes, int]
    #: The proper prefixes of the bytes before them.
    shorter: Container[bytes]
    #: What is the beginning of a character at the end of a text, though no string begins so.
    waiting: Optional[Pattern[bytes]] = None


def bits(first: int, last: int) -> int:
    """Returns the bytes from the first to the last, as bits."""
    return ((1 << (last - first + 1)) - 1) << first


def number(data: bytes) -> int:
    """Returns a text as a number, whose lowest byte is the first."""
    return int.from_bytes(data, "little")


_IS = [table(1 << length) for length in range(9)]
_ANY = bytes(1) + b"\xff" * 255


class _Plane:
    """Up to eight boxes, a bit for each."""

    def __init__(self, boxes: Sequence[Box]) -> None:
        longest = max(map(len, boxes))
        #: For the first byte of a character, the second and so on: the boxes that allow each byte there.
        self.tables = [
            bytes(sum(1 << n for n, box in enumerate(boxes) if at < len(box) and box[at] >> byte & 1) for byte in range(256))
            for at in range(longest)
        ]
        #: For boxes that match a number of bytes: the lengths of those that match to their end.
        self.lengths = []
        for size in range(1, longest + 1):
            ending = sum(1 << place for place, box in enumerate(boxes) if len(box) == size)
            self.lengths.append(bytes(size if some & ending else 0 for some in range(256)))

    def beginnings(self, data: bytes) -> List[bytes]:
        """Returns where two bytes match, where three do, and so on."""
        found = number(data.translate(self.tables[0]))
        matching = []
        for at in range(1, len(self.tables)):
            found &= number(data[at:].translate(self.tables[at]))
            matching.append(found.to_bytes(len(data), "little"))
        return matching


def _planes(boxes: Iterable[Box]) -> List[_Plane]:
    by_length = sorted(boxes, key=len)
    return [_Plane(by_length[at : at + 8]) for at in range(0, len(by_length), 8)]


def union(bits: Iterable[int]) -> int:
    """Returns the bytes that are in any of several numbers, as bits."""
    united = 0
    for each in bits:
        united |= each
    return united


def _has_own_leads(boxes: Sequence[Box]) -> bool:
    """Whether a character of more than two bytes can't begin within another."""
    leads = union(box[0] for box in boxes if len(box) > 2)
    return not leads & union(bits for box in boxes for bits in box[1:])


def _has_digits(boxes: Sequence[Box]) -> bool:
    """Whether characters have two bytes, or four of which the second and the last occur in no other place, as in GB18030."""
    fours = [box for box in boxes if len(box) == 4]
    digits = union(box[1] | box[3] for box in fours)
    others = union(bits for box in boxes if len(box) == 2 for bits in box) | union(box[0] | box[2] for box in fours)
    return {len(box) for box in boxes} <= {2, 4} and not digits & others


class Scanner:
    """Finds the faults of texts of one encoding."""

    def __init__(self, single: int, boxes: Sequence[Box], separator: int, strings: Optional[Strings]) -> None:
        """`single` has the bytes that are a character by themselves. With `strings`, boxes of three or more bytes also allow
        other strings, and each byte of an incomplete character is a fault. Without, these bytes are one fault together, as in
        CPython's UTF-8."""
        used = single | union(bits for box in boxes for bits in box)
        self._single = table(single)
        self._is_separator = table(1 << separator)
        self._separator = bytes((separator,))
        self._planes = _planes(boxes)
        self._longest = max((len(box) for box in boxes), default=1)
        self._has_own_leads = _has_own_leads(boxes)
        self._boxes = boxes
        self._strings = strings
        # A byte that is a character, but not the separator; and one that no character has.
        self._filler = _first(single & ~(1 << separator))
        self._spare = _first(_ALL & ~used)

    @staticmethod
    def of(single: int, boxes: Sequence[Box], separator: bytes, strings: Optional[Strings] = None) -> Optional[Scanner]:
        """Returns a scanner, or None for an encoding whose texts have to be read byte by byte."""
        is_able = _has_own_leads(boxes) or _has_digits(boxes)
        others = single & ~(1 << separator[0])
        return Scanner(single, boxes, separator[0], strings) if is_able and len(separator) == 1 and others else None

    def faults(self, data: bytes) -> Faults:
        """Returns the faults of a text."""
        size = len(data)
        begins, groups = self._begins(data)
        covered = 0
        for length in range(2, self._longest + 1):
            at = number(begins.translate(_IS[length]))
            for place in range(length if at else 0):
                covered |= at << 8 * place
        full = (1 << 8 * size) - 1
        bad = full & ~(covered | number(data.translate(self._single)))
        following = 0
        for place, group in enumerate(groups):
            at = number(group.translate(_ANY)) & bad
            following |= union(at << 8 * (1 + step) for step in range(place + 1))
        separators = number(data.translate(self._is_separator)) & ~covered
        return Faults(bad, following & bad, separators, self._tail(data, bad))

    def _begins(self, data: bytes) -> Tuple[bytes, List[bytes]]:
        """Returns the lengths of the characters, each at its beginning; and the places of two or three bytes of a longer one."""
        found = 0
        size = len(data)
        groups = [0] * (self._longest - 2 if self._strings is None else 0)
        for plane in self._planes:
            for place, matching in enumerate(plane.beginnings(data)):
                length = place + 2
                whole = matching.translate(plane.lengths[length - 1])
                if self._strings is not None and length > 2:
                    whole = self._strings_at(data, whole, length, self._strings)
                elif self._strings is None and length < self._longest:
                    groups[place] |= number(matching)
                found |= number(whole)
        # A character of two bytes hides one that could begin at its second byte.
        begins = found.to_bytes(size, "little")
        if self._longest > 2 and self._has_own_leads:
            hidden = 0
            for length in range(3, self._longest + 1):
                at = number(begins.translate(_IS[length]))
                hidden |= union(at << 8 * place for place in range(1, length if at else 1))
            begins = (found & ~hidden & ((1 << 8 * size) - 1)).to_bytes(size, "little")
        begins = begins.replace(b"\2\2", b"\2\0")
        if not self._has_own_leads:
            begins = begins.replace(b"\2\4", b"\2\0").replace(b"\4\0\4", b"\4\0\0")
        return begins, [group.to_bytes(size, "little") for group in groups]

    @staticmethod
    def _strings_at(data: bytes, places: bytes, length: int, strings: Strings) -> bytes:
        """Returns those places at which there is a string."""
        found = bytearray(len(data))
        place = bytes((length,))
        at = places.find(place)
        while at >= 0:
            end = at + length - 1
            found[at] = length * (strings.last.get(data[at:end], 0) >> data[end] & 1)
            at = places.find(place, at + 1)
        return bytes(found)

    def _tail(self, data: bytes, bad: int) -> int:
        """Returns where the text is cut within a character, or its length."""
        for at in range(max(0, len(data) - self._longest + 1), len(data)):
            if bad >> 8 * at & 1 and self._is_beginning(data[at:]):
                return at
        return len(data)

    def _is_beginning(self, rest: bytes) -> bool:
        """Whether bytes are the beginning of a character."""
        if self._strings is not None:
            waiting = self._strings.waiting
            return rest in self._strings.last or rest in self._strings.shorter or (waiting is not None and waiting.fullmatch(rest) is not None)
        boxes = (box for box in self._boxes if len(box) > len(rest))
        return any(all(some >> byte & 1 for some, byte in zip(box, rest)) for box in boxes)

    # ---- texts made from a text and its faults

    def with_separators(self, data: bytes, places: int) -> bytes:
        """Returns a text with the separator in the place of some bytes."""
        return self._filled(data, places, self._separator)

    def without(self, data: bytes, places: int) -> bytes:
        """Returns a text without some bytes that are in no character."""
        if not places:
            return data
        if self._spare:
            return self._filled(data, places, self._spare).translate(None, self._spare)
        keep = (((1 << 8 * len(data)) - 1) & ~places).to_bytes(len(data), "little")
        return bytes(compress(data, keep))

    def only(self, data: bytes, places: int) -> bytes:
        """Returns only the faulty bytes and separators of a text."""
        if not places:
            return b""
        return self._filled(data, ((1 << 8 * len(data)) - 1) & ~places, self._filler).translate(None, self._filler)

    @staticmethod
    def _filled(data: bytes, places: int, byte: bytes) -> bytes:
        filled = number(data) & ~places | number(byte * len(data)) & places
        return filled.to_bytes(len(data), "little")


def _first(bits: int) -> bytes:
    """Returns the first of some bytes, or nothing."""
    return bytes(((bits & -bits).bit_length() - 1,)) if bits else b""
