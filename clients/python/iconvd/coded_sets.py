"""The coded character sets that encodings with escapes and shifts take their codes from.

The service converts each set under another encoding, such as JIS X 0208 under EUC-JP. A code differs from the code of that encoding
by arithmetic alone: the highest bits, a byte before it, or how Shift_JIS packs rows and cells. `clients/names` has the table.
"""

from __future__ import annotations

import functools
import re
from typing import Dict, Iterator, List, Mapping, NamedTuple, Optional, Set, Tuple

from . import mappings, names
from .mappings import Range
from .names import Encoding
from .tables import read_rows

_LOW = bytes(byte & 0x7F for byte in range(256))
_HIGH = bytes(byte | 0x80 for byte in range(256))
_ROWS = range(0x21, 0x7F)
#: The first bytes of Shift_JIS that no row of 94 has: IBM's characters, and those of the users.
_NO_ROW = 0xF0


class SetRow(NamedTuple):
    """A row of the table of sets."""

    name: str
    #: The encoding under which the service converts the set.
    encoding: Encoding
    #: How many bytes a code has.
    width: int
    #: What that encoding has before the code.
    before: bytes
    how: str
    #: Whether it has codes of two characters.
    composes: bool = False


class Exceptions(NamedTuple):
    """What CPython's codecs read and write otherwise than the charmap."""

    #: Codes with their character, or with nothing if they are not read.
    read: Dict[bytes, str]
    #: Characters with their code.
    written: Dict[str, bytes]


@functools.lru_cache(maxsize=None)
def rows() -> Dict[str, SetRow]:
    """Returns the sets by name."""
    found = {}
    for name, by, width, before, how, *_ in read_rows("shifted_sets.tsv"):
        found[name] = SetRow(name, names.find(by), int(width), bytes.fromhex(before.replace("-", "")), how)
    for name, file, width, before, how in read_rows("shifted_composing_sets.tsv"):
        found[name] = SetRow(name, Encoding(True, file), int(width), bytes.fromhex(before.replace("-", "")), how, True)
    return found


@functools.lru_cache(maxsize=None)
def _exceptions() -> Dict[str, Exceptions]:
    """Returns the exceptions by the name of the set."""
    found: Dict[str, Exceptions] = {}
    for name, digits, point, way, *_ in read_rows("shifted_codes.tsv"):
        of_set = found.setdefault(name, Exceptions({}, {}))
        code, character = bytes.fromhex(digits), "" if point == "-" else chr(int(point, 16))
        if way != "write":
            of_set.read[code] = character
        if way != "read":
            of_set.written[character] = code
    return found


@functools.lru_cache(maxsize=None)
def _packed() -> Dict[bytes, bytes]:
    """Returns the codes of Shift_JIS by those of 94 rows and cells."""
    found = {}
    for row in _ROWS:
        first = (row - 0x21) // 2 + (0x81 if row < 0x5F else 0xC1)
        for cell in _ROWS:
            second = cell + 0x7E if not row & 1 else cell + (0x1F if cell < 0x60 else 0x20)
            found[bytes((row, cell))] = bytes((first, second))
    return found


class CodedSet:
    """A coded character set: which codes and which characters it has, and how its codes become those of the other encoding."""

    def __init__(self, row: SetRow, ranges: List[Range], pairs: Mapping[bytes, str]) -> None:
        """`ranges` are the mappings of the other encoding, and `pairs` its codes of two characters."""
        self.row = row
        self.width = row.width
        exceptions = _exceptions().get(row.name, Exceptions({}, {}))
        own_pairs = {own: pair for own, pair in ((self._own(code), pair) for code, pair in pairs.items()) if own}
        #: Codes that the service does not read, or that CPython reads otherwise, with their characters.
        self.read = {**exceptions.read, **own_pairs}
        #: Such characters that are written, with their code.
        self.written = {**exceptions.written, **{pair: own for own, pair in own_pairs.items()}}
        #: Characters that the service has converted, with their codes. So short pieces of text cost no request.
        self.known: Dict[str, bytes] = {}
        self._unpacked: Dict[bytes, bytes] = {}
        self._codes: Dict[bytes, Set[int]] = {}
        #: The characters above ASCII.
        self.points: Set[int] = set()
        if row.how == "rows":
            self._unpacked = {code: own for own, code in _packed().items()}
        self._add(ranges)

    def _add(self, ranges: List[Range]) -> None:
        written: Dict[int, bytes] = {}
        for point, code in self._mapped(ranges):
            own = self._own(code)
            if own is None:
                written.setdefault(point, code)
            elif own not in self.read:
                self._codes.setdefault(own[:-1], set()).add(own[-1])
                if point > 0x7F:
                    self.points.add(point)
                # The encoding writes the character by a code that the set lacks, and the set has another one.
                if point in written:
                    self._unpacked[written[point]] = own

    def _mapped(self, ranges: List[Range]) -> Iterator[Tuple[int, bytes]]:
        """Yields characters with their codes in the other encoding; those of a code that the set lacks first."""
        size = len(self.row.before) + self.width
        mapped = (
            (first + more, (code + more).to_bytes(size, "big"))
            for first, count, code, length in ranges
            if length == size
            for more in range(count)
        )
        return iter(sorted(mapped, key=lambda each: each[1][0] < _NO_ROW) if self.row.how == "rows" else mapped)

    def _own(self, code: bytes) -> Optional[bytes]:
        """Returns the code of the set from that of the other encoding, or None if the set has not got it."""
        before, rest = code[: len(self.row.before)], code[len(self.row.before) :]
        if self.row.how == "rows":
            return self._unpacked.get(code) if code[0] < _NO_ROW else None
        if before != self.row.before or (self.row.how == "high" and min(rest) < 0x80):
            return None
        own = rest.translate(_LOW) if self.row.how == "high" else rest
        first, last = (0x21, 0x7E) if self.width > 1 else (0x20, 0x7F)
        return own if all(first <= byte <= last for byte in own) else None

    # ---- patterns

    @functools.cached_property
    def codes(self) -> bytes:
        """The pattern of a code."""
        alike: Dict[Tuple[int, ...], List[bytes]] = {}
        for before, last in self._codes.items():
            alike.setdefault(tuple(sorted(last)), []).append(before)
        items = [
            (_class(b"".join(before)) if self.width > 1 else b"") + _class(bytes(last))
            for last, before in sorted(alike.items(), key=lambda each: -len(each[1]))
        ]
        return b"(?:%s)" % b"|".join(items) if items else b"(?!)"

    # ---- codes

    def outer(self, codes: bytes) -> bytes:
        """Returns codes of the set as those of the other encoding."""
        if self.row.how == "rows":
            return b"".join(map(_packed().__getitem__, slices(codes, 2)))
        raised = codes.translate(_HIGH) if self.row.how == "high" else codes
        size = len(self.row.before)
        if not size:
            return raised
        whole = bytearray(self.row.before + bytes(self.width)) * (len(codes) // self.width)
        for place in range(self.width):
            whole[size + place :: size + self.width] = raised[place :: self.width]
        return bytes(whole)

    def own(self, codes: bytes) -> bytes:
        """Returns codes of the other encoding as those of the set."""
        if self.row.how == "rows":
            return b"".join(map(self._unpacked.__getitem__, slices(codes, 2)))
        size = len(self.row.before)
        if size:
            kept = bytearray(len(codes) // self.outer_width * self.width)
            for place in range(self.width):
                kept[place :: self.width] = codes[size + place :: self.outer_width]
            codes = bytes(kept)
        return codes.translate(_LOW) if self.row.how == "high" else codes

    @property
    def outer_width(self) -> int:
        """How many bytes a code has in the other encoding."""
        return len(self.row.before) + self.width


def slices(codes: bytes, width: int) -> List[bytes]:
    """Returns codes of some bytes each, one by one."""
    return [codes[at : at + width] for at in range(0, len(codes), width)]


def _class(some: bytes) -> bytes:
    """Returns the pattern of one of some bytes."""
    return b"[%s]" % b"".join(b"\\x%02x" % byte for byte in sorted(set(some)))


def characters(points: Set[int]) -> str:
    """Returns the pattern of one of some characters."""
    merged = mappings.merged(sorted((point, point + 1) for point in points))
    spans = "".join(f"{re.escape(chr(first))}-{re.escape(chr(end - 1))}" for first, end in merged)
    return f"[{spans}]" if spans else "[^\0-\U0010ffff]"
