"""Repairs of charmaps: where an encoding of CPython or of the C library differs from the system's charmap.

The table is `clients/names/repairs.tsv`, which says what each line means, and why. A name that CPython has means CPython's encoding,
and every other name the C library's. Some encodings have no charmap: they are that of another encoding with repairs, and the table of
names has them as `FILE/ENCODING`.
"""

from __future__ import annotations

import functools
import re
from encodings import aliases, normalize_encoding
from typing import Callable, Dict, FrozenSet, List, NamedTuple, Optional, Set, Tuple

from .names import Encoding
from .tables import read_rows

#: The column FOR of the C library's lines.
_C_LIBRARY = "glibc"
#: What is between a charmap's file and the codec, or the encoding that is made from it, in an encoding's name. No file has it in its
#: name.
_SLASH = "/"


class Mapping(NamedTuple):
    """The bytes of a character."""

    point: int
    code: bytes


class More(NamedTuple):
    """The codes of another charmap that an encoding has too: those that begin with some bytes."""

    beginning: bytes
    file: str


class Repairs(NamedTuple):
    """The repairs of one encoding."""

    #: Bytes of which the charmap's lines are dropped.
    dropped: FrozenSet[bytes]
    #: Those of them that are one fault together.
    faults: FrozenSet[bytes]
    both: List[Mapping]
    read: List[Mapping]
    #: Characters that are only written, by their placeholders.
    written: List[Mapping]
    #: The bytes that are meant, by the placeholders.
    meant: Dict[bytes, bytes]
    #: Whether the client computes the characters above U+FFFF; see planes.py.
    is_computed: bool
    #: Whether it has codes of eight bytes; see hangul.py.
    has_syllables: bool
    more: List[More]

    @property
    def has_two_texts(self) -> bool:
        """Whether the charmap for reading is not the one for writing."""
        return bool(self.read or self.written)

    def settle(self, leads: FrozenSet[bytes]) -> Optional[Callable[[bytes], bytes]]:
        """Returns what puts the bytes that are meant in the place of placeholders, if there are any. `leads` are the first bytes of
        characters of two bytes. Placeholders that begin with one of them are looked for where characters begin."""
        if not self.meant:
            return None
        placeholder = b"|".join(map(re.escape, self.meant))
        if not any(each[:1] in leads for each in self.meant):
            return functools.partial(re.compile(placeholder, re.S).sub, lambda found: self.meant[found[0]])
        lead = b"".join(map(re.escape, sorted(leads)))
        pattern = re.compile(b"(%s)|(?:(?!%s)[%s].)+" % (placeholder, placeholder, lead), re.S)
        return functools.partial(pattern.sub, lambda found: self.meant[found[1]] if found[1] else found[0])


def _codes(text: str) -> List[bytes]:
    """Returns the byte strings of a column BYTES, which count up in the last byte."""
    first, _, last = text.partition("-")
    begin, end = bytes.fromhex(first), bytes.fromhex(last or first)
    return [begin[:-1] + bytes((byte,)) for byte in range(begin[-1], end[-1] + 1)]


def _points(text: str, count: int) -> List[int]:
    return [] if text == "-" else [int(text.partition("-")[0][2:], 16) + step for step in range(count)]


def _repairs(rows: List[List[str]]) -> Repairs:
    kinds = {row[2] for row in rows}
    found = Repairs(frozenset(), frozenset(), [], [], [], {}, "computed" in kinds, "syllables" in kinds, [])
    dropped: Set[bytes] = set()
    faults: Set[bytes] = set()
    for _, _, kind, code, character, placeholder, _ in rows:
        if kind in ("computed", "syllables", "as"):
            continue
        if kind == "more":
            found.more.append(More(bytes.fromhex(code), character))
            continue
        codes = _codes(code)
        if kind == "write":
            found.written.append(Mapping(int(character[2:], 16), bytes.fromhex(placeholder)))
            found.meant[bytes.fromhex(placeholder)] = codes[0]
            continue
        dropped.update(codes)
        faults.update(codes if kind == "fault" else ())
        to = found.both if kind == "both" else found.read
        to.extend(map(Mapping, _points(character, len(codes)), codes))
    return found._replace(dropped=frozenset(dropped), faults=frozenset(faults))


@functools.lru_cache(maxsize=None)
def _table() -> Dict[Tuple[str, str], List[List[str]]]:
    """Returns the lines by the charmap's file and the column FOR."""
    rows: Dict[Tuple[str, str], List[List[str]]] = {}
    for row in read_rows("repairs.tsv"):
        rows.setdefault((row[0], row[1]), []).append(row)
    return rows


def _codec(name: str) -> str:
    """Returns CPython's codec of a name, or nothing."""
    normal = normalize_encoding(name).lower()
    codec: str = aliases.aliases.get(normal, normal)
    return codec if codec in _codecs() else ""


@functools.lru_cache(maxsize=None)
def _codecs() -> FrozenSet[str]:
    return frozenset(aliases.aliases.values()) | {codec for _, codec in _table()} - {_C_LIBRARY}


def variant(found: Encoding, name: str) -> Encoding:
    """Returns the encoding that a name means, of those that have one charmap."""
    codec = _codec(name)
    who = codec or _C_LIBRARY
    return Encoding(True, found.name + _SLASH + who) if found.is_charmap and (found.name, who) in _table() else found


def of(encoding: str) -> Tuple[str, Optional[Repairs]]:
    """Returns the charmap's file of an encoding, and its repairs."""
    file, _, who = encoding.partition(_SLASH)
    rows = _table().get((file, who))
    return file, _cached(file, who) if rows else None


def files_of(encoding: str) -> List[str]:
    """Returns the charmaps' files that an encoding needs."""
    file, repaired = of(encoding)
    return [file, *(more.file for more in repaired.more)] if repaired else [file]


@functools.lru_cache(maxsize=None)
def _cached(file: str, who: str) -> Repairs:
    return _repairs(_table()[file, who])
