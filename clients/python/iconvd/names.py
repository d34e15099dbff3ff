"""Names of encodings: which built-in encoding or which charmap a name means.

When the package is built, `clients/names/generate.py` makes the table from glibc's gconv-modules, from the system's charmaps and from
the names that WHATWG, CPython and IANA have. The C library has the same, except for names that CPython reads otherwise than glibc.
"""

from __future__ import annotations

import functools
import re
from typing import Dict, FrozenSet, List, NamedTuple, Tuple

from .errors import UnknownEncoding
from .tables import read_rows

#: The built-in encodings of the server.
BUILTIN = (
    "US-ASCII",
    "ISO-8859-1",
    "UTF-8",
    "UTF-16",
    "UTF-16BE",
    "UTF-16LE",
    "UTF-32",
    "UTF-32BE",
    "UTF-32LE",
    "UTF-7",
)

#: UTF-8 that begins with a mark, as CPython's `utf-8-sig`: the client writes and skips the mark.
UTF_8_SIG = "UTF-8-SIG"

_OTHER = re.compile(r"[^A-Z0-9_\-.,:/]")
_BETWEEN_DIGITS = re.compile(r"(?<=[0-9])[^A-Z0-9]+(?=[0-9])")
_SEPARATOR = re.compile(r"[^A-Z0-9-]|-(?![0-9])|(?<![0-9])-")


#: WHATWG's encoding of which nothing is read, and those that are read as it; see replacement.py.
REPLACEMENT = "REPLACEMENT"
_REPLACED = frozenset((REPLACEMENT, "ISO-2022-CN", "ISO-2022-CN-EXT"))


class Encoding(NamedTuple):
    """An encoding: a built-in one, one with escapes or shifts, or a charmap. Its name is that of the charmap's file, and after a slash
    that of its repairs (see repairs.py)."""

    is_charmap: bool
    name: str


class Table(NamedTuple):
    """The encodings by name, and by what decides of a name that is none of these."""

    exact: Dict[str, Encoding]
    loose: Dict[str, Encoding]


def _normal(name: str) -> str:
    return _OTHER.sub("", name.upper()).rstrip("/")


def _loose(name: str) -> str:
    """Returns the letters and digits of a name, with `-` where two digits are apart: ISO-IR-9-1 is not ISO-IR-91."""
    return _SEPARATOR.sub("", _BETWEEN_DIGITS.sub("-", name.upper()))


@functools.lru_cache(maxsize=None)
def table() -> Table:
    """Returns the table that was made when the package was built, or only the built-in names if there is none."""
    exact = {name: Encoding(False, name) for name in BUILTIN}
    for name, kind, target in read_rows("names.tsv"):
        exact.setdefault(name, Encoding(kind == "charmap", target))
    for target, name, meaning, *_ in read_rows("shifted_composing_encodings.tsv"):
        exact.setdefault(name if meaning == "name" else target, Encoding(False, target))
    loose: Dict[str, Encoding] = {}
    for name, encoding in exact.items():
        loose.setdefault(_loose(name), encoding)
    return Table(exact, loose)


@functools.lru_cache(maxsize=None)
def _shifted() -> FrozenSet[str]:
    """Returns the encodings with escapes or shifts."""
    return frozenset(row[0] for row in read_rows("shifted_encodings.tsv") + read_rows("shifted_composing_encodings.tsv"))


def is_shifted(encoding: Encoding) -> bool:
    """Whether an encoding has escapes or shifts, and is made of sets that the service converts."""
    return not encoding.is_charmap and encoding.name in _shifted() and not is_replaced(encoding)


def is_replaced(encoding: Encoding) -> bool:
    """Whether nothing is read of an encoding, as of WHATWG's `replacement`."""
    return not encoding.is_charmap and encoding.name in _REPLACED


def is_direct(encoding: Encoding) -> bool:
    """Whether the service converts texts in an encoding as they are, by a descriptor of that encoding."""
    return not is_shifted(encoding) and not is_replaced(encoding)


@functools.lru_cache(maxsize=1024)
def find(name: str) -> Encoding:
    """Returns the encoding of that name, in any case of its letters. Raises UnknownEncoding."""
    if len(name) > 255 or not name.isascii():
        raise UnknownEncoding(name[:80])
    known = table()
    found = known.exact.get(_normal(name)) or known.loose.get(_loose(name))
    if found is None or not _loose(name):
        raise UnknownEncoding(name)
    return found


def charmaps() -> List[Tuple[str, List[str]]]:
    """Returns each charmap of the table with its names."""
    found: Dict[str, List[str]] = {}
    for name, encoding in table().exact.items():
        if encoding.is_charmap:
            found.setdefault(encoding.name, []).append(name)
    return sorted(found.items())
