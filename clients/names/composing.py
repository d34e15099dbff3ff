"""The encodings whose converters compose: a letter and the mark behind it are one character.

The C library's converters of CP1255, CP1258 and TCVN5712-1 hold a letter back, since a mark may follow, and write a character that the
encoding lacks as a letter and a mark. BIG5-HKSCS, EUC-JISX0213 and SHIFT_JISX0213 have codes that are a letter and a mark each.

The pairs are canonical compositions, by Python's unicodedata, of the characters that the system's charmap has; those of the last three are
their charmaps' own comments. What differs is in the constants below.
"""

from __future__ import annotations

import gzip
import os
import re
import unicodedata
from collections.abc import Iterator
from typing import NamedTuple


class Composing(NamedTuple):
    """An encoding, and which letters are held back."""

    charmap: str
    first: int
    last: int
    #: Whether what was composed may take another mark.
    goes_on: bool
    #: What the C library reads, and does not write.
    read_alone: frozenset[int] = frozenset()
    #: What the C library writes as other characters, and does not read.
    written_alone: dict[int, str] = {}


ENCODINGS = (
    Composing('CP1255', 0x5D0, 0x5F2, True),
    Composing('CP1258', 0x41, 0x1B0, False, written_alone={0x340: '\u0300', 0x341: '\u0301', 0x1FEE: '\u00a8\u0301'}),
    Composing('TCVN5712-1', 0x41, 0x1B0, False, read_alone=frozenset({0x1E4C, 0x1E4D, 0x1E78, 0x1E79})),
)
PAIRS = ('BIG5-HKSCS', 'EUC-JISX0213', 'SHIFT_JISX0213')
#: Characters of no text: the first one stands for a charmap's first pair, and so on. repairs.tsv gives them the pairs' bytes.
FIRST_PAIR = 0xFDD0


def _lines(directory: str, charmap: str) -> list[str]:
    with gzip.open(os.path.join(directory, charmap + '.gz'), 'rt', encoding='latin-1') as lines:
        return list(lines)


def _characters(directory: str, charmap: str) -> set[str]:
    """The characters of one byte."""
    found = (re.match(r'<U([0-9A-F]{4})>\s+/x..\s', line) for line in _lines(directory, charmap))
    return {chr(int(each[1], 16)) for each in found if each}


def _parts(text: str) -> tuple[str, ...]:
    """The letter and the marks. The C library does not mind in which order marks are."""
    return tuple(sorted(unicodedata.normalize('NFD', text)))


def _compositions() -> dict[tuple[str, ...], str]:
    """The first character of each letter with its marks."""
    found: dict[tuple[str, ...], str] = {}
    for point in range(0x10000):
        parts = _parts(chr(point))
        if len(parts) > 1:
            found.setdefault(parts, chr(point))
    return found


def _pairs(directory: str, encoding: Composing) -> dict[tuple[str, str], str]:
    """What each letter and mark are together."""
    compositions = _compositions()
    characters = _characters(directory, encoding.charmap)
    marks = {character for character in characters if unicodedata.combining(character)}
    letters = {character for character in characters if encoding.first <= ord(character) <= encoding.last}
    pairs: dict[tuple[str, str], str] = {}
    while letters:
        new = {(letter, mark): compositions[_parts(letter + mark)]
               for letter in letters for mark in marks if _parts(letter + mark) in compositions}
        pairs.update(new)
        letters = set(new.values()) if encoding.goes_on else set()
    return pairs


def _row(charmap: str, composed: int, text: str, way: str) -> str:
    points = ['%04X' % ord(character) for character in text]
    return '\t'.join([charmap, '%04X' % composed] + points + ['-'] * (2 - len(points)) + [way])


def _rows(directory: str, encoding: Composing) -> Iterator[str]:
    pairs = _pairs(directory, encoding)
    characters = _characters(directory, encoding.charmap)
    written: set[str] = set()
    # Of two ways to write a character the first one is the canonical one.
    canonical = sorted(pairs, key=lambda pair: unicodedata.decomposition(pairs[pair]) != '%04X %04X' % tuple(map(ord, pair)))
    for pair in canonical:
        composed = pairs[pair]
        is_written = composed not in characters | written and ord(composed) not in encoding.read_alone
        written.add(composed)
        yield _row(encoding.charmap, ord(composed), ''.join(pair), 'both' if is_written else 'read')
    for point, text in encoding.written_alone.items():
        yield _row(encoding.charmap, point, text, 'write')


def _repairs() -> Iterator[tuple[str, str, str, int, int]]:
    """The repairs of one byte and one character: the charmap, the encoding, the kind, the byte and the character."""
    with open(os.path.join(os.path.dirname(os.path.abspath(__file__)), 'repairs.tsv'), encoding='utf-8') as lines:
        for line in lines:
            row = line.rstrip('\n').split('\t')
            if not line.startswith('#') and len(row[3]) == 2 and re.fullmatch('U\\+[0-9A-F]+', row[4]):
                yield row[0], row[0] if row[1] == 'glibc' else row[1], row[2], int(row[3], 16), int(row[4][2:], 16)


def _other_rows(directory: str) -> Iterator[str]:
    """The characters that are written as others: those that have the same byte."""
    repairs = list(_repairs())
    for charmap, encoding in sorted({(row[0], row[1]) for row in repairs if row[2] == 'as'}):
        found = (re.match(r'<U([0-9A-F]{4})>\s+/x(..)\s', line) for line in _lines(directory, charmap))
        by_byte = {int(each[2], 16): int(each[1], 16) for each in found if each}
        mine = [row[2:] for row in repairs if row[1] == encoding]
        by_byte.update((byte, point) for kind, byte, point in mine if kind == 'both')
        yield '\t'.join([encoding, '0000', '0000', '-', 'once'])
        for kind, byte, point in mine:
            if kind == 'as':
                yield _row(encoding, point, chr(by_byte[byte]), 'write')


def rows(directory: str) -> Iterator[str]:
    """The lines of composing.tsv: the charmap, the character, its letter and mark, and whether it is read so, written so, or both."""
    for encoding in ENCODINGS:
        yield '\t'.join([encoding.charmap, '%04X' % encoding.first, '%04X' % encoding.last, '-', 'more' if encoding.goes_on else 'once'])
        yield from sorted(_rows(directory, encoding))
    for charmap in PAIRS:
        yield '\t'.join([charmap, '0000', '0000', '-', 'pairs'])
        found = [re.match(r'%<U([0-9A-F]+)><U([0-9A-F]+)>\s', line) for line in _lines(directory, charmap)]
        for number, each in enumerate(each for each in found if each):
            yield '\t'.join([charmap, '%04X' % (FIRST_PAIR + number), each[1].zfill(4), each[2].zfill(4), 'both'])
    yield from _other_rows(directory)
