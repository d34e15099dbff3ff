#!/usr/bin/env python3
"""Compares each charmap of names.tsv with the table that the system's C library has under that name.

    check.py NAMES_TSV [CHARMAP ..]

It prints the charmaps that differ, with how many characters are read otherwise, written otherwise, or known to the C library alone,
and the built-in names that do not behave as their target. It is how left_out.tsv was found; nothing at build time needs it. It does not
know repairs.tsv: what that makes from another charmap is compared by clients/c/tests/tables.c alone.
"""

from __future__ import annotations

import ctypes
import gzip
import re
import sys
import unicodedata
from collections.abc import Iterator

LIBC = ctypes.CDLL(None, use_errno=True)
LIBC.iconv_open.restype = ctypes.c_void_p
LIBC.iconv_open.argtypes = [ctypes.c_char_p, ctypes.c_char_p]
LIBC.iconv.restype = ctypes.c_size_t
LIBC.iconv.argtypes = [ctypes.c_void_p] + [ctypes.c_void_p] * 4
FAILED = ctypes.c_size_t(-1).value
LINE = re.compile(r'\s*(%IRREVERSIBLE%)?(?:<U([0-9A-F]+)>)(?:(\.\.\.?)<U([0-9A-F]+)>)?\s+(\S+)')


class Converter:
    """One conversion of the C library; None from convert() means an error, or a character cut off."""

    def __init__(self, target: str, source: str) -> None:
        self.handle = LIBC.iconv_open(target.encode(), source.encode())
        self.there = self.handle != ctypes.c_void_p(-1).value

    def convert(self, data: bytes) -> bytes | None:
        LIBC.iconv(self.handle, None, None, None, None)
        source, room = ctypes.create_string_buffer(data, len(data)), ctypes.create_string_buffer(64)
        source_at, room_at = ctypes.c_void_p(ctypes.addressof(source)), ctypes.c_void_p(ctypes.addressof(room))
        left, free = ctypes.c_size_t(len(data)), ctypes.c_size_t(64)
        by = [ctypes.byref(value) for value in (source_at, left, room_at, free)]
        if LIBC.iconv(self.handle, *by) == FAILED or left.value or LIBC.iconv(self.handle, None, None, by[2], by[3]) == FAILED:
            return None
        return room.raw[:64 - free.value]


def mappings(charmap: str, directory: str = '/usr/share/i18n/charmaps') -> Iterator[tuple[bytes, str, bool]]:
    """(bytes, character, written) of a charmap's file; combining sequences are left out."""
    escape, inside = '\\', False
    with gzip.open('%s/%s.gz' % (directory, charmap), 'rt', encoding='latin-1') as lines:
        for line in lines:
            if line.startswith('<escape_char>'):
                escape = line.split()[1]
            if line.startswith('END CHARMAP'):
                break
            inside = inside or line.startswith('CHARMAP')
            found = LINE.match(line)
            if not found or (not inside and not found[2]):
                continue
            one_way, first, dots, last, encoding = found.groups()
            data = bytes(int(digits, 16) for digits in encoding.replace(escape, '').split('x')[1:])
            base = 16 if dots != '...' or not first.isdigit() else 10
            start, number = int(first, 16), 1 if not last else int(last, base) - int(first, base) + 1
            for step in range(number):
                yield (int.from_bytes(data, 'big') + step).to_bytes(len(data), 'big'), chr(start + step), not one_way


def composes(reader: Converter, table: dict[bytes, str]) -> bool:
    """Whether the C library reads a letter and a combining character behind it as one character."""
    single = {data: character for data, character in table.items() if len(data) == 1}
    marks = [data for data, character in single.items() if unicodedata.combining(character)]
    letters = [data for data, character in single.items() if unicodedata.category(character).startswith('L')]
    return any(reader.convert(letter + mark) != (single[letter] + single[mark]).encode('utf-32-be')
               for letter in letters for mark in marks)


def differences(reader: Converter, writer: Converter, charmap: str) -> list[tuple[int, str]]:
    """What differs, as pairs of a number and its name."""
    table: dict[bytes, str] = {}
    first: dict[str, bytes] = {}
    read = wrote = 0
    for data, character, is_written in mappings(charmap):
        if 0xD800 <= ord(character) < 0xE000:
            continue
        table.setdefault(data, character)
        read += reader.convert(data) != character.encode('utf-32-be')
        if is_written:
            first.setdefault(character, data)
    for character, data in first.items():
        wrote += writer.convert(character.encode('utf-32-be')) != data
    others = (chr(point) for point in range(0x10000) if not 0xD800 <= point < 0xE000 and chr(point) not in first)
    more_written = sum(1 for character in others if writer.convert(character.encode('utf-32-be')) is not None)
    more_read = sum(1 for byte in range(256) if bytes([byte]) not in table and reader.convert(bytes([byte])))
    return [(read, 'read otherwise'), (wrote, 'written otherwise'), (more_read, 'single bytes more'),
            (more_written, 'characters more written'), (composes(reader, table), 'composes')]


def compare(name: str, charmap: str) -> str | None:
    """The differences of a charmap in words; None where the C library has no such name."""
    reader, writer = Converter('UTF-32BE', name), Converter(name, 'UTF-32BE')
    if not reader.there or not writer.there:
        return None
    return ', '.join('%d %s' % pair for pair in differences(reader, writer, charmap) if pair[0])


def main() -> None:
    rows = [line.rstrip('\n').split('\t') for line in open(sys.argv[1], encoding='utf-8')]
    wanted = sys.argv[2:]
    seen: set[str] = set()
    for name, kind, target in rows:
        if kind == 'charmap' and '/' not in target and target not in seen and (not wanted or target in wanted):
            result = compare(name, target)
            if result is not None:
                seen.add(target)
            if result:
                print('%s\tas %s: %s' % (target, name, result), flush=True)
    print('%d charmaps compared' % len(seen))
    text = 'A\u00e9\U0001F600'
    for name, kind, target in rows:
        if kind == 'builtin' and not wanted:
            sample = 'A' if target == 'US-ASCII' else text[:2] if target == 'ISO-8859-1' else text
            pair = [Converter(end, 'UTF-8').convert(sample.encode()) for end in (name, target)]
            if not pair[0] or pair[0] != pair[1]:
                print('%s\tdiffers from %s' % (name, target))


if __name__ == '__main__':
    main()
