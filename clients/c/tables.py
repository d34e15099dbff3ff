#!/usr/bin/env python3
"""Turns the tables of clients/names into names_table.h, translit_table.h, shifted_table.h and repairs_table.h.

    tables.py TABLES_DIRECTORY OUTPUT_DIRECTORY

All strings of a table stand in one array, and the rows have their places in it: so nothing has to be relocated when the library is
loaded, and processes share the pages.
"""

from __future__ import annotations

import os
import re
import sys

REPAIRS = os.path.join(os.path.dirname(os.path.abspath(__file__)), '..', 'names', 'repairs.tsv')
# The order of enum builtin in names.h.
BUILTINS = ['US-ASCII', 'ISO-8859-1', 'UTF-8', 'UTF-16', 'UTF-16BE', 'UTF-16LE', 'UTF-32', 'UTF-32BE', 'UTF-32LE', 'UTF-7', 'REPLACEMENT']


def rows(path: str) -> list[list[str]]:
    with open(path, encoding='utf-8') as lines:
        return [line.rstrip('\n').split('\t') for line in lines]


class Strings:
    """Strings one behind another, each ended by a zero byte."""

    def __init__(self) -> None:
        self.places: dict[bytes, int] = {}
        self.text: list[bytes] = []
        self.length = 0

    def place(self, data: bytes) -> int:
        if data not in self.places:
            self.places[data] = self.length
            self.text.append(data)
            self.length += len(data) + 1
        return self.places[data]

    def array(self, name: str) -> str:
        # Octal escapes have three digits at most, so that what follows them never belongs to them.
        lines = ['    "%s\\0"' % ''.join('\\%03o' % byte for byte in data) for data in self.text]
        return ('#pragma GCC diagnostic push\n#pragma GCC diagnostic ignored "-Woverlength-strings"\n'
                'static const char %s[] =\n%s;\n#pragma GCC diagnostic pop\n' % (name, '\n'.join(lines)))


def loose(name: str) -> str:
    """What decides of a name that no row has exactly: its letters and digits, with - where two digits are apart. names.c has the same."""
    parts = re.sub(r'(?<=[0-9])[^A-Z0-9]+(?=[0-9])', '-', name)
    return re.sub(r'[^A-Z0-9-]|-(?![0-9])|(?<![0-9])-', '', parts)


def loose_rows(names: list[str]) -> str:
    """The rows in the order of what is loose of their names, one for each."""
    places: dict[str, int] = {}
    for place, name in enumerate(names):
        places.setdefault(loose(name), place)
    rows = ['    %d,' % places[each] for each in sorted(places)]
    return 'static const uint16_t LOOSE_ROWS[] = {\n' + '\n'.join(rows) + '\n};\n'


def names_header(table: list[list[str]]) -> str:
    strings = Strings()
    charmaps = sorted({target for _, kind, target in table if kind == 'charmap'})
    shifted = sorted({target for _, kind, target in table if kind == 'shifted'})
    targets = BUILTINS + charmaps + shifted
    begins = {'builtin': 0, 'whatwg': 0, 'charmap': len(BUILTINS), 'shifted': len(BUILTINS + charmaps)}
    names = []
    for name, kind, target in sorted(table, key=lambda row: row[0].encode()):
        number = targets.index(target, begins[kind])
        names.append('    {%d, %d, %d},' % (strings.place(name.encode()), number, kind == 'whatwg'))
    # An encoding that repairs.tsv makes from the charmap of another one has its own name after the file's.
    files = ['    {%d, %d},' % (strings.place(target.split('/')[0].encode()), strings.place(target.split('/')[-1].encode())) for target in charmaps]
    ordered = sorted((row[0] for row in table), key=str.encode)
    return (strings.array('NAME_STRINGS') + 'static const struct name_row NAME_ROWS[] = {\n' + '\n'.join(names) + '\n};\n'
            + loose_rows(ordered) +
            'static const struct charmap_row CHARMAP_ROWS[] = {\n' + '\n'.join(files) + '\n};\n'
            'enum { CHARMAP_COUNT = %d };\n' % len(charmaps))


def translit_header(table: list[list[str]]) -> str:
    """The candidates of a character are one string: each ended by the byte ff, which UTF-8 has not."""
    strings = Strings()
    lines = []
    for point, *candidates in table:
        lines.append('    {0x%s, %d},' % (point, strings.place(b''.join(text.encode() + b'\xff' for text in candidates))))
    return (strings.array('TRANSLIT_STRINGS') + 'static const struct translit_row TRANSLIT_ROWS[] = {\n' + '\n'.join(lines)
            + '\n};\n')


def bytes_of(digits: str) -> str:
    """Hexadecimal digits as an initializer."""
    return '{%s}' % ', '.join('0x%02X' % byte for byte in bytes.fromhex(digits.replace('-', ''))) if digits != '-' else '{0}'


def set_row(row: list[str]) -> str:
    _, by, length, before, how, leads = row
    first, last = leads.split('-') if leads != '-' else ('0', '0')
    return '    {"%s", %s, %d, %s, %s, 0x%s, 0x%s},' % (
        by, length, 0 if before == '-' else len(before) // 2, bytes_of(before), how.upper(), first, last)


class Shifted:
    """One encoding with shifts: its sequences, as the C library treats them, and its flags."""

    def __init__(self, name: str, rows: list[list[str]], sets: list[str]) -> None:
        self.name = name
        self.flags: set[str] = set()
        self.sequences: list[tuple[str, str, int, int]] = []
        self.start = 0
        self.room = 255
        for sequence, meaning, argument, how in rows:
            if meaning == 'start':
                self.start = sets.index(argument)
            elif meaning == 'room':
                self.room = sets.index(argument)
            elif meaning in ('pairs', 'strict', 'ascii'):
                self.flags.add(meaning)
            elif how != '-' and meaning != 'name':
                number = {'itself': lambda: int(argument, 16), 'line': lambda: len(argument.split('+'))}.get(
                    meaning, lambda: sets.index(argument) if argument else 0)()
                self.sequences.append((sequence, meaning.upper(), number, int(how) + 1 if how.isdigit() else 0))

    def row(self, first: int) -> str:
        begins = [0] * 8
        for sequence, meaning, _, _ in self.sequences:
            if meaning != 'LINE':
                begins[int(sequence[:2], 16) // 32] |= 1 << int(sequence[:2], 16) % 32
        by_escapes = any(sequence.startswith('1B') and meaning == 'USE' for sequence, meaning, _, _ in self.sequences)
        return '    {%d, %d, %d, %d, %s, %d, {%s}},' % (
            first, len(self.sequences), self.start, self.room, ', '.join(str(int(flag in self.flags)) for flag in ('pairs', 'strict', 'ascii')),
            3 if by_escapes else 0, ', '.join('0x%XU' % word for word in begins))


def shifted_header(encodings: list[list[str]], sets: list[list[str]]) -> str:
    """The sets, all sequences one behind another, and the encodings, in the order of names_header()."""
    names = [row[0] for row in sets]
    padded = [row + [''] * (6 - len(row)) for row in encodings]
    shifted = [Shifted(name, [row[1:5] for row in padded if row[0] == name], names) for name in sorted({row[0] for row in padded})]
    sequences, rows = [], []
    for encoding in shifted:
        rows.append(encoding.row(len(sequences)))
        sequences += ['    {%s, %d, %s, %d, %d},' % (bytes_of(sequence), len(sequence) // 2, meaning, number, order)
                      for sequence, meaning, number, order in encoding.sequences]
    return ('static const struct shifted_set SHIFTED_SETS[] = {\n' + '\n'.join(map(set_row, sets)) + '\n};\n'
            'static const struct shifted_sequence SHIFTED_SEQUENCES[] = {\n' + '\n'.join(sequences) + '\n};\n'
            'static const struct shifted_encoding SHIFTED_ENCODINGS[] = {\n' + '\n'.join(rows) + '\n};\n'
            'static struct encoding SHIFTED_NAMES[] = {\n'
            + '\n'.join('    {.kind = SHIFTED, .name = "%s", .number = %d},' % (encoding.name, number)
                        for number, encoding in enumerate(shifted)) + '\n};\n')


# The order of enum repair_kind in repairs.h.
KINDS = ['write', 'read', 'both', 'none', 'computed']


def spread(row: list[str]) -> list[tuple[str, str]]:
    """The codes and characters of a line, in hexadecimal; a computed range is one."""
    (first, _, last), point = row[3].partition('-'), row[4][2:].split('-')[0] or '0'
    count = int(last, 16) - int(first, 16) + 1 if last and row[2] != 'computed' else 1
    return [('%0*x' % (len(first), int(first, 16) + step), '%04X' % (int(point, 16) + step)) for step in range(count)]


def repairs_header(table: list[list[str]]) -> str:
    """The C library's lines, those of an encoding one after another; composing.tsv has those of the kind `as`."""
    lines: list[str] = []
    encodings: list[str] = []
    # An encoding that is made from the charmap of another one has its own name, in upper case, in the column FOR.
    mine = [(row[0] if row[1] == 'glibc' else row[1], row) for row in table
            if row[2] != 'as' and (row[1] == 'glibc' or row[1] != row[1].lower())]
    for encoding in sorted({name for name, _ in mine}):
        first = len(lines)
        for row in (row for name, row in mine if name == encoding):
            placeholder = row[5] if row[5] != '-' else '0'
            lines += ['    {0x%s, 0x%s, 0x%s, %d, %d},' % (code, point, placeholder, len(code) // 2, KINDS.index(row[2]))
                      for code, point in spread(row)]
        encodings.append('    {"%s", %d, %d},' % (encoding, first, len(lines) - first))
    return ('static const struct repair REPAIRS[] = {\n' + '\n'.join(lines) + '\n};\n'
            'static const struct repaired_charmap REPAIRED_CHARMAPS[] = {\n' + '\n'.join(encodings) + '\n};\n')


def composing_parts(written: dict[int, list[int]], point: int) -> list[int]:
    """What a character is written as."""
    return [part for each in written[point] for part in composing_parts(written, each)] if point in written else [point]


def composing_header(table: list[list[str]]) -> str:
    """The encodings that compose. Of each, the pairs that are read by letter and mark, and what is written by the character."""
    encodings, compositions, decompositions = [], [], []
    heads = {row[0]: row for row in reversed(table) if row[4] in ('once', 'more', 'pairs')}
    for file, head in sorted(heads.items()):
        mine = [row for row in table if row[0] == file and row[4] in ('both', 'read', 'write')]
        read = sorted((int(row[2], 16), int(row[3], 16), int(row[1], 16)) for row in mine if row[4] != 'write')
        written = {int(row[1], 16): [int(part, 16) for part in row[2:4] if part != '-'] for row in mine if row[4] != 'read'}
        encodings.append('    {"%s", 0x%s, 0x%s, %s, %d, %d, %d, %d},' % (
            file, head[1], head[2], 'COMPOSES_' + head[4].upper(), len(compositions), len(read), len(decompositions), len(written)))
        compositions += ['    {0x%04X, 0x%04X, 0x%04X},' % row for row in read]
        decompositions += ['    {0x%04X, {%s, 0}},' % (point, ', '.join('0x%04X' % part for part in composing_parts(written, point)))
                           for point in sorted(written)]
    return ('static const struct composing COMPOSING[] = {\n' + '\n'.join(encodings) + '\n};\n'
            'static const struct composition COMPOSITIONS[] = {\n' + '\n'.join(compositions) + '\n};\n'
            'static const struct decomposition DECOMPOSITIONS[] = {\n' + '\n'.join(decompositions) + '\n};\n')


def write(path: str, text: str) -> None:
    with open(path, 'w', encoding='ascii') as out:
        out.write('/* Made by tables.py. */\n' + text)


def main() -> None:
    source, output = sys.argv[1:3]
    write(os.path.join(output, 'names_table.h'), names_header(rows(os.path.join(source, 'names.tsv'))))
    repairs = [row for row in rows(REPAIRS) if not row[0].startswith('#')]
    write(os.path.join(output, 'repairs_table.h'), repairs_header(repairs))
    write(os.path.join(output, 'composing_table.h'), composing_header(rows(os.path.join(source, 'composing.tsv'))))
    write(os.path.join(output, 'translit_table.h'), translit_header(rows(os.path.join(source, 'translit.tsv'))))
    write(os.path.join(output, 'shifted_table.h'), shifted_header(rows(os.path.join(source, 'shifted_encodings.tsv')),
                                                                  rows(os.path.join(source, 'shifted_sets.tsv'))))


if __name__ == '__main__':
    main()
