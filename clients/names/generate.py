#!/usr/bin/env python3
"""Writes the tables that the clients share: names.tsv, translit.tsv, composing.tsv, shifted_encodings.tsv and shifted_sets.tsv.

    generate.py [--gconv DIR] [--charmaps DIR] [--locales DIR] [--python] OUTPUT_DIRECTORY

names.tsv has one line for each name that a client accepts, sorted:

    NAME <tab> builtin <tab> the service's name        LATIN1  builtin  ISO-8859-1
    NAME <tab> charmap <tab> the charmap file's name   EUCKR   charmap  EUC-KR
    NAME <tab> charmap <tab> the file/the encoding     CP1140  charmap  IBM037/IBM1140
    NAME <tab> shifted <tab> an encoding with shifts   HZ      shifted  HZ
    NAME <tab> whatwg  <tab> the service's name        UCS-2   whatwg   UTF-16LE

The second charmap is of an encoding without a file of its own: repairs.tsv makes it from another one's. The last one is a name that the C
library has for an encoding that the service lacks: it means what WHATWG's standard reads it as. NAME is in upper case and has only the
characters that the C library keeps of a name. translit.tsv has one line for each character that may be transliterated: its code point in
hexadecimal, then the candidates in order, in UTF-8.

    20AC <tab> EUR

The sources are files of the system, and lists beside this program: builtin.tsv (names that the C library has in its code and in no
file), labels.tsv (names that WHATWG, CPython and IANA have), left_out.tsv (names that no charmap can serve, each with the reason), and
shifted_encodings.tsv and shifted_sets.tsv (encodings with shifts and escapes), which are written again without comments. With --python
the names are those of the Python package: labels.tsv says which differ. composing.py makes composing.tsv.
"""

from __future__ import annotations

import argparse
import glob
import gzip
import os
import re
import sys
from collections.abc import Iterable

import composing
import labels

HERE = os.path.dirname(os.path.abspath(__file__))
GCONV = '/usr/lib/*/gconv'
CHARMAPS = '/usr/share/i18n/charmaps'
LOCALES = '/usr/share/i18n/locales'
KEPT = frozenset('ABCDEFGHIJKLMNOPQRSTUVWXYZ0123456789_-.,:/')


def normal(name: str) -> str:
    """A name as iconv_open() compares it: upper case, other characters dropped, no slashes at the end."""
    return ''.join(c for c in name.upper() if c in KEPT).rstrip('/')


class Groups:
    """Names that mean the same encoding."""

    def __init__(self) -> None:
        self.parent: dict[str, str] = {}

    def root(self, name: str) -> str:
        self.parent.setdefault(name, name)
        while self.parent[name] != name:
            name = self.parent[name]
        return name

    def join(self, one: str, other: str) -> None:
        self.parent[self.root(one)] = self.root(other)

    def all(self) -> list[list[str]]:
        groups: dict[str, set[str]] = {}
        for name in self.parent:
            groups.setdefault(self.root(name), set()).add(name)
        return [sorted(names) for _, names in sorted(groups.items())]


def read_table(path: str) -> list[list[str]]:
    """The rows of a checked-in list; a line that begins with # is a comment."""
    with open(path, encoding='utf-8') as lines:
        return [line.rstrip('\n').split('\t') for line in lines if line.strip() and not line.startswith('#')]


def read_modules(directory: str, groups: Groups) -> None:
    """Aliases and encodings of one folder of gconv modules."""
    paths = [os.path.join(directory, 'gconv-modules')] + sorted(glob.glob(os.path.join(directory, 'gconv-modules.d', '*.conf')))
    for path in paths:
        with open(path, encoding='latin-1') as lines:
            for line in lines:
                words = line.split()
                if len(words) >= 3 and words[0] == 'alias':
                    groups.join(normal(words[1]), normal(words[2]))
                elif len(words) >= 3 and words[0] == 'module':
                    for name in words[1:3]:
                        groups.root(normal(name))


def charmap_names(path: str) -> list[str]:
    """The names that a charmap file gives itself: its own first, then code_set_name, then its aliases."""
    names = [os.path.basename(path)[:-len('.gz')]]
    with gzip.open(path, 'rt', encoding='latin-1') as lines:
        for line in lines:
            if line.startswith('CHARMAP'):
                break
            found = re.match(r'<code_set_name>\s+"?([^\s"]+)', line) or re.match(r'%\s*alias\s+(\S+)', line)
            if found:
                names.append(found[1])
    return [normal(name) for name in names]


def read_charmaps(directory: str) -> dict[str, list[str]]:
    """The charmap files of the system, each with its names."""
    files = sorted(glob.glob(os.path.join(directory, '*.gz')))
    return {os.path.basename(path)[:-len('.gz')]: charmap_names(path) for path in files}


def read_shifted(groups: Groups) -> list[str]:
    """The encodings with shifts and escapes; their other names join their groups."""
    rows = read_table(os.path.join(HERE, 'shifted_encodings.tsv'))
    for encoding, sequence, meaning in (row[:3] for row in rows):
        groups.join(normal(sequence) if meaning == 'name' else encoding, encoding)
    return sorted({row[0] for row in rows})


def charmap_of(names: list[str], charmaps: dict[str, list[str]]) -> str | None:
    """The charmap file of a group of names: by the file's own name, else by what stands in it."""
    for wanted in range(2):
        for file, own in charmaps.items():
            if own[0] in names if wanted == 0 else set(own) & set(names):
                return file
    return None


def read_made(groups: Groups) -> dict[str, str]:
    """The encodings that repairs.tsv makes from the charmap of another one, each with its target. Each is a group of names at least."""
    made = {row[1]: row[0] + '/' + row[1] for row in read_table(os.path.join(HERE, 'repairs.tsv')) if row[1] != row[1].lower()}
    for name in made:
        groups.root(name)
    return made


def names_table(groups: Groups, charmaps: dict[str, list[str]]) -> dict[str, tuple[str, str]]:
    """Each name with its kind and target."""
    shifted = read_shifted(groups)
    made = read_made(groups)
    table: dict[str, tuple[str, str]] = {}
    builtins = {normal(name): target for name, target in read_table(os.path.join(HERE, 'builtin.tsv'))}
    left_out = {normal(row[0]) for row in read_table(os.path.join(HERE, 'left_out.tsv'))}
    dropped: set[str] = set()
    for names in groups.all():
        target = next((builtins[name] for name in names if name in builtins), None)
        file = next((made[name] for name in names if name in made), None) or charmap_of(names, charmaps)
        shifts = next((name for name in names if name in shifted), None)
        if left_out & set(names):
            dropped.update(names)
        elif shifts:
            table.update((name, ('shifted', shifts)) for name in names)
        elif target:
            table.update((name, ('builtin', target)) for name in names)
        elif file:
            table.update((name, ('charmap', file)) for name in names)
    for name, target in builtins.items():
        if name not in dropped:
            table.setdefault(name, ('builtin', target))
    taken = set(table) | dropped | left_out
    for file, own in charmaps.items():
        if own[0] not in left_out:
            table.update((name, ('charmap', made.get(own[0], file))) for name in own if name not in taken)
    return table


def with_order(text: str, word_order: str) -> str:
    """WCHAR_T is the machine's own order, which the list of built-in names leaves open."""
    return text.replace('@ORDER@', word_order)


def characters(text: str) -> str:
    return ''.join(chr(int(digits, 16)) for digits in re.findall(r'<U([0-9A-Fa-f]{4,8})>', text))


def candidate(text: str) -> str | None:
    """One candidate of a transliteration: a name, or names between quotation marks. None where it is neither."""
    text = text.strip()
    return characters(text) if text == '""' or '<U' in text else None


def read_transliterations(directory: str, name: str, table: dict[int, list[str]], seen: set[str]) -> None:
    """Adds the transliterations of a locale, and then of those that it includes, the last first. The first that says a character decides, as in
    glibc."""
    if name in seen:
        return
    seen.add(name)
    inside, included = False, []
    with open(os.path.join(directory, name), encoding='utf-8', errors='replace') as lines:
        for line in (line.strip() for line in lines):
            if line.startswith(('translit_start', 'translit_end')):
                inside = line.startswith('translit_start')
            elif inside and line.startswith('include'):
                included.append(line.split('"')[1])
            elif inside and line.startswith('<U'):
                add_transliteration(line.split('%')[0], table)
    for other in reversed(included):
        read_transliterations(directory, other, table, seen)


def add_transliteration(line: str, table: dict[int, list[str]]) -> None:
    found = re.match(r'<U([0-9A-Fa-f]{4,8})>\s+(\S.*)$', line.strip())
    if found:
        candidates = [candidate(text) for text in found[2].split(';')]
        table.setdefault(int(found[1], 16), [text for text in candidates if text is not None])


def write(path: str, lines: Iterable[str]) -> None:
    with open(path, 'w', encoding='utf-8', newline='\n') as out:
        out.writelines(line + '\n' for line in lines)


def main() -> None:
    arguments = argparse.ArgumentParser(description='Writes names.tsv and translit.tsv.')
    arguments.add_argument('--gconv', default=GCONV, help='folder of gconv-modules; may be a pattern')
    arguments.add_argument('--charmaps', default=CHARMAPS)
    arguments.add_argument('--locales', default=LOCALES)
    arguments.add_argument('--python', action='store_true', help='the names of the Python package')
    arguments.add_argument('output')
    options = arguments.parse_args()
    groups = Groups()
    folders = sorted(glob.glob(options.gconv))
    for folder in folders:
        if os.path.exists(os.path.join(folder, 'gconv-modules')):
            read_modules(folder, groups)
    charmaps = read_charmaps(options.charmaps)
    if not groups.parent or not charmaps:
        sys.exit('generate.py: no gconv-modules (package libc6) or no charmaps (package locales)')
    order = 'LE' if sys.byteorder == 'little' else 'BE'
    table = names_table(groups, charmaps)
    labels.add(table, normal, options.python)
    os.makedirs(options.output, exist_ok=True)
    write(os.path.join(options.output, 'names.tsv'),
          (with_order('\t'.join((name,) + table[name]), order) for name in sorted(table)))
    for shifts in ('shifted_encodings.tsv', 'shifted_sets.tsv'):
        write(os.path.join(options.output, shifts), ('\t'.join(row) for row in read_table(os.path.join(HERE, shifts))))
    write(os.path.join(options.output, 'composing.tsv'), composing.rows(options.charmaps))
    transliterations: dict[int, list[str]] = {}
    read_transliterations(options.locales, 'C', transliterations, set())
    write(os.path.join(options.output, 'translit.tsv'),
          ('\t'.join(['%04X' % point] + transliterations[point]) for point in sorted(transliterations)))


if __name__ == '__main__':
    main()
