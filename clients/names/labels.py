"""Reads labels.tsv: names of encodings beside those of the C library and of the charmaps."""

from __future__ import annotations

import os
from collections.abc import Callable, Iterator
from typing import NamedTuple

LABELS = os.path.join(os.path.dirname(os.path.abspath(__file__)), 'labels.tsv')
#: Encodings that only the Python package has, or has as CPython, with their kind and target.
PYTHON_OWN = {
    'UTF-8-SIG': ('builtin', 'UTF-8-SIG'),
    'ISO-2022-JP-3': ('shifted', 'ISO-2022-JP-3'),
    'ISO-2022-JP-2004': ('shifted', 'ISO-2022-JP-2004'),
    'EUC-JISX0213': ('charmap', 'EUC-JISX0213/euc_jisx0213'),
    'EUC-JIS-2004': ('charmap', 'EUC-JISX0213/euc_jis_2004'),
    'SHIFT_JISX0213': ('charmap', 'SHIFT_JISX0213/shift_jisx0213'),
    'SHIFT_JIS-2004': ('charmap', 'SHIFT_JISX0213/shift_jis_2004'),
}
#: WHATWG's encoding of which nothing is read.
REPLACEMENT = 'REPLACEMENT'
#: Names that the C library has for encodings that the service lacks, and what WHATWG's standard reads them as.
WHATWG = {'ISO-2022-CN-EXT': REPLACEMENT, 'UCS-2': 'UTF-16LE', 'UNICODE': 'UTF-16'}
#: Encodings that the Python package has not: it reads them as WHATWG's standard does, and does not write them.
PYTHON_REPLACED = ('ISO-2022-CN', 'ISO-2022-CN-EXT')
#: Encodings that only the C library has, as glibc: CPython has none of the kind.
C_ALONE = {'TCVN5712-1'}

Table = dict[str, tuple[str, str]]


class Label(NamedTuple):
    """A name of an encoding, which another name of it says, and who has the name."""

    name: str
    encoding: str
    source: str


def read(path: str = LABELS) -> Iterator[Label]:
    """Yields the labels."""
    with open(path, encoding='utf-8') as lines:
        for line in lines:
            if line.strip() and not line.startswith('#'):
                encoding, source, labels = line.rstrip('\n').split('\t')
                yield from (Label(label, encoding, source) for label in labels.split(' '))


def add(table: Table, normal: Callable[[str], str], is_python: bool) -> None:
    """Adds the labels of the encodings that a table has. A name that the table has keeps its meaning, unless the Python package reads it
    as CPython does."""
    table[REPLACEMENT] = ('builtin', REPLACEMENT)
    table.update((name, ('whatwg', target)) for name, target in WHATWG.items())
    if is_python:
        for own, target in PYTHON_OWN.items():
            of_c = table.get(own)
            table.update({name: target for name, other in table.items() if other == of_c})
            table[own] = target
        replaced = {name: target for name, (_, target) in table.items() if target in PYTHON_REPLACED}
        table.update((name, ('whatwg', target)) for name, target in replaced.items())
        table.update((name, ('whatwg', name)) for name in PYTHON_REPLACED)
    known = dict(table)
    for label in read():
        target = known.get(normal(label.encoding))
        if target is None or (label.source == 'python' and not is_python):
            continue
        if label.source == 'python':
            table[normal(label.name)] = target
        else:
            table.setdefault(normal(label.name), target)
    if is_python:
        for name in [name for name, (_, target) in table.items() if target in C_ALONE]:
            del table[name]


def left_out(table: Table, normal: Callable[[str], str], reasons: set[str]) -> list[Label]:
    """Returns the labels that are no names in a table, though nothing says why."""
    return [
        label
        for label in read()
        if label.source != 'python'
        and normal(label.name) not in table
        and normal(label.encoding) not in reasons
    ]
