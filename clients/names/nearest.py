#!/usr/bin/env python3
"""Finds encodings of the system's C library that are near a charmap: candidates for repairs.tsv.

    nearest.py NAMES_TSV

Of each encoding of one byte whose name the table lacks it prints a name, the charmap that it differs from in the fewest bytes, how many
these are, and how many characters the C library also writes that it does not read. Nothing at build time needs it.
"""

from __future__ import annotations

import glob
import os
import subprocess
import sys

import check
import generate

Codes = dict[bytes, str]


def missing(path: str) -> list[str]:
    """One name of each encoding that `iconv -l` lists and the table lacks."""
    with open(path, encoding='utf-8') as lines:
        known = {line.split('\t')[0] for line in lines}
    groups = generate.Groups()
    for folder in glob.glob(generate.GCONV):
        generate.read_modules(folder, groups)
    listed = subprocess.run(['iconv', '-l'], check=True, capture_output=True, text=True).stdout.split()
    names = {generate.normal(name) for name in listed} - known
    return sorted({groups.root(name): name for name in sorted(names, reverse=True)}.values())


def charmaps() -> dict[str, Codes]:
    """The charmaps of one byte."""
    found: dict[str, Codes] = {}
    for path in sorted(glob.glob(generate.CHARMAPS + '/*.gz')):
        name = os.path.basename(path)[:-len('.gz')]
        codes: Codes = {}
        for data, character, _ in check.mappings(name):
            codes.setdefault(data, character)
        if codes and max(map(len, codes)) == 1:
            found[name] = codes
    return found


def read_codes(name: str) -> Codes:
    """What the C library reads of each byte."""
    reader = check.Converter('UTF-32BE', name)
    read = {bytes([byte]): reader.convert(bytes([byte])) for byte in range(256)} if reader.there else {}
    return {code: text.decode('utf-32-be') for code, text in read.items() if text}


def written_alone(name: str, codes: Codes) -> int | None:
    """How many characters the C library writes as bytes that it reads as others. None: it has characters of several bytes."""
    writer, count = check.Converter(name, 'UTF-32BE'), 0
    for point in range(0x10000):
        code = writer.convert(chr(point).encode('utf-32-be', 'surrogatepass'))
        if code and len(code) > 1:
            return None
        count += bool(code) and codes.get(code or b'') != chr(point)
    return count


def main() -> None:
    files = charmaps()
    for name in missing(sys.argv[1]):
        codes = read_codes(name)
        alone = written_alone(name, codes) if codes else None
        if alone is not None:
            distances = {file: sum(codes.get(code) != other.get(code) for code in codes.keys() | other.keys()) for file, other in files.items()}
            nearest = min(distances, key=distances.__getitem__)
            print('%s\t%s\t%d bytes\t%d characters more written' % (name, nearest, distances[nearest], alone), flush=True)


if __name__ == '__main__':
    main()
