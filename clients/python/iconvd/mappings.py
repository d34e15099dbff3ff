"""The mappings of a charmap's text: its characters and its byte strings.

A charmap has up to 262,144 mappings, and GB18030's text has 4 MB. For each question one regular expression finds the lines of a
usual text, and their digits are read all at once. Other texts are read line by line.
"""

from __future__ import annotations

import re
import sys
from array import array
from itertools import compress, count, islice, repeat
from operator import add, ne, sub
from struct import iter_unpack
from typing import Any, Dict, Iterable, Iterator, List, Optional, Set, Tuple

from .symbols import SYMBOLS

_NAME = rb"<U([0-9A-Fa-f]{4,8})>(?:\.\.<U([0-9A-Fa-f]{4,8})>)?[ \t]"
_CODE = rb"((?:%sx[0-9A-Fa-f]{2})+)(?=\s)"
_USUAL = rb"^[ \t]*" + _NAME + rb"+" + _CODE
_LINE = re.compile(rb"^[ \t]*<([^>\n]*)>(?:(\.{2,3})<U([0-9A-Fa-f]{4,8})>)?[ \t]+(\S+)", re.M)
_CONSTANT = re.compile(rb".(?:x([0-9A-Fa-f]{2})|d([0-9]{2,3})|([0-7]{2,3}))", re.S)
#: The end of the line before finds a line many times as fast as `^`.
_SINGLE_POINTS = re.compile(rb"\n<U([0-9A-Fa-f]{4,8})>[ \t]")
_POINTS = re.compile(rb"\n" + _NAME)
_BIT = [1 << byte for byte in range(256)]
#: For each index a number with index + 1 low bits.
_FIRST = [(2 << more) - 1 for more in range(256)]
_ALL = (1 << 256) - 1
#: A character, how many characters there are from it on, the bytes of the first as a number (the highest byte first), and how
#: many bytes these are.
Range = Tuple[int, int, int, int]
#: The last bytes of byte strings, as bits, by the bytes before them.
LastBytes = Dict[bytes, int]


def _code(constants: bytes) -> Tuple[int, int]:
    """Returns the number and the length of a byte string such as `\\d129\\d254`."""
    numbers = [int(x or d or o, 16 if x else 10 if d else 8) for x, d, o in _CONSTANT.findall(constants)]
    return int.from_bytes(bytes(number & 0xFF for number in numbers), "big"), len(numbers)


def _point(name: bytes) -> Optional[int]:
    """Returns the character of a name, without the brackets around it."""
    found = re.fullmatch(rb"U([0-9A-Fa-f]{4,8})", name)
    return int(found[1], 16) if found else SYMBOLS.get(name.decode("latin-1"))


def _unusual_ranges(body: bytes) -> Iterator[Range]:
    """Yields the mappings of lines with symbolic names, with decimal and octal constants, and with ranges in decimal."""
    for name, dots, last, constants in _LINE.findall(body):
        code, length = _code(constants)
        if dots == b"...":
            # The decimal digits of the number are the hexadecimal digits of the character.
            for offset, number in enumerate(range(int(name[1:], 10), int(last, 10) + 1)):
                yield int(str(number), 16), 1, code + offset, length
            continue
        point = _point(name)
        if point is not None and length:
            yield point, int(last, 16) - point + 1 if dots else 1, code, length


def _usual_ranges(found: Iterable[Tuple[bytes, bytes, bytes]], constant: bytes) -> Iterator[Range]:
    """Yields the mappings of usual lines from their digits and constants."""
    for first, last, constants in found:
        digits = constants.replace(constant, b"")
        yield int(first, 16), int(last, 16) - int(first, 16) + 1 if last else 1, int(digits, 16), len(digits) // 2


def ranges(body: bytes, escape: bytes) -> List[Range]:
    """Returns the mappings of the lines between CHARMAP and END CHARMAP."""
    usual = re.compile(_USUAL % re.escape(escape), re.M)
    found = list(_usual_ranges(usual.findall(body), escape + b"x"))
    if len(found) == (b"\n" + body).count(b"\n<"):
        return found
    return found + list(_unusual_ranges(usual.sub(b"%", body)))


def pairs(text: bytes, escape: bytes) -> Dict[bytes, str]:
    """Returns the codes of two characters. The files have them in comments."""
    line = re.compile(rb"^%?<U([0-9A-Fa-f]{4,8})><U([0-9A-Fa-f]{4,8})>[ \t]+" + _CODE % re.escape(escape), re.M)
    found: Dict[bytes, str] = {}
    for first, second, constants in line.findall(text):
        code, length = _code(constants)
        found[code.to_bytes(length, "big")] = chr(int(first, 16)) + chr(int(second, 16))
    return found


def _parts(body: bytes) -> Tuple[bytes, bytes]:
    """Returns the lines before the first range, and those from it on. Each part begins with the end of the line before."""
    lines = b"\n" + body
    dots = lines.find(b">..<U")
    at = lines.rfind(b"\n", 0, dots) if dots >= 0 else len(lines)
    return lines[:at], lines[at:]


def _are_all(found: int, body: bytes) -> bool:
    """Whether as many mappings were found as there are lines of mappings."""
    return found == body.count(b"\n<") + body.startswith(b"<") and b"\n " not in body and b"\n\t" not in body


def spans(body: bytes, escape: bytes) -> List[Tuple[int, int]]:
    """Returns the characters of all mappings: the first of each run, and the one after its last. Runs may overlap."""
    head, tail = _parts(body)
    singles = _SINGLE_POINTS.findall(head)
    named = _POINTS.findall(tail)
    if not _are_all(len(singles) + len(named), body):
        return sorted((first, first + count) for first, count, _, _ in ranges(body, escape))
    found = list(_runs(*_points([(first, last or first) for first, last in named])))
    for alike in _alike(singles):
        points = _numbers(alike)
        found.extend(_runs(points, points))
    return sorted(found)


def merged(spans: List[Tuple[int, int]]) -> Iterator[Tuple[int, int]]:
    """Joins sorted spans that touch: yields the first number of each, and the one after its last."""
    begin, end = spans[0] if spans else (0, 0)
    for first, after in spans:
        if first > end:
            yield begin, end
            begin = first
        end = max(end, after)
    if spans:
        yield begin, end


def _alike(items: List[bytes]) -> List[List[bytes]]:
    """Returns the items in groups of one length."""
    sizes = set(map(len, items))
    return [items] if len(sizes) == 1 else [[item for item in items if len(item) == size] for size in sizes]


def _numbers(digits: List[bytes]) -> array[int]:
    """Returns the numbers of four or of up to eight hexadecimal digits. All have as many digits as the first."""
    is_short = len(digits[0]) == 4
    whole = b"".join(digits if is_short or len(digits[0]) == 8 else [each.zfill(8) for each in digits])
    numbers = array("H" if is_short else "I", bytes.fromhex(whole.decode("ascii")))
    if sys.byteorder == "little":
        numbers.byteswap()
    return numbers


def _points(named: List[Tuple[bytes, bytes]]) -> Tuple[array[int], array[int]]:
    """Returns the first characters of ranges, and the last ones."""
    firsts, lasts = ([each.zfill(8) for each in ends] for ends in zip(*named)) if named else ([], [])
    return (_numbers(firsts), _numbers(lasts)) if named else (array("I"), array("I"))


def _runs(firsts: array[int], lasts: array[int]) -> Iterator[Tuple[int, int]]:
    """Yields the runs of ranges that follow each other: the first character, and the one after the last."""
    ends = list(compress(count(1), map(ne, islice(firsts, 1, None), map(add, lasts, repeat(1)))))
    begin = 0
    for end in [*ends, len(firsts)] if firsts else ():
        yield firsts[begin], lasts[end - 1] + 1
        begin = end


def last_bytes(body: bytes, escape: bytes) -> LastBytes:
    """Returns the byte strings of all mappings."""
    found: LastBytes = {}
    head, tail = _parts(body)
    code = _CODE % re.escape(escape)
    singles = re.compile(rb"\n<U[0-9A-Fa-f]{4,8}>[ \t]+" + code).findall(head)
    ranged = re.compile(rb"\n" + _NAME + rb"+" + code).findall(tail)
    if not _are_all(len(singles) + len(ranged), body):
        _add_ranges(found, ranges(body, escape))
        return found
    constant = escape + b"x"
    for alike in _alike(singles):
        for before, last in _strings(alike, constant):
            found[before] = found.get(before, 0) | _BIT[last]
    for size in {len(code) for _, _, code in ranged}:
        _add_alike(found, [each for each in ranged if len(each[2]) == size], constant)
    return found


def first_bytes(body: bytes, escape: bytes) -> Optional[Set[int]]:
    """Returns the first bytes that the byte strings of all mappings may have, or None if they may have any."""
    byte = rb"%sx[0-9A-Fa-f]{2}" % re.escape(escape)
    found = re.compile(rb"\n<[^>\n]*>(?:\.\.<[^>\n]*>)?[ \t]+(%s)" % byte).findall(b"\n" + body)
    ranged = re.compile(rb">\.\.<[^>\n]*>[ \t]+(%s)(?:%s){3}" % (byte, byte)).findall(body)
    if not _are_all(len(found), body) or len(ranged) != body.count(b">.."):
        return None
    # A range may carry into the first of four bytes at most once: there are fewer characters than values of three bytes.
    return {int(constant[-2:], 16) for constant in set(found)} | {int(constant[-2:], 16) + 1 for constant in set(ranged)}


def _strings(codes: List[bytes], constant: bytes) -> Iterator[Tuple[Any, ...]]:
    """Yields the byte strings of constants, all of one length: all bytes but the last one, and the last one."""
    size = len(codes[0]) // 4
    return iter_unpack(f"{size - 1}sB", bytes.fromhex(b"".join(codes).replace(constant, b"").decode("ascii")))


def _add_alike(found: LastBytes, ranged: List[Tuple[bytes, bytes, bytes]], constant: bytes) -> None:
    """Adds the byte strings of ranges whose strings are of one size."""
    firsts, lasts = _points([(first, last or first) for first, last, _ in ranged])
    strings = _strings([code for _, _, code in ranged], constant)
    for (before, low), more in zip(strings, map(sub, lasts, firsts)):
        if 0 <= more <= 0xFF - low:
            found[before] = found.get(before, 0) | _FIRST[more] << low
        else:
            _add_ranges(found, [(0, more + 1, int.from_bytes(before, "big") << 8 | low, len(before) + 1)])


def _add_ranges(found: LastBytes, mappings: Iterable[Range]) -> None:
    """Adds the byte strings of mappings, which count up from the first."""
    for _, count, code, length in mappings:
        low = code & 0xFF
        while low + count > 256:
            before = (code >> 8).to_bytes(length - 1, "big")
            found[before] = found.get(before, 0) | _ALL >> low << low
            code += 256 - low
            count -= 256 - low
            low = 0
        before = (code >> 8).to_bytes(length - 1, "big")
        found[before] = found.get(before, 0) | ((1 << count) - 1) << low
