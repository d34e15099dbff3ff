"""What is read of a charmap's text at once is what its lines say one by one."""

from __future__ import annotations

import unittest
from typing import Dict, Set, Tuple

import support  # noqa: F401

from iconvd import charmaps, mappings
from iconvd.charmaps import Charmap
from iconvd.codes import CharmapForm

HEAD = b"<code_set_name> ODD\n<mb_cur_min> 1\n<mb_cur_max> 4\n<comment_char> %\n<escape_char> /\nCHARMAP\n"
#: Lines that are usual, and others: each makes a charmap together with the first.
FIRST = b"<U0000> /x00 NULL\n<U003F> /x3f QUESTION MARK\n"
LINES = (
    b"",
    b"<U0041>..<U005A> /x41\n",
    b"<U00010000> /x90/x30/x81/x30\n<U00010001> /x90/x30/x81/x31\n<U10FFFF> /x90/x31/x81/x30\n",
    b"<U4E00>..<U4E80> /xd2/xc0 carried into the first byte\n<U5000> /xd4/xc0\n",
    b"<U00020000>..<U0002FFFF> /x95/x32/x82/x36\n<U0041> /x41\n",
    b"<U0100>...<U0103> /d129/d254 in decimal\n",
    b" <U0041> /x41 begins with a blank\n",
    b"<A> /x41\n<U0042> /102 in octal\n",
    b"% a comment\n\n<U0041>\t/x41\tA\n",
    b"<U0041> /x41\n<U0042> /x42\r\n<U0043> /x43",
)


def charmap(lines: bytes) -> Charmap:
    return Charmap(b"ODD", HEAD + FIRST + lines + b"\nEND CHARMAP\n", 0, 1, 4, b"/")


def one_by_one(found: Charmap) -> Tuple[Set[int], Dict[bytes, Set[int]]]:
    """Returns the characters, and the last bytes of the byte strings by those before them."""
    characters: Set[int] = set()
    strings: Dict[bytes, Set[int]] = {}
    for first, count, code, length in mappings.ranges(found.body(), found.escape):
        characters.update(range(first, first + count))
        for number in range(code, code + count):
            string = number.to_bytes(length, "big")
            strings.setdefault(string[:-1], set()).add(string[-1])
    return characters, strings


class AtOnce(unittest.TestCase):
    def check(self, found: Charmap, label: object) -> None:
        characters, strings = one_by_one(found)
        spans = mappings.spans(found.body(), found.escape)
        self.assertEqual({point for first, end in spans for point in range(first, end)}, characters, label)
        last = mappings.last_bytes(found.body(), found.escape)
        read = {before: {byte for byte in range(256) if bits >> byte & 1} for before, bits in last.items() if bits}
        self.assertEqual(read, strings, label)
        form = CharmapForm(found)
        for point in (0, 0x40, 0x41, 0x5A, 0x5B, 0x103, 0x4E80, 0x4E81, 0xD800, 0xFFFF, 0x10000, 0x1FFFF, 0x20000, 0x10FFFF):
            self.assertEqual(form.lacks(chr(point)) is None, point in characters, (label, hex(point)))

    def test_lines(self) -> None:
        for lines in LINES:
            self.check(charmap(lines), lines)

    def test_files(self) -> None:
        for file in ("GB18030", "EUC-TW", "EUC-JP", "BIG5", "KOI8-R", "JOHAB", "CP949", "IBM1047"):
            self.check(charmaps.mend(file, charmaps.read_file(file)), file)


if __name__ == "__main__":
    unittest.main()
