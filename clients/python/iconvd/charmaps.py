"""Charmaps: finds, reads and mends the files of the system, and reads the caller's own charmaps.

The files of Debian's package `locales` are made for localedef(1), and some need mending before the server takes them. They get
a name of their own (two files share one), the least and the greatest length of a character if the file does not have them, and
a missing line CHARMAP. Lines marked `%IRREVERSIBLE%` are moved after all others: both mappings of a character are read, and the
first is written.
"""

from __future__ import annotations

import gzip
import os
import re
import zlib
from itertools import repeat
from operator import sub
from typing import Dict, List, NamedTuple, Optional, Tuple

from . import hangul, mappings
from .errors import CharmapRefused
from .repairs import Mapping, Repairs

#: The folder of the system's charmaps. The environment variable ICONVD_CHARMAPS names another.
FOLDER = "/usr/share/i18n/charmaps"
#: The most bytes of a charmap's text that the server takes.
MAX_TEXT = 8_388_608
#: Bytes of a file whose beginning is uploaded first.
LONG_TEXT = 2_097_152

_DECLARATION = re.compile(rb"^<(code_set_name|escape_char|comment_char|mb_cur_min|mb_cur_max)>[ \t]+(\S+)", re.M)
#: The line CHARMAP, or a mapping in a file that has no such line.
_BEGIN = re.compile(rb"^(?:CHARMAP.*\n?|(?=<U))", re.M)
_END = b"END CHARMAP"
#: Combining sequences, which have several names, are not mappings.
_MAPPING = re.compile(rb"^[ \t]*(%IRREVERSIBLE%)?(<[^>\n]*>(?:\.{2,3}<[^>\n]*>)?)[ \t]+(\S+)", re.M)
_SPAN = re.compile(rb"<U([0-9A-Fa-f]+)>\.{2,3}<U([0-9A-Fa-f]+)>")
_RANGE = re.compile(rb"<U([0-9A-Fa-f]+)>(\.{2,3})<U([0-9A-Fa-f]+)>")


class Charmap(NamedTuple):
    """A charmap to upload."""

    #: The name in its text.
    name: bytes
    text: bytes
    #: How many mappings it has, at most.
    mappings: int
    #: The lengths of its byte strings.
    shortest: int
    longest: int
    escape: bytes = b"\\"

    def body(self) -> bytes:
        """Returns the lines between CHARMAP and END CHARMAP."""
        return _body(self.text)[1]


def folder() -> str:
    """Returns the folder of the charmaps."""
    return os.environ.get("ICONVD_CHARMAPS") or FOLDER


def listed() -> List[str]:
    """Returns the names of the charmap files in the folder, without `.gz`."""
    try:
        files = os.listdir(folder())
    except OSError:
        return []
    return sorted(name[: -len(".gz")] if name.endswith(".gz") else name for name in files)


def is_there(name: str) -> bool:
    """Whether the folder has a charmap file of that name."""
    path = os.path.join(folder(), name)
    return os.path.exists(path + ".gz") or os.path.exists(path)


def _why_missing(path: str) -> str:
    """Returns what is missing: the folder of charmaps, or the file in it."""
    there = os.path.isdir(folder())
    what = f"there is no file {path}" if there else f"there is no charmap folder {folder()}"
    return what + ": Debian's package locales has the system's charmaps, and ICONVD_CHARMAPS names another folder"


def read_file(name: str) -> bytes:
    """Returns the text of the charmap file of that name. Raises CharmapRefused."""
    if not name or "/" in name or name.startswith("."):
        raise CharmapRefused(name, "no such file")
    path = os.path.join(folder(), name)
    try:
        if os.path.exists(path + ".gz"):
            with gzip.open(path + ".gz") as packed:
                return packed.read(8 * MAX_TEXT)
        with open(path, "rb") as file:
            return file.read(8 * MAX_TEXT)
    except FileNotFoundError as error:
        raise CharmapRefused(name, _why_missing(path + ".gz")) from error
    except (OSError, EOFError, zlib.error) as error:
        raise CharmapRefused(name, f"can't be read: {error}") from error


def _body(text: bytes) -> Tuple[bytes, bytes]:
    """Returns the header of a charmap, and the lines between CHARMAP and END CHARMAP."""
    begin = _BEGIN.search(text)
    if not begin:
        return text, b""
    end = begin.end()
    if not text.startswith(_END, end):
        end = text.find(b"\n" + _END, end) + 1 or len(text)
    return text[: begin.start()], text[begin.end() : end]


def _escape(header: bytes) -> bytes:
    """Returns the escape character that a charmap's header declares."""
    declared: Dict[bytes, bytes] = dict(_DECLARATION.findall(header))
    return declared.get(b"escape_char", b"\\")[:1]


def _span(name: bytes) -> int:
    """Returns how many mappings a name or a range has."""
    found = _RANGE.fullmatch(name)
    if not found:
        return 1
    base = 16 if found[2] == b".." else 10
    try:
        return max(1, int(found[3], base) - int(found[1], base) + 1)
    except ValueError:
        return 1


def _is_clean(body: bytes, comment: bytes) -> bool:
    """Whether each line is a mapping in both directions, a comment, or empty."""
    lines = b"\n" + body
    if b"%IRREVERSIBLE%" in body or b"><" in body or len(comment) != 1 or comment in b"<\n":
        return False
    return re.search(rb"\n(?![<\n%s]|\Z)" % re.escape(comment), lines) is None


def _spans(body: bytes) -> int:
    """Returns how many mappings the ranges have beyond the first of each."""
    if b">...<" in body:
        return sum(max(0, int(last, 16) - int(first, 16)) for first, last in _SPAN.findall(body))
    pieces = body.split(b">..<U")
    firsts = map(int, [piece[piece.rfind(b"<U") + 2 :] for piece in pieces[:-1]], repeat(16))
    lasts = map(int, [piece[: piece.find(b">")] for piece in pieces[1:]], repeat(16))
    return sum([more for more in map(sub, lasts, firsts) if more > 0])


def _declared_charmap(name: bytes, body: bytes, declared: Dict[bytes, bytes], mappings: int) -> Charmap:
    """Returns the charmap from lines that need no mending."""
    lengths = declared[b"mb_cur_min"], declared[b"mb_cur_max"]
    head = b"".join(b"<%s> %s\n" % declaration for declaration in declared.items() if declaration[0] != b"code_set_name")
    text = b"<code_set_name> %s\n%sCHARMAP\n%sEND CHARMAP\n" % (name, head, body)
    return Charmap(name, text, mappings, int(lengths[0]), int(lengths[1]), declared[b"escape_char"])


def _measured(name: bytes, text: bytes, lines: List[Tuple[bytes, bytes, bytes]], escape: bytes) -> Charmap:
    lengths = {encoding.count(escape) for _, _, encoding in lines} - {0}
    if not lengths:
        raise CharmapRefused(name.decode("ascii", "replace"), "no line is a mapping")
    count = sum(_span(mapped) if b".." in mapped else 1 for _, mapped, _ in lines)
    return Charmap(name, text, count, min(lengths), max(lengths), escape)


def mend(file: str, text: bytes) -> Charmap:
    """Returns the charmap of that file, mended for the server. Raises CharmapRefused if no line is a mapping."""
    header, body = _body(text)
    declared: Dict[bytes, bytes] = dict(_DECLARATION.findall(header))
    name = b"map-" + file.encode("ascii", "replace")
    if len(declared) == 5 and _is_clean(body, declared[b"comment_char"]):
        return _declared_charmap(name, body, declared, body.count(b"\n<") + 1 + _spans(body))
    escape = _escape(header)
    lines = _MAPPING.findall(body)
    found = _measured(name, b"", lines, escape)
    head = [
        b"<code_set_name> " + name,
        b"<escape_char> " + escape,
        b"<mb_cur_min> %d" % found.shortest,
        b"<mb_cur_max> %d" % found.longest,
        b"CHARMAP",
    ]
    both_ways = [mapped + b" " + encoding for one_way, mapped, encoding in lines if not one_way]
    read_only = [mapped + b" " + encoding for one_way, mapped, encoding in lines if one_way]
    return found._replace(text=b"\n".join(head + both_ways + read_only + [b"END CHARMAP", b""]))


def _spelled(code: bytes, escape: bytes) -> bytes:
    """Returns the constants of bytes."""
    return b"".join(escape + b"x%02x" % byte for byte in code)


def _kept(lines: List[Tuple[bytes, bytes]], escape: bytes, repairs: Repairs) -> List[bytes]:
    """Returns the mappings of a file that its repairs leave."""
    dropped = {_spelled(code, escape) for code in repairs.dropped}
    if repairs.is_computed:
        lines = [line for line in lines if len(line[0]) < len(b"<U00010000>")]
    kept = [b" ".join(line) for line in lines if b">.." not in line[0] and line[1].lower() not in dropped]
    ranged = b"".join(b"%s %s\n" % line for line in lines if b">.." in line[0])
    for first, count, code, length in mappings.ranges(ranged, escape):
        codes = [(code + step).to_bytes(length, "big") for step in range(count)]
        kept.extend(b"<U%04X> %s" % (first + step, _spelled(each, escape)) for step, each in enumerate(codes) if each not in repairs.dropped)
    return kept


def _repaired_text(name: bytes, escape: bytes, lines: List[bytes]) -> Charmap:
    lengths = {line.count(escape) for line in lines}
    head = [b"<code_set_name> " + name, b"<escape_char> " + escape, b"<comment_char> %", b"<mb_cur_min> %d" % min(lengths)]
    body = b"\n".join(lines)
    text = b"\n".join([*head, b"<mb_cur_max> %d" % max(lengths), b"CHARMAP", body, b"END CHARMAP", b""])
    return Charmap(name, text, len(lines) + _spans(body), min(lengths), max(lengths), escape)


class Repaired(NamedTuple):
    """The charmaps of an encoding: for reading, and for writing if that is another."""

    read: Charmap
    written: Charmap


def _codes(text: bytes) -> Dict[bytes, int]:
    """Returns the codes of a charmap's text, with their characters."""
    header, body = _body(text)
    found = mappings.ranges(body, _escape(header))
    return {(code + step).to_bytes(length, "big"): first + step for first, count, code, length in found for step in range(count)}


def _added(text: bytes, repairs: Repairs) -> List[Mapping]:
    """Returns the mappings of other charmaps that the repairs add to a charmap's text."""
    if not repairs.more:
        return []
    taken = {*_codes(text), *repairs.dropped}
    return [
        Mapping(point, code)
        for more in repairs.more
        for code, point in _codes(read_file(more.file)).items()
        if code.startswith(more.beginning) and code not in taken
    ]


def repaired(encoding: str, text: bytes, repairs: Repairs) -> Repaired:
    """Returns the charmaps of a file with its repairs. Of two codes of a character the first is written."""
    header, body = _body(text)
    escape = _escape(header)
    found = _MAPPING.findall(body)
    usual = _kept([(mapped, code) for one_way, mapped, code in found if not one_way], escape, repairs)
    read_only = _kept([(mapped, code) for one_way, mapped, code in found if one_way], escape, repairs)
    both, more, read, written = (
        [b"<U%04X> %s" % (point, _spelled(code, escape)) for point, code in some]
        for some in (repairs.both, _added(text, repairs), repairs.read, repairs.written)
    )
    usual += more
    if repairs.has_syllables:
        usual += [b"<U%04X>..<U%04X> %s" % (first, last, _spelled(code, escape)) for first, last, code in hangul.runs()]
    name = b"map-" + encoding.replace("/", "-").encode("ascii", "replace")
    reading = _repaired_text(name, escape, both + usual + read_only + read)
    if not repairs.has_two_texts:
        return Repaired(reading, reading)
    return Repaired(reading, _repaired_text(name + b"-written", escape, both + usual + read_only + written))


class Beginning(NamedTuple):
    """The beginning of a long charmap, as a charmap of its own, and the other lines."""

    charmap: Charmap
    rest: bytes


def beginning(file: str, text: bytes) -> Optional[Beginning]:
    """Returns the mappings of a long file before its first range and before the first character above U+FFFF, if they are half
    of the file or more: the server reads them in a third of the time. They convert as the whole file does, since the first
    mapping of a character counts."""
    begin = _BEGIN.search(text)
    if len(text) < LONG_TEXT or not begin:
        return None
    found = [at for at in (text.find(b">..<U"), text.find(b"\n<U00010")) if at >= 0]
    end = text.rfind(b"\n", 0, min(found) + 1) + 1 if found else 0
    declared: Dict[bytes, bytes] = dict(_DECLARATION.findall(text[: begin.start()]))
    body = text[begin.end() : end]
    if len(declared) < 5 or 2 * len(body) < len(text) or b"%IRREVERSIBLE%" in text:
        return None
    # No file has this name.
    charmap = _declared_charmap(b"map-%s/1" % file.encode("ascii", "replace"), body, declared, body.count(b"\n<") + 1)
    return Beginning(charmap, text[end : text.find(b"\n" + _END, end) + 1 or len(text)])


def own(text: bytes) -> Charmap:
    """Returns a charmap of the caller's own, whose text is left as it is. Raises CharmapRefused if no line is a mapping."""
    header, body = _body(text)
    name = dict(_DECLARATION.findall(header)).get(b"code_set_name", b"").strip(b'"')
    return _measured(name, text, _MAPPING.findall(body), _escape(header))
