"""Parameters of the headers Content-Type and Content-Disposition whose values are encoded (RFC 2231)."""

from __future__ import annotations

import itertools
import re
import urllib.parse
from typing import Dict, List, NamedTuple, Tuple, Union

from .together import Encoded

_SPECIAL = r"""\s()<>@,;:\\"/\[\]?="""
_TOKEN = rf"[^{_SPECIAL}]+"
_TYPE = re.compile(rf"\s*({_TOKEN}/{_TOKEN})")
_DISPOSITION = re.compile(rf"\s*({_TOKEN})")
#: What is between two semicolons: text, and quoted strings, the last of which may be open.
_SEGMENT = re.compile(r'(?:[^";]+|"(?:[^"\\]+|\\.)*(?:"|\\?\Z))*', re.S)
#: A parameter. As in Python's email package, a special character ends a value without quotes, and the rest is passed over.
_ATTRIBUTE = rf"[^{_SPECIAL}*']*"
_PARAMETER = re.compile(
    rf"""\s*(?P<name>[^{_SPECIAL}*'%]+)(?:\*(?P<section>[0-9]{{1,4}}))?(?P<extended>\*)?\s*
    (?:=\s*(?:"(?P<quoted>(?:[^"\\]+|\\.)*)|(?P<plain>(?:{_ATTRIBUTE}'{_ATTRIBUTE}')?{_ATTRIBUTE})))?""",
    re.S | re.X,
)
_ESCAPED = re.compile(r"\\(.)", re.S)


class _Section(NamedTuple):
    """A section of a parameter's value. Most values have one."""

    number: int
    is_extended: bool
    value: str


class _Value:
    """The value of a parameter, from sections: text and percent-encoded bytes."""

    def __init__(self, sections: List[_Section]) -> None:
        first = sections[0]
        self.charset, value = _charset(first.value) if first.is_extended else ("us-ascii", first.value)
        self.parts: List[Union[str, bytes]] = []
        self._add(first._replace(value=value))
        wanted = 1
        # As Python's email package does: of several values of one parameter the first counts, and gaps do not.
        rest = [] if not first.is_extended and sections[1:] and sections[1].number == 0 else sections[1:]
        for section in rest:
            if section.number == wanted or section.is_extended:
                self._add(section)
                wanted += 1

    def _add(self, section: _Section) -> None:
        data = section.value.encode("utf-8", "surrogateescape") if section.is_extended else b""
        self.parts.append(urllib.parse.unquote_to_bytes(data) if section.is_extended else section.value)

    def pieces(self, name: str) -> List[Union[str, Encoded]]:
        """Returns the parameter. If it has bytes, what is not Encoded is percent-encoded."""
        texts = [part for part in self.parts if isinstance(part, str)]
        if len(texts) == len(self.parts):
            return [f"; {name}=" + '"' + "".join(texts).replace("\\", r"\\").replace('"', r"\"") + '"']
        found: List[Union[str, Encoded]] = [f"; {name}*=utf-8''"]
        for is_text, group in itertools.groupby(self.parts, lambda part: isinstance(part, str)):
            parts = list(group)
            data = b"".join(part for part in parts if isinstance(part, bytes))
            found.append(written("".join(part for part in parts if isinstance(part, str))) if is_text else Encoded(self.charset, data))
        return found


def _charset(value: str) -> Tuple[str, str]:
    """Returns the charset of a value, and what follows it."""
    pieces = value.split("'", 2)
    return (pieces[0], pieces[2]) if len(pieces) == 3 else ("us-ascii", value)


def _sections(text: str) -> Dict[str, List[_Section]]:
    """Returns the parameters of a header, in the order of their names. What is none is left out."""
    found: Dict[str, List[_Section]] = {}
    at = 0
    while at < len(text):
        segment = _SEGMENT.match(text, at)
        end = segment.end() if segment else len(text)
        parameter = _PARAMETER.match(text, at, end)
        if parameter:
            quoted = parameter["quoted"]
            value = _ESCAPED.sub(r"\1", quoted) if quoted is not None else parameter["plain"] or ""
            section = _Section(int(parameter["section"] or 0), bool(parameter["extended"]), value)
            found.setdefault(parameter["name"], []).append(section)
        at = end + 1
    return found


def split(value: str, is_type: bool) -> List[Union[str, Encoded]]:
    """Returns a header as a type and its parameters, of which the encoded ones are apart. A header without `*` has none, and stays as it
    is."""
    if "*" not in value:
        return [value]
    segment = _SEGMENT.match(value)
    end = segment.end() if segment else len(value)
    head = (_TYPE if is_type else _DISPOSITION).match(value, 0, end)
    pieces: List[Union[str, Encoded]] = [head[1] if head else "text/plain" if is_type else "attachment"]
    for name, sections in _sections(value[end + 1 :]).items():
        pieces.extend(_Value(sorted(sections, key=lambda section: section.number)).pieces(name))
    return pieces


def written(text: str) -> str:
    """Returns a text in UTF-8, percent-encoded."""
    return urllib.parse.quote(text.encode("utf-8", "surrogateescape"), safe="")
