"""The form of an encoding: which bytes are a character, which are a fault, and which characters it lacks.

The server says only at which byte it stopped. The client knows the form too, so it finds all faults of a piece of text at once.
It replaces each by a separator, and the server converts the whole piece by one request. The separator is a character. If the
text itself has it, that is cut out like a fault. So the output has it exactly where something was cut out.
"""

from __future__ import annotations

import codecs
import functools
import re
from typing import Callable, Dict, List, NamedTuple, Optional, Pattern, Sequence, Tuple

from .patterns import Patterns
from .scan import Box, Scanner, bits

#: The first and the last of a run of characters.
Span = Tuple[int, int]


class Found(NamedTuple):
    """Good bytes at a place of a text, and the item after them."""

    #: The bytes that the server converts.
    good: bytes
    #: Where the item begins and ends. It is empty at the end of the text.
    start: int
    end: int
    #: CPython's reason for a fault; empty for an item that is not a fault.
    reason: str = ""
    #: The characters of the item, or those before the fault in it.
    text: str = ""
    #: Whether the item is the beginning of a character that the end of the text cuts.
    is_cut: bool = False


class Form:
    """What the client knows of an encoding."""

    #: CPython's reason for characters that the encoding lacks.
    lacking_reason = "surrogates not allowed"
    #: The bytes of an error handler are put into the output if their number is a multiple of this.
    unit = 1
    #: Whether only ASCII characters of an error handler are put into the output, as CPython's codec does.
    is_ascii_put_in = False
    #: The runs of characters that an encoding with shifts writes shifted. They have the same bytes in any text.
    runs: Optional[Pattern[str]] = None
    #: Whether an error handler's text is encoded by itself, so that its faults are faults of that text, as CPython does.
    is_multibyte = False

    def __init__(self, separator: bytes, mark: str, in_runs: bool) -> None:
        """`mark` is the separator's character, and `in_runs` says that CPython reports a run of lacking characters at once."""
        self.separator = separator
        self.mark = mark
        self._in_runs = in_runs
        self._special: Optional[Pattern[str]] = None
        self.pairs: Dict[str, bytes] = {}  # two characters that have one code; see joined.py

    def has(self) -> Sequence[Span]:
        """Returns all characters of the encoding."""
        return SCALARS

    def find(self, data: bytes, at: int, end: int) -> Found:
        """Returns the good bytes from `at` on, and the item after them, before `end`."""
        raise NotImplementedError

    def find_all(self, data: bytes, at: int, end: int) -> Optional[Tuple[List[bytes], List[bytes]]]:
        """Returns all good bytes between `at` and `end`, and the items between them, one less; or None if `find` is needed."""
        raise NotImplementedError

    def scanner(self, window: bytes) -> Optional[Scanner]:
        """Returns the scanner that finds all faults of a window at once, if there is one."""
        return None

    def split(self, data: bytes, count: int) -> List[bytes]:
        """Cuts a text without faults at its `count` separators."""
        raise NotImplementedError

    def is_cut(self, item: bytes) -> bool:
        """Whether an item at the end of a text is the beginning of a character."""
        raise NotImplementedError

    def reason(self, item: bytes, is_cut: bool) -> str:
        """Returns CPython's reason for a fault."""
        raise NotImplementedError

    @property
    def special(self) -> Pattern[str]:
        """The pattern of the mark, and of the lacking characters that CPython reports at once."""
        if self._special is None:
            pairs = "".join(re.escape(pair) + "|" for pair in self.pairs)
            self._special = re.compile(f"{pairs}{re.escape(self.mark)}|{_lacking(self.has())}" + ("+" if self._in_runs else ""))
        return self._special

    def lacks(self, text: str) -> Optional[int]:
        """Returns the place of the first character that the encoding lacks."""
        return next((each.start() for each in self.special.finditer(text) if each[0] not in {self.mark, *self.pairs}), None)


class PatternForm(Form):
    """How bytes are cut into characters and faults, by a regular expression."""

    def patterns(self) -> Patterns:
        """Returns the patterns of the encoding's bytes."""
        raise NotImplementedError

    @functools.cached_property
    def _tokens(self) -> Pattern[bytes]:
        patterns = self.patterns()
        waiting = b"(?:%s)\\Z" % patterns.waiting if patterns.waiting else b""
        items = b"|".join(item for item in (waiting, patterns.never, re.escape(self.separator), patterns.bad, b"\\Z") if item)
        return re.compile(b"(?s)(%s)(%s)" % (patterns.good(), items))

    @functools.cached_property
    def _cut(self) -> Optional[Pattern[bytes]]:
        cut = self.patterns().cut
        return re.compile(b"(?s)" + cut) if cut else None

    def find(self, data: bytes, at: int, end: int) -> Found:
        found = self._tokens.match(data, at, end)
        assert found is not None, "it matches the empty text at the end"
        good, item = found.groups()
        start, stop = found.span(2)
        if not item or item == self.separator:
            return Found(good, start, stop, text=self.mark if item else "")
        is_cut = stop == end and self.is_cut(item)
        return Found(good, start, stop, self.reason(item, is_cut), is_cut=is_cut)

    def find_all(self, data: bytes, at: int, end: int) -> Tuple[List[bytes], List[bytes]]:
        # What is between two matches is empty.
        tokens = self._tokens.split(data[at:end])
        good, items = tokens[1::3], tokens[2::3]
        if len(items) > 1 and not items[-2]:
            good.pop()
            items.pop()
        items.pop()
        return good, items

    def split(self, data: bytes, count: int) -> List[bytes]:
        if len(self.separator) == 1:
            # If there are no more, none of them is within a character.
            pieces = data.split(self.separator)
            if len(pieces) == count + 1:
                return pieces
        return self.find_all(data, 0, len(data))[0]

    def is_cut(self, item: bytes) -> bool:
        return self._cut is not None and self._cut.fullmatch(item) is not None


def _lacking(has: Sequence[Span]) -> str:
    """Returns the pattern of a character outside of sorted spans. It lists the spans or the gaps, the smaller set of both."""
    between = zip([-1, *(last for _, last in has)], [*(first for first, _ in has), 0x110000])
    gaps = [(last + 1, first - 1) for last, first in between if first - last > 1]
    is_rich = sum(min(last, 0xFFFF) - first for first, last in has if first <= 0xFFFF) >= 0x8000
    listed = "".join(f"{_escaped(first)}-{_escaped(last)}" for first, last in (gaps if is_rich else has))
    return f"[{listed}]" if is_rich and gaps else "(?!)" if is_rich else f"[^{listed}]"


def _escaped(point: int) -> str:
    return "\\" + chr(point) if chr(point) in "\\]^-" else chr(point)


class UnicodeForm(PatternForm):
    """The form of an encoding of Unicode. CPython's codec gives the reason of a fault."""

    def __init__(
        self, codec: str, patterns: Patterns, in_runs: bool, last: int = 0x10FFFF, boxes: Optional[Sequence[Box]] = None
    ) -> None:
        """`last` is the last character that the encoding has, and `boxes` are its characters of several bytes, if they can be
        found at once."""
        super().__init__("\0".encode(codec), "\0", in_runs)
        self._patterns = patterns
        self._boxes = boxes
        self._last = last
        self._codec = codec
        self.unit = len(self.separator)
        self.is_ascii_put_in = codec.startswith("utf")
        self.lacking_reason = _python_lacking_reason(codec)

    def patterns(self) -> Patterns:
        return self._patterns

    @functools.cached_property
    def _scanner(self) -> Optional[Scanner]:
        if self._boxes is None:
            return None
        return Scanner.of(bits(0, min(0xFF, self._last)) if not self._boxes else bits(0, 0x7F), self._boxes, self.separator)

    def scanner(self, window: bytes) -> Optional[Scanner]:
        return self._scanner

    def has(self) -> Sequence[Span]:
        return [(first, min(last, self._last)) for first, last in SCALARS if first <= self._last]

    def reason(self, item: bytes, is_cut: bool) -> str:
        return _python_reason(self._codec, item if is_cut else item + "A".encode(self._codec))


@functools.lru_cache(maxsize=4096)
def _python_reason(codec: str, data: bytes) -> str:
    try:
        codecs.decode(data, codec)
    except UnicodeDecodeError as error:
        return error.reason
    return "illegal sequence"


def _python_lacking_reason(codec: str) -> str:
    try:
        "\ud800".encode(codec)
    except UnicodeEncodeError as error:
        return error.reason
    return ""


#: All characters of Unicode.
SCALARS = ((0, 0xD7FF), (0xE000, 0x10FFFF))
_UTF_8 = Patterns(
    single=rb"[\x01-\x7f]",
    lead=rb"[\xc2-\xf4]",
    multiple=rb"[\xc2-\xdf][\x80-\xbf]|[\xe1-\xec\xee\xef][\x80-\xbf][\x80-\xbf]|\xe0[\xa0-\xbf][\x80-\xbf]"
    rb"|\xed[\x80-\x9f][\x80-\xbf]|\xf0[\x90-\xbf][\x80-\xbf][\x80-\xbf]"
    rb"|[\xf1-\xf3][\x80-\xbf][\x80-\xbf][\x80-\xbf]|\xf4[\x80-\x8f][\x80-\xbf][\x80-\xbf]",
    never=rb"[\x80-\xc1\xf5-\xff]",
    bad=rb"[\xc2-\xdf]|\xe0[\xa0-\xbf]?|[\xe1-\xec\xee\xef][\x80-\xbf]?|\xed[\x80-\x9f]?"
    rb"|\xf0(?:[\x90-\xbf][\x80-\xbf]?)?|[\xf1-\xf3][\x80-\xbf]{0,2}|\xf4(?:[\x80-\x8f][\x80-\xbf]?)?",
    cut=rb"[\xc2-\xf4].*",
)
_NEXT = bits(0x80, 0xBF)
_UTF_8_BOXES: List[Box] = [
    (bits(0xC2, 0xDF), _NEXT),
    (bits(0xE0, 0xE0), bits(0xA0, 0xBF), _NEXT),
    (bits(0xE1, 0xEC) | bits(0xEE, 0xEF), _NEXT, _NEXT),
    (bits(0xED, 0xED), bits(0x80, 0x9F), _NEXT),
    (bits(0xF0, 0xF0), bits(0x90, 0xBF), _NEXT, _NEXT),
    (bits(0xF1, 0xF3), _NEXT, _NEXT, _NEXT),
    (bits(0xF4, 0xF4), bits(0x80, 0x8F), _NEXT, _NEXT),
]
_UTF_16LE = Patterns(
    single=rb"(?:[^\0][^\xd8-\xdf]|\0[^\0\xd8-\xdf])",
    lead=b"",
    multiple=rb".[\xd8-\xdb].[\xdc-\xdf]",
    never=b"",
    bad=rb"(?:.[\xd8-\xdb].?|.)\Z|..",
    cut=rb".[\xd8-\xdb].?|.",
)
_UTF_16BE = Patterns(
    single=rb"(?:[^\0\xd8-\xdf].|\0[^\0])",
    lead=b"",
    multiple=rb"[\xd8-\xdb].[\xdc-\xdf].",
    never=b"",
    bad=rb"(?:[\xd8-\xdb]..?|.)\Z|..",
    cut=rb"[\xd8-\xdb]..?|.",
)
_UTF_32LE = Patterns(
    single=b"",
    lead=b"",
    multiple=rb"[^\0][^\xd8-\xdf]\0\0|\0[^\0\xd8-\xdf]\0\0|..[\x01-\x10]\0",
    never=b"",
    bad=b".{1,4}",
    cut=b".{1,3}",
)
_UTF_32BE = _UTF_32LE._replace(multiple=rb"\0\0[^\0\xd8-\xdf].|\0\0\0[^\0]|\0[\x01-\x10]..")
_ASCII = Patterns(rb"[\x01-\x7f]", b"", b"", rb"[\x80-\xff]", b"", b"")

#: The forms of the built-in encodings, except UTF-7; see shifted.py.
BUILTIN: Dict[str, Callable[[], Form]] = {
    "US-ASCII": lambda: UnicodeForm("ascii", _ASCII, True, 0x7F, ()),
    "ISO-8859-1": lambda: UnicodeForm("latin-1", _ASCII._replace(single=rb"[\x01-\xff]", never=b""), True, 0xFF),
    "UTF-8": lambda: UnicodeForm("utf-8", _UTF_8, True, boxes=_UTF_8_BOXES),
    "UTF-16LE": lambda: UnicodeForm("utf-16-le", _UTF_16LE, False),
    "UTF-16BE": lambda: UnicodeForm("utf-16-be", _UTF_16BE, False),
    "UTF-32LE": lambda: UnicodeForm("utf-32-le", _UTF_32LE, False),
    "UTF-32BE": lambda: UnicodeForm("utf-32-be", _UTF_32BE, False),
}
