"""The codes of a charmap: its byte strings and its characters, as the form of its encoding (see forms.py).

Strings are kept as bits, one number for all that differ only in the last byte (see mappings.py), and characters as ranges.
Scanners and regular expressions are made from both.
"""

from __future__ import annotations

import functools
import re
from typing import Callable, Dict, FrozenSet, List, NamedTuple, Optional, Pattern, Set, Tuple

from . import mappings
from .charmaps import Charmap
from .errors import ILLEGAL, INCOMPLETE, CharmapRefused
from .forms import PatternForm, Span
from .mappings import LastBytes, Range
from .patterns import Patterns
from .scan import Box, Scanner, Strings, union

_ALL = (1 << 256) - 1
_UNDEFINED = "character maps to <undefined>"
#: The most bytes of a string that a scanner finds.
_MOST_SCANNED = 4


class Computed(NamedTuple):
    """Codes of four bytes that are in no charmap, and that the client computes."""

    #: The first of their characters, and the last.
    span: Span
    box: Box
    #: The first two bytes of each.
    beginnings: FrozenSet[bytes]
    #: The pattern of a code, and that of its first two or three bytes.
    multiple: bytes
    cut: bytes
    #: Adds the last bytes of computed codes to those of a charmap.
    last_bytes: Callable[[LastBytes], LastBytes]


class Beside(NamedTuple):
    """What an encoding has beside the codes of its charmap."""

    computed: Optional[Computed] = None
    #: The pattern of what is cut at the end of a text, though no code may begin so.
    waiting: bytes = b""
    #: Bytes that are one fault together. Of all others the first byte is one.
    faults: FrozenSet[bytes] = frozenset()


class _Strings:
    """Byte strings as bits: the last bytes, by the bytes before them."""

    def __init__(self, found: LastBytes, beside: Beside) -> None:
        self._leaves = found
        self._computed, self._waiting, self._faults = beside

    def scanner(self, separator: bytes) -> Optional[Scanner]:
        """Returns the scanner that finds the faults of a text, or None if there is none for these strings. See unscanned()."""
        leaves = {prefix: last for prefix, last in self._leaves.items() if len(prefix) < _MOST_SCANNED}
        by_size: Dict[int, List[bytes]] = {}
        for prefix in leaves:
            by_size.setdefault(len(prefix), []).append(prefix)
        pairs: Dict[int, int] = {}
        for prefix in by_size.get(1, ()):
            last = leaves[prefix]
            pairs[last] = pairs.get(last, 0) | 1 << prefix[0]
        boxes: List[Box] = [(leads, last) for last, leads in pairs.items()]
        boxes.extend(self._box(size, prefixes) for size, prefixes in by_size.items() if size > 1)
        shorter = {prefix[:size] for size in range(max(by_size)) for prefix in leaves if len(prefix) > size}
        if self._computed:
            boxes.append(self._computed.box)
            shorter |= self._computed.beginnings
            leaves = self._computed.last_bytes(leaves)
        waiting = re.compile(b"(?s)" + self._waiting) if self._waiting else None
        return Scanner.of(leaves.get(b"", 0), boxes, separator, Strings(leaves, shorter, waiting))

    def unscanned(self) -> Optional[Pattern[bytes]]:
        """Returns the pattern of what a scanner does not find: bytes that are one fault together, and the beginnings of long strings."""
        beginnings = {prefix[:2] for prefix in self._leaves if len(prefix) >= _MOST_SCANNED}
        found = sorted({*self._faults, *beginnings})
        return re.compile(b"|".join(map(re.escape, found))) if found else None

    def _box(self, size: int, prefixes: List[bytes]) -> Box:
        """Returns the bytes that strings have at each place."""
        before = b"".join(prefixes)
        columns = [union(1 << byte for byte in set(before[at::size])) for at in range(size)]
        return (*columns, union(set(map(self._leaves.__getitem__, prefixes))))

    def _tree(self) -> Tuple[Dict[bytes, int], Dict[bytes, Set[int]]]:
        """Returns the last bytes of the strings by the bytes before them, and the bytes between by the bytes before those."""
        after: Dict[bytes, Set[int]] = {}
        for prefix in self._leaves:
            while prefix and prefix[-1] not in after.setdefault(prefix[:-1], set()):
                after[prefix[:-1]].add(prefix[-1])
                prefix = prefix[:-1]
        return dict(self._leaves), after

    def patterns(self, separator: bytes) -> Patterns:
        """Returns the patterns of all strings except the separator."""
        leaves, after = self._tree()
        leaves[separator[:-1]] &= ~(1 << separator[-1])
        kinds = _kinds(b"", leaves, after)
        single, leads = leaves.get(b"", 0), 0
        for bits in kinds.values():
            leads |= bits
        patterns = Patterns(
            single=_class(single),
            lead=_class(leads),
            multiple=b"|".join(_class(bits) + rest for (rest, _), bits in _by_size(kinds)),
            never=_class(_ALL & ~(single | leads)),
            bad=b"|".join(_class(bits) + (b"(?:(?:%s)\\Z)?" % cut if cut else b"") for (_, cut), bits in _by_size(kinds)),
            cut=b"|".join(_class(bits) + (b"(?:%s)?" % cut if cut else b"") for (_, cut), bits in _by_size(kinds)),
        )
        if self._waiting:
            patterns = patterns._replace(cut=self._waiting, waiting=self._waiting)
        if self._faults:
            whole = b"|".join(re.escape(each) for each in sorted(self._faults))
            patterns = patterns._replace(bad=whole + b"|" + patterns.bad)
        computed = self._computed
        if computed is None:
            return patterns
        return patterns._replace(
            multiple=patterns.multiple + b"|" + computed.multiple,
            bad=b"(?:%s)\\Z|%s" % (computed.cut, patterns.bad),
            cut=computed.cut + b"|" + patterns.cut,
        )


#: Sets of bytes, as bits, by the patterns of what follows each of them: up to the end of a string, and not up to its end.
_Kinds = Dict[Tuple[bytes, bytes], int]


def _kinds(prefix: bytes, leaves: Dict[bytes, int], after: Dict[bytes, Set[int]]) -> _Kinds:
    """Returns the bytes after a prefix that do not end a string."""
    kinds: _Kinds = {}
    for byte in after.get(prefix, ()):
        kind = _patterns(prefix + bytes((byte,)), leaves, after)
        kinds[kind] = kinds.get(kind, 0) | 1 << byte
    return kinds


def _by_size(kinds: _Kinds) -> List[Tuple[Tuple[bytes, bytes], int]]:
    return sorted(kinds.items(), key=lambda kind: -bin(kind[1]).count("1"))


def _patterns(prefix: bytes, leaves: Dict[bytes, int], after: Dict[bytes, Set[int]]) -> Tuple[bytes, bytes]:
    """Returns patterns of what follows a prefix: up to the end of a string, and not up to its end."""
    last = leaves.get(prefix, 0)
    good = [_class(last)] if last else []
    cut = []
    for (rest, beginning), bits in _by_size(_kinds(prefix, leaves, after)):
        good.append(_class(bits) + rest)
        cut.append(_class(bits) + (b"(?:%s)?" % beginning if beginning else b""))
    return (good[0] if len(good) == 1 else b"(?:%s)" % b"|".join(good)), b"|".join(cut)


@functools.lru_cache(maxsize=4096)
def _class(bits: int) -> bytes:
    """Returns the pattern of one byte out of several."""
    if not bits:
        return b""
    spans = [(byte, byte + 1) for byte in range(256) if bits >> byte & 1]
    return b"[%s]" % b"".join(b"\\x%02x-\\x%02x" % (first, end - 1) for first, end in mappings.merged(spans))


def _separator(found: List[Range]) -> Tuple[str, bytes]:
    """Returns a character whose only byte string has the least length, a rare character if the charmap has it."""
    shortest = min(length for _, _, _, length in found)
    able = sorted((first, code) for first, count, code, length in found if count == 1 and length == shortest)
    for mark, code in able:
        if sum(first <= mark < first + count for first, count, _, _ in found) == 1:
            return chr(mark), code.to_bytes(shortest, "big")
    raise CharmapRefused("", "each of its characters has two encodings")


def _usual_separator(charmap: Charmap, body: bytes, rest: bytes) -> Optional[Tuple[str, bytes]]:
    """Returns U+0000, which most charmaps have once, and its byte string."""
    at = body.find(b"<U0000>")
    usual = re.compile(rb"<U0000>[ \t]+%sx([0-9A-Fa-f]{2})\s" % re.escape(charmap.escape)).match(body, at) if at >= 0 else None
    if usual is None or charmap.shortest != 1 or at > 0 and body[at - 1 : at] != b"\n":
        return None
    if body.count(b"<U0000") + rest.count(b"<U0000") > 1:
        return None
    return "\0", bytes((int(usual[1], 16),))


class CharmapForm(PatternForm):
    """The form of a charmap's encoding. Its parts are made when they are first needed."""

    def __init__(self, charmap: Charmap, rest: bytes = b"", written: Optional[Charmap] = None, beside: Beside = Beside()) -> None:
        """`charmap` may be the beginning of a longer one, whose other lines are `rest`. `written` is the one for writing."""
        self._charmap = charmap
        self._written = written or charmap
        self._rest = rest
        self._beside = beside
        self.is_multibyte = charmap.longest > 1
        mark, separator = _usual_separator(charmap, charmap.body(), rest) or _separator(self._ranges())
        super().__init__(separator, mark, not self.is_multibyte)
        self.lacking_reason = ILLEGAL if self.is_multibyte else _UNDEFINED

    def _ranges(self) -> List[Range]:
        bodies = (self._charmap.body(), self._rest)
        return [each for body in bodies for each in mappings.ranges(body, self._charmap.escape)]

    @functools.cached_property
    def _strings(self) -> _Strings:
        found = mappings.last_bytes(self._charmap.body(), self._charmap.escape)
        for before, last in mappings.last_bytes(self._rest, self._charmap.escape).items():
            found[before] = found.get(before, 0) | last
        return _Strings(found, self._beside)

    @functools.cached_property
    def _scanner(self) -> Optional[Scanner]:
        return self._strings.scanner(self.separator)

    @functools.cached_property
    def _unscanned(self) -> Optional[Pattern[bytes]]:
        return self._strings.unscanned()

    def scanner(self, window: bytes) -> Optional[Scanner]:
        return None if self._unscanned and self._unscanned.search(window) else self._scanner

    def patterns(self) -> Patterns:
        return self._strings.patterns(self.separator)

    def has(self) -> List[Span]:
        found = mappings.spans(self._written.body(), self._written.escape)
        computed = self._beside.computed
        more = [(computed.span[0], computed.span[1] + 1)] if computed else []
        return [(first, end - 1) for first, end in mappings.merged(sorted([*found, *self._rest_spans, *more]))]

    # ---- the rest of a charmap of which only the beginning is uploaded

    def has_in_rest(self, character: str) -> bool:
        """Whether the rest of the charmap has a character."""
        return any(first <= ord(character) < end for first, end in self._rest_spans)

    def may_have_in_rest(self, data: bytes) -> bool:
        """Whether bytes may begin with a byte string of the rest."""
        return self._rest_first_bytes is None or not self._rest_first_bytes.isdisjoint(data[:1])

    @functools.cached_property
    def _rest_spans(self) -> List[Span]:
        """The characters of the rest: the first of each run, and the one after its last."""
        return mappings.spans(self._rest, self._charmap.escape)

    @functools.cached_property
    def _rest_first_bytes(self) -> Optional[Set[int]]:
        return mappings.first_bytes(self._rest, self._charmap.escape)

    def reason(self, item: bytes, is_cut: bool) -> str:
        if is_cut:
            return INCOMPLETE
        return self.lacking_reason
