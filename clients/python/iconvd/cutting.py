"""Cutting faults out of a text, with Python's error handlers.

A window of a text becomes good pieces, which the server converts, and between them the results of Python's error handler. The
handler is called for each fault, in order, with the exception that CPython's codec would give it. A handler of Python's own that
looks only at the faulty bytes or characters is called once for each different fault.
"""

from __future__ import annotations

import codecs
from types import BuiltinFunctionType
from typing import AnyStr, Callable, Dict, Iterable, List, NamedTuple, Optional, Sequence, Tuple, TypeVar, Union

from .forms import Form
from .scan import Scanner

#: Bytes or characters that are searched at once.
WINDOW = 65_515
_LOCAL = frozenset(
    "ignore_errors replace_errors backslashreplace_errors xmlcharrefreplace_errors namereplace_errors surrogateescape".split()
)
_Between = TypeVar("_Between", str, bytes)
_Handler = Callable[[UnicodeError], Tuple[Union[str, bytes], int]]


class DecodingCut(NamedTuple):
    """Good bytes with separators between them, the texts that replace the separators, and where the text goes on."""

    good: bytes
    #: How many separators the good bytes have.
    marks: int
    between: Sequence[str]
    at: int
    has_faults: bool
    #: The text that replaces all of them, if that is the same; then `between` is empty.
    same: Optional[str] = None
    #: Whether the text ends there, though bytes are left.
    is_last: bool = False


class EncodingCut(NamedTuple):
    """Pieces that the encoding has, what is between them (one less), and where the text goes on."""

    good: List[str]
    between: List[Union[str, bytes]]
    at: int


def joined(pieces: Sequence[AnyStr], between: Sequence[AnyStr]) -> AnyStr:
    """Joins pieces and what is between them."""
    nothing = pieces[0][:0]
    whole = [nothing] * (len(pieces) + len(between))
    whole[::2] = pieces
    whole[1::2] = between
    return nothing.join(whole)


def gathered(pieces: Sequence[AnyStr], between: Sequence[_Between]) -> Tuple[List[AnyStr], List[_Between]]:
    """Joins pieces with nothing between them, and leaves out the empty pieces."""
    kept: List[AnyStr] = [pieces[0]]
    runs: List[List[_Between]] = []
    for piece, item in zip(pieces[1:], between):
        if runs and not kept[-1]:
            runs[-1].append(item)
            kept[-1] = piece
        else:
            runs.append([item])
            kept.append(piece)
    return kept, [run[0][:0].join(run) for run in runs]


class _Handling:
    """An error handler, for texts of one encoding."""

    def __init__(self, form: Form, name: str, errors: str) -> None:
        """`name` is what exceptions call the encoding."""
        self._form = form
        self._name = name
        self._handle: _Handler = codecs.lookup_error(errors)
        #: Whether it looks only at the faulty bytes or characters.
        self.is_local = isinstance(self._handle, BuiltinFunctionType) and self._handle.__name__ in _LOCAL


class DecodingHandling(_Handling):
    """An error handler, for decoding."""

    #: Whether bytes are left that the handler does not take of a character that the end of the text cuts, as by CPython's decoders of
    #: pieces.
    stops_at_end = False

    def cut(self, data: bytes, at: int, end: int, is_end: bool) -> DecodingCut:
        """Cuts the faults out of the bytes from `at` to `end`. `is_end` says that the text ends there."""
        found: Optional[DecodingCut] = None
        if self.is_local:
            window = data[at:end]
            scanner = self._form.scanner(window)
            found = self._scanned(scanner, window, end, is_end) if scanner else self._cut_at_once(data, at, end, is_end)
        return found or self._cut_one_by_one(data, at, end, is_end)

    def _texts(self, items: Iterable[bytes]) -> Optional[Dict[bytes, str]]:
        """Returns what the handler gives for faults, or None if it has to see their place in the text."""
        texts: Dict[bytes, str] = {}
        try:
            for item in items:
                texts[item], after = text_of(self._handle(UnicodeDecodeError(self._name, item, 0, len(item), "")), len(item))
                if after != len(item):
                    return None
        except UnicodeDecodeError:
            return None
        return texts

    def _scanned(self, scanner: Scanner, window: bytes, end: int, is_end: bool) -> Optional[DecodingCut]:
        faults = scanner.faults(window)
        tail = window[faults.tail :]
        if tail:
            window, faults = window[: faults.tail], faults.cut_short()
        if not is_end:
            end, tail = end - len(tail), b""
        kind = self._handle.__name__
        texts = self._texts([tail] if tail else [])
        if texts is None:
            return None
        if kind == "ignore_errors":
            good, places = scanner.without(window, faults.bytes), faults.separators
        elif kind == "replace_errors":
            first = faults.bytes & ~faults.following
            good, places = scanner.without(scanner.with_separators(window, first), faults.following), faults.separators | first
        else:
            good, places = scanner.with_separators(window, faults.bytes), faults.separators | faults.bytes
        cut = self._between(good, scanner.only(window, places), texts.get(tail, ""), end)
        return cut and cut._replace(has_faults=bool(faults.bytes))

    def _between(self, good: bytes, items: bytes, tail: str, end: int) -> Optional[DecodingCut]:
        """Returns a cut in which the handler's texts replace the items. Each item is a byte or begins with it."""
        form = self._form
        kinds = set(items) - {form.separator[0]}
        texts = self._texts(bytes((byte,)) for byte in kinds)
        if texts is None:
            return None
        between: List[str] = [form.mark] * 256
        for item, text in texts.items():
            between[item[0]] = text
        if tail:
            good += form.separator
        marks = len(items) + bool(tail)
        unlike = {between[byte] for byte in set(items)} | ({tail} if tail else set())
        if len(unlike) <= 1:
            return DecodingCut(good, marks, (), end, True, unlike.pop() if unlike else form.mark)
        return DecodingCut(good, marks, [*map(between.__getitem__, items), *([tail] if tail else ())], end, True)

    def _cut_at_once(self, data: bytes, at: int, end: int, is_end: bool) -> Optional[DecodingCut]:
        """Returns None if the handler has to see the faults' place in the text."""
        form = self._form
        found = form.find_all(data, at, end)
        if found is None:
            return None
        good, items = found
        if items and not is_end and not good[-1] and form.is_cut(items[-1]):
            end -= len(items.pop())
            good.pop()
        kinds = set(items)
        texts = self._texts(kinds - {form.separator})
        if texts is None:
            return None
        has_faults = bool(texts)
        texts[form.separator] = form.mark
        return self._cut(good, list(map(texts.__getitem__, items)), end, has_faults)

    def _cut(self, good: List[bytes], between: List[str], at: int, has_faults: bool) -> DecodingCut:
        """Returns a cut. If two faults follow each other, a separator of several bytes is not sent between them."""
        if len(self._form.separator) > self._form.unit:
            good, between = gathered(good, between)
        if len(set(between)) == 1:
            return DecodingCut(self._form.separator.join(good), len(between), (), at, has_faults, between[0])
        return DecodingCut(self._form.separator.join(good), len(between), between, at, has_faults)

    def _cut_one_by_one(self, data: bytes, at: int, end: int, is_end: bool) -> DecodingCut:
        good: List[bytes] = []
        between: List[str] = []
        size = 0
        has_faults = False
        while True:
            found = self._form.find(data, at, end)
            good.append(found.good)
            size += len(found.good)
            if found.start == found.end or (found.is_cut and not is_end) or size > 2 * WINDOW:
                return self._cut(good, between, found.start, has_faults)
            text, at = found.text, found.end
            if found.reason:
                has_faults = True
                error = UnicodeDecodeError(self._name, data, found.start, found.end, found.reason)
                handled, at = text_of(self._handle(error), len(data))
                text += handled
            between.append(text)
            if found.is_cut and self.stops_at_end:
                return self._cut([*good, b""], between, at, has_faults)._replace(is_last=True)
            if at > end:
                good.append(b"")
                return self._cut(good, between, at, has_faults)


class EncodingHandling(_Handling):
    """An error handler, for encoding."""

    def cut(self, text: str, at: int, end: int) -> EncodingCut:
        """Cuts the characters that the encoding lacks out of those from `at` to `end`."""
        found = self._cut_at_once(text[at:end], end) if self.is_local else None
        return found or self._cut_one_by_one(text, at, end)

    def _cut_at_once(self, window: str, end: int) -> Optional[EncodingCut]:
        """Returns None if the handler has to see the characters' place in the text."""
        form = self._form
        items = form.special.findall(window)
        replaced = self.replaced(set(items) - {form.mark} - form.pairs.keys())
        if replaced is None:
            return None
        replaced[form.mark] = form.separator
        replaced.update(form.pairs)
        return EncodingCut(form.special.split(window), [replaced[item] for item in items], end)

    def replaced(self, items: Iterable[str]) -> Optional[Dict[str, Union[str, bytes]]]:
        """Returns what the handler gives for lacking characters, or None if it has to see their place in the text."""
        replaced: Dict[str, Union[str, bytes]] = {}
        try:
            for item in items:
                error = UnicodeEncodeError(self._name, item, 0, len(item), self._form.lacking_reason)
                replaced[item], after = self._replaced(error, len(item))
                if after != len(item):
                    return None
        except UnicodeEncodeError:
            return None
        return replaced

    def _cut_one_by_one(self, text: str, at: int, end: int) -> EncodingCut:
        form = self._form
        good: List[str] = []
        between: List[Union[str, bytes]] = []
        size = 0
        while at < end and size <= 2 * WINDOW:
            found = form.special.search(text, at)
            if found is None or found.start() >= end:
                break
            good.append(text[at : found.start()])
            size += len(good[-1]) + 1
            if found[0] == form.mark or found[0] in form.pairs:
                between.append(form.pairs.get(found[0], form.separator))
                at = found.end()
                continue
            error = UnicodeEncodeError(self._name, text, found.start(), found.end(), form.lacking_reason)
            replaced, at = self._replaced(error, len(text))
            between.append(replaced)
        else:
            good.append("")
            return EncodingCut(good, between, at)
        return EncodingCut([*good, text[at:end]], between, end)

    def _replaced(self, error: UnicodeEncodeError, size: int) -> Tuple[Union[str, bytes], int]:
        """Returns what the handler gives for characters. Raises the fault if the encoding lacks that text."""
        replaced, after = encoded_by(self._handle(error))
        if isinstance(replaced, bytes):
            if len(replaced) % self._form.unit:
                raise error
        else:
            lacking = self._form.lacks(replaced)
            if self._form.is_ascii_put_in and not replaced.isascii():
                raise error
            if lacking is not None and self._form.is_multibyte:
                raise UnicodeEncodeError(self._name, replaced, lacking, lacking + 1, self._form.lacking_reason)
            if lacking is not None:
                raise error
        return replaced, position(after, size)


def text_of(result: Tuple[Union[str, bytes], int], size: int) -> Tuple[str, int]:
    """Returns the text that a handler gives for faulty bytes, and where the bytes go on."""
    text, after = result
    if not isinstance(text, str) or not isinstance(after, int):
        raise TypeError("decoding error handler must return (str, int) tuple")
    return text, position(after, size)


def encoded_by(result: Tuple[Union[str, bytes], int]) -> Tuple[Union[str, bytes], int]:
    """Returns what a handler gives for lacking characters."""
    replaced, after = result
    if not isinstance(replaced, (str, bytes)) or not isinstance(after, int):
        raise TypeError("encoding error handler must return (str/bytes, int) tuple")
    return replaced, after


def position(after: int, size: int) -> int:
    """Returns the place that a handler names, also if it counts from the end."""
    found = after + size if after < 0 else after
    if not 0 <= found <= size:
        raise IndexError(f"position {after} from error handler out of bounds")
    return found
