"""Decoding to str and encoding from str, with Python's error handlers, as generators over a session.

A text without faults is sent to the server as it is. After the first fault the client itself cuts out the faults (see
cutting.py), window by window, and sends what is between them.
"""

from __future__ import annotations

from typing import AnyStr, Iterable, List, NamedTuple, Optional, Sequence, Tuple, Union

from . import joined as joined_codes
from . import shifted, steps
from .cutting import WINDOW, DecodingCut, DecodingHandling, EncodingCut, EncodingHandling, gathered, joined
from .errors import RequestRefused
from .frames import Status
from .known import Known
from .library import Library
from .names import Encoding
from .session import UTF_8, Pair, Session, Steps

#: How many characters, or bytes, of a long text are converted before the next are copied.
_PART = 1_048_576
#: Where a part of a text begins and ends.
Span = Tuple[int, int]
#: The error handler that ends a call at its first fault.
_STRICT = "strict"
#: CPython's names of the encodings of Unicode.
_PYTHON = {
    "UTF-8": "utf-8",
    "UTF-16LE": "utf-16-le",
    "UTF-16BE": "utf-16-be",
    "UTF-32LE": "utf-32-le",
    "UTF-32BE": "utf-32-be",
}


class Decoded(NamedTuple):
    """The text of the first `used` bytes."""

    text: str
    used: int


class TextCodec:
    """Decodes and encodes texts of one encoding."""

    def __init__(self, error_name: str, encoding: Encoding, library: Library, has_faults: bool = False) -> None:
        """`error_name` is the encoding's name in exceptions. `has_faults` says that the text is known to have a fault."""
        # Handlers such as `surrogatepass` need CPython's own names.
        self._error_name = error_name if encoding.is_charmap else _PYTHON.get(encoding.name, error_name)
        self.encoding = encoding
        self._library = library
        #: Whether it is an encoding with shifts.
        self.has_state = encoding == Encoding(False, "UTF-7")
        # After a piece with faults the next one of the text is not sent as it is.
        self._has_faults = has_faults
        #: See DecodingHandling. It is so in encodings of several bytes.
        self.stops_at_end = False
        #: The codes that are two characters each, if the encoding has such.
        self.pairs = joined_codes.pairs_of(encoding)
        #: A letter at the end of the last piece that is not written yet, since a mark may follow.
        self.held = ""
        # Where the last call that encoded ended.
        self._end = 0

    # ---- decoding

    def decode(self, session: Session, data: bytes, errors: str, final: bool, at: int = 0) -> Steps[Decoded]:
        """Decodes the bytes from `at` on. If `final` is false, an incomplete character at the end is not used."""
        end = len(data) if final else self._end_of_whole(data)
        pieces: List[str] = []
        begin = at
        if not self._has_faults:
            at, waits = yield from self._decode_whole(session, data, (at, end), errors == _STRICT, pieces)
            if at == end or (waits and not final):
                return Decoded(self._text(pieces), at)
            if self.has_state:
                # The fault may be within a shifted sequence, of which only the beginning is known.
                at = begin
                pieces.clear()
        form = self._library.form(self.encoding)
        handling = DecodingHandling(form, self._error_name, errors)
        handling.stops_at_end = self.stops_at_end and form.is_multibyte
        while at < end:
            stop = end if self.has_state else min(end, at + WINDOW)
            cut = handling.cut(data, at, stop, stop == end and final)
            self._has_faults = cut.has_faults
            pieces.append((yield from self._decode_cut(session, cut)))
            is_stuck = cut.at == at and not cut.marks
            at = cut.at
            if is_stuck or cut.is_last:
                break
        return Decoded(self._text(pieces), at)

    def _text(self, pieces: List[str]) -> str:
        """Joins the pieces of a text, with both characters of codes that are two."""
        text = "".join(pieces)
        return self.pairs.restored(text) if self.pairs else text

    def _end_of_whole(self, data: bytes) -> int:
        """Returns the end of the bytes that need not wait for others. An open shifted sequence has to wait. So has the beginning
        of a surrogate in UTF-8, as in CPython, since `surrogatepass` may accept it."""
        if self.has_state:
            return shifted.open_at(data)
        waits = self.encoding == UTF_8 and data[-2:-1] == b"\xed" and data[-1] & 0xE0 == 0xA0
        return len(data) - 2 if waits else len(data)

    def _decode_whole(self, session: Session, data: bytes, span: Span, is_careful: bool, pieces: List[str]) -> Steps[Tuple[int, bool]]:
        """Decodes up to the first fault. Returns its place, and whether more bytes may complete a character there."""
        at, end = span
        pair = Pair(UTF_8, self.encoding)
        while at < end:
            limit = end if self.has_state else min(end, at + _PART)
            ran = yield from steps.run(session, pair, data[at:limit], is_careful)
            pieces.append(ran.output.decode("utf-8"))
            at += ran.used
            if ran.status != Status.OK and not (ran.status == Status.EINVAL and limit < end):
                return at, ran.status == Status.EINVAL
        return at, False

    def _decode_cut(self, session: Session, cut: DecodingCut) -> Steps[str]:
        form = self._library.form(self.encoding)
        if len(cut.good) == cut.marks * len(form.separator):
            return "".join(cut.between) if cut.same is None else cut.same * cut.marks
        ran = yield from steps.run(session, Pair(UTF_8, self.encoding), cut.good)
        text = _whole(ran).decode("utf-8")
        if cut.same is None:
            return joined(_checked(text.split(form.mark), cut.between), cut.between)
        if text.count(form.mark) != cut.marks:
            raise RequestRefused("CONV", Status.OK)
        return text.replace(form.mark, cut.same)

    # ---- encoding

    def encode_piece(self, session: Session, text: str, errors: str, is_end: bool) -> Steps[bytes]:
        """Encodes the next piece of a text. A letter at its end with which a mark may have one code is held."""
        whole = self.held + text
        end = len(whole) if is_end or self.pairs is None else len(whole) - self.pairs.held(whole)
        encoded = yield from self.encode(session, whole, errors, 0, end)
        # An error handler may have gone on after that letter.
        self.held = whole[max(end, self._end) :]
        return encoded

    def encode(self, session: Session, text: str, errors: str, at: int = 0, end: Optional[int] = None) -> Steps[bytes]:
        """Encodes the characters from `at` on, up to `end` or the end."""
        pieces: List[bytes] = []
        end = len(text) if end is None else end
        # The server knows no code of two characters.
        self._has_faults |= self.pairs is not None and self.pairs.pattern.search(text, at, end) is not None
        if not self._has_faults:
            at = yield from self._encode_whole(session, text, (at, end), errors == _STRICT, pieces)
        if at < end:
            handling = EncodingHandling(self._library.form(self.encoding), self._error_name, errors)
        while at < end:
            stop = min(end, at + WINDOW)
            if self.pairs and stop < end:
                stop -= self.pairs.held(text[at:stop])
            cut = handling.cut(text, at, stop)
            self._has_faults = bool(cut.between)
            pieces.append((yield from self._encode_cut(session, cut)))
            at = cut.at
        self._end = at
        return b"".join(pieces)

    def _encode_whole(self, session: Session, text: str, span: Span, is_careful: bool, pieces: List[bytes]) -> Steps[int]:
        """Encodes up to the first character that the encoding lacks. Returns its place."""
        at, end = span
        pair = Pair(self.encoding, UTF_8)
        while at < end:
            limit = end if self.has_state else min(end, at + _PART)
            data = text[at:limit].encode("utf-8", "surrogatepass")
            ran = yield from steps.run(session, pair, data, is_careful)
            pieces.append(ran.output)
            at += len(data[: ran.used].decode("utf-8", "surrogatepass"))
            if ran.status != Status.OK:
                break
        return at

    def _encode_cut(self, session: Session, cut: EncodingCut) -> Steps[bytes]:
        form = self._library.form(self.encoding)
        between = yield from self._as_bytes(session, cut.between)
        good = cut.good
        if not any(good):
            return b"".join(between)
        if form.mark > "\x7f":
            # A mark of several bytes is not sent between two lacking characters that follow each other.
            good, between = gathered(good, between)
        output = yield from self._encode_good(session, form.mark.join(good))
        return joined(_checked(form.split(output, len(between)), between), between)

    def _encode_good(self, session: Session, text: str) -> Steps[bytes]:
        ran = yield from steps.run(session, Pair(self.encoding, UTF_8), text.encode("utf-8"))
        return _whole(ran)

    def _as_bytes(self, session: Session, texts: Sequence[Union[str, bytes]]) -> Steps[List[bytes]]:
        """Encodes what error handlers returned, from the bytes of each unit. The server is asked once for each unit."""
        known = self._library.known(self.encoding)
        parts = {text: self._parts(text) for text in texts if isinstance(text, str)}
        yield from self._learn(session, {part for each in parts.values() for part in each if isinstance(part, str)}, known)
        encoded = {
            text: b"".join((known.bytes_of(part) or b"") if isinstance(part, str) else part for part in each) for text, each in parts.items()
        }
        return [encoded[text] if isinstance(text, str) else text for text in texts]

    def _parts(self, text: str) -> List[Union[str, bytes]]:
        """Returns the parts of a text: those that the server encodes, and codes of two characters."""
        if self.pairs is None:
            return [text]
        return [self.pairs.written.get(part, part) for part in self.pairs.parts(text)]

    def finish(self) -> bytes:
        """Returns what ends a text. The server closes each shifted sequence itself."""
        return b""

    def known(self, errors: str) -> Known:
        """Returns the known characters of the encoding."""
        is_local = EncodingHandling(self._library.form(self.encoding), self._error_name, errors).is_local
        return self._library.known(self.encoding, errors if is_local else "")

    def learn(self, session: Session, text: str, errors: str, known: Known) -> Steps[None]:
        """Asks the server for the bytes of the new characters of a text. For those that the encoding lacks it uses what the error
        handler returns, if that is the same in any text."""
        form = self._library.form(self.encoding)
        new = known.new_units((text,))
        data = form.mark.join(new).encode("utf-8", "surrogatepass")
        ran = yield from steps.run(session, Pair(self.encoding, UTF_8), data)
        if ran.status == Status.OK:
            known.add(new, _checked(form.split(ran.output, len(new) - 1), new[1:]))
            return
        handling = EncodingHandling(form, self._error_name, errors)
        replaced = handling.replaced(unit for unit in new if form.lacks(unit) is not None) if handling.is_local else None
        if replaced and form.runs is None:
            yield from self._learn(session, [unit for unit in new if unit not in replaced], known)
            known.add(replaced, (yield from self._as_bytes(session, list(replaced.values()))))

    def _learn(self, session: Session, texts: Iterable[str], known: Known) -> Steps[None]:
        form = self._library.form(self.encoding)
        new = known.new_units(texts)
        if new:
            output = yield from self._encode_good(session, form.mark.join(new))
            known.add(new, _checked(form.split(output, len(new) - 1), new[1:]))


def _whole(ran: steps.Run) -> bytes:
    """Returns the output for a text in which the client found no faults."""
    if ran.status != Status.OK:
        raise RequestRefused("CONV", ran.status)
    return ran.output


def _checked(pieces: List[AnyStr], between: Sequence[object]) -> List[AnyStr]:
    """Returns the pieces of an output if they are as many as were sent."""
    if len(pieces) != len(between) + 1:
        raise RequestRefused("CONV", Status.OK)
    return pieces
