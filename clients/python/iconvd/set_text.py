"""Decoding and encoding of texts with escapes and shifts, with Python's error handlers, as generators over a session.

A codec keeps the state of one text. What a call changes is kept when it ends, also if it ends at a fault, as CPython's codecs do.
"""

from __future__ import annotations

import codecs
import re
from typing import Dict, List, Optional, Union

from . import steps
from .coded_sets import CodedSet, slices
from .cutting import encoded_by, position, text_of
from .errors import ILLEGAL, INCOMPLETE, RequestRefused
from .frames import Status
from .framing import WINDOW, ByteParts, Framing, State, Stop, TextParts
from .library import Library
from .names import Encoding, is_replaced, is_shifted
from .replacement import ReplacementCodec
from .session import UTF_8, Pair, Session, Steps
from .text import Decoded, TextCodec

_EIGHT_BITS = re.compile(rb"[\x80-\xff]{1,65536}")
#: The most characters of a piece whose bytes are kept.
_SHORT = 1024


class SetCodec:
    """Decodes or encodes one text, which may be in pieces."""

    def __init__(self, error_name: str, encoding: Encoding, library: Library) -> None:
        """`error_name` is the encoding's name in exceptions."""
        self._error_name = error_name
        self.encoding = encoding
        self._library = library
        self._framing: Framing = library.framing(encoding)
        self._state: State = self._framing.start()
        #: A character at the end of the last piece that is not written yet.
        self.held = ""
        #: Whether bytes are left unused after a fault at the end of the text, as by CPython's decoders of pieces.
        self.stops_at_end = False
        #: Whether the last call ended at a code that the end of the text cuts.
        self.is_cut_at_end = False
        # Where the last call that encoded ended.
        self._end = 0

    # ---- the state

    @property
    def number(self) -> int:
        """The state as the number that CPython's codec keeps it in."""
        return self._framing.number(self._state)

    @number.setter
    def number(self, number: int) -> None:
        self._state = self._framing.state_of(number)

    def restart(self) -> None:
        """Changes the state as a reset of CPython's decoder does."""
        self._framing.restart(self._state)

    def finish(self) -> bytes:
        """Returns what ends a text that is written: the escape or shift to ASCII."""
        return self._framing.close(self._state)

    # ---- decoding

    def decode(self, session: Session, data: bytes, errors: str, final: bool, at: int = 0) -> Steps[Decoded]:
        """Decodes the bytes from `at` on. If `final` is false, an incomplete code or escape at the end is not used."""
        data = bytes(data)
        self.is_cut_at_end = False
        state = self._state.copy()
        pieces: List[str] = []
        is_done = False
        while at < len(data) and not is_done:
            parts = TextParts()
            begin = at
            while 0 <= at - begin < WINDOW and at < len(data) and not is_done:
                stop = self._framing.read(state, data, at, parts)
                at = stop.at
                if stop.size and (final or not stop.is_cut):
                    at = self._replace(state, data, stop, errors, parts)
                is_done = stop.is_cut and (self.stops_at_end or not final)
            pieces.append((yield from self._decoded(session, parts)))
        self._state = state
        return Decoded("".join(pieces), at)

    def _replace(self, state: State, data: bytes, stop: Stop, errors: str, parts: TextParts) -> int:
        """Adds what the error handler gives for a fault. Returns where the text goes on."""
        self.is_cut_at_end = stop.is_cut
        if errors in ("ignore", "replace"):
            run = _EIGHT_BITS.match(data, stop.at)
            count = len(run[0]) if run else 1
            parts.add("\ufffd" * count if errors == "replace" else "")
            return stop.at + (count if run else stop.size)
        reason = INCOMPLETE if stop.is_cut else ILLEGAL
        error = UnicodeDecodeError(self._error_name, data, stop.at, stop.at + stop.size, reason)
        try:
            replaced, at = text_of(codecs.lookup_error(errors)(error), len(data))
        except BaseException:
            self._state = state
            raise
        parts.add(replaced)
        return at

    @staticmethod
    def _decoded(session: Session, parts: TextParts) -> Steps[str]:
        """Has the service convert all codes of each set."""
        work = [(Pair(UTF_8, coded.row.encoding), coded.outer(b"".join(codes))) for coded, codes in parts.runs.items()]
        widths = [coded.outer_width for coded in parts.runs]
        outputs = yield from steps.run_at_once(session, [(pair, steps.cut(codes, width)) for (pair, codes), width in zip(work, widths)])
        converted = {}
        for coded, (_, codes), output in zip(parts.runs, work, outputs):
            converted[coded] = output.decode("utf-8")
            _check(len(converted[coded]) == len(codes) // coded.outer_width)
        return parts.filled(converted)

    # ---- encoding

    def encode_piece(self, session: Session, text: str, errors: str, is_end: bool) -> Steps[bytes]:
        """Encodes the next piece of a text, and what ends the text. The first of two characters that may have one code is held."""
        whole = self.held + text
        end = len(whole) if is_end else len(whole) - self._framing.held(whole)
        encoded = yield from self.encode(session, whole, errors, 0, end)
        # An error handler may have gone on after that character.
        self.held = whole[max(end, self._end) :]
        return encoded + self.finish() if is_end else encoded

    def encode(self, session: Session, text: str, errors: str, at: int = 0, end: Optional[int] = None) -> Steps[bytes]:
        """Encodes the characters from `at` on, up to `end` or the end. See `finish`."""
        state = self._state.copy()
        pieces: List[bytes] = []
        end = len(text) if end is None else end
        while at < end:
            parts = ByteParts()
            begin = at
            while 0 <= at - begin < WINDOW and at < end:
                stop = self._framing.write(state, text, at, end, parts)
                at = self._put_in(state, text, stop, errors, parts) if stop.size else stop.at
            pieces.append((yield from self._encoded(session, parts)))
        self._state, self._end = state, at
        return b"".join(pieces)

    def _put_in(self, state: State, text: str, stop: Stop, errors: str, parts: ByteParts) -> int:
        """Adds what the error handler gives for a character that the encoding lacks. Returns where the text goes on."""
        if errors == "replace":
            self._framing.write(state, "?", 0, 1, parts)
        if errors in ("ignore", "replace"):
            return stop.at + 1
        error = UnicodeEncodeError(self._error_name, text, stop.at, stop.at + 1, ILLEGAL)
        try:
            replaced, at = encoded_by(codecs.lookup_error(errors)(error))
            if isinstance(replaced, bytes):
                parts.add(replaced)
            else:
                self._put_text(state, replaced, parts)
            return position(at, len(text))
        except BaseException:
            self._state = state
            raise

    def _put_text(self, state: State, text: str, parts: ByteParts) -> None:
        """Adds the text of an error handler, whose faults are faults of that text."""
        at = 0
        while at < len(text):
            stop = self._framing.write(state, text, at, len(text), parts)
            if stop.size:
                raise UnicodeEncodeError(self._error_name, text, stop.at, stop.at + 1, ILLEGAL)
            at = stop.at

    def _encoded(self, session: Session, parts: ByteParts) -> Steps[bytes]:
        """Has the service convert all characters of each set. Of short pieces it converts only those that are not known."""
        texts = {coded: "".join(characters) for coded, characters in parts.runs.items()}
        if sum(map(len, texts.values())) > _SHORT:
            return parts.filled((yield from self._converted(session, texts)))
        new = {coded: "".join(sorted(set(text) - coded.known.keys())) for coded, text in texts.items()}
        for coded, codes in (yield from self._converted(session, {coded: text for coded, text in new.items() if text})).items():
            coded.known.update(zip(new[coded], slices(codes, coded.width)))
        return parts.filled({coded: b"".join(map(coded.known.__getitem__, text)) for coded, text in texts.items()})

    @staticmethod
    def _converted(session: Session, texts: Dict[CodedSet, str]) -> Steps[Dict[CodedSet, bytes]]:
        """Returns the codes of the characters of each set."""
        work = [(Pair(coded.row.encoding, UTF_8), steps.cut_text(text)) for coded, text in texts.items()]
        outputs = yield from steps.run_at_once(session, work)
        for (coded, text), output in zip(texts.items(), outputs):
            _check(len(output) == len(text) * coded.outer_width)
        return {coded: coded.own(output) for coded, output in zip(texts, outputs)}


def codec_of(error_name: str, encoding: Encoding, library: Library, has_faults: bool = False) -> Union[TextCodec, SetCodec]:
    """Returns the codec of a text in any encoding but those of which nothing is read."""
    if is_shifted(encoding):
        return SetCodec(error_name, encoding, library)
    return TextCodec(error_name, encoding, library, has_faults)


def decoder_of(error_name: str, encoding: Encoding, library: Library) -> Union[TextCodec, SetCodec, ReplacementCodec]:
    """Returns what decodes a text in any encoding."""
    return ReplacementCodec(error_name, encoding) if is_replaced(encoding) else codec_of(error_name, encoding, library)


def _check(is_as_long: bool) -> None:
    """Raises a fault if an output is not as long as what was sent."""
    if not is_as_long:
        raise RequestRefused("CONV", Status.OK)
