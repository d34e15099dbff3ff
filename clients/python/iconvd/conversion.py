"""Converting bytes to bytes, with Python's error handlers, as a generator over a session."""

from __future__ import annotations

from typing import Optional

from . import steps
from .frames import Status
from .joined import pairs_of
from .library import Library
from .marks import mark_of, without_mark
from .names import is_direct
from .order import Ends
from .session import UTF_8, Pair, Session, Steps
from .set_text import codec_of, decoder_of
from .text import TextCodec


class WholeConversion:
    """The conversion of one text."""

    def __init__(self, library: Library, ends: Ends, data: bytes) -> None:
        """Raises UnknownEncoding."""
        self._library = library
        self._ends = ends
        self._data = data
        self._target, self._mark = mark_of(library.find(ends.to))
        self._origin, self._begin = without_mark(library.find(ends.source), data)
        self._pair = Pair(self._target, self._origin)

    @property
    def _is_by_text(self) -> bool:
        """Whether the service can't convert from the one encoding to the other, but only from and to UTF-8."""
        return any(not is_direct(end) or pairs_of(end) for end in self._pair)

    @property
    def first_pair(self) -> Optional[Pair]:
        """The pair whose descriptor is needed first. The sets of encodings with escapes or shifts have pairs of their own."""
        if not is_direct(self._origin):
            return Pair(self._target, UTF_8) if is_direct(self._target) else None
        return Pair(UTF_8, self._origin) if self._is_by_text else self._pair

    def run(self, session: Session) -> Steps[bytes]:
        """Converts bytes to bytes up to the first fault, and the rest by decoding and encoding."""
        if self._is_by_text:
            return (yield from self._by_text(session))
        data = self._data[self._begin :] if self._begin else self._data
        ran = yield from steps.run(session, self._pair, data, self._ends.errors == "strict")
        if ran.status == Status.OK:
            return (self._mark if ran.output else b"") + ran.output
        rest = yield from self._by_characters(session, ran)
        return self._mark + rest

    def _by_text(self, session: Session) -> Steps[bytes]:
        """Converts by decoding and encoding."""
        decoder = decoder_of(self._ends.source, self._origin, self._library)
        encoder = codec_of(self._ends.to, self._target, self._library)
        decoded = yield from decoder.decode(session, self._data, self._ends.errors, True, self._begin)
        encoded = yield from encoder.encode(session, decoded.text, self._ends.errors)
        return (self._mark if encoded else b"") + encoded + encoder.finish()

    def _by_characters(self, session: Session, ran: steps.Run) -> Steps[bytes]:
        # The bytes before the fault have none, so each part has a decoder of its own.
        good, decoder = (TextCodec(self._ends.source, self._origin, self._library, has_faults=True) for _ in range(2))
        encoder = TextCodec(self._ends.to, self._target, self._library, has_faults=True)
        done = b"" if decoder.has_state else ran.output
        at = self._begin if decoder.has_state else self._begin + ran.used
        before = yield from good.decode(session, self._data[:at], "strict", True, self._begin)
        after = yield from decoder.decode(session, self._data, self._ends.errors, True, at)
        rest = yield from encoder.encode(session, before.text + after.text, self._ends.errors, len(before.text))
        return done + rest
