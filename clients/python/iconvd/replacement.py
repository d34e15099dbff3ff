"""WHATWG's encoding `replacement`: a text in it is one fault, and what is written to it is UTF-8.

Nothing is sent for it. Encodings that WHATWG's standard reads so, and that the client has not, are read as it too, and not written.
"""

from __future__ import annotations

import codecs

from .cutting import text_of
from .names import Encoding
from .session import Session, Steps
from .text import Decoded

_REASON = "no text in this encoding is read"


class ReplacementCodec:
    """Decodes one text, which may be in pieces."""

    #: It is no encoding with shifts.
    has_state = False

    def __init__(self, error_name: str, encoding: Encoding) -> None:
        """`error_name` is the encoding's name in exceptions."""
        self._error_name = error_name
        self.encoding = encoding
        #: Whether the fault has been reported.
        self.is_told = False

    def decode(self, session: Session, data: bytes, errors: str, final: bool, at: int = 0) -> Steps[Decoded]:
        """Reports the fault once, from `at` on. All bytes are used."""
        yield from ()
        if self.is_told or at == len(data):
            return Decoded("", len(data))
        self.is_told = True
        error = UnicodeDecodeError(self._error_name, bytes(data), at, len(data), _REASON)
        return Decoded(text_of(codecs.lookup_error(errors)(error), len(data))[0], len(data))
