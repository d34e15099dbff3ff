"""Texts in pieces: decoders, encoders and conversions."""

from __future__ import annotations

from types import TracebackType
from typing import TYPE_CHECKING, Optional, Tuple, Type, Union

from . import marks, text
from .errors import INCOMPLETE, ConversionError
from .joined import held_of, number_of
from .known import Known
from .names import Encoding, is_replaced
from .replacement import ReplacementCodec
from .set_text import SetCodec, codec_of, decoder_of

if TYPE_CHECKING:
    from .client import Client

#: The most characters of a piece that is encoded here, from known characters.
_SHORT = 1024


class Decoder:
    """Decodes one text, which may be in pieces."""

    def __init__(self, client: Client, name: str, encoding: Encoding, is_stream: bool = False) -> None:
        """With `is_stream` marks and the end are read as by CPython's streams: a text in UTF-16 or UTF-32 without a mark is refused, and
        the beginning of the mark of UTF-8-SIG is no text."""
        self._client = client
        self._name = name
        self._declared = encoding
        self._is_stream = is_stream
        self._codec: Optional[Union[text.TextCodec, SetCodec, ReplacementCodec]] = None
        # The state of an encoding without one. A number that is set is kept, as by CPython's codecs, and means nothing.
        self._number = 0

    def decode(self, data: bytes, errors: str, final: bool) -> Tuple[str, int]:
        """Returns the text of the first bytes, and how many they are: all but an incomplete character if `final` is false."""
        skipped = 0
        if self._codec is None:
            is_needed = marks.is_needed(self._declared)
            if marks.waits(self._declared, data) and not (final and (is_needed or not self._is_stream)):
                return "", 0
            ordered, skipped = marks.without_mark(self._declared, data)
            if self._is_stream and is_needed and data and not skipped:
                raise UnicodeError(f"{self._declared.name} stream does not start with BOM")
            self._codec = decoder_of(self._name, ordered, self._client.library)
            if isinstance(self._codec, text.TextCodec):
                self._codec.stops_at_end = self._is_stream
        codec = self._codec
        if skipped and not marks.is_needed(self._declared):
            # As in CPython's utf-8-sig, positions of faults count from after the mark.
            rest = data[skipped:]
            found = self._client.run(lambda session: codec.decode(session, rest, errors, final))
            return found.text, found.used + skipped
        return self._client.run(lambda session: codec.decode(session, data, errors, final, skipped))

    def drops_held(self, error: Exception) -> bool:
        """Whether the bytes of an incomplete character before a piece are dropped after a fault in it, as by CPython's codecs of several
        bytes. They are kept if the end of the text is the fault."""
        if not self._declared.is_charmap or not self._client.library.form(self._declared).is_multibyte:
            return False
        return not isinstance(error, UnicodeDecodeError) or error.reason != INCOMPLETE

    def state(self) -> int:
        """Returns what the mark of the text said, as a number; 0 before the text begins. Of a text of which nothing is read 1 says that the
        fault was reported."""
        if self._declared.is_charmap:
            return self._number
        if isinstance(self._codec, ReplacementCodec):
            return int(self._codec.is_told)
        return marks.state_of(self._declared, self._codec.encoding) if self._codec else 0

    def set_state(self, state: int) -> None:
        """Goes on after a mark, or a fault, that another decoder read."""
        self._number = state
        if is_replaced(self._declared):
            self._codec = ReplacementCodec(self._name, self._declared)
            self._codec.is_told = bool(state)
            return
        found = marks.encoding_of(self._declared, state)
        self._codec = text.TextCodec(self._name, found, self._client.library) if found != self._declared else None


class Encoder:
    """Encodes one text, which may be in pieces: only the first has the mark of UTF-16 or UTF-32."""

    def __init__(self, client: Client, name: str, encoding: Encoding) -> None:
        self._client = client
        ordered, self._mark = marks.mark_of(encoding)
        self._codec = codec_of(name, ordered, client.library)
        self.is_started = False
        # The known characters, and their error handler, once the text is started.
        self._known: Optional[Known] = None
        self._known_errors = ""

    def encode(self, characters: str, errors: str, is_end: bool = False) -> bytes:
        """Returns the bytes of the next piece of a text, and what ends the text. See `finish`."""
        codec = self._codec
        output = self._client.run(lambda session: codec.encode_piece(session, characters, errors, is_end))
        mark = b"" if self.is_started else self._mark
        self.is_started = True
        return mark + output

    def finish(self) -> bytes:
        """Returns what ends the text: a character that was held, and the escape or shift back to ASCII, if the encoding has any."""
        codec = self._codec
        if not isinstance(codec, SetCodec) and not codec.held:
            return b""
        return self._client.run(lambda session: codec.encode_piece(session, "", "strict", True))

    @property
    def number(self) -> int:
        """The state as the number that CPython's encoder keeps it in: 2 before the mark of UTF-16 or UTF-32, and what is held."""
        return 2 if self._mark and not self.is_started else number_of(self._codec.held)

    @number.setter
    def number(self, number: int) -> None:
        self.is_started = not (self._mark and number)
        self._codec.held = "" if self._mark else held_of(number)

    def encode_piece(self, characters: str, errors: str) -> bytes:
        """Returns the bytes of the next piece of a text. In short pieces each character costs one request in all. So a text file
        that is written line by line, and needs the bytes of each line at once, costs no request for each line."""
        if self._known is not None and errors == self._known_errors and len(characters) <= _SHORT:
            encoded = self._known.bytes_of(characters)
            if encoded is not None:
                return encoded
        return self._encode_new(characters, errors)

    def _encode_new(self, characters: str, errors: str) -> bytes:
        """Returns the bytes of a piece that is long, begins the text, or has unknown characters."""
        codec = self._codec
        if isinstance(codec, SetCodec) or codec.pairs or not self.is_started or len(characters) > _SHORT:
            return self.encode(characters, errors)
        known = self._known = codec.known(errors)
        self._known_errors = errors
        learn = codec.learn
        self._client.run(lambda session: learn(session, characters, errors, known))
        encoded = known.bytes_of(characters)
        return self.encode(characters, errors) if encoded is None else encoded


class Conversion:
    """A conversion of one text in pieces, as iconv_open(3) returns it."""

    def __init__(self, client: Client, to: str, source: str) -> None:
        self._client = client
        self._names = (to, source)
        self._held = b""
        self._position = 0
        self._start()

    def _start(self) -> None:
        to, source = self._names
        self._decoder = self._client.decoder(source, source)
        self._encoder = self._client.encoder(to, to)
        self._held = b""

    def convert(self, data: bytes, errors: str = "strict", final: bool = False) -> bytes:
        """Converts the next bytes. An incomplete character at the end is kept for the next call, unless `final` is true. Then the
        bytes also end a text with escapes or shifts."""
        held = self._held + data
        decoded, used = self._decoder.decode(held, errors, final)
        self._held = held[used:]
        encoded = self._encoder.encode(decoded, errors) if decoded else b""
        return encoded + self._encoder.finish() if final else encoded

    def reset(self) -> bytes:
        """Ends the text and goes back to the start. Returns the escape or shift that ends it, if the target has any. Raises
        ConversionError if the text ends inside a character."""
        held, ending = self._held, self._encoder.finish()
        self._start()
        if held:
            raise ConversionError("the text ends inside a character", 0)
        return ending

    def close(self) -> None:
        """Forgets kept bytes and the state. The server's descriptors are shared, and stay open."""
        self._start()

    def __enter__(self) -> Conversion:
        return self

    def __exit__(
        self, kind: Optional[Type[BaseException]], error: Optional[BaseException], trace: Optional[TracebackType]
    ) -> None:
        self.close()
