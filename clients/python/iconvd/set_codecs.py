"""The codecs of encodings with escapes and shifts, as Python's `codecs` module has them: whole texts, pieces and streams.

They behave as CPython's multibyte codecs, whose states they share: a state of one may be set in the other.
"""

from __future__ import annotations

import codecs
from typing import Any, Callable, Iterable, Tuple, Type

from . import joined
from .client import Client
from .names import Encoding
from .set_text import SetCodec
from .streams import FAULTS, PieceReader, Pieces

#: The lowest byte of an encoder's number is how many bytes of a held character follow it. Then come the marks, without that of G2.
_NO_G2 = ~(0xFF << 16)


class _Texts:
    """Makes the codecs of single texts, and runs them."""

    def __init__(self, name: str, encoding: Encoding, client: Callable[[], Client]) -> None:
        """`name` is what exceptions call the encoding."""
        self._name = name
        self._encoding = encoding
        self._client = client

    def codec(self) -> SetCodec:
        """Returns the codec of one text."""
        return SetCodec(self._name, self._encoding, self._client().library)

    def encode(self, codec: SetCodec, text: str, errors: str, is_end: bool) -> bytes:
        """Returns the bytes of the next piece, and what ends the text."""
        return self._client().run(lambda session: codec.encode_piece(session, text, errors, is_end))

    def decode(self, codec: SetCodec, data: bytes, errors: str, is_end: bool) -> Tuple[str, int]:
        """Returns the text of the next bytes, and how many were used."""
        return self._client().run(lambda session: codec.decode(session, data, errors, is_end))


class _PieceDecoder:
    """Decodes pieces of a text, and keeps the bytes of a code that the end of a piece cuts."""

    def __init__(self, texts: _Texts, keeps_end: bool) -> None:
        """`keeps_end` says that such bytes are kept too if the end of the text is a fault for the error handler."""
        self._texts = texts
        self._keeps_end = keeps_end
        self.codec = texts.codec()
        self.codec.stops_at_end = True
        self.held = b""

    def decode(self, piece: bytes, errors: str, is_end: bool) -> str:
        """Returns the text of the next piece. After a fault the piece is dropped, as in CPython."""
        whole = self.held + piece
        try:
            decoded, used = self._texts.decode(self.codec, whole, errors, is_end)
        except FAULTS:
            self.held = self.held if self._keeps_end and self.codec.is_cut_at_end else b""
            raise
        self.held = whole[used:]
        return decoded

    def reset(self) -> None:
        """Drops what is held, and goes back to ASCII."""
        self.codec.restart()
        self.held = b""


class SetIncrementalEncoder(codecs.IncrementalEncoder):
    """Encodes a text in pieces."""

    texts: _Texts

    def __init__(self, errors: str = "strict") -> None:
        super().__init__(errors)
        self._codec = self.texts.codec()

    def encode(self, input: str, final: bool = False) -> bytes:
        return self.texts.encode(self._codec, input, self.errors, final)

    def reset(self) -> None:
        self._codec.finish()
        self._codec.held = ""

    def getstate(self) -> int:
        held = joined.number_of(self._codec.held)
        return (self._codec.number & _NO_G2) << 8 * (1 + (held & 0xFF)) | held

    def setstate(self, state: int) -> None:  # type: ignore[override]
        self._codec.held = joined.held_of(state)
        self._codec.number = state >> 8 * (1 + (state & 0xFF))


class SetIncrementalDecoder(codecs.IncrementalDecoder):
    """Decodes bytes in pieces."""

    texts: _Texts

    def __init__(self, errors: str = "strict") -> None:
        super().__init__(errors)
        self._pieces = _PieceDecoder(self.texts, True)

    def decode(self, input: Any, final: bool = False) -> str:
        return self._pieces.decode(bytes(memoryview(input)), self.errors, final)

    def reset(self) -> None:
        self._pieces.reset()

    def getstate(self) -> Tuple[bytes, int]:
        return self._pieces.held, self._pieces.codec.number

    def setstate(self, state: Tuple[bytes, int]) -> None:
        self._pieces.held, self._pieces.codec.number = state


class SetStreamWriter(codecs.StreamWriter):
    """Writes text to a file of bytes."""

    texts: _Texts

    def __init__(self, stream: object, errors: str = "strict") -> None:
        super().__init__(stream, errors)  # type: ignore[arg-type]
        self._codec = self.texts.codec()

    def write(self, object: str) -> None:
        self.stream.write(self.texts.encode(self._codec, object, self.errors, False))

    def writelines(self, list: Iterable[str]) -> None:
        for line in list:
            self.write(line)

    # As in CPython, it ends the text only if a character is held.
    def reset(self) -> None:
        if self._codec.held:
            self.stream.write(self.texts.encode(self._codec, "", self.errors, True))


class SetStreamReader(PieceReader):
    """Reads text from a file of bytes."""

    texts: _Texts

    def make_pieces(self) -> Pieces:
        return _PieceDecoder(self.texts, False)


def info(name: str, encoding: Encoding, client: Callable[[], Client]) -> codecs.CodecInfo:
    """Returns the codec of an encoding, which exceptions call `name`."""
    texts = _Texts(name, encoding, client)

    def encode(input: str, errors: str = "strict") -> Tuple[bytes, int]:
        return texts.encode(texts.codec(), input, errors or "strict", True), len(input)

    def decode(input: bytes, errors: str = "strict") -> Tuple[str, int]:
        raw = bytes(memoryview(input))
        return texts.decode(texts.codec(), raw, errors or "strict", True)[0], len(raw)

    def own(kind: Type[Any]) -> Any:
        return type(kind.__name__, (kind,), {"texts": texts, "__module__": __name__})

    return codecs.CodecInfo(
        encode=encode,
        decode=decode,
        streamreader=own(SetStreamReader),
        streamwriter=own(SetStreamWriter),
        incrementalencoder=own(SetIncrementalEncoder),
        incrementaldecoder=own(SetIncrementalDecoder),
        name=name,
    )
