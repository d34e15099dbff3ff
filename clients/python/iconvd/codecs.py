"""Codecs by name: after `register()`, Python knows the encodings `iconvd-NAME`, which the service converts."""

from __future__ import annotations

import codecs
from typing import Any, Callable, List, Optional, Tuple

from . import set_codecs, waiting
from .client import Client, default, find
from .errors import UnknownEncoding
from .joined import MAX_HELD
from .names import Encoding, is_shifted
from .pieces import Decoder, Encoder
from .streams import FAULTS, PieceReader, Pieces

_PREFIX = "iconvd"


def _client(client: Optional[Client]) -> Client:
    return client if client is not None else default()


class _DecoderPieces:
    """The pieces of a file. After a fault what was held is dropped, as in CPython."""

    def __init__(self, make: Callable[[], Decoder]) -> None:
        self._make = make
        self._decoder = make()
        self.held = b""

    def decode(self, piece: bytes, errors: str, is_end: bool) -> str:
        """Returns the text of the next piece."""
        whole = self.held + piece
        try:
            decoded, used = self._decoder.decode(whole, errors, is_end)
        except FAULTS:
            self.held = b""
            raise
        self.held = whole[used:]
        return decoded

    def reset(self) -> None:
        """Drops what is held, and goes back to the start."""
        self._decoder = self._make()
        self.held = b""


def info(name: str, encoding: Encoding, client: Optional[Client] = None) -> codecs.CodecInfo:
    """Returns the codec of an encoding, which exceptions call `name`."""
    if is_shifted(encoding):
        return set_codecs.info(name, encoding, lambda: _client(client))

    def encode(input: str, errors: str = "strict") -> Tuple[bytes, int]:
        return Encoder(_client(client), name, encoding).encode(input, errors or "strict", True), len(input)

    def decode(input: bytes, errors: str = "strict") -> Tuple[str, int]:
        raw = bytes(memoryview(input))
        return Decoder(_client(client), name, encoding).decode(raw, errors or "strict", True)[0], len(raw)

    class IncrementalEncoder(codecs.IncrementalEncoder):
        """Encodes a text in pieces."""

        def __init__(self, errors: str = "strict") -> None:
            super().__init__(errors)
            self.reset()

        def encode(self, input: str, final: bool = False) -> bytes:
            encoded = self._encoder.encode_piece(input, self.errors)
            return encoded + self._encoder.finish() if final else encoded

        def reset(self) -> None:
            self._encoder = Encoder(_client(client), name, encoding)

        def getstate(self) -> int:
            return self._encoder.number

        def setstate(self, state: int) -> None:  # type: ignore[override]
            self.reset()
            self._encoder.number = state

        def finish(self) -> bytes:
            """Returns what ends the text, and begins another one."""
            ending = self._encoder.finish()
            self.reset()
            return ending

    class IncrementalDecoder(codecs.BufferedIncrementalDecoder):
        """Decodes bytes in pieces."""

        def __init__(self, errors: str = "strict") -> None:
            super().__init__(errors)
            self.reset()

        def decode(self, input: Any, final: bool = False) -> str:
            try:
                return super().decode(input, final)
            except FAULTS as error:
                if self._decoder.drops_held(error):
                    self.buffer = b""
                raise

        def _buffer_decode(self, input: Any, errors: str, final: bool) -> Tuple[str, int]:
            return self._decoder.decode(bytes(input), errors, final)

        def reset(self) -> None:
            super().reset()
            self._decoder = Decoder(_client(client), name, encoding, is_stream=True)

        # The number says what the mark of the text said: 0 if that is not known yet.
        def getstate(self) -> Tuple[bytes, int]:
            return super().getstate()[0], self._decoder.state()

        def setstate(self, state: Tuple[bytes, int]) -> None:
            held, number = state
            if not isinstance(held, bytes) or not isinstance(number, int):
                raise TypeError("the state of a decoder is bytes and a number")
            if encoding.is_charmap and len(held) > MAX_HELD:
                raise UnicodeError("more bytes are held than a character has")
            super().setstate((held, 0))
            self._decoder.set_state(number)

    class StreamWriter(codecs.StreamWriter):
        """Writes text to a file of bytes."""

        def __init__(self, stream: object, errors: str = "strict") -> None:
            super().__init__(stream, errors)  # type: ignore[arg-type]
            self._incremental = IncrementalEncoder(errors)

        def encode(self, input: str, errors: str = "strict") -> Tuple[bytes, int]:
            self._incremental.errors = errors
            return self._incremental.encode(input), len(input)

        # As in CPython, a character that is held is written.
        def reset(self) -> None:
            ending = self._incremental.finish()
            if ending:
                self.stream.write(ending)

    class StreamReader(codecs.StreamReader):
        """Reads text from a file of bytes."""

        def __init__(self, stream: object, errors: str = "strict") -> None:
            super().__init__(stream, errors)  # type: ignore[arg-type]
            self._decoder = Decoder(_client(client), name, encoding, is_stream=True)

        def decode(self, input: bytes, errors: str = "strict") -> Tuple[str, int]:
            return self._decoder.decode(bytes(input), errors, False)

        # In CPython's multibyte codecs None means all that is left.
        def read(self, size: Optional[int] = -1, chars: int = -1, firstline: bool = False) -> str:
            return super().read(-1 if size is None else size, chars, firstline)

        def readlines(self, sizehint: Optional[int] = None, keepends: bool = True) -> List[str]:
            return super().readlines(sizehint, keepends)

        def reset(self) -> None:
            super().reset()
            self._decoder = Decoder(_client(client), name, encoding, is_stream=True)

    class MultibyteStreamReader(PieceReader):
        """Reads text from a file of bytes, in an encoding that CPython has a codec of several bytes for."""

        def make_pieces(self) -> Pieces:
            return _DecoderPieces(lambda: Decoder(_client(client), name, encoding, is_stream=True))

    return codecs.CodecInfo(
        encode=encode,
        decode=decode,
        streamreader=MultibyteStreamReader if waiting.pattern_of(encoding) else StreamReader,
        streamwriter=StreamWriter,
        incrementalencoder=IncrementalEncoder,
        incrementaldecoder=IncrementalDecoder,
        name=name,
    )


def search(name: str) -> Optional[codecs.CodecInfo]:
    """Finds the codec of `iconvd-NAME`; Python asks for `iconvd_name`."""
    prefix, separator, rest = name.partition("_" if name.startswith(_PREFIX + "_") else "-")
    if prefix != _PREFIX or not separator:
        return None
    for spelling in (rest.replace("_", "-"), rest):
        try:
            return info("iconvd-" + rest.replace("_", "-"), find(spelling))
        except UnknownEncoding:
            continue
    return None


def register() -> None:
    """Makes the encodings `iconvd-NAME` known to Python. A second call does nothing."""
    codecs.unregister(search) if hasattr(codecs, "unregister") else None
    codecs.register(search)
