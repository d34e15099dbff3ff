"""Readers of files, as CPython's codecs of several bytes have them: a size counts bytes."""

from __future__ import annotations

import codecs
from typing import Callable, List, Optional, Protocol

#: What an error handler may raise: a fault of the text, and what says that the handler is unknown or wrong.
FAULTS = (UnicodeError, LookupError, TypeError, IndexError)


class Pieces(Protocol):
    """Decodes the pieces of a file, and keeps the bytes of a character that the end of a piece cuts."""

    held: bytes

    def decode(self, piece: bytes, errors: str, is_end: bool) -> str:
        """Returns the text of the next piece."""

    def reset(self) -> None:
        """Drops what is held, and goes back to the start."""


class PieceReader(codecs.StreamReader):
    """Reads text from a file of bytes."""

    def __init__(self, stream: object, errors: str = "strict") -> None:
        super().__init__(stream, errors)  # type: ignore[arg-type]
        self._pieces = self.make_pieces()

    def make_pieces(self) -> Pieces:
        """Returns what decodes the pieces."""
        raise NotImplementedError

    def _read(self, read: Callable[..., bytes], size: Optional[int]) -> str:
        size = -1 if size is None else size
        while size != 0:
            piece = read() if size < 0 else read(size)
            is_empty = not piece and not self._pieces.held
            decoded = self._pieces.decode(piece, self.errors, not piece or size < 0)
            if decoded or size < 0 or is_empty or not piece:
                return decoded
            # One more byte may complete a character.
            size = 1
        return ""

    def read(self, size: Optional[int] = None, chars: int = -1, firstline: bool = False) -> str:
        return self._read(self.stream.read, size)

    def readline(self, size: Optional[int] = None, keepends: bool = True) -> str:
        return self._read(self.stream.readline, size)  # type: ignore[attr-defined]

    def readlines(self, sizehint: Optional[int] = None, keepends: bool = True) -> List[str]:
        return self._read(self.stream.read, sizehint).splitlines(keepends)

    def reset(self) -> None:
        self._pieces.reset()
