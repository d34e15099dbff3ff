"""ISO-2022-JP, ISO-2022-KR and others of their kind: escapes that designate sets, and shifts.

The rules are those of CPython's codecs: which escapes are read, which bytes are a fault, and in which set a character is written.
"""

from __future__ import annotations

from typing import Callable, List

from .coded_sets import CodedSet
from .designations import ASCII, Designation
from .framing import ByteParts, Framing, State, Stop, TextParts
from .iso2022_read import Reader
from .iso2022_write import Writer


class Iso2022(Framing):
    """An encoding with the escapes of ISO 2022."""

    def __init__(self, designations: List[Designation], has_single_shift: bool, find: Callable[[str], CodedSet]) -> None:
        """`find` returns the set of that name."""
        self._reader = Reader(designations, has_single_shift, find)
        self._writer = Writer(designations, find)

    def start(self) -> State:
        return State((ASCII, ASCII, ASCII))

    def read(self, state: State, data: bytes, at: int, parts: TextParts) -> Stop:
        return self._reader.read(state, data, at, parts)

    def write(self, state: State, text: str, at: int, end: int, parts: ByteParts) -> Stop:
        return self._writer.write(state, text, at, end, parts)

    def held(self, text: str) -> int:
        return self._writer.held(text)

    def close(self, state: State) -> bytes:
        return self._writer.close(state)

    def restart(self, state: State) -> None:
        state.marks[0] = ASCII
        state.is_shifted = False

    def number(self, state: State) -> int:
        flags = int(state.is_shifted) | int(state.is_foreign) << 1
        return int.from_bytes(bytes((*state.marks, 0, flags)), "little")

    def state_of(self, number: int) -> State:
        first, second, third, _, flags, *_ = (number & (1 << 64) - 1).to_bytes(8, "little")
        return State((first, second, third), bool(flags & 1), bool(flags & 2))
