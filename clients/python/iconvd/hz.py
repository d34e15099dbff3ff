"""How HZ is read and written (RFC 1843): `~{` and `~}` around the codes of GB 2312, and `~~` for a tilde."""

from __future__ import annotations

import functools
import re
from typing import Callable, Pattern

from .coded_sets import CodedSet, characters
from .framing import RUN, WINDOW, ByteParts, Framing, State, Stop, TextParts

_TEXT = re.compile(rb"[\0-}\x7f]+")
_INTO = b"~{"
_BACK = b"~}"


class Hz(Framing):
    """HZ. Its only mark is 1 while GB 2312 is in use."""

    def __init__(self, find: Callable[[], CodedSet]) -> None:
        """`find` returns the set of GB 2312."""
        self._find = find

    def start(self) -> State:
        return State((0,))

    # ---- reading

    @functools.cached_property
    def _codes(self) -> Pattern[bytes]:
        # A tilde begins a shift.
        return re.compile(rb"(?:(?!~)%s)+" % self._find().codes)

    def read(self, state: State, data: bytes, at: int, parts: TextParts) -> Stop:
        limit = min(len(data), at + WINDOW)
        while at < limit:
            run = (self._codes if state.marks[0] else _TEXT).match(data, at, at + RUN)
            if run:
                if state.marks[0]:
                    parts.add_codes(self._find(), run[0])
                else:
                    parts.add(run[0].decode("ascii"))
                at = run.end()
                continue
            stop = self._read_other(state, data, at, parts)
            if stop.size:
                return stop
            at = stop.at
        return Stop(at)

    @staticmethod
    def _read_other(state: State, data: bytes, at: int, parts: TextParts) -> Stop:
        """Reads a shift, a doubled tilde, or a fault."""
        two = data[at : at + 2]
        if len(two) == 1 and two < b"\x80":
            return Stop(at, 1, True)
        if two == (_BACK if state.marks[0] else _INTO):
            state.marks[0] ^= 1
        elif two == b"~~" and not state.marks[0]:
            parts.add("~")
        elif two != b"~\n" or state.marks[0]:
            return Stop(at, 1)
        return Stop(at + 2)

    # ---- writing

    @functools.cached_property
    def _pattern(self) -> Pattern[str]:
        return re.compile(f"([\0-\x7f]+)|({characters(self._find().points)}+)|(.)", re.S)

    def write(self, state: State, text: str, at: int, end: int, parts: ByteParts) -> Stop:
        if text.isascii():
            parts.add(self.close(state) + text[at:end].encode("ascii").replace(b"~", b"~~") if at < end else b"")
            return Stop(end)
        limit = min(end, at + WINDOW)
        for found in self._pattern.finditer(text, at, limit):
            if found.lastindex == 3:
                return Stop(found.start(), 1)
            if found.lastindex == 1:
                parts.add(self.close(state) + found[0].encode("ascii").replace(b"~", b"~~"))
                continue
            parts.add(b"" if state.marks[0] else _INTO)
            state.marks[0] = 1
            parts.add_characters(self._find(), found[0])
        return Stop(limit)

    def close(self, state: State) -> bytes:
        written = _BACK if state.marks[0] else b""
        state.marks[0] = 0
        return written

    # ---- the state

    def restart(self, state: State) -> None:
        state.marks[0] = 0

    def number(self, state: State) -> int:
        return state.marks[0]

    def state_of(self, number: int) -> State:
        return State((number & 1,))
