"""How texts with the escapes and shifts of ISO 2022 are read: which escapes mean something, and which bytes are a fault."""

from __future__ import annotations

import re
from typing import Callable, Dict, List, NamedTuple, Optional, Pattern, Tuple

from .coded_sets import CodedSet
from .designations import ASCII, ESC, LF, SI, SO, TWO_BYTES, Designation
from .framing import RUN, WINDOW, State, Stop, TextParts

_SINGLE_SHIFT = ord("N")
#: The most bytes of an escape.
_LONGEST = 16
#: What follows ESC in the escapes of ISO 2022. Any other escape is text up to its last byte.
_HEADERS = b"()$.&"
_LAST = re.compile(rb"[@-Z]")
_FOREIGN = re.compile(rb"[^@-Z]*([@-Z])?")
_PREFIXED = b"\x1b$B"


class _Escape(NamedTuple):
    """An escape that is read: as which of G0, G1 and G2 it designates a set, and the set's mark."""

    sequence: bytes
    place: int
    mark: int

    @property
    def size(self) -> int:
        """How many bytes it has."""
        return len(self.sequence)


class _Mode(NamedTuple):
    """How bytes are read while a set is in use."""

    coded: Optional[CodedSet]
    #: The bytes of a code.
    width: int
    #: Its first group are codes, its second group are bytes that are themselves.
    run: Pattern[bytes]


class Reader:
    """Reads texts of one encoding."""

    def __init__(self, designations: List[Designation], has_single_shift: bool, find: Callable[[str], CodedSet]) -> None:
        """`find` returns the set of that name."""
        self._find = find
        self._by_mark = {each.mark: each for each in designations}
        self._has_single_shift = has_single_shift
        self._has_shifts = any(each.place == 1 for each in designations)
        self._escapes = {escape.sequence: escape for escape in self._known_escapes()}
        self._modes: Dict[Tuple[int, bool], _Mode] = {}

    def _known_escapes(self) -> List[_Escape]:
        """Returns each escape. As in CPython any set may be designated at any place."""
        found = []
        for mark in (ASCII, *self._by_mark):
            last = bytes((mark & 0x7F,))
            heads = [(b"$", 0), (b"$(", 0), (b"$)", 1)] if mark & TWO_BYTES else [(b"(", 0), (b")", 1)]
            if self._has_single_shift and not mark & TWO_BYTES:
                heads.append((b".", 2))
            found += [_Escape(b"\x1b" + head + last, place, mark) for head, place in heads]
        return found

    def read(self, state: State, data: bytes, at: int, parts: TextParts) -> Stop:
        """See Framing."""
        limit = min(len(data), at + WINDOW)
        mode = self._mode(state)
        while at < limit:
            if state.is_foreign:
                at = self._read_foreign(state, data, at, parts)
                continue
            found = mode.run.match(data, at, at + RUN)
            if found is None:
                known = self._escapes.get(data[at : at + 3]) or self._escapes.get(data[at : at + 4])
                if known:
                    state.marks[known.place] = known.mark
                    at += known.size
                    mode = self._mode(state)
                    continue
                stop = self._read_other(state, data, at, parts)
                if stop.size or stop.is_cut:
                    return stop
                at = stop.at
                mode = self._mode(state)
                continue
            if found.lastindex == 1 and mode.coded:
                parts.add_codes(mode.coded, found[0])
            else:
                parts.add(found[0].decode("ascii"))
            at = found.end()
        return Stop(at)

    def _mode(self, state: State) -> _Mode:
        mark = state.marks[1 if state.is_shifted else 0]
        mode = self._modes.get((mark, state.is_shifted))
        if mode is None:
            mode = self._modes[mark, state.is_shifted] = self._make_mode(mark, state.is_shifted)
        return mode

    def _make_mode(self, mark: int, is_shifted: bool) -> _Mode:
        special = {ESC} | ({SO, SI} if self._has_shifts else set()) | ({LF} if is_shifted else set())
        own = b"".join(b"\\x%02x" % byte for byte in range(0x80 if mark == ASCII else 0x20) if byte not in special)
        if mark == ASCII:
            return _Mode(None, 1, re.compile(rb"(?!)()|([%s]+)" % own))
        designation = self._by_mark[mark]
        width = 2 if mark & TWO_BYTES else 1
        if designation.place == 2:
            # CPython has no codes of such a set in use by itself.
            return _Mode(None, width, re.compile(rb"(?!)()|([%s]+)" % own))
        coded = self._find(designation.set_name)
        return _Mode(coded, width, re.compile(rb"(%s+)|([%s]+)" % (coded.codes, own)))

    @staticmethod
    def _read_foreign(state: State, data: bytes, at: int, parts: TextParts) -> int:
        """Reads the rest of an escape of another standard."""
        found = _FOREIGN.match(data, at, at + RUN)
        assert found is not None, "it matches the empty text"
        parts.add(found[0].decode("latin-1"))
        state.is_foreign = not found[1]
        return found.end()

    def _read_other(self, state: State, data: bytes, at: int, parts: TextParts) -> Stop:
        """Reads an escape, a shift, the end of a line, or a fault."""
        byte = data[at]
        if byte == ESC:
            return self._read_escape(state, data, at, parts)
        if byte < 0x20:
            # The end of a line ends a shift.
            state.is_shifted = byte == SO
            if byte == LF:
                parts.add("\n")
            return Stop(at + 1)
        mode = self._mode(state)
        if byte >= 0x80:
            return Stop(at, 1)
        if at + mode.width > len(data):
            return Stop(at, len(data) - at, True)
        character = mode.coded.read.get(data[at : at + mode.width]) if mode.coded else None
        if not character:
            return Stop(at, mode.width)
        parts.add(character)
        return Stop(at + mode.width)

    def _read_escape(self, state: State, data: bytes, at: int, parts: TextParts) -> Stop:
        if at + 1 == len(data):
            return Stop(at, 1, True)
        header = data[at + 1]
        if header == _SINGLE_SHIFT and self._has_single_shift:
            return self._read_single(state, data, at, parts)
        if header not in _HEADERS:
            parts.add("\x1b")
            state.is_foreign = True
            return Stop(at + 1)
        size = self._escape_size(data, at)
        if size == 0:
            return Stop(at, len(data) - at, True)
        if size == 6 and data[at + 3 : at + 6] == _PREFIXED and not self._has_shifts and _PREFIXED in self._escapes:
            # The prefix says which revision of JIS X 0208 it is.
            state.marks[0] = self._escapes[_PREFIXED].mark
            return Stop(at + size)
        return Stop(at, max(size, 1))

    def _escape_size(self, data: bytes, at: int) -> int:
        """Returns the bytes of an escape: 0 if the end of the text cuts it, -1 if it does not end."""
        longest = data[at : at + _LONGEST]
        if b"&@" not in longest or self._has_shifts:
            last = _LAST.search(longest, 1)
            return last.end() if last else -1 if len(longest) == _LONGEST else 0
        step = 1
        while step < _LONGEST:
            if at + step >= len(data):
                return 0
            if _LAST.match(data, at + step):
                return step + 1
            step += 3 if data[at + step : at + step + 2] == b"&@" else 1
        return -1

    def _read_single(self, state: State, data: bytes, at: int, parts: TextParts) -> Stop:
        """Reads one code of the set that is designated as G2."""
        if at + 3 > len(data):
            return Stop(at, len(data) - at, True)
        mark, byte = state.marks[2], data[at + 2]
        designation = self._by_mark.get(mark)
        if mark == ASCII and byte < 0x80:
            parts.add(chr(byte))
        elif designation is None or designation.place != 2:
            return Stop(at, 3)
        elif designation.set_name.startswith("ISO-8859-7") and byte >= 0x80:
            # CPython reads these as ASCII.
            parts.add(chr(byte - 0x80))
        elif byte < 0x20:
            parts.add(chr(byte + 0x80))
        elif re.match(self._find(designation.set_name).codes, data[at + 2 : at + 3]):
            parts.add_codes(self._find(designation.set_name), data[at + 2 : at + 3])
        else:
            return Stop(at, 3)
        return Stop(at + 3)
