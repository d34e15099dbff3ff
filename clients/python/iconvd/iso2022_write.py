"""How texts with the escapes and shifts of ISO 2022 are written: in which set, and by which escapes and shifts."""

from __future__ import annotations

import re
from typing import Callable, Dict, FrozenSet, List, NamedTuple, Optional, Pattern, Set, Tuple

from . import joined
from .coded_sets import CodedSet, characters
from .designations import ASCII, SI, SO, Designation
from .framing import WINDOW, ByteParts, State, Stop

_TO_ASCII = b"\x1b(B"


class _Groups(NamedTuple):
    """The groups of a pattern: ASCII, the texts with codes of their own, the characters of each set, and one that no set has."""

    pattern: Pattern[str]
    #: The codes of such texts, and the set that has them.
    codes: Dict[str, Tuple[Designation, bytes]]
    #: The first characters of those that have two.
    firsts: FrozenSet[str]


class Writer:
    """Writes texts of one encoding."""

    def __init__(self, designations: List[Designation], find: Callable[[str], CodedSet]) -> None:
        """`find` returns the set of that name."""
        self._find = find
        self._written = sorted((each for each in designations if each.order is not None), key=lambda each: each.order or 0)
        self._found: Optional[_Groups] = None

    def write(self, state: State, text: str, at: int, end: int, parts: ByteParts) -> Stop:
        """See Framing."""
        if text.isascii() and at < end:
            # No set has to be read from its charmap.
            parts.add(self._into_ascii(state) + text[at:end].encode("ascii"))
            return Stop(end)
        groups = self._groups()
        limit = self._limit(text, at, end, groups.firsts)
        for found in groups.pattern.finditer(text, at, limit):
            group = found.lastindex or 1
            if group == 1:
                parts.add(self._into_ascii(state) + found[0].encode("ascii"))
            elif group == 2:
                designation, code = groups.codes[found[0]]
                parts.add(self._into(state, designation) + code)
            elif group == len(self._written) + 3:
                return Stop(found.start(), 1)
            else:
                designation = self._written[group - 3]
                parts.add(self._into(state, designation))
                parts.add_characters(self._find(designation.set_name), found[0])
        return Stop(limit)

    @staticmethod
    def _limit(text: str, at: int, end: int, firsts: FrozenSet[str]) -> int:
        """Returns the end of a window, which is not between two characters that may have one code."""
        limit = min(end, at + WINDOW)
        while firsts and limit < end and text[limit - 1] in firsts:
            limit += 1
        return limit

    def held(self, text: str) -> int:
        """See Framing."""
        if text.isascii():
            return 0
        groups = self._groups()
        return joined.held(text, groups.firsts, groups.codes)

    def _groups(self) -> _Groups:
        if self._found is None:
            self._found = self._make_groups()
        return self._found

    def _make_groups(self) -> _Groups:
        codes: Dict[str, Tuple[Designation, bytes]] = {}
        for designation in self._written:
            for written, code in self._find(designation.set_name).written.items():
                codes.setdefault(written, (designation, code))
        firsts = frozenset(written[0] for written in codes if len(written) > 1)
        own = "|".join([re.escape(written) for written in sorted(codes, key=len, reverse=True)]) or "(?!)"
        groups = ["([\0-\x7f]+)", f"({own})"]
        taken: Set[int] = set()
        for designation in self._written:
            points = self._find(designation.set_name).points - taken
            taken |= points
            alone = points & set(map(ord, firsts))
            # A run does not take the first of two characters that have one code.
            either = f"|(?!{own}){characters(alone)}" if alone else ""
            groups.append(f"((?:{characters(points - alone)}+{either})+)" if either else f"({characters(points)}+)")
        return _Groups(re.compile("|".join((*groups, "(.)")), re.S), codes, firsts)

    @staticmethod
    def _into_ascii(state: State) -> bytes:
        written = b""
        if state.marks[0] != ASCII:
            written = _TO_ASCII
            state.marks[0] = ASCII
        if state.is_shifted:
            written += bytes((SI,))
            state.is_shifted = False
        return written

    @staticmethod
    def _into(state: State, designation: Designation) -> bytes:
        """Returns what brings a set into use."""
        is_shifted = designation.place == 1
        written = bytes((SI,)) if state.is_shifted and not is_shifted else b""
        if state.marks[designation.place] != designation.mark:
            written += designation.escape
            state.marks[designation.place] = designation.mark
        if is_shifted and not state.is_shifted:
            written += bytes((SO,))
        state.is_shifted = is_shifted
        return written

    def close(self, state: State) -> bytes:
        """See Framing."""
        shift = bytes((SI,)) if state.is_shifted else b""
        state.is_shifted = False
        return shift + self._into_ascii(state)
