"""What the readers and writers of encodings with escapes and shifts share: the state of a text, and the parts that it is cut into.

A text is cut at its escapes and shifts. What is ASCII, or is itself, is text at once. The codes of each coded character set are
gathered, so that the service converts all of one set together, however often the text changes between sets.
"""

from __future__ import annotations

from typing import AnyStr, Dict, Generic, List, NamedTuple, Tuple

from .coded_sets import CodedSet

#: The most bytes or characters that are cut into parts before these are converted.
WINDOW = 262_144
#: The most bytes of a run of codes that are matched at once.
RUN = 65_536


class State:
    """Which sets are in use. The marks are CPython's: the last byte of an escape, with the highest bit for a set of two bytes."""

    __slots__ = ("marks", "is_shifted", "is_foreign")

    def __init__(self, marks: Tuple[int, ...], is_shifted: bool = False, is_foreign: bool = False) -> None:
        #: The sets that are designated as G0, G1 and G2.
        self.marks = list(marks)
        #: Whether G1 is in use.
        self.is_shifted = is_shifted
        #: Whether an escape sequence of another standard is being read, which is text.
        self.is_foreign = is_foreign

    def copy(self) -> State:
        """Returns a state that changes by itself."""
        return State(tuple(self.marks), self.is_shifted, self.is_foreign)


class Stop(NamedTuple):
    """Where reading stopped, and why: at the end, or at a fault of some bytes, which may be the beginning of a code."""

    at: int
    size: int = 0
    is_cut: bool = False


class Parts(Generic[AnyStr]):
    """The parts of a text in order: what is known at once, and runs that the service converts."""

    def __init__(self, nothing: AnyStr) -> None:
        self._nothing: AnyStr = nothing
        self._pieces: List[AnyStr] = []
        self._places: List[Tuple[int, CodedSet, int]] = []

    def add(self, piece: AnyStr) -> None:
        """Adds what needs no conversion."""
        self._pieces.append(piece)

    def add_run(self, coded: CodedSet, count: int) -> None:
        """Adds the place of a run that is converted later, and how long that will be."""
        self._places.append((len(self._pieces), coded, count))
        self._pieces.append(self._nothing)

    def filled(self, converted: Dict[CodedSet, AnyStr]) -> AnyStr:
        """Returns the whole, from all runs of each set together."""
        used: Dict[CodedSet, int] = dict.fromkeys(converted, 0)
        for place, coded, count in self._places:
            at = used[coded]
            self._pieces[place] = converted[coded][at : at + count]
            used[coded] = at + count
        return self._nothing.join(self._pieces)


class TextParts(Parts[str]):
    """The parts of a text that is read."""

    def __init__(self) -> None:
        super().__init__("")
        self.runs: Dict[CodedSet, List[bytes]] = {}

    def add_codes(self, coded: CodedSet, codes: bytes) -> None:
        """Adds codes of a set."""
        self.runs.setdefault(coded, []).append(codes)
        self.add_run(coded, len(codes) // coded.width)


class ByteParts(Parts[bytes]):
    """The parts of a text that is written."""

    def __init__(self) -> None:
        super().__init__(b"")
        self.runs: Dict[CodedSet, List[str]] = {}

    def add_characters(self, coded: CodedSet, characters: str) -> None:
        """Adds characters of a set."""
        self.runs.setdefault(coded, []).append(characters)
        self.add_run(coded, len(characters) * coded.width)


class Framing:
    """How an encoding with escapes or shifts is read and written. Both change a state, and add parts."""

    def start(self) -> State:
        """Returns the state at the beginning of a text."""
        raise NotImplementedError

    def read(self, state: State, data: bytes, at: int, parts: TextParts) -> Stop:
        """Reads from `at` on, up to a fault or the end, but not much more than a window."""
        raise NotImplementedError

    def write(self, state: State, text: str, at: int, end: int, parts: ByteParts) -> Stop:
        """Writes from `at` on, up to a character that the encoding lacks or `end`, but not much more than a window."""
        raise NotImplementedError

    def held(self, text: str) -> int:
        """Returns how many characters at the end of a piece have to wait for the next one, with which they may have one code."""
        return 0

    def close(self, state: State) -> bytes:
        """Returns what ends a text that is written, and changes the state to that of ASCII."""
        raise NotImplementedError

    def restart(self, state: State) -> None:
        """Changes the state of a text that is read as a reset of CPython's decoder does."""
        raise NotImplementedError

    def number(self, state: State) -> int:
        """Returns the state as the number that CPython's codec keeps it in."""
        raise NotImplementedError

    def state_of(self, number: int) -> State:
        """Returns the state of such a number."""
        raise NotImplementedError
