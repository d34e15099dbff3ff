"""The bytes of characters that the server has converted. They are kept, so that short pieces of text cost no request."""

from __future__ import annotations

from codecs import charmap_encode
from typing import Any, Callable, Dict, Iterable, List, Optional

from .forms import Form


class Known:
    """Characters of an encoding with their bytes."""

    def __init__(self, form: Form) -> None:
        # The argument of charmap_encode.
        self._table: Any = {ord(form.mark): form.separator}

    def __len__(self) -> int:
        return len(self._table)

    def bytes_of(self, text: str) -> Optional[bytes]:
        """Returns the bytes of a text, or None if not all of its characters are known."""
        try:
            return charmap_encode(text, "strict", self._table)[0]
        except UnicodeEncodeError:
            return None

    def new_units(self, texts: Iterable[str]) -> List[str]:
        """Returns the unknown parts of some texts, as pieces that have the same bytes in any text."""
        return [character for character in sorted(set("".join(texts))) if ord(character) not in self._table]

    def add(self, units: Iterable[str], encoded: Iterable[bytes]) -> None:
        """Adds such pieces and their bytes."""
        self._table.update(zip(map(ord, units), encoded))


class KnownRuns(Known):
    """Characters of an encoding with shifts: runs of them that are shifted together. All others are ASCII and unchanged."""

    def __init__(self, form: Form) -> None:
        super().__init__(form)
        self._runs: Dict[str, str] = {}
        assert form.runs is not None, "the form of an encoding with shifts has them"
        self._pattern = form.runs
        self._replace: Callable[[Any], str] = lambda found: self._runs[found[0]]

    def __len__(self) -> int:
        return len(self._runs)

    def bytes_of(self, text: str) -> Optional[bytes]:
        try:
            return self._pattern.sub(self._replace, text).encode("ascii")
        except KeyError:
            return None

    def new_units(self, texts: Iterable[str]) -> List[str]:
        return sorted({run for text in texts for run in self._pattern.findall(text)} - self._runs.keys())

    def add(self, units: Iterable[str], encoded: Iterable[bytes]) -> None:
        self._runs.update(zip(units, (each.decode("ascii") for each in encoded)))


def known_of(form: Form) -> Known:
    """Returns what is known of an encoding at the start: its separator."""
    return KnownRuns(form) if form.runs is not None else Known(form)
