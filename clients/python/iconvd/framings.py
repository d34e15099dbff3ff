"""Which encodings have escapes or shifts, by the tables of `clients/names`, and how each is read and written."""

from __future__ import annotations

import functools
from typing import Callable, Dict, List, NamedTuple

from .coded_sets import CodedSet
from .designations import Designation
from .framing import Framing
from .hz import Hz
from .iso2022 import Iso2022
from .tables import read_rows

_PLACES = {"use": 0, "header": 1, "g1": 1, "g2": 2}
_NEVER = "-"
_HZ = "HZ"


class _Row(NamedTuple):
    """A sequence of an encoding."""

    sequence: str
    meaning: str
    set_name: str = ""
    c: str = _NEVER
    python: str = _NEVER


@functools.lru_cache(maxsize=None)
def _table() -> Dict[str, List[_Row]]:
    """Returns the rows of each encoding."""
    found: Dict[str, List[_Row]] = {}
    for encoding, *row in read_rows("shifted_encodings.tsv") + read_rows("shifted_composing_encodings.tsv"):
        found.setdefault(encoding, []).append(_Row(*row))
    return found


def framing(encoding: str, find: Callable[[str], CodedSet]) -> Framing:
    """Returns how an encoding is read and written. `find` returns the set of a name."""
    rows = _table()[encoding]
    used = [row for row in rows if row.meaning in _PLACES and row.python != _NEVER and row.set_name != "ASCII"]
    if encoding == _HZ:
        return Hz(lambda: find(used[0].set_name))
    designations = [
        Designation(
            bytes.fromhex(row.sequence), row.set_name, _PLACES[row.meaning], int(row.python) if row.python.isdigit() else None
        )
        for row in used
    ]
    return Iso2022(designations, any(row.meaning == "single" for row in rows), find)
