"""The form of GB18030: its charmap's, and the codes that are computed (see planes.py)."""

from __future__ import annotations

from typing import Dict

from .codes import Computed
from .scan import bits

_DIGITS = bits(0x30, 0x39)
_ROWS = bits(0x81, 0xFE)
_BODY = rb"[\x90-\xe2][0-9][\x81-\xfe][0-9]|\xe3(?:[01][\x81-\xfe][0-9]|2(?:[\x81-\x99][0-9]|\x9a[0-5]))"
_CUT = rb"[\x90-\xe2][0-9][\x81-\xfe]?|\xe3(?:[01][\x81-\xfe]?|2[\x81-\x9a]?)"


def _last_digits(prefix: object) -> int:
    """Returns the last bytes of computed codes after three bytes."""
    if not isinstance(prefix, bytes) or len(prefix) != 3:
        return 0
    if not (0x90 <= prefix[0] and 0x30 <= prefix[1] <= 0x39 and 0x81 <= prefix[2] <= 0xFE) or prefix > b"\xe3\x32\x9a":
        return 0
    return _DIGITS if prefix < b"\xe3\x32\x9a" else bits(0x30, 0x35)


class _LastBytes(Dict[bytes, int]):
    """The last bytes of a charmap's strings, and of computed codes."""

    def get(self, prefix: bytes, default: int = 0) -> int:  # type: ignore[override]
        return super().get(prefix, 0) or _last_digits(prefix) or default

    def __contains__(self, prefix: object) -> bool:
        return super().__contains__(prefix) or _last_digits(prefix) != 0


COMPUTED = Computed(
    span=(0x10000, 0x10FFFF),
    box=(bits(0x90, 0xE3), _DIGITS, _ROWS, _DIGITS),
    beginnings=frozenset(bytes((first, second)) for first in range(0x90, 0xE4) for second in range(0x30, 0x3A if first < 0xE3 else 0x33)),
    multiple=_BODY,
    cut=_CUT,
    last_bytes=_LastBytes,
)
