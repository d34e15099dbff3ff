"""The escapes of an encoding of ISO 2022, and the sets that they designate."""

from __future__ import annotations

from typing import NamedTuple, Optional

#: CPython's mark of ASCII: the last byte of its escape.
ASCII = ord("B")
#: The bit that marks a set of two bytes.
TWO_BYTES = 0x80
ESC, SO, SI, LF = 0x1B, 0x0E, 0x0F, 0x0A


class Designation(NamedTuple):
    """An escape, and the set that it designates."""

    escape: bytes
    set_name: str
    #: As which of G0, G1 and G2.
    place: int
    #: The order in which sets are tried for a character that is written, or None if the set is only read.
    order: Optional[int]

    @property
    def mark(self) -> int:
        """CPython's mark of the set."""
        return self.escape[-1] | (TWO_BYTES if self.escape[1:2] == b"$" else 0)
