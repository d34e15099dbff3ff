"""The regular expressions by which the bytes of an encoding are cut into characters and faults."""

from __future__ import annotations

from typing import NamedTuple


class Patterns(NamedTuple):
    """Regular expressions of the bytes of an encoding. None matches the separator, and each may be empty."""

    #: One byte that is a character by itself.
    single: bytes
    #: The first byte of a character of several bytes, and such a character.
    lead: bytes
    multiple: bytes
    #: A byte with which no character begins.
    never: bytes
    #: The bytes of a fault at the beginning of a character, or of a character that the end of the text cuts.
    bad: bytes
    #: A character that the end of the text cuts.
    cut: bytes
    #: What is taken for such a one at the end of the text, though no character may begin so.
    waiting: bytes = b""

    def good(self) -> bytes:
        """Returns the pattern of any number of characters, which skips those of one byte fastest."""
        single = self.single + b"*" if self.single else b""
        if not self.multiple:
            return single
        first = b"(?=%s)" % self.lead if self.lead else b""
        return b"%s(?:%s(?:%s)%s)*" % (single, first, self.multiple, single)
