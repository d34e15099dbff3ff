"""Counts what a client sends: bytes, and round trips."""

from __future__ import annotations

from contextlib import contextmanager
from encodings import aliases
from typing import Iterator, List, Sequence
from unittest import mock

import support  # noqa: F401

from iconvd import Client, names, repairs, supports, transport
from iconvd.frames import Reply, Request

#: The bounds: bytes sent at most 4 times the input and 64 KiB, and at most 8 round trips for each 64 KiB that are begun.
TIMES, PLUS, TRIPS, PIECE = 4, 65_536, 8, 65_536


class Meter:
    """What was sent since it was last read."""

    def __init__(self) -> None:
        self.sent = 0
        self.trips = 0

    def reset(self) -> None:
        """Begins to count again."""
        self.sent = self.trips = 0

    def excess(self, size: int) -> List[str]:
        """Says what an input of that size should not have cost."""
        most_bytes, most_trips = TIMES * size + PLUS, TRIPS * -(-size // PIECE)
        found = [f"{self.sent} bytes sent for {size}"] if self.sent > most_bytes else []
        return found + ([f"{self.trips} round trips for {size} bytes"] if self.trips > most_trips else [])


@contextmanager
def metered() -> Iterator[Meter]:
    """Counts what clients that are made meanwhile send."""
    meter = Meter()

    class MeteredStream(transport.Stream):
        def exchange(self, requests: Sequence[Request]) -> List[Reply]:
            meter.trips += 1
            meter.sent += sum(len(request.frame(0)) for request in requests)
            return super().exchange(requests)

    with mock.patch("iconvd.client.Stream", MeteredStream):
        yield meter


#: Characters of each coded set of the encodings with escapes and shifts, and codes of those that are only read.
OF_EACH_SET = "日丂가啊ｱ¥"
READ_ONLY = b"\x1b.A\x1bNi\x1b.F\x1bNa\x1b(J\\\x1b(B"


def use_each_set(client: Client, name: str) -> None:
    """Has the client upload the charmaps of all sets of an encoding with escapes or shifts, and open their descriptors."""
    if names.is_shifted(client.library.find(name)):
        client.decode(client.encode(OF_EACH_SET, name, "ignore"), name)
        client.decode(READ_ONLY, name, "ignore")


def every_form() -> List[str]:
    """Returns a name of each encoding but those with escapes or shifts that are made of coded sets."""
    return [name for name in every_encoding() if not names.is_shifted(names.find(name))]


def every_encoding() -> List[str]:
    """Returns a name of each encoding that the client knows, and of which something is sent."""
    every = [*reversed(list(names.table().exact)), *aliases.aliases.values(), *names.BUILTIN]
    named = {repairs.variant(names.find(name), name): name for name in every if supports(name)}
    return sorted(name for encoding, name in named.items() if not names.is_replaced(encoding))
