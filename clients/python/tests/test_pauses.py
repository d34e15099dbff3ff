"""How often a lost server is tried again, and after how long."""

from __future__ import annotations

import math
import unittest
from typing import List, Optional, Type

import support  # noqa: F401

from iconvd.errors import NotReached, NotStarted, ServerBusy, ServerLost, TimedOut
from iconvd.tries import Tries


class Pauses(unittest.TestCase):
    def pauses(self, fault: Type[ServerLost], limit: Optional[float], was_served: bool, has_stream: bool = False) -> List[float]:
        """Returns the pauses of a call whose every try ends by that fault at once."""
        tries, now, found = Tries(limit, has_stream), 5.0, []
        while len(found) < 50:
            pause = tries.pause(fault("a fault"), now, was_served)
            if pause is None:
                break
            found.append(round(pause, 6))
            now += pause
        return found

    def test_pauses(self) -> None:
        doubled = [0.05, 0.1, 0.2, 0.4, 0.8]
        rows = [
            ("sent again twice", ServerLost, 10, True, doubled[:2]),
            ("sent again twice by a new client", ServerLost, 10, False, doubled[:2]),
            ("full", ServerBusy, 5, False, [*doubled, 1, 1, 1, 0.45]),
            ("gone", NotReached, 3, True, [*doubled, 1, 0.45]),
            ("never there", NotReached, 10, False, doubled[:2]),
            ("a short limit", NotReached, 0.12, True, [0.05, 0.07]),
            ("silent", TimedOut, 10, True, []),
            ("no program", NotStarted, 10, True, []),
        ]
        for what, fault, limit, was_served, pauses in rows:
            self.assertEqual(self.pauses(fault, limit, was_served), pauses, what)

    def test_a_kept_stream_is_replaced_at_once(self) -> None:
        self.assertEqual(self.pauses(ServerLost, 10, True, has_stream=True), [0, 0.05])
        self.assertEqual(self.pauses(NotReached, 0.5, True, has_stream=True), [0, 0.05, 0.1, 0.2, 0.15])

    def test_without_a_limit(self) -> None:
        self.assertEqual(self.pauses(ServerBusy, None, False)[5:], [1.0] * 45)
        self.assertEqual(self.pauses(ServerBusy, math.inf, False)[5:], [1.0] * 45)


if __name__ == "__main__":
    unittest.main()
