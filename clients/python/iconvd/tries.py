"""Tries to reach a lost server: how many, and the pauses between them."""

from __future__ import annotations

import math
from typing import Optional

from .errors import NotReached, NotStarted, ServerBusy, ServerLost, TimedOut

#: The seconds before the first try on a new stream, and the most before any other. Each pause is twice the one before it.
FIRST_PAUSE = 0.05
LONGEST_PAUSE = 1.0
#: How often requests that a lost server may have read are sent again.
MORE_TRIES = 2


class Tries:
    """The tries of one call."""

    def __init__(self, limit: Optional[float], has_stream: bool) -> None:
        """`limit` is how many seconds a server that accepts no stream is tried, or None. If `has_stream` is true, the call begins
        on a stream that was kept from an earlier one. That is replaced at once, since a server ends idle streams."""
        self._limit = math.inf if limit is None else limit
        self._until: Optional[float] = None
        self._left = MORE_TRIES
        self._pause = 0.0 if has_stream else FIRST_PAUSE

    def pause(self, fault: ServerLost, now: float, was_served: bool) -> Optional[float]:
        """Returns the seconds to wait before the next try, or None if there is none. `was_served` says that the server has
        answered this client before: then a server that can't be reached is expected to come back within the time limit."""
        if isinstance(fault, (NotStarted, TimedOut)):
            return None
        if self._until is None:
            self._until = now + self._limit
        is_awaited = isinstance(fault, ServerBusy) or (was_served and isinstance(fault, NotReached))
        if now >= self._until or not (is_awaited or self._left):
            return None
        if not is_awaited:
            self._left -= 1
        pause = min(self._pause, self._until - now)
        self._pause = min(max(2 * self._pause, FIRST_PAUSE), LONGEST_PAUSE)
        return pause


def concerns_all(fault: ServerLost) -> bool:
    """Whether calls that waited for their turn meanwhile would get the same fault."""
    return isinstance(fault, (TimedOut, NotReached, ServerBusy))


def again(fault: ServerLost) -> ServerLost:
    """Returns the same fault for another waiting call."""
    return type(fault)(str(fault))
