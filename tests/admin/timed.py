"""Whether the time of a CONV is counted."""

from __future__ import annotations

import time
from typing import Callable, Iterator, Tuple

Result = Tuple[str, bool]


def timed(converts: Callable[[], bool], metrics: Callable[[], bytes]) -> Iterator[Result]:
    """The CONV of the first stream is in the histogram. A client sees its reply a moment before it is counted."""
    yield "the first stream converts", converts()
    answer = metrics()
    for _try in range(50):
        if b"\niconvd_conv_duration_seconds_count 1\n" in answer:
            break
        time.sleep(0.1)
        answer = metrics()
    yield f"its CONV is timed: {answer!r}", b"\niconvd_conv_duration_seconds_count 1\n" in answer
