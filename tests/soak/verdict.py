"""Judges the figures: whether memory and times stayed level, at any speed of the machine, and what the metrics show."""

from __future__ import annotations

from statistics import median
from typing import List, Sequence, Tuple

from probes import Window
from scrape import Sample, Scraper

#: The last third's memory may exceed the middle third's by a tenth and this, since threads have caches of their own.
MEMORY_SLACK = 8 << 20
#: The ratio of a request's time to the echo's may grow by this factor from the first third to the last. Steady growth would pass any factor.
TIME_FACTOR = 3.0


def _thirds(windows: Sequence[Window]) -> List[Sequence[Window]]:
    third = len(windows) // 3
    return [windows[:third], windows[third : 2 * third], windows[2 * third :]]


def memory_level(windows: Sequence[Window]) -> Tuple[bool, str]:
    """Whether memory stopped growing."""
    _, middle, last = (max(window.memory for window in third) for third in _thirds(windows))
    return last <= 1.1 * middle + MEMORY_SLACK, f"{middle / 1e6:.1f} MB in the middle third, {last / 1e6:.1f} MB in the last"


def times_level(windows: Sequence[Window]) -> Tuple[bool, str]:
    """Whether the 99th percentile of requests, divided by that of the echo at the same times, stayed level."""
    first, _, last = (median(window.p99 / max(window.echo_p99, 1.0) for window in third) for third in _thirds(windows))
    return last <= TIME_FACTOR * max(first, 1.0), f"p99 is {first:.2f} times the echo's in the first third, {last:.2f} in the last"


def scraped(scraper: Scraper) -> Tuple[bool, str, str]:
    """Whether a serving server returned its metrics most times. On a busy machine a page may take longer than its two seconds."""
    count, failed = len(scraper.samples), len(scraper.failures)
    return count > failed, "the metrics are to be had", f"{count} times, and {failed} times not {scraper.failures[:3]}"


def bounded(samples: Sequence[Sample]) -> Tuple[bool, str, str]:
    """Whether streams held no more than their limit."""
    holds = all(sample.stream_memory <= sample.limit for sample in samples)
    most = max((sample.stream_memory for sample in samples), default=0)
    limit = max((sample.limit for sample in samples), default=0)
    return holds, "streams hold no more than they may", f"{most / 1e6:.1f} MB of {limit / 1e6:.1f} MB"
