"""Draws streams, memory, times and requests over the run, and when servers drained."""

from __future__ import annotations

from typing import Any, Sequence, Tuple

from probes import WINDOW, Window
from scrape import Sample


def draw(windows: Sequence[Window], samples: Sequence[Sample], drains: Sequence[Tuple[float, float]], path: str, title: str) -> bool:
    """Writes an SVG file. Times are in seconds since the start. False: there is no matplotlib."""
    try:
        import matplotlib  # type: ignore[import]
    except ImportError:
        return False
    matplotlib.use("svg")
    matplotlib.rcParams.update({"svg.fonttype": "none", "svg.hashsalt": "iconvd", "font.size": 9})
    from matplotlib import pyplot

    figure, (streams, memory, times, requests) = pyplot.subplots(4, 1, sharex=True, figsize=(8, 9), layout="constrained")
    figure.suptitle(title, fontsize=10)
    seconds = [sample.at / 60 for sample in samples]
    streams.plot(seconds, [sample.streams for sample in samples], color="#1f77b4", linewidth=1)
    streams.set_ylabel("streams")
    memory.plot(seconds, [sample.memory / 1e6 for sample in samples], color="#1f77b4", linewidth=1, label="of the servers (RSS)")
    memory.plot(seconds, [sample.stream_memory / 1e6 for sample in samples], color="#ff7f0e", linewidth=1, label="of streams (metrics)")
    memory.set_ylabel("memory, MB")
    memory.legend(loc="upper right", ncol=2, fontsize=8, frameon=False)
    memory.set_ylim(top=memory.get_ylim()[1] * 1.25)
    _draw_times(times, windows)
    requests.plot(seconds, [sample.requests for sample in samples], color="#2ca02c", linewidth=1, label="answered (metrics)")
    counts = [window.replies for window in windows]
    rates = [(now - before) / WINDOW for before, now in zip([0] + counts, counts)]
    requests.plot([window.at / 60 for window in windows], rates, color="#7f7f7f", linewidth=1, label="replies compared")
    requests.set_ylabel("requests a second")
    requests.legend(loc="upper right", ncol=2, fontsize=8, frameon=False)
    requests.set_ylim(top=requests.get_ylim()[1] * 1.25)
    requests.set_xlabel("minutes (grey: a server drains, and the next one serves)")
    for axes in (streams, memory, times, requests):
        axes.spines[["top", "right"]].set_visible(False)
        axes.grid(axis="y", color="#dddddd", linewidth=0.6)
        if axes is not times:
            axes.set_ylim(bottom=0)
        for begin, end in drains:
            axes.axvspan(begin / 60, end / 60, color="#cccccc", linewidth=0)
    figure.savefig(path, metadata={"Date": None})
    return True


def _draw_times(axes: Any, windows: Sequence[Window]) -> None:
    """The times of a small request, and of an echo."""
    minutes = [window.at / 60 for window in windows]
    for name, color, style, figures in (
        ("p99", "#d62728", "-", [window.p99 for window in windows]),
        ("p50", "#1f77b4", "-", [window.p50 for window in windows]),
        ("p99 of an echo", "#d62728", ":", [window.echo_p99 for window in windows]),
        ("p50 of an echo", "#1f77b4", ":", [window.echo_p50 for window in windows]),
    ):
        axes.plot(minutes, figures, style, color=color, label=name, linewidth=1)
    axes.set_yscale("log")
    axes.set_ylabel("CONV of 64 bytes, µs")
    axes.legend(loc="upper right", ncol=4, fontsize=8, frameon=False)
    axes.set_ylim(top=axes.get_ylim()[1] * 4)
