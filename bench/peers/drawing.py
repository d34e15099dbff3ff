"""Draws the charts of a run's figures as SVG. They have no background, and colours that differ from white and from black, so that they can
be read on light and on dark pages. Each library has a mark of its own, so colour alone tells nothing."""
from __future__ import annotations

import os

import matplotlib

matplotlib.use("svg")

from matplotlib import pyplot, ticker  # noqa: E402
from matplotlib.axes import Axes  # noqa: E402

from figures import Figure, Figures  # noqa: E402

INK = "#768390"
FAINT = 0.35
# The colour, the mark and the line of each library or server. Ours come first, and are drawn over the others.
STYLES = {
    "iconvd": ("#2f81f7", "o", "-"),
    "encoding_rs": ("#c9601c", "D", "-"),
    "simdutf": ("#2a9d6f", "^", "-"),
    "ICU": ("#a371d6", "s", "-"),
    "glibc": (INK, "X", "-"),
    "echo in C": (INK, "s", "--"),
    "Redis ECHO": ("#c9601c", "D", "-."),
}
SETTINGS = {
    "svg.fonttype": "none",
    "svg.hashsalt": "iconvd",
    "font.family": ["sans-serif"],
    "font.sans-serif": ["DejaVu Sans"],
    "font.size": 10,
    "text.color": INK,
    "axes.labelcolor": INK,
    "axes.edgecolor": INK,
    "axes.axisbelow": True,
    "axes.grid": True,
    "grid.color": INK,
    "grid.alpha": FAINT,
    "grid.linewidth": 0.6,
    "xtick.color": INK,
    "ytick.color": INK,
    "axes.spines.top": False,
    "axes.spines.right": False,
}
ROW_HEIGHT = 0.46
# The part of a row that the marks of all libraries share, each at a height of its own, so that none covers another.
SPREAD = 0.74
LINE_HEIGHT = 12.5
TEXTS = {"ascii": "ASCII", "latin": "Latin", "cyrillic": "Cyrillic", "cjk": "CJK", "hangul": "Hangul"}
SIZES = {64: "64 bytes", 65536: "64 KiB"}


def rate_text(value: float) -> str:
    """Megabytes a second, in at most three digits."""
    return f"{value / 1000:.1f}" if value >= 1000 else f"{value / 1000:.2f}"


def short(value: float) -> str:
    """A number of requests in thousands or millions."""
    return f"{value / 1e6:g} M" if value >= 1e6 else f"{value / 1e3:g} k"


def names_of(found: list[Figure]) -> list[str]:
    return [name for name in STYLES if any(figure.by == name for figure in found)]


def title_text(what: str) -> str:
    """A conversion and its text, as `UTF-8 to UTF-16LE, ASCII`."""
    pair, text = what.rsplit(", ", 1)
    return f"{pair}, {TEXTS.get(text, text)}"


def sign(figure: pyplot.Figure, figures: Figures) -> None:
    """Writes below the panels which build was measured, on which machine, and when."""
    facts = dict(figures.facts)
    said = f"iconvd at commit {facts['commit']}, {facts['build']}; {facts['machine']}; {facts['date']}"
    figure.text(0.5, 0.06 / figure.get_figheight(), said, ha="center", va="bottom", fontsize=8.5, color=INK)


def mark(axes: Axes, name: str, at: list[float], rows: list[float]) -> None:
    colour, shape, _ = STYLES[name]
    ours = name == next(iter(STYLES))
    axes.plot(at, rows, shape, color=colour, markersize=6 if ours else 5, markerfacecolor=colour if ours else "none", markeredgewidth=1.4,
              label=name, zorder=3 if ours else 2, clip_on=False)


def conversions_panel(axes: Axes, found: list[Figure], titles: list[str], size: int) -> None:
    """A row for each conversion, with a mark for each library's gigabytes a second, and ours as a number at the end."""
    place = {title: len(titles) - 1 - at for at, title in enumerate(titles)}
    names = names_of(found)
    for lane, name in reversed(list(enumerate(names))):
        own = [figure for figure in found if figure.by == name and figure.bytes == size]
        moved = SPREAD * (0.5 - lane / max(len(names) - 1, 1))
        mark(axes, name, [figure.value / 1000 for figure in own], [place[figure.what] + moved for figure in own])
    for row in range(len(titles) - 1):
        axes.axhline(row + 0.5, color=INK, alpha=FAINT, linewidth=0.6)
    for figure in found:
        if figure.by == next(iter(STYLES)) and figure.bytes == size:
            axes.text(1.01, place[figure.what], rate_text(figure.value), transform=axes.get_yaxis_transform(), va="center",
                      color=STYLES[figure.by][0], fontweight="bold")
    axes.set_xscale("log")
    axes.xaxis.set_major_formatter(ticker.FuncFormatter(lambda value, _: f"{value:g}"))
    axes.set_ylim(-0.6, len(titles) - 0.4)
    axes.set_yticks([place[title] for title in titles], list(map(title_text, titles)))
    axes.grid(axis="y", visible=False)
    axes.tick_params(axis="y", length=0)
    axes.minorticks_off()
    axes.spines["left"].set_visible(False)
    axes.set_title(f"calls of {SIZES[size]}", loc="left", fontsize=11)
    axes.set_xlabel("GB of input a second, logarithmic")


def conversions(figures: Figures, path: str) -> None:
    found = figures.of("conversions")
    titles = list(dict.fromkeys(figure.what for figure in found))
    height = ROW_HEIGHT * len(titles) + 1.6
    figure, panels = pyplot.subplots(1, len(SIZES), sharey=True, figsize=(10.4, height))
    for axes, size in zip(panels, SIZES):
        conversions_panel(axes, found, titles, size)
    handles, labels = panels[0].get_legend_handles_labels()
    figure.legend(handles[::-1], labels[::-1], loc="upper center", ncol=len(labels), frameon=False, labelcolor=INK)
    figure.subplots_adjust(left=0.235, right=0.955, top=1 - 0.72 / height, bottom=0.7 / height, wspace=0.17)
    sign(figure, figures)
    figure.savefig(path, transparent=True, metadata={"Date": None, "Title": "Conversions in gigabytes a second, by library"})
    pyplot.close(figure)


def name_ends(axes: Axes, ends: dict[str, tuple[float, float]]) -> None:
    """Writes each line's name at its end, moved up if it would cover the one below."""
    lowest = float("-inf")
    for name, end in sorted(ends.items(), key=lambda item: item[1][1]):
        height = axes.transData.transform(end)[1] * 72 / axes.figure.dpi
        moved = max(height, lowest)
        lowest = moved + LINE_HEIGHT
        axes.annotate(name, end, xytext=(9, moved - height), textcoords="offset points", va="center", color=STYLES[name][0], annotation_clip=False)


def requests_panel(axes: Axes, found: list[Figure], size: int) -> None:
    """A line for each server, with its name at the end."""
    ends = {}
    for name in reversed(names_of(found)):
        own = sorted((figure.depth, figure.value) for figure in found if figure.by == name and figure.bytes == size)
        colour, shape, line = STYLES[name]
        ours = name == next(iter(STYLES))
        # The others' marks are larger and hollow, so that ours is seen inside them.
        axes.plot(*zip(*own), marker=shape, linestyle=line, color=colour, linewidth=1.6, markersize=5 if ours else 9,
                  markerfacecolor=colour if ours else "none", markeredgewidth=1.4)
        ends[name] = own[-1]
    depths = sorted({figure.depth for figure in found if figure.bytes == size})
    axes.set_xscale("log", base=4)
    axes.set_yscale("log")
    axes.set_xticks(depths, list(map(str, depths)))
    axes.yaxis.set_major_locator(ticker.LogLocator(subs=(1, 2, 5) if size > 64 else (1,)))
    axes.yaxis.set_major_formatter(ticker.FuncFormatter(lambda value, _: short(value)))
    axes.yaxis.set_minor_formatter(ticker.NullFormatter())
    axes.minorticks_off()
    name_ends(axes, ends)
    axes.set_title(f"requests of {SIZES[size]} a second", loc="left", fontsize=11)
    axes.set_xlabel("requests in flight (both axes are logarithmic)")


def requests(figures: Figures, path: str) -> None:
    found = figures.of("requests")
    figure, panels = pyplot.subplots(1, len(SIZES), figsize=(10.4, 4.2))
    for axes, size in zip(panels, SIZES):
        requests_panel(axes, found, size)
    figure.subplots_adjust(left=0.06, right=0.905, top=0.915, bottom=0.19, wspace=0.4)
    sign(figure, figures)
    figure.savefig(path, transparent=True, metadata={"Date": None, "Title": "Requests a second by requests in flight, by server"})
    pyplot.close(figure)


def draw(figures: Figures, folder: str) -> list[str]:
    """Draws the charts for which there are figures, and returns their files."""
    written = []
    with pyplot.rc_context(SETTINGS):
        for name, drawn in (("conversions", conversions), ("requests", requests)):
            if figures.of(name):
                written.append(os.path.join(folder, f"{name}.svg"))
                drawn(figures, written[-1])
    return written
