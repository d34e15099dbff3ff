"""Draws the panels of the dashboard in their grid, in Grafana's layout."""

from __future__ import annotations

import json
import re
import urllib.parse
import urllib.request
from typing import Any, Dict, List, NamedTuple, Tuple

from panels import panels

#: Inches of a column of the grid, of which there are 24, and of a row.
WIDTH, HEIGHT = 0.85, 0.45
_UNITS = {"bytes": ("B", 1), "Bps": ("B/s", 1), "s": ("s", 1), "reqps": (" req/s", 0), "cps": (" c/s", 0), "percentunit": ("%", 0), "none": ("", 0)}

Series = Tuple[str, List[float], List[float]]


class Source(NamedTuple):
    """A Prometheus and the time range."""

    port: int
    begin: float
    end: float
    scrape: int

    def ask(self, expression: str, legend: str) -> List[Series]:
        """The series of an expression, by their legends: minutes and values."""
        for variable, value in (("$instance", ".*"), ("$__rate_interval", f"{4 * self.scrape}s"), ("${datasource}", "")):
            expression = expression.replace(variable, value)
        asked = urllib.parse.urlencode({"query": expression, "start": self.begin, "end": self.end, "step": self.scrape})
        with urllib.request.urlopen(f"http://127.0.0.1:{self.port}/api/v1/query_range?{asked}") as answer:
            found = json.load(answer)["data"]["result"]
        series = []
        for one in found:
            name = legend
            for label, value in one["metric"].items():
                name = name.replace("{{" + label + "}}", value)
            series.append((name, [(at - self.begin) / 60 for at, _ in one["values"]], [float(value) for _, value in one["values"]]))
        return series


def shown(value: float, unit: str) -> str:
    """A value, about as Grafana writes it."""
    suffix, is_scaled = _UNITS[unit]
    if unit == "percentunit":
        return f"{100 * value:.3g}%"
    if not is_scaled:
        return f"{value:.4g}{suffix}"
    base, steps = (1, ("", "m", "µ", "n")) if unit == "s" else (1024, ("", "Ki", "Mi", "Gi"))
    for step in steps:
        if (unit == "s" and value >= 1) or (unit != "s" and value < base) or value == 0 or step == steps[-1]:
            return f"{value:.3g} {step}{suffix}"
        value = value * 1000 if unit == "s" else value / 1024
    return ""


def _stat(axes: Any, panel: Dict[str, Any], series: List[Series]) -> None:
    """The last value, in the colour of its threshold."""
    axes.axis("off")
    if not series:
        axes.text(0.5, 0.5, "No data", ha="center", va="center", fontsize=14)
        return
    value = series[0][2][-1]
    if (decimals := panel["fieldConfig"]["defaults"].get("decimals")) is not None:
        value = round(value, decimals)
    color = "black"
    for step in panel["fieldConfig"]["defaults"].get("thresholds", {}).get("steps", []):
        if step["value"] is None or value >= step["value"]:
            color = step["color"]
    axes.text(0.5, 0.5, shown(value, panel["fieldConfig"]["defaults"]["unit"]), ha="center", va="center", fontsize=22, color=color)


def _lines(axes: Any, panel: Dict[str, Any], series: List[Series]) -> None:
    unit = panel["fieldConfig"]["defaults"]["unit"]
    dashed = [override["matcher"]["options"].strip("/") for override in panel["fieldConfig"]["overrides"]]
    for name, minutes, values in series:
        style = "--" if any(re.search(pattern, name) for pattern in dashed) else "-"
        axes.plot(minutes, values, style, linewidth=1, label=name or "(no legend)")
    if panel["fieldConfig"]["defaults"]["custom"].get("scaleDistribution", {}).get("type") == "log":
        axes.set_yscale("log")
    else:
        axes.set_ylim(bottom=0, top=panel["fieldConfig"]["defaults"].get("max"))
    axes.yaxis.set_major_formatter(lambda value, _place: shown(value, unit))
    axes.grid(color="#dddddd", linewidth=0.6)
    axes.tick_params(labelsize=7)
    axes.spines[["top", "right"]].set_visible(False)
    if series:
        axes.legend(loc="upper center", bbox_to_anchor=(0.5, -0.12), ncol=4, fontsize=7, frameon=False)
    else:
        axes.text(0.5, 0.5, "No data", transform=axes.transAxes, ha="center", va="center", fontsize=14)


def draw(text: str, source: Source, path: str) -> List[str]:
    """Writes the picture. Returns the titles of panels without data."""
    import matplotlib  # type: ignore[import]

    matplotlib.use("agg")
    from matplotlib import pyplot

    found = panels(text)
    rows = max(panel["gridPos"]["y"] + panel["gridPos"]["h"] for panel in found)
    figure = pyplot.figure(figsize=(24 * WIDTH, rows * HEIGHT), dpi=80)
    empty = []
    for panel in found:
        place = panel["gridPos"]
        left, top = place["x"] / 24, 1 - place["y"] / rows
        if panel["type"] == "row":
            figure.text(0.005, top - 0.5 / rows, panel["title"], fontsize=12, weight="bold", va="center")
            continue
        width, height = place["w"] / 24, place["h"] / rows
        # Room for the title above, and for the legend below.
        axes = figure.add_axes((left + 0.035, top - 0.72 * height, width - 0.045, 0.55 * height))
        axes.set_title(panel["title"], fontsize=9)
        series = [one for target in panel["targets"] for one in source.ask(target["expr"], target["legendFormat"])]
        if not series or all(value != value for _, _, values in series for value in values):
            empty.append(panel["title"])
        (_stat if panel["type"] == "stat" else _lines)(axes, panel, series)
    figure.savefig(path)
    return empty
