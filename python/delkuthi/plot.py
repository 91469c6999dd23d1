"""The picture in a file: SVG by ourselves, PNG and what else there is by matplotlib."""
from __future__ import annotations

from pathlib import Path
from typing import Any

from .svg import colour_of, short, svg
from .timeline import BROKEN, Scene


class PlotMissing(Exception):
    """matplotlib is needed and not there."""


def write_plot(picture: Scene, path: str) -> None:
    """Writes the picture; the ending of the name says in which format."""
    if Path(path).suffix.lower() == ".svg":
        Path(path).write_bytes(svg(picture).encode("utf-8", "backslashreplace"))
        return
    try:
        import matplotlib
    except ImportError:
        raise PlotMissing(f"{path}: a picture other than SVG needs matplotlib (Debian: python3-matplotlib)") from None
    matplotlib.use("Agg")
    from matplotlib.figure import Figure

    figure = Figure(figsize=(12, 1.6 + 0.32 * len(picture.lanes)), dpi=110, constrained_layout=True)
    axes = figure.subplots()
    _draw(axes, picture)
    try:
        figure.savefig(path)
    except ValueError as error:
        raise PlotMissing(f"{path}: {error}") from None


def _draw(axes: Any, picture: Scene) -> None:
    """The lanes from top to bottom, the shaded stretches, the marks."""
    for shade in picture.shades:
        end = picture.shown_end(shade)
        colour = BROKEN if shade.broken else colour_of(shade.row)
        alpha = 0.35 if shade.broken else 0.08 if shade.end is None else 0.22
        axes.broken_barh([(shade.begin, end - shade.begin)], (shade.lane - 0.38, 0.76), facecolors=colour, alpha=alpha)
    for lane, (_, times) in enumerate(picture.lanes):
        axes.vlines(times, lane - 0.3, lane + 0.3, colors="#111", linewidth=1.6 if len(times) < 150 else max(240 / len(times), 0.2))
        rings = [time for time in times if (lane, time) in picture.blamed]
        axes.plot(rings, [lane] * len(rings), "o", markersize=13, markerfacecolor="none", markeredgecolor=BROKEN, clip_on=False)
    for place, (time, _, label) in enumerate(picture.marks):
        axes.axvline(time, color=BROKEN, linestyle="--", linewidth=1.2)
        right = time > picture.begin + 0.7 * (picture.end - picture.begin)
        axes.annotate(label, (time, 1.0), xycoords=("data", "axes fraction"), xytext=(-4 if right else 4, 4 + 11 * place),
                      textcoords="offset points", ha="right" if right else "left", color=BROKEN, weight="bold", fontsize=8)
    axes.set_yticks(range(len(picture.lanes)), [short(name) for name, _ in picture.lanes])
    numbers, name = picture.axis()
    axes.set_xticks([time for time, _ in numbers], [number for _, number in numbers])
    axes.set_xlabel(f"{picture.caption}\n{name}" if picture.caption else name)
    axes.set_xlim(picture.begin, picture.end)
    axes.set_ylim(len(picture.lanes) - 0.5, -0.5)
    axes.grid(axis="x", color="#ddd", linewidth=0.6)
    axes.set_axisbelow(True)
    _legend(axes, picture)


def _legend(axes: Any, picture: Scene) -> None:
    """Which colour is which row."""
    from matplotlib.patches import Patch

    patches = [Patch(color=colour_of(row), alpha=0.4, label=short(picture.rows[row], 30)) for row in picture.shaded]
    if any(shade.broken for shade in picture.shades):
        patches.append(Patch(color=BROKEN, alpha=0.4, label="nothing came"))
    if patches:
        axes.legend(handles=patches, loc="upper center", bbox_to_anchor=(0.5, -0.6 / max(len(picture.lanes) * 0.32, 1)), ncols=5,
                    fontsize=7, frameon=False)
