"""A flight as a picture, with matplotlib: barogram, engine noise below it, and the track with its height by colour."""
from __future__ import annotations

import math
from typing import Any, List, Optional

from ._numpy import numpy
from .columns import NO_NUMBER, columns, layout
from .declaration import Declaration, Point, declaration
from .flight import Flight, checked
from .source import Source
from .summary import summary
from .track import Times, degrees, times, track

_NOISES = ("ENL", "MOP")
_HEIGHTS = "viridis"
_MANY = 20_000  # points from which a vector picture would be slow to show


def plot(source: Source, title: str = "") -> Any:
    """A flight as a matplotlib Figure; its savefig writes PNG, SVG or PDF, as the name says. Needs numpy and matplotlib.

    Barogram, engine noise where the B lines have the column ENL or MOP, and the track of the fixes marked A over the declared points. No window is opened and no global state is used.
    """
    from matplotlib.figure import Figure

    flight = checked(source)
    fixes = track(flight)
    told = times(fixes, flight.date)
    noises = [column.code for column in layout(flight) if column.code in _NOISES]
    figure = Figure(figsize=(14, 7.2), layout="constrained")
    columns_of = figure.add_gridspec(1, 2, width_ratios=[1.15, 1])
    left = columns_of[0].subgridspec(1 + len(noises), 1, height_ratios=[3.2] + [1] * len(noises), hspace=0.06)
    barogram = figure.add_subplot(left[0])
    _barogram(barogram, fixes, told)
    for n, code in enumerate(noises):
        axes = figure.add_subplot(left[n + 1], sharex=barogram)
        _noise(axes, told, columns(flight, [code])[code], code)
    for axes in figure.axes[:-1]:
        axes.tick_params(labelbottom=False)
    _clock(figure.axes[-1], flight)
    _map(figure, figure.add_subplot(columns_of[1]), fixes, declaration(flight))
    figure.suptitle(f"{title or f'Flight of {flight.date}'}\n{_in_short(flight)}", fontsize=12)
    return figure


def _in_short(flight: Flight) -> str:
    """The flight's summary in a line."""
    told = summary(flight)
    words = [f"fixes {told.fixes}"]
    if told.start and told.end:
        words += [f"{str(told.start)[11:19]} to {str(told.end)[11:19]} UTC", f"highest {told.highest} m, lowest {told.lowest} m"]
    return ", ".join([*words, "signed" if flight.signed else "not signed"])


def _barogram(axes: Any, fixes: Any, told: Times) -> None:
    """Both altitudes over the time."""
    axes.plot(told.when, fixes["gnss"], color="#e07b39", linewidth=0.9, label="GNSS", zorder=2)
    axes.plot(told.when, fixes["pressure"], color="#1f4e79", linewidth=1.3, label="pressure", zorder=3)
    if len(fixes):
        axes.fill_between(told.when, fixes["pressure"], min(0, int(fixes["pressure"].min())), color="#1f4e79", alpha=0.10, linewidth=0, zorder=1)
    axes.set_ylabel("altitude, m")
    axes.margins(x=0.01)
    if len(fixes) and told.when[0] == told.when[-1]:
        minute = numpy.timedelta64(1, "m")
        axes.set_xlim(told.when[0] - minute, told.when[0] + minute)
        axes.plot(told.when[:1], fixes["pressure"][:1], ".", color="#1f4e79")
    axes.grid(alpha=0.3)
    axes.legend(loc="lower left", bbox_to_anchor=(-0.01, 0.99), frameon=False, fontsize=9, ncol=2)


def _noise(axes: Any, told: Times, numbers: Any, code: str) -> None:
    """A column of noise over the same time; a text that is no number leaves a gap."""
    values = numpy.where(numbers == NO_NUMBER, math.nan, numbers.astype("f8"))
    axes.fill_between(told.when, values, 0, color="#8c2d2d", alpha=0.65, linewidth=0, step="mid")
    axes.set_ylim(0, 999)
    axes.set_yticks([0, 500, 999])
    axes.set_ylabel(code)
    axes.grid(alpha=0.3)


def _clock(axes: Any, flight: Flight) -> None:
    from matplotlib.dates import AutoDateLocator, ConciseDateFormatter

    ticks = AutoDateLocator(minticks=4, maxticks=9)
    axes.xaxis.set_major_locator(ticks)
    axes.xaxis.set_major_formatter(ConciseDateFormatter(ticks, show_offset=False))
    axes.set_xlabel(f"UTC, {flight.date}")


def _map(figure: Any, axes: Any, fixes: Any, told: Optional[Declaration]) -> None:
    """The track of the fixes marked A, coloured by pressure altitude, and the declared points below it."""
    placed = fixes[fixes["valid"] == b"A"]
    lat, lon = degrees(placed)
    points = [point for point in told.points if point.lat or point.lon] if told else []
    if points:
        _declared(axes, points)
    if len(placed):
        _coloured(figure, axes, lat, lon, placed["pressure"])
    middle = lat if len(placed) else numpy.array([point.lat for point in points] or [0.0])
    narrow = math.cos(math.radians(float(middle.min() + middle.max()) / 2))
    axes.set_aspect(1 / max(narrow, 0.05), adjustable="datalim")
    axes.margins(0.08)
    axes.autoscale_view()
    axes.xaxis.set_major_formatter(lambda value, _: _degrees(value, "E", "W"))
    axes.yaxis.set_major_formatter(lambda value, _: _degrees(value, "N", "S"))
    axes.locator_params(nbins=6)
    axes.grid(alpha=0.3)


def _coloured(figure: Any, axes: Any, lat: Any, lon: Any, heights: Any) -> None:
    """The track, a piece from each fix to the next; none across the 180th meridian."""
    from matplotlib.collections import LineCollection

    places = numpy.column_stack([lon, lat])
    pieces = numpy.stack([places[:-1], places[1:]], axis=1)
    near = numpy.abs(numpy.diff(lon)) < 180
    many = len(lat) > _MANY
    line = LineCollection(pieces[near], array=heights[1:][near], cmap=_HEIGHTS, linewidths=1.6, capstyle="round", rasterized=many, zorder=3)
    axes.add_collection(line)
    axes.update_datalim(places)
    axes.plot(lon[0], lat[0], "o", markerfacecolor="none", markeredgecolor="#2e8b57", markeredgewidth=2.2, markersize=12, zorder=5, label="first fix", linestyle="none")
    axes.plot(lon[-1], lat[-1], "s", color="#b22222", markeredgecolor="white", markersize=7, zorder=5, label="last fix", linestyle="none")
    axes.legend(loc="lower left", bbox_to_anchor=(-0.01, 0.995), frameon=False, fontsize=9, ncol=3)
    if near.any():
        figure.colorbar(line, ax=axes, label="pressure altitude, m", shrink=0.85, pad=0.02)


def _declared(axes: Any, points: List[Point]) -> None:
    """The declared points, from start to finish joined. Those at 0, 0 are not drawn: recorders write that for a point that is not given."""
    from matplotlib.patheffects import withStroke

    task = [point for point in points if point.role not in ("take-off", "landing")]
    axes.plot([point.lon for point in task], [point.lat for point in task], "--", color="#555555", linewidth=1.0, zorder=1, label="declared")
    middle = (min(point.lon for point in points) + max(point.lon for point in points)) / 2
    for at in sorted({(point.lon, point.lat) for point in points}):
        here = [point for point in points if (point.lon, point.lat) == at]
        roles = ", ".join(point.role for point in here)
        texts = ", ".join(dict.fromkeys(point.text.strip() for point in here if point.text.strip()))
        side = -1 if at[0] > middle else 1
        axes.plot(*at, "D", color="#555555", markersize=5, zorder=4)
        axes.annotate(
            f"{roles}\n{texts}", at, xytext=(9 * side, 0), textcoords="offset points", ha="left" if side > 0 else "right", va="center", fontsize=8, color="#222222",
            zorder=6, path_effects=[withStroke(linewidth=3, foreground="white", alpha=0.85)],
        )


def _degrees(value: float, above: str, below: str) -> str:
    """Degrees and minutes, as 51°30′N."""
    minutes = round(abs(value) * 60)
    return f"{minutes // 60}°{minutes % 60:02d}′{above if value >= 0 else below}"
