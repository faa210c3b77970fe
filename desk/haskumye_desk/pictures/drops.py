"""The picture of drops: a row for each reason, a column for each hour."""

from __future__ import annotations

from typing import TYPE_CHECKING

from ..gathered import WORDS, Drops, drop_fate
from ..times import HOUR, duration
from .canvas import INK, figure, plain, put_title
from .clocks import put_times

if TYPE_CHECKING:
    from matplotlib.axes import Axes
    from matplotlib.figure import Figure

ROW, HEAD, FOOT = 0.34, 0.5, 0.35  # inches
LEFT, RIGHT = 0.24, 0.94  # of the width
DARK = 0.55  # of the greatest count: from there on numbers are white
MOST_NUMBERS = 30  # columns that numbers have room in


def draw(drops: Drops) -> Figure:
    rows = max(len(drops.dropped), 1)
    height = HEAD + rows * ROW + FOOT
    picture = figure(height)
    axes = picture.add_axes((LEFT, FOOT / height, RIGHT - LEFT, rows * ROW / height))
    counts = list(drops.dropped.values())
    greatest = max(map(max, counts), default=1)
    if counts:
        draw_cells(axes, drops, counts, greatest)
    for row, numbers in enumerate(counts):
        put_numbers(axes, drops, row, numbers, greatest)
    axes.set_yticks([row + 0.5 for row in range(len(counts))], [WORDS[drop_fate(reason)] for reason in drops.dropped])
    axes.invert_yaxis()
    plain(axes)
    put_times(axes, drops.spans)
    each = "hour" if drops.spans.width == HOUR else duration(drops.spans.width)
    put_title(picture, height, f"Packets dropped: by reason, counted every {each}" if counts else "No packet was dropped")
    return picture


def draw_cells(axes: Axes, drops: Drops, counts: list[list[int]], greatest: int) -> None:
    """A shade for each count; small ones are still told apart beside a great one."""
    from matplotlib.colors import PowerNorm

    edges, rows = drops.spans.edges, range(len(counts) + 1)
    shown = PowerNorm(0.5, vmin=0, vmax=greatest)
    axes.pcolormesh(edges, rows, counts, cmap="Oranges", norm=shown, edgecolors="white", linewidth=0.8).set_gid("drops")


def put_numbers(axes: Axes, drops: Drops, row: int, counts: list[int], greatest: int) -> None:
    """The numbers of a row, where there is room, and their sum at its end."""
    spans = drops.spans
    if spans.number <= MOST_NUMBERS:
        for edge, count in zip(spans.edges, counts):
            if count:
                colour = "white" if count > DARK * greatest else INK
                axes.text(edge + spans.width / 2, row + 0.5, str(count), ha="center", va="center", fontsize=8.5, color=colour)
    axes.text(1.01, row + 0.5, str(sum(counts)), transform=axes.get_yaxis_transform(), ha="left", va="center", fontweight="bold", color=INK)
