"""The picture of a replayed day: time across, a row for each port; up what came in by its fate, down what went out."""

from __future__ import annotations

from typing import TYPE_CHECKING

from ..gathered import WORDS, Day, Fate
from ..times import duration
from .canvas import INK, LOOKS, PALE, figure, plain, put_title
from .clocks import label, put_times

if TYPE_CHECKING:
    from matplotlib.axes import Axes
    from matplotlib.figure import Figure
    from matplotlib.patches import StepPatch

ROW, FOOT = 1.0, 0.3  # inches
LEFT, RIGHT = 0.1, 0.965  # of the width
COLUMNS, KEY, TITLE = 3, 0.2, 0.42  # of the key to the picture, and the inches of its lines and of what is above
NONE = float("nan")  # no shape is drawn there


def draw(day: Day) -> Figure:
    rows = max(len(day.ports), 1)
    head = TITLE + KEY * (len(day.fates) // COLUMNS + 1)
    height = head + rows * ROW + FOOT
    picture = figure(height)
    grid = picture.add_gridspec(rows, 1, left=LEFT, right=RIGHT, top=1 - head / height, bottom=FOOT / height, hspace=0)
    down, up = reach(day)
    for place, port in enumerate(day.ports):
        axes = picture.add_subplot(grid[place])
        axes.set_ylim(-down, up)
        draw_port(axes, day, port)
        if place < rows - 1:
            axes.set_xticklabels([])
    put_title(picture, height, heading(day))
    put_key(picture, day, height)
    return picture


def reach(day: Day) -> tuple[float, float]:
    """How far the rows reach down and up, with some air between them: all alike, so that they can be compared."""
    heights = [sum(counts) for port in day.ports for counts in zip(*(counts for key, counts in day.packets_in.items() if key[0] == port))]
    depths = [count for counts in day.packets_out.values() for count in counts]
    up, down = max(heights, default=1), max(depths, default=1)
    air = 0.08 * (up + down)
    return down + air, up + air


def draw_port(axes: Axes, day: Day, port: int) -> None:
    """A port's row. Each shape is called what it shows."""
    below = [0] * day.spans.number
    for fate in day.fates:
        counts = day.packets_in.get((port, fate))
        if counts is not None:
            draw_fate(axes, day, counts, below, fate).set_gid(f"port {port} in {fate}")
            below = [low + count for low, count in zip(below, counts)]
    out = [-count or NONE for count in day.packets_out[port]]
    axes.stairs(out, day.spans.edges, fill=True, facecolor=PALE, edgecolor=INK, linewidth=0.4).set_gid(f"port {port} out")
    axes.axhline(0, color=INK, linewidth=0.8)
    axes.text(-0.045, 0, f"port {port}", transform=axes.get_yaxis_transform(), ha="right", va="center", fontweight="bold", color=INK)
    plain(axes)
    put_times(axes, day.spans)
    put_counts(axes)


def draw_fate(axes: Axes, day: Day, counts: list[int], below: list[int], fate: Fate) -> StepPatch:
    """Packets of one fate, on top of those below."""
    look = LOOKS[fate]
    above = [low + count if count else NONE for low, count in zip(below, counts)]
    return axes.stairs(above, day.spans.edges, baseline=below, fill=True, facecolor=look.colour, hatch=look.hatch, edgecolor=INK, linewidth=0.4)


def put_counts(axes: Axes) -> None:
    """Counts at the side, downward too."""
    from matplotlib.ticker import MaxNLocator

    axes.yaxis.set_major_locator(MaxNLocator(nbins=4, integer=True))
    axes.yaxis.set_major_formatter(lambda count, _: f"{abs(count):.0f}")
    axes.tick_params(axis="y", labelsize=7)


def put_key(picture: Figure, day: Day, height: float) -> None:
    """What each shape means, with the day's numbers."""
    from matplotlib.patches import Patch

    keys = [Patch(facecolor=LOOKS[fate].colour, hatch=LOOKS[fate].hatch, edgecolor=INK, linewidth=0.5) for fate in day.fates]
    words = [f"{WORDS[fate]} ({day.total(fate)})" for fate in day.fates]
    keys.append(Patch(facecolor=PALE, edgecolor=INK, linewidth=0.5))
    words.append(f"went out, drawn downward ({sum(map(sum, day.packets_out.values()))})")
    picture.legend(
        keys,
        words,
        loc="upper left",
        bbox_to_anchor=(LEFT - 0.01, 1 - 0.34 / height),
        borderaxespad=0,
        ncol=COLUMNS,
        frameon=False,
        fontsize=8.5,
        handlelength=2.6,
        handleheight=1.1,
        columnspacing=1.6,
    )


def heading(day: Day) -> str:
    if not day.ports:
        return "A replay of no packets"
    first, last = (label(edge, day.spans) for edge in (day.spans.edges[0], day.spans.edges[-1]))
    return f"What the relay did with each packet: {first} to {last}, counted every {duration(day.spans.width)}".replace("\n", " ")
