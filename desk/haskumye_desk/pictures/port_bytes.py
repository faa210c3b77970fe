"""The picture of bytes: for each port a bar of those that came in, and one of those that went out."""

from __future__ import annotations

from typing import TYPE_CHECKING

from ..gathered import TAKEN, PortBytes
from .canvas import INK, LOOKS, PALE, figure, plain, put_title

if TYPE_CHECKING:
    from matplotlib.axes import Axes
    from matplotlib.figure import Figure

ROW, HEAD, FOOT = 0.55, 0.8, 0.25  # inches
BAR = 0.36  # of a row


def draw(told: PortBytes) -> Figure:
    rows = max(len(told.bytes_in), 1)
    height = HEAD + rows * ROW + FOOT
    picture = figure(height)
    axes = picture.add_axes((0.09, FOOT / height, 0.82, rows * ROW / height))
    draw_bars(axes, told)
    put_ports(axes, list(told.bytes_in))
    put_title(picture, height, "Bytes by port" if told.bytes_in else "No packet came in or went out")
    if told.bytes_in:
        picture.legend(loc="upper left", bbox_to_anchor=(0.08, 1 - 0.3 / height), ncol=2, frameon=False, handlelength=2.4)
    return picture


def draw_bars(axes: Axes, told: PortBytes) -> None:
    """Both bars of each port, called what they show, in rows from above."""
    sides = ((told.bytes_in, "in", LOOKS[TAKEN].colour, "", -BAR / 2), (told.bytes_out, "out", PALE, "////", BAR / 2))
    for numbers, words, colour, hatch, aside in sides:
        places = [row + aside for row in range(len(numbers))]
        label = f"bytes {words} ({sum(numbers.values()):,})"
        bars = axes.barh(places, list(numbers.values()), BAR, color=colour, hatch=hatch, edgecolor=INK, linewidth=0.6, label=label)
        axes.bar_label(bars, [f"{count:,}" for count in numbers.values()], padding=4, fontsize=8.5, color=INK)
        for port, bar in zip(numbers, bars):
            bar.set_gid(f"port {port} {words}")


def put_ports(axes: Axes, ports: list[int]) -> None:
    """A row for each port, from above, and its name at the side."""
    axes.set_yticks(range(len(ports)), [f"port {port}" for port in ports], fontweight="bold")
    axes.set_ylim(max(len(ports), 1) - 0.5, -0.5)
    axes.set_xticks([])
    plain(axes)
