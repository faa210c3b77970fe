"""The time across a picture."""

from __future__ import annotations

from typing import TYPE_CHECKING

from ..bins import WIDTHS, Bins
from ..times import DAY, MINUTE, time_of_day
from .canvas import PALE

if TYPE_CHECKING:
    from matplotlib.axes import Axes

MOST_TICKS = 13
MOST_DAYS = 9999  # whose numbers have room


def ticks(spans: Bins) -> list[int]:
    """Round clocks within the spans, no more than there is room for."""
    first, last = spans.edges[0], spans.edges[-1]
    if last - first > MOST_DAYS * DAY:
        return [first, last]
    step = next((width for width in WIDTHS if (last - first) / width < MOST_TICKS), DAY)
    while (last - first) / step >= MOST_TICKS:
        step *= 2
    return list(range(-(-first // step) * step, last + 1, step))


def label(clock: int, spans: Bins) -> str:
    """The time of day, with the seconds where spans are short; where there are several days, which of them, counted from 1. The last may end at 24:00."""
    first, last = spans.edges[0] // DAY, (spans.edges[-1] - 1) // DAY
    day = min(clock // DAY, last)
    text = "24:00" if clock == (day + 1) * DAY else time_of_day(clock)
    if spans.width < MINUTE:
        text += f":{clock % MINUTE:02}"
    return text if first == last else f"{text}\nday {day - first + 1}"


def put_times(axes: Axes, spans: Bins) -> None:
    """Labels the axis of times, in the relay's clock."""
    places = ticks(spans)
    axes.set_xticks(places, [label(clock, spans) for clock in places])
    axes.set_xlim(spans.edges[0], spans.edges[-1])
    axes.grid(axis="x", color=PALE, linewidth=0.6)
    axes.set_axisbelow(True)
