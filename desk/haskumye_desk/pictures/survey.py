"""The picture of a survey: for each port its packets, the dropped ones among them, and its bytes; below, the drops by reason."""

from __future__ import annotations

from typing import TYPE_CHECKING

from ..gathered import TAKEN, WORDS, drop_fate
from ..surveyed import PortCounts, Surveyed
from .canvas import INK, LOOKS, Look, figure, plain, put_title
from .port_bytes import BAR, draw_bars, put_ports

if TYPE_CHECKING:
    from matplotlib.axes import Axes
    from matplotlib.figure import Figure

PORT_ROW, REASON_ROW, HEAD, NOTE, KEY, BETWEEN, FOOT = 0.5, 0.3, 0.35, 0.2, 0.3, 0.3, 0.15  # inches
LEFT, MIDDLE, BELOW, RIGHT = 0.09, 0.6, 0.24, 0.93  # of the width
ROOM = 1.9  # behind the longest bar of packets, for its words: so many times the bar
DROPPED = Look("#ffffff", "\\\\\\\\")


def draw(survey: Surveyed) -> Figure:
    used, reasons = survey.used, survey.dropped
    ports_height, reasons_height = PORT_ROW * max(len(used), 1), REASON_ROW * max(len(reasons), 1)
    head = HEAD + (NOTE if survey.refused else 0) + (KEY if used else 0)
    height = head + ports_height + BETWEEN + reasons_height + FOOT
    picture = figure(height)
    put_title(picture, height, heading(survey))
    if survey.refused:
        picture.text(0.02, 1 - HEAD / height, note(survey), va="top", color=INK)
    low = 1 - (head + ports_height) / height
    packets = picture.add_axes((LEFT, low, MIDDLE - 0.03 - LEFT, ports_height / height))
    in_and_out = picture.add_axes((MIDDLE, low, RIGHT - MIDDLE, ports_height / height))
    drops = picture.add_axes((BELOW, FOOT / height, RIGHT - BELOW, reasons_height / height))
    if used:
        draw_packets(packets, used)
        draw_bars(in_and_out, survey.port_bytes)
        put_keys(packets, in_and_out)
    put_ports(packets, list(used))
    put_ports(in_and_out, list(used))
    in_and_out.set_yticks([])
    draw_reasons(drops, survey)
    return picture


def draw_packets(axes: Axes, used: dict[int, PortCounts]) -> None:
    """A bar for each port: first what was taken in, then what was dropped."""
    dropped = [counts.dropped for counts in used.values()]
    taken = [counts.packets - counts.dropped for counts in used.values()]
    for numbers, below, look, words in ((taken, [0] * len(taken), LOOKS[TAKEN], WORDS[TAKEN]), (dropped, taken, DROPPED, "dropped")):
        label = f"packets {words} ({sum(numbers):,})"
        bars = axes.barh(range(len(used)), numbers, 2 * BAR, below, color=look.colour, hatch=look.hatch, edgecolor=INK, linewidth=0.6, label=label)
        for port, bar in zip(used, bars):
            bar.set_gid(f"port {port} {words}")
    axes.bar_label(bars, [told(counts) for counts in used.values()], padding=4, fontsize=8.5, color=INK)
    axes.set_xlim(0, ROOM * max(max(counts.packets for counts in used.values()), 1))


def told(counts: PortCounts) -> str:
    """The dropped among a port's packets."""
    text = f"{counts.dropped:,} of {counts.packets:,} dropped"
    return f"{text} ({float(counts.share):.1%})" if counts.dropped else text


def put_keys(*all_axes: Axes) -> None:
    for axes in all_axes:
        axes.legend(loc="lower left", bbox_to_anchor=(0, 1), borderaxespad=0.3, ncol=2, frameon=False, fontsize=8.5, handlelength=2.4, columnspacing=1.4)


def draw_reasons(axes: Axes, survey: Surveyed) -> None:
    """A bar for each reason that packets were dropped for, in the order of the tests."""
    reasons = survey.dropped
    for row, (reason, count) in enumerate(reasons.items()):
        look = LOOKS[drop_fate(reason)]
        bars = axes.barh(row, count, 0.7, color=look.colour, hatch=look.hatch, edgecolor=INK, linewidth=0.6)
        axes.bar_label(bars, [f"{count:,}"], padding=4, fontsize=8.5, color=INK)
        bars[0].set_gid(f"reason {reason.value}")
    axes.set_yticks(range(len(reasons)), [WORDS[drop_fate(reason)] for reason in reasons])
    axes.set_ylim(max(len(reasons), 1) - 0.5, -0.5)
    axes.set_xticks([])
    plain(axes)


def heading(survey: Surveyed) -> str:
    packets, dropped = (sum(counts) for counts in zip(*((port.packets, port.dropped) for port in survey.ports.values())))
    return f"What the recordings come to: {packets:,} packets, {dropped:,} dropped" if packets else "A survey of no packets"


def note(survey: Surveyed) -> str:
    """What was not counted."""
    numbers = ", ".join(map(str, survey.refused))
    return f"refused, and not counted: {'recording' if len(survey.refused) == 1 else 'recordings'} {numbers}"
