"""Matplotlib, which draws: what is common to all pictures."""

from __future__ import annotations

import io
import sys
from typing import TYPE_CHECKING, NamedTuple, Sequence

from haskumye import Reason

from ..failure import wrong_use
from ..gathered import REFUSED, TAKEN, Fate, drop_fate

if TYPE_CHECKING:
    from matplotlib.axes import Axes
    from matplotlib.figure import Figure

INK, PALE = "#222222", "#e4e4e4"
WIDTH = 9.0  # inches

SETTINGS = {
    "font.family": "sans-serif",
    "font.size": 9,
    "axes.edgecolor": INK,
    "axes.linewidth": 0.6,
    "hatch.linewidth": 0.7,
    "svg.fonttype": "none",  # text stays text
    "svg.hashsalt": "haskumye",  # the same picture is the same file
}


class Look(NamedTuple):
    """A colour, and a hatch that tells it in black and white."""

    colour: str
    hatch: str = ""


# Hatches of lines alone: with dots a day's file was eight times as long.
LOOKS: dict[Fate, Look] = {
    TAKEN: Look("#8c8c8c"),
    REFUSED: Look("#ffffff", "xxxx"),
    drop_fate(Reason.NOT_OURS): Look("#ffffff", "||||"),
    drop_fate(Reason.DUPLICATE): Look("#56b4e9", "////"),
    drop_fate(Reason.BAD_FORM): Look("#f0e442", "xxxx"),
    drop_fate(Reason.OWN_ANNOUNCE): Look("#ffffff", "----"),
    drop_fate(Reason.TOO_MANY_HOPS): Look("#ffffff", "++++"),
    drop_fate(Reason.NO_WAY_ON): Look("#e69f00", "----"),
    drop_fate(Reason.ALREADY_KNOWN): Look("#56b4e9", "||||"),
    drop_fate(Reason.WRONG_SIDE): Look("#f0e442", "||||"),
    drop_fate(Reason.NOT_SIGNED): Look("#d55e00", "++++"),
    drop_fate(Reason.REPLAY): Look("#0072b2", "////"),
    drop_fate(Reason.NOT_BETTER): Look("#0072b2", "----"),
    drop_fate(Reason.PORT_OFF): Look("#009e73", "\\\\\\\\"),
    drop_fate(Reason.NO_ROOM): Look("#d55e00", "xxxx"),
    drop_fate(Reason.RATE_LIMITED): Look("#cc79a7", "\\\\\\\\"),
    drop_fate(Reason.TOO_LONG_FOR_PORT): Look("#009e73", "||||"),
}


def require() -> None:
    """Says what to install where matplotlib is missing."""
    try:
        import matplotlib  # noqa: F401
    except ImportError:
        raise wrong_use(
            f"pictures need matplotlib, which {sys.executable} does not have: install python3-matplotlib (Debian) for the system's Python, "
            f"or run {sys.executable} -m pip install matplotlib"
        ) from None


def figure(height: float) -> Figure:
    """An empty picture of the usual width."""
    import matplotlib
    from matplotlib.figure import Figure

    matplotlib.rcParams.update(SETTINGS)
    return Figure(figsize=(WIDTH, height), facecolor="white")


def put_title(picture: Figure, height: float, text: str) -> None:
    picture.text(0.02, 1 - 0.1 / height, text, va="top", fontsize=11, fontweight="bold", color=INK)


def plain(axes: Axes) -> None:
    """Axes without a frame."""
    for spine in axes.spines.values():
        spine.set_visible(False)
    axes.tick_params(length=0, colors=INK)


def svg(picture: Figure, lines: Sequence[str]) -> bytes:
    """The picture's file. Its numbers go along as its description, so that pictures can be compared by them."""
    buffer = io.BytesIO()
    picture.savefig(buffer, format="svg", metadata={"Date": None, "Creator": None, "Description": "\n".join(lines)})
    return buffer.getvalue()
