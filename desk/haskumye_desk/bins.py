"""Clocks counted in equal spans of time."""

from __future__ import annotations

from typing import Iterable, NamedTuple

from .times import DAY, HOUR, MINUTE

WIDTHS = (
    *(1, 2, 5, 10, 15, 30),
    *(count * MINUTE for count in (1, 2, 5, 10, 15, 30)),
    *(count * HOUR for count in (1, 2, 3, 6, 12)),
    DAY,
)


class Bins(NamedTuple):
    """So many spans of one width, in seconds, from a start on that is a multiple of it."""

    start: int
    width: int
    number: int

    def place(self, clock: int) -> int:
        return (clock - self.start) // self.width

    @property
    def edges(self) -> list[int]:
        return [self.start + place * self.width for place in range(self.number + 1)]


def bins(clocks: Iterable[int], least: int, most: int) -> Bins:
    """The spans that these clocks lie in, as short as may be: each of them at least so wide, and at most so many."""
    known = list(clocks) or [0]
    first, last = min(known), max(known)
    width = next((width for width in WIDTHS if width >= least and last // width - first // width < most), 2 * DAY)
    while last // width - first // width >= most:
        width *= 2
    return Bins(first // width * width, width, last // width - first // width + 1)
