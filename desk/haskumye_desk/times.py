"""Seconds as people read them."""

from __future__ import annotations

MINUTE, HOUR, DAY = 60, 3600, 86400


def duration(seconds: int) -> str:
    """A number of seconds in its two greatest units: 6 d 23 h, 12 min 4 s."""
    parts = [(seconds // DAY, "d"), (seconds % DAY // HOUR, "h"), (seconds % HOUR // MINUTE, "min"), (seconds % MINUTE, "s")]
    first = next((place for place, (count, _) in enumerate(parts) if count), len(parts) - 1)
    return " ".join(f"{count} {unit}" for count, unit in parts[first : first + 2] if count or len(parts) == first + 1)


def time_of_day(clock: int) -> str:
    """The hour and minute of a clock's day: days are counted from clock 0."""
    return f"{clock % DAY // HOUR:02}:{clock % HOUR // MINUTE:02}"
