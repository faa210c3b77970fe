"""Numbers among the arguments and in lines."""

from __future__ import annotations

import argparse

CLOCKS = 1 << 64  # what crosses to the library, which says whether it is below 2^40
DIGITS = 20  # of the greatest


def is_number(text: str, limit: int) -> bool:
    """Whether a text is a decimal number below a limit."""
    return text.isascii() and text.isdigit() and len(text) <= DIGITS and int(text) < limit


def clock(text: str) -> int:
    """A clock, in seconds."""
    if not is_number(text, CLOCKS):
        raise argparse.ArgumentTypeError(f"{text!a} is no clock: seconds, as a number")
    return int(text)
