"""How far a long work is, for someone who waits at a terminal."""

from __future__ import annotations

import sys
import time
from typing import Callable, TextIO

from .sentences import say

PATIENCE = 2.0  # seconds without a word
PAUSE = 0.2  # seconds between two


class Progress:
    """A line on standard error that is written over, and is gone at the end. It is for a terminal alone, and only where the results go elsewhere: on the
    same terminal they tell how far the work is."""

    def __init__(self, what: str, total: int, stream: TextIO = sys.stderr, now: Callable[[], float] = time.monotonic) -> None:
        self._what, self._total, self._stream, self._now = what, total, stream, now
        self._shows = stream.isatty() and not sys.stdout.isatty()
        self._next = now() + PATIENCE
        self._width = 0

    def __enter__(self) -> Progress:
        return self

    def __exit__(self, *_: object) -> None:
        self._put("")

    def at(self, done: int) -> None:
        """So much of the total is done."""
        if self._shows and self._now() >= self._next:
            self._next = self._now() + PAUSE
            self._put(f"{self._what}: {done} of {self._total}")

    def say(self, sentence: str) -> None:
        """A sentence that stays, with the line out of its way."""
        self._put("")
        say(sentence)

    def _put(self, text: str) -> None:
        if text or self._width:
            self._stream.write("\r" + text.ljust(self._width) + ("" if text else "\r"))
            self._stream.flush()
            self._width = len(text)
