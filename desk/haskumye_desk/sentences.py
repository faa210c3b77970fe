"""Sentences for people, which go to standard error."""

from __future__ import annotations

import sys


def say(sentence: str) -> None:
    """Says a sentence, behind the results so far where both go to one terminal."""
    sys.stdout.flush()
    print(sentence, file=sys.stderr)


def counted(count: int, what: str) -> str:
    """1 packet, 2 packets."""
    return f"{count} {what}" if count == 1 else f"{count} {what}s"
