"""What ends a command early, and the status that it ends with."""

from __future__ import annotations

import haskumye

DONE = 0
REFUSED = 1  # by the library, or a text that is not as it must be
WRONG_USE = 2  # wrong arguments, or a file that cannot be read or written


class Failure(Exception):
    """A command that cannot go on: its status, the sentence for people, and what still belongs on standard output."""

    def __init__(self, status: int, sentence: str, result: str = "") -> None:
        super().__init__(sentence)
        self.status, self.sentence, self.result = status, sentence, result


def wrong_use(sentence: str) -> Failure:
    return Failure(WRONG_USE, sentence)


def refused_file(name: str, refused: haskumye.Refused, result: str = "") -> Failure:
    """A file that the library refuses, in its words."""
    return Failure(REFUSED, f"{told_name(name)}: {refused}", result)


def told_name(name: str) -> str:
    """A file's name in a sentence."""
    return "standard input" if name == "-" else name
