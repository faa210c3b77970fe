"""What a subcommand is made of."""

from __future__ import annotations

import argparse
from typing import Any, Callable, Dict, NamedTuple, Tuple


class Argument(NamedTuple):
    """An argument, as a parser takes it."""

    names: Tuple[str, ...]
    settings: Dict[str, Any]


class Example(NamedTuple):
    """A line for a shell, and what it is for."""

    line: str
    purpose: str


class Command(NamedTuple):
    """A subcommand: its name, a line about it, all of it in paragraphs, its arguments, what it does, which gives the status, and examples."""

    name: str
    summary: str
    description: Tuple[str, ...]
    add_arguments: Callable[[argparse.ArgumentParser], None]
    run: Callable[[argparse.Namespace], int]
    examples: Tuple[Example, ...]
