"""The pictures of a replay, and of a survey. One more is a module that draws what `gathered` counts or `surveyed` reads, and its line here."""

from __future__ import annotations

import argparse
from typing import Any, Callable, NamedTuple, Sequence

from .. import files, gathered, surveyed
from ..failure import wrong_use
from ..progress import Progress
from . import canvas, day, drops, port_bytes, survey


class Picture(NamedTuple):
    """A picture: its option, what it shows, what is counted for it of a replay's events or read of a survey's text, and how that is drawn."""

    option: str
    shows: str
    gather: Callable[[Any], Any]
    draw: Callable[[Any], Any]


class Asked(NamedTuple):
    """A picture, and the file that it goes to."""

    picture: Picture
    name: str


OF_A_REPLAY = (
    Picture("picture", "the replayed day: time across, a row for each port, packets in, out and dropped by reason", gathered.day, day.draw),
    Picture("drops-picture", "drops by reason and hour", gathered.drops, drops.draw),
    Picture("bytes-picture", "bytes in and out by port", gathered.port_bytes, port_bytes.draw),
)
OF_A_SURVEY = (Picture("picture", "packets, bytes and the share dropped by port, and drops by reason", surveyed.read, survey.draw),)


def add_arguments(parser: argparse.ArgumentParser, offered: Sequence[Picture]) -> None:
    for picture in offered:
        parser.add_argument(f"--{picture.option}", metavar="FILE.svg", help=f"draw {picture.shows}")


def asked_for(options: argparse.Namespace, offered: Sequence[Picture]) -> list[Asked]:
    """The pictures that are asked for: what they need is there, or it is said before any work."""
    named = [(picture, getattr(options, picture.option.replace("-", "_"))) for picture in offered]
    asked = [Asked(picture, name) for picture, name in named if name is not None]
    for _, name in asked:
        if not name.endswith(".svg"):
            raise wrong_use(f"pictures are SVG: {name} does not end with .svg")
    if asked:
        canvas.require()
    return asked


def draw(asked: Sequence[Asked], source: Any) -> None:
    """Draws each picture of a replay's events or a survey's text, and writes its file."""
    with Progress("pictures drawn", len(asked)) as progress:
        for done, (picture, name) in enumerate(asked):
            progress.at(done)
            data = picture.gather(source)
            files.write(name, canvas.svg(picture.draw(data), data.lines()))
