"""haskumye survey: what recordings come to, by port and by reason."""

from __future__ import annotations

import argparse

import haskumye

from .. import files, pictures
from ..command import Command, Example
from ..failure import DONE, REFUSED, refused_file
from ..progress import Progress
from ..sentences import say

LATE = haskumye.RECORDING_LIMIT  # the place of the 17th


def add_arguments(parser: argparse.ArgumentParser) -> None:
    parser.add_argument("settings", metavar="SETTINGS", help="the saved file of a relay, of which the settings count; - is standard input")
    parser.add_argument("recordings", metavar="RECORDING", nargs="+", help="recordings, up to 16, each replayed from fresh")
    pictures.add_arguments(parser, pictures.OF_A_SURVEY)


def run(options: argparse.Namespace) -> int:
    files.at_most_one_standard([options.settings, *options.recordings])
    drawings = pictures.asked_for(options, pictures.OF_A_SURVEY)
    survey = _begun(options.settings)
    refused = _surveyed(survey, options.recordings)
    text = survey.text()
    print(text, end="", flush=True)
    for sentence in refused:
        say(sentence)
    pictures.draw(drawings, text)
    return REFUSED if refused else DONE


def _begun(name: str) -> haskumye.Survey:
    try:
        return haskumye.Survey(files.read(name))
    except haskumye.Refused as refused:
        raise refused_file(name, refused, f"settings refused {refused.refusal.value}") from None


def _surveyed(survey: haskumye.Survey, names: list[str]) -> list[str]:
    """Adds the recordings, and gives a sentence for each that is refused. A 17th is not read, and ends it: the library says so."""
    sentences = []
    with Progress("recordings surveyed", len(names)) as progress:
        for place, name in enumerate(names[: LATE + 1]):
            progress.at(place)
            try:
                survey.add(files.read(name, haskumye.RECORDING_SIZE + 1) if place < LATE else b"")
            except haskumye.Refused as refused:
                sentences.append(refused_file(name, refused).sentence)
    return sentences


COMMAND = Command(
    name="survey",
    summary="count what recordings come to, by port and by reason, and draw it",
    description=(
        "Replays up to 16 recordings, each by a fresh relay with the settings of a saved file (own address, ports, announce rate and local addresses), and "
        "writes one text: `survey`, then a line for each recording that is refused, for each port and for each reason. A port's line has the packets that "
        "came in by it, their bytes, the bytes that left by it, and the share of the packets that was dropped.",
        "Settings that are refused have the only line, `settings refused` and the number. A refused recording has its line and counts for nothing else; the "
        "text tells the others, and the status is 1. A 17th is not read, refused by 29, and ends the reading.",
        "As every recording starts without paths, a day in several files has more drops by reason 6 than the day had: haskumye replay takes them in one "
        "piece. The picture is an SVG file, and needs matplotlib; its numbers are the text's.",
    ),
    add_arguments=add_arguments,
    run=run,
    examples=(
        Example("haskumye survey relay.saved site-*.recording", "which ports carry what, and why packets are lost"),
        Example("haskumye survey relay.saved site-*.recording --picture survey.svg", "the same as a picture too"),
        Example("haskumye survey relay.saved site-*.recording | grep -v ' 0/1$'", "without the ports that dropped nothing"),
    ),
)
