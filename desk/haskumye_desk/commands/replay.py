"""haskumye replay: what a relay made of recorded packets."""

from __future__ import annotations

import argparse
import sys
from typing import Iterator

import haskumye

from .. import files, pictures
from ..command import Command, Example
from ..failure import DONE
from ..progress import Progress
from ..replaying import Event, Recording, read_recordings, replay, sentence
from ..sentences import counted


def add_arguments(parser: argparse.ArgumentParser) -> None:
    parser.add_argument("tables", metavar="TABLES", help="the saved file that the recordings began with; - is standard input")
    parser.add_argument("recordings", metavar="RECORDING", nargs="+", help="recordings, replayed one after another")
    parser.add_argument("--why", action="store_true", help="put a sentence for people behind each line")
    parser.add_argument("--save", metavar="FILE", help="write the tables after it to this saved file")
    pictures.add_arguments(parser, pictures.OF_A_REPLAY)


def run(options: argparse.Namespace) -> int:
    files.at_most_one_standard([options.tables, *options.recordings])
    drawings = pictures.asked_for(options, pictures.OF_A_REPLAY)
    recordings = read_recordings(options.recordings)
    relay = files.load(options.tables, "tables refused {}")
    events = []
    for event in _replayed(relay, recordings):
        print(f"{event.replayed.line}: {sentence(event.replayed)}" if options.why else event.replayed.line)
        events.append(event)
    sys.stdout.flush()
    if options.save is not None:
        files.write(options.save, relay.save())
    pictures.draw(drawings, events)
    return DONE


def _replayed(relay: haskumye.Relay, recordings: list[Recording]) -> Iterator[Event]:
    """All events; where there are several recordings, standard error says which one the lines are of."""
    done = 0
    with Progress("packets replayed", sum(recording.packets for recording in recordings)) as progress:
        for recording in recordings:
            if len(recordings) > 1:
                progress.say(f"{recording.name}: {counted(recording.packets, 'packet')}")
            for event in replay(relay, recording):
                yield event
                done += 1
                progress.at(done)


COMMAND = Command(
    name="replay",
    summary="replay recordings over a relay's tables, line by line, and draw them",
    description=(
        "Replays recordings, one after another, over the relay of a saved file, and writes a line for each packet: its number in its recording, and the "
        "answer. An entry that the core refuses has its line too. All files are read before the first packet is judged: where a recording is refused the "
        "only line is `refused` and the number, where the tables are, `tables refused` and the number.",
        "--why puts a sentence behind each line. The pictures are SVG files, and need matplotlib.",
    ),
    add_arguments=add_arguments,
    run=run,
    examples=(
        Example("haskumye replay relay.saved day.recording --why | grep 'drop 6'", "which packets had no way on, and why"),
        Example("haskumye replay relay.saved day-*.recording --save evening.saved", "the relay as it was in the evening"),
        Example("haskumye replay relay.saved day-*.recording --picture day.svg >lines", "the day as a picture"),
    ),
)
