"""haskumye opinion: a relay and its second opinion, side by side."""

from __future__ import annotations

import argparse

import haskumye

from .. import files
from ..command import Command, Example
from ..failure import DONE, REFUSED, Failure
from ..progress import Progress
from ..replaying import read_recordings
from ..second import Answers, Both, text
from ..sentences import counted, say

WIDTH = 31  # of a replay's line; one of a spread by many ports is wider


def add_arguments(parser: argparse.ArgumentParser) -> None:
    parser.add_argument("settings", metavar="SETTINGS", help="the saved file of a relay, of which the settings count; - is standard input")
    parser.add_argument("recording", metavar="RECORDING", help="the recording whose packets both are asked")


def run(options: argparse.Namespace) -> int:
    files.at_most_one_standard([options.settings, options.recording])
    (recording,) = read_recordings([options.recording])
    both = Both(files.load(options.settings, "settings refused {}"))
    say(f"{counted(both.listed, 'setting')} listed; the core's answers on the left, the second opinion's on the right")
    asked = []
    with Progress("packets asked", recording.packets) as progress:
        for number, recorded in enumerate(haskumye.entries(recording.data), 1):
            answers = both.packet(recorded)
            print(f"{f'{number} {text(answers.core)}':{WIDTH}} {text(answers.opinion)}")
            asked.append(answers)
            progress.at(number)
    return _sum_up(asked)


def _sum_up(asked: list[Answers]) -> int:
    in_time = [answers for answers in asked if not answers.is_asked_too_late]
    differing = [number for number, answers in enumerate(in_time, 1) if not answers.agree]
    if differing:
        raise Failure(REFUSED, f"packet {differing[0]} is answered otherwise by the second opinion")
    say(f"{counted(len(in_time), 'answer')} agreed, what leaves too")
    late = len(asked) - len(in_time)
    if late:
        say(f"{counted(late, 'packet')} came when {haskumye.LIST_LIMIT} calls were listed: the second opinion refuses them by 28")
    return DONE


COMMAND = Command(
    name="opinion",
    summary="ask a relay and its second opinion the same, side by side",
    description=(
        "Asks a fresh relay, and a second opinion of it, all packets of a recording, and writes a line for each: its number, the core's answer and the second "
        "opinion's. Both begin with the settings of a saved file: own address, ports, announce rate and local addresses.",
        "The second opinion is an engine without tables, which works out each answer from the list of the calls before; that both answer alike is proved. "
        "It says 6.2 where the core says 6.3. It lists 64 calls, the settings too, but for ports as a fresh relay has them; every later packet it refuses "
        "by 28, and the line shows that. Standard error tells how many answers agreed. Where one did not, its number is told, and the status is 1.",
    ),
    add_arguments=add_arguments,
    run=run,
    examples=(
        Example("haskumye opinion relay.saved hour.recording", "what both say to each packet"),
        Example("haskumye opinion relay.saved hour.recording >/dev/null", "only how many answers agreed"),
    ),
)
