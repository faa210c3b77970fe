"""haskumye check: what files are, and whether the library takes them."""

from __future__ import annotations

import argparse

import haskumye

from .. import files
from ..command import Command, Example
from ..failure import DONE, REFUSED, told_name
from ..sentences import counted


def add_arguments(parser: argparse.ArgumentParser) -> None:
    parser.add_argument("files", metavar="FILE", nargs="+", help="recordings and saved files; - is standard input")


def told(data: bytes) -> str:
    """What a file is, asked of the library as the kind that the file says. Refused by it where it is not that, and where it says none."""
    heading = files.heading(data)
    if heading.kind == files.SAVED:
        relay = haskumye.Relay.load(data)
        return f"saved tables, edition {heading.edition}, last clock {relay.last_clock}"
    haskumye.check_recording(data)
    return f"recording, edition {heading.edition}, {counted(haskumye.recording_count(data), 'packet')}"


def run(options: argparse.Namespace) -> int:
    files.at_most_one_standard(options.files)
    status = DONE
    for name in options.files:
        try:
            what = told(files.read(name))
        except haskumye.Refused as refused:
            what, status = str(refused), REFUSED
        print(f"{told_name(name)}: {what}")
    return status


COMMAND = Command(
    name="check",
    summary="tell what files are, and whether they are whole",
    description=(
        "Tells of each file in a line whether it is a recording or saved tables, its edition, and how many packets it holds or the relay's last clock. Of a "
        "file that the library refuses the line has the refusal's number and words, and the status is 1.",
        "A file that says of itself that it is neither is refused as a recording.",
    ),
    add_arguments=add_arguments,
    run=run,
    examples=(
        Example("haskumye check relay.saved day-*.recording", "each of them in a line"),
        Example("haskumye check backup/* >/dev/null || echo damaged", "whether all are whole"),
    ),
)
