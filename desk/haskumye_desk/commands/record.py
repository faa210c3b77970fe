"""haskumye record: a recording made of lines."""

from __future__ import annotations

import argparse
import sys
from typing import Iterator

import haskumye

from .. import files
from ..arguments import CLOCKS, is_number
from ..command import Command, Example
from ..failure import DONE, REFUSED, Failure, refused_file, told_name, wrong_use
from ..hexadecimal import packet_of
from ..sentences import counted, say

WORDS = {"0": False, "1": True}
PORTS = 256  # what an entry has room for; the core refuses those over 15


def add_arguments(parser: argparse.ArgumentParser) -> None:
    parser.add_argument("lines", metavar="LINES", nargs="?", default=files.STANDARD, help="a file of lines; else, or with -, standard input")
    parser.add_argument("-o", "--output", metavar="FILE", default=files.STANDARD, help="the recording; else, or with -, standard output")


def entry(line: str) -> haskumye.Recorded:
    """The packet of a line `clock port word hex`. ValueError says what is wrong with it."""
    words = line.split()
    if len(words) == 3:
        words.append("")  # a packet of no bytes
    if len(words) != 4:
        raise ValueError("not as: clock port word hex")
    clock, port, word, text = words
    if not is_number(clock, CLOCKS):
        raise ValueError(f"{clock!a} is no clock")
    if not is_number(port, PORTS):
        raise ValueError(f"{port!a} is no port")
    if word not in WORDS:
        raise ValueError(f"{word!a} is no signature word: 0 or 1")
    return haskumye.Recorded(int(clock), int(port), WORDS[word], packet_of(text))


def entries(name: str, text: str) -> Iterator[haskumye.Recorded]:
    """The packets of all lines; empty ones, and those that begin with #, are passed over."""
    for number, line in enumerate(text.splitlines(), 1):
        if line.strip() and not line.lstrip().startswith("#"):
            try:
                yield entry(line)
            except ValueError as wrong:
                raise Failure(REFUSED, f"{told_name(name)}, line {number}: {wrong}") from None


def run(options: argparse.Namespace) -> int:
    if options.output == files.STANDARD and sys.stdout.isatty():
        raise wrong_use("a recording is no text for a terminal: name a file with --output")
    recorded = list(entries(options.lines, files.read_text(options.lines)))
    try:
        data = haskumye.write_recording(recorded)
    except haskumye.Refused as refused:
        raise refused_file(options.lines, refused) from None
    files.write(options.output, data)
    if options.output != files.STANDARD:
        say(f"wrote {options.output}: {counted(len(recorded), 'packet')}, {len(data)} bytes")
    return DONE


COMMAND = Command(
    name="record",
    summary="make a recording of lines",
    description=(
        "Makes a recording of lines `clock port word hex`: the clock in seconds, the port, the host's word on the signature, 1 for good and else 0, and the "
        "packet in hexadecimal. Empty lines, and those that begin with #, are passed over.",
        f"A recording has at most {haskumye.RECORDING_SIZE} bytes, 4 and for each packet 13 and its own; more is refused by 20.",
    ),
    add_arguments=add_arguments,
    run=run,
    examples=(
        Example("haskumye record day.lines -o day.recording", "a recording of a file of lines"),
        Example("grep ' 3 ' day.lines | haskumye record >port-3.recording", "one of the lines that a filter lets by"),
    ),
)
