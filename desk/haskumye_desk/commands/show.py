"""haskumye show: packets, each as a line of words."""

from __future__ import annotations

import argparse
from typing import Iterator

import haskumye

from .. import files
from ..command import Command, Example
from ..failure import DONE, REFUSED, Failure, told_name, wrong_use
from ..hexadecimal import packet_of
from ..sentences import say


def add_arguments(parser: argparse.ArgumentParser) -> None:
    parser.add_argument("packets", metavar="PACKET", nargs="+", help="a packet in hexadecimal; - reads packets from standard input, one a line")


def packets(name: str) -> Iterator[bytes]:
    """The packets that an argument names."""
    if name != files.STANDARD:
        try:
            yield packet_of(name)
        except ValueError as wrong:
            raise wrong_use(str(wrong)) from None
        return
    for number, line in enumerate(files.read_text(name).splitlines(), 1):
        try:
            yield packet_of(line.strip())
        except ValueError as wrong:
            raise Failure(REFUSED, f"{told_name(name)}, line {number}: {wrong}") from None


def run(options: argparse.Namespace) -> int:
    files.at_most_one_standard(options.packets)
    status = DONE
    for packet in (packet for name in options.packets for packet in packets(name)):
        print(haskumye.line(packet))
        try:
            haskumye.read(packet, haskumye.LONGEST_PACKET)
        except haskumye.Refused as refused:
            status = REFUSED
            say(str(refused))
    return status


COMMAND = Command(
    name="show",
    summary="show packets, each as a line of words",
    description=(
        "Shows each packet in a line: its type, kinds, hops, addresses, context and the length of its payload. Of a packet that the library refuses to read "
        "the line is `refused` and the number, the words are on standard error, and the status is 1.",
    ),
    add_arguments=add_arguments,
    run=run,
    examples=(
        Example("haskumye show 00002a2a2a2a2a2a2a2a2a2a2a2a2a2a2a2a0034322070", "a packet from a log"),
        Example("awk '{ print $4 }' day.lines | haskumye show -", "each packet of a file of lines"),
    ),
)
