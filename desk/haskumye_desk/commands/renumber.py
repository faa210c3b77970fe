"""haskumye renumber: a saved file with its ports renumbered."""

from __future__ import annotations

import argparse
import re

import haskumye

from .. import files
from ..command import Command, Example
from ..failure import DONE, refused_file, wrong_use
from ..sentences import say


def port_map(text: str) -> dict[int, int]:
    """The ports that change, each with its new number."""
    pairs = re.fullmatch(r"\d{1,2}:\d{1,2}(,\d{1,2}:\d{1,2})*", text, re.ASCII)
    if pairs is None:
        raise argparse.ArgumentTypeError(f"{text!r} is no map: OLD:NEW for each port that changes, with commas between")
    changes = [(int(old), int(new)) for old, new in (pair.split(":") for pair in text.split(","))]
    numbers = dict(changes)
    if len(numbers) < len(changes) or max(numbers) >= haskumye.PORT_COUNT:
        raise argparse.ArgumentTypeError(f"{text!r} is no map: each OLD is another port, from 0 to {haskumye.PORT_COUNT - 1}")
    return numbers


def add_arguments(parser: argparse.ArgumentParser) -> None:
    parser.add_argument("tables", metavar="TABLES", help="a saved file; - is standard input")
    parser.add_argument("map", metavar="MAP", type=port_map, help="OLD:NEW for each port that changes, with commas between: 0:3,3:0")
    parser.add_argument("-o", "--output", metavar="FILE", help="the file to write; else TABLES.renumbered; - is standard output")


def run(options: argparse.Namespace) -> int:
    output = options.output
    if output is None:
        if options.tables == files.STANDARD:
            raise wrong_use("tables from standard input have no name: name a file with --output")
        output = f"{options.tables}.renumbered"
    relay = files.load(options.tables)
    try:
        relay.renumber([options.map.get(port, port) for port in range(haskumye.PORT_COUNT)])
    except haskumye.Refused as refused:
        raise refused_file("the map", refused) from None
    files.write(output, relay.save())
    if output != files.STANDARD:
        print(output)
        changes = ", ".join(f"{old} is now {new}" for old, new in options.map.items())
        say(f"wrote {output}: port {changes}")
    return DONE


COMMAND = Command(
    name="renumber",
    summary="write a saved file with its ports renumbered",
    description=(
        "Writes the relay of a saved file with other port numbers, and tells the new file's name; the old file stays. Paths, links and receipts under way go "
        "along, so that nothing is forgotten.",
        "The map names the ports that change; the others keep their numbers. One that is not one-to-one is refused by 8: where 0 becomes 3, port 3 needs a "
        "new number too.",
    ),
    add_arguments=add_arguments,
    run=run,
    examples=(
        Example("haskumye renumber relay.saved 0:3,3:0", "writes relay.saved.renumbered, where the wires of ports 0 and 3 are exchanged"),
        Example("haskumye renumber relay.saved 0:1,1:2,2:0 -o moved.saved", "three ports moved in a ring, to a file of another name"),
    ),
)
