"""haskumye tables: what a relay's tables hold."""

from __future__ import annotations

import argparse
import json

import haskumye

from .. import files, page
from ..arguments import clock
from ..command import Command, Example
from ..facts import facts
from ..failure import DONE


def add_arguments(parser: argparse.ArgumentParser) -> None:
    parser.add_argument("file", metavar="FILE", help="a saved file of any edition; - is standard input")
    parser.add_argument("--json", action="store_true", help="as JSON: times in seconds, addresses in hexadecimal")
    parser.add_argument("--clock", type=clock, metavar="SECONDS", help="the clock that it is told at; else the relay's last one")


def run(options: argparse.Namespace) -> int:
    relay: haskumye.Relay = files.load(options.file)
    told = facts(relay, relay.last_clock if options.clock is None else options.clock)
    if options.json:
        print(json.dumps(told, indent=2))
    else:
        print(*page.lines(told), sep="\n")
    return DONE


COMMAND = Command(
    name="tables",
    summary="tell what a relay's tables hold",
    description=(
        "Tells what stands in a saved file: ports, local addresses, paths with hops, next hop, port and expiry, links, receipts under way, and the tally.",
        "What expired stands there until another record takes its place. An expiry is told from the relay's last clock on, or from that of --clock.",
    ),
    add_arguments=add_arguments,
    run=run,
    examples=(
        Example("haskumye tables relay.saved", "the page of a relay"),
        Example("head -c 103108 state | haskumye tables -", "of a host's file that begins with a saved one"),
        Example("haskumye tables relay.saved --json | jq '.paths | length'", "how many paths it holds"),
    ),
)
