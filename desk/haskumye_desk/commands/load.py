"""haskumye load: a saved file as this library takes it."""

from __future__ import annotations

import argparse

from .. import files
from ..command import Command, Example
from ..failure import DONE


def add_arguments(parser: argparse.ArgumentParser) -> None:
    parser.add_argument("file", metavar="FILE", help="a saved file of any edition; - is standard input")
    parser.add_argument("--save", metavar="NEW", help="write the relay to this file, in the newest edition; - is standard output")


def run(options: argparse.Namespace) -> int:
    data = files.read(options.file)
    relay = files.relay_of(options.file, data, "refused {}")
    saved = relay.save()
    if options.save is not None:
        files.write(options.save, saved)
    if options.save != files.STANDARD:
        print(f"edition {files.heading(data).edition}, saved as edition {files.heading(saved).edition}, last clock {relay.last_clock}")
    return DONE


COMMAND = Command(
    name="load",
    summary="load a saved file of any edition, and save it in the newest",
    description=(
        "Loads a saved file as a relay would, and tells its edition, the edition that this library saves, and the relay's last clock. A file that is refused "
        "gives the line `refused` and the number, and the words on standard error.",
        "--save writes the relay as this library saves it, for boxes whose files are of an older edition.",
    ),
    add_arguments=add_arguments,
    run=run,
    examples=(
        Example("haskumye load relay.saved", "whether this library takes the file"),
        Example("haskumye load old.saved --save new.saved", "the same relay in the newest edition"),
    ),
)
