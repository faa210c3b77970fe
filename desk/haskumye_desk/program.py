"""The program `haskumye`: its arguments, and how it ends."""

from __future__ import annotations

import argparse
import os
import signal
import sys
import textwrap
from typing import NoReturn, Optional, Sequence

import haskumye

from . import commands
from .command import Argument, Command
from .failure import WRONG_USE, Failure, wrong_use
from .sentences import say

NAME = "haskumye"
ABOUT = "one command for a relay's files"
STATUS = "0 done; 1 refused, by the library or for what a text says; 2 wrong use, or a file that can't be read or written."
WIDTH = 78  # of what is told on a terminal
STOPPED = 128  # and the signal's number

HELP = Argument(("-h", "--help"), {"action": "help", "help": "tell this, and end"})
VERSION = Argument(
    ("--version",),
    {
        "action": "version",
        "version": f"interface {haskumye.VERSION}, tables of {haskumye.TABLE_SIZE} bytes",
        "help": "tell the library's interface and its tables' size, and end",
    },
)


class Parser(argparse.ArgumentParser):
    """A parser that says in one line what is wrong."""

    def error(self, message: str) -> NoReturn:
        self.exit(WRONG_USE, f"{self.prog}: {message}; {self.prog} --help tells more\n")


def make_parser() -> argparse.ArgumentParser:
    parser = Parser(NAME, description=f"Haskumye's desk: {ABOUT}.", epilog=f"status: {STATUS}", add_help=False, allow_abbrev=False)
    for argument in (HELP, VERSION):
        parser.add_argument(*argument.names, **argument.settings)
    places = parser.add_subparsers(title="commands", metavar="COMMAND", required=True)
    for command in commands.ALL:
        made = places.add_parser(
            command.name,
            help=command.summary,
            description="\n\n".join(textwrap.fill(paragraph, WIDTH) for paragraph in command.description),
            epilog=_epilog(command),
            formatter_class=argparse.RawDescriptionHelpFormatter,
            add_help=False,
            allow_abbrev=False,
        )
        made.add_argument(*HELP.names, **HELP.settings)
        command.add_arguments(made)
        made.set_defaults(run=command.run, command=command.name)
    return parser


def _epilog(command: Command) -> str:
    examples = (f"  {example.line}\n      {example.purpose}" for example in command.examples)
    return "\n".join(["examples:", *examples, "", textwrap.fill(f"status: {STATUS}", WIDTH)])


def _stop(number: int, _frame: object) -> None:
    sys.exit(STOPPED + number)


def main(words: Optional[Sequence[str]] = None) -> int:
    """Runs a command line, and gives its status."""
    for number in (signal.SIGINT, signal.SIGTERM, signal.SIGHUP):
        signal.signal(number, _stop)
    options = make_parser().parse_args(words)
    try:
        return _run(options)
    except BrokenPipeError:  # whoever read the results has seen enough
        _abandon_output()
        return STOPPED + signal.SIGPIPE
    except OSError as error:
        _abandon_output()
        return _told(options, wrong_use(str(error) if error.filename else f"cannot write standard output: {error.strerror}"))


def _run(options: argparse.Namespace) -> int:
    try:
        status = options.run(options)
    except Failure as failure:
        if failure.result:
            print(failure.result)
        status = _told(options, failure)
    sys.stdout.flush()
    return status


def _told(options: argparse.Namespace, failure: Failure) -> int:
    say(f"{NAME} {options.command}: {failure.sentence}")
    return failure.status


def _abandon_output() -> None:
    """What could not be written is not tried again at the end."""
    os.dup2(os.open(os.devnull, os.O_WRONLY), sys.stdout.fileno())
